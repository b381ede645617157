#!/usr/bin/env python3
"""Compares the counts of the parts of the gate with the floors of tests/floors.txt.

    tests/floors.py

A part of the gate calls `faults` with all its counts. A count below its floor is a fault; so is a floor that is far below its count, a
floor without a count, and a count without a floor. `faults` records the part in target/floors.held, which the gate removes before the
comparisons begin. It runs this command last: it fails if a part that has floors is not recorded there.
"""
import sys
from functools import lru_cache

from common import ROOT, conclude

FLOORS = ROOT / "tests/floors.txt"
HELD = ROOT / "target/floors.held"
# The headings of the file, with whether a count must equal its floor.
HEADINGS = {"exactly": True, "at least": False}


@lru_cache(None)
def floors():
    """The floors of each part: for each name, whether they are exact, and the numbers."""
    found, exact = {}, None
    for line in FLOORS.read_text().splitlines():
        name, *numbers = line.partition("#")[0].split() or [""]
        if line in HEADINGS:
            exact = HEADINGS[line]
        elif name:
            part, _, counted = name.partition(".")
            if counted in found.setdefault(part, {}):
                sys.exit(f"tests/floors.txt has {name} twice")
            found[part][counted] = exact, [int(number.replace(",", "")) for number in numbers]
    return found


def risen(count, exact):
    """What the floor of a count should be: the count, or its first two digits."""
    return count if exact else count // (size := 10 ** max(len(str(count)) - 2, 0)) * size


def fault(count, floor, exact):
    """What is wrong with a floor, or None."""
    if count < floor:
        return f"{count:,} is below the floor of {floor:,}"
    if count > floor and (exact or 10 * floor < 9 * count):
        return f"{count:,}, and the floor is still {floor:,}: raise it to {risen(count, exact):,}"
    return None


def row_faults(name, counts, exact, numbers):
    """What is wrong with the floors of one name."""
    if len(counts) != len(numbers):
        return [f"{name}: {len(counts)} counts and {len(numbers)} floors"]
    places = [f" ({place} of {len(counts)})" if len(counts) > 1 else "" for place in range(1, len(counts) + 1)]
    found = [fault(count, floor, exact) for count, floor in zip(counts, numbers)]
    return [f"{name}{place}: {why}" for place, why in zip(places, found) if why]


def faults(part, counted):
    """What is wrong with the floors of a part of the gate. Its counts are given by name, each a number or a row of numbers."""
    HELD.parent.mkdir(exist_ok=True)
    with HELD.open("a") as held:
        held.write(f"{part}\n")
    wrong, known = [], floors().get(part, {})
    for name, counts in counted.items():
        counts = [counts] if isinstance(counts, int) else list(counts)
        if name in known:
            wrong += row_faults(f"{part}.{name}", counts, *known[name])
        else:
            wrong.append(f"tests/floors.txt has no floor of {part}.{name}: {' '.join(map(str, counts))}")
    return wrong + [f"{part}.{name}: nothing was counted, and it has a floor" for name in known if name not in counted]


def main():
    held = set(HELD.read_text().split()) if HELD.exists() else set()
    wrong = [f"{part}: it has floors, and no part of the gate held them" for part in floors() if part not in held]
    return conclude(wrong, f"floors: of {len(floors())} parts, {len(wrong)} not held")


if __name__ == "__main__":
    sys.exit(main())
