"""What the scripts of tests/ share: the repository's root, running programs, building Rust packages, the days, and the summary lines."""
import argparse
import os
import shutil
import subprocess
import sys
from pathlib import Path

ROOT = Path(__file__).resolve().parent.parent
DAYS = ROOT / "tests/days"
# The library that programs link, and the header.
LIBRARY = Path(os.environ.get("SUMPHERON_LIBRARY") or ROOT / "dist/lib").resolve() / "libsumpheron.a"
HEADER = ROOT / "include/sumpheron.h"
# Where Cargo builds the packages of the workspace, and the programs that it writes there.
TARGET = ROOT / "target/cargo"
SECOND, GENERATE, TIES, FRACTIONS = (TARGET / "release" / name for name in ("second", "generate", "ties", "fractions"))


def check(good, fault):
    if not good:
        raise AssertionError(fault)


def run(command, text=b"", seconds=20, **options):
    """Runs a program that must end in time; returns its status and output."""
    try:
        return subprocess.run(command, input=text, capture_output=True, timeout=seconds, **options)
    except subprocess.TimeoutExpired:
        raise AssertionError(f"not done after {seconds} s") from None


def succeed(command, **options):
    """Runs a command that must succeed; returns what it prints."""
    done = run(command, **options)
    said = (done.stdout + done.stderr).decode("utf-8", "replace")
    check(done.returncode == 0, f"{command[0]} has status {done.returncode}\n{said[-4000:]}")
    return done.stdout.decode()


def output(command, text, seconds):
    """What a program prints, and the reason if it failed."""
    try:
        done = run(command, text, seconds)
    except AssertionError as fault:
        return None, str(fault)
    return done.stdout, f"status {done.returncode}" if done.returncode else None


def missing(*tools):
    """Which of these commands, and the library, are missing."""
    found = [f"{tool} is not installed" for tool in tools if not shutil.which(tool)]
    return found if LIBRARY.exists() else [*found, f"{LIBRARY} is missing: bin/library writes it"]


def cargo(words, folder, target=TARGET):
    """A Cargo command on the package in a folder, without the network."""
    return ["cargo", *words, "--offline", "--quiet", "--manifest-path", folder / "Cargo.toml", "--target-dir", target]


def build(*packages):
    """Builds packages of tests/ to be run."""
    for package in packages:
        if subprocess.run(cargo(["build", "--release"], ROOT / "tests" / package)).returncode:
            sys.exit(f"tests/{package} does not build")


def named_days():
    """The name, the input and the expected output of each day of tests/days."""
    for path in sorted(DAYS.glob("*.in")):
        printed = path.with_suffix(".out")
        if printed.exists():
            yield path.stem, path.read_bytes(), printed.read_bytes()


def generated_day(seed):
    return subprocess.run([GENERATE, str(seed)], capture_output=True, check=True).stdout


def first_difference(ours, theirs):
    """The first line in which two outputs differ, as a text."""
    left, right = (text.decode("latin-1").split("\n") for text in (ours, theirs))
    for number, (mine, other) in enumerate(zip(left, right), 1):
        if mine != other:
            return f"line {number}: '{mine[:200]}' and not '{other[:200]}'"
    return f"{len(left) - 1} lines and not {len(right) - 1}"


def arguments(about, flag):
    """Parses a command line: a flag, and names."""
    parser = argparse.ArgumentParser(description=about.splitlines()[0])
    parser.add_argument(flag, action="store_true")
    parser.add_argument("names", nargs="*", metavar="NAME")
    return parser.parse_args()


def conclude(wrong, summary, failed=0):
    """Prints the faults and a summary, and returns the exit status. `failed` counts faults that were printed before."""
    print("\n".join([*wrong, summary]))
    return 1 if wrong or failed else 0
