"""Finds which theorems of a crate are statements, and which of them a check refused. Used by tests/trying.py, tests/counts, tests/promises and tests/wrong-rules/run.

A *law* is the theorem that proofs/ gives for a field of a record Laws or Demands of the crate's specs/, by itself or applied, as
`part_put` in `λ i new xs f. part_put i new xs f.places`. A theorem is *in words* where its type cites a definition of specs/Words of
forms, band, rules, calls, book or tape, of Changes, LimitPauses or TotalsWords of rules, `Decides`, which ties a test to words, or a definition of
proofs/ that does. Local definitions of one name in one file count as one.
"""
import re
from pathlib import Path

from common import ROOT

WORDS = [f"crates/{file}.antt" for file in ("forms/specs/Words", "band/specs/Words", "rules/specs/Words", "rules/specs/Changes", "rules/specs/LimitPauses", "rules/specs/TotalsWords", "calls/specs/Words", "book/specs/Words", "tape/specs/Words")]
DECLARED = re.compile(r"^ *(?:(?:abbrev|unfoldable) )?(?:pub )?(record |data )?([^\s(){}:]+)((?: [({][^)}]*[)}])*) :(?: (.*))?$")

# A refused declaration of an antt file, or those that depend on one.
REFUSED = re.compile(
    r"^(?:\./)?(.+?\.antt):\d+:\d+: error: (?:(?:in )?`(\S+)`: .*"
    r"|\d+ declarations? that depends? on `(\S+)`, which was (?:rejected|not admitted), (?:was|were) not checked: (.*))$",
    re.M,
)
# The names that such a line lists, and whether it lists them all.
DEPENDS = re.compile(r"([^\s,()]+)(?: \(via ([^\s()]+)\))?(?=,|$)")
MORE = re.compile(r" and \d+ more$")


def text_of(path):
    """The text of a file without its comments; empty if the file does not exist."""
    return re.sub(r"--.*", "", path.read_text()) if path.exists() else ""


def declarations(path):
    """What a file declares: its name, and the text of its type; of a record, a data type and an abbreviation all of it."""
    found, deeper = {}, None
    for line in text_of(path).splitlines():
        indent = len(line) - len(line.lstrip())
        begins = DECLARED.match(line)
        if deeper and line.strip() and (indent > deeper[0] or deeper[2] and line.split()[:1] == [deeper[1]]):
            found[deeper[1]] += "\n" + line
        elif begins:
            whole = bool(begins[1]) or "abbrev" in line.split()
            deeper = (indent, begins[2], whole)
            found[begins[2]] = found.get(begins[2], "") + "\n" + begins[3] + " " + (begins[4] or "")
        elif line.strip():
            deeper = None
    return found


def bodies(path):
    """What a file declares: its name, and all of its text."""
    found, name = {}, None
    for line in text_of(path).splitlines():
        begins = DECLARED.match(line)
        name = begins[2] if begins else name
        if name:
            found[name] = found.get(name, "") + "\n" + line
    return found


def tokens(text):
    return set(re.split(r"[\s(){},.;]+", text))


def laws(crate):
    """The theorems that prove the crate's laws: a field, a file's stem and a name."""
    found = set()
    for spec in (ROOT / "crates" / crate / "specs").glob("*.antt"):
        for record, body in re.findall(r"^pub record (Laws|Demands) .*\n((?:[ \t].*\n|\n)*)", text_of(spec), re.M):
            proof = text_of(ROOT / "crates" / crate / "proofs" / f"{record}.antt")
            given = dict(re.findall(r"^  (\S+) = (?:λ [^.]*\. )?([^\s;]+)", proof, re.M))
            where = {name.split(" as ")[-1]: file for file, names in re.findall(r"^use \S*\.(\w+)\.\{([^}]*)\}", proof, re.M) for name in names.split(", ")}
            where.update((module + ".", file) for file, module in re.findall(rf"^use Rattle\.{crate}\.proofs\.(?:\S+\.)?(\w+) as (\S+)$", proof, re.M))
            for field in re.findall(r"^  pub (\S+) :", body, re.M):
                module, name = re.fullmatch(r"(.*\.)?(.+)", given.get(field, field)).groups()
                found.add((field, where.get(module or name, module or record), name))
    return found


def in_words(crate):
    """The theorems of the crate whose types are in words, as pairs of a file's stem and a name."""
    cited = {"Decides"} | {part for file in WORDS for name in declarations(ROOT / file) for part in [name] if "◌" not in name}
    proofs = {path.stem: declarations(path) for path in (ROOT / "crates" / crate / "proofs").rglob("*.antt")}
    defined = {name: text for found in proofs.values() for name, text in found.items() if name[:1].isupper()}
    while more := {name for name, text in defined.items() if name not in cited and tokens(text) & cited}:
        cited |= more
    return {(file, name) for file, found in proofs.items() for name, text in found.items() if tokens(text) & cited}


def refusals(printed, crate=None):
    """What a check refused: each theorem, with the failed theorem that it depends on, or None if it fails by itself.

    Of the theorems of a file that depend on another, the check names the first three. The others are found in the text of the crate, if
    one is given: those that cite a refused theorem of the file, or one that the file imports.
    """
    found, cut = {}, set()
    for path, name, lacks, others in REFUSED.findall(printed):
        if "proofs" not in Path(path).parts:
            continue
        if name:
            found.setdefault((Path(path).stem, name), None)
        for other, through in DEPENDS.findall(MORE.sub("", others)):
            found.setdefault((Path(path).stem, other), through or lacks)
        if MORE.search(others):
            cut.add(path)
    for path in sorted(cut) if crate else ():
        stem, text = Path(path).stem, bodies(ROOT / "crates" / crate / path)
        used = re.findall(r"^use \S*\.(\w+)\.\{([^}]*)\}", text_of(ROOT / "crates" / crate / path), re.M)
        refused = {name for file, names in used for name in names.split(", ") if (file, name) in found}
        refused |= {name for file, name in found if file == stem}
        while more := {name: min(tokens(text[name]) & refused) for name in text.keys() - refused if tokens(text[name]) & refused}:
            found |= {(stem, name): lacks for name, lacks in more.items()}
            refused |= more.keys()
    return found


def root(theorem, refused):
    """The theorem that fails by itself and causes this one to be refused, or None if this one is not refused."""
    seen = set()
    while theorem in refused and theorem not in seen:
        seen.add(theorem)
        lacks = refused[theorem]
        if lacks is None:
            return theorem
        others = [other for other in refused if other[1] == lacks]
        theorem = next((other for other in others if other[0] == theorem[0]), others[0] if others else (theorem[0], lacks))
    return None
