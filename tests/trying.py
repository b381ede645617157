"""Edits, and copies of the crates in which they are tried. Used by tests/edits, tests/tried/run and tests/wrong-rules/run.

An *edit* is a file: a sentence that says what is wrong, perhaps a line `statement: NAME` and a line `crate: NAME`, and then the changes, each
a line `old: ` and a line `new: ` below the line `file: ` that they belong to. A path is relative to the crate. Changes are made one after the other, and each old text must occur exactly once.

Edits stand in crates/CRATE/must-fail, which rt tries at every run of the gate, in tests/tried/CRATE and in tests/wrong-rules.
"""
import os
import queue
import re
import shutil
import subprocess
import tempfile
from collections import namedtuple
from concurrent.futures import ThreadPoolExecutor
from functools import lru_cache
from pathlib import Path

from common import ROOT
from statements import in_words, laws, refusals

WORKERS = int(os.environ.get("WORKERS", "2"))
# The status of tools/over where rt ci left no libraries.
NOT_OVER = 75
FORM = re.compile(r"(?!file: )(.+)\n(?:statement: (\S+)\n)?(?:crate: (\w+)\n)?((?=file: )(?:(?:file: .+\n)?old: .+\nnew:.*\n)+)")
PAIR = re.compile(r"(?:file: (.+)\n)?old: (.+)\nnew: ?(.*)\n")
NO_EDIT = "it is not a sentence with lines file, old and new below it"
# What the prover says of a goal that a proof file answers and that it does not prove, and of one that no file answers.
UNPROVED = re.compile(r"`(?:search|grind)`: no proof of|`omega`: the (?:goal|part `\S+` of the goal) does not follow")
# A refused declaration of an antt file, or a goal of a function that no file answers, which has the line of src/.
ERROR = re.compile(r"^(?:note: )?(?:\./)?(\S+?):(\d+):\d+: (?:error: (?:in )?`(\S+)`: (.*)|(it is not proved that .*))$", re.M)
INVALID = re.compile(r"^(?:\./)?(?:specs|src)/\S*: error.*$", re.M)
# A proof file that names what the edit took away, as rt passes over it too.
MISFIT = re.compile(r"^(?:note: )?(?:\./)?proofs/.*(?:has no field|is not in scope|has no `|was not admitted|was rejected).*$", re.M)
# What `rt ci` and `rt must-fail` say of a must-fail edit that the check refuses: the first error.
SAID = r"^rt: must-fail {}/{}\.edit: refused, as it must be(?: \((.*?)\))?: (.*)$"


class Checked(namedtuple("Checked", "status printed")):
    """The status of a check, and its output, in which paths are relative to the crate."""

    @property
    def refused(self):
        return bool(re.search(r"^logic=not-proved", self.printed, re.M))

    @property
    def last(self):
        return (re.findall(r"^(?:logic=.*|.*no verdict.*|.*killed.*)$", self.printed, re.M) or self.printed.strip().splitlines() or [""])[-1]


# ---------------------------------------------------------------- edits


class Edit:
    """What an edit says is wrong, the statement that it names, its crate, and its changes (file, old text, new text)."""

    def __init__(self, path, crate):
        self.name = path.stem
        form = FORM.fullmatch(path.read_text())
        self.says, self.statement, named, pairs = form.groups() if form else ("", None, None, "")
        self.crate, self.changes, file = named or crate, [], ""
        for other, old, new in PAIR.findall(pairs):
            file = other or file
            self.changes.append((file, old, new))

    def touches(self, part):
        """Whether it changes a file below src/, specs/ or proofs/."""
        return any(file.startswith(f"{part}/") for file, _, _ in self.changes)


def must_fail():
    return [Edit(path, path.parts[-3]) for path in sorted(ROOT.glob("crates/*/must-fail/*.edit"))]


def tried():
    return [Edit(path, path.parts[-2]) for path in sorted(ROOT.glob("tests/tried/*/*.edit"))]


def wrong_rules():
    return [Edit(path, "rules") for path in sorted(ROOT.glob("tests/wrong-rules/*.edit"))]


def kinds(edits):
    """How many edits change a rule, and how many change only code; edits with the same change count once."""
    changes = {(edit.crate, *edit.changes): edit.touches("specs") for edit in edits}
    return {"rules": sum(changes.values()), "code": len(changes) - sum(changes.values())}


def edited(edit, folder=ROOT):
    """The new text of each file that an edit changes; ValueError with the reason if it does not apply."""
    if not edit.changes:
        raise ValueError(NO_EDIT)
    texts = {}
    for file, old, new in edit.changes:
        path = folder / "crates" / edit.crate / file
        if not path.is_file():
            raise ValueError(f"there is no file {file}")
        text = texts.get(path) or path.read_text()
        if text.count(old) != 1:
            raise ValueError(f"{file} has {text.count(old)} times: {old}")
        if old == new:
            raise ValueError(f"it does not change {file}")
        texts[path] = text.replace(old, new)
    return texts


def applies(edit):
    """Why an edit does not apply to the crates, or None."""
    try:
        edited(edit)
    except ValueError as why:
        return str(why)
    return None


# ---------------------------------------------------------------- trying


class Worker:
    """A copy of the crates in which one edit after another is checked, so that only what an edit touches is checked again. After the gate's
    rt ci the libraries are the ones that it left; else rt takes what checks kept of them, or proves them."""

    def __init__(self, folder):
        self.folder, self.stands = folder.resolve(), {}
        shutil.copytree(ROOT / "crates", folder / "crates", ignore=shutil.ignore_patterns("out"))
        shutil.copy(ROOT / "crates.txt", folder)

    def run(self, crate, *command):
        return subprocess.run(command, cwd=self.folder / "crates" / crate, stdout=subprocess.PIPE, stderr=subprocess.STDOUT, text=True)

    def check(self, crate):
        done = self.run(crate, ROOT / "tools/over", "check", crate, "--jobs", "1", "--incremental", "out/incremental")
        if done.returncode == NOT_OVER:
            done = self.run(crate, "rt", "check")
        return Checked(done.returncode, done.stdout.replace(f"{self.folder}/crates/{crate}/", ""))

    def attempt(self, edit):
        """What the check says about the edit, or why the edit could not be made."""
        if edit.crate not in self.stands:
            self.stands[edit.crate] = self.check(edit.crate).status == 0
        if not self.stands[edit.crate]:
            return f"the crate {edit.crate} as it stands is not proved"
        before = {}
        try:
            texts = edited(edit, self.folder)
            before = {path: path.read_text() for path in texts}
            for path, text in texts.items():
                path.write_text(text)
            return self.check(edit.crate)
        except ValueError as why:
            return str(why)
        finally:
            for path, text in before.items():
                path.write_text(text)


def attempted(edits, logs=None, unfit=applies):
    """Tries the edits for which `unfit` gives no reason, some in parallel; gives each edit with its result, in order. If a folder for logs is given, it gets
    the output of each check."""
    if logs:
        Path(logs).mkdir(parents=True, exist_ok=True)
    with tempfile.TemporaryDirectory() as folder, ThreadPoolExecutor(WORKERS) as pool:
        free = queue.Queue()
        for number in range(min(WORKERS, len(edits))):
            free.put(Worker(Path(folder) / str(number)))

        def attempt(edit):
            worker = free.get()
            try:
                result = unfit(edit) or worker.attempt(edit)
            finally:
                free.put(worker)
            if logs:
                Path(logs, f"{edit.crate}-{edit.name}").write_text(result if isinstance(result, str) else result.printed)
            return result

        yield from zip(edits, pool.map(attempt, edits))


# ---------------------------------------------------------------- why an edit was refused


@lru_cache(None)
def stated(crate):
    """The theorems of a crate that are laws or in words."""
    return in_words(crate) | {(file, name) for _, file, name in laws(crate)}


def first_error(printed):
    """The first error of a check that counts: not one of a proof file that names what the edit took away."""
    return ERROR.search(MISFIT.sub("", printed))


def invalid(printed):
    """The end of the first error in specs/ or of the compiler in src/, if a check printed one: the edit made no rule or no program."""
    error = INVALID.search(printed)
    return error[0][-120:] if error else None


def fault(edit, printed):
    """Why a refused edit shows nothing, or None if it makes a fact false. It is decided by what the check printed, in which paths are
    relative to the crate.

    With the edit, specs/ and src/ must still be valid. An edit of src/ must be refused first at a proof obligation, and not only because a
    proof file no longer fits the code. An edit of specs/ must be refused at a law or a theorem in words that fails by itself (statements.py
    says which these are). An edit of proofs/ shows nothing.
    """
    first = first_error(printed)
    if not edit.changes:
        return NO_EDIT
    if edit.touches("proofs"):
        return "it edits a proof"
    if why := invalid(printed):
        return f"it is not valid: {why}"
    if not first:
        return "no error that names a theorem"
    if edit.touches("specs"):
        failed = {theorem for theorem, lacks in refusals(printed).items() if lacks is None}
        return None if failed & stated(edit.crate) else f"no law refuses it, only {', '.join(sorted(name for _, name in failed))}"
    path, _, name, why, goal = first.groups()
    good = goal or Path(path).parts[0] == "proofs" and UNPROVED.search(why)
    return None if good else f"first refused at {path}, {name}: {(why or goal)[:90]}"


def why_not(edit, result):
    """Why a tried edit is not refused for a good reason, or None."""
    if isinstance(result, str):
        return result
    if result.status == 0:
        return f"it passes: {edit.says}"
    if not result.refused:
        return f"the check came to no verdict: {result.last}"
    return fault(edit, result.printed)
