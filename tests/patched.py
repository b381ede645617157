"""The second program with a wrong rule: a copy of tests/second to which a patch of tests/wrong is applied. Used by tests/wrong/run and
tests/compare."""
import os
import pathlib
import shutil
import subprocess

from common import ROOT, cargo

WRONG = ROOT / "tests/wrong"
# A wrong program runs for about a second, so a fast build matters more than fast code.
QUICK = {"CARGO_INCREMENTAL": "1", "CARGO_PROFILE_RELEASE_OPT_LEVEL": "1"}


class Worker:
    """A folder in which one wrong rule after another is built. Its target folder stays, so that its builds can share results."""

    def __init__(self, folder, name):
        self.folder = pathlib.Path(folder) / str(name)
        self.target = ROOT / "target/wrong" / str(name)
        self.program = self.target / "release/second"

    def apply(self, patch):
        copy = self.folder / "tests/second"
        shutil.rmtree(copy, ignore_errors=True)
        # The copies get new modification times, so that every build sees them as changed.
        shutil.copytree(ROOT / "tests/second", copy, copy_function=shutil.copyfile)
        # The folder is its own workspace, even if a parent folder has one.
        (self.folder / "Cargo.toml").write_text('[workspace]\nmembers = ["tests/second"]\nresolver = "2"\n')
        # The folder must not count as part of a git repository above it.
        outside = dict(os.environ, GIT_CEILING_DIRECTORIES=str(self.folder.parent))
        command = ["git", "apply", "-p1", str(patch)]
        return subprocess.run(command, cwd=self.folder, env=outside, capture_output=True, text=True)

    def cargo(self, words, **settings):
        command = cargo(words, self.folder / "tests/second", self.target)
        return subprocess.run(command, env={**os.environ, **settings}, capture_output=True, text=True)

    def build(self):
        return self.cargo(["build", "--release"], **QUICK)

    def build_only(self):
        """Builds a program that will not run, without optimization."""
        return self.cargo(["build"], CARGO_PROFILE_DEV_DEBUG="0")
