"""What the tests of installing share: a copy of the repository in which the tested program stands as the proved one."""

from __future__ import annotations

import hashlib
import os
import pathlib
import shutil
import subprocess
import sys
import tempfile

from harness import PROGRAM, ROOT, Case

INSTALL_SECONDS = 60.0

# The crates of the copy.
CRATES = ("cast_types", "castd")

# What tools/build does once it has proved and built the program.
NOTE_AS_PROVED = """
import os, crates
os.makedirs(f"{crates.BUILT}/sums", exist_ok=True)
with open(crates.KIT, "w", encoding="utf-8") as file:
    file.write("a kit")
all_crates = crates.crates_of("castd")
all_crates["castd"].keep(crates.sums_of(all_crates, "a kit")["castd"])
"""


class Tree:
    """A copy of the repository."""

    def __init__(self, path: pathlib.Path):
        self.path = path

    @property
    def program(self) -> pathlib.Path:
        return self.path / "crates/castd/out/castd"

    def add_program(self) -> None:
        """Puts the program where tools/build makes it, and notes that it is of the sources."""
        self.program.parent.mkdir(parents=True, exist_ok=True)
        shutil.copy(PROGRAM, self.program)
        ran = run(sys.executable, "-c", NOTE_AS_PROVED, cwd=self.path / "tools")
        if ran.returncode:
            raise AssertionError(ran.stderr)

    def make(self, *words: str) -> subprocess.CompletedProcess:
        return run("make", "--silent", "--directory", str(self.path), *words)


def copied(folder: str) -> Tree:
    """A copy of the repository, with the program."""
    tree = Tree(pathlib.Path(folder, "castd"))
    shutil.copytree(ROOT, tree.path, symlinks=True, ignore=_left_out)
    library, program = CRATES
    (tree.path / "crates.txt").write_text(f"{library}:\n{program}: {library}\n")
    tree.add_program()
    return tree


def _left_out(folder: str, names: list[str]) -> set[str]:
    """What is not copied: what was built, and all crates but a library and the program, since all are looked at alike."""
    if folder == str(ROOT / "crates"):
        return set(names) - set(CRATES)
    return {"out", ".git", "__pycache__"} & set(names)


class TreeCase(Case):
    """Tests that share one copy of the repository."""

    @classmethod
    def setUpClass(cls) -> None:
        folder = tempfile.TemporaryDirectory(prefix="castd-")
        cls.addClassCleanup(folder.cleanup)
        cls.tree = copied(folder.name)

    @classmethod
    def install(cls, **variables: str) -> None:
        """Installs by `make install` with these variables."""
        ran = cls.tree.make("install", *(f"{name}={value}" for name, value in variables.items()))
        if ran.returncode or ran.stderr:
            raise AssertionError(f"make install ended with {ran.returncode}: {ran.stderr}")


class InstalledCase(TreeCase):
    """Tests of what stands below a prefix once it is installed there."""

    @classmethod
    def setUpClass(cls) -> None:
        super().setUpClass()
        cls.prefix = f"{cls.tree.path}/out/usr"
        cls.install(PREFIX=cls.prefix)


def run(*words: str, **how) -> subprocess.CompletedProcess:
    """Runs a command to its end."""
    return subprocess.run(words, capture_output=True, text=True, timeout=INSTALL_SECONDS, check=False, **how)


def need(case: Case, command: str) -> None:
    """Skips a test where this machine lacks a command."""
    if not shutil.which(command):
        case.skipTest(f"{command} is not on this machine")


def contents(folder: str) -> dict[str, tuple]:
    """What stands in a folder, by path: the mode, and of a file the sum of its bytes."""
    found = {}
    for parent, directories, files in os.walk(folder):
        for name in [*directories, *files]:
            path = pathlib.Path(parent, name)
            total = hashlib.sha256(path.read_bytes()).hexdigest() if name in files else ""
            found[str(path.relative_to(folder))] = (oct(path.stat().st_mode), total)
    return found
