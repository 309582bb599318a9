"""The crates of this repository: what each stands on and is made of, and whether what was built is of the sources."""

import functools
import hashlib
import os
import re
import subprocess

ROOT = os.path.dirname(os.path.dirname(os.path.realpath(__file__)))
# What tools/build keeps, in a folder of which `rt` takes nothing and where it changes nothing.
BUILT = f"{ROOT}/crates/castd/out/rlib"
# The file that names the kit by which all of that was proved.
KIT = f"{BUILT}/kit"
PARTS = ("src", "specs", "proofs")
ALL_TAKE = "44 minutes on four cores"
PROVE = f"./castd prove proves and builds the program ({ALL_TAKE})"


# The last line on a crate that is proved, as `rt ci` wants it: no code in C, no function that hides what it hands out or may end the
# process, and no part that the prover refused to read.
VERDICT = re.compile(
    r"^logic=proved( (functions|axioms|target|cpu|threads|main|may-wait|may-serve|sum)=\S+)+ native=nat,char,string"
    r" logic-built=trusted libraries-built=trusted statements=trusted\n\Z",
    re.MULTILINE,
)
# What it says beside that of contracts that no call can meet, and where a tactic chose what a contract says.
SUSPECT = re.compile(
    r"^(warning: no call of `(?![^`]*::fn::)|note: the search for empty contracts did not end|warning: calls of a tactic that chose a term"
    r"|(\./)?(src|specs)/\S+ warning: this pattern binds).*",
    re.MULTILINE,
)


class NotProved(Exception):
    """Why there is no proved program of the sources as they are."""


def content(path: str) -> bytes:
    with open(path, "rb") as file:
        return file.read()


def files_of(folder: str) -> dict[str, bytes]:
    """What a crate is made of, by its path in the crate's folder."""
    paths = (f"{place}/{name}" for part in PARTS for place, _, names in os.walk(f"{folder}/{part}") for name in names)
    return {os.path.relpath(path, folder): content(path) for path in sorted(paths)}


def named_libraries() -> dict[str, list[str]]:
    """The libraries that each crate stands on, by name, as crates.txt has them."""
    found = {}
    with open(f"{ROOT}/crates.txt", encoding="utf-8") as file:
        for line in file:
            name, colon, libraries = line.split("#")[0].partition(":")
            if colon:
                found[name.split()[0]] = libraries.split()
    return found


def needed_by(name: str, named: dict[str, list[str]]) -> list[str]:
    """The crates that this one needs, itself last, each once and behind those that it needs."""
    order: list[str] = []

    def add(crate: str) -> None:
        for library in named[crate]:
            if library in named and library not in order:
                add(library)
        order.append(crate)

    add(name)
    return order


class Crate:
    """A crate, and what was built of it."""

    def __init__(self, name: str, named: dict[str, list[str]]):
        self.name = name
        self.folder = f"{ROOT}/crates/{name}"
        self.is_program = os.path.isfile(f"{self.folder}/src/main.rt")
        self.below = [it for it in named[name] if it in named]
        self.others = ["std", *(it for it in named[name] if it not in named)]
        self.files = files_of(self.folder)
        self.made = f"{self.folder}/out/{name}" if self.is_program else f"{BUILT}/{name}.rlib"
        self.stamp = f"{BUILT}/sums/{name}"

    def lines(self) -> int:
        """How many lines of code it has."""
        return sum(text.count(b"\n") for path, text in self.files.items() if path.endswith(".rt"))

    def has_changed(self) -> bool:
        """Whether its files are others now than when they were read."""
        return files_of(self.folder) != self.files

    def program_sum(self) -> str:
        """The SHA-256 of the program that was made; of a library there is none."""
        return hashlib.sha256(content(self.made)).hexdigest() if self.is_program else ""

    def kept(self) -> str | None:
        """The sum of the sources of what was made, if it is there as it was made."""
        if not os.path.exists(self.stamp) or not os.path.exists(self.made):
            return None
        of_sources, _, of_program = content(self.stamp).decode().partition("\n")
        return of_sources if of_program.strip() == self.program_sum() else None

    def keep(self, of_sources: str) -> None:
        """Notes that what was made is of the sources with this sum."""
        with open(self.stamp, "w", encoding="utf-8") as file:
            file.write(f"{of_sources}\n{self.program_sum()}")


@functools.lru_cache(maxsize=None)
def output(*words: str) -> str:
    return subprocess.run(words, stdout=subprocess.PIPE, text=True, check=True).stdout


def toolchain() -> str:
    """The folder of the kit."""
    return os.path.dirname(output("rt", "doc").split()[0])


def prover_words(crate: Crate) -> list[str]:
    """What tells the prover of a crate, over the libraries below it as they were proved."""
    words = ["--crate-name", crate.name, f"src/{'main' if crate.is_program else 'lib'}.rt", "--links", f"{crate.name}="]
    for library in crate.others:
        words += ["--extern", f"{library}={toolchain()}/rlibs/{library}.rlib"]
    for library in crate.below:
        words += ["--extern", f"{library}={BUILT}/{library}.rlib"]
    words += ["-L", f"dependency={toolchain()}/rlibs", "-L", f"dependency={BUILT}"]
    words += ["--antt-project", f"{toolchain()}/rattle/logic/antt-project.json"]
    return [*words, "--logic-built", f"{toolchain()}/logic_built"]


def why_unproved(said: str) -> str:
    """Why what the prover said of a crate is no proof to rest on, or nothing where it is one."""
    if not VERDICT.search(said):
        return said.rstrip()[-2000:] or "the prover said nothing"
    found = SUSPECT.search(said)
    return found[0] if found else ""


def sums_of(crates: dict[str, Crate], kit: str) -> dict[str, str]:
    """A sum for each of these crates: of its files, of the crates below, which stand before it, and of the kit."""
    sums: dict[str, str] = {}
    for name, crate in crates.items():
        made = hashlib.sha256(kit.encode())
        for path, text in crate.files.items():
            made.update(f"{path}\0".encode() + text)
        for library in crate.below:
            made.update(sums[library].encode())
        sums[name] = made.hexdigest()
    return sums


def crates_of(*names: str) -> dict[str, Crate]:
    """The crates that these need, with themselves, each behind those below it."""
    named = named_libraries()
    return {it: Crate(it, named) for name in names for it in needed_by(name, named)}


def proved_program() -> str:
    """The file of castd, if tools/build proved and built it of the sources as they are now."""
    crates = crates_of("castd")
    program = crates["castd"]
    if not os.path.exists(program.made):
        raise NotProved(f"{program.made} is missing; {PROVE}")
    if not os.path.exists(KIT) or program.kept() != sums_of(crates, content(KIT).decode())["castd"]:
        raise NotProved(f"{program.made} is not what the sources give; {PROVE}")
    return program.made
