"""What the examples share: the program to run, daemons and programs on this machine, and a screen."""

import argparse
import os
import random
import select
import shutil
import signal
import sys
import tempfile
import time
from collections.abc import Callable, Sequence

ROOT = os.path.dirname(os.path.dirname(os.path.realpath(__file__)))
CLIENTS = f"{ROOT}/clients/python"
OPERATIONS = f"{ROOT}/operations"
sys.path[:0] = [f"{ROOT}/bench", CLIENTS, f"{ROOT}/tools"]
import castd  # noqa: E402
import unproved  # noqa: E402
from crates import NotProved, proved_program  # noqa: E402
from daemons import Failed, Process, need, runnable  # noqa: E402

# Seconds within which happens what an example waits for, also on a machine that does much else.
PATIENCE = 60.0
_FIRST_PORT = 7_000


def main(doc: str, play: Callable[..., None], *switches: str, **usual: int) -> int:
    """Runs an example as the command line says, and gives the exit status.

    `play` is given the file of castd, a folder of its own, for each of the switches whether the command line has it,
    and for each option of `usual` its number: the one there, where the command line has none. The second paragraph of
    `doc` is the usage.
    """
    if sys.argv[1:] == ["--help"]:
        print(doc.strip())
        return 0
    parser = argparse.ArgumentParser(usage=doc.split("\n\n")[1].removeprefix("usage: "), add_help=False)
    parser.add_argument("program", nargs="?")
    for name in switches:
        parser.add_argument(f"--{name}", action="store_true")
    for name, number in usual.items():
        parser.add_argument(f"--{name}", type=_number, default=number)
    options = vars(parser.parse_args())
    named = options.pop("program")
    for it in (signal.SIGTERM, signal.SIGHUP, signal.SIGINT):
        signal.signal(it, lambda number, _: sys.exit(128 + number))
    try:
        need("setpriv")
        with tempfile.TemporaryDirectory(prefix="castd-") as folder:
            program = runnable(named) if named else _proved()
            if program:
                play(program, folder, **options)
            else:
                _play_unproved(lambda built: play(built, folder, **options))
        return 0
    except (Failed, unproved.Unable, castd.Error, OSError) as failed:
        print(f"run: {failed}", file=sys.stderr)
        return 1


def _number(text: str) -> int:
    """The number that a word of the command line is."""
    if not (text.isascii() and text.isdigit() and int(text) >= 1):
        raise argparse.ArgumentTypeError(f"{text!r} is not a whole number from 1 on")
    return int(text)


def _proved() -> str | None:
    """The file of the proved program, if there is one."""
    try:
        return proved_program()
    except NotProved:
        return None


def _play_unproved(play: Callable[[str], None]) -> None:
    print(unproved.NOTICE, flush=True)
    try:
        is_kept, begun = os.path.exists(unproved.kept_path()), time.monotonic()
        program = unproved.kept_build()
        if not is_kept:
            print(f"built in {time.monotonic() - begun:.0f} s", flush=True)
        play(program)
    finally:
        print(unproved.NOTICE, flush=True)


def loopback_addresses(hosts: dict[int, int]) -> dict[int, str]:
    """An address for each site, by the number of its host from 1 to 254. They are in a random part of this machine's
    loopback, so that examples run beside each other."""
    block = f"127.{random.randint(1, 254)}.{random.randint(1, 254)}"
    return {site: f"{block}.{host}:{_FIRST_PORT + site}" for site, host in hosts.items()}


def write_configuration(
    path: str, addresses: dict[int, str], home: int, groups: Sequence[int] = (1,), **quotas: int
) -> None:
    """Writes a configuration of these sites with domain 1, its groups and its quotas. Each daemon makes its socket,
    castd.sock, in the folder where it is started."""
    sites = "".join(f'[[site]]\nnumber = {site}\naddress = "{address}"\n\n' for site, address in addresses.items())
    domain = f"[[domain]]\nnumber = 1\nhome = {home}\nsites = {list(addresses)}\ngroups = {list(groups)}\n"
    domain += "socket = 'castd.sock'\n"
    with open(path, "w", encoding="utf-8") as file:
        file.write(sites + domain + "".join(f"{name} = {number}\n" for name, number in quotas.items()))


class Program(Process):
    """A program that is written lines, and of which lines are read. It is killed where this one ends."""

    def lines(self) -> list[str]:
        """The lines that it has written and that were not read yet, without waiting."""
        while select.select([self.process.stdout], [], [], 0)[0]:
            more = os.read(self.process.stdout.fileno(), 65_536)
            if not more:
                break
            self.bytes += more
        *lines, self.bytes = self.bytes.split(b"\n")
        return [line.decode() for line in lines]

    def has_ended(self) -> bool:
        return self.process.poll() is not None


class Script(Program):
    """A Python program, which finds the package of the client."""

    def __init__(self, folder: str, path: str, *words: str):
        env = {**os.environ, "PYTHONPATH": CLIENTS, "PYTHONDONTWRITEBYTECODE": "1"}
        super().__init__([sys.executable, path, *words], folder, env=env)
        self.name = os.path.basename(path)


class Daemon(Program):
    """The daemon of a site, in a folder of its own."""

    def __init__(self, program: str, config: str, folder: str, site: int):
        self.site, self.folder = site, f"{folder}/site-{site}"
        self.path = f"{self.folder}/castd.sock"
        os.mkdir(self.folder)
        super().__init__([program, "serve", config, "--site", str(site)], self.folder, cwd=self.folder)

    def wait_until_ready(self) -> None:
        if self.line(PATIENCE) != "ready":
            self.fail("does not serve")

    def ask(self, line: str, answers: int = 1) -> list[str]:
        """Says a line on the console, and gives so many lines of answer."""
        self.say(f"{line}\n")
        return [self.line(PATIENCE) for _ in range(answers)]

    def stop(self) -> int:
        """Stops it in order, and gives its exit status."""
        self.ask("stop")
        self.time_to_end()
        return self.process.returncode


class Keeper(Program):
    """The daemon of a site with its keeper, in a folder of its own. The daemon ends with it."""

    def __init__(self, program: str, config: str, folder: str, site: int):
        own, state = f"{folder}/site-{site}", f"{folder}/state"
        self.path, self.control = f"{own}/castd.sock", f"{own}/control"
        os.mkdir(own)
        os.makedirs(state, exist_ok=True)
        words = ["--site", str(site), "--program", program, "--control", self.control, "--state", state]
        super().__init__([f"{OPERATIONS}/castd-keeper", config, *words], own, cwd=own)

    def wait_until_ready(self) -> None:
        if self.line(PATIENCE) != "ready":
            self.fail("does not serve")


class Screen:
    """Where an example says what happens. On a terminal some lines below that are drawn again and again."""

    def __init__(self) -> None:
        self._is_terminal = sys.stdout.isatty()
        self._shown: list[str] = []

    def say(self, text: str) -> None:
        """Says a line, which stays."""
        self._draw(f"{text}\n", self._shown)

    def show(self, lines: list[str]) -> None:
        """Draws the lines below in place of those before. Does nothing where there is no terminal."""
        if self._is_terminal and lines != self._shown:
            self._draw("", lines)

    def _draw(self, said: str, shown: list[str]) -> None:
        width = shutil.get_terminal_size().columns - 1
        back = f"\x1b[{len(self._shown)}A\x1b[J" if self._shown else ""
        print(back, said, *(f"{line[:width]}\n" for line in shown), sep="", end="", flush=True)
        self._shown = shown
