"""What the tests share: a folder, keepers, watches and programs, which end with their test."""

from __future__ import annotations

import contextlib
import glob
import json
import os
import pathlib
import random
import select
import signal
import socket
import subprocess
import sys
import tempfile
import time
import unittest
from collections.abc import Callable, Collection, Mapping, Sequence

TESTS = pathlib.Path(__file__).resolve().parent
ROOT = TESTS.parent
TOOLS = ROOT / "operations"
sys.path[:0] = [str(TOOLS), str(ROOT / "clients/python"), str(ROOT / "bench")]
import castd  # noqa: E402
from daemons import Failed, Process  # noqa: E402

# Within these seconds happens what a test waits for, also on a machine that does much else.
PATIENCE = 30.0
PORT = 7_101
OFFSET = 1_000
STAND_IN = str(TESTS / "stand_in")
NOTHING: Mapping[str, str] = {}
PROGRAM = os.path.realpath(os.environ["CASTD_PROGRAM"]) if "CASTD_PROGRAM" in os.environ else ""


class Setup:
    """A configuration of sites, in a folder.

    Each site is at an address of this host's loopback that no other test has. It has a folder, in which its daemon
    makes its sockets.
    """

    def __init__(
        self,
        folder: str,
        sites: int,
        domains: list[dict],
        is_one_host: bool,
        network: Mapping[str, object],
        sealed: Collection[int],
    ):
        block = f"127.{random.randint(1, 254)}.{random.randint(1, 254)}"
        numbers = range(1, sites + 1)
        self.folder, self.is_one_host, self.network, self.sealed = folder, is_one_host, network, sealed
        self.hosts = {site: f"{block}.{1 if is_one_host else site}" for site in numbers}
        self.addresses = {site: f"{host}:{PORT + site if is_one_host else PORT}" for site, host in self.hosts.items()}
        self.domains = [
            {"home": 1, "sites": list(numbers), "groups": [1], "socket": "castd.sock", **it} for it in domains
        ]
        self.config = self.write("castd.conf", self.addresses)
        self.state = f"{folder}/state"
        os.mkdir(self.state)
        for site in numbers:
            os.makedirs(self.site_folder(site), exist_ok=True)

    def write(self, name: str, addresses: dict[int, str]) -> str:
        """Writes the configuration with the sites at these addresses, and gives its path."""
        lines = []
        for site, address in addresses.items():
            lines += ["[[site]]", f"number = {site}", f'address = "{address}"']
            lines += ["sealed = true"] if site in self.sealed else []
        for domain in self.domains:
            lines += ["[[domain]]", *(f"{name} = {json.dumps(value)}" for name, value in domain.items())]
        if self.network:
            lines += ["[network]", *(f"{name} = {json.dumps(value)}" for name, value in self.network.items())]
        path = f"{self.folder}/{name}"
        pathlib.Path(path).write_text("\n".join(lines) + "\n", encoding="utf-8")
        return path

    def site_folder(self, site: int) -> str:
        return f"{self.folder}/site-{1 if self.is_one_host else site}"

    def control(self, site: int) -> str:
        return f"{self.site_folder(site)}/control"

    def plan(self, site: int) -> str:
        """The file with what the stand-in for a daemon does."""
        return f"{self.folder}/plan-{site}"


class Case(unittest.TestCase):
    """A test with a folder of its own."""

    def setUp(self) -> None:
        self.folder = self.enterContext(tempfile.TemporaryDirectory(prefix="castd-"))

    def setup_of(
        self,
        sites: int = 1,
        *domains: dict,
        is_one_host: bool = False,
        network: Mapping[str, object] = NOTHING,
        sealed: Collection[int] = (),
    ) -> Setup:
        """So many sites. They serve domain 1, of which site 1 is the home, where no domains are named."""
        folder, domains = tempfile.mkdtemp(dir=self.folder), domains or ({"number": 1},)
        return Setup(folder, sites, list(domains), is_one_host, network, sealed)

    def keeper(self, setup: Setup, site: int = 1, **how) -> Keeper:
        """A keeper that serves. What `how` may say, `started_keeper` has."""
        keeper = self.started_keeper(setup, site, **how)
        self.assertEqual(keeper.line(PATIENCE), "ready")
        return keeper

    def started_keeper(
        self,
        setup: Setup,
        site: int = 1,
        *,
        program: str = PROGRAM,
        more: Sequence[str] = (),
        env: Mapping[str, str] = NOTHING,
    ) -> Keeper:
        keeper = Keeper(setup, site, program, list(more), {**os.environ, **env})
        self.addCleanup(keeper.end)
        return keeper

    def stand_in(self, setup: Setup, site: int = 1, *, more: Sequence[str] = (), **plan) -> Keeper:
        """A keeper of a stand-in for castd that serves, and does as planned."""
        keeper = self.started_stand_in(setup, site, more=more, **plan)
        self.assertEqual(keeper.line(PATIENCE), "ready")
        return keeper

    def started_stand_in(self, setup: Setup, site: int = 1, *, more: Sequence[str] = (), **plan) -> Keeper:
        change_plan(setup, site, **plan)
        return self.started_keeper(setup, site, program=STAND_IN, more=more, env={"STAND_IN": setup.plan(site)})

    def watch(self, setup: Setup, site: int, *words: str, config: str | None = None) -> Watch:
        watch = Watch(setup, site, config or setup.config, list(words))
        self.addCleanup(watch.end)
        return watch

    def session(self, setup: Setup, site: int = 1) -> castd.Session:
        """A program at a site."""
        session = castd.Session(f"{setup.site_folder(site)}/castd.sock", PATIENCE)
        self.addCleanup(session.close)
        return session

    def joined(self, setup: Setup, site: int, size: int) -> castd.Session:
        """A program at a site, which has come into a view of so many members."""
        session = self.session(setup, site)
        session.join(1, PATIENCE)
        wait_for_view(session, size)
        return session

    def assert_ends(self, process: Process, status: int, within: float = PATIENCE) -> None:
        self.assertEqual(process.process.wait(within), status, process.complained())

    def need_root(self) -> None:
        if os.geteuid():
            self.skipTest("another user is tried by root alone")


class Tool(Process):
    """A tool that runs."""

    def end(self) -> None:
        with contextlib.suppress(ProcessLookupError):
            self.process.send_signal(signal.SIGCONT)
        self.kill()

    def wait_for_lines(self, *texts: str, within: float = PATIENCE) -> None:
        """Reads lines until each of these texts was in one."""
        end, wanted, lines = time.monotonic() + within, set(texts), []
        while wanted:
            try:
                lines.append(self.line(max(0.0, end - time.monotonic())))
            except Failed as failed:
                raise Failed(f"{failed} It wrote {lines}, and not {sorted(wanted)}.") from failed
            wanted = {text for text in wanted if text not in lines[-1]}

    def lines_for(self, seconds: float) -> list[str]:
        """The lines that it writes within so many seconds."""
        end, lines = time.monotonic() + seconds, []
        while (left := end - time.monotonic()) > 0:
            if b"\n" in self.bytes or select.select([self.process.stdout], [], [], left)[0]:
                lines.append(self.line(PATIENCE))
        return lines


class Keeper(Tool):
    def __init__(self, setup: Setup, site: int, program: str, more: list[str], env: dict):
        self.setup, self.site, self.control = setup, site, setup.control(site)
        own = ["--program", program, "--control", self.control, "--state", setup.state]
        words = [str(TOOLS / "castd-keeper"), setup.config, "--site", str(site), *own, *more]
        super().__init__(words, setup.folder, cwd=setup.site_folder(site), env=env, start_new_session=True)

    def daemon(self) -> int:
        """The process of the daemon."""
        with open(f"/proc/{self.process.pid}/task/{self.process.pid}/children", encoding="ascii") as file:
            (child,) = file.read().split()
        return int(child)

    def ask(self, line: str) -> str:
        """The answer to a line at the control socket."""
        with Client(self.control) as client:
            return client.ask(line)

    def castctl(self, *words: str) -> tuple[int, str]:
        """The exit status of castctl, and what it prints."""
        ran = castctl("--socket", self.control, *words)
        return ran.returncode, ran.stdout


class Watch(Tool):
    def __init__(self, setup: Setup, site: int, config: str, words: list[str]):
        own = ["--site", str(site), "--control", setup.control(site), "--port-offset", str(OFFSET)]
        super().__init__([str(TOOLS / "castd-watch"), config, *own, *words], setup.folder)


class Client(socket.socket):
    """A client of a keeper."""

    def __init__(self, path: str):
        super().__init__(socket.AF_UNIX)
        self.settimeout(PATIENCE)
        self.connect(path)
        self.said = self.makefile("r", encoding="utf-8", newline="\n")

    def close(self) -> None:
        self.said.close()
        super().close()

    def ask(self, line: str) -> str:
        self.sendall(f"{line}\n".encode())
        return self.answer()

    def answer(self) -> str:
        """The lines of the next answer, with line feeds between them."""
        lines = []
        while (line := self.said.readline()) != "\n":
            if not line:
                raise EOFError("the keeper closed the connection")
            lines.append(line.removesuffix("\n"))
        return "\n".join(lines)


def change_plan(setup: Setup, site: int, **plan) -> None:
    """Has the stand-in of a site do this from now on."""
    path = pathlib.Path(setup.plan(site))
    new = path.with_suffix(".new")
    new.write_text(json.dumps(plan), encoding="utf-8")
    new.rename(path)


def castctl(*words: str, **how) -> subprocess.CompletedProcess:
    return subprocess.run(
        [str(TOOLS / "castctl"), *words], capture_output=True, text=True, timeout=PATIENCE, check=False, **how
    )


def wait_for_view(session: castd.Session, size: int) -> castd.View:
    """The first view of so many members that a program is pushed."""
    return wait_for_push(session, lambda push: isinstance(push, castd.View) and len(push.members) == size)


def wait_for_push(session: castd.Session, wanted: Callable[[object], bool]):
    end = time.monotonic() + PATIENCE
    while time.monotonic() < end:
        push = session.read(max(0.0, end - time.monotonic()))
        if push is not None and wanted(push):
            return push
    raise Failed("what was waited for was not pushed")


def wait_for_end(session: castd.Session) -> None:
    """Reads a stream up to its end."""
    with contextlib.suppress(castd.Ended):
        wait_for_push(session, lambda push: False)


def wait_until(holds: Callable[[], bool], what: str, within: float = PATIENCE) -> None:
    """Waits until something holds, at which no event can be waited for."""
    end = time.monotonic() + within
    while not holds():
        if time.monotonic() > end:
            raise Failed(f"not within {within:.0f} s: {what}")
        time.sleep(0.02)


def is_running(process: int) -> bool:
    """Whether a thread of a process runs. One that is killed ends thread by thread, and keeps its sockets up to the last."""
    return not thread_states(process) <= {"Z", "X"}


def stop(process: int) -> None:
    """Stops a process, and waits until all its threads stand still."""
    os.kill(process, signal.SIGSTOP)
    wait_until(lambda: thread_states(process) <= {"T"}, "the process is stopped")


def thread_states(process: int) -> set[str]:
    """The states of the threads of a process, as in proc(5)."""
    states = set()
    for stat in glob.glob(f"/proc/{process}/task/*/stat"):
        with contextlib.suppress(FileNotFoundError, ProcessLookupError), open(stat, encoding="utf-8") as file:
            states.add(file.read().rpartition(")")[2].split()[0])
    return states
