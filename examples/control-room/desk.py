"""A station's desk on this machine: castd-keeper with the daemon, castd-watch, and the program of the station."""

from __future__ import annotations

import contextlib
import os
import pathlib
import subprocess
from dataclasses import dataclass

from stage import PATIENCE, ROOT, Failed, Program, Script

HERE = os.path.dirname(os.path.realpath(__file__))
TOOLS = f"{ROOT}/operations"
# How long a site may be silent until the home puts it out, in seconds.
SILENCE = "1"


@dataclass(frozen=True)
class Room:
    """What the desks share: the file of castd, its configuration, the folder where it is noted which numbers of sites
    were used, and the one where the stations note what they claim."""

    castd: str
    config: str
    state: str
    claims: str


class Desk:
    """What runs at a desk. What ends is started again, a daemon under the next number of its host."""

    def __init__(self, room: Room, folder: str, station: int, first_site: int):
        self.station, self.site = station, first_site
        # How many daemons and programs were started, and whether the last daemon serves.
        self.daemons, self.programs, self.serves = 0, 0, False
        # Whether nothing is started any more, since no number is left.
        self.is_closed = False
        # What the program says: which stations are on duty, and whether this one has the controls.
        self.duty, self.has_controls = "", False
        self._room, self._folder, self._first_site = room, folder, first_site
        self._keeper: Program | None = None
        self._watch: Program | None = None
        self._program: Script | None = None
        os.mkdir(folder)

    def mend(self) -> None:
        """Starts what is missing and can be started now. Waits for nothing."""
        if self.is_closed:
            return
        if not _runs(self._keeper):
            self._start_daemon()
        elif not self.serves:
            self.serves = "ready" in self._keeper.lines()
        elif not _runs(self._watch):
            self._start_watch()
        elif not _runs(self._program):
            self._start_program()

    def is_on_duty(self) -> bool:
        """Whether the program runs, and has come into a view."""
        return self.duty != "" and _runs(self._keeper) and _runs(self._program)

    def listen(self) -> list[str]:
        """What the program has said since."""
        lines = self._program.lines() if self._program else []
        for line in lines:
            if line.startswith("duty "):
                self.duty = line.removeprefix("duty ")
            else:
                self.has_controls = line == "has"
        return lines

    def tell(self, line: str) -> None:
        """Tells the program something. One that has just ended does not hear it."""
        with contextlib.suppress(Failed):
            self._program.say(f"{line}\n")

    def leave(self) -> None:
        """Has the program go off duty, and waits for its end. `Failed` where it does not end well."""
        self.tell("leave")
        self._program.time_to_end()
        if self._program.process.returncode:
            self._program.fail(f"ended with {self._program.process.returncode}")

    def say(self, *words: str) -> str:
        """Says a line on the daemon's console, and gives the answer."""
        return _tool("castctl", "--socket", self._control(), *words).stdout.strip()

    def signal_program(self, number: int) -> None:
        self._program.process.send_signal(number)

    def signal_daemon(self, number: int) -> None:
        """Sends a signal to the daemon, which is the child of the keeper. One that has just ended gets none."""
        keeper = self._keeper.process.pid
        with contextlib.suppress(FileNotFoundError, ProcessLookupError):
            for process in pathlib.Path(f"/proc/{keeper}/task/{keeper}/children").read_text(encoding="ascii").split():
                os.kill(int(process), number)

    def end(self) -> None:
        """Ends all that runs here."""
        _end(self._program, self._watch, self._keeper)

    def _start_daemon(self) -> None:
        _end(self._watch, self._keeper)
        self._watch, self.serves = None, False
        room = self._room
        ran = _tool("castd-conf", "next", room.config, "--site", str(self._first_site), "--state", room.state)
        if ran.returncode:
            self.is_closed = True
            return
        self.site, self.daemons = int(ran.stdout), self.daemons + 1
        self._keeper = self._started("castd-keeper", "--program", room.castd, "--state", room.state)

    def _start_watch(self) -> None:
        _end(self._watch)
        self._watch = self._started("castd-watch", "--patience", SILENCE)

    def _start_program(self) -> None:
        """The program before has ended, as each does where its session ends."""
        _end(self._program)
        self.programs += 1
        self.duty, self.has_controls = "", False
        log = f"{self._room.claims}/station-{self.station}-{self.programs}"
        self._program = Script(self._folder, f"{HERE}/station.py", f"{self._folder}/castd.sock", log)

    def _started(self, tool: str, *words: str) -> Program:
        own = ["--site", str(self.site), "--control", self._control()]
        return Program([f"{TOOLS}/{tool}", self._room.config, *own, *words], self._folder, cwd=self._folder)

    def _control(self) -> str:
        """The control socket of the keeper."""
        return f"{self._folder}/control-{self.site}"


def _runs(process: Program | None) -> bool:
    return process is not None and not process.has_ended()


def _end(*processes: Program | None) -> None:
    for process in processes:
        if process:
            process.kill()


def _tool(name: str, *words: str) -> subprocess.CompletedProcess[str]:
    return subprocess.run(
        [f"{TOOLS}/{name}", *words], capture_output=True, text=True, timeout=PATIENCE, check=False
    )
