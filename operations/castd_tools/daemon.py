"""The process of a daemon."""

from __future__ import annotations

import asyncio
import ctypes
import os
import re
import signal
import time
from collections.abc import Callable
from dataclasses import dataclass
from subprocess import DEVNULL, PIPE

from castd_tools import notification

_PR_SET_PDEATHSIG = 1
_NOT_BOUND_TO_PARENT = 127
_VERSION = re.compile(rb"castd ([0-9A-Za-z.+-]+)\n")
_VERSION_SECONDS = 5.0


async def version(program: str) -> str | None:
    """The version that the program of a daemon says, such as `0.1.0`. None where it says none."""
    try:
        asked = await _started([program, "--version"], stdin=DEVNULL, stderr=DEVNULL)
    except OSError:
        return None
    try:
        async with asyncio.timeout(_VERSION_SECONDS):
            said, _ = await asked.communicate()
    except TimeoutError:
        asked.kill()
        await asked.wait()
        return None
    told = _VERSION.fullmatch(said)
    return told[1].decode() if told else None


async def start(words: list[str]) -> asyncio.subprocess.Process:
    """Starts a daemon, whose console is at pipes. The system kills it if the process that started it ends in any way.

    It is in a session of its own, so that what a terminal sends to the keeper does not come to the daemon too.
    """
    return await _started(words, stdin=PIPE)


async def _started(words: list[str], **descriptors: int) -> asyncio.subprocess.Process:
    return await asyncio.create_subprocess_exec(
        *words,
        stdout=PIPE,
        **descriptors,
        env={name: value for name, value in os.environ.items() if name != notification.VARIABLE},
        start_new_session=True,
        preexec_fn=_bound_to(os.getpid()),
    )


def _bound_to(parent: int) -> Callable[[], None]:
    """What a child does before it becomes the daemon. It ends where the parent has ended already."""
    prctl = ctypes.CDLL(None).prctl

    def bind() -> None:
        if prctl(_PR_SET_PDEATHSIG, signal.SIGKILL, 0, 0, 0) or os.getppid() != parent:
            os._exit(_NOT_BOUND_TO_PARENT)

    return bind


@dataclass(frozen=True)
class Usage:
    """What a process uses."""

    resident_bytes: int
    open_descriptors: int
    uptime_seconds: float


def usage(pid: int) -> Usage:
    """What the process of this number uses. An `OSError` where there is none any more."""
    with open(f"/proc/{pid}/statm", encoding="ascii") as file:
        resident_pages = int(file.read().split()[1])
    with open(f"/proc/{pid}/stat", encoding="utf-8", errors="replace") as file:
        # The name of the program, in parentheses, may have spaces. The 22nd field tells when the process started.
        behind_name = file.read().rpartition(")")[2].split()
    ticks_at_start = int(behind_name[22 - 3])
    return Usage(
        resident_bytes=resident_pages * os.sysconf("SC_PAGE_SIZE"),
        open_descriptors=len(os.listdir(f"/proc/{pid}/fd")),
        uptime_seconds=time.clock_gettime(time.CLOCK_BOOTTIME) - ticks_at_start / os.sysconf("SC_CLK_TCK"),
    )
