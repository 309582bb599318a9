"""The control protocol, which castd-keeper speaks at its Unix socket.

A client says lines, each with a line feed behind it. The answer to each is none or more lines that are not empty, and
an empty line behind them. The keeper answers some lines by itself, and says the others on the console of the daemon.
Where it does not pass a line on, or the daemon does not answer it, its answer begins with `keeper: `.
"""

from __future__ import annotations

import asyncio
import unicodedata

from castd_tools.system import reason

LONGEST_LINE = 4_096
# How long a tool that an operator uses waits for the answer to a line.
ANSWER_SECONDS = 15.0
KEEPER = "keeper: "
UNHEALTHY = "unhealthy: "

# The lines that the keeper answers by itself.
METRICS = "metrics"
HEALTH = "health"
SUSPECTED = "suspected"
# So the line begins by which a daemon serves the programs of a domain no longer. The domain follows.
RETIRE = "retire"
# So the lines begin by which the failure detector says whether the home of a domain is silent. The domain follows.
HOME_SILENT, HOME_HEARD = "home-silent", "home-heard"

# How the lines begin that say that something was not done.
_REFUSALS = ("fault ", "refused ", "no domain", "no memory", "halted ", "keys: ", KEEPER, UNHEALTHY)


class LineError(Exception):
    """Bytes are no line that may be said. Its text says why."""


class ControlError(Exception):
    """The keeper does not answer. Its text says where and why."""


class NoKeeper(ControlError):
    """The keeper cannot be reached, or ends before it has answered."""


def path_of(site: int | str) -> str:
    """Where the keeper of a site has its control socket, if it is told no other place. In place of the number may
    stand what is put in for it later."""
    return f"/run/castd-{site}/control"


def line_of(data: bytes) -> str:
    """The line that these bytes are, which have no line feed behind them."""
    if len(data) > LONGEST_LINE:
        raise LineError(f"a line of more than {LONGEST_LINE} bytes")
    try:
        line = data.decode()
    except UnicodeDecodeError as error:
        raise LineError("not UTF-8") from error
    if any(unicodedata.category(character) == "Cc" for character in line):
        raise LineError("a control character")
    return line


class LineBuffer:
    """Cuts a stream of bytes into lines. Of a line that is too long, no more is kept than shows that it is."""

    def __init__(self) -> None:
        self._begun = b""

    def feed(self, data: bytes) -> list[bytes]:
        """The lines that end within these bytes, which follow those before."""
        *ends, rest = data.split(b"\n")
        lines = []
        for end in ends:
            lines.append(self._with(end))
            self._begun = b""
        self._begun = self._with(rest)
        return lines

    def _with(self, more: bytes) -> bytes:
        return (self._begun + more)[: LONGEST_LINE + 1]


def is_refusal(answer: list[str]) -> bool:
    """Whether an answer says that something was not done, or is not well."""
    return any(line.startswith(_REFUSALS) for line in answer)


async def ask(path: str, line: str, seconds: float) -> list[str]:
    """Says a line at the control socket of this path, and gives the lines of its answer, without their ends."""
    try:
        async with asyncio.timeout(seconds):
            return await _say(path, line)
    except TimeoutError as error:
        raise ControlError(f"{path}: no answer within {seconds:g} s") from error
    except OSError as error:
        raise NoKeeper(f"{path}: {reason(error)}") from error


async def _say(path: str, line: str) -> list[str]:
    reader, writer = await asyncio.open_unix_connection(path)
    try:
        writer.write(f"{line}\n".encode())
        answer = []
        while said := (await reader.readline()).decode("utf-8", "replace"):
            if said == "\n":
                return answer
            answer.append(said.removesuffix("\n"))
        raise NoKeeper(f"{path}: the answer is cut off")
    finally:
        writer.transport.abort()
