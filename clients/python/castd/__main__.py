"""A line tool: commands in, pushes out.

usage: python3 -m castd SOCKET
       python3 -m castd --vectors

Reads commands from standard input, one a line: `join G`, `leave G`, `cast G TEXT`, `abcast G TEXT`, `pass G PROCESS`,
and `wait SECONDS`. Prints each push as one line, up to the reply of each command; of a join up to the view with the own
process. With --vectors it reads lines as clients/vectors has them, and prints each with what it computes itself.
"""

from __future__ import annotations

import re
import sys
import time
from collections.abc import Callable, Iterable

from .codec import Denied, Join, Push, Reply, View, frame_of, push_at
from .errors import BadFrame, Code, Ended, Error, Refused
from .session import Session
from .text import command_of, text_of


def show(session: Session, seconds: float, is_last: Callable[[Push], bool] = lambda push: False) -> None:
    """Prints what is pushed within so many seconds, up to the push that is the last to wait for."""
    end = time.monotonic() + seconds
    while push := session.read(max(0.0, end - time.monotonic())):
        print(text_of(push), flush=True)
        if is_last(push):
            return


def give(session: Session, line: str) -> None:
    """Gives a command, and prints what is pushed up to its end."""
    command = command_of(line)
    tag = session.send(command)

    def is_last(push: Push) -> bool:
        match push:
            case Reply(own, code) if own == tag:
                return code != Code.DONE or not isinstance(command, Join)
            case View(group, members=members):
                return isinstance(command, Join) and group == command.group and session.process in members
            case Denied(group):
                return isinstance(command, Join) and group == command.group
        return False

    show(session, float("inf"), is_last)


def talk(session: Session, lines: Iterable[str]) -> None:
    show(session, 0)
    for line in lines:
        line = line.rstrip("\n")
        try:
            word, _, rest = line.partition(" ")
            if word == "wait":
                show(session, seconds_of(rest))
            elif line:
                give(session, line)
        except (ValueError, Refused):
            # The client itself refuses what is too long.
            print(f"unknown: {line}", file=sys.stderr)
        show(session, 0)


def seconds_of(text: str) -> float:
    """The seconds that a text such as `0.5` says. ValueError where it is no such text."""
    if not re.fullmatch(r"[0-9]+(\.[0-9]+)?", text):
        raise ValueError(f"no time: {text}")
    return float(text)


def computed(left: str) -> str:
    """What stands behind the equals sign of a vector."""
    word, _, rest = left.partition(" ")
    if word == "command":
        tag, _, line = rest.partition(" ")
        return frame_of(command_of(line), int(tag)).hex()
    try:
        found = push_at(bytes.fromhex(rest))
        return text_of(found[0]) if found else "more"
    except BadFrame:
        return "fault"


def main(words: list[str]) -> int:
    for stream in (sys.stdin, sys.stdout, sys.stderr):
        stream.reconfigure(encoding="utf-8", errors="surrogateescape")
    usage = (__doc__ or "").split("\n\n")[1]
    if words == ["--help"]:
        print(usage)
        return 0
    if len(words) != 1:
        print(usage, file=sys.stderr)
        return 2
    try:
        if words == ["--vectors"]:
            for line in sys.stdin:
                if line.strip() and not line.startswith("#"):
                    left = line.rpartition(" = ")[0]
                    print(left, "=", computed(left))
            return 0
        with Session(words[0]) as session:
            talk(session, sys.stdin)
    except Ended:
        return 0
    except (Error, OSError) as error:
        print(f"castd: {error}", file=sys.stderr)
        return 1
    return 0


if __name__ == "__main__":
    sys.exit(main(sys.argv[1:]))
