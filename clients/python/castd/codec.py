"""The frames between a program and the daemon as values. docs/FORMATS.md of castd has their bytes."""

from __future__ import annotations

import enum
import struct
from dataclasses import dataclass
from typing import NamedTuple

from .errors import BadFrame, Code

MOST_FRAME, MOST_PAYLOAD, MOST_MEMBERS = 20_000, 16_384, 64


class Kind(enum.IntEnum):
    """How a message is delivered: in causal order, or also in one order at all members."""

    CAUSAL = 1
    ATOMIC = 2


class Process(NamedTuple):
    """A process of the domain: a connection of a program. Processes are ordered by site, then by serial."""

    site: int
    serial: int

    def __str__(self) -> str:
        return f"{self.site}.{self.serial}"


@dataclass(frozen=True)
class Join:
    """Asks for membership of a group."""

    group: int


@dataclass(frozen=True)
class Leave:
    """Leaves a group at once."""

    group: int


@dataclass(frozen=True)
class Cast:
    """Sends a payload of at most 16,384 bytes to all members of a group, the sender included."""

    group: int
    kind: Kind
    payload: bytes


@dataclass(frozen=True)
class Pass:
    """Hands the token of a group to another member."""

    group: int
    process: Process


@dataclass(frozen=True)
class Opened:
    """The own process. This push comes first."""

    process: Process


@dataclass(frozen=True)
class Reply:
    """What was answered to the command with this tag."""

    tag: int
    code: Code


@dataclass(frozen=True)
class View:
    """A view of a group: its number, its members in rising order, and who holds the token when it begins."""

    group: int
    view: int
    members: tuple[Process, ...]
    holder: Process | None


@dataclass(frozen=True)
class Deliver:
    """A message, which group, view, sender and count name."""

    group: int
    view: int
    process: Process
    count: int
    kind: Kind
    payload: bytes


@dataclass(frozen=True)
class Ejected:
    """The process is no longer a member of the group, and may join again."""

    group: int
    view: int


@dataclass(frozen=True)
class Denied:
    """The process may not join the group now."""

    group: int
    code: Code


@dataclass(frozen=True)
class Closed:
    """The daemon closes the stream. This push is the last."""

    code: Code


Command = Join | Leave | Cast | Pass
Push = Opened | Reply | View | Deliver | Ejected | Denied | Closed


def frame_of(command: Command, tag: int) -> bytes:
    """The frame of a command. ValueError where a number of it is out of its range."""
    match command:
        case Join():
            number, more = 1, b""
        case Leave():
            number, more = 2, b""
        case Cast(_, kind, payload):
            number, more = 3, bytes([Kind(kind)]) + payload
        case Pass(_, (site, serial)):
            number, more = 4, number_of(site, ">H") + number_of(serial, ">I")
    body = struct.pack(">BI", number, tag) + number_of(command.group, ">H") + more
    return struct.pack(">I", 4 + len(body)) + body


def number_of(number: int, form: str) -> bytes:
    """The bytes of a number of which 0 is none."""
    if not 1 <= number < 1 << 8 * struct.calcsize(form):
        raise ValueError(f"{number} is no number of a group, a site or a process")
    return struct.pack(form, number)


def push_at(data: bytes | bytearray, place: int = 0) -> tuple[Push, int] | None:
    """The push at this place of the bytes that have come, and where it ends. None where it is not whole.

    Raises BadFrame where the bytes are no push.
    """
    if len(data) - place < 4:
        return None
    length = int.from_bytes(data[place : place + 4], "big")
    if not 5 <= length <= MOST_FRAME:
        raise BadFrame(f"a frame of {length} bytes")
    if len(data) - place < length:
        return None
    try:
        return Fields(bytes(data[place + 5 : place + length])).push(data[place + 4]), place + length
    except ValueError as error:
        raise BadFrame(f"a frame of type {data[place + 4]}: {error}") from error


class Fields:
    """The fields of a frame, which are read one after the other. ValueError where one is missing or out of its range."""

    def __init__(self, data: bytes):
        self.data, self.place = data, 0

    def push(self, number: int) -> Push:
        """The push of a frame of this type."""
        match number:
            case 65:
                push: Push = Opened(self.process())
            case 66:
                push = Reply(self.number(4), Code(self.number(1)))
            case 67:
                push = View(self.positive(2), self.positive(4), *self.members())
            case 68:
                name = self.positive(2), self.positive(4), self.process(), self.positive(4)
                push = Deliver(*name, Kind(self.number(1)), self.take(min(len(self.data) - self.place, MOST_PAYLOAD)))
            case 69:
                push = Ejected(self.positive(2), self.positive(4))
            case 70:
                push = Denied(self.positive(2), Code(self.positive(1)))
            case 71:
                push = Closed(Code(self.positive(1)))
            case _:
                raise ValueError("programs are not sent it")
        if self.place != len(self.data):
            raise ValueError("it is too long")
        return push

    def take(self, size: int) -> bytes:
        self.place += size
        if self.place > len(self.data):
            raise ValueError("it is too short")
        return self.data[self.place - size : self.place]

    def number(self, size: int) -> int:
        return int.from_bytes(self.take(size), "big")

    def positive(self, size: int) -> int:
        if number := self.number(size):
            return number
        raise ValueError("a number is 0")

    def process(self) -> Process:
        return Process(self.positive(2), self.positive(4))

    def members(self) -> tuple[tuple[Process, ...], Process | None]:
        members = tuple(self.process() for _ in range(self.number(1)))
        if len(members) > MOST_MEMBERS or any(later <= member for member, later in zip(members, members[1:])):
            raise ValueError("its members do not rise, or are too many")
        holder = self.number(1) if members else 0
        if holder > len(members) - bool(members):
            raise ValueError("its holder is no member")
        return members, members[holder] if members else None
