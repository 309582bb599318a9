"""A client of castd, the group communication daemon.

`Session(path)` connects to the Unix socket of a domain; its calls wait. `castd.aio.connect` does so for asyncio, and
`castd.replica.Replica` keeps one state at all members of a group. docs/CLIENTS.md of castd says what a program can rely
on. `python3 -m castd SOCKET` is a line tool.
"""

from .codec import (
    MOST_PAYLOAD,
    Cast,
    Closed,
    Command,
    Deliver,
    Denied,
    Ejected,
    Join,
    Kind,
    Leave,
    Opened,
    Pass,
    Process,
    Push,
    Reply,
    View,
)
from .errors import BadFrame, Code, Ended, Error, Late, Refused
from .session import Session
from .text import process_of, text_of

ATOMIC, CAUSAL = Kind.ATOMIC, Kind.CAUSAL

__all__ = [
    "ATOMIC",
    "CAUSAL",
    "MOST_PAYLOAD",
    "BadFrame",
    "Cast",
    "Closed",
    "Code",
    "Command",
    "Deliver",
    "Denied",
    "Ejected",
    "Ended",
    "Error",
    "Join",
    "Kind",
    "Late",
    "Leave",
    "Opened",
    "Pass",
    "Process",
    "Push",
    "Refused",
    "Reply",
    "Session",
    "View",
    "process_of",
    "text_of",
]
