"""Why a call did not do what it was to do."""

from __future__ import annotations

import enum


class Code(enum.IntEnum):
    """What a command is answered, and why a stream is closed. docs/CLIENTS.md of castd says what to do at each."""

    DONE = 0
    BAD_FRAME = 1
    NOT_OPEN = 2
    TOO_MANY_SESSIONS = 3
    NO_GROUP = 4
    NOT_MEMBER = 5
    ALREADY_MEMBER = 6
    FLUSHING = 7
    OWN_ABCAST = 8
    HELD_FULL = 9
    TOO_LONG = 10
    NOT_HOLDER = 11
    SLOW = 12
    HALTED = 13
    GROUP_FULL = 14
    OUT_OF_RANGE = 15

    @property
    def text(self) -> str:
        """The name as all clients and documents have it, such as `NotMember`."""
        return self.name.title().replace("_", "")


class Error(Exception):
    """A call failed. Unless `may_be_done`, nothing was done, and the command may be given again."""

    def __init__(self, text: str, may_be_done: bool = False):
        super().__init__(f"{text}; it may have been done" if may_be_done else text)
        self.may_be_done = may_be_done


class Refused(Error):
    """The daemon refused the command, or the connection, with this code."""

    def __init__(self, code: Code):
        super().__init__(f"refused: {code.text}")
        self.code = code


class Late(Error):
    """The time was over before the command was sent, or, where it may have been done, before it was answered."""

    def __init__(self, may_be_done: bool):
        super().__init__("the time is over", may_be_done)


class Ended(Error):
    """The session is over. `code` is that of Closed, if the daemon said why."""

    def __init__(self, code: Code | None = None, may_be_done: bool = False):
        super().__init__(f"the session is over: {code.text}" if code else "the session is over", may_be_done)
        self.code = code


class BadFrame(Error):
    """The daemon sent what it never sends. The session is over."""

    def __init__(self, what: str, may_be_done: bool = False):
        super().__init__(f"the daemon sent {what}", may_be_done)
        self.what = what
