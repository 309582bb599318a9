"""One state at all members of a group: operations are ABCASTs, and newcomers are given the state."""

from __future__ import annotations

import contextlib
import struct
import threading
from collections import deque
from collections.abc import Iterable
from concurrent.futures import Future
from typing import Any, Protocol

from .codec import Cast, Deliver, Ejected, Kind, Process, Push, Reply, View
from .errors import BadFrame, Code, Ended, Error, Refused

# How the payload of an ABCAST begins: an operation; that the sender lacks the state, with the view; a part of the state,
# with the view, the number of the part from 0 on, and how many there are. Any other payload is passed over.
OPERATION, LACKS, PART = b"\0", b"\1", b"\2"
LACKS_HEAD, PART_HEAD = struct.Struct(">I"), struct.Struct(">III")
MOST_PART = 16_000


class Machine(Protocol):
    """The state, which only operations change. The same operations in the same order give the same state everywhere."""

    def apply(self, process: Process, operation: bytes) -> Any:
        """Does an operation of a process, and raises nothing. The result is for that process alone."""

    def snapshot(self) -> bytes:
        """The state as bytes."""

    def restore(self, state: bytes) -> None:
        """Takes over a state that `snapshot` gave."""


class Sender(Protocol):
    """What a replica wants of a session, blocking or of asyncio."""

    process: Process

    def send(self, command: Cast) -> int:
        """As the sessions have it."""


class State:
    """What a member has sent of the state. A part that is not the next one is passed over."""

    def __init__(self) -> None:
        self.parts: list[bytes] = []
        self.count = 0

    def add(self, number: int, count: int, part: bytes) -> None:
        """A part of so many."""
        if not self.parts:
            self.count = count
        if number == len(self.parts) < count == self.count:
            self.parts.append(part)

    def is_whole(self) -> bool:
        return 0 < self.count == len(self.parts)


class Replica:
    """The copy of a member. It is given all pushes of its session, and reads nothing itself.

    At each view those that lack the state say so, and take it from one member: the holder that the view names, unless that
    says so too, and else the least member that does not. This one ABCASTs it. The others keep what is delivered in the view
    until then, and do it behind the state. If all members lack it, all begin with the state that their machines had at
    first. All members are to be replicas, since one that says nothing may be waited for. A program that has left the group
    makes a new session for a new replica; one that was ejected joins again.

    `take` calls the machine. With a blocking session `operation` may be called by any thread, but its future is waited for
    in another one than that which calls `take`. With one of asyncio it is called by tasks of the loop, which await
    `asyncio.wrap_future(replica.operation(…))`.
    """

    def __init__(self, session: Sender, group: int, machine: Machine):
        self.session, self.group, self.machine = session, group, machine
        self.initial = machine.snapshot()
        self.has_state, self.view = False, 0
        self.members: frozenset[Process] = frozenset()
        # Known where the state is: who has it.
        self.holders: set[Process] = set()
        # Of this view: whether the state is still to come to a member; from whom, the first of these; what has come of it
        # by sender; and the operations before it.
        self.is_awaited = False
        self.sources: list[Process] = []
        self.states: dict[Process, State] = {}
        self.kept: list[tuple[Process, bytes, Future[Any] | None]] = []
        # What is cast and not answered, by tags, and the operations that are answered and not delivered.
        self.turn = threading.Lock()
        self.asked: dict[int, Future[Any] | None] = {}
        self.done: deque[Future[Any]] = deque()

    def operation(self, payload: bytes) -> Future[Any]:
        """ABCASTs an operation of at most 16,383 bytes. The future has its result once it was done here.

        It fails with Refused where the operation was not cast, and with an Error that it may have been done where it was
        not delivered here before the membership or the session was over.
        """
        future: Future[Any] = Future()
        future.set_running_or_notify_cancel()
        self._send(OPERATION + payload, future)
        return future

    def take(self, push: Push) -> bool:
        """Takes a push. Whether it was an affair of the replica alone."""
        match push:
            case Reply(tag, code):
                return self._answer(tag, code)
            case View(group=self.group):
                self._begin(push)
            case Ejected(group=self.group):
                self.has_state = False
                self.end()
            case Deliver(group=self.group, kind=Kind.ATOMIC):
                self._deliver(push)
                return True
        return False

    def end(self) -> None:
        """Fails the operations that were not delivered here. To be called at the end of the session."""
        with self.turn:
            asked = [future for future in self.asked.values() if future]
            # Where the session goes on, the answers still come.
            self.asked = dict.fromkeys(self.asked)
        fail([*asked, *self.done])
        self.done.clear()
        self._drop()

    def _send(self, payload: bytes, future: Future[Any] | None = None) -> None:
        with self.turn:
            self.asked[self.session.send(Cast(self.group, Kind.ATOMIC, payload))] = future

    def _answer(self, tag: int, code: Code) -> bool:
        with self.turn:
            if tag not in self.asked:
                return False
            future = self.asked.pop(tag)
        if future and code:
            future.set_exception(Refused(code))
        elif future:
            self.done.append(future)
        return True

    def _begin(self, view: View) -> None:
        self.view, self.members = view.view, frozenset(view.members)
        self.sources = sorted(view.members, key=lambda it: (it != view.holder, it))
        self.states.clear()
        self._drop()
        self.holders &= self.members
        self.is_awaited = not self.has_state or self.holders != self.members
        # Where the session is over already, what came before is taken all the same.
        with contextlib.suppress(Ended, BadFrame):
            if not self.has_state:
                self._send(LACKS + LACKS_HEAD.pack(self.view))
            elif self.is_awaited and self.session.process == next(it for it in self.sources if it in self.holders):
                self._send_state()

    def _send_state(self) -> None:
        state = self.machine.snapshot()
        parts = [state[place : place + MOST_PART] for place in range(0, len(state), MOST_PART)] or [b""]
        for number, part in enumerate(parts):
            self._send(PART + PART_HEAD.pack(self.view, number, len(parts)) + part)

    def _deliver(self, push: Deliver) -> None:
        start, rest = push.payload[:1], push.payload[1:]
        if start == OPERATION:
            is_own = push.process == self.session.process
            operation = push.process, rest, self.done.popleft() if is_own and self.done else None
            if self.has_state:
                self._do(*operation)
            else:
                self.kept.append(operation)
        elif self.is_awaited and start == LACKS and rest == LACKS_HEAD.pack(self.view):
            self.sources = [it for it in self.sources if it != push.process]
            self._look()
        elif self.is_awaited and start == PART and len(rest) >= PART_HEAD.size:
            view, number, count = PART_HEAD.unpack_from(rest)
            if view == self.view:
                self.states.setdefault(push.process, State()).add(number, count, rest[PART_HEAD.size :])
                self._look()

    def _look(self) -> None:
        """Whether the state has come, or is that with which all begin since all lack it."""
        if not self.sources:
            self._have(self.initial)
        elif (state := self.states.get(self.sources[0])) and state.is_whole():
            self._have(b"".join(state.parts))

    def _have(self, state: bytes) -> None:
        """All members have the state from here on. It is this one, where it was not here."""
        self.holders, self.is_awaited = set(self.members), False
        self.states.clear()
        if not self.has_state:
            self.machine.restore(state)
            self.has_state = True
            for operation in self.kept:
                self._do(*operation)
            self.kept.clear()

    def _do(self, process: Process, operation: bytes, future: Future[Any] | None) -> None:
        result = self.machine.apply(process, operation)
        if future:
            future.set_result(result)

    def _drop(self) -> None:
        """Drops what was kept. The state that comes has it."""
        fail([future for _, _, future in self.kept if future])
        self.kept.clear()


def fail(futures: Iterable[Future[Any]]) -> None:
    for future in futures:
        future.set_exception(Error("the result is not known", may_be_done=True))
