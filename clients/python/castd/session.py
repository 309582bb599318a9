"""A session whose calls wait."""

from __future__ import annotations

import contextlib
import math
import select
import socket
import threading
import time
from collections.abc import Callable, Iterator

from .codec import Cast, Command, Join, Kind, Leave, Pass, Process, Push, View
from .conversation import PAUSE, Conversation, ended
from .errors import Ended, Late

MOST_AT_ONCE = 1 << 16
# The system waits no longer than some days. So a call that waits longer does so again and again.
LONGEST_WAIT = 1e6


class Session:
    """A connection to the Unix socket of a domain: one process of it. Any thread may make any call.

    A timeout is in seconds from the call on; None means for ever. Calls raise Refused, Late, Ended, BadFrame, and
    ValueError for a number that is out of its range. A cast that returned is delivered to its sender, unless this one
    leaves the group, is ejected or ends before; one that failed and not `may_be_done` was not cast.
    """

    def __init__(self, path: str, timeout: float | None = None):
        """Connects, and waits for the own process. OSError where there is no such socket."""
        end = end_of(timeout)
        self._conversation, self._unsent = Conversation(), b""
        # One thread at a time waits for the socket, the others for that thread.
        self._turn, self._is_polled = threading.Condition(), False
        self._poll, self._socket = select.poll(), socket.socket(socket.AF_UNIX, socket.SOCK_STREAM)
        try:
            self._socket.setblocking(False)
            while not is_connected(self._socket, path):
                if time.monotonic() >= end:
                    raise Late(may_be_done=False)
                time.sleep(PAUSE)
            with self._turn:
                self._wait(lambda: self._conversation.process, end)
            self.process = self._conversation.opened()
        except BaseException:
            self._socket.close()
            raise

    def join(self, group: int, timeout: float | None = None) -> View:
        """Becomes a member of a group, and returns the first view with it, which `read` gives too."""
        view = self._call(Join(group), timeout)
        assert view
        return view

    def leave(self, group: int, timeout: float | None = None) -> None:
        """Leaves a group at once."""
        self._call(Leave(group), timeout)

    def cast(self, group: int, payload: bytes, timeout: float | None = None) -> None:
        """Casts in causal order. While that is too early, this call and all later ones wait."""
        self._call(Cast(group, Kind.CAUSAL, payload), timeout)

    def abcast(self, group: int, payload: bytes, timeout: float | None = None) -> None:
        """Casts in the one order of all members. While that is too early, this call and all later ones wait."""
        self._call(Cast(group, Kind.ATOMIC, payload), timeout)

    def pass_to(self, group: int, process: Process, timeout: float | None = None) -> None:
        """Hands the token to another member. While that is too early, this call and all later ones wait."""
        self._call(Pass(group, process), timeout)

    def send(self, command: Command) -> int:
        """Puts a command into the queue, and does not wait. Its Reply, which `read` gives, bears the returned tag."""
        with self._turn:
            tag = self._conversation.add(command).tag
            self._move()
        return tag

    def read(self, timeout: float | None = None) -> Push | None:
        """The next push, or None where none came in time. Ended behind the last one."""
        end, conversation = end_of(timeout), self._conversation
        with self._turn:
            self._wait(lambda: conversation.pushes, end)
            if conversation.pushes:
                return conversation.pushes.popleft()
            if conversation.over:
                raise ended(conversation.over, may_be_done=False)
            return None

    def __iter__(self) -> Iterator[Push]:
        """The pushes until the session is over."""
        with contextlib.suppress(Ended):
            while push := self.read():
                yield push

    def fileno(self) -> int:
        """The descriptor of the socket. What calls have kept for `read` does not make it readable."""
        return self._socket.fileno()

    def close(self) -> None:
        """Ends the session, and waits for nothing. Calls of other threads raise Ended."""
        with self._turn:
            self._conversation.end(Ended())
            with contextlib.suppress(OSError):
                self._socket.shutdown(socket.SHUT_RDWR)
            # A thread that waits for the socket wakes, and closes it.
            if not self._is_polled:
                self._socket.close()
            self._turn.notify_all()

    def __enter__(self) -> Session:
        return self

    def __exit__(self, *_: object) -> None:
        self.close()

    def _call(self, command: Command, timeout: float | None) -> View | None:
        end = end_of(timeout)
        with self._turn:
            pending = self._conversation.add(command, is_called=True)
            try:
                self._wait(lambda: pending.is_over, end)
            finally:
                self._conversation.give_up(pending)
                self._move()
        return pending.outcome()

    def _wait(self, is_so: Callable[[], object], end: float) -> None:
        """Sends and receives until that is so, or the session is over, or the time. The caller has the turn."""
        self._move()
        while not is_so() and not self._conversation.over:
            left = end - time.monotonic()
            if self._is_polled:
                self._turn.wait(max(0.0, min(left, LONGEST_WAIT)))
            else:
                self._poll_for(left)
            if left <= 0:
                return

    def _poll_for(self, seconds: float) -> None:
        """Waits for the socket, while others may have the turn, and moves what there is to move."""
        pause = self._conversation.pause(time.monotonic())
        seconds = max(0.0, min(seconds, LONGEST_WAIT if pause is None else pause))
        self._poll.register(self._socket, select.POLLIN | (select.POLLOUT if self._unsent else 0))
        self._is_polled = True
        try:
            # Within the block, so that an interruption leaves the turn and the flag as they were.
            self._turn.release()
            is_ready = self._poll.poll(math.ceil(1000 * seconds))
        finally:
            self._turn.acquire()
            self._is_polled = False
            self._turn.notify_all()
            if self._conversation.over:
                self._socket.close()
        if is_ready and not self._conversation.over:
            self._receive()
        self._move()

    def _receive(self) -> None:
        with contextlib.suppress(BlockingIOError):
            try:
                data = self._socket.recv(MOST_AT_ONCE)
            except ConnectionError:
                data = b""
            self._conversation.receive(data, time.monotonic())

    def _move(self) -> None:
        """Sends what is to be sent now. A stream that is broken ends when it is read."""
        self._unsent += self._conversation.frame(time.monotonic())
        if self._unsent and not self._conversation.over:
            with contextlib.suppress(BlockingIOError, ConnectionError):
                self._unsent = self._unsent[self._socket.send(self._unsent, socket.MSG_NOSIGNAL) :]


def is_connected(stream: socket.socket, path: str) -> bool:
    """Connects, unless too many wait for the daemon already: then it may be tried again."""
    with contextlib.suppress(BlockingIOError):
        stream.connect(path)
        return True
    return False


def end_of(timeout: float | None) -> float:
    """When the time of a call is over."""
    return math.inf if timeout is None else time.monotonic() + timeout
