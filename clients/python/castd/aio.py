"""A session for asyncio: the calls of `castd.Session` as coroutines of one event loop."""

from __future__ import annotations

import asyncio
import contextlib
import socket
from collections.abc import AsyncIterator

from .codec import Cast, Command, Join, Kind, Leave, Pass, Process, Push, View
from .conversation import PAUSE, Conversation, ended
from .errors import Ended, Late
from .session import is_connected

# While so many pushes wait for `read` and no call for its answer, nothing is received. So the daemon closes the session
# of a program that does not read, as it does without asyncio.
MOST_KEPT = 1024


async def connect(path: str, timeout: float | None = None) -> Session:
    """Connects, and waits for the own process. OSError where there is no such socket."""
    session = Session()
    try:
        await asyncio.wait_for(session._open(path), timeout)
    except asyncio.TimeoutError:
        session.close()
        raise Late(may_be_done=False) from None
    except BaseException:
        session.close()
        raise
    return session


class Session(asyncio.Protocol):
    """A connection that `connect` has made. The calls fail as those of `castd.Session` do.

    A call whose task is cancelled ends as at the end of its time: its command may be done, if it was sent already. One
    task at a time may read.
    """

    process: Process
    _transport: asyncio.Transport | None = None
    _timer: asyncio.TimerHandle | None = None

    def __init__(self) -> None:
        self._loop, self._conversation, self._calls = asyncio.get_running_loop(), Conversation(), 0
        self._came = asyncio.Event()

    async def join(self, group: int, timeout: float | None = None) -> View:
        """Becomes a member of a group, and returns the first view with it, which `read` gives too."""
        view = await self._call(Join(group), timeout)
        assert view
        return view

    async def leave(self, group: int, timeout: float | None = None) -> None:
        """Leaves a group at once."""
        await self._call(Leave(group), timeout)

    async def cast(self, group: int, payload: bytes, timeout: float | None = None) -> None:
        """Casts in causal order. While that is too early, this call and all later ones wait."""
        await self._call(Cast(group, Kind.CAUSAL, payload), timeout)

    async def abcast(self, group: int, payload: bytes, timeout: float | None = None) -> None:
        """Casts in the one order of all members. While that is too early, this call and all later ones wait."""
        await self._call(Cast(group, Kind.ATOMIC, payload), timeout)

    async def pass_to(self, group: int, process: Process, timeout: float | None = None) -> None:
        """Hands the token to another member. While that is too early, this call and all later ones wait."""
        await self._call(Pass(group, process), timeout)

    def send(self, command: Command) -> int:
        """Puts a command into the queue, and does not wait. Its Reply, which `read` gives, bears the returned tag."""
        tag = self._conversation.add(command).tag
        self._move()
        return tag

    async def read(self, timeout: float | None = None) -> Push | None:
        """The next push, or None where none came in time. Ended behind the last one."""
        conversation = self._conversation
        if not conversation.pushes:
            with contextlib.suppress(asyncio.TimeoutError):
                await asyncio.wait_for(self._arrival(), timeout)
        if conversation.pushes:
            push = conversation.pushes.popleft()
            self._move()
            return push
        if conversation.over:
            raise ended(conversation.over, may_be_done=False)
        return None

    async def __aiter__(self) -> AsyncIterator[Push]:
        """The pushes until the session is over."""
        with contextlib.suppress(Ended):
            while push := await self.read():
                yield push

    def close(self) -> None:
        """Ends the session. Calls of other tasks raise Ended."""
        self._conversation.end(Ended())
        if self._transport:
            self._transport.close()
        self._move()

    async def __aenter__(self) -> Session:
        return self

    async def __aexit__(self, *_: object) -> None:
        self.close()

    async def _open(self, path: str) -> None:
        # asyncio takes a socket for connected where too many wait for the daemon.
        stream = socket.socket(socket.AF_UNIX, socket.SOCK_STREAM)
        try:
            stream.setblocking(False)
            while not is_connected(stream, path):
                await asyncio.sleep(PAUSE)
            await self._loop.create_unix_connection(lambda: self, sock=stream)
        except BaseException:
            stream.close()
            raise
        await self._arrival()
        self.process = self._conversation.opened()

    async def _call(self, command: Command, timeout: float | None) -> View | None:
        done = self._loop.create_future()
        pending = self._conversation.add(command, True, lambda: done.done() or done.set_result(None))
        self._calls += 1
        self._move()
        try:
            await asyncio.wait([done], timeout=timeout)
        finally:
            self._calls -= 1
            self._conversation.give_up(pending)
            self._move()
        return pending.outcome()

    async def _arrival(self) -> None:
        while not self._conversation.pushes and not self._conversation.over:
            self._came.clear()
            await self._came.wait()

    def connection_made(self, transport: asyncio.BaseTransport) -> None:
        assert isinstance(transport, asyncio.Transport)
        self._transport = transport

    def data_received(self, data: bytes) -> None:
        self._conversation.receive(data, self._loop.time())
        self._move()

    def connection_lost(self, error: Exception | None) -> None:
        self._conversation.receive(b"", self._loop.time())
        self._move()

    def _move(self) -> None:
        """Sends what is to be sent now, comes back for what is sent later, and wakes who reads."""
        conversation, now = self._conversation, self._loop.time()
        frame = conversation.frame(now)
        if frame and self._transport:
            self._transport.write(frame)
        if self._timer:
            self._timer.cancel()
        pause = conversation.pause(now)
        self._timer = None if pause is None else self._loop.call_later(pause, self._move)
        if conversation.pushes or conversation.over:
            self._came.set()
        if self._transport and not self._transport.is_closing():
            if len(conversation.pushes) < MOST_KEPT or self._calls:
                self._transport.resume_reading()
            else:
                self._transport.pause_reading()
