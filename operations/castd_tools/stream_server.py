"""Serves the clients of a socket that listens."""

from __future__ import annotations

import asyncio
import contextlib
import socket
from collections.abc import Awaitable, Callable

_MOST_READ = 4_096
# How long a client may leave unread what it was sent.
_UNREAD_SECONDS = 5.0


class Client:
    """A client that is connected."""

    def __init__(self, reader: asyncio.StreamReader, writer: asyncio.StreamWriter):
        self._reader, self._writer = reader, writer
        # By the clock of the loop; none while it is answered.
        self.silent_since: float | None = asyncio.get_running_loop().time()
        # Whether no more is read of it.
        self.is_closing = False

    async def read(self, seconds: float) -> bytes:
        """What it says next; nothing where it ends, or is silent for so long."""
        if self.is_closing:
            return b""
        self.silent_since = asyncio.get_running_loop().time()
        try:
            async with asyncio.timeout(seconds):
                return await self._reader.read(_MOST_READ)
        except TimeoutError:
            return b""
        finally:
            self.silent_since = None

    async def send(self, data: bytes) -> None:
        """Sends it bytes. A `TimeoutError` where it leaves too much unread for too long."""
        self._writer.write(data)
        async with asyncio.timeout(_UNREAD_SECONDS):
            await self._writer.drain()

    async def end(self) -> None:
        """Closes the connection once it was sent all. A `TimeoutError` where it leaves that unread for too long."""
        self._writer.close()
        async with asyncio.timeout(_UNREAD_SECONDS):
            await self._writer.wait_closed()

    def end_sending(self) -> None:
        """Lets it know that it is sent no more."""
        self._writer.write_eof()

    def abort(self) -> None:
        self._writer.transport.abort()


Serve = Callable[[Client], Awaitable[None]]


class StreamServer:
    """Serves each client by a task of its own, so that one that does not read stops no other.

    Where as many are there as may be, a new one takes the place of the one that has said nothing for longest. It is
    refused while all are answered, and let go of while as many are being refused.
    """

    def __init__(self, most_clients: int, serve: Serve, refuse: Serve):
        self._most_clients, self._serve, self._refuse = most_clients, serve, refuse
        self._served: dict[Client, asyncio.Task] = {}
        self._refused: dict[Client, asyncio.Task] = {}

    async def start(self, listening: socket.socket) -> None:
        self._server = await asyncio.start_server(self._accept, sock=listening)

    async def close(self, seconds: float) -> None:
        """Ends: clients that wait for an answer have so many seconds to get it."""
        self._server.close()
        for client in self._served:
            client.is_closing = True
        answered = [task for client, task in self._served.items() if client.silent_since is None]
        if answered:
            await asyncio.wait(answered, timeout=seconds)
        for task in [*self._served.values(), *self._refused.values()]:
            task.cancel()

    def _accept(self, reader: asyncio.StreamReader, writer: asyncio.StreamWriter) -> None:
        client = Client(reader, writer)
        if len(self._served) >= self._most_clients:
            self._let_go_of_one()
        if len(self._served) < self._most_clients:
            self._begin(client, self._served, self._serve)
        elif len(self._refused) < self._most_clients:
            self._begin(client, self._refused, self._refuse)
        else:
            client.abort()

    def _begin(self, client: Client, clients: dict[Client, asyncio.Task], work: Serve) -> None:
        """Begins to serve or to refuse a client."""
        # asyncio would make a task of a call that waits, and report it as a fault where it ends as cancelled.
        clients[client] = task = asyncio.create_task(_serve_to_end(client, work))
        task.add_done_callback(lambda _: _forget(client, clients))

    def _let_go_of_one(self) -> None:
        """Lets go of the client that has said nothing for longest, if there is one that is not answered."""
        silent = {client: client.silent_since for client in self._served if client.silent_since is not None}
        if silent:
            self._served.pop(min(silent, key=silent.__getitem__)).cancel()


async def _serve_to_end(client: Client, work: Serve) -> None:
    # A client may be gone, or leave for too long unread what it was sent. A `TimeoutError` is an `OSError`.
    with contextlib.suppress(OSError):
        await work(client)
        await client.end()


def _forget(client: Client, clients: dict[Client, asyncio.Task]) -> None:
    client.abort()
    clients.pop(client, None)
