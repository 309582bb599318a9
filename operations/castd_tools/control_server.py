"""Answers lines of clients at a control socket."""

from __future__ import annotations

import socket
from collections.abc import Awaitable, Callable

from castd_tools.control import KEEPER, LineBuffer
from castd_tools.stream_server import Client, StreamServer

MOST_CLIENTS = 64
# How long a client may say nothing, also one too many.
_SILENT_SECONDS = 60.0
_REFUSED_SECONDS = 5.0
# How long clients are waited for in the end.
_CLOSE_SECONDS = 1.0

Answer = Callable[[bytes], Awaitable[list[str]]]


class ControlServer:
    """Answers what clients say, line by line."""

    def __init__(self, answer: Answer):
        self._answer = answer
        self._server = StreamServer(MOST_CLIENTS, self._serve, _refuse)

    async def start(self, listening: socket.socket) -> None:
        await self._server.start(listening)

    async def close(self) -> None:
        """Ends: clients that wait for an answer have a little time to get it."""
        await self._server.close(_CLOSE_SECONDS)

    async def _serve(self, client: Client) -> None:
        lines = LineBuffer()
        while data := await client.read(_SILENT_SECONDS):
            for line in lines.feed(data):
                await _send(client, await self._answer(line))


async def _refuse(client: Client) -> None:
    await client.read(_REFUSED_SECONDS)
    await _send(client, [f"{KEEPER}too many clients"])


async def _send(client: Client, answer: list[str]) -> None:
    await client.send("".join(f"{line}\n" for line in [*answer, ""]).encode())
