"""Serves pages by HTTP/1.1 (RFC 9112): one request of each connection, which is closed once it is answered."""

from __future__ import annotations

import asyncio
import email.utils
import re
import socket
import urllib.parse
from collections.abc import Awaitable, Callable, Mapping
from dataclasses import dataclass
from http import HTTPStatus

from castd_tools.stream_server import Client, StreamServer

MOST_CLIENTS = 16
LONGEST_HEAD = 8_192
# Within this time a client says what it asks for, and ends after its answer.
_HEAD_SECONDS = 5.0
_LAST_SECONDS = 5.0

# The line of a request. A method is a token of RFC 9110.
_REQUEST_LINE = re.compile(r"([!#$%&'*+.^_`|~0-9A-Za-z-]+) ([!-~]+) HTTP/1\.[01]")
_END_OF_LINE, _END_OF_HEAD = re.compile(rb"\r?\n"), re.compile(rb"\r?\n\r?\n")


@dataclass(frozen=True)
class Response:
    """What is answered: a text of a media type."""

    status: HTTPStatus
    text: str
    media_type: str = "text/plain; charset=utf-8"

    def encode(self, has_body: bool) -> bytes:
        """The bytes of it. Where it has no body, it tells how long that would be."""
        body = self.text.encode()
        head = [
            f"HTTP/1.1 {self.status.value} {self.status.phrase}",
            f"Date: {email.utils.formatdate(usegmt=True)}",
            f"Content-Type: {self.media_type}",
            f"Content-Length: {len(body)}",
            "Connection: close",
        ]
        if self.status == HTTPStatus.METHOD_NOT_ALLOWED:
            head.append("Allow: GET")
        return "".join(f"{line}\r\n" for line in [*head, ""]).encode() + body * has_body


Page = Callable[[], Awaitable[Response]]

_TOO_MANY = Response(HTTPStatus.SERVICE_UNAVAILABLE, "too many clients\n")
_TOO_LONG = Response(HTTPStatus.REQUEST_HEADER_FIELDS_TOO_LARGE, f"a head of more than {LONGEST_HEAD} bytes\n")
_NO_REQUEST = Response(HTTPStatus.BAD_REQUEST, "not a request of HTTP/1.1\n")
_NO_PAGE = Response(HTTPStatus.NOT_FOUND, "no such page\n")
_NO_METHOD = Response(HTTPStatus.METHOD_NOT_ALLOWED, "pages are read by GET\n")


class HttpServer:
    """Answers GET of pages, by their paths.

    A page is made once for all who ask for it meanwhile, so that many who ask make no more work than one.
    """

    def __init__(self, pages: Mapping[str, Page]):
        self._pages = pages
        self._being_made: dict[Page, asyncio.Task[Response]] = {}
        self._server = StreamServer(MOST_CLIENTS, self._serve, _refuse)

    async def start(self, listening: socket.socket) -> None:
        await self._server.start(listening)

    async def close(self) -> None:
        """Ends, and waits for nobody."""
        await self._server.close(0.0)

    async def _serve(self, client: Client) -> None:
        head = await _head_of(client)
        if not head:
            return
        if len(head) > LONGEST_HEAD:
            return await _answer(client, _TOO_LONG)
        line = _END_OF_LINE.split(head, maxsplit=1)[0].decode("latin-1")
        method, _, _ = line.partition(" ")
        await _answer(client, await self._response(line), has_body=method != "HEAD")

    async def _response(self, line: str) -> Response:
        """What the line of a request gets."""
        request = _REQUEST_LINE.fullmatch(line)
        if not request:
            return _NO_REQUEST
        method, target = request.groups()
        try:
            page = self._pages.get(_path_of(target))
        except ValueError:
            return _NO_REQUEST
        if not page:
            return _NO_PAGE
        return await self._made(page) if method == "GET" else _NO_METHOD

    async def _made(self, page: Page) -> Response:
        if page not in self._being_made:
            self._being_made[page] = asyncio.create_task(page())
            self._being_made[page].add_done_callback(lambda _: self._being_made.pop(page))
        return await asyncio.shield(self._being_made[page])


def _path_of(target: str) -> str:
    """The path that a request is for. A `ValueError` where its target is no URL."""
    path = target if target.startswith("/") else urllib.parse.urlsplit(target).path
    return path.partition("?")[0]


async def _head_of(client: Client) -> bytes:
    """The head of what a client asks for, with the empty line behind it.

    It is empty where the client ends before, or is too slow. Of one that is too long, no more is kept than shows that it
    is.
    """
    head = b""
    end = asyncio.get_running_loop().time() + _HEAD_SECONDS
    while len(head) <= LONGEST_HEAD:
        data = await client.read(end - asyncio.get_running_loop().time())
        if not data:
            return b""
        # Empty lines before a request are passed over.
        head = (head + data).lstrip(b"\r\n")
        if found := _END_OF_HEAD.search(head):
            return head[: found.end()]
    return head


async def _refuse(client: Client) -> None:
    if await _head_of(client):
        await _answer(client, _TOO_MANY)


async def _answer(client: Client, response: Response, *, has_body: bool = True) -> None:
    """Sends a response. What the client says besides is passed over: the system would take the response back from a
    client that has not read it, if the connection were closed while there is more to read."""
    await client.send(response.encode(has_body))
    client.end_sending()
    end = asyncio.get_running_loop().time() + _LAST_SECONDS
    while await client.read(end - asyncio.get_running_loop().time()):
        pass
