"""A server that plays a script to one client. The tests of the clients in all languages share it.

    with ScriptedServer(path, write(OPENED), expect(command(JOIN, 1, 1)), write(reply(1, 0)), close()):
        ...  # a client that connects to the Unix socket `path`

The steps are done one after another. Behind the last one the stream stays open until the client closes it. At the end
of the block all steps must be done, and the client must have closed its stream and have sent nothing else.
"""

from __future__ import annotations

import contextlib
import socket
import struct
import threading
import time
from collections.abc import Callable

# Within these seconds a client sends what is expected, and closes its stream at the end.
PATIENCE = 30.0
JOIN, LEAVE, CAST, PASS = 1, 2, 3, 4
CAUSAL, ATOMIC = b"\x01", b"\x02"

Step = Callable[[socket.socket], None]


def write(frames: bytes) -> Step:
    """Writes these bytes."""
    return lambda stream: stream.sendall(frames)


def expect(frames: bytes) -> Step:
    """Reads as many bytes, which must be these."""

    def step(stream: socket.socket) -> None:
        came = b""
        while len(came) < len(frames) and (more := stream.recv(len(frames) - len(came))):
            came += more
        if came != frames:
            raise AssertionError(f"{frames.hex()} was expected, {came.hex() or 'nothing'} came")

    return step


def quiet(seconds: float, frames: bytes = b"") -> Step:
    """Writes these bytes. Nothing may come within so long from then on. What comes later is left for the next step."""

    def step(stream: socket.socket) -> None:
        end = time.monotonic() + seconds
        stream.sendall(frames)
        while (left := end - time.monotonic()) > 0:
            stream.settimeout(left)
            with contextlib.suppress(TimeoutError):
                more = stream.recv(65_536, socket.MSG_PEEK)
                if time.monotonic() < end:
                    raise AssertionError(f"nothing was expected, {more.hex() or 'the end'} came")
        stream.settimeout(PATIENCE)

    return step


def wait(seconds: float) -> Step:
    """Waits so long, whatever comes."""
    return lambda stream: time.sleep(seconds)


def close() -> Step:
    """Closes the stream. This is the last step."""
    return socket.socket.close


class ScriptedServer:
    def __init__(self, path: str, *steps: Step):
        self.steps = steps
        self.fault: str | None = None
        self.listener = socket.socket(socket.AF_UNIX)
        self.listener.settimeout(PATIENCE)
        self.listener.bind(path)
        self.listener.listen()
        self.thread = threading.Thread(target=self.play, daemon=True)
        self.thread.start()

    def __enter__(self) -> ScriptedServer:
        return self

    def __exit__(self, kind: type[BaseException] | None, *_: object) -> None:
        if kind is None:
            self.thread.join()
        self.listener.close()
        if kind is None and self.fault:
            raise AssertionError(self.fault)

    def play(self) -> None:
        """Does the steps. What goes otherwise is kept for the end of the block."""
        at = "connecting"
        try:
            stream, _ = self.listener.accept()
            with stream:
                stream.settimeout(PATIENCE)
                for number, step in enumerate(self.steps, 1):
                    at = f"step {number}"
                    step(stream)
                at = "the end"
                if stream.fileno() >= 0 and (more := rest(stream)):
                    raise AssertionError(f"{more.hex()} came besides")
        except (AssertionError, OSError) as why:
            self.fault = f"{at}: {why}"


def rest(stream: socket.socket) -> bytes:
    """What comes next. A client that closes its stream and has not read all that was written resets it."""
    with contextlib.suppress(ConnectionResetError):
        return stream.recv(65_536)
    return b""


def frame(kind: int, fields: bytes) -> bytes:
    """The bytes of a frame: its whole length, its type, its fields."""
    return struct.pack(">IB", 5 + len(fields), kind) + fields


def command(kind: int, tag: int, group: int, more: bytes = b"") -> bytes:
    """A command. Of a Cast, `more` is the kind and the payload; of a Pass, the bytes of a process."""
    return frame(kind, struct.pack(">IH", tag, group) + more)


def process(site: int, serial: int) -> bytes:
    return struct.pack(">HI", site, serial)


def opened(site: int, serial: int) -> bytes:
    return frame(65, process(site, serial))


def reply(tag: int, code: int) -> bytes:
    return frame(66, struct.pack(">IB", tag, code))


def view(group: int, number: int, *members: bytes, holder: int = 0) -> bytes:
    """A view. Its holder has this place among the members."""
    return frame(67, struct.pack(">HIB", group, number, len(members)) + b"".join(members) + bytes([holder])[: len(members)])


def deliver(group: int, number: int, sender: bytes, count: int, kind: bytes, payload: bytes) -> bytes:
    """A message that was cast in the view of this number."""
    return frame(68, struct.pack(">HI", group, number) + sender + struct.pack(">I", count) + kind + payload)


def ejected(group: int, number: int) -> bytes:
    return frame(69, struct.pack(">HI", group, number))


def denied(group: int, code: int) -> bytes:
    return frame(70, struct.pack(">HB", group, code))


def closed(code: int) -> bytes:
    return frame(71, bytes([code]))


OPENED = opened(1, 1)
