"""The standard input of the keeper as a console: its lines are answered on the standard output."""

from __future__ import annotations

import asyncio
import contextlib
import os
import threading
from concurrent.futures import CancelledError

from castd_tools.control import LineBuffer
from castd_tools.control_server import Answer

_INPUT, _OUTPUT = 0, 1
_MOST_READ = 4_096
_CLOSE_SECONDS = 1.0


class StandardConsole:
    """Says `ready`, and then answers lines until the input ends.

    A thread does it: input and output may be files, terminals, or pipes that nobody reads. Nobody else waits for them.
    """

    def __init__(self, answer: Answer):
        self._answer = answer
        self._is_told = threading.Event()

    def start(self) -> None:
        self._loop = asyncio.get_running_loop()
        threading.Thread(target=self._run, daemon=True).start()

    async def close(self) -> None:
        """Gives the thread a little time to write the answer that it owes."""
        await asyncio.to_thread(self._is_told.wait, _CLOSE_SECONDS)

    def _run(self) -> None:
        lines = LineBuffer()
        # Without input or output there is no console, and at the end of the program no answer.
        with contextlib.suppress(OSError, CancelledError, RuntimeError):
            self._write(["ready"])
            self._is_told.set()
            while data := os.read(_INPUT, _MOST_READ):
                self._is_told.clear()
                for line in lines.feed(data):
                    self._write(asyncio.run_coroutine_threadsafe(self._answer(line), self._loop).result())
                self._is_told.set()
        self._is_told.set()

    def _write(self, answer: list[str]) -> None:
        data = "".join(f"{line}\n" for line in answer).encode()
        while data:
            data = data[os.write(_OUTPUT, data) :]
