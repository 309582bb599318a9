"""The console of a daemon that runs: lines on its standard input, answers on its standard output.

An answer of castd does not say where it ends. So an empty line follows each line: its answer, `fault 1`, ends that of
the line.
"""

from __future__ import annotations

import asyncio
from collections.abc import Callable

STOP = "stop"
OK = "ok"
_READY = b"ready\n"
_EMPTY_LINE = "fault 1"


class Unanswered(Exception):
    """A line has no answer. Its text says why."""


class Console:
    """Says one line at a time. `observe` is told each line that was answered, with its answer."""

    def __init__(
        self, input: asyncio.StreamWriter, output: asyncio.StreamReader, observe: Callable[[str, list[str]], None]
    ):
        self._input, self._output, self._observe = input, output, observe
        self._turn = asyncio.Lock()

    async def comes_to_serve(self) -> bool:
        """Whether the daemon comes to serve. This is asked once, and before any line."""
        async with self._turn:
            return await self._output.readline() == _READY

    async def ask(self, line: str, seconds: float) -> list[str]:
        """Says a line, which is not empty, and gives the lines of its answer. `Unanswered` where none comes in time.

        A line that has its turn is said. If its answer comes late, it is read all the same, and the next line waits for
        that.
        """
        exchange = None
        try:
            async with asyncio.timeout(seconds):
                await self._turn.acquire()
                exchange = asyncio.create_task(self._exchange(line))
                answer = await asyncio.shield(exchange)
        except TimeoutError as error:
            told = "said, but the daemon does not answer" if exchange else "not said: the daemon does not answer"
            raise Unanswered(told) from error
        if answer is None:
            raise Unanswered("the daemon has ended")
        return answer

    async def _exchange(self, line: str) -> list[str] | None:
        """Says a line, reads its answer, and gives the turn away. None where the daemon ends before it has answered."""
        try:
            self._input.write(f"{line}\n\n".encode())
            answer = await self._answer(line)
        finally:
            self._turn.release()
        if answer is not None:
            self._observe(line, answer)
        return answer

    async def _answer(self, line: str) -> list[str] | None:
        answer: list[str] = []
        while said := await self._output.readline():
            text = said.decode("utf-8", "replace").removesuffix("\n")
            if text == _EMPTY_LINE:
                return answer
            if text:
                answer.append(text)
        # A daemon that was told to stop answers that line, and ends.
        return answer if line == STOP and answer == [OK] else None
