"""The terminal of castd-top: shows the overview again and again, and takes keys. It never waits for a keeper."""

from __future__ import annotations

import asyncio
import contextlib
import curses
import os
import signal
import sys
import time
from collections.abc import Callable

from castd_tools import control
from castd_tools.command_line import stop_signals
from castd_tools.dialog import BACKSPACE, ENTER, ESCAPE, Dialog, Order
from castd_tools.observation import Observer
from castd_tools.overview import plain, window

# How long an escape may be the first byte of another key, in milliseconds.
_ESCAPE_MILLISECONDS = 25

_KEYS = {
    curses.KEY_BACKSPACE: BACKSPACE,
    0x7F: BACKSPACE,
    0x08: BACKSPACE,
    curses.KEY_ENTER: ENTER,
    0x0A: ENTER,
    0x0D: ENTER,
    0x1B: ESCAPE,
    **{code: chr(code) for code in range(0x20, 0x7F)},
}
# By how many lines each key scrolls, and by how many pages.
_LINES = {ord("j"): 1, curses.KEY_DOWN: 1, ord("k"): -1, curses.KEY_UP: -1}
_PAGES = {curses.KEY_NPAGE: 1, curses.KEY_PPAGE: -1}

Overview = Callable[[], list[str]]


def show(observer: Observer, overview: Overview, interval: float) -> None:
    """Shows an overview of what is observed each so many seconds, until the user or a signal ends it."""

    def run(terminal: curses.window) -> None:
        with contextlib.suppress(curses.error):
            curses.use_default_colors()
        asyncio.run(Screen(terminal, observer, overview, interval).run())

    curses.set_escdelay(_ESCAPE_MILLISECONDS)
    curses.wrapper(run)


class Screen:
    """The overview in the lines of a terminal but the last one, where the dialog is."""

    def __init__(self, terminal: curses.window, observer: Observer, overview: Overview, interval: float):
        self._terminal, self._observer, self._overview, self._interval = terminal, observer, overview, interval
        self._dialog = Dialog(observer.installation.configuration)
        # The overview, and its line at the top of the terminal.
        self._lines = ["castd-top  asks the sites"]
        self._first = 0
        self._said: set[asyncio.Task] = set()

    async def run(self) -> None:
        self._ended = stop_signals()
        self._terminal.nodelay(True)
        loop = asyncio.get_running_loop()
        loop.add_signal_handler(signal.SIGWINCH, self._fit)
        loop.add_reader(sys.stdin, self._take_keys)
        self._draw()
        observing, ended = asyncio.create_task(self._observe()), asyncio.create_task(self._ended.wait())
        await asyncio.wait({observing, ended}, return_when=asyncio.FIRST_COMPLETED)
        if observing.done():
            observing.result()

    async def _observe(self) -> None:
        while True:
            begun = time.monotonic()
            await self._observer.observe()
            self._lines = self._overview()
            self._draw()
            await asyncio.sleep(begun + self._interval - time.monotonic())

    def _fit(self) -> None:
        """Takes the size that the terminal has now."""
        size = os.get_terminal_size(sys.stdout.fileno())
        curses.resizeterm(max(1, size.lines), max(1, size.columns))
        self._draw()

    def _draw(self) -> None:
        height, width = self._terminal.getmaxyx()
        self._first, shown = window(self._lines, self._first, height - 1)
        self._terminal.erase()
        for row, line in enumerate(shown):
            self._terminal.insnstr(row, 0, line, width)
        said = plain(self._dialog.text)
        self._terminal.insnstr(height - 1, 0, said, width)
        self._terminal.move(height - 1, min(len(said), width - 1))
        self._terminal.refresh()

    def _take_keys(self) -> None:
        """Takes what was typed. Something was, unless the terminal is gone."""
        code = self._terminal.getch()
        if code == curses.ERR:
            self._ended.set()
        while code != curses.ERR:
            self._take(code)
            code = self._terminal.getch()
        if self._dialog.is_over:
            self._ended.set()
        self._draw()

    def _take(self, code: int) -> None:
        height = self._terminal.getmaxyx()[0] - 1
        if not self._dialog.is_asking and code in _LINES:
            self._first, _ = window(self._lines, self._first + _LINES[code], height)
        elif not self._dialog.is_asking and code in _PAGES:
            # The last line of a page says what does not fit.
            self._first, _ = window(self._lines, self._first + _PAGES[code] * max(1, height - 1), height)
        elif code in _KEYS and (order := self._dialog.press(_KEYS[code], self._observer.installation.running())):
            said = asyncio.create_task(self._say(order))
            self._said.add(said)
            said.add_done_callback(self._said.discard)

    async def _say(self, order: Order) -> None:
        """Says a line, and shows what came of it."""
        try:
            path = self._observer.installation.control_socket(order.site)
            answer = await control.ask(path, order.line, control.ANSWER_SECONDS)
        except control.ControlError as error:
            answer = [str(error)]
        self._dialog.tell(f"{order.line} at site {order.site}: {'; '.join(answer)}")
        self._draw()
