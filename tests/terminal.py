"""A terminal of the kind vt52, at which a program runs: what it shows, and keys that are pressed."""

from __future__ import annotations

import os
import pty
import select
import subprocess
import termios
import time
from collections.abc import Callable

from daemons import Failed

ESCAPE = 0x1B
ARROW_DOWN, ARROW_UP = "\x1bB", "\x1bA"
CONTROL_C = "\x03"


class Terminal:
    """The screen of a vt52: characters in rows. It does not wrap, and scrolls at a line feed in its last row."""

    def __init__(self, rows: int, columns: int):
        self.rows = [[" "] * columns for _ in range(rows)]
        self._row = self._column = 0
        self._bytes = b""

    def text(self) -> list[str]:
        """What it shows, without the spaces behind it."""
        return ["".join(row).rstrip() for row in self.rows]

    def resize(self, rows: int, columns: int) -> None:
        """What is no longer there is lost, and what is new is empty."""
        kept = [(row + [" "] * columns)[:columns] for row in self.rows]
        self.rows = (kept + [[" "] * columns for _ in range(rows)])[:rows]
        self._move(self._row, self._column)

    def feed(self, data: bytes) -> None:
        """Takes what the program wrote. An escape that is not whole waits for its rest."""
        self._bytes += data
        while self._bytes:
            length = 1 if self._bytes[0] != ESCAPE else 4 if self._bytes[1:2] == b"Y" else 2
            if len(self._bytes) < length:
                return
            taken, self._bytes = self._bytes[:length], self._bytes[length:]
            if taken[0] == ESCAPE:
                self._escape(chr(taken[1]), taken[2:])
            else:
                self._character(chr(taken[0]))

    def _escape(self, kind: str, place: bytes) -> None:
        match kind:
            case "A" | "B" | "C" | "D":
                down, right = {"A": (-1, 0), "B": (1, 0), "C": (0, 1), "D": (0, -1)}[kind]
                self._move(self._row + down, self._column + right)
            case "H":
                self._move(0, 0)
            case "Y":
                self._move(place[0] - 32, place[1] - 32)
            case "J":
                self._clear_line()
                for row in self.rows[self._row + 1 :]:
                    row[:] = [" "] * len(row)
            case "K":
                self._clear_line()
            case "=" | ">" | "F" | "G":
                # What the keys of the keypad send, and in which characters is written. No program here writes graphic ones.
                pass
            case _:
                raise Failed(f"the terminal does not know the escape {kind!r}")

    def _character(self, character: str) -> None:
        match character:
            case "\r":
                self._move(self._row, 0)
            case "\b":
                self._move(self._row, self._column - 1)
            case "\n" if self._row == len(self.rows) - 1:
                self.rows = [*self.rows[1:], [" "] * len(self.rows[0])]
            case "\n":
                self._move(self._row + 1, self._column)
            case "\t":
                self._move(self._row, self._column // 8 * 8 + 8)
            case _ if character.isprintable():
                self.rows[self._row][self._column] = character
                self._move(self._row, self._column + 1)
            case _:
                raise Failed(f"the terminal does not know the character {character!r}")

    def _clear_line(self) -> None:
        row = self.rows[self._row]
        row[self._column :] = [" "] * (len(row) - self._column)

    def _move(self, row: int, column: int) -> None:
        self._row = max(0, min(row, len(self.rows) - 1))
        self._column = max(0, min(column, len(self.rows[0]) - 1))


class AtTerminal:
    """A program that runs at a terminal."""

    def __init__(self, words: list[str], rows: int = 24, columns: int = 80, kind: str = "vt52", **environment: str):
        self.terminal = Terminal(rows, columns)
        self._master, self._program_side = pty.openpty()
        termios.tcsetwinsize(self._master, (rows, columns))
        self.settings = termios.tcgetattr(self._program_side)
        self.process = subprocess.Popen(
            words,
            env={**os.environ, "TERM": kind, "LINES": "", "COLUMNS": "", **environment},
            preexec_fn=lambda: os.login_tty(os.dup(self._program_side)),
        )

    def press(self, keys: str) -> None:
        os.write(self._master, keys.encode())

    def resize(self, rows: int, columns: int) -> None:
        self.terminal.resize(rows, columns)
        termios.tcsetwinsize(self._master, (rows, columns))

    def settings_now(self) -> list:
        """How the terminal is set, as tcgetattr(3) has it."""
        return termios.tcgetattr(self._program_side)

    def wait_for(self, holds: Callable[[list[str]], bool], within: float) -> list[str]:
        """What it shows once this holds of it."""
        end = time.monotonic() + within
        while not holds(self.terminal.text()):
            left = end - time.monotonic()
            if left < 0:
                raise Failed("the terminal shows\n" + "\n".join(self.terminal.text()))
            self.read(left)
        return self.terminal.text()

    def read(self, seconds: float) -> None:
        """Takes what the program writes next, if it does so within these seconds."""
        if select.select([self._master], [], [], seconds)[0]:
            self.terminal.feed(os.read(self._master, 65_536))

    def end(self) -> None:
        self.process.kill()
        self.process.wait()
        os.close(self._master)
        os.close(self._program_side)
