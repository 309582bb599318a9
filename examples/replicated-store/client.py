"""A client of a store."""

from __future__ import annotations

import socket


class NoAnswer(Exception):
    """The store cannot be reached, or did not answer: what it was asked may have been done or not."""


class Client:
    """A connection to a store. It is used by one thread at a time."""

    def __init__(self, path: str, timeout: float):
        """Connects to the socket of a store. `timeout` is for how many seconds an answer is waited for."""
        self._socket = socket.socket(socket.AF_UNIX)
        self._socket.settimeout(timeout)
        try:
            self._socket.connect(path)
        except OSError as error:
            self._socket.close()
            raise NoAnswer(str(error)) from error
        self._lines = self._socket.makefile("r", encoding="utf-8", newline="\n")

    def read(self, key: str) -> tuple[int, str]:
        """How many writes a key has had, and its value: the empty text where it had none."""
        version, _, value = self._ask(f"read {key}").partition(" ")
        return int(version), value

    def write(self, key: str, value: str) -> int:
        """Writes a value, and returns how many writes the key has had with this one."""
        return int(self._ask(f"write {key} {value}"))

    def digest(self) -> str:
        """The digest of the store's copy."""
        return self._ask("digest")

    def close(self) -> None:
        self._lines.close()
        self._socket.close()

    def _ask(self, line: str) -> str:
        try:
            self._socket.sendall(f"{line}\n".encode())
            answer = self._lines.readline()
        except OSError as error:
            raise NoAnswer(str(error)) from error
        if not answer.endswith("\n"):
            raise NoAnswer("the store closed the connection")
        return answer.removesuffix("\n")
