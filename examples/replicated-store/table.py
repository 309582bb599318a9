"""The state of the store: a dict. Each site has a copy, and all copies do the same operations in the same order."""

from __future__ import annotations

import hashlib
import json

from castd import Process


class Table:
    """A machine for castd's `Replica`. An operation is a line, and so is its answer.

    read KEY           `VERSION VALUE`, the version being how many writes the key has had; `0` where it has no value
    write KEY VALUE    `VERSION`
    digest             the SHA-256 of the whole copy, by which copies are compared
    """

    def __init__(self) -> None:
        self.values: dict[str, tuple[int, str]] = {}

    def apply(self, process: Process, operation: bytes) -> str:
        match operation.decode(errors="replace").split(" ", 2):
            case ["read", key]:
                version, value = self.values.get(key, (0, ""))
                return f"{version} {value}".rstrip()
            case ["write", key, value]:
                version = self.values.get(key, (0, ""))[0] + 1
                self.values[key] = version, value
                return str(version)
            case ["digest"]:
                return hashlib.sha256(self.snapshot()).hexdigest()
            case _:
                return "unknown"

    def snapshot(self) -> bytes:
        return json.dumps(self.values, sort_keys=True).encode()

    def restore(self, state: bytes) -> None:
        self.values = {key: (version, value) for key, (version, value) in json.loads(state).items()}
