"""Clients that read and write, and the history of what they saw."""

from __future__ import annotations

import collections
import contextlib
import math
import random
import threading
import time
from dataclasses import dataclass

from client import Client, NoAnswer
from linearizable import NO_VALUE, Operation

KEYS = [f"key-{number}" for number in range(1, 9)]
_PATIENCE = 60.0
_LONGEST_PAUSE = 0.5


@dataclass(frozen=True)
class Record:
    """An operation, the site whose store was asked, and the version that was answered: 0 where none was."""

    operation: Operation
    site: int
    version: int


class Load:
    """Clients, each in a thread, that go on until the end. They spread over the stores that there are."""

    def __init__(self, clients: int):
        self.history: list[Record] = []
        # How many operations the store of each site has answered.
        self.answers: collections.Counter[int] = collections.Counter()
        self._paths: dict[int, str] = {}
        # How long the last operation of each client took, in seconds.
        self._took: dict[str, float] = {}
        self._turn, self._is_over = threading.Lock(), threading.Event()
        self._threads = [threading.Thread(target=self._work, args=[number]) for number in range(1, clients + 1)]

    def start(self) -> None:
        for thread in self._threads:
            thread.start()

    def end(self) -> None:
        """Ends the clients, once what they have begun is answered."""
        self._is_over.set()
        for thread in self._threads:
            thread.join()

    def add_store(self, site: int, path: str) -> None:
        self._paths = {**self._paths, site: path}

    def remove_store(self, site: int) -> None:
        self._paths = {other: path for other, path in self._paths.items() if other != site}

    def read_all(self, site: int) -> dict[str, int]:
        """Reads each key at a site, as a part of the history, and gives their versions."""
        with contextlib.closing(Client(self._paths[site], _PATIENCE)) as client:
            return {key: self._do(client, site, "the last client", key, NO_VALUE).version for key in KEYS}

    def _work(self, number: int) -> None:
        name, chance, count = f"client {number}", random.Random(number), 0
        while not self._is_over.is_set():
            paths = self._paths
            site = sorted(paths)[number % len(paths)]
            with contextlib.suppress(NoAnswer), contextlib.closing(Client(paths[site], _PATIENCE)) as client:
                while paths is self._paths and not self._is_over.is_set():
                    count += 1
                    value = f"{number}.{count}" if chance.random() < 0.5 else NO_VALUE
                    self._do(client, site, name, chance.choice(KEYS), value)
                    self._pause(chance)

    def _pause(self, chance: random.Random) -> None:
        """Waits for about as long as the slowest client waits for its answer. The store that holds the token answers at
        once, so its clients would overrun a machine that is slow."""
        with self._turn:
            longest = 2 * max(self._took.values())
        self._is_over.wait(chance.uniform(0, min(longest, _LONGEST_PAUSE)))

    def _do(self, client: Client, site: int, name: str, key: str, value: str) -> Record:
        """Writes a value, or reads where there is none, and keeps what came of it."""
        is_write, begun, ended, version = value != NO_VALUE, time.monotonic(), math.inf, 0
        try:
            if is_write:
                version = client.write(key, value)
            else:
                version, value = client.read(key)
            ended = time.monotonic()
        finally:
            record = Record(Operation(name, is_write, key, value, begun, ended), site, version)
            self.history.append(record)
        with self._turn:
            self._took[name] = ended - begun
            self.answers[site] += 1
        return record
