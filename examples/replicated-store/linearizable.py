"""Checks that a history of reads and writes is linearizable: that each can be thought to have been done at one moment
between its beginning and its end, so that each read gives what the last write before it wrote.

The search is that of Wing and Gong, which tries the orders that the times allow, and remembers where it has been.
"""

from __future__ import annotations

import math
from collections.abc import Iterable, Iterator
from dataclasses import dataclass, replace

# The value of a key that was never written.
NO_VALUE = ""


@dataclass(frozen=True)
class Operation:
    """What a client did, and when: by one clock for all clients. A read has the value that it was answered.

    `ended` is infinite where it is not known whether the operation was done.
    """

    client: str
    is_write: bool
    key: str
    value: str
    begun: float
    ended: float

    def __str__(self) -> str:
        word = "writes" if self.is_write else "reads"
        return f"{self.client} {word} {self.key} {self.value!r} from {self.begun:.6f} to {self.ended:.6f}"


def faults(history: Iterable[Operation]) -> list[str]:
    """What is not linearizable: a line for each such key, none where all is well.

    No two writes of a key may have the same value, and none `NO_VALUE`: ValueError.
    """
    keys: dict[str, list[Operation]] = {}
    for operation in history:
        keys.setdefault(operation.key, []).append(operation)
    found = ((key, _unexplained(_certain(operations))) for key, operations in sorted(keys.items()))
    return [f"key {key}: no order explains: {operation}" for key, operation in found if operation]


def _certain(operations: list[Operation]) -> list[Operation]:
    """The operations of a key that were done for certain.

    Of a write that may have been done, a read tells: where one gave its value, it was done before that ended, and else
    it changed nothing that anyone saw.
    """
    written = [operation.value for operation in operations if operation.is_write]
    if len({NO_VALUE, *written}) <= len(written):
        raise ValueError("a value is written twice")
    seen: dict[str, float] = {}
    for operation in operations:
        if not operation.is_write:
            seen[operation.value] = min(operation.ended, seen.get(operation.value, math.inf))
    ends = (min(it.ended, seen.get(it.value, math.inf)) if it.is_write else it.ended for it in operations)
    return [replace(it, ended=end) for it, end in zip(operations, ends) if end < math.inf]


def _unexplained(operations: list[Operation]) -> Operation | None:
    """None where these operations of a key are linearizable, otherwise one at which the search found no way on."""
    operations = sorted(operations, key=lambda it: it.begun)
    # A state of the search: `first` operations at the beginning are done and those at the places `more`, with `value`.
    state = 0, frozenset[int](), NO_VALUE
    farthest, untried, known = state, [state], {state}
    while untried:
        state = untried.pop()
        first, more, value = state
        if first == len(operations):
            return None
        farthest = max(farthest, state, key=lambda it: it[0] + len(it[1]))
        for place in _next(operations, first, more, value):
            following = _after(first, more | {place}, operations[place].value)
            if following not in known:
                known.add(following)
                untried.append(following)
    left = [it for place, it in enumerate(operations) if place >= farthest[0] and place not in farthest[1]]
    return min(left, key=lambda it: it.ended)


def _next(operations: list[Operation], first: int, more: frozenset[int], value: str) -> Iterator[int]:
    """The places of the operations that may come next: none begins after the end of one that is not done."""
    writes, end = [], math.inf
    for place in range(first, len(operations)):
        it = operations[place]
        if it.begun > end:
            break
        if place in more:
            continue
        end = min(end, it.ended)
        if it.is_write:
            writes.append(place)
        elif it.value == value:
            # A read that fits changes nothing, so it may as well be done now.
            return iter([place])
    return iter(writes)


def _after(first: int, more: frozenset[int], value: str) -> tuple[int, frozenset[int], str]:
    while first in more:
        more -= {first}
        first += 1
    return first, more, value
