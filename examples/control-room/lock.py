"""A lock that one station at most holds at any moment, also where some stand still, are cut off or suspected wrongly.

README.md says how it works, and why that is safe.
"""

from __future__ import annotations

import math
import time
from collections.abc import Callable, Iterable
from concurrent.futures import Future

from castd import Cast, Deliver, Ejected, Kind, Process, Push, Reply, View, process_of
from castd.replica import Replica, Sender

# In seconds: how long a lease lasts behind the keepalive that a majority has seen, by how much a wait is longer than
# the leases that it waits for, and how often a keepalive is cast.
LEASE, MARGIN, BEAT = 3.0, 0.2, 0.3

_ACQUIRE, _RELEASE = b"acquire", b"release"
_HERE = b"here"


def clock() -> float:
    """Seconds by a clock that never goes back, and that goes on while the machine sleeps."""
    return time.clock_gettime(time.CLOCK_BOOTTIME)


def station_of(process: Process) -> int:
    """The station of a process. As castd-conf numbers sites, site 203 is the third host's in generation 2."""
    return process.site % 100


class Queue:
    """Who asked for the lock and has not given it back, in the order of their ABCASTs: a machine for `Replica`."""

    def __init__(self) -> None:
        self.waiting: list[Process] = []

    def apply(self, process: Process, operation: bytes) -> None:
        if operation == _ACQUIRE and process not in self.waiting:
            self.waiting.append(process)
        elif operation == _RELEASE and process in self.waiting:
            self.waiting.remove(process)

    def keep(self, members: Iterable[Process]) -> None:
        """Those that are no members leave the queue."""
        self.waiting = [process for process in self.waiting if process in members]

    def snapshot(self) -> bytes:
        return " ".join(map(str, self.waiting)).encode()

    def restore(self, state: bytes) -> None:
        self.waiting = [process_of(name) for name in state.decode().split()]


class Lock:
    """The lock, as one station sees it. It is given all pushes of its session, and reads nothing itself."""

    def __init__(self, session: Sender, group: int, stations: int, note: Callable[[str], None]):
        """`stations` is how many there are, on duty or not. `note` is told what the station claims, before it does:
        `hold FROM UNTIL`, and `released AT` where that ends sooner, by `clock`."""
        self._session, self._group, self._note = session, group, note
        self._majority = stations // 2 + 1
        self._queue = Queue()
        self._replica = Replica(session, group, self._queue)
        # Which stations were heard in this view, and when the last own keepalive was cast that each has seen.
        self._heard: set[int] = set()
        self._seen: dict[int, float] = {}
        # When the own keepalives were cast, by what they say, as long as a lease may last on account of them.
        self._beats: dict[bytes, float] = {}
        # From when on no lease of an older view lasts. It is infinite as long as that is not known.
        self._safe_from = math.inf
        self._until = -math.inf
        self._release: Future[None] | None = None
        self._unsent: int | None = None

    def acquire(self) -> None:
        """Puts the station into the queue, if it is not there."""
        self._replica.operation(_ACQUIRE)

    def release(self) -> None:
        """Gives the lock back, or the place in the queue."""
        self._end_lease()
        self._release = self._replica.operation(_RELEASE)

    def holds(self) -> bool:
        """Whether the station holds the lock now. What needs the lock must be done while this says so."""
        return clock() < self._until

    def beat(self) -> None:
        """Casts a keepalive where one is wanted. To be called every `BEAT` seconds."""
        if self._is_first() and self._unsent is None:
            now = clock()
            self._beats = {beat: moment for beat, moment in self._beats.items() if now < moment + LEASE}
            self._beats[b"%r" % now] = now
            self._unsent = self._cast(b"keepalive %r" % now)

    def take(self, push: Push) -> None:
        """Takes a push of the session."""
        match push:
            case View(group=self._group):
                self._enter(push)
            case Deliver(group=self._group, kind=Kind.CAUSAL):
                self._hear(push.process, push.payload)
            case Reply(tag) if tag == self._unsent:
                self._unsent = None
            case Ejected(group=self._group):
                self._end_lease()
                self._replica.take(push)
            case _:
                self._replica.take(push)

    def _is_first(self) -> bool:
        """Whether this station is the one that may hold the lock."""
        is_releasing = self._release is not None and not self._release.done()
        first = self._queue.waiting[:1]
        return self._replica.has_state and not is_releasing and first == [self._session.process]

    def _enter(self, view: View) -> None:
        was_first = self._is_first()
        # Before the replica hands the queue over to newcomers.
        self._queue.keep(view.members)
        self._replica.take(view)
        self._heard.clear()
        if not (was_first and self._is_first()):
            self._safe_from = math.inf
        self._cast(_HERE)

    def _hear(self, process: Process, payload: bytes) -> None:
        station, is_own = station_of(process), process == self._session.process
        self._heard.add(station)
        if len(self._heard) >= self._majority:
            self._safe_from = min(self._safe_from, clock() + LEASE + MARGIN)
        match payload.split(b" "):
            case [b"keepalive", beat] if is_own:
                self._see(station, beat)
            case [b"keepalive", beat]:
                self._cast(b"seen %s %s" % (str(process).encode(), beat))
            case [b"seen", name, beat] if name == str(self._session.process).encode():
                self._see(station, beat)

    def _see(self, station: int, beat: bytes) -> None:
        """A station has seen an own keepalive. What it says is believed only of one that was cast."""
        if beat in self._beats:
            self._seen[station] = self._beats[beat]
            self._extend_lease()

    def _extend_lease(self) -> None:
        if not self._is_first() or len(self._seen) < self._majority:
            return
        seen_by_majority = sorted(self._seen.values(), reverse=True)[self._majority - 1]
        now, until = clock(), seen_by_majority + LEASE
        if self._safe_from <= now < until and until > self._until:
            self._note(f"hold {now!r} {until!r}")
            self._until = until

    def _end_lease(self) -> None:
        if self.holds():
            self._until = -math.inf
            self._note(f"released {clock()!r}")

    def _cast(self, payload: bytes) -> int:
        return self._session.send(Cast(self._group, Kind.CAUSAL, payload))
