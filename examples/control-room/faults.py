"""What goes wrong in the control room, at random."""

from __future__ import annotations

import collections
import random
import signal
from collections.abc import Callable

from desk import Desk


class Faults:
    """Makes faults, and has go on what they stopped. It makes each kind about as often as the others."""

    def __init__(self, desks: list[Desk], chance: random.Random):
        """The first desk has the home. It is spared grave faults, since no other site would take over."""
        self.made: collections.Counter[str] = collections.Counter()
        self._desks, self._chance = desks, chance
        # Grave faults end the daemon, which uses up a number of a site.
        self._light = {
            "program killed": self._kill_program,
            "program stopped for seconds": self._stop_program,
            "daemon stopped for a moment": self._stop_daemon,
        }
        self._grave = {
            "daemon killed": self._kill_daemon,
            "daemon stopped for seconds": self._hang_daemon,
            "site suspected wrongly": self._suspect,
        }
        # When what was stopped at a desk goes on, and what sends it a signal.
        self._stopped: dict[Desk, tuple[float, Callable[[int], None]]] = {}

    def make(self, now: float, is_grave: bool) -> str:
        """Makes a fault, half of them where the controls are. Says what it was, or nothing where none can be made."""
        desks = [it for it in self._desks[is_grave:] if it.is_on_duty() and it not in self._stopped]
        if is_grave:
            # Numbers are used up evenly.
            desks = [it for it in desks if it.daemons == min(other.daemons for other in desks)]
        if not desks:
            return ""
        holders = [it for it in desks if it.has_controls]
        desk = self._chance.choice(holders if holders and self._chance.random() < 0.5 else desks)
        kinds = self._grave if is_grave else self._light
        kind = min(kinds, key=lambda it: (self.made[it], self._chance.random()))
        self.made[kind] += 1
        kinds[kind](desk, now)
        return f"station {desk.station}: {kind}"

    def go_on(self, now: float) -> None:
        """Has go on what was stopped until now."""
        for desk, (end, send) in list(self._stopped.items()):
            if end <= now:
                del self._stopped[desk]
                send(signal.SIGCONT)

    def is_stopped(self, desk: Desk) -> bool:
        return desk in self._stopped

    def _kill_program(self, desk: Desk, now: float) -> None:
        desk.signal_program(signal.SIGKILL)

    def _stop_program(self, desk: Desk, now: float) -> None:
        self._stop(desk, now + self._chance.uniform(0.5, 6), desk.signal_program)

    def _stop_daemon(self, desk: Desk, now: float) -> None:
        self._stop(desk, now + self._chance.uniform(0.1, 0.4), desk.signal_daemon)

    def _kill_daemon(self, desk: Desk, now: float) -> None:
        desk.signal_daemon(signal.SIGKILL)

    def _hang_daemon(self, desk: Desk, now: float) -> None:
        """It is put out meanwhile, and learns it when it goes on."""
        self._stop(desk, now + self._chance.uniform(2, 5), desk.signal_daemon)

    def _suspect(self, desk: Desk, now: float) -> None:
        self._desks[0].say("suspect", "1", str(desk.site))

    def _stop(self, desk: Desk, end: float, send: Callable[[int], None]) -> None:
        send(signal.SIGSTOP)
        self._stopped[desk] = end, send
