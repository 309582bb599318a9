"""Which beats that come from the address of a site are believed."""

from __future__ import annotations

import collections
import secrets
import time

from castd_tools.beat import NONE, Beat

# How many lives of a watch, and how many numbers that it was sent, are known.
_LIVES = 8
_NUMBERS = 32


class Belief:
    """What is known of the watch of another site. Each of its lives names itself by a random word, its incarnation.

    A life is known from a beat on that has one of the numbers which the site was sent. Whoever sends beats in the name of
    the site, and does not receive what goes there, has no such number, and does not know the word of a life that has one.
    """

    def __init__(self) -> None:
        # The number of the last beat that came, which goes back to the site.
        self.echo = NONE
        self._sent: collections.deque[str] = collections.deque(maxlen=_NUMBERS)
        self._lives: collections.deque[str] = collections.deque(maxlen=_LIVES)

    def number(self) -> str:
        """A number for the next beat to the site."""
        self._sent.append(secrets.token_hex(8))
        return self._sent[-1]

    def believes(self, beat: Beat) -> bool:
        """Whether a beat is of the latest life that is known. One that is new and has a number becomes the latest."""
        self.echo = beat.number
        if beat.incarnation not in self._lives and beat.echo in self._sent:
            self._lives.append(beat.incarnation)
        return bool(self._lives) and self._lives[-1] == beat.incarnation


class SealedBelief(Belief):
    """What is known of the watch of a site whose beats have seals.

    Nobody else can make its beats. But anyone may have kept one, and send it again. So a beat is believed once, and only if
    it answers one of the last numbers that the site was sent. Numbers rise: a beat that comes behind a later one is not
    believed.
    """

    def __init__(self) -> None:
        super().__init__()
        self._number = 0
        # The number of the last beat that was believed of the latest life, and the greatest that came.
        self._believed, self._greatest = "", ""

    def number(self) -> str:
        self._number = max(self._number + 1, time.time_ns())
        self._sent.append(f"{self._number:016x}")
        return self._sent[-1]

    def believes(self, beat: Beat) -> bool:
        is_new = beat.incarnation not in self._lives
        is_latest = not is_new and self._lives[-1] == beat.incarnation
        if beat.echo in self._sent and (is_new or is_latest and beat.number > self._believed):
            if is_new:
                self._lives.append(beat.incarnation)
            self.echo = self._believed = beat.number
            self._greatest = max(self._greatest, beat.number)
            return True
        # A life that does not answer yet is answered, so that it can.
        if beat.number > self._greatest:
            self.echo = self._greatest = beat.number
        return False
