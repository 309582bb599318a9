"""Beats with seals: behind their words stands a sum that only the two hosts can make.

    castd-sealed-beat-1 RECEIVER KEY BEAT SUM

RECEIVER is a site, KEY the number of a key, and SUM the first half of HMAC with SHA-256 under that key, over all that stands
before the space in front of it, in base 16.
"""

from __future__ import annotations

import hmac
from collections.abc import Iterable

from castd_tools.keys import Key

_SUM_BYTES = 16


def seal(beat: bytes, receiver: int, key: Key) -> bytes:
    """A beat with its seal, for a site."""
    text = _beginning(receiver, key) + beat
    return text + b" " + _sum_of(text, key)


def unseal(datagram: bytes, receiver: int, keys: Iterable[Key]) -> bytes | None:
    """The beat of a datagram that one of these keys seals for a site. None for any other datagram."""
    text, _, found = datagram.rpartition(b" ")
    for key in keys:
        beginning = _beginning(receiver, key)
        if text.startswith(beginning) and hmac.compare_digest(found, _sum_of(text, key)):
            return text[len(beginning) :]
    return None


def _beginning(receiver: int, key: Key) -> bytes:
    return f"castd-sealed-beat-1 {receiver} {key.number} ".encode()


def _sum_of(text: bytes, key: Key) -> bytes:
    return hmac.digest(key.secret, text, "sha256")[:_SUM_BYTES].hex().encode()
