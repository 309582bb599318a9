"""Beats, the datagrams of castd-watch.

A beat is ASCII text, six words behind the name of the protocol: the sender's site, its incarnation, a number for the
receiver alone, the number of the last beat that the sender had from the receiver, the domains that run at its daemon,
and the sites that it put out of domains as their home.

    castd-beat-2 1 9f86d081884c7d65 2c26b46b68ffc68f fcde2b2edba56bf4 1,2 1:3,1:4

A number that there is not yet, and a list that is empty, is `-`.
"""

from __future__ import annotations

import re
from dataclasses import dataclass

from castd_tools.configuration import MOST_DOMAIN_NUMBER, MOST_SITE_NUMBER

# By how much the ports of beats are above those of the daemons, if nothing else is said.
USUAL_PORT_OFFSET = 1_000
NONE = "-"
_NUMBER = r"[1-9][0-9]{0,4}"
_PAIR = f"{_NUMBER}:{_NUMBER}"
_WORD = "[0-9a-f]{16}"
_BEAT = re.compile(
    f"castd-beat-2 (?P<site>{_NUMBER}) (?P<incarnation>{_WORD}) (?P<number>{_WORD}) (?P<echo>-|{_WORD})"
    f" (?P<running>-|{_NUMBER}(?:,{_NUMBER})*) (?P<put_out>-|{_PAIR}(?:,{_PAIR})*)"
)


class BeatError(Exception):
    """A datagram is no beat."""


@dataclass(frozen=True)
class Beat:
    """What a site says of itself. `put_out` has a domain and a site in each pair."""

    site: int
    incarnation: str
    number: str
    echo: str
    running: frozenset[int]
    put_out: frozenset[tuple[int, int]]

    def encode(self) -> bytes:
        running = ",".join(str(domain) for domain in sorted(self.running)) or NONE
        put_out = ",".join(f"{domain}:{site}" for domain, site in sorted(self.put_out)) or NONE
        words = (self.site, self.incarnation, self.number, self.echo, running, put_out)
        return f"castd-beat-2 {' '.join(map(str, words))}".encode()


def decode(data: bytes) -> Beat:
    """The beat that a datagram is. A `BeatError` where it is none."""
    found = _BEAT.fullmatch(data.decode("ascii", "replace"))
    if not found:
        raise BeatError
    pairs = [pair.split(":") for pair in _items(found["put_out"])]
    beat = Beat(
        site=int(found["site"]),
        incarnation=found["incarnation"],
        number=found["number"],
        echo=found["echo"],
        running=frozenset(map(int, _items(found["running"]))),
        put_out=frozenset((int(domain), int(site)) for domain, site in pairs),
    )
    domains = beat.running | {domain for domain, _ in beat.put_out}
    sites = {beat.site} | {site for _, site in beat.put_out}
    if max(domains, default=0) > MOST_DOMAIN_NUMBER or max(sites) > MOST_SITE_NUMBER:
        raise BeatError
    return beat


def _items(text: str) -> list[str]:
    return [] if text == NONE else text.split(",")
