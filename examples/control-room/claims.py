"""Checks what stations claimed in their logs: that no two of them had the controls at one moment."""

from __future__ import annotations

from collections.abc import Iterable, Mapping
from dataclasses import dataclass


@dataclass(frozen=True, order=True)
class Claim:
    """That a program had the controls from `begin` on, and no more at `end`."""

    begin: float
    end: float
    program: str

    def __str__(self) -> str:
        return f"{self.program} from {self.begin:.6f} to {self.end:.6f}"


def claims_of(program: str, log: str) -> list[Claim]:
    """What a program claimed. The last line of its log may be cut off, where it was killed; ValueError for another one
    that `Lock` does not write."""
    claims: list[Claim] = []
    for line in log.split("\n")[:-1]:
        match line.split(" "):
            case ["hold", begin, until]:
                claims.append(Claim(float(begin), float(until), program))
            case ["released", moment]:
                cut = (Claim(it.begin, min(it.end, float(moment)), program) for it in claims)
                claims = [it for it in cut if it.begin < it.end]
            case _:
                raise ValueError(f"{program} noted: {line}")
    return claims


def turns_of(logs: Mapping[str, str]) -> list[Claim]:
    """The turns of all programs, by their logs, in the order in which they begin. Claims that touch are one turn."""
    turns: list[Claim] = []
    for program, log in logs.items():
        own: list[Claim] = []
        for claim in sorted(claims_of(program, log)):
            if own and claim.begin <= own[-1].end:
                own[-1] = Claim(own[-1].begin, max(own[-1].end, claim.end), program)
            else:
                own.append(claim)
        turns += own
    return sorted(turns)


def overlaps(turns: Iterable[Claim]) -> list[tuple[Claim, Claim]]:
    """Turns that have a moment in common with one before, and that one. Turns are in the order in which they begin."""
    found, latest = [], None
    for turn in turns:
        if latest and turn.begin < latest.end:
            found.append((latest, turn))
        if not latest or turn.end > latest.end:
            latest = turn
    return found
