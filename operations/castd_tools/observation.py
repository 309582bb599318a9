"""What the sites of an installation show when they are asked."""

from __future__ import annotations

import asyncio
import os
import time
from collections.abc import Mapping
from dataclasses import dataclass, field

from castd_tools import control
from castd_tools.answers import Group, domains_of, groups_of, named_numbers
from castd_tools.installation import Installation
from castd_tools.metrics import sample_name, samples_of

# Within these seconds a site has to answer all that it is asked at a time.
_OBSERVED_SECONDS = 2.0

_HEALTHY = ["healthy"]
# The metric of each quota.
_QUOTAS = {"sessions": "castd_sessions_quota", "held": "castd_held_messages_quota"}


@dataclass(frozen=True)
class DomainObservation:
    """What a site shows of a domain."""

    is_running: bool
    is_retired: bool = False
    """Whether the site was put out of the domain, and serves its programs no longer."""
    is_home_silent: bool = False
    """Whether another site is the home of the domain, and is silent."""
    shown: Mapping[str, int] = field(default_factory=dict)
    """What `show` tells, as `sessions`, `held` and `casts`. Empty where the domain shows nothing."""
    quotas: Mapping[str, float | None] = field(default_factory=dict)
    """Most sessions and most messages kept, as `sessions` and `held`. None where the keeper does not tell."""
    groups: tuple[Group, ...] = ()


@dataclass(frozen=True)
class SiteObservation:
    """What a site shows of itself and of its domains. One that does not answer has a time and a problem alone."""

    time: float
    """When it was asked, in seconds of any one clock."""
    problem: str | None = None
    """Why it does not answer. None if it does."""
    reasons: tuple[str, ...] = ()
    """Why it is not healthy. None if it is."""
    datagrams: Mapping[str, int] = field(default_factory=dict)
    """How many datagrams were `sent` and `received`."""
    resident_bytes: float | None = None
    """Memory of the daemon. None if it has just ended."""
    domains: Mapping[int, DomainObservation] = field(default_factory=dict)


class Observer:
    """Observes the sites of an installation that run on this host, again and again."""

    def __init__(self, installation: Installation):
        self.installation = installation
        # What the sites showed the time before the last, and the last time, by their numbers in rising order.
        self.before: dict[int, SiteObservation] = {}
        self.now: dict[int, SiteObservation] = {}
        self._seen: set[int] = set()

    async def observe(self) -> None:
        """Asks all sites at once. A site that ran here before is asked too, though its control socket may be gone."""
        self._seen.update(self.installation.running())
        sites = sorted(self._seen)
        shown = await asyncio.gather(*(observe(site, self.installation.control_socket(site)) for site in sites))
        self.before, self.now = self.now, dict(zip(sites, shown, strict=True))


async def observe(site: int, path: str) -> SiteObservation:
    """What a site shows now, whose keeper has this control socket."""
    begun = time.monotonic()
    try:
        async with asyncio.timeout(_OBSERVED_SECONDS):
            return await _observe(begun, site, path)
    except TimeoutError:
        problem = f"no answer within {_OBSERVED_SECONDS:g} s"
    except control.ControlError as error:
        problem = str(error).removeprefix(f"{path}: ") if os.path.exists(path) else "has ended"
    except (IndexError, KeyError, ValueError):
        problem = "its answers have a form that is not known"
    return SiteObservation(begun, problem)


async def _observe(begun: float, site: int, path: str) -> SiteObservation:
    running = domains_of(await _ask(path, "domains"))
    datagrams = _numbers(await _ask(path, "datagrams"))
    shown = {domain: _numbers(await _ask(path, f"show {domain}")) for domain in running}
    groups = {domain: tuple(groups_of(await _ask(path, f"groups {domain}"))) for domain in running}
    samples = samples_of(await _ask(path, control.METRICS))
    health = await _ask(path, control.HEALTH)

    def sample(name: str, **labels: int) -> float | None:
        return samples.get(sample_name(name, site=site, **labels))

    return SiteObservation(
        begun,
        reasons=() if health == _HEALTHY else tuple(line.removeprefix(control.UNHEALTHY) for line in health),
        datagrams=datagrams,
        resident_bytes=sample("castd_resident_memory_bytes"),
        domains={
            domain: DomainObservation(
                is_running,
                is_retired=sample("castd_domain_retired", domain=domain) == 1,
                is_home_silent=sample("castd_home_silent", domain=domain) == 1,
                shown=shown[domain],
                quotas={name: sample(metric, domain=domain) for name, metric in _QUOTAS.items()},
                groups=groups[domain],
            )
            for domain, is_running in running.items()
        },
    )


async def _ask(path: str, line: str) -> list[str]:
    """The answer to a line. A `ControlError` too where the keeper answers that the daemon does not."""
    answer = await control.ask(path, line, _OBSERVED_SECONDS)
    for said in answer:
        if said.startswith(control.KEEPER):
            raise control.ControlError(said.removeprefix(control.KEEPER))
    return answer


def _numbers(answer: list[str]) -> dict[str, int]:
    """The numbers of an answer that is a line of names and numbers, such as that to `datagrams`."""
    return named_numbers(" ".join(answer))
