"""What a keeper knows of its daemon's domains that the daemon does not show: what lines have changed, and silent homes."""

from __future__ import annotations

from castd_tools import control
from castd_tools.configuration import QUOTAS, Domain
from castd_tools.console import OK


class Standing:
    """The quotas of the domains of a site, those whose programs it no longer serves, the sites that it put out of those of which
    it is the home, and the homes of the others that are silent."""

    def __init__(self, site: int, domains: list[Domain]):
        self._others = {
            domain.number: set(domain.sites) - {site} if domain.home == site else set() for domain in domains
        }
        self._homes = {domain.number: domain.home for domain in domains if domain.home != site}
        self._silent: set[int] = set()
        self._quotas = {(domain.number, name): domain.quota(name) for domain in domains for name in QUOTAS}
        self._suspected: set[tuple[int, int]] = set()
        self.retired: set[int] = set()

    def observe(self, line: str, answer: list[str]) -> None:
        """Takes note of a line that was answered."""
        if answer != [OK]:
            return
        match line.split(" "):
            case ["quota", domain, name, value]:
                self._quotas[int(domain), name] = int(value)
            case [control.RETIRE, domain]:
                self.retired.add(int(domain))
            case ["suspect", domain, site] if int(site) in self._others.get(int(domain), ()):
                self._suspected.add((int(domain), int(site)))

    def domains(self) -> list[int]:
        """The domains of the site."""
        return sorted(self._others)

    def quota(self, domain: int, name: str) -> int:
        return self._quotas[domain, name]

    def note_home(self, domain: int, is_silent: bool) -> bool:
        """Whether the home of a domain is silent, as the failure detector says. False where no other site is its home."""
        if domain not in self._homes:
            return False
        if is_silent:
            self._silent.add(domain)
        else:
            self._silent.discard(domain)
        return True

    def homes(self) -> dict[int, tuple[int, bool]]:
        """The home of each domain of which another site is the home, and whether it is silent."""
        return {domain: (home, domain in self._silent) for domain, home in self._homes.items()}

    def suspected_lines(self) -> list[str]:
        """A line for each site that was put out, `suspected D S`."""
        return [f"suspected {domain} {site}" for domain, site in sorted(self._suspected)]
