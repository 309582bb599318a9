"""Which sites of a domain its home may suspect, by when they were heard. Times are seconds of any one clock."""

from __future__ import annotations


class Suspicion:
    """What the home of a domain knows of the domain's other sites."""

    def __init__(self, others: set[int], patience: float):
        self.suspected: set[int] = set()
        self._others, self._patience = others, patience
        # When each site was heard first and last, of those that were.
        self._first: dict[int, float] = {}
        self._heard: dict[int, float] = {}
        self._most = 1
        # When each suspected site was suspected last.
        self._said: dict[int, float] = {}
        self._is_cut_off = False

    def hear(self, site: int, now: float) -> bool:
        """A site was heard. Whether this was the first time."""
        if site in self.suspected or site not in self._others:
            return False
        is_new = site not in self._heard
        self._first.setdefault(site, now)
        self._heard[site] = now
        return is_new

    def start_anew(self, now: float) -> None:
        """All silences start anew."""
        self._heard = dict.fromkeys(self._heard, now)

    def silent(self, now: float) -> list[int]:
        """The sites that were heard before and are silent for the patience, but are not suspected."""
        return sorted(
            site for site, heard in self._heard.items() if site not in self.suspected and now - heard >= self._patience
        )

    def due_again(self, now: float) -> list[int]:
        """The suspected sites that are to be suspected once more: each a patience after it was last. They are taken as suspected
        from now on.

        The home may have a join from such a site that it has not served yet. It serves the join once the view without the site is
        decided, and then waits for the site again. A program there may also have joined before its daemon was stopped.
        """
        due = sorted(site for site in self.suspected if now - self._said.setdefault(site, now) >= self._patience)
        self._said.update(dict.fromkeys(due, now))
        return due

    def due(self, now: float) -> list[int]:
        """The silent sites that may be suspected: none as long as no majority surely stays.

        Once it does again, silences start anew: of sites that come back together, one is heard first. This is to be
        asked several times within the patience.
        """
        if not self.majority_stays(now):
            self._is_cut_off = True
        elif self._is_cut_off:
            self._is_cut_off = False
            self.start_anew(now)
        return [] if self._is_cut_off else self.silent(now)

    def majority_stays(self, now: float) -> bool:
        """Whether more than half of the domain surely stays if the silent sites go.

        The home surely stays, and so do sites that were heard within half the patience and are not suspected. So a home
        that the network cuts off suspects nobody, though the others do not all reach the end of the patience at once.

        The domain is as large as it ever was at one time, so that a home that loses one site after the other stops in
        time. A spare takes the place of a site that was put out: it counts with the others only once it has stayed for
        the patience, after which the site that it replaces is silent.
        """
        here = {site: heard for site, heard in self._heard.items() if site not in self.suspected}
        stay = {site for site, heard in here.items() if now - heard < self._patience / 2}
        settled = {site for site in stay if now - self._first[site] >= self._patience}
        self._most = max(self._most, 1 + len(settled))
        return 2 * (1 + len(stay)) > max(self._most, 1 + len(here))
