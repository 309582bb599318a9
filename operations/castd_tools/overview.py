"""The overview of an installation, as lines of text: what its sites show, and how fast their counts rise."""

from __future__ import annotations

from collections.abc import Callable, Iterable, Mapping, Sequence
from itertools import zip_longest

from castd_tools.answers import Group
from castd_tools.configuration import Configuration
from castd_tools.observation import DomainObservation, SiteObservation

WIDTH = 80
"""The most characters of a line."""

_MOST_OF_ADDRESS = 21
_NOTHING = "-"
# Stands behind what is above four fifths of its quota.
_MARK = "!"

Sites = Mapping[int, SiteObservation]


def overview(time: str, config: str, configuration: Configuration, before: Sites, now: Sites) -> list[str]:
    """The lines of what sites show now, each of at most 80 characters of ASCII.

    `time` and `config`, the path of the configuration, stand in the first line. `before` is what sites showed before,
    from which it is known how fast counts rise.
    """
    parts = [_sites(configuration, before, now), _domains(configuration, before, now), _groups(configuration, now)]
    lines = [_headline(time, config, now), *(line for part in parts for line in ("", *part))]
    return [_cut(plain(line), WIDTH) for line in lines]


def window(lines: list[str], first: int, height: int) -> tuple[int, list[str]]:
    """What a window of so many lines shows from a line on, the first of which is 0; and the line that it begins with,
    which is another one if there is none at `first`, or too few behind it.

    Where lines do not fit, the last one in the window says how many.
    """
    first = max(0, min(first, len(lines) - height))
    shown = lines[first : first + height]
    left = len(lines) - first - len(shown)
    if left and shown:
        shown[-1] = f"{left + 1} lines more"
    return first, shown


def _headline(time: str, config: str, now: Sites) -> str:
    answering = sum(site.problem is None for site in now.values())
    begun = f"castd-top  {time}  {answering} of {len(now)} sites answer  "
    room = WIDTH - len(begun)
    return begun + (config if len(config) <= room else f"..{config[2 - room :]}")


def _sites(configuration: Configuration, before: Sites, now: Sites) -> list[str]:
    """A line for each site, and below it a line for each reason why it is not healthy."""
    rows = []
    for site, observed in now.items():
        address = _cut(str(configuration.sites[site]), _MOST_OF_ADDRESS)
        if observed.problem is not None:
            rows.append([str(site), address, observed.problem])
            continue
        earlier = before.get(site)
        casts = [_casts_a_second(earlier, observed, domain) for domain in observed.domains]
        sent, received = (_datagrams_a_second(earlier, observed, name) for name in ("sent", "received"))
        health = "unhealthy" if observed.reasons else "healthy"
        rates = map(_rate, (None if None in casts else sum(casts), sent, received))
        rows.append([str(site), address, "up", *rates, _memory(observed.resident_bytes), health])
        rows += [[f"      {reason}"] for reason in observed.reasons]
    headings = ["SITE", "ADDRESS", "STATE", " CASTS/S", "  SENT/S", "  RECV/S", "    MEMORY", "HEALTH"]
    return _table(headings, "><<>>>><", rows)


def _domains(configuration: Configuration, before: Sites, now: Sites) -> list[str]:
    """A line for each domain of each site."""
    rows = []
    for domain, site in _domains_and_sites(now):
        observed = now[site].domains[domain]
        sessions, kept = (_share(observed, name) for name in ("sessions", "held"))
        casts = _rate(_casts_a_second(before.get(site), now[site], domain))
        home = _home(configuration, domain, site, observed)
        rows.append([str(domain), str(site), _state(observed), sessions, kept, casts, home])
    headings = ["DOMAIN", "SITE", "STATE  ", "SESSIONS ", "     KEPT ", " CASTS/S", "HOME"]
    return _table(headings, ">><>>><", rows)


def _groups(configuration: Configuration, now: Sites) -> list[str]:
    """A line for each group of each domain that all its sites show alike, and for each way in which they show it."""
    shown: dict[tuple[int, int], dict[Group, list[int]]] = {}
    for domain, site in _domains_and_sites(now):
        for group in now[site].domains[domain].groups:
            shown.setdefault((domain, group.number), {}).setdefault(group, []).append(site)
    rows = []
    for (domain, number), ways in sorted(shown.items()):
        for group, sites in ways.items():
            at = "all" if len(ways) == 1 else ",".join(map(str, sites))
            rows.append([str(domain), str(number), str(group.view), *_view(group), at, _members(group)])
    return _table(["DOMAIN", "GROUP", "  VIEW", "STATE ", "HOLDER", "SITES", "MEMBERS"], ">>><<<<", rows)


def _domains_and_sites(now: Sites) -> list[tuple[int, int]]:
    """The domains that sites show, each with the site, by their numbers."""
    return sorted((domain, site) for site, observed in now.items() for domain in observed.domains)


def _state(observed: DomainObservation) -> str:
    if not observed.is_running:
        return "halted"
    return "retired" if observed.is_retired else "running"


def _home(configuration: Configuration, domain: int, site: int, observed: DomainObservation) -> str:
    """Where the home of a domain is, as seen from a site. The daemon may have read another configuration."""
    if domain not in configuration.domains:
        return _NOTHING
    home = configuration.domains[domain].home
    if home == site:
        return "here"
    return f"{home} is silent" if observed.is_home_silent else str(home)


def _share(observed: DomainObservation, name: str) -> str:
    """How much of a quota is in use."""
    used, quota = observed.shown.get(name), observed.quotas.get(name)
    if used is None or quota is None:
        return f"{_NOTHING} "
    return f"{used}/{quota:.0f}{_MARK if 5 * used > 4 * quota else ' '}"


def _view(group: Group) -> tuple[str, str]:
    """The state of a group, and its holder."""
    if group.holder is None:
        return "none", _NOTHING
    return "frozen" if group.is_frozen else "open", group.holder


def _members(group: Group) -> str:
    return f"{len(group.members)}: {' '.join(group.members)}" if group.members else _NOTHING


def _casts_a_second(before: SiteObservation | None, now: SiteObservation, domain: int) -> float | None:
    def casts(site: SiteObservation) -> int | None:
        return site.domains[domain].shown.get("casts") if domain in site.domains else None

    return _a_second(before, now, casts)


def _datagrams_a_second(before: SiteObservation | None, now: SiteObservation, name: str) -> float | None:
    return _a_second(before, now, lambda site: site.datagrams.get(name))


def _a_second(
    before: SiteObservation | None, now: SiteObservation, count: Callable[[SiteObservation], int | None]
) -> float | None:
    """How fast a count rose. None where that is not known."""
    if before is None:
        return None
    first, last = count(before), count(now)
    if first is None or last is None or last < first:
        return None
    return (last - first) / (now.time - before.time)


def _rate(rate: float | None) -> str:
    if rate is None:
        return _NOTHING
    return f"{rate:.1f}" if 0 < rate < 10 else f"{rate:.0f}"


def _memory(resident_bytes: float | None) -> str:
    return _NOTHING if resident_bytes is None else f"{resident_bytes / 2**20:.1f} MiB"


def _table(headings: Sequence[str], alignments: str, rows: Iterable[Sequence[str]]) -> list[str]:
    """The lines of a table. The last cell of a row that has fewer than others runs on."""
    whole = [headings, *rows]
    counted = [row if len(row) == len(headings) else row[:-1] for row in whole]
    widths = [max(map(len, cells)) for cells in zip_longest(*counted, fillvalue="")]
    return [" ".join(map(_padded, row, alignments, widths)).rstrip() for row in whole]


def _padded(cell: str, alignment: str, width: int) -> str:
    return f"{cell:{alignment}{width}}"


def plain(text: str) -> str:
    """A text with a question mark for each character that is not printable ASCII."""
    return "".join(character if " " <= character <= "~" else "?" for character in text)


def _cut(text: str, width: int) -> str:
    return text if len(text) <= width else f"{text[: width - 2]}.."
