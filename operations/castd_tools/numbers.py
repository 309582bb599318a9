"""The numbers of sites that were used on this host.

A site never starts twice under one number, since the names of its processes would repeat. So a number is noted before a
daemon starts under it: by a file `site-N` in a folder that outlives the host's restarts, the state directory.
"""

from __future__ import annotations

import os
from collections.abc import Iterator
from contextlib import contextmanager

from castd_tools.configuration import Configuration, Domain


def note(state: str, site: int, text: str = "") -> bool:
    """Notes that a number is used, with a text for who reads the file, and returns once that is on the disk. False
    where it was noted before.

    An `OSError` says that the note cannot be kept. Then nothing stays of it, and nothing may start under the number.
    """
    with _opened(state) as folder:
        try:
            file = os.open(_name(site), os.O_WRONLY | os.O_CREAT | os.O_EXCL | os.O_CLOEXEC, 0o644, dir_fd=folder)
        except FileExistsError:
            return False
        try:
            with open(file, "w", encoding="utf-8") as noted:
                noted.write(text)
                noted.flush()
                os.fsync(file)
            os.fsync(folder)
        except OSError:
            os.unlink(_name(site), dir_fd=folder)
            raise
    return True


def path(state: str, site: int) -> str:
    """The file that notes a number."""
    return f"{state}/{_name(site)}"


def forget(state: str, site: int) -> None:
    """Takes a note back. Only who noted the number may do so, and only where no daemon has served under it."""
    with _opened(state) as folder:
        try:
            os.unlink(_name(site), dir_fd=folder)
        except FileNotFoundError:
            return
        os.fsync(folder)


def is_noted(state: str, site: int) -> bool:
    """Whether a number is noted. An `OSError` where that cannot be known, as where the state directory is missing."""
    with _opened(state) as folder:
        try:
            os.stat(_name(site), dir_fd=folder, follow_symlinks=False)
        except FileNotFoundError:
            return False
    return True


def next_site(configuration: Configuration, site: int, state: str) -> int | None:
    """The number under which the host of a site can start a daemon: the least of the host's that is not noted. None
    where there is none.

    A `ConfigurationError` where the configuration lacks the site or it serves no domain, and an `OSError` where it
    cannot be known which numbers are noted.
    """
    return next((number for number in numbers_alike(configuration, site) if not is_noted(state, number)), None)


def numbers_alike(configuration: Configuration, site: int) -> list[int]:
    """The numbers that have the host and the domains of a site, itself among them, in rising order."""
    served = configuration.domains_of(site)
    host = configuration.sites[site].host
    return [
        other
        for other, address in sorted(configuration.sites.items())
        if address.host == host and _serves(configuration, other, served)
    ]


def _serves(configuration: Configuration, site: int, domains: list[Domain]) -> bool:
    """Whether a site serves these domains and no others."""
    return [domain for domain in configuration.domains.values() if site in domain.sites] == domains


def _name(site: int) -> str:
    return f"site-{site}"


@contextmanager
def _opened(state: str) -> Iterator[int]:
    """The state directory, open as long as it is used."""
    folder = os.open(state, os.O_RDONLY | os.O_DIRECTORY | os.O_CLOEXEC)
    try:
        yield folder
    finally:
        os.close(folder)
