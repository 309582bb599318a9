"""What is at fault in a configuration, and what castd accepts but an operator should know.

Each finding is a text such as `domain 1: held: 5000 is not 1 to 1024`. Of a fault that castd refuses with status 6, the
word behind the table is the field that castd names.
"""

from __future__ import annotations

import ipaddress
import os
from collections import Counter
from collections.abc import Callable, Iterable
from dataclasses import dataclass
from itertools import combinations
from typing import TypeVar

from castd_tools.configuration import (
    MOST_DOMAIN_NUMBER,
    MOST_DOMAINS,
    MOST_GROUP_NUMBER,
    MOST_GROUPS_OF_A_DOMAIN,
    MOST_SITE_NUMBER,
    MOST_SITES_OF_A_DOMAIN,
    QUOTAS,
    Address,
    Configuration,
    ConfigurationError,
    Domain,
    _address,
    _check_sites,
    _datagram,
    _delay,
    _is_bundling,
    _is_sealed,
    _network,
    _number,
    _numbers,
    _tables,
    _text,
)
from castd_tools.numbers import numbers_alike

DOCUMENT_FIELDS = ("site", "domain", "network")
SITE_FIELDS = ("number", "address", "sealed")
DOMAIN_FIELDS = ("number", "home", "sites", "groups", "socket", *QUOTAS)
NETWORK_FIELDS = ("bundle", "datagram", "delay")

# The longest path that a Unix socket can have on Linux, in bytes.
LONGEST_PATH = 107
# Only root, or a program with a capability for it, may use a port below this.
LEAST_FREE_PORT = 1_024

Value = TypeVar("Value")
IP = ipaddress.IPv4Address | ipaddress.IPv6Address


class Findings(list[str]):
    """What is found, in the order in which it is looked for."""

    def say(self, where: str, what: str) -> None:
        self.append(f"{where}: {what}")

    def read(self, rule: Callable[..., Value], *what: object) -> Value | None:
        """What a rule of the configuration reads. None where that is at fault, which is noted."""
        try:
            return rule(*what)
        except ConfigurationError as error:
            self.append(str(error))
            return None


@dataclass(frozen=True)
class Site:
    """A table of a site. None stands for what is at fault."""

    where: str
    number: int | None
    address: Address | None
    is_sealed: bool | None

    @property
    def ip(self) -> IP | None:
        """The address of its host. None where the host has a name."""
        try:
            return ipaddress.ip_address(self.address.host) if self.address else None
        except ValueError:
            return None


def findings_of(document: dict, *, is_planned: bool = False) -> list[str]:
    """All that is found in a document. What cannot be read is found once, and not looked at further.

    Where a plan made it, the plan says which sites are not sealed, and they are not found.
    """
    found = Findings()
    _find_unknown(found, "the document", document, DOCUMENT_FIELDS)
    site_tables = found.read(_tables, document, "site")
    domain_tables = found.read(_tables, document, "domain")
    sites = [_read_site(found, place, table) for place, table in enumerate(site_tables or [], 1)]
    domains = [_read_domain(found, place, table) for place, table in enumerate(domain_tables or [], 1)]
    if domain_tables is not None and not 1 <= len(domain_tables) <= MOST_DOMAINS:
        found.say("the document", f"domain: {len(domain_tables)} of them: there are 1 to {MOST_DOMAINS}")
    readable = [domain for domain in domains if domain]
    _find_repeated(found, sites, readable)
    if site_tables is not None:
        _find_unlisted(found, sites, readable)
    _find_in_network(found, document)
    if not is_planned:
        _find_plain(found, sites)
    for site in sites:
        _find_in_address(found, site)
    for domain in readable:
        _find_in_socket(found, domain)
        _find_in_sites(found, domain, [site for site in sites if site.number in domain.sites])
    if domain_tables and len(readable) == len(domains) and all(site.number and site.address for site in sites):
        _find_idle_and_single(found, sites, readable)
    return found


def _read_site(found: Findings, place: int, table: dict) -> Site:
    number = found.read(_number, table, "number", f"site table {place}", 1, MOST_SITE_NUMBER)
    where = f"site {number}" if number else f"site table {place}"
    _find_unknown(found, where, table, SITE_FIELDS)
    text = found.read(_text, table, "address", where)
    address = None if text is None else found.read(_address, text, where)
    return Site(where, number, address, found.read(_is_sealed, table, where))


def _read_domain(found: Findings, place: int, table: dict) -> Domain | None:
    """The domain that a table is. None where a field is at fault."""
    before = len(found)
    number = found.read(_number, table, "number", f"domain table {place}", 1, MOST_DOMAIN_NUMBER)
    where = f"domain {number}" if number else f"domain table {place}"
    home = found.read(_number, table, "home", where, 1, MOST_SITE_NUMBER)
    sites = found.read(_numbers, table, "sites", where, MOST_SITE_NUMBER, MOST_SITES_OF_A_DOMAIN)
    groups = found.read(_numbers, table, "groups", where, MOST_GROUP_NUMBER, MOST_GROUPS_OF_A_DOMAIN)
    socket = found.read(_text, table, "socket", where)
    quotas = {
        name: found.read(_number, table, name, where, allowed.least, allowed.most)
        for name, allowed in QUOTAS.items()
        if name in table
    }
    is_readable = len(found) == before
    _find_unknown(found, where, table, DOMAIN_FIELDS)
    return Domain(number, home, sites, groups, socket, quotas) if is_readable else None


def _find_unknown(found: Findings, where: str, table: dict, known: Iterable[str]) -> None:
    for name in table:
        if name not in known:
            found.say(where, f"{name}: unknown: castd passes over it")


def _find_repeated(found: Findings, sites: list[Site], domains: list[Domain]) -> None:
    """Two of a kind have one number, one address or one socket."""
    for number in _repeated(site.number for site in sites if site.number):
        found.say(f"site {number}", "number: repeated")
    for number in _repeated(domain.number for domain in domains):
        found.say(f"domain {number}", "number: repeated")
    for one, other in combinations([site for site in sites if site.address], 2):
        if _is_same_address(one, other):
            found.say(other.where, f"address: {other.address} is the address of {one.where} too")
    for one, other in combinations(domains, 2):
        if os.path.normpath(one.socket) == os.path.normpath(other.socket):
            found.say(f"domain {other.number}", f"socket: {other.socket} is the socket of domain {one.number} too")


def _repeated(numbers: Iterable[int]) -> list[int]:
    return [number for number, count in Counter(numbers).items() if count > 1]


def _is_same_address(one: Site, other: Site) -> bool:
    same_host = one.ip == other.ip if one.ip and other.ip else one.address.host == other.address.host
    return same_host and one.address.port == other.address.port


def _find_unlisted(found: Findings, sites: list[Site], domains: list[Domain]) -> None:
    """A domain has a site that the document lacks, or its home is none of its sites."""
    listed = {site.number: site.address for site in sites}
    for domain in domains:
        found.read(_check_sites, domain, listed)


def _find_in_network(found: Findings, document: dict) -> None:
    """The table of the network, or a field of it, is at fault."""
    network = found.read(_network, document)
    if network is None:
        return
    found.read(_is_bundling, network)
    found.read(_datagram, network)
    found.read(_delay, network)
    _find_unknown(found, "network", network, NETWORK_FIELDS)


def _find_plain(found: Findings, sites: list[Site]) -> None:
    """Sites that are not sealed, where others are."""
    if any(site.is_sealed for site in sites):
        for site in sites:
            if site.is_sealed is False:
                found.say(site.where, "sealed: others are, and it is not: who can send from its address passes for it")


def _find_in_address(found: Findings, site: Site) -> None:
    """An address at which a site cannot be reached, or not from everywhere."""
    if not site.address:
        return
    host, port, ip = site.address.host, site.address.port, site.ip
    if not ip:
        found.say(site.where, f"address: {host} is a name: a host may find another address for it than the others")
    elif ip.is_unspecified or ip.is_multicast or str(ip) == "255.255.255.255":
        found.say(site.where, f"address: {host} is not the address of one host")
    if port < LEAST_FREE_PORT:
        found.say(site.where, f"address: the user castd may not use a port below {LEAST_FREE_PORT}")


def _find_in_socket(found: Findings, domain: Domain) -> None:
    """A path where a socket cannot be made, or not always at one place."""
    where, length = f"domain {domain.number}", len(os.fsencode(domain.socket))
    if not domain.socket:
        found.say(where, "socket: without a path, no program finds it")
    elif "\0" in domain.socket or domain.socket.endswith("/"):
        found.say(where, "socket: no socket can have this path")
    elif length > LONGEST_PATH:
        found.say(where, f"socket: a path of {length} bytes: a socket's has {LONGEST_PATH} at most")
    elif not os.path.isabs(domain.socket):
        found.say(where, f"socket: {domain.socket} stands where the daemon is started: use a whole path")


def _find_in_sites(found: Findings, domain: Domain, sites: list[Site]) -> None:
    """Sites of one domain that cannot reach each other."""
    where, ips = f"domain {domain.number}", [site.ip for site in sites if site.ip]
    if len({ip.version for ip in ips}) > 1:
        found.say(where, "sites: some have IPv4 and some IPv6 addresses, and cannot reach each other")
    elif len({ip.is_loopback for ip in ips}) > 1:
        found.say(where, "sites: some have addresses of this machine alone, where the others cannot reach them")


def _find_idle_and_single(found: Findings, sites: list[Site], domains: list[Domain]) -> None:
    """Sites that castd refuses to serve, and those whose host cannot go on once their number was used."""
    configuration = Configuration(
        {site.number: site.address for site in sites}, {domain.number: domain for domain in domains}
    )
    for site in sites:
        is_here = site.ip is not None and site.ip.is_loopback
        if not any(site.number in domain.sites for domain in domains):
            found.say(site.where, "it is in no domain: castd does not serve it")
        elif not is_here and numbers_alike(configuration, site.number) == [site.number]:
            found.say(site.where, "no other number has its host and domains: no daemon starts there once this was used")
