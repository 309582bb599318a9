"""What the system is told, so that others on the hosts and in the network do not pass for sites."""

from __future__ import annotations

import ipaddress
from collections.abc import Iterable

from castd_tools.configuration import MOST_PORT, Configuration, ConfigurationError
from castd_tools.lint import IP

_HEAD = """\
# Made by castd-conf from a configuration: make this anew where that changes.
"""


def firewall_of(configuration: Configuration, user: str, offset: int) -> str:
    """Rules of nftables for the ports of daemons and, `offset` above, of their failure detectors.

    Only programs of a user send from these ports and to them, and what comes to them comes from the hosts of sites. A
    `ConfigurationError` where the address of a site has a name, or there is no port for beats.
    """
    sets, sent, received = "", "", ""
    for version, word in ((4, "ip"), (6, "ip6")):
        ports = [(host, port) for host, port in _ports(configuration, offset) if host.version == version]
        if ports:
            sets += _set(f"hosts{version}", f"ipv{version}_addr", sorted({host for host, _ in ports}))
            sets += _set(f"ports{version}", f"ipv{version}_addr . inet_service", (f"{it} . {port}" for it, port in ports))
            sent += f'\t\t{word} saddr . udp sport @ports{version} meta skuid != "{user}" drop\n'
            sent += f'\t\t{word} daddr . udp dport @ports{version} meta skuid != "{user}" drop\n'
            received += f"\t\t{word} daddr . udp dport @ports{version} {word} saddr != @hosts{version} drop\n"
    rules = _chain("output", sent) + _chain("input", received)
    # The first line makes the table if it is not there, and the second can delete it: so this can be loaded again.
    return f"{_HEAD}table inet castd\ndelete table inet castd\ntable inet castd {{\n{sets}{rules}}}\n"


def _ports(configuration: Configuration, offset: int) -> list[tuple[IP, int]]:
    """The hosts and ports of all daemons and failure detectors, in the order of the configuration."""
    found = []
    for site, address in configuration.sites.items():
        host = _host(configuration, site)
        if address.port + offset > MOST_PORT:
            raise ConfigurationError(f"site {site}: address: there is no port {address.port + offset}")
        found += [(host, address.port), (host, address.port + offset)]
    return found


def _host(configuration: Configuration, site: int) -> IP:
    host = configuration.sites[site].host
    try:
        return ipaddress.ip_address(host)
    except ValueError:
        raise ConfigurationError(f"site {site}: address: {host} is a name: a rule needs an address") from None


def _set(name: str, kind: str, elements: Iterable[object]) -> str:
    lines = ",\n".join(f"\t\t\t{element}" for element in elements)
    return f"\tset {name} {{\n\t\ttype {kind}\n\t\telements = {{\n{lines}\n\t\t}}\n\t}}\n"


def _chain(hook: str, rules: str) -> str:
    return f"\tchain {hook} {{\n\t\ttype filter hook {hook} priority filter; policy accept;\n{rules}\t}}\n"


def unit_of(configuration: Configuration) -> str:
    """Lines of a unit by which a daemon exchanges datagrams with the hosts of sites alone.

    A `ConfigurationError` where the address of a site has a name.
    """
    hosts = dict.fromkeys(str(_host(configuration, site)) for site in configuration.sites)
    return f"{_HEAD}[Service]\nIPAddressDeny=any\nIPAddressAllow={' '.join(hosts)}\n"
