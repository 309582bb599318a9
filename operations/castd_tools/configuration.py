"""Reads the configuration of castd, by the rules of docs/FORMATS.md."""

from __future__ import annotations

import tomllib
from collections.abc import Mapping
from dataclasses import dataclass

MOST_SITE_NUMBER = 65_535
MOST_GROUP_NUMBER = 65_535
MOST_DOMAIN_NUMBER = 255
MOST_DOMAINS = 16
MOST_SITES_OF_A_DOMAIN = 16
MOST_GROUPS_OF_A_DOMAIN = 32
MOST_PORT = 65_535


@dataclass(frozen=True)
class NumberRange:
    """The least and most value of a number, and the usual one, which stands for one that is absent."""

    least: int
    most: int
    usual: int


QUOTAS = {
    "sessions": NumberRange(1, 64, 16),
    "held": NumberRange(1, 1_024, 256),
    "outbox": NumberRange(1, 4_096, 256),
    "resend": NumberRange(10, 60_000, 200),
}
# Bytes of a bundle at most.
DATAGRAM = NumberRange(512, 60_000, 8_972)
# Microseconds.
DELAY = NumberRange(0, 1_000_000, 0)


class ConfigurationError(Exception):
    """The configuration cannot be read, or is at fault. Its text says where and why."""


@dataclass(frozen=True)
class Address:
    """Where the datagrams of a site go, or where the metrics of one are read."""

    host: str
    port: int

    def __str__(self) -> str:
        host = f"[{self.host}]" if ":" in self.host else self.host
        return f"{host}:{self.port}"


@dataclass(frozen=True)
class Domain:
    """A domain. `sites` and `groups` have the order of the file."""

    number: int
    home: int
    sites: tuple[int, ...]
    groups: tuple[int, ...]
    socket: str
    quotas: Mapping[str, int]
    """The quotas that the file gives, by name."""

    def quota(self, name: str) -> int:
        """The quota of this name: the usual one where the file gives none."""
        return self.quotas.get(name, QUOTAS[name].usual)


@dataclass(frozen=True)
class Configuration:
    """Sites and domains by number, in the order of the file."""

    sites: dict[int, Address]
    domains: dict[int, Domain]
    bundle: int | None = None
    """The most bytes of a bundle. None where frames share no datagrams."""
    delay: int = DELAY.usual
    """For how many microseconds messages may queue on their way to other sites before the programs of a domain wait.

    0 if that is not looked at.
    """
    sealed: frozenset[int] = frozenset()
    """The sites that are sealed. Two of them exchange sealed beats."""

    def domains_of(self, site: int) -> list[Domain]:
        """The domains that a site serves. A `ConfigurationError` where the file lacks the site or it serves none."""
        if site not in self.sites:
            raise ConfigurationError(f"site {site} is not listed")
        served = [domain for domain in self.domains.values() if site in domain.sites]
        if not served:
            raise ConfigurationError(f"site {site} is in no domain")
        return served


def read(path: str) -> Configuration:
    """The configuration in a file. A `ConfigurationError`, whose text begins with the path, where it has none."""
    try:
        with open(path, encoding="utf-8-sig", newline="") as file:
            return parse(file.read())
    except OSError as error:
        raise ConfigurationError(f"{path}: {error.strerror}") from error
    except UnicodeDecodeError as error:
        raise ConfigurationError(f"{path}: not UTF-8") from error
    except ConfigurationError as error:
        raise ConfigurationError(f"{path}: {error}") from error


def parse(text: str) -> Configuration:
    """The configuration that a text is. A `ConfigurationError` names its first fault."""
    try:
        document = tomllib.loads(text)
    except (ValueError, RecursionError) as error:
        raise ConfigurationError(f"not TOML: {error}") from error
    site_tables, domain_tables = _tables(document, "site"), _tables(document, "domain")
    sites = _by_number("site", [_site(table) for table in site_tables])
    sealed = frozenset(
        number for number, table in zip(sites, site_tables, strict=True) if _is_sealed(table, f"site {number}")
    )
    if not 1 <= len(domain_tables) <= MOST_DOMAINS:
        raise ConfigurationError(f"{len(domain_tables)} domains: there are 1 to {MOST_DOMAINS}")
    domains = _by_number("domain", [(domain.number, domain) for domain in map(_domain, domain_tables)])
    for domain in domains.values():
        _check_sites(domain, sites)
    network = _network(document)
    is_bundling, most, delay = _is_bundling(network), _datagram(network), _delay(network)
    return Configuration(sites, domains, most if is_bundling else None, delay, sealed)


def _tables(document: dict, name: str) -> list[dict]:
    """The tables `[[name]]` of a document."""
    tables = _field(document, name, "the document")
    if not isinstance(tables, list) or not all(isinstance(table, dict) for table in tables):
        raise ConfigurationError(f"{name}: not tables [[{name}]]")
    return tables


def _by_number(kind: str, numbered: list[tuple]) -> dict:
    """What is numbered, by its numbers, of which no two are alike."""
    found = {}
    for number, entry in numbered:
        if number in found:
            raise ConfigurationError(f"{kind} {number}: repeated")
        found[number] = entry
    return found


def _site(table: dict) -> tuple[int, Address]:
    number = _number(table, "number", "a site", 1, MOST_SITE_NUMBER)
    return number, _address(_text(table, "address", f"site {number}"), f"site {number}")


def _is_sealed(table: dict, where: str) -> bool:
    return _boolean(table, "sealed", where)


def _address(text: str, where: str) -> Address:
    address = address_of(text)
    if not address:
        raise ConfigurationError(f"{where}: address: {text!r} is not host:port")
    return address


def address_of(text: str) -> Address | None:
    """The address `host:port` that a text is, None where it is none. A host with colons stands in brackets."""
    host, _, port = text.rpartition(":")
    if host.startswith("[") and host.endswith("]"):
        host = host[1:-1]
    elif ":" in host:
        host = ""
    is_number = port.isascii() and port.isdigit() and len(port) <= len(str(MOST_PORT))
    if not host or not is_number or not 1 <= int(port) <= MOST_PORT:
        return None
    return Address(host, int(port))


def _domain(table: dict) -> Domain:
    number = _number(table, "number", "a domain", 1, MOST_DOMAIN_NUMBER)
    where = f"domain {number}"
    return Domain(
        number=number,
        home=_number(table, "home", where, 1, MOST_SITE_NUMBER),
        sites=_numbers(table, "sites", where, MOST_SITE_NUMBER, MOST_SITES_OF_A_DOMAIN),
        groups=_numbers(table, "groups", where, MOST_GROUP_NUMBER, MOST_GROUPS_OF_A_DOMAIN),
        socket=_text(table, "socket", where),
        quotas={
            name: _number(table, name, where, allowed.least, allowed.most)
            for name, allowed in QUOTAS.items()
            if name in table
        },
    )


def _check_sites(domain: Domain, sites: dict[int, Address]) -> None:
    """A domain has sites of the document alone, and its home is one of them."""
    for site in domain.sites:
        if site not in sites:
            raise ConfigurationError(f"domain {domain.number}: sites: site {site} is not listed")
    if domain.home not in domain.sites:
        raise ConfigurationError(f"domain {domain.number}: home: {domain.home} is not one of its sites")


def _network(document: dict) -> dict:
    """The table `[network]` of a document, which is empty where there is none."""
    network = document.get("network", {})
    if not isinstance(network, dict):
        raise ConfigurationError("network: not a table [network]")
    return network


def _is_bundling(network: dict) -> bool:
    """Whether frames are to share datagrams."""
    return _boolean(network, "bundle", "network")


def _datagram(network: dict) -> int:
    """The most bytes of a bundle, if there are to be bundles."""
    return _within(network.get("datagram", DATAGRAM.usual), "datagram", "network", DATAGRAM.least, DATAGRAM.most)


def _delay(network: dict) -> int:
    """For how many microseconds messages may queue before programs wait. 0 if that is not looked at."""
    return _within(network.get("delay", DELAY.usual), "delay", "network", DELAY.least, DELAY.most)


def _field(table: dict, name: str, where: str) -> object:
    if name not in table:
        raise ConfigurationError(f"{where}: {name}: missing")
    return table[name]


def _text(table: dict, name: str, where: str) -> str:
    value = _field(table, name, where)
    if not isinstance(value, str):
        raise ConfigurationError(f"{where}: {name}: not a text")
    return value


def _number(table: dict, name: str, where: str, least: int, most: int) -> int:
    return _within(_field(table, name, where), name, where, least, most)


def _within(value: object, name: str, where: str, least: int, most: int) -> int:
    """A whole number, which is neither below the least nor above the most."""
    if not isinstance(value, int) or isinstance(value, bool):
        raise ConfigurationError(f"{where}: {name}: not a whole number")
    if not least <= value <= most:
        raise ConfigurationError(f"{where}: {name}: {value} is not {least} to {most}")
    return value


def _boolean(table: dict, name: str, where: str) -> bool:
    """A boolean, which is false where it is absent."""
    value = table.get(name, False)
    if not isinstance(value, bool):
        raise ConfigurationError(f"{where}: {name}: not a boolean")
    return value


def _numbers(table: dict, name: str, where: str, most: int, most_of_them: int) -> tuple[int, ...]:
    """One number or more, which are all different."""
    values = _field(table, name, where)
    if not isinstance(values, list):
        raise ConfigurationError(f"{where}: {name}: not an array")
    numbers = tuple(_within(value, name, where, 1, most) for value in values)
    if not 1 <= len(numbers) <= most_of_them:
        raise ConfigurationError(f"{where}: {name}: {len(numbers)} of them: there are 1 to {most_of_them}")
    if len(set(numbers)) < len(numbers):
        raise ConfigurationError(f"{where}: {name}: a number is repeated")
    return numbers
