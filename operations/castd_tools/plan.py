"""Makes a configuration from a plan: the hosts, how many numbers of sites each has, and the domains.

A host has a number in each generation: that of its first daemon, and those under which it goes on. The number tells
both: site 203 is the third host's in generation 2. So a host keeps its numbers where hosts are added behind it.
"""

from __future__ import annotations

import json
from collections.abc import Iterable
from dataclasses import dataclass

from castd_tools.configuration import (
    MOST_PORT,
    MOST_SITES_OF_A_DOMAIN,
    Address,
    ConfigurationError,
    _boolean,
    _network,
    _number,
    _tables,
    _text,
)
from castd_tools.lint import DOMAIN_FIELDS, NETWORK_FIELDS

PLAN_FIELDS = ("cluster", "hosts", "sealed", "generations", "first_generation", "first_port", "domain", "network")
DOMAIN_PLAN_FIELDS = ("hosts", *(name for name in DOMAIN_FIELDS if name != "sites"))

USUAL_FIRST_PORT = 7_001
SITES_OF_A_GENERATION = 100
MOST_HOSTS = SITES_OF_A_GENERATION - 1
MOST_GENERATION = 655

HEAD = """\
# Made by castd-conf from a plan: change that, and make this anew.
# Site 203 is the third host's in generation 2.
"""


@dataclass(frozen=True)
class Plan:
    """What a plan says. `domains` are its tables. `network` is its table `[network]`, empty where it has none."""

    cluster: str
    """What the keys of its hosts are for: empty where it has no sealed host."""
    hosts: list[str]
    sealed: list[str]
    generations: range
    first_port: int
    domains: list[dict]
    network: dict

    def site(self, generation: int, host: str) -> int:
        """The number of a host in a generation."""
        return generation * SITES_OF_A_GENERATION + self.hosts.index(host) + 1

    def sites(self, host: str) -> list[int]:
        """The numbers of a host in all generations."""
        return [self.site(generation, host) for generation in self.generations]


def plan_of(document: dict) -> Plan:
    """The plan that a document is. A `ConfigurationError` names its first fault."""
    where = "the plan"
    _refuse_unknown(document, where, PLAN_FIELDS)
    usual = {"first_generation": 1, "first_port": USUAL_FIRST_PORT, **document}
    count = _number(document, "generations", where, 1, MOST_SITES_OF_A_DOMAIN)
    first = _number(usual, "first_generation", where, 1, MOST_GENERATION - count + 1)
    hosts = _hosts(document, where)
    sealed = _sealed(document, where, hosts)
    last_port = MOST_PORT - count * len(hosts) + 1
    network = _network(document)
    _refuse_unknown(network, "network", NETWORK_FIELDS)
    return Plan(
        cluster=_text(document, "cluster", where) if sealed else "",
        hosts=hosts,
        sealed=sealed,
        generations=range(first, first + count),
        first_port=_number(usual, "first_port", where, 1, last_port),
        domains=_tables(document, "domain"),
        network=network,
    )


def configuration_of(plan: Plan) -> dict:
    """The document of the configuration that a plan makes. A `ConfigurationError` where a domain is at fault."""
    sites = [(plan.site(generation, host), host) for generation in plan.generations for host in plan.hosts]
    return {
        "site": [
            {"number": number, "address": str(Address(host, plan.first_port + place))}
            | ({"sealed": True} if host in plan.sealed else {})
            for place, (number, host) in enumerate(sites)
        ],
        "domain": [_domain(plan, place, table) for place, table in enumerate(plan.domains, 1)],
        "network": plan.network,
    }


def _domain(plan: Plan, place: int, table: dict) -> dict:
    """The table of a domain, with the numbers of its hosts in place of these."""
    where = f"domain {table.get('number', f'table {place}')}"
    _refuse_unknown(table, where, DOMAIN_PLAN_FIELDS)
    hosts = _hosts(table, where) if "hosts" in table else plan.hosts
    home = _text(table, "home", where)
    for host in [*hosts, home]:
        if host not in plan.hosts:
            raise ConfigurationError(f"{where}: {host} is not one of the plan's hosts")
    if home not in hosts:
        raise ConfigurationError(f"{where}: home: {home} is not one of its hosts")
    _check_count(where, len(hosts), len(plan.generations))
    made = {
        "home": plan.site(plan.generations.start, home),
        "sites": [plan.site(generation, host) for generation in plan.generations for host in hosts],
    }
    return {name: made.get(name, table.get(name)) for name in DOMAIN_FIELDS if name in made or name in table}


def _check_count(where: str, hosts: int, generations: int) -> None:
    """A domain has no more sites than castd takes."""
    most = MOST_SITES_OF_A_DOMAIN
    if hosts * generations > most:
        fitting = f"{most // hosts} generations fit" if hosts <= most else f"{most} hosts fit"
        raise ConfigurationError(
            f"{where}: {hosts} hosts in {generations} generations are {hosts * generations} sites,"
            f" and a domain has {most} at most: {fitting}"
        )


def _hosts(table: dict, where: str) -> list[str]:
    """The hosts of a plan or of a domain, which are all different."""
    hosts = table.get("hosts")
    if not isinstance(hosts, list) or not all(isinstance(host, str) for host in hosts):
        raise ConfigurationError(f"{where}: hosts: not an array of texts")
    if not 1 <= len(hosts) <= MOST_HOSTS:
        raise ConfigurationError(f"{where}: hosts: {len(hosts)} of them: there are 1 to {MOST_HOSTS}")
    if len(set(hosts)) < len(hosts):
        raise ConfigurationError(f"{where}: hosts: one is repeated")
    return hosts


def _sealed(document: dict, where: str, hosts: list[str]) -> list[str]:
    """The hosts that are sealed: those that are named, or all, or none."""
    if not isinstance(document.get("sealed"), list):
        return hosts if _boolean(document, "sealed", where) else []
    sealed = _hosts({"hosts": document["sealed"]}, f"{where}: sealed")
    for host in sealed:
        if host not in hosts:
            raise ConfigurationError(f"{where}: sealed: {host} is not one of the plan's hosts")
    return sealed


def _refuse_unknown(table: dict, where: str, known: Iterable[str]) -> None:
    for name in table:
        if name not in known:
            raise ConfigurationError(f"{where}: {name}: unknown")


def text_of(document: dict) -> str:
    """The text of a document, in which nothing is at fault."""
    tables = [(f"[[{kind}]]", table) for kind in ("site", "domain") for table in document[kind]]
    tables += [("[network]", document["network"])] if document["network"] else []
    return HEAD + "".join(f"\n{head}\n{_fields(table)}" for head, table in tables)


def _fields(table: dict) -> str:
    return "".join(f"{name} = {_value(value)}\n" for name, value in table.items())


def _value(value: object) -> str:
    """A number, a boolean, a text or an array of numbers.

    A text is spelled as in JSON, but for a character that TOML escapes.
    """
    return json.dumps(value, ensure_ascii=False).replace("\x7f", "\\u007f")
