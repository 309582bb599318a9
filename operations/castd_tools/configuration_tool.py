"""castd-conf: makes and checks configurations and keys, says under which number a host starts a daemon, and protects its ports."""

from __future__ import annotations

import argparse
import sys
import tomllib
from collections.abc import Callable

from castd_tools import keys, numbers
from castd_tools.beat import USUAL_PORT_OFFSET
from castd_tools.command_line import Failure, Tool, site_number, whole_number
from castd_tools.configuration import MOST_PORT, Configuration, ConfigurationError, parse
from castd_tools.lint import findings_of
from castd_tools.plan import Plan, configuration_of, plan_of, text_of
from castd_tools.protection import firewall_of, unit_of
from castd_tools.system import reason

_USUAL_STATE = "/var/lib/castd"

_FOUND = 1
_UNREADABLE = 3

TOOL = Tool(
    "castd-conf",
    "castd-conf make PLAN\n"
    "       castd-conf lint CONFIG\n"
    "       castd-conf next CONFIG --site N [--state DIR]\n"
    "       castd-conf keys PLAN --master FILE [--master FILE] --to DIR\n"
    "       castd-conf firewall CONFIG [--user NAME] [--port-offset N]\n"
    "       castd-conf unit CONFIG",
    "Makes a configuration of castd from a plan, says what is at fault in one and what an operator should know of it,"
    " says under which number the host of a site starts a daemon, makes the keys of hosts, and prints rules of nftables"
    " and lines of a unit by which others do not pass for sites.",
    {
        0: "what was asked for is printed or made, or nothing was found",
        _FOUND: "the configuration, the plan or a master is at fault, or no number is left",
        2: "wrong command line",
        _UNREADABLE: "a file or a directory cannot be read or written",
    },
)


def main() -> int:
    options = _options(sys.argv[1:])
    try:
        return options.run(options)
    except Failure as failure:
        TOOL.complain(*failure.lines)
        return failure.status


def _options(words: list[str]) -> argparse.Namespace:
    commands = TOOL.parser.add_subparsers(prog=TOOL.name, metavar="COMMAND", required=True)
    make = commands.add_parser("make", help="print the configuration that a plan makes")
    make.add_argument("plan", metavar="PLAN", help="the plan, a file as castd-conf(1) has it")
    make.set_defaults(run=_make)
    lint = commands.add_parser("lint", help="print what is at fault, and what an operator should know")
    lint.add_argument("config", metavar="CONFIG", help="the configuration")
    lint.set_defaults(run=_lint)
    following = commands.add_parser("next", help="print the number under which the host of a site starts a daemon")
    following.add_argument("config", metavar="CONFIG", help="the configuration")
    following.add_argument("--site", metavar="N", type=site_number, required=True, help="the site")
    following.add_argument(
        "--state", metavar="DIR", default=_USUAL_STATE, help=f"where used site numbers are noted ({_USUAL_STATE})"
    )
    following.set_defaults(run=_next)
    making = commands.add_parser("keys", help="make the keys of the sealed hosts of a plan, a file for each host")
    making.add_argument("plan", metavar="PLAN", help="the plan, a file as castd-conf(1) has it")
    making.add_argument(
        "--master",
        metavar="FILE",
        action="append",
        required=True,
        help="what the keys are made of: the first one is used, and keys of a second one are accepted",
    )
    making.add_argument("--to", metavar="DIR", required=True, help="where the files are made, HOST.keys")
    making.set_defaults(run=_make_keys)
    firewall = commands.add_parser("firewall", help="print rules of nftables for the ports of a configuration")
    firewall.add_argument("config", metavar="CONFIG", help="the configuration")
    firewall.add_argument("--user", metavar="NAME", default="castd", help="the user of daemons and watches (castd)")
    firewall.add_argument(
        "--port-offset",
        metavar="N",
        type=lambda text: whole_number(text, 1, MOST_PORT),
        default=USUAL_PORT_OFFSET,
        help=f"as castd-watch has it ({USUAL_PORT_OFFSET})",
    )
    firewall.set_defaults(run=_firewall)
    unit = commands.add_parser("unit", help="print lines for the unit castd@: with which hosts it exchanges datagrams")
    unit.add_argument("config", metavar="CONFIG", help="the configuration")
    unit.set_defaults(run=_unit)
    return TOOL.parser.parse_args(words)


def _make(options: argparse.Namespace) -> int:
    text = _text_in(options.plan)
    try:
        document = configuration_of(plan_of(_document_of(text)))
        found = findings_of(document, is_planned=True)
    except ConfigurationError as error:
        found = [str(error)]
    if found:
        raise Failure(_FOUND, *(f"{options.plan}: {finding}" for finding in found))
    print(text_of(document), end="")
    return 0


def _make_keys(options: argparse.Namespace) -> int:
    text = _text_in(options.plan)
    try:
        plan = plan_of(_document_of(text))
        if not plan.sealed:
            raise ConfigurationError("the plan: sealed: no host is")
        for host in plan.sealed:
            if "/" in host or "\0" in host:
                raise ConfigurationError(f"the plan: hosts: no file can have the name of {host!r}")
        masters = _masters(options.master)
    except ConfigurationError as error:
        raise Failure(_FOUND, f"{options.plan}: {error}") from error
    except keys.KeysError as error:
        raise Failure(_FOUND, str(error)) from error
    try:
        for host in plan.sealed:
            keys.write(f"{options.to}/{host}.keys", _keys_for(plan, host, masters))
    except OSError as error:
        raise Failure(_UNREADABLE, f"{options.to}: {reason(error)}") from error
    return 0


def _masters(paths: list[str]) -> list[bytes]:
    masters = [keys.read_master(path) for path in paths]
    if len(masters) > keys.MOST_OF_A_PAIR:
        raise keys.KeysError(f"{len(masters)} masters: there are 1 to {keys.MOST_OF_A_PAIR}")
    if len({keys.number_of(master) for master in masters}) < len(masters):
        raise keys.KeysError(f"{paths[-1]}: its keys have the number of those of {paths[0]}: make another master")
    return masters


def _keys_for(plan: Plan, host: str, masters: list[bytes]) -> str:
    """The file of the keys of a host, those with itself too."""
    return keys.text_for(
        host,
        [
            (other, plan.sites(other), keys.key_of_pair(master, plan.cluster, host, other))
            for other in plan.sealed
            for master in masters
        ],
    )


def _lint(options: argparse.Namespace) -> int:
    text = _text_in(options.config)
    try:
        found = findings_of(_document_of(text))
    except ConfigurationError as error:
        found = [str(error)]
    for finding in found:
        print(f"{options.config}: {finding}")
    return _FOUND if found else 0


def _next(options: argparse.Namespace) -> int:
    text = _text_in(options.config)
    try:
        configuration = parse(text)
        served = configuration.domains_of(options.site)
        number = numbers.next_site(configuration, options.site, options.state)
    except ConfigurationError as error:
        raise Failure(_FOUND, f"{options.config}: {error}") from error
    except OSError as error:
        raise Failure(_UNREADABLE, f"{options.state}: {reason(error)}") from error
    if number is None:
        raise Failure(_FOUND, f"{options.config}: no unused number has the host and the domains of site {options.site}")
    for domain in served:
        if domain.home == options.site != number:
            TOOL.complain(f"domain {domain.number}: site {options.site} is its home: all its daemons start anew")
    print(number)
    return 0


def _firewall(options: argparse.Namespace) -> int:
    return _print_of(options.config, lambda it: firewall_of(it, options.user, options.port_offset))


def _unit(options: argparse.Namespace) -> int:
    return _print_of(options.config, unit_of)


def _print_of(path: str, text_of: Callable[[Configuration], str]) -> int:
    """Prints a text that the configuration in a file makes."""
    text = _text_in(path)
    try:
        print(text_of(parse(text)), end="")
    except ConfigurationError as error:
        raise Failure(_FOUND, f"{path}: {error}") from error
    return 0


def _text_in(path: str) -> str:
    try:
        with open(path, encoding="utf-8-sig", newline="") as file:
            return file.read()
    except OSError as error:
        raise Failure(_UNREADABLE, f"{path}: {reason(error)}") from error
    except UnicodeDecodeError as error:
        raise Failure(_UNREADABLE, f"{path}: not UTF-8") from error


def _document_of(text: str) -> dict:
    """The TOML document that a text is. A `ConfigurationError` where it is none."""
    try:
        return tomllib.loads(text)
    except (ValueError, RecursionError) as error:
        raise ConfigurationError(f"text: not TOML: {error}") from error
