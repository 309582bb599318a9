"""castctl: says a line to the keepers of sites, and prints the answers."""

from __future__ import annotations

import argparse
import asyncio
import json
import sys
from dataclasses import dataclass

from castd_tools import control
from castd_tools.answers import values_of
from castd_tools.command_line import Failure, Tool, site_number
from castd_tools.installation import SITE, read_installation, socket_pattern
from castd_tools.statuses import CONFIGURATION, NOT_DONE, UNREACHED, USAGE

TOOL = Tool(
    "castctl",
    "castctl [--json] SITE LINE...\n"
    "       castctl [--json] --socket PATH LINE...\n"
    "       castctl [--json] --all CONFIG [--socket PATH] LINE...",
    "Says a line of the console to the daemon of a site, by its keeper, and prints the answer. The keeper itself"
    " answers `metrics`, in the text format of Prometheus, `health`, and `suspected`, which names the sites that were"
    " put out. With --all it asks each site of a configuration that runs on this host, and prints the number of the site"
    " before each line.",
    {
        0: "each line was answered; for health: healthy",
        NOT_DONE: "an answer says that something was not done; for health: why a site is not healthy",
        USAGE: "wrong command line",
        UNREACHED: "a keeper cannot be reached, or no site runs on this host",
        CONFIGURATION: "the configuration is at fault",
    },
)


@dataclass(frozen=True)
class Asked:
    """Who is asked: the path of the control socket, and the number of the site where it is known."""

    site: int | None
    path: str


@dataclass(frozen=True)
class Told:
    """What came of a line that a keeper was to be said: the answer, or why there is none."""

    asked: Asked
    answer: list[str]
    problem: str | None = None

    @property
    def status(self) -> int:
        """The exit status that this alone would give."""
        if self.problem is not None:
            return UNREACHED
        return NOT_DONE if control.is_refusal(self.answer) else 0


def main() -> int:
    try:
        options, line = _options_and_line(sys.argv[1:])
        told = asyncio.run(_ask_all(_asked(options), line))
    except Failure as failure:
        TOOL.complain(*failure.lines)
        return failure.status
    for one in told:
        if one.problem is not None:
            TOOL.complain(one.problem)
    if options.json:
        values = [_values(one) for one in told]
        print(json.dumps(values if options.all else values[0], indent=2))
    else:
        for one in told:
            for said in one.answer:
                print(f"{one.asked.site}: {said}" if options.all else said)
    return max(one.status for one in told)


def _options_and_line(words: list[str]) -> tuple[argparse.Namespace, str]:
    """The options, and the line to be said. `site` is None where the words name none."""
    parser = TOOL.parser
    parser.add_argument("--json", action="store_true", help="print the answer as JSON")
    parser.add_argument("--all", metavar="CONFIG", help="ask each site of this configuration that runs on this host")
    parser.add_argument(
        "--socket",
        metavar="PATH",
        help=f"the control socket, if it is not /run/castd-SITE/control; with --all, {SITE} stands for the number",
    )
    parser.add_argument(
        "words", metavar="[SITE] LINE...", nargs="+", help="the line: domains, show D, groups D and so on"
    )
    options = parser.parse_args(words)
    options.site = None
    if options.socket is None and options.all is None:
        try:
            options.site = site_number(options.words.pop(0))
        except argparse.ArgumentTypeError as error:
            parser.error(str(error))
    if options.all is not None and options.socket is not None:
        try:
            socket_pattern(options.socket)
        except argparse.ArgumentTypeError as error:
            parser.error(f"argument --socket: {error}")
    line = " ".join(options.words)
    try:
        control.line_of(line.encode("utf-8", "surrogateescape"))
    except control.LineError as error:
        parser.error(f"the line is {error}")
    if not line:
        parser.error("no line")
    return options, line


def _asked(options: argparse.Namespace) -> list[Asked]:
    """Who is to be asked. With --all a `Failure` where the configuration is at fault, or no site of it runs here."""
    if options.all is None:
        return [Asked(options.site, options.socket or control.path_of(options.site))]
    running = read_installation(options.all, options.socket).some_running()
    return [Asked(site, path) for site, path in running.items()]


async def _ask_all(asked: list[Asked], line: str) -> list[Told]:
    """Asks all at once."""
    return await asyncio.gather(*(_ask(one, line) for one in asked))


async def _ask(asked: Asked, line: str) -> Told:
    try:
        return Told(asked, await control.ask(asked.path, line, control.ANSWER_SECONDS))
    except control.ControlError as error:
        return Told(asked, [], str(error))


def _values(told: Told) -> dict:
    """What came of a line, as JSON has it."""
    site = {} if told.asked.site is None else {"site": told.asked.site}
    if told.problem is not None:
        return {**site, "problem": told.problem}
    return {**site, "done": told.status == 0, "answer": values_of(told.answer)}
