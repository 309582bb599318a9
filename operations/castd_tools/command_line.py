"""What the commands share: words, exit statuses, signals, and what they say when they fail."""

from __future__ import annotations

import argparse
import asyncio
import math
import signal
import sys
import textwrap
from collections.abc import Coroutine

from castd_tools import VERSION, control
from castd_tools.configuration import MOST_SITE_NUMBER, Address, Configuration, ConfigurationError, address_of, read
from castd_tools.statuses import CONFIGURATION

_HELP_WIDTH = 78


class Failure(Exception):
    """The tool ends: with this status, and with these lines on standard error."""

    def __init__(self, status: int, *lines: str):
        super().__init__("; ".join(lines))
        self.status, self.lines = status, lines


class Tool:
    """A command. Its help tells its exit statuses."""

    def __init__(self, name: str, usage: str, description: str, statuses: dict[int | str, str]):
        self.name = name
        told = "".join(f"  {status!s:<5} {text}\n" for status, text in statuses.items())
        self.parser = argparse.ArgumentParser(
            prog=name,
            usage=usage,
            description=textwrap.fill(description, _HELP_WIDTH),
            epilog=f"exit status:\n{told}",
            formatter_class=argparse.RawDescriptionHelpFormatter,
        )
        self.parser.add_argument("--version", action="version", version=f"{name} {VERSION}", help="print the version and end")

    def complain(self, *lines: str) -> None:
        for line in lines:
            print(f"{self.name}: {line}", file=sys.stderr, flush=True)


class SiteTool(Tool):
    """A command that runs beside the daemon of a site until it is stopped."""

    def __init__(self, name: str, usage: str, description: str, statuses: dict[int | str, str]):
        super().__init__(name, usage, description, statuses)
        add = self.parser.add_argument
        add("config", metavar="CONFIG", help="the configuration, a file as castd.conf(5) has it")
        add("--site", metavar="N", type=site_number, required=True, help="the number of the own site")
        add("--control", metavar="PATH", help="the control socket of the keeper (/run/castd-N/control)")

    def options(self, words: list[str]) -> argparse.Namespace:
        options = self.parser.parse_args(words)
        options.control = options.control or control.path_of(options.site)
        return options

    def configuration(self, options: argparse.Namespace) -> Configuration:
        """The configuration that is named. A `Failure` where it is at fault, or the own site serves no domain of it."""
        try:
            configuration = read(options.config)
            configuration.domains_of(options.site)
        except ConfigurationError as error:
            raise Failure(CONFIGURATION, str(error)) from error
        return configuration

    def run(self, work: Coroutine[None, None, int]) -> int:
        """Does the work, and gives the exit status. Says why if it fails."""
        try:
            return asyncio.run(work)
        except Failure as failure:
            self.complain(*failure.lines)
            return failure.status


def stop_signals() -> asyncio.Event:
    """An event that SIGTERM and SIGINT set from now on."""
    stop = asyncio.Event()
    for number in (signal.SIGTERM, signal.SIGINT):
        asyncio.get_running_loop().add_signal_handler(number, stop.set)
    return stop


def site_number(text: str) -> int:
    return whole_number(text, 1, MOST_SITE_NUMBER)


def address(text: str) -> Address:
    """The address that a word is. An error of the command line where it is none."""
    if found := address_of(text):
        return found
    raise argparse.ArgumentTypeError(f"{text!r} is not host:port")


def whole_number(text: str, least: int, most: int) -> int:
    """The number that a word is. An error of the command line where it is none, or is outside its limits."""
    if not (text.isascii() and text.isdigit() and len(text) <= len(str(most)) and least <= int(text) <= most):
        raise argparse.ArgumentTypeError(f"{text!r} is not a number from {least} to {most}")
    return int(text)


def seconds(text: str, least: float, most: float) -> float:
    """The seconds that a word says. An error of the command line where it is no number, or is outside its limits."""
    try:
        said = float(text)
    except ValueError:
        said = math.nan
    if not least <= said <= most:
        raise argparse.ArgumentTypeError(f"{text!r} is not {least:g} to {most:g} seconds")
    return said
