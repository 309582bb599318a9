"""castd-top: shows an installation on a terminal, as far as its sites run on this host."""

from __future__ import annotations

import argparse
import asyncio
import curses
import os
import signal
import sys
import time

from castd_tools import control
from castd_tools.command_line import Failure, Tool, seconds
from castd_tools.installation import SITE, read_installation, socket_pattern
from castd_tools.observation import Observer
from castd_tools.overview import overview
from castd_tools.screen import show
from castd_tools.statuses import CONFIGURATION, NOT_DONE, UNREACHED, USAGE

_LEAST_INTERVAL, _MOST_INTERVAL = 0.1, 3_600.0

TOOL = Tool(
    "castd-top",
    "castd-top CONFIG [--socket PATH] [--interval SECONDS] [--once]",
    "Shows the sites of a configuration that run on this host, with their domains and groups, and how many casts and"
    " datagrams there are a second. Keys scroll, suspect a site, stop a site, and end it.",
    {
        0: "ended by the key q, SIGINT or SIGTERM; with --once: each site answers and is healthy",
        NOT_DONE: "with --once: a site is not healthy",
        USAGE: "wrong command line, or no terminal",
        UNREACHED: "no site runs on this host; with --once: a site does not answer",
        CONFIGURATION: "the configuration is at fault",
    },
)


def main() -> int:
    try:
        options = _options(sys.argv[1:])
        if options.once:
            # SIGINT ends it as any program that does not look at it.
            signal.signal(signal.SIGINT, signal.SIG_DFL)
        else:
            _need_terminal()
        installation = read_installation(options.config, options.socket)
        installation.some_running()
        top = Top(Observer(installation), options.interval)
        return asyncio.run(top.print()) if options.once else top.show()
    except Failure as failure:
        TOOL.complain(*failure.lines)
        return failure.status


def _options(words: list[str]) -> argparse.Namespace:
    add = TOOL.parser.add_argument
    add("config", metavar="CONFIG", help="the configuration, a file as castd.conf(5) has it")
    add(
        "--socket",
        metavar="PATH",
        type=socket_pattern,
        help=f"the control sockets, if they are not {control.path_of(SITE)}; {SITE} stands for the number of the site",
    )
    add(
        "--interval",
        metavar="SECONDS",
        type=lambda text: seconds(text, _LEAST_INTERVAL, _MOST_INTERVAL),
        default=1.0,
        help="the time from one look at the sites to the next (1)",
    )
    add("--once", action="store_true", help="look twice, print what a terminal would show, and end")
    return TOOL.parser.parse_args(words)


def _need_terminal() -> None:
    """A `Failure` where there is no terminal that can show anything at any place."""
    if not (sys.stdin.isatty() and sys.stdout.isatty()):
        raise Failure(USAGE, "standard input and output are no terminal: --once needs none")
    try:
        curses.setupterm()
    except curses.error as error:
        raise Failure(USAGE, f"the terminal {os.environ.get('TERM', '')!r} cannot be used: {error}") from error
    if not curses.tigetstr("cup"):
        raise Failure(USAGE, f"the terminal {os.environ['TERM']!r} cannot be used: its cursor cannot be moved")


class Top:
    """Shows what is observed each so many seconds."""

    def __init__(self, observer: Observer, interval: float):
        self._observer, self._interval = observer, interval

    def show(self) -> int:
        """Shows it on the terminal until it is ended, and gives the exit status."""
        show(self._observer, self._overview, self._interval)
        return 0

    async def print(self) -> int:
        """Prints it once, and gives the exit status. Rates need two looks."""
        await self._observer.observe()
        await asyncio.sleep(self._interval)
        await self._observer.observe()
        print("\n".join(self._overview()))
        if any(site.problem is not None for site in self._observer.now.values()):
            return UNREACHED
        return NOT_DONE if any(site.reasons for site in self._observer.now.values()) else 0

    def _overview(self) -> list[str]:
        clock = time.strftime("%Y-%m-%d %H:%M:%S UTC", time.gmtime())
        it, before, now = self._observer.installation, self._observer.before, self._observer.now
        return overview(clock, it.config, it.configuration, before, now)
