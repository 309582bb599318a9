"""castd-keeper: starts the daemon of a site, keeps its console, and answers at a control socket."""

from __future__ import annotations

import argparse
import asyncio
import contextlib
import os
import socket
import sys
import time
from collections.abc import Iterator
from dataclasses import dataclass
from http import HTTPStatus

from castd_tools import control, daemon, internet_sockets, keys, metrics, numbers, spare_ports, unix_sockets
from castd_tools.answers import domains_of
from castd_tools.command_line import Failure, SiteTool, address, stop_signals
from castd_tools.configuration import Configuration, Domain
from castd_tools.console import OK, STOP, Console, Unanswered
from castd_tools.control_server import ControlServer
from castd_tools.http_server import HttpServer, Response
from castd_tools.notification import notify
from castd_tools.standard_console import StandardConsole
from castd_tools.standing import Standing
from castd_tools.statuses import BY_SIGNAL, NO_CONTROL, NO_METRICS, NOT_NOTED, NOT_STARTED, NUMBER_USED
from castd_tools.system import reason

_ANSWER_SECONDS = 5.0
_HEALTH_SECONDS = 2.0
_STOP_SECONDS = 5.0

# The status of a daemon that found no memory. It may have served before.
_NO_MEMORY = 5

TOOL = SiteTool(
    "castd-keeper",
    "castd-keeper CONFIG --site N [--control PATH] [--program PATH] [--state DIR] [--record DIR] [--keys FILE]"
    " [--metrics ADDRESS] [-- WORD...]",
    "Starts `castd serve CONFIG --site N WORD...`, keeps its console, and answers castctl at a control socket. Lines of"
    " standard input are answered on standard output. SIGTERM and SIGINT stop the daemon in order. A site number is"
    " used once: a second start under it is refused.",
    {
        0: "the daemon was stopped",
        "2-7": "as castd, which has said why; also 2: wrong command line, 6: fault in the configuration",
        NUMBER_USED: "a daemon was started under this site number before",
        NO_CONTROL: "the control socket cannot be made, or a keeper that runs has it",
        NOT_NOTED: "the site number cannot be noted as used",
        NOT_STARTED: "the program of the daemon cannot be started",
        NO_METRICS: "the metrics cannot be served at their address",
        f"{BY_SIGNAL}+N": "signal N killed the daemon",
    },
)


def main() -> int:
    return TOOL.run(_keep(_options(sys.argv[1:])))


def _options(words: list[str]) -> argparse.Namespace:
    own, more = words, []
    if "--" in words:
        cut = words.index("--")
        own, more = words[:cut], words[cut + 1 :]
    add = TOOL.parser.add_argument
    add("--program", metavar="PATH", default="castd", help="the daemon (castd on the path)")
    add(
        "--state",
        metavar="DIR",
        default="/var/lib/castd",
        help="the folder where used site numbers are noted, which has to be there (/var/lib/castd)",
    )
    add("--record", metavar="DIR", help="the folder of the daemon's record; none if left out")
    add("--keys", metavar="FILE", default=keys.USUAL_FILE, help=f"the keys of a sealed site ({keys.USUAL_FILE})")
    add(
        "--metrics",
        metavar="ADDRESS",
        type=address,
        help="serve /metrics and /health by HTTP at this host:port; not served if left out",
    )
    options = TOOL.options(own)
    options.more = ["--record", options.record, *more] if options.record else more
    return options


async def _keep(options: argparse.Namespace) -> int:
    """Keeps a daemon until it ends, and gives the exit status."""
    stop = stop_signals()
    configuration = TOOL.configuration(options)
    domains = configuration.domains_of(options.site)
    if options.site in configuration.sealed:
        options.more = ["--keys", options.keys, *options.more]
    with contextlib.ExitStack() as held:
        claim = held.enter_context(_claimed(options, configuration))
        held.enter_context(spare_ports.held(configuration, options.site, TOOL.complain))
        sockets = Sockets(_control_socket(held, options), _metrics_socket(held, options))
        _remove_dead_sockets(domains, options.state)
        version = await daemon.version(options.program)
        keeper = Keeper(options.site, domains, version, await _start(options))
        claim.stays = True
        returncode = await keeper.run(sockets, stop)
        _remove_dead_sockets(domains, options.state)
        claim.stays = keeper.has_served or returncode <= 0 or returncode == _NO_MEMORY
    return returncode if returncode >= 0 else BY_SIGNAL - returncode


class Claim:
    """The number of a site is noted as used. The note stays, unless nothing was served under the number."""

    stays = False


@contextlib.contextmanager
def _claimed(options: argparse.Namespace, configuration: Configuration) -> Iterator[Claim]:
    """Notes that the number of the site is used. Takes the note back in the end if it does not stay."""
    site, state = options.site, options.state
    started = time.strftime("%Y-%m-%d %H:%M:%S UTC", time.gmtime())
    text = f"castd was started as site {site} of {os.path.abspath(options.config)}, {started}\n"
    try:
        if not numbers.note(state, site, text):
            raise Failure(NUMBER_USED, *_why_used(options, configuration))
    except OSError as error:
        raise Failure(NOT_NOTED, f"site {site} cannot be noted as used: {state}: {reason(error)}") from error
    claim = Claim()
    try:
        yield claim
    finally:
        if not claim.stays:
            numbers.forget(state, site)


def _why_used(options: argparse.Namespace, configuration: Configuration) -> list[str]:
    site, free = options.site, numbers.next_site(configuration, options.site, options.state)
    if free:
        way_out = f"the next free number in {options.config} is {free}"
    else:
        way_out = f"{options.config} has no free number at the host and in the domains of site {site}: add one"
    return [
        f"a daemon was started as site {site} before; {numbers.path(options.state, site)} notes it",
        way_out,
        "remove that file only if you are certain that no daemon with that number ever spoke to others",
    ]


@dataclass(frozen=True)
class Sockets:
    """The sockets at which a keeper listens. `metrics` is None where they are not served."""

    control: socket.socket
    metrics: socket.socket | None


def _control_socket(held: contextlib.ExitStack, options: argparse.Namespace) -> socket.socket:
    try:
        return held.enter_context(unix_sockets.listening(options.control, options.state))
    except OSError as error:
        raise Failure(NO_CONTROL, f"no control socket can be made: {options.control}: {reason(error)}") from error


def _metrics_socket(held: contextlib.ExitStack, options: argparse.Namespace) -> socket.socket | None:
    if not options.metrics:
        return None
    try:
        return held.enter_context(internet_sockets.listening(options.metrics))
    except OSError as error:
        raise Failure(NO_METRICS, f"the metrics cannot be served: {options.metrics}: {reason(error)}") from error


async def _start(options: argparse.Namespace) -> asyncio.subprocess.Process:
    words = [options.program, "serve", options.config, "--site", str(options.site), *options.more]
    try:
        return await daemon.start(words)
    except OSError as error:
        raise Failure(NOT_STARTED, f"castd cannot be started: {options.program}: {reason(error)}") from error


def _remove_dead_sockets(domains: list[Domain], state: str) -> None:
    """Removes the sockets of domains that a killed daemon left behind.

    Keepers of one host have one state directory, and lock that: a tenant, who may open the directory of its socket, may
    not hold up the others.
    """
    for domain in domains:
        with contextlib.suppress(OSError):
            if unix_sockets.remove_dead(domain.socket, state):
                TOOL.complain(f"removed {domain.socket}, which a killed daemon left behind")


def _notify(*assignments: str) -> None:
    try:
        notify(*assignments)
    except OSError as error:
        TOOL.complain(f"systemd cannot be told {' '.join(assignments)}: {reason(error)}")


def _text_of(lines: list[str]) -> str:
    return "".join(f"{line}\n" for line in lines)


async def _first(*tasks: asyncio.Task) -> None:
    """Waits until one of these is done."""
    await asyncio.wait(tasks, return_when=asyncio.FIRST_COMPLETED)


class Keeper:
    """Keeps the daemon of a site, which was started."""

    def __init__(
        self, site: int, domains: list[Domain], version: str | None, process: asyncio.subprocess.Process
    ):
        self.has_served = False
        self._site, self._version, self._process = site, version, process
        self._standing = Standing(site, domains)
        self._console = Console(process.stdin, process.stdout, self._standing.observe)
        self._own_lines = {
            control.METRICS: self._metrics,
            control.HEALTH: self._health,
            control.SUSPECTED: self._suspected,
        }

    async def run(self, sockets: Sockets, stop: asyncio.Event) -> int:
        """Answers lines until the daemon ends, which it is told to once `stop` is set. Gives its return code."""
        ended = asyncio.create_task(self._process.wait())
        stopped = asyncio.create_task(stop.wait())
        serves = asyncio.create_task(self._console.comes_to_serve())
        _notify(f"STATUS=starting site {self._site}")
        await _first(serves, stopped)
        if serves.done() and serves.result():
            await self._serve(sockets, ended, stopped)
        else:
            await self._until_end(ended, stopped)
        self.has_served = await serves
        stopped.cancel()
        self._tell_end(ended.result())
        return ended.result()

    async def answer(self, data: bytes) -> list[str]:
        """The answer to a line that these bytes are."""
        try:
            line = control.line_of(data)
        except control.LineError as error:
            return [f"{control.KEEPER}{error}"]
        if not line:
            return ["fault 1"]
        try:
            match line.split(" "):
                case [control.HOME_SILENT | control.HOME_HEARD as word, domain]:
                    return self._note_home(domain, word == control.HOME_SILENT)
                case _ if line in self._own_lines:
                    return await self._own_lines[line]()
            return await self._ask(line)
        except Unanswered as error:
            return [f"{control.KEEPER}{error}"]

    async def _ask(self, line: str) -> list[str]:
        return await self._console.ask(line, _ANSWER_SECONDS)

    async def _serve(self, sockets: Sockets, ended: asyncio.Task, stopped: asyncio.Task) -> None:
        server, console = ControlServer(self.answer), StandardConsole(self.answer)
        pages = HttpServer({"/metrics": self._metrics_page, "/health": self._health_page})
        await server.start(sockets.control)
        if sockets.metrics:
            await pages.start(sockets.metrics)
        console.start()
        _notify("READY=1", f"STATUS=serving site {self._site}")
        await self._until_end(ended, stopped)
        if sockets.metrics:
            await pages.close()
        await server.close()
        await console.close()

    async def _until_end(self, ended: asyncio.Task, stopped: asyncio.Task) -> None:
        """Waits until the daemon has ended, or is to end and has."""
        await _first(ended, stopped)
        if ended.done():
            return
        _notify("STOPPING=1", f"STATUS=stopping site {self._site}")
        try:
            async with asyncio.timeout(_STOP_SECONDS):
                with contextlib.suppress(Unanswered):
                    await self._console.ask(STOP, _STOP_SECONDS)
                await asyncio.shield(ended)
        except TimeoutError:
            TOOL.complain(f"the daemon did not stop within {_STOP_SECONDS:g} s, and is killed")
            self._process.kill()
            await ended

    def _tell_end(self, returncode: int) -> None:
        told = (
            f"signal {-returncode} killed the daemon"
            if returncode < 0
            else f"the daemon ended with status {returncode}"
        )
        if returncode:
            TOOL.complain(told)
        _notify("STOPPING=1", f"STATUS={told}")

    async def _metrics(self) -> list[str]:
        exposition = metrics.Exposition(self._site)
        if self._version:
            exposition.add("castd_build_info", 1, version=self._version)
        try:
            await metrics.add_answers(exposition, self._ask, self._standing.quota)
            exposition.add("castd_up", 1)
        except Unanswered:
            exposition.add("castd_up", 0)
        for domain in self._standing.domains():
            exposition.add("castd_domain_retired", int(domain in self._standing.retired), domain=domain)
        for domain, (_, is_silent) in self._standing.homes().items():
            exposition.add("castd_home_silent", int(is_silent), domain=domain)
        # A daemon that has just ended uses nothing.
        with contextlib.suppress(OSError):
            metrics.add_usage(exposition, daemon.usage(self._process.pid))
        return exposition.lines()

    async def _health(self) -> list[str]:
        try:
            async with asyncio.timeout(_HEALTH_SECONDS):
                domains, record = await self._ask("domains"), await self._ask("record")
        except (TimeoutError, Unanswered):
            return [f"{control.UNHEALTHY}the daemon does not answer within {_HEALTH_SECONDS:g} s"]
        reasons = [line for line in domains if control.is_refusal([line])]
        reasons += [f"domain {domain} is halted" for domain, runs in domains_of(domains).items() if not runs]
        reasons += [
            f"site {self._site} was put out of domain {domain}, whose programs are no longer served here"
            for domain in sorted(self._standing.retired)
        ]
        for domain, (home, is_silent) in self._standing.homes().items():
            if is_silent:
                reasons.append(f"the home of domain {domain}, site {home}, is silent")
        if record == ["record ended"]:
            reasons.append("the record has ended")
        return [f"{control.UNHEALTHY}{reason}" for reason in reasons] or ["healthy"]

    async def _metrics_page(self) -> Response:
        return Response(HTTPStatus.OK, _text_of(await self._metrics()), metrics.MEDIA_TYPE)

    async def _health_page(self) -> Response:
        lines = await self._health()
        return Response(HTTPStatus.SERVICE_UNAVAILABLE if control.is_refusal(lines) else HTTPStatus.OK, _text_of(lines))

    def _note_home(self, domain: str, is_silent: bool) -> list[str]:
        known = domain.isascii() and domain.isdigit() and self._standing.note_home(int(domain), is_silent)
        return [OK if known else "no domain"]

    async def _suspected(self) -> list[str]:
        return self._standing.suspected_lines()
