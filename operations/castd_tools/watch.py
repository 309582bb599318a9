"""castd-watch: the failure detector beside the daemon of a site."""

from __future__ import annotations

import argparse
import asyncio
import contextlib
import math
import secrets
import sys
import time

from castd_tools import control, keys
from castd_tools.answers import domains_of
from castd_tools.beat import USUAL_PORT_OFFSET, Beat
from castd_tools.beat_socket import open_socket
from castd_tools.belief import Belief, SealedBelief
from castd_tools.command_line import Failure, SiteTool, seconds, stop_signals, whole_number
from castd_tools.configuration import MOST_PORT, Configuration
from castd_tools.console import OK, STOP
from castd_tools.statuses import CONFIGURATION, PUT_OUT, UNBOUND, USAGE
from castd_tools.suspicion import Suspicion

_BEATS_A_PATIENCE = 5
_LOOKS_A_PATIENCE = 10
_LEAST_PATIENCE, _MOST_PATIENCE = 0.5, 3_600.0
_SECONDS_BETWEEN_COUNTS = 60.0

# Topics of which something is told.
_DAEMON = ("daemon",)
_WAITS = "waits"

TOOL = SiteTool(
    "castd-watch",
    "castd-watch CONFIG --site N [--control PATH] [--patience SECONDS] [--port-offset N] [--keys FILE]",
    "Detects sites that fail, beside the daemon of a site. Sites exchange beats as long as their daemons answer. At the"
    " home of a domain, a site that was heard and falls silent is suspected, if more than half of the domain stays. A"
    " site that learns that it was put out of a domain serves the programs of that domain no longer, and stops its daemon"
    " once it was put out of all. Where the home of a domain is silent, the keeper is told.",
    {
        0: "ended by SIGTERM or SIGINT",
        USAGE: "wrong command line",
        CONFIGURATION: "fault in the configuration, or in the keys",
        UNBOUND: "an address cannot be resolved or bound",
        PUT_OUT: "the site was put out of all its domains, and its daemon is stopped",
    },
)


def main() -> int:
    return TOOL.run(_watch(_options(sys.argv[1:])))


def _options(words: list[str]) -> argparse.Namespace:
    add = TOOL.parser.add_argument
    add(
        "--patience",
        metavar="SECONDS",
        type=lambda text: seconds(text, _LEAST_PATIENCE, _MOST_PATIENCE),
        default=2.0,
        help="how long a site may be silent (2)",
    )
    add(
        "--port-offset",
        metavar="N",
        type=lambda text: whole_number(text, 1, MOST_PORT),
        default=USUAL_PORT_OFFSET,
        help=f"by how much the ports of beats are above those of the configuration ({USUAL_PORT_OFFSET})",
    )
    add("--keys", metavar="FILE", default=keys.USUAL_FILE, help=f"the keys of this host ({keys.USUAL_FILE})")
    return TOOL.options(words)


async def _watch(options: argparse.Namespace) -> int:
    """Watches until a signal comes or the site is put out of all its domains, and gives the exit status."""
    stop = stop_signals()
    watch = Watch(TOOL.configuration(options), options)
    stopped = asyncio.create_task(stop.wait())
    watched = asyncio.create_task(watch.run())
    await asyncio.wait({stopped, watched}, return_when=asyncio.FIRST_COMPLETED)
    return watched.result() if watched.done() else 0


class Teller:
    """Says what happens. What is told of a topic is said again only once it is another."""

    def __init__(self) -> None:
        self._told: dict[tuple, str] = {}

    def say(self, text: str) -> None:
        print(text, flush=True)

    def tell(self, topic: tuple, text: str) -> None:
        if self._told.get(topic) != text:
            self._told[topic] = text
            self.say(text)

    def forget(self, topic: tuple) -> None:
        self._told.pop(topic, None)


class Watch:
    """Watches beside the daemon of a site."""

    def __init__(self, configuration: Configuration, options: argparse.Namespace):
        domains = configuration.domains_of(options.site)
        self._configuration, self._control, self._offset = configuration, options.control, options.port_offset
        self._site, self._patience = options.site, options.patience
        self._others = {site for domain in domains for site in domain.sites} - {options.site}
        self._homes = {domain.number: domain.home for domain in domains}
        self._suspicions = {
            domain.number: Suspicion(set(domain.sites) - {options.site}, options.patience)
            for domain in domains
            if domain.home == options.site
        }
        self._key_file, self._key_mark = options.keys, keys.mark(options.keys)
        self._keys = self._read_keys()
        self._incarnation = secrets.token_hex(8)
        self._beliefs = {site: SealedBelief() if site in self._keys else Belief() for site in self._others}
        self._teller = Teller()
        # When the home of each domain was heard last, where it is another site, and those of which it is said to be silent.
        self._heard_home = {domain: time.monotonic() for domain, home in self._homes.items() if home != options.site}
        self._silent_homes: set[int] = set()
        # The domains of which the site is put out, as the last beat of their homes said, and since when they say so.
        self._told_out: dict[int, float] = {}
        # Those of which it learnt so, and what waits for one more.
        self._put_out: set[int] = set()
        self._learnt: asyncio.Queue[int] = asyncio.Queue()
        self._counts_told = -math.inf

    async def run(self) -> int:
        """Watches until the site was put out of all its domains and its daemon is stopped. Gives the exit status."""
        self._socket = await open_socket(
            self._configuration, self._site, self._others, self._offset, self._keys, self._hear
        )
        self._last_pulse = time.monotonic()
        others = ", ".join(map(str, sorted(self._others))) or "none"
        self._teller.say(f"watches as site {self._site}, incarnation {self._incarnation}; other sites: {others}")
        plain = ", ".join(map(str, sorted(self._others - self._keys.keys())))
        if plain:
            self._teller.say(f"beats have no seals: who can send from the addresses of these sites passes for them: {plain}")
        async with asyncio.TaskGroup() as group:
            tasks = [group.create_task(repeat()) for repeat in (self._beat, self._look, self._feel_pulse)]
            await self._retire()
            for task in tasks:
                task.cancel()
        return PUT_OUT

    async def _retire(self) -> None:
        """Has the daemon serve the programs of a domain no longer, whenever the site learns that it was put out of one. Once it
        was put out of all, the daemon is stopped."""
        while True:
            domain = await self._learnt.get()
            told = f"site {self._site} was put out of domain {domain}: "
            if self._put_out == self._homes.keys():
                self._teller.say(f"{told}its daemon is to stop")
                return await self._have_done(STOP)
            self._teller.say(f"{told}its programs are no longer served here, and those of other domains are")
            await self._have_done(f"{control.RETIRE} {domain}")

    def _read_keys(self) -> dict[int, list[keys.Key]]:
        """The keys for each sealed site among the others, if the own site is sealed. A `Failure` where one is missing."""
        sealed = self._others & self._configuration.sealed if self._site in self._configuration.sealed else set()
        if not sealed:
            return {}
        try:
            found = keys.read(self._key_file)
        except keys.KeysError as error:
            raise Failure(CONFIGURATION, f"keys: {error}") from error
        missing = ", ".join(map(str, sorted(sealed - found.keys())))
        if missing:
            raise Failure(CONFIGURATION, f"keys: {self._key_file}: no key for these sealed sites: {missing}")
        return {site: found[site] for site in sealed}

    def _take_changed_keys(self) -> None:
        """Takes the keys once their file was changed. Where these cannot be used, it says so, and the old ones stay."""
        mark = keys.mark(self._key_file)
        if not self._keys or mark == self._key_mark:
            return
        self._key_mark = mark
        try:
            self._keys.update(self._read_keys())
        except Failure as failure:
            self._teller.say(f"goes on with the keys that it has: {failure}")
        else:
            self._teller.say(f"keys: {self._key_file}: taken")

    async def _beat(self) -> None:
        """Beats as long as the daemon answers."""
        interval = self._patience / _BEATS_A_PATIENCE
        while True:
            begun = time.monotonic()
            self._take_changed_keys()
            news = await self._news()
            if news:
                for site, belief in self._beliefs.items():
                    self._socket.send(site, Beat(self._site, self._incarnation, belief.number(), belief.echo, *news))
            await asyncio.sleep(begun + interval - time.monotonic())

    async def _news(self) -> tuple[frozenset[int], frozenset[tuple[int, int]]] | None:
        """The domains that run here, and the sites that were put out. None where the daemon does not answer in time."""
        try:
            domains, suspected = await self._ask("domains"), await self._ask(control.SUSPECTED)
        except control.ControlError as error:
            self._teller.tell(_DAEMON, f"the daemon does not answer, and no beats are sent: {error}")
            return None
        if control.is_refusal(domains + suspected):
            self._teller.tell(_DAEMON, f"the daemon does not answer, and no beats are sent: {' '.join(domains)}")
            return None
        self._teller.tell(_DAEMON, "the daemon answers, and beats are sent")
        put_out = _pairs(suspected)
        for domain, site in put_out:
            if domain in self._suspicions:
                self._suspicions[domain].suspected.add(site)
        running = frozenset(domain for domain, runs in domains_of(domains).items() if runs)
        return running - self._put_out, put_out

    def _hear(self, heard: Beat) -> None:
        """A beat came from the address of its site."""
        if not self._beliefs[heard.site].believes(heard):
            return
        for domain in heard.running & self._suspicions.keys():
            self._teller.forget((_WAITS, domain, heard.site))
            if self._suspicions[domain].hear(heard.site, time.monotonic()):
                self._teller.say(f"site {heard.site} is heard in domain {domain}")
        for domain, home in self._homes.items():
            if home == heard.site:
                if domain in heard.running:
                    self._heard_home[domain] = time.monotonic()
                self._learn(domain, (domain, self._site) in heard.put_out)

    def _learn(self, domain: int, is_put_out: bool) -> None:
        """A beat of the home says whether the site was put out. No single beat is enough: another one has to follow."""
        now = time.monotonic()
        if not is_put_out:
            self._told_out.pop(domain, None)
        elif domain in self._put_out:
            return
        elif now - self._told_out.setdefault(domain, now) >= self._patience / _BEATS_A_PATIENCE / 2:
            self._put_out.add(domain)
            self._learnt.put_nowait(domain)

    async def _look(self) -> None:
        """Looks for sites that are silent."""
        while True:
            await asyncio.sleep(self._patience / _LOOKS_A_PATIENCE)
            for domain, suspicion in self._suspicions.items():
                await self._suspect_one(domain, suspicion)
                for site in suspicion.due_again(time.monotonic()):
                    await self._suspect(domain, site, suspicion)
            for domain in self._heard_home:
                await self._look_for_home(domain)
            self._tell_counts()

    async def _look_for_home(self, domain: int) -> None:
        """Says where the home of a domain falls silent, or is heard again, here and to the keeper."""
        self._notice_own_pause()
        is_silent = time.monotonic() - self._heard_home[domain] >= self._patience
        if is_silent == (domain in self._silent_homes):
            return
        # A keeper that does not answer is told at the next look.
        with contextlib.suppress(control.ControlError):
            await self._ask(f"{control.HOME_SILENT if is_silent else control.HOME_HEARD} {domain}")
            self._silent_homes ^= {domain}
            how = "is silent: no view of the domain changes" if is_silent else "is heard again"
            self._teller.say(f"site {self._homes[domain]}, the home of domain {domain}, {how}")

    async def _suspect_one(self, domain: int, suspicion: Suspicion) -> None:
        """Suspects a site of a domain that is silent, if there is one that may be."""
        self._notice_own_pause()
        now = time.monotonic()
        due = suspicion.due(now)
        if due:
            await self._suspect(domain, due[0], suspicion)
            return
        for site in suspicion.silent(now):
            told = f"site {site} of domain {domain} is silent, and not suspected: no majority would surely stay"
            self._teller.tell((_WAITS, domain, site), told)

    async def _suspect(self, domain: int, site: int, suspicion: Suspicion) -> None:
        line = f"suspect {domain} {site}"
        try:
            answer = await self._ask(line)
        except control.ControlError as error:
            answer = [str(error)]
        self._teller.tell((line,), f"{line}: {' '.join(answer)}")
        if answer == [OK]:
            suspicion.suspected.add(site)

    async def _feel_pulse(self) -> None:
        while True:
            self._notice_own_pause()
            await asyncio.sleep(self._patience / _LOOKS_A_PATIENCE)

    def _notice_own_pause(self) -> None:
        """Where this program itself was stopped, it may just not have heard the others: all silences start anew."""
        now = time.monotonic()
        late = now - self._last_pulse - self._patience / _LOOKS_A_PATIENCE
        self._last_pulse = now
        if late > self._patience / 2:
            for suspicion in self._suspicions.values():
                suspicion.start_anew(now)
            self._heard_home = dict.fromkeys(self._heard_home, now)
            self._teller.say(f"goes on {late:.1f} s late: all silences start anew")

    async def _have_done(self, line: str) -> None:
        """Says a line to the daemon until it answers that it is done, or is gone."""
        while True:
            try:
                answer = await self._ask(line)
            except control.NoKeeper as error:
                return self._teller.say(f"the daemon is gone: {error}")
            except control.ControlError as error:
                answer = [str(error)]
            self._teller.tell((line,), f"{line}: {' '.join(answer)}")
            if answer == [OK]:
                return
            await asyncio.sleep(self._patience / _BEATS_A_PATIENCE)

    async def _ask(self, line: str) -> list[str]:
        return await control.ask(self._control, line, self._patience / 2)

    def _tell_counts(self) -> None:
        """Tells once a minute at most of datagrams that were not believed."""
        beats, now = self._socket, time.monotonic()
        if not (beats.undecodable or beats.foreign or beats.unsealed) or now - self._counts_told < _SECONDS_BETWEEN_COUNTS:
            return
        unsealed = "".join(f", {count} without the seal of site {site}" for site, count in sorted(beats.unsealed.items()))
        self._teller.say(
            f"datagrams passed over: {beats.undecodable} no beats, {beats.foreign} not from their site's address{unsealed}"
        )
        beats.undecodable, beats.foreign, self._counts_told = 0, 0, now
        beats.unsealed.clear()


def _pairs(lines: list[str]) -> frozenset[tuple[int, int]]:
    """The domains and sites of lines `suspected D S`."""
    return frozenset((int(domain), int(site)) for _, domain, site in map(str.split, lines))
