"""The watch: which sites are suspected, and which are not."""

import contextlib
import heapq
import os
import pathlib
import select
import signal
import socket
import threading
import time
from collections.abc import Collection

from harness import (
    OFFSET,
    PATIENCE,
    PORT,
    Case,
    Setup,
    castd,
    change_plan,
    is_running,
    wait_for_end,
    wait_for_push,
    wait_for_view,
    wait_until,
)

# How long a site may be silent. It leaves room for a machine that does much else.
SILENCE = 2.0
# How long in a test in which no site is to be put out, however slow the machine is.
LONG_SILENCE = 10.0
# So many casts a program says in a row while keys change. In all they are fewer than may follow one that is kept, so that none waits
# for the pace, however slow the machine is.
BURST = 3
INCARNATION, NEXT_INCARNATION = "0123456789abcdef", "fedcba9876543210"
NUMBER, NONE = "0011223344556677", "-"


class Link(threading.Thread):
    """Carries beats between the watches of two sites. Each knows the other by an address of the link."""

    def __init__(self, setup: Setup, first: int, second: int):
        super().__init__(daemon=True)
        self.is_cut, self.delay = False, 0.0
        # The sites to which no beats come.
        self.deaf: set[int] = set()
        # What came to each site.
        self.carried: dict[int, list[bytes]] = {first: [], second: []}
        self._is_over = threading.Event()
        self._sockets, self._targets = {}, {}
        for near, far in ((first, second), (second, first)):
            it = socket.socket(socket.AF_INET, socket.SOCK_DGRAM)
            it.bind((alias(setup, near, far), PORT + OFFSET))
            self._sockets[near], self._targets[near] = it, (setup.hosts[near], PORT + OFFSET)
        self._way = {first: second, second: first}

    def run(self) -> None:
        waiting = []
        while not self._is_over.is_set():
            for it in select.select(list(self._sockets.values()), [], [], 0.02)[0]:
                near = next(site for site, its in self._sockets.items() if its is it)
                heapq.heappush(waiting, (time.monotonic() + self.delay, self._way[near], it.recv(65_536)))
            while waiting and waiting[0][0] <= time.monotonic():
                _, far, beat = heapq.heappop(waiting)
                if not self.is_cut and far not in self.deaf:
                    self.carried[far].append(beat)
                    self._sockets[far].sendto(beat, self._targets[far])

    def repeat(self, far: int) -> None:
        """Sends a site once more all that came to it."""
        for beat in self.carried[far][:]:
            self._sockets[far].sendto(beat, self._targets[far])

    def end(self) -> None:
        self._is_over.set()
        self.join()
        for it in self._sockets.values():
            it.close()


def alias(setup: Setup, near: int, far: int) -> str:
    """The host of a link as which the site `near` knows the site `far`."""
    block = setup.hosts[near].rpartition(".")[0]
    return f"{block}.{10 * near + far}"


def secret(one: int, other: int, number: int) -> str:
    """A secret of two sites, the one with this number."""
    return f"{number:02x}{min(one, other):030x}{max(one, other):032x}"


def keys_of(setup: Setup, site: int, *numbers: int) -> str:
    """Writes the keys of a site, those with these numbers, and gives their file."""
    path = pathlib.Path(f"{setup.folder}/{site}.keys")
    new = path.with_suffix(".new")
    new.touch(0o600)
    tables = [
        f'[[key]]\nsites = [{it}]\nnumber = {number}\nsecret = "{secret(site, it, number)}"\n'
        for it in setup.hosts
        for number in numbers or (1,)
    ]
    new.write_text("".join(tables), encoding="utf-8")
    new.replace(path)
    return str(path)


def keys_words(setup: Setup, site: int) -> list[str]:
    return ["--keys", keys_of(setup, site)] if site in setup.sealed else []


def words_of(setup: Setup, site: int, silence: float = SILENCE) -> list[str]:
    """The words of the watch of a site."""
    return ["--patience", str(silence), *keys_words(setup, site)]


class Sites(Case):
    """Tests with sites that have a keeper and a watch each."""

    def start(
        self, sites: int, links: tuple[tuple[int, int], ...] = (), sealed: Collection[int] = (), silence: float = SILENCE
    ) -> None:
        """Starts sites with a program at each, and waits until the home hears all."""
        self.setup = self.setup_of(sites, sealed=sealed)
        self.numbers = range(1, sites + 1)
        self.links = [self.link(*pair) for pair in links]
        self.keepers = {
            site: self.keeper(self.setup, site, more=keys_words(self.setup, site)) for site in self.numbers
        }
        self.programs = {site: self.joined(self.setup, site, site) for site in self.numbers}
        for program in self.programs.values():
            if program is not self.programs[sites]:
                wait_for_view(program, sites)
        configs = {site: self.config_with(site, links) for site in self.numbers}
        self.watches = {
            site: self.watch(self.setup, site, *words_of(self.setup, site, silence), config=configs[site])
            for site in self.numbers
        }
        self.watches[1].wait_for_lines(*(f"site {site} is heard in domain 1" for site in self.numbers[1:]))

    def link(self, first: int, second: int) -> Link:
        link = Link(self.setup, first, second)
        link.start()
        self.addCleanup(link.end)
        return link

    def config_with(self, site: int, links: tuple[tuple[int, int], ...]) -> str:
        """The configuration as the watch of a site has it, in which links take the places of other sites."""
        addresses = dict(self.setup.addresses)
        for pair in links:
            if site in pair:
                (far,) = set(pair) - {site}
                addresses[far] = f"{alias(self.setup, site, far)}:{PORT}"
        return self.setup.write(f"watch-{site}.conf", addresses)

    def suspected(self) -> str:
        return self.keepers[1].ask("suspected")

    def delivered(self) -> dict[int, int]:
        """How many casts the program of each site was pushed so far: a thread of each counts them until its session is over."""
        counts = dict.fromkeys(self.numbers, 0)

        def read_on(site: int) -> None:
            for push in self.programs[site]:
                counts[site] += isinstance(push, castd.Deliver)

        for site in self.numbers:
            threading.Thread(target=read_on, args=(site,), daemon=True).start()
        return counts

    def lose(self, site: int) -> None:
        """The keeper of a site is killed, and its daemon with it."""
        self.keepers[site].process.kill()
        self.keepers[site].process.wait()

    def wait_until_frozen(self) -> None:
        """Waits until the home has begun to change the view."""
        end = time.monotonic() + PATIENCE
        while not self.keepers[1].ask("groups 1").endswith("frozen"):
            self.assertLess(time.monotonic(), end, "no view is changed")

    def assert_put_out(self, site: int, others: int) -> None:
        """A site is suspected, and the programs at the others go on in a view without it."""
        self.watches[1].wait_for_lines(f"suspect 1 {site}: ok")
        self.assertEqual(self.suspected(), f"suspected 1 {site}")
        view = wait_for_view(self.programs[1], others)
        self.assertNotIn(site, [member.site for member in view.members])

    def assert_stopped(self, site: int) -> None:
        """A site learns that it was put out, and stops in order. Its program is told."""
        self.watches[site].wait_for_lines(f"site {site} was put out of domain 1: its daemon is to stop")
        self.assert_ended(site)

    def assert_ended(self, site: int) -> None:
        self.assert_ends(self.watches[site], 12)
        wait_for_end(self.programs[site])
        self.assert_ends(self.keepers[site], 0)

    def assert_nobody_is_suspected_for(self, seconds: float) -> None:
        told = [line for line in self.watches[1].lines_for(seconds) if line.startswith("suspect")]
        self.assertEqual(told, [])
        self.assertEqual(self.suspected(), "")


class Retiring(Sites):
    def test_a_site_that_was_put_out_of_one_domain_serves_the_others(self):
        setup = self.setup_of(3, {"number": 1}, {"number": 2, "home": 2, "socket": "second.sock"})
        keepers = {site: self.keeper(setup, site) for site in (1, 2, 3)}
        watches = {site: self.watch(setup, site, "--patience", str(SILENCE)) for site in keepers}
        watches[2].wait_for_lines(*(f"site {site} is heard in domain 2" for site in (1, 3)))
        first, path = self.joined(setup, 1, 1), f"{setup.site_folder(1)}/second.sock"
        second = castd.Session(path, PATIENCE)
        self.addCleanup(second.close)
        second.join(1, PATIENCE)
        keeper = keepers[1].process.pid
        os.kill(keeper, signal.SIGSTOP)
        self.addCleanup(os.kill, keeper, signal.SIGCONT)
        watches[2].wait_for_lines("suspect 2 1: ok")
        os.kill(keeper, signal.SIGCONT)
        watches[1].wait_for_lines("site 1 was put out of domain 2: its programs are no longer served here", "retire 2: ok")
        wait_for_end(second)
        with self.assertRaises(castd.Refused) as refused:
            castd.Session(path, PATIENCE)
        self.assertEqual(refused.exception.code, castd.Code.HALTED)
        # Views of the other domain, of which it is the home, still change.
        self.joined(setup, 3, 2)
        wait_for_view(first, 2)
        told = "site 1 was put out of domain 2, whose programs are no longer served here"
        self.assertIn(f"unhealthy: {told}", keepers[1].ask("health").split("\n"))
        self.assertIn('castd_domain_retired{site="1",domain="2"} 1', keepers[1].ask("metrics"))
        self.assertIn('castd_domain_retired{site="1",domain="1"} 0', keepers[1].ask("metrics"))
        self.assertEqual(keepers[2].ask("suspected"), "suspected 2 1")


class Failing(Sites):
    def test_a_site_that_is_killed_is_put_out(self):
        self.start(3)
        self.lose(3)
        self.assert_put_out(3, 2)
        self.watches[3].wait_for_lines("the daemon does not answer, and no beats are sent", "was put out of domain 1")
        self.assert_ends(self.watches[3], 12)
        self.assertEqual(self.keepers[2].ask("health"), "healthy")

    def test_a_daemon_that_hangs_is_put_out_and_stops_when_it_goes_on(self):
        self.start(3)
        daemon = self.keepers[3].daemon()
        os.kill(daemon, signal.SIGSTOP)
        self.assert_put_out(3, 2)
        # Its watch learns it, and cannot stop the daemon.
        self.watches[3].wait_for_lines("site 3 was put out of domain 1: its daemon is to stop", "stop: ")
        os.kill(daemon, signal.SIGCONT)
        self.assert_ended(3)

    def test_a_site_behind_a_cut_link_is_put_out_and_stops_when_it_learns_it(self):
        self.start(3, links=((1, 3),))
        self.links[0].is_cut = True
        self.assert_put_out(3, 2)
        self.watches[3].wait_for_lines("site 1, the home of domain 1, is silent")
        self.assertTrue(is_running(self.keepers[3].daemon()))
        self.links[0].is_cut = False
        self.assert_stopped(3)
        # It stays put out, for good.
        self.assertEqual(self.suspected(), "suspected 1 3")

    def test_a_site_that_an_operator_suspects_stops_too(self):
        self.start(3)
        self.assertEqual(self.keepers[1].ask("suspect 1 2"), "ok")
        self.assert_stopped(2)
        self.assertEqual(self.keepers[3].ask("health"), "healthy")


    def test_a_join_that_a_lost_site_left_behind_stops_no_view(self):
        self.start(3)
        # A join from site 3 waits at the home, whose flush waits for site 2.
        os.kill(self.keepers[2].daemon(), signal.SIGSTOP)
        late = self.session(self.setup, 3)
        late.send(castd.Join(1))
        self.wait_until_frozen()
        self.lose(3)
        self.assertEqual(self.keepers[1].ask("suspect 1 3"), "ok")
        os.kill(self.keepers[2].daemon(), signal.SIGCONT)
        # The home serves the join behind the view without site 3. Views go on nevertheless.
        wait_for_view(self.programs[1], 2)
        view = wait_for_view(self.programs[1], 3)
        self.assertIn(3, [member.site for member in view.members])
        self.joined(self.setup, 2, 3)

    def test_a_site_that_returns_before_it_is_stopped_is_put_out_again(self):
        self.start(3, links=((1, 3),))
        self.links[0].deaf.add(3)
        self.assertEqual(self.keepers[1].ask("suspect 1 3"), "ok")
        wait_for_view(self.programs[1], 2)
        # One that says nothing is not told.
        self.programs[3].send(castd.Cast(1, castd.CAUSAL, b"x"))
        wait_for_push(self.programs[3], lambda push: isinstance(push, castd.Ejected))
        self.programs[3].join(1, PATIENCE)
        wait_for_view(self.programs[1], 3)
        wait_for_view(self.programs[1], 2)
        self.links[0].deaf.clear()
        self.assert_stopped(3)


class Sealing(Sites):
    def test_sealed_sites_hear_each_other_and_plain_ones(self):
        self.start(3, sealed=(1, 2))
        self.watches[3].wait_for_lines("beats have no seals: who can send from the addresses of these sites passes for them: 1, 2")
        self.lose(3)
        self.assert_put_out(3, 2)
        self.assertEqual(self.keepers[2].ask("health"), "healthy")

    def test_beats_that_are_repeated_keep_no_lost_site(self):
        self.start(3, links=((1, 3),), sealed=(1, 2, 3))
        self.lose(3)
        self.watches[3].process.kill()
        end = time.monotonic() + PATIENCE
        while not self.suspected() and time.monotonic() < end:
            self.links[0].repeat(1)
            time.sleep(SILENCE / 10)
        self.assert_put_out(3, 2)

    def test_a_beat_without_the_seal_of_its_site_is_passed_over(self):
        setup = self.setup_of(2, sealed=(1, 2))
        keeper = self.stand_in(setup, 2)
        watch = self.watch(setup, 2, *words_of(setup, 2))
        home = Peer(setup, 1)
        self.addCleanup(home.close)
        sealed = home.recv(65_536)
        self.assertRegex(sealed.decode(), "^castd-sealed-beat-1 1 1 castd-beat-2 2 [0-9a-f]{16} [0-9a-f]{16} - 1 - [0-9a-f]{32}$")
        number = sealed.split(b" ")[6].decode()
        for _ in range(2):
            home.beat(2, "1 1:2", number)
            home.sendto(sealed, (setup.hosts[2], PORT + OFFSET))
            time.sleep(SILENCE / 5)
        watch.wait_for_lines(" without the seal of site 1")
        said = [line for line in watch.lines_for(1) if "the home of domain 1, is " not in line]
        self.assertEqual(said, [])
        self.assertEqual(keeper.ask("suspected"), "")

    def test_keys_change_while_programs_cast(self):
        self.start(3, sealed=(1, 2, 3), silence=LONG_SILENCE)
        delivered, count = self.delivered(), 0
        for numbers in ((1, 2), (2, 1), (2,)):
            for changed in self.numbers:
                for program in self.programs.values():
                    for _ in range(BURST):
                        program.send(castd.Cast(1, castd.CAUSAL, b"x"))
                count += BURST * len(self.programs)
                keys_of(self.setup, changed, *numbers)
                self.assertEqual(self.keepers[changed].castctl("keys"), (0, "ok\n"))
            for watch in self.watches.values():
                watch.wait_for_lines(".keys: taken")
            wait_until(lambda: set(delivered.values()) == {count}, "each cast is delivered everywhere")
        for keeper in self.keepers.values():
            self.assertIn("undecoded 0", keeper.ask("datagrams"))
        self.assertEqual(self.suspected(), "")
        with self.subTest("those that cannot be used change nothing"):
            path = pathlib.Path(keys_of(self.setup, 1, 3))
            path.chmod(0o644)
            self.watches[1].wait_for_lines(f"goes on with the keys that it has: keys: {path}: others than its user can use it")
            told = f"keys: {path}: not a plain file that only its user can use\n"
            self.assertEqual(self.keepers[1].castctl("keys"), (1, told))
            self.programs[1].cast(1, b"y", PATIENCE)
            wait_until(lambda: set(delivered.values()) == {count + 1}, "the cast is delivered everywhere")
            self.assertIn("undecoded 0", self.keepers[1].ask("datagrams"))

    def test_keys_that_are_missing_are_named(self):
        setup = self.setup_of(3, sealed=(1, 2, 3))
        path = pathlib.Path(keys_of(setup, 1))
        path.write_text(path.read_text().replace("sites = [2]", "sites = [1]").replace("number = 1", "number = 2", 1))
        for keys, why in (
            (str(path), f"keys: {path}: no key for these sealed sites: 2"),
            (f"{self.folder}/none", f"keys: {self.folder}/none: No such file"),
        ):
            watch = self.watch(setup, 1, "--keys", keys)
            self.assert_ends(watch, 6)
            self.assertIn(why, watch.complained())


class LosingTheHome(Sites):
    def test_the_others_are_told_that_it_is_silent(self):
        self.start(3)
        self.assertEqual(self.keepers[2].ask("health"), "healthy")
        self.lose(1)
        for site in (2, 3):
            told = "site 1, the home of domain 1, is silent: no view of the domain changes"
            self.watches[site].wait_for_lines(told)
            self.assertEqual(self.keepers[site].ask("health"), "unhealthy: the home of domain 1, site 1, is silent")
            self.assertIn(f'castd_home_silent{{site="{site}",domain="1"}} 1', self.keepers[site].ask("metrics"))

    def test_they_are_told_that_it_is_heard_again(self):
        self.start(2, links=((1, 2),))
        self.links[0].is_cut = True
        self.watches[2].wait_for_lines("site 1, the home of domain 1, is silent")
        self.links[0].is_cut = False
        self.watches[2].wait_for_lines("site 1, the home of domain 1, is heard again")
        self.assertEqual(self.keepers[2].ask("health"), "healthy")
        self.assertIn('castd_home_silent{site="2",domain="1"} 0', self.keepers[2].ask("metrics"))
        with self.subTest("the home is told nothing of itself"):
            self.assertEqual(self.keepers[1].ask("home-silent 1"), "no domain")
            self.assertNotIn("castd_home_silent", self.keepers[1].ask("metrics"))


class Staying(Sites):
    def test_a_slow_link_puts_nobody_out(self):
        self.start(3, links=((1, 3),))
        self.links[0].delay = SILENCE * 0.7
        self.assert_nobody_is_suspected_for(3 * SILENCE)
        # The link is what the beats pass: cut, it has the site put out.
        self.links[0].is_cut = True
        self.assert_put_out(3, 2)

    def test_a_majority_is_never_put_out(self):
        self.start(3)
        for site in (2, 3):
            self.keepers[site].process.kill()
        self.watches[1].wait_for_lines("and not suspected: no majority would surely stay")
        self.assertLessEqual(len(self.suspected().splitlines()), 1)
        before = self.suspected()
        # It waits, and says so once.
        self.assertLessEqual(len(self.watches[1].lines_for(2 * SILENCE)), 1)
        self.assertEqual(self.suspected(), before)

    def test_a_home_that_is_cut_off_puts_nobody_out(self):
        self.start(3, links=((1, 2), (1, 3)))
        for link in self.links:
            link.is_cut = True
        silent = [f"site {site} of domain 1 is silent, and not suspected" for site in (2, 3)]
        self.watches[1].wait_for_lines(*silent)
        # They do not come back at the same moment.
        self.links[0].is_cut = False
        self.assert_nobody_is_suspected_for(SILENCE / 2)
        self.links[1].is_cut = False
        self.assert_nobody_is_suspected_for(1.5 * SILENCE)
        # Once they are heard again, a silence ends as before.
        self.lose(3)
        self.assert_put_out(3, 2)

    def test_one_of_two_sites_is_not_put_out(self):
        self.start(2)
        self.lose(2)
        self.watches[1].wait_for_lines("site 2 of domain 1 is silent, and not suspected")
        self.assertEqual(self.suspected(), "")

    def test_a_watch_that_was_stopped_suspects_nobody_when_it_goes_on(self):
        self.start(3)
        watch = self.watches[1].process
        watch.send_signal(signal.SIGSTOP)
        # The silence of the others is what this is about, so it is waited for.
        time.sleep(2.5 * SILENCE)
        watch.send_signal(signal.SIGCONT)
        self.watches[1].wait_for_lines("late: all silences start anew")
        self.assert_nobody_is_suspected_for(1.5 * SILENCE)
        self.lose(3)
        self.assert_put_out(3, 2)


class Peer(socket.socket):
    """The watch of a site, as a test plays it, at its port or at another one."""

    def __init__(self, setup: Setup, site: int, port: int = PORT + OFFSET):
        super().__init__(socket.AF_INET, socket.SOCK_DGRAM)
        self.settimeout(PATIENCE)
        self.bind((setup.hosts[site], port))
        self.setup, self.site = setup, site

    def say(self, to: int, datagram: str) -> None:
        self.sendto(datagram.encode(), (self.setup.hosts[to], PORT + OFFSET))

    def beat(self, to: int, lists: str, echo: str = NONE, life: str = INCARNATION, site: int = 0) -> None:
        """Sends a beat with these lists, which has the number of the last one from the other site if that is given."""
        self.say(to, f"castd-beat-2 {site or self.site} {life} {NUMBER} {echo} {lists}")

    def words(self) -> list[str]:
        """The words of the next beat that comes."""
        return self.recv(65_536).decode().split(" ")

    def number(self) -> str:
        """The number of a beat that comes from now on."""
        self.setblocking(False)
        with contextlib.suppress(BlockingIOError):
            while True:
                self.recv(65_536)
        self.settimeout(PATIENCE)
        return self.words()[3]


class Believing(Case):
    """Tests with beats that the test itself sends."""

    def peer(self, setup: Setup, site: int, port: int = PORT + OFFSET) -> Peer:
        peer = Peer(setup, site, port)
        self.addCleanup(peer.close)
        return peer

    def started(self, sites: int, site: int, *domains: dict):
        """A site whose daemon is stood in for, with its watch."""
        setup = self.setup_of(sites, *domains)
        keeper = self.stand_in(setup, site)
        watch = self.watch(setup, site, "--patience", str(SILENCE))
        watch.wait_for_lines("the daemon answers, and beats are sent")
        return setup, keeper, watch

    def assert_goes_on(self, keeper, watch) -> None:
        """Neither ends. Nothing is told but of the home, which is silent for as long as the test sends no beat of it."""
        said = [line for line in watch.lines_for(1) if "the home of domain 1, is " not in line]
        self.assertEqual(said, [])
        self.assertIn(keeper.ask("health"), ("healthy", "unhealthy: the home of domain 1, site 1, is silent"))

    def assert_stops(self, peer: Peer, keeper, watch, echo: str = NONE, life: str = INCARNATION) -> None:
        """The home says in two beats that site 2 was put out of domain 1, which stops."""
        peer.beat(2, "1 1:2", echo, life)
        time.sleep(SILENCE / 5)
        peer.beat(2, "1 1:2", NONE, life)
        self.assert_ends(watch, 12)
        self.assert_ends(keeper, 0)

    def test_a_beat_is_believed_from_the_address_of_its_site_alone(self):
        setup, keeper, watch = self.started(3, 2)
        home, other = self.peer(setup, 1), self.peer(setup, 3)
        number = home.number()
        # Another program of the home's host, and another host, that know all words.
        for stranger, words in ((self.peer(setup, 1, 0), {}), (other, {"site": 1})):
            for _ in range(2):
                stranger.beat(2, "1 1:2", number, **words)
                time.sleep(SILENCE / 5)
        watch.wait_for_lines("datagrams passed over: 0 no beats, ")
        # Only the home of a domain puts out, and only of sites and domains that there are.
        for _ in range(2):
            other.beat(2, "1 1:2", other.number())
            home.beat(2, "1 2:2", home.number())
            home.beat(2, "1 1:3", home.number())
            home.beat(2, "1 1:2", home.number(), site=9)
        self.assert_goes_on(keeper, watch)
        self.assert_stops(home, keeper, watch, home.number())

    def test_no_single_beat_stops_a_daemon(self):
        setup, keeper, watch = self.started(2, 2)
        home = self.peer(setup, 1)
        home.beat(2, "1 1:2", home.number())
        # What is sent at once is one beat.
        home.beat(2, "1 1:2")
        self.assert_goes_on(keeper, watch)
        home.beat(2, "1 -")
        home.beat(2, "1 1:2")
        self.assert_goes_on(keeper, watch)
        self.assert_stops(home, keeper, watch)

    def test_a_life_that_answers_no_number_is_not_believed_and_silences_no_other(self):
        setup, keeper, watch = self.started(2, 2)
        home = self.peer(setup, 1)
        home.beat(2, "1 -", home.number())
        for echo in (NONE, NUMBER):
            home.beat(2, "1 1:2", echo, NEXT_INCARNATION)
            time.sleep(SILENCE / 5)
        self.assert_goes_on(keeper, watch)
        self.assert_stops(home, keeper, watch)

    def test_datagrams_that_are_no_beats_are_counted(self):
        setup, keeper, watch = self.started(2, 2)
        home = self.peer(setup, 1)
        head, lists = f"castd-beat-2 1 {INCARNATION} {NUMBER} {home.number()}", "1 1:2"
        whole = f"{head} {lists}"
        bad = [
            "",
            "castd-beat-2",
            whole + "\n",
            whole + " ",
            whole.replace("-2", "-1", 1),
            whole.replace(" 1 ", " 01 ", 1),
            whole.replace(" 1 ", " 65536 ", 1),
            whole.replace(INCARNATION, INCARNATION.upper()),
            whole.replace(NUMBER, NONE),
            f"{head} 256 1:2",
            f"{head} 1 1:0",
            f"{head} 1 1:2,",
            "x" * 60_000,
        ]
        for datagram in bad:
            home.say(2, datagram)
        # The count is told at most once a minute: at the first, and no more within this test.
        watch.wait_for_lines(" no beats, 0 not from their site's address")
        self.assert_goes_on(keeper, watch)

    def test_a_beat_says_what_the_home_has_put_out(self):
        setup = self.setup_of(3)
        keeper = self.stand_in(setup, answers={"suspect 1 3": ["ok"], "suspect 1 2": ["refused 13"]})
        with socket.socket(socket.AF_INET, socket.SOCK_DGRAM) as it:
            it.settimeout(PATIENCE)
            it.bind((setup.hosts[2], PORT + OFFSET))
            watch = self.watch(setup, 1, "--patience", str(SILENCE))
            first, source = it.recvfrom(65_536)
            self.assertEqual(source, (setup.hosts[1], PORT + OFFSET))
            self.assertRegex(first.decode(), "^castd-beat-2 1 [0-9a-f]{16} [0-9a-f]{16} - 1 -$")
            self.assertEqual(keeper.ask("suspect 1 2"), "refused 13")
            self.assertEqual(keeper.ask("suspect 1 3"), "ok")
            end = time.monotonic() + PATIENCE
            while (last := it.recv(65_536)).endswith(b" -") and time.monotonic() < end:
                pass
            site, incarnation = first.split()[1:3]
            self.assertEqual((last.split()[1:3], last.split()[4:]), ([site, incarnation], [b"-", b"1", b"1:3"]))
            # There are five beats in a patience. A machine that does much else may have fewer.
            begun = time.monotonic()
            for _ in range(10):
                it.recv(65_536)
            self.assertGreater(time.monotonic() - begun, 1.5 * SILENCE)
        watch.process.send_signal(signal.SIGTERM)
        self.assert_ends(watch, 0)

    def test_a_daemon_that_answers_late_is_silent(self):
        setup = self.setup_of(2)
        keeper = self.stand_in(setup, delays={"domains": 0.75 * SILENCE})
        with socket.socket(socket.AF_INET, socket.SOCK_DGRAM) as it:
            it.bind((setup.hosts[2], PORT + OFFSET))
            watch = self.watch(setup, 1, "--patience", str(SILENCE))
            watch.wait_for_lines("the daemon does not answer, and no beats are sent: ")
            it.settimeout(2 * SILENCE)
            self.assertRaises(TimeoutError, it.recv, 65_536)
            change_plan(setup, 1)
            watch.wait_for_lines("the daemon answers, and beats are sent")
            it.settimeout(PATIENCE)
            self.assertIn(b"castd-beat-2 1 ", it.recv(65_536))
        self.assertEqual(keeper.ask("health"), "healthy")

    def test_a_halted_domain_is_silent_in_the_beats_of_its_site(self):
        domains = [{"number": number, "socket": f"{number}.sock"} for number in (1, 2)]
        setup = self.setup_of(3, *domains)
        running = {"domains": ["domain 1 running", "domain 2 running"], "suspect 2 3": ["ok"]}
        keepers = {site: self.stand_in(setup, site, answers=running) for site in (1, 2, 3)}
        watches = {site: self.watch(setup, site, "--patience", str(SILENCE)) for site in (1, 2, 3)}
        watches[1].wait_for_lines("site 2 is heard in domain 2", "site 3 is heard in domain 2")
        change_plan(setup, 3, answers={"domains": ["domain 1 running", "domain 2 halted"]})
        watches[1].wait_for_lines("suspect 2 3: ok")
        self.assertEqual(keepers[1].ask("suspected"), "suspected 2 3")

    def test_a_daemon_or_keeper_that_is_gone_is_waited_for(self):
        setup = self.setup_of(2)
        watch = self.watch(setup, 2, "--patience", str(SILENCE))
        watch.wait_for_lines("the daemon does not answer, and no beats are sent: ")
        for _ in range(2):
            keeper = self.stand_in(setup, 2)
            watch.wait_for_lines("the daemon answers, and beats are sent")
            keeper.process.kill()
            watch.wait_for_lines("the daemon does not answer, and no beats are sent: ")
            os.unlink(f"{setup.state}/site-2")

    def test_a_late_beat_of_a_former_life_is_not_believed(self):
        setup, keeper, watch = self.started(2, 2)
        home = self.peer(setup, 1)
        home.beat(2, "1 -", home.number())
        home.beat(2, "1 -", home.number(), NEXT_INCARNATION)
        for _ in range(2):
            home.beat(2, "1 1:2", home.number())
        self.assert_goes_on(keeper, watch)
        self.assert_stops(home, keeper, watch, life=NEXT_INCARNATION)


class CommandLine(Case):
    def test_signals_end_it(self):
        for number in (signal.SIGTERM, signal.SIGINT):
            watch = self.watch(self.setup_of(), 1)
            watch.wait_for_lines("watches as site 1")
            watch.process.send_signal(number)
            self.assert_ends(watch, 0)

    def test_its_faults_have_statuses(self):
        setup = self.setup_of(2)
        setup.addresses[2] = setup.addresses[1].replace(str(PORT), str(PORT + OFFSET))
        near = setup.write("near.conf", setup.addresses)
        with socket.socket(socket.AF_INET, socket.SOCK_DGRAM) as taken:
            taken.bind((setup.hosts[1], PORT + OFFSET))
            for config, words, status, text in (
                (setup.config, ["--patience", "nan"], 2, "is not 0.5 to 3600 seconds"),
                (setup.config, ["--port-offset", "0"], 2, "is not a number from 1 to 65535"),
                (setup.config, ["--port-offset", "60000"], 7, "there is no port"),
                (near, [], 2, "beats of site 1 would come to the daemon of site 2"),
                (f"{self.folder}/none", [], 6, "No such file"),
                (setup.config, [], 7, "Address already in use"),
            ):
                with self.subTest(words):
                    watch = self.watch(setup, 1, *words, config=config)
                    self.assert_ends(watch, status)
                    self.assertIn(text, watch.complained())
