"""The examples: each runs without a terminal, what checks their histories refuses bad ones, and the lock is safe."""

from __future__ import annotations

import asyncio
import io
import math
import re
import subprocess
import sys
import unittest
from collections import deque
from unittest import mock

from harness import PATIENCE, PROGRAM, ROOT

sys.path += [str(ROOT / "examples" / name) for name in ("", "replicated-store", "control-room", "trading-floor")]
from castd import ATOMIC, CAUSAL, Cast, Code, Deliver, Ejected, Process, Push, Reply, View  # noqa: E402
from claims import Claim, overlaps, turns_of  # noqa: E402
from floor import NEWS, ORDERS, QUOTES, Listener, Trader  # noqa: E402
from linearizable import Operation, faults  # noqa: E402
from lock import LEASE, MARGIN, Lock  # noqa: E402
from stage import Screen  # noqa: E402
from terminal import AtTerminal  # noqa: E402

GROUP = 1
# How much time goes by at once for stations without daemons, in seconds. They beat at each sixth step.
STEP = 0.05


def write(value: str, begun: float, ended: float, key: str = "k") -> Operation:
    return Operation("a", True, key, value, begun, ended)


def read(value: str, begun: float, ended: float, key: str = "k") -> Operation:
    return Operation("b", False, key, value, begun, ended)


class Linearizable(unittest.TestCase):
    def assert_good(self, *history: Operation) -> None:
        self.assertEqual(faults(history), [])

    def assert_bad(self, *history: Operation) -> None:
        self.assertEqual(len(faults(history)), 1)

    def test_one_after_the_other(self):
        self.assert_good(read("", 0, 1), write("x", 2, 3), read("x", 4, 5), write("y", 6, 7), read("y", 8, 9))

    def test_at_the_same_time_either_order_will_do(self):
        for seen in ("", "x"):
            self.assert_good(write("x", 0, 10), read(seen, 1, 2))
            self.assert_good(write("x", 0, 1), read(seen, 1, 2))
        for last in ("x", "y"):
            self.assert_good(write("x", 0, 10), write("y", 0, 10), read(last, 11, 12))

    def test_a_read_tells_the_order_of_writes_that_overlap(self):
        history = write("x", 0, 10), write("y", 0, 10), read("x", 2, 3), read("y", 4, 5)
        self.assert_good(*history, read("y", 11, 12))
        self.assert_bad(*history, read("x", 11, 12))

    def test_a_stale_read(self):
        self.assert_bad(write("x", 0, 1), write("y", 2, 3), read("x", 4, 5))
        self.assert_bad(write("x", 0, 1), read("", 2, 3))

    def test_a_read_that_goes_back_while_a_write_lasts(self):
        self.assert_bad(write("x", 0, 10), read("x", 1, 2), read("", 3, 4))

    def test_a_lost_write(self):
        self.assert_bad(write("x", 0, 1), write("y", 2, 3), read("y", 4, 5), read("x", 6, 7))

    def test_two_orders(self):
        writes = write("x", 0, 10), write("y", 0, 10)
        one, other = (read("x", 11, 14), read("y", 15, 16)), (read("y", 11, 14), read("x", 15, 16))
        self.assert_bad(*writes, *one)
        self.assert_bad(*writes, *other)
        self.assert_bad(*writes, *one, *other)
        self.assert_good(*writes, read("y", 11, 14), read("y", 15, 16))

    def test_two_orders_while_the_writes_last(self):
        writes = write("x", 0, 100), write("y", 0, 100)
        self.assert_good(*writes, read("x", 1, 4), read("y", 5, 6), read("x", 1, 3))
        self.assert_bad(*writes, read("x", 1, 2), read("y", 3, 4), read("x", 5, 6))

    def test_a_read_of_what_nobody_wrote_yet(self):
        self.assert_bad(read("x", 0, 1))
        self.assert_bad(read("x", 0, 1), write("x", 2, 3))

    def test_a_write_without_an_answer_may_be_seen_or_not_from_some_moment_on(self):
        unsure = write("x", 0, 1), write("y", 2, math.inf)
        self.assert_good(*unsure, read("x", 50, 51), read("y", 52, 53), read("y", 54, 55))
        self.assert_good(*unsure, read("x", 50, 51))
        self.assert_bad(*unsure, read("y", 50, 51), read("x", 52, 53))
        self.assert_bad(write("y", 2, math.inf), read("y", 0, 1))

    def test_a_read_without_an_answer_saw_nothing(self):
        self.assert_good(write("x", 0, 1), read("", 2, math.inf))

    def test_each_key_is_for_itself(self):
        self.assert_good(write("x", 0, 1, "k"), read("", 2, 3, "other"), read("x", 2, 3, "k"))
        history = write("x", 0, 1, "k"), write("x", 0, 1, "other"), read("", 2, 3, "other")
        (fault,) = faults(history)
        self.assertIn("key other: no order explains: b reads other ''", fault)

    def test_a_long_history_is_searched_in_its_length(self):
        # Three writers that overlap all the time, and a reader who sees what the second wrote.
        history = []
        for step in range(0, 3_000, 10):
            history += [write(f"{writer}.{step}", step, step + 9) for writer in range(3)]
            history.append(read(f"1.{step}", step + 1, step + 9.5))
        self.assert_good(*history)
        self.assert_bad(*history, read("1.0", 5_000, 5_001))

    def test_a_value_that_is_written_twice_is_not_taken(self):
        for history in ([write("x", 0, 1), write("x", 2, 3)], [write("", 0, 1)]):
            with self.assertRaises(ValueError):
                faults(history)


class Claims(unittest.TestCase):
    def overlaps(self, **logs: str) -> int:
        return len(overlaps(turns_of(logs)))

    def test_turns_one_after_the_other(self):
        logs = {"one": "hold 1.0 4.0\nreleased 2.0\nhold 8.0 9.0\n", "two": "hold 2.0 5.0\nhold 4.5 7.5\n"}
        self.assertEqual(turns_of(logs), [Claim(1, 2, "one"), Claim(2, 7.5, "two"), Claim(8, 9, "one")])
        self.assertEqual(self.overlaps(**logs), 0)

    def test_two_at_one_moment(self):
        self.assertEqual(self.overlaps(one="hold 1.0 4.0\n", two="hold 3.9 6.0\n"), 1)
        self.assertEqual(self.overlaps(one="hold 1.0 9.0\n", two="hold 3.0 4.0\n"), 1)
        self.assertEqual(self.overlaps(one="hold 1.0 4.0\n", two="hold 1.0 4.0\n"), 1)

    def test_one_that_lasts_meets_all_that_begin_in_it(self):
        self.assertEqual(self.overlaps(one="hold 1.0 9.0\n", two="hold 2.0 3.0\n", three="hold 4.0 5.0\n"), 2)

    def test_a_release_ends_only_what_was_claimed_before(self):
        self.assertEqual(self.overlaps(one="hold 1.0 9.0\nreleased 3.0\n", two="hold 3.0 4.0\n"), 0)
        self.assertEqual(self.overlaps(one="hold 1.0 9.0\nreleased 3.5\n", two="hold 3.0 4.0\n"), 1)
        self.assertEqual(self.overlaps(one="hold 1.0 9.0\nreleased 2.0\nhold 3.0 4.0\n", two="hold 3.0 4.0\n"), 1)

    def test_a_line_that_was_cut_off_is_passed_over_and_no_other(self):
        self.assertEqual(self.overlaps(one="hold 1.0 4.0\nhold 2.0 5", two="hold 4.0 6.0\n"), 0)
        for line in ("held 1.0 2.0\n", "hold 1.0\n", "\n"):
            with self.assertRaises(ValueError):
                turns_of({"one": line})


class Member:
    """A station of a group that a test makes, and its own session: what it sends goes to all in its view."""

    def __init__(self, group: Group, site: int, serial: int):
        self.group, self.process = group, Process(site, serial)
        # Whether the program stands still, and whether its daemon hears nothing.
        self.is_still, self.is_cut = False, False
        # The view that the daemon is in, what it does not hear yet, and what the program was pushed and did not read.
        self.view, self.unheard, self.pushes = 0, deque[Push](), deque[Push]()
        self.tag, self.claims = 0, ""
        self.lock = Lock(self, GROUP, 3, self.note)

    def send(self, command: Cast) -> int:
        self.tag += 1
        self.pushes.append(Reply(self.tag, Code.DONE if self.view else Code.NOT_MEMBER))
        if self.view:
            self.group.spread(Deliver(GROUP, self.view, self.process, self.tag, command.kind, command.payload))
        return self.tag

    def note(self, claim: str) -> None:
        self.claims += f"{claim}\n"

    def hear(self) -> None:
        """The daemon hears what came to it."""
        while self.unheard and not self.is_cut:
            push = self.unheard.popleft()
            if isinstance(push, View):
                self.view = push.view
                self.group.eject_others(self, push)
            if push.view == self.view:
                self.pushes.append(push)

    def read(self) -> None:
        while self.pushes and not self.is_still:
            self.lock.take(self.pushes.popleft())


class Group:
    """Stations, for which time goes by as a test wants."""

    def __init__(self) -> None:
        self.now, self.views, self.members = 100.0, 0, list[Member]()

    def member(self, site: int, serial: int = 1) -> Member:
        self.members.append(Member(self, site, serial))
        return self.members[-1]

    def install(self, *members: Member) -> None:
        """The home decides a view, and tells its members."""
        self.tell(self.decide(*members), *members)

    def decide(self, *members: Member) -> View:
        self.views += 1
        processes = tuple(sorted(member.process for member in members))
        return View(GROUP, self.views, processes, processes[0])

    def tell(self, view: View, *members: Member) -> None:
        for member in members:
            member.unheard.append(view)
            member.hear()

    def eject(self, member: Member) -> None:
        """A member learns that the last view is without it."""
        member.view = 0
        member.pushes.append(Ejected(GROUP, self.views))

    def spread(self, push: Deliver) -> None:
        """A message goes to all that are in its view, or come into it."""
        for member in self.members:
            if member.view == push.view or any(it.view == push.view for it in member.unheard):
                member.unheard.append(push)

    def eject_others(self, member: Member, view: View) -> None:
        """A site that enters a view puts out its processes that are not in it."""
        for other in self.members:
            if other.process.site == member.process.site and other.view and other.process not in view.members:
                self.eject(other)

    def run(self, seconds: float) -> None:
        """Lets time go by. Two never hold the lock at one moment."""
        for step in range(round(seconds / STEP)):
            self.now += STEP
            for member in self.members:
                if step % 6 == 0 and not member.is_still:
                    member.lock.beat()
                member.hear()
                member.read()
            assert sum(member.lock.holds() for member in self.members) <= 1

    def turns(self) -> list[Claim]:
        return turns_of({str(member.process): member.claims for member in self.members})


class Locks(unittest.TestCase):
    """The lock, in a group without daemons."""

    def setUp(self) -> None:
        self.group = Group()
        self.enterContext(mock.patch("lock.clock", lambda: self.group.now))
        self.one, self.two, self.three = (self.group.member(site) for site in (101, 102, 103))

    def tearDown(self) -> None:
        self.assertEqual(overlaps(self.group.turns()), [])

    def begin(self) -> None:
        """All three are on duty, and have been for long."""
        self.group.install(self.one, self.two, self.three)
        self.group.run(10)

    def has_lock(self, member: Member) -> None:
        member.lock.acquire()
        self.group.run(1)
        self.assertTrue(member.lock.holds())

    def has_lock_after_a_lease(self, member: Member) -> None:
        self.group.run(LEASE)
        self.has_lock(member)

    def test_the_first_waits_until_leases_of_older_views_are_over(self):
        self.group.install(self.one, self.two, self.three)
        self.one.lock.acquire()
        self.group.run(LEASE + MARGIN - 0.1)
        self.assertFalse(self.one.lock.holds())
        self.group.run(1)
        self.assertTrue(self.one.lock.holds())

    def test_in_a_view_the_lock_is_handed_over_at_once(self):
        self.begin()
        self.has_lock(self.one)
        self.two.lock.acquire()
        self.group.run(10)
        self.assertTrue(self.one.lock.holds())
        self.one.lock.release()
        self.assertFalse(self.one.lock.holds())
        self.group.run(0.5)
        self.assertTrue(self.two.lock.holds())

    def test_who_releases_and_acquires_at_once_waits_for_its_turn(self):
        self.begin()
        self.has_lock(self.one)
        self.two.lock.acquire()
        self.group.run(1)
        self.one.lock.release()
        self.one.lock.acquire()
        self.group.run(1)
        self.assertTrue(self.two.lock.holds())
        self.two.lock.release()
        self.group.run(1)
        self.assertTrue(self.one.lock.holds())

    def test_what_no_station_casts_is_passed_over(self):
        self.begin()
        self.has_lock(self.one)
        own = str(self.one.process).encode()
        late = (b"seen %s %s" % (own, moment) for moment in (b"1e9", b"inf", b"nan", b"soon"))
        for payload in b"", b"\1", b"\xff", b"seen", b"seen \xff 1.0", b"seen 1.x 1.0", b"keepalive \xff", *late:
            for kind in (CAUSAL, ATOMIC):
                self.two.send(Cast(GROUP, kind, payload))
        self.group.run(1)
        self.assertTrue(self.one.lock.holds())
        self.two.is_cut = self.three.is_cut = True
        self.group.run(LEASE + MARGIN)
        self.assertFalse(self.one.lock.holds())

    def test_nobody_holds_alone(self):
        self.group.install(self.one)
        self.one.lock.acquire()
        self.group.run(20)
        self.assertEqual(self.group.turns(), [])

    def test_two_programs_of_a_station_are_no_majority(self):
        again = self.group.member(101, 2)
        self.group.install(self.one, again)
        self.one.lock.acquire()
        self.group.run(20)
        self.assertEqual(self.group.turns(), [])

    def test_a_lease_ends_by_itself_where_nobody_answers(self):
        self.begin()
        self.has_lock(self.one)
        self.two.is_cut = self.three.is_cut = True
        self.group.run(LEASE - 0.5)
        self.assertTrue(self.one.lock.holds())
        self.group.run(0.6)
        self.assertFalse(self.one.lock.holds())

    def test_one_station_that_answers_is_enough(self):
        self.begin()
        self.has_lock(self.one)
        self.two.is_still = True
        self.group.run(20)
        self.assertTrue(self.one.lock.holds())

    def test_who_was_put_out_and_knows_nothing_holds_no_longer_than_its_lease(self):
        self.begin()
        self.has_lock(self.three)
        self.two.lock.acquire()
        self.group.run(1)
        self.three.is_cut = True
        self.group.install(self.one, self.two)
        self.group.run(LEASE - 0.5)
        self.assertTrue(self.three.lock.holds())
        self.group.run(1)
        self.assertTrue(self.two.lock.holds())

    def test_who_stood_still_finds_its_lease_over(self):
        self.begin()
        self.has_lock(self.three)
        self.one.lock.acquire()
        self.group.run(1)
        self.three.is_still = True
        self.group.install(self.one, self.two)
        self.group.run(LEASE + MARGIN + 1)
        self.assertTrue(self.one.lock.holds())
        self.three.is_still = False
        self.group.run(5)
        self.assertTrue(self.one.lock.holds())

    def test_a_lease_begins_with_the_keepalive_and_not_with_its_answers(self):
        self.begin()
        self.has_lock(self.three)
        self.three.is_cut = True
        self.group.run(0.5)
        self.one.is_still = self.two.is_still = True
        self.group.run(2)
        self.three.is_cut = False
        self.group.run(0.4)
        self.assertTrue(self.three.lock.holds())
        self.group.run(0.7)
        self.assertFalse(self.three.lock.holds())

    def test_the_holder_keeps_the_lock_where_another_comes_or_goes(self):
        self.group.install(self.one, self.two)
        self.group.run(10)
        self.has_lock(self.two)
        for view in ((self.one, self.two, self.three), (self.two, self.three)):
            self.group.install(*view)
            self.group.run(5)
        (turn,) = self.group.turns()
        self.assertGreater(turn.end - turn.begin, 10)

    def test_a_newcomer_is_told_the_queue(self):
        self.group.install(self.one, self.two)
        self.group.run(10)
        self.has_lock(self.two)
        self.one.lock.acquire()
        self.group.run(1)
        self.group.install(self.one, self.two, self.three)
        self.three.lock.acquire()
        self.group.run(10)
        self.two.lock.release()
        self.group.run(1)
        self.assertTrue(self.one.lock.holds())
        self.one.lock.release()
        self.group.run(1)
        self.assertTrue(self.three.lock.holds())

    def test_a_release_that_is_on_its_way_is_one(self):
        self.begin()
        self.has_lock(self.one)
        self.two.lock.acquire()
        self.group.run(1)
        # An answer to the last keepalive comes to the holder before its own release does, and that comes to it last.
        self.one.is_cut = True
        self.group.run(0.5)
        self.one.lock.release()
        self.group.run(0.5)
        self.assertTrue(self.two.lock.holds())
        self.one.is_cut = False
        self.group.run(0.5)
        self.assertTrue(self.two.lock.holds())

    def test_who_learns_that_it_was_put_out_has_nothing_any_more(self):
        self.begin()
        self.has_lock(self.one)
        self.group.install(self.two, self.three)
        self.group.eject(self.one)
        self.group.run(STEP)
        self.assertFalse(self.one.lock.holds())
        self.has_lock_after_a_lease(self.two)
        # It comes again, and is not first any more, also before it is told so.
        self.two.is_still = True
        self.group.install(self.one, self.two, self.three)
        self.group.run(LEASE - 1)
        self.assertFalse(self.one.lock.holds())
        self.two.is_still = False
        self.group.run(1)
        self.two.lock.release()
        self.group.run(10)
        self.assertFalse(self.one.lock.holds())

    def test_a_view_of_which_one_of_two_learns_late(self):
        self.begin()
        self.has_lock(self.three)
        self.one.lock.acquire()
        self.group.run(1)
        # Station 2 goes on in the old view, and answers the holder there, long after station 1 has left it.
        view = self.group.decide(self.one, self.two)
        self.group.tell(view, self.one)
        self.group.run(LEASE + MARGIN - 0.1)
        self.assertTrue(self.three.lock.holds())
        self.group.tell(view, self.two)
        self.group.run(LEASE - 0.1)
        self.assertFalse(self.one.lock.holds())
        self.group.run(1)
        self.assertTrue(self.one.lock.holds())

    def test_sites_that_were_all_put_out_at_once_and_know_nothing(self):
        # Stations 2 and 3 go on among themselves. Station 2 has a second program, by which it comes late into the new
        # view: until then the first one answers in the old one.
        self.group.install(self.two, self.three)
        self.group.run(10)
        self.has_lock(self.three)
        again = self.group.member(102, 2)
        view = self.group.decide(self.one, again)
        self.group.tell(view, self.one)
        self.one.lock.acquire()
        self.group.run(LEASE + MARGIN - 0.1)
        self.assertTrue(self.three.lock.holds())
        self.group.tell(view, again)
        self.group.run(LEASE - 0.1)
        self.assertFalse(self.one.lock.holds())


class Floors(unittest.TestCase):
    """What the programs of the trading floor make of what they hear."""

    def hear(self, listener: Listener, group: int, text: str, serial: int = 9) -> None:
        kind = ATOMIC if group == ORDERS and text.startswith("order") else CAUSAL
        listener.heard(Deliver(group, 1, Process(1, serial), 1, kind, text.encode()))

    def test_an_order_before_what_it_answers_is_a_breach(self):
        listener = Listener("desk", None)
        self.hear(listener, QUOTES, "quote 1; 99.00")
        self.hear(listener, ORDERS, "order 1 answers quote 1;")
        self.hear(listener, NEWS, "news 1; 1")
        self.hear(listener, ORDERS, "order 2 answers news 1;")
        self.assertEqual(listener.breaches, [])
        self.hear(listener, ORDERS, "order 3 answers quote 2;")
        self.hear(listener, ORDERS, "order 4 answers news 2;")
        self.assertEqual(listener.breaches, ["order 3 answers quote 2", "order 4 answers news 2"])
        self.assertEqual(len(listener.orders), 4)

    def test_the_holder_hands_the_token_to_the_one_that_orders_most(self):
        for others, most in ((5, None), (6, Process(1, 2))):
            with self.subTest(others):
                handed = []
                trader = Trader("north", Own(1), 0.0)
                trader.hand_over = lambda process: handed.append(process) or asyncio.sleep(0)
                trader.changed(View(ORDERS, 1, (Process(1, 1), Process(1, 2)), Process(1, 1)))

                async def hear() -> None:
                    for number in range(10):
                        self.hear(trader, ORDERS, f"order {number} answers quote 0;", 2 if number < others else 3)

                asyncio.run(hear())
                self.assertEqual(handed, [most] if most else [])

    def test_another_than_the_holder_hands_nothing_over(self):
        trader = Trader("north", Own(1), 0.0)
        trader.changed(View(ORDERS, 1, (Process(1, 1), Process(1, 2)), Process(1, 1)))
        self.hear(trader, ORDERS, "1.2", 1)
        for number in range(10):
            self.hear(trader, ORDERS, f"order {number} answers quote 0;", 2)
        self.assertIsNone(trader.passing)


class Own:
    """A session that nothing is sent by."""

    def __init__(self, serial: int):
        self.process = Process(1, serial)


class Terminal(io.StringIO):
    def isatty(self) -> bool:
        return True


class Screens(unittest.TestCase):
    def shown_on(self, output: io.StringIO) -> str:
        with mock.patch("sys.stdout", output):
            screen = Screen()
            screen.show(["one", "two"])
            screen.say("said")
            screen.show(["three"])
            screen.show(["three"])
        return output.getvalue()

    def test_on_a_terminal_lines_are_drawn_in_place_of_those_before(self):
        up = "\x1b[2A\x1b[J"
        self.assertEqual(self.shown_on(Terminal()), f"one\ntwo\n{up}said\none\ntwo\n{up}three\n")

    def test_elsewhere_only_what_stays_is_printed(self):
        self.assertEqual(self.shown_on(io.StringIO()), "said\n")


class Runs(unittest.TestCase):
    """The examples as a reader runs them, without a terminal."""

    def run_example(self, name: str, within: float, *words: str) -> list[str]:
        """The lines that an example prints. It ends within so many seconds."""
        command = [str(ROOT / "examples" / name / "run"), PROGRAM, *words]
        ran = subprocess.run(command, capture_output=True, text=True, timeout=within, check=False)
        self.assertEqual((ran.returncode, ran.stderr), (0, ""), ran.stdout)
        self.assertNotIn("\x1b", ran.stdout)
        return ran.stdout.splitlines()

    def test_the_replicated_store_loses_nothing(self):
        lines = self.run_example("replicated-store", 60, "--seconds", "9")
        self.assertIn("site 3: daemon and store killed", lines)
        self.assertIn("site 1: console: suspect 1 3: ok", lines)
        self.assertIn("site 4: its store has the table, and serves", lines)
        self.assertRegex(lines[-4], r"^the copies at sites 1, 2, 4 are equal: SHA-256 [0-9a-f]{16}\.\.\.$")
        numbers = ", ".join(f"[1-9][0-9,]* of site {site}" for site in (1, 2, 3, 4))
        self.assertRegex(lines[-3], f"^answers: {numbers}$")
        self.assertRegex(lines[-2], r"^[1-9][0-9,]* writes were answered, and none is lost$")
        self.assertRegex(lines[-1], r"^the history of [1-9][0-9,]* reads and writes is linearizable; [0-9]+ more ")

    def test_the_trading_floor_hears_no_order_too_early(self):
        lines = self.run_example("trading-floor", 90, "--seconds", "10")
        overtaken = r"^orders that came to the desk's host before what they answer: [1-9][0-9]*; delivered so: 0$"
        self.assertRegex("\n".join(lines), re.compile(overtaken, re.MULTILINE))
        self.assertRegex(lines[-1], r"^[1-9][0-9]* orders, in one order at all 4 who heard them$")

    def test_the_three_sites_tell_their_story(self):
        lines = self.run_example("three-sites", 60)
        self.assertIn("all three delivered the ordered casts in one order: True", lines)
        self.assertEqual(lines[-2:], [f"site {site}: daemon ended with status 0" for site in (1, 2)])

    def test_the_three_sites_are_watched_until_q_is_pressed(self):
        command = [str(ROOT / "examples/three-sites/run"), PROGRAM]
        ran = subprocess.run([*command, "--watch"], capture_output=True, text=True, timeout=60, check=False)
        self.assertEqual((ran.returncode, ran.stdout, ran.stderr), (1, "", "run: --watch wants a terminal\n"))
        watched = AtTerminal([*command, "--watch"])
        self.addCleanup(watched.end)
        shows = lambda *texts: lambda lines: all(any(text in line for line in lines) for text in texts)
        watched.wait_for(shows("3 of 3 sites answer", "3: 1.1 2.1 3.1"), PATIENCE)
        lines = watched.wait_for(shows("2 of 3 sites answer", "2: 1.1 2.1"), 3 * PATIENCE)
        self.assertRegex("\n".join(lines), r"(?m)^ +3 127\S+ +Connection refused")
        watched.press("q")
        self.assertEqual(watched.process.wait(PATIENCE), 0)

        command = [str(ROOT / "examples/replicated-store/run"), "/bin/false"]
        ran = subprocess.run(command, capture_output=True, text=True, timeout=60, check=False)
        self.assertEqual((ran.returncode, ran.stdout, ran.stderr), (1, "", "run: false ended with 1.\n"))

    def test_the_control_room_has_one_holder(self):
        lines = self.run_example("control-room", 90, "--seconds", "25")
        told = "\n".join(lines)
        self.assertRegex(told, r"station [1-3]: (program|daemon) (killed|stopped)")
        self.assertRegex(lines[-2], r"[1-9] daemons were replaced$")
        for station in (1, 2, 3):
            self.assertIn(f"station {station} has the controls", told)
        changes = re.search(r"changed hands ([0-9]+) times, and were held for .* never by two$", lines[-1])
        self.assertGreaterEqual(int(changes[1]), 3)
