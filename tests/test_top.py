"""castd-top: what it shows, what its keys do, and how it goes on where a keeper does not answer."""

import os
import pathlib
import signal
import socket
import subprocess
import time
import unittest
from xml.etree import ElementTree

from harness import PATIENCE, PROGRAM, ROOT, TOOLS, Case, castd, change_plan, stop, wait_for_push, wait_for_view
from terminal import ARROW_DOWN, ARROW_UP, CONTROL_C, AtTerminal
from castd_tools import configuration
from castd_tools.answers import Group
from castd_tools.dialog import BACKSPACE, ENTER, ESCAPE, HELP, Dialog, Order
from castd_tools.observation import DomainObservation, SiteObservation
from castd_tools.overview import overview, window

# Three sites: all serve domain 1, and two serve domain 7, whose home is site 103.
CONFIGURATION = """
site = [
    {number = 101, address = "192.0.2.1:7001"},
    {number = 102, address = "[2001:db8:85a3:8d3::2]:7001"},
    {number = 103, address = "192.0.2.3:7001"},
]
domain = [
    {number = 1, home = 101, sites = [101, 102, 103], groups = [1, 2], socket = "/tmp/1.sock"},
    {number = 7, home = 103, sites = [101, 103], groups = [5], socket = "/tmp/7.sock"},
]
"""
READ = configuration.parse(CONFIGURATION)
NOBODY = Group(2, 0, None, (), False)
OPEN = Group(1, 3, "101.1", ("101.1", "103.2"), False)
QUOTAS = {"sessions": 15, "held": 256}


def domain(sessions: int, held: int, casts: int, *groups: Group, **more) -> DomainObservation:
    shown = {"sessions": sessions, "held": held, "casts": casts}
    return DomainObservation(**{"is_running": True, "shown": shown, "quotas": QUOTAS, "groups": groups, **more})


def site(seconds: float, sent: int, received: int, domains: dict, **more) -> SiteObservation:
    datagrams = {"sent": sent, "received": received}
    return SiteObservation(seconds, datagrams=datagrams, resident_bytes=3_250_000, domains=domains, **more)


def shown(before: dict, now: dict, config: str = "/etc/castd.conf") -> list[str]:
    return overview("2026-12-01 14:00:00 UTC", config, READ, before, now)


class Overviews(unittest.TestCase):
    def test_sites_domains_and_groups_with_how_fast_counts_rise(self):
        before = {
            101: site(10.0, 1_000, 2_000, {1: domain(2, 0, 500, OPEN, NOBODY), 7: domain(0, 0, 90)}),
            103: site(10.5, 40, 50, {1: domain(1, 0, 70, OPEN, NOBODY), 7: domain(0, 0, 0)}),
        }
        five = Group(5, 2, "103.1", ("103.1",), True)
        now = {
            101: site(12.0, 13_000, 2_001, {1: domain(12, 204, 2_968, OPEN, NOBODY), 7: domain(0, 0, 90, five)}),
            103: site(12.5, 40, 90, {1: domain(13, 205, 70, OPEN, NOBODY), 7: domain(0, 0, 1, five)}),
        }
        self.assertEqual(
            shown(before, now),
            [
                "castd-top  2026-12-01 14:00:00 UTC  2 of 2 sites answer  /etc/castd.conf",
                "",
                "SITE ADDRESS        STATE  CASTS/S   SENT/S   RECV/S     MEMORY HEALTH",
                " 101 192.0.2.1:7001 up        1234     6000      0.5    3.1 MiB healthy",
                " 103 192.0.2.3:7001 up         0.5        0       20    3.1 MiB healthy",
                "",
                "DOMAIN SITE STATE   SESSIONS       KEPT   CASTS/S HOME",
                "     1  101 running    12/15    204/256      1234 here",
                "     1  103 running    13/15!   205/256!        0 101",
                "     7  101 running     0/15      0/256         0 103",
                "     7  103 running     0/15      0/256       0.5 here",
                "",
                "DOMAIN GROUP   VIEW STATE  HOLDER SITES MEMBERS",
                "     1     1      3 open   101.1  all   2: 101.1 103.2",
                "     1     2      0 none   -      all   -",
                "     7     5      2 frozen 103.1  all   1: 103.1",
            ],
        )

    def test_a_first_look_has_no_rates(self):
        now = {101: site(12.0, 13_000, 2_001, {1: domain(12, 2, 2_968)})}
        lines = shown({}, now)
        self.assertIn(" 101 192.0.2.1:7001 up           -        -        -    3.1 MiB healthy", lines)
        self.assertIn("     1  101 running    12/15      2/256         - here", lines)

    def test_a_count_that_fell_has_no_rate(self):
        before, now = ({101: site(time, sent, 5, {1: domain(0, 0, sent)})} for time, sent in ((1.0, 9), (2.0, 8)))
        self.assertIn(" 101 192.0.2.1:7001 up           -        -        0    3.1 MiB healthy", shown(before, now))

    def test_sites_that_do_not_answer_and_sites_that_are_not_healthy(self):
        reasons = ("domain 1 is halted", "site 103 was put out of domain 7, whose programs are no longer served here")
        halted = domain(0, 0, 0, is_running=False, shown={})
        retired = domain(0, 0, 3, is_retired=True, is_home_silent=True)
        before = {101: site(1.0, 3, 5, {1: domain(0, 0, 0)}), 103: SiteObservation(1.0, problem="no answer within 2 s")}
        now = {
            101: SiteObservation(2.0, problem="no answer within 2 s"),
            102: site(2.0, 3, 5, {1: retired}, reasons=("the home of domain 1, site 101, is silent",)),
            103: site(2.0, 3, 5, {1: halted, 7: domain(0, 0, 1)}, reasons=reasons),
        }
        self.assertEqual(
            shown(before, now)[:13],
            [
                "castd-top  2026-12-01 14:00:00 UTC  2 of 3 sites answer  /etc/castd.conf",
                "",
                "SITE ADDRESS               STATE  CASTS/S   SENT/S   RECV/S     MEMORY HEALTH",
                " 101 192.0.2.1:7001        no answer within 2 s",
                " 102 [2001:db8:85a3:8d3:.. up           -        -        -    3.1 MiB unhealthy",
                "      the home of domain 1, site 101, is silent",
                " 103 192.0.2.3:7001        up           -        -        -    3.1 MiB unhealthy",
                "      domain 1 is halted",
                "      site 103 was put out of domain 7, whose programs are no longer served here",
                "",
                "DOMAIN SITE STATE   SESSIONS       KEPT   CASTS/S HOME",
                "     1  102 retired     0/15      0/256         - 101 is silent",
                "     1  103 halted         -          -         - 101",
            ],
        )

    def test_groups_that_sites_show_otherwise_stand_once_for_each_way(self):
        later = Group(1, 4, "101.1", ("101.1",), False)
        now = {
            number: site(1.0, 0, 0, {1: domain(0, 0, 0, group, NOBODY)})
            for number, group in ((101, OPEN), (102, later), (103, OPEN))
        }
        self.assertEqual(
            shown({}, now)[-4:],
            [
                "DOMAIN GROUP   VIEW STATE  HOLDER SITES   MEMBERS",
                "     1     1      3 open   101.1  101,103 2: 101.1 103.2",
                "     1     1      4 open   101.1  102     1: 101.1",
                "     1     2      0 none   -      all     -",
            ],
        )

    def test_each_line_is_80_characters_of_ascii(self):
        members = tuple(f"65535.{number}" for number in range(4_294_967_232, 4_294_967_296))
        crowded = Group(65_535, 4_294_967_295, members[0], members, False)
        now = {
            102: site(1.0, 0, 0, {1: domain(64, 1_024, 1, crowded)}, reasons=("x\ty\u00e9" * 40,)),
            103: SiteObservation(1.0, problem="caf\u00e9 \x1b[2J"),
        }
        lines = shown({}, now, "/etc/\u00e9/" + "long" * 20)
        self.assertEqual(
            lines[0], "castd-top  2026-12-01 14:00:00 UTC  1 of 2 sites answer  ..glonglonglonglonglong"
        )
        self.assertIn("caf? ?[2J", lines[5])
        self.assertTrue(lines[4].startswith("      x?y?x?y?"))
        self.assertTrue(lines[-1].endswith("64: 65535.4294967232 655.."))
        for line in lines:
            self.assertLessEqual(len(line), 80)
            self.assertTrue(line.isascii() and (line.isprintable() or not line), line)

    def test_a_domain_that_the_configuration_lacks_is_shown(self):
        now = {101: site(1.0, 0, 0, {9: domain(1, 0, 0)})}
        self.assertIn("     9  101 running     1/15      0/256         - -", shown({}, now))


class Windows(unittest.TestCase):
    LINES = ["a", "b", "c", "d", "e"]

    def test_it_says_how_many_lines_do_not_fit(self):
        for first, height, expected in (
            (0, 5, (0, ["a", "b", "c", "d", "e"])),
            (0, 9, (0, ["a", "b", "c", "d", "e"])),
            (0, 4, (0, ["a", "b", "c", "2 lines more"])),
            (0, 1, (0, ["5 lines more"])),
            (1, 3, (1, ["b", "c", "2 lines more"])),
            (2, 3, (2, ["c", "d", "e"])),
            (9, 3, (2, ["c", "d", "e"])),
            (-1, 3, (0, ["a", "b", "3 lines more"])),
            (3, 0, (3, [])),
        ):
            with self.subTest(first=first, height=height):
                self.assertEqual(window(self.LINES, first, height), expected)


class Dialogs(unittest.TestCase):
    def after(self, *keys: str, running: tuple[int, ...] = (101, 102)) -> tuple[str, list[Order]]:
        """What a dialog shows after these keys, and what was to be said."""
        dialog = Dialog(READ)
        orders = [dialog.press(key, running) for key in keys]
        return dialog.text, [order for order in orders if order]

    def test_a_suspicion_is_said_at_the_home(self):
        question = "suspect 1 102 at the home 101? [y/N] "
        self.assertEqual(self.after("s", *"102 1"), ("suspect which site, in which domain? 102 1", []))
        for typed in ("102 1", "102,1", " 102 , 1 "):
            self.assertEqual(self.after("s", *typed, ENTER), (question, []))
        text, (order,) = self.after("s", *"102 1", ENTER, "y")
        self.assertEqual((order.site, order.line), (101, "suspect 1 102"))
        self.assertEqual(text, "suspect 1 102: said to site 101, which has not answered yet")

    def test_a_site_is_stopped(self):
        self.assertEqual(self.after("x", *"102", ENTER), ("stop site 102? [y/N] ", []))
        _, (order,) = self.after("x", *"102", ENTER, "y")
        self.assertEqual((order.site, order.line), (102, "stop"))

    def test_only_y_says_it(self):
        for key in ("n", "Y", ENTER, ESCAPE, "q", " "):
            with self.subTest(key):
                self.assertEqual(self.after("s", *"102 1", ENTER, key), ("nothing was said", []))
                self.assertEqual(self.after("s", *"102 1", ENTER, key, "y"), (HELP, []))

    def test_what_cannot_be_said_is_refused(self):
        for key, typed, text in (
            ("s", "101 7", "the home of domain 7 is site 103, which does not run here"),
            ("s", "102 7", "domain 7 has no site 102"),
            ("s", "102 9", "the configuration has no domain 9"),
            ("s", "102", "two numbers are needed: the site, then the domain"),
            ("s", "102 1 1", "two numbers are needed: the site, then the domain"),
            ("s", "x 1", "'x' is not a number from 1 to 65535"),
            ("s", "102 256", "'256' is not a number from 1 to 255"),
            ("x", "103", "site 103 does not run here"),
            ("x", "101 102", "one number is needed"),
            ("x", "0", "'0' is not a number from 1 to 65535"),
        ):
            with self.subTest(key + typed):
                self.assertEqual(self.after(key, *typed, ENTER), (f"refused: {text}", []))
                self.assertEqual(self.after(key, *typed, ENTER, "y"), (HELP, []))

    def test_what_is_typed_can_be_changed_and_given_up(self):
        self.assertEqual(self.after("x", *"19", BACKSPACE, *"02", ENTER)[0], "stop site 102? [y/N] ")
        self.assertEqual(self.after("x", BACKSPACE, *"102")[0], "stop site which? 102")
        self.assertEqual(self.after("x", *"1" * 99)[0], "stop site which? " + "1" * 40)
        for keys in (["x", "1", ESCAPE], ["x", ENTER], ["s", " ", ENTER]):
            self.assertEqual(self.after(*keys), (HELP, []))

    def test_q_ends_it_but_not_within_a_question(self):
        for keys, is_over in (("q", True), ("xq", False), ("jkz", False)):
            dialog = Dialog(READ)
            for key in keys:
                dialog.press(key, ())
            self.assertEqual(dialog.is_over, is_over)

    def test_a_message_waits_for_an_open_question(self):
        dialog = Dialog(READ)
        dialog.press("x", ())
        dialog.tell("stop: ok")
        self.assertEqual(dialog.text, "stop site which? ")


def words(setup, *more: str) -> list[str]:
    """The command line of castd-top for the sites of a setup."""
    return [str(TOOLS / "castd-top"), setup.config, "--socket", f"{setup.folder}/site-{{site}}/control", *more]


def run(*words: str) -> subprocess.CompletedProcess:
    how = {"capture_output": True, "text": True, "timeout": PATIENCE, "check": False}
    return subprocess.run(words, stdin=subprocess.DEVNULL, **how)


class Once(Case):
    def once(self, setup, *more: str) -> subprocess.CompletedProcess:
        return run(*words(setup, "--once", *more))

    def test_three_daemons(self):
        setup = self.setup_of(3)
        keepers = {number: self.keeper(setup, number) for number in (1, 2, 3)}
        session = self.joined(setup, 1, 1)
        self.joined(setup, 2, 2)
        wait_for_view(session, 2)
        ran = self.once(setup, "--interval", "0.1")
        lines = ran.stdout.splitlines()
        self.assertEqual((ran.returncode, ran.stderr), (0, ""))
        self.assertRegex(lines[0], r"^castd-top  \d{4}-\d\d-\d\d \d\d:\d\d:\d\d UTC  3 of 3 sites answer  ")
        for number in (1, 2, 3):
            address = setup.addresses[number].replace(".", r"\.")
            self.assertRegex(lines[2 + number], rf"^ +{number} {address} +up +0 +[\d.]+ +[\d.]+ +[\d.]+ MiB healthy$")
        told = [line.split() for line in lines]
        for row in (
            ["1", "1", "running", "1/16", "0/256", "0", "here"],
            ["1", "2", "running", "1/16", "0/256", "0", "1"],
            ["1", "3", "running", "0/16", "0/256", "0", "1"],
            ["1", "1", "2", "open", "1.1", "1,2", "2:", "1.1", "2.1"],
            ["1", "1", "0", "none", "-", "3", "-"],
        ):
            self.assertIn(row, told)
        # The keeper of a site is killed, and its daemon with it.
        keepers[2].process.kill()
        keepers[2].process.wait()
        ran = self.once(setup, "--interval", "0.1")
        self.assertEqual((ran.returncode, ran.stderr), (3, ""))
        self.assertIn("2 of 3 sites answer", ran.stdout)
        self.assertRegex(ran.stdout, rf"(?m)^ +2 {setup.addresses[2]} +Connection refused$")
        # A daemon is stopped: it gives no answer, and the others are shown all the same.
        stop(keepers[3].daemon())
        begun = time.monotonic()
        ran = self.once(setup, "--interval", "0.1")
        self.assertLess(time.monotonic() - begun, 10)
        self.assertEqual((ran.returncode, ran.stderr), (3, ""))
        self.assertIn("1 of 3 sites answer", ran.stdout)
        self.assertRegex(ran.stdout, rf"(?m)^ +3 {setup.addresses[3]} +no answer within 2 s$")
        self.assertRegex(ran.stdout, rf"(?m)^ +1 {setup.addresses[1]} +up ")

    def test_a_keeper_that_is_stopped_does_not_answer(self):
        setup = self.setup_of()
        keeper = self.keeper(setup)
        os.kill(keeper.process.pid, signal.SIGSTOP)
        ran = self.once(setup, "--interval", "0.1")
        self.assertEqual((ran.returncode, ran.stderr), (3, ""))
        self.assertRegex(ran.stdout, r"(?m) no answer within 2 s$")

    def test_a_site_has_two_seconds_for_all_its_answers(self):
        setup = self.setup_of()
        self.stand_in(setup, delays={"show 1": 0.8, "groups 1": 0.8})
        ran = self.once(setup, "--interval", "0.1")
        self.assertEqual((ran.returncode, ran.stderr), (3, ""))
        self.assertRegex(ran.stdout, r"(?m) no answer within 2 s$")

    def test_casts_are_counted(self):
        setup = self.setup_of()
        self.keeper(setup)
        session = self.joined(setup, 1, 1)
        top = subprocess.Popen(words(setup, "--once", "--interval", "2"), stdout=subprocess.PIPE, text=True)
        self.addCleanup(top.stdout.close)
        casts = 0
        while top.poll() is None:
            session.cast(1, b"x", PATIENCE)
            wait_for_push(session, lambda push: isinstance(push, castd.Deliver))
            casts += 1
            time.sleep(0.05)
        row = next(line.split() for line in top.stdout if " up " in line)
        # All were cast within more than two seconds, and most of those that were in the two between the looks.
        self.assertTrue(5 < float(row[3]) <= casts / 2, row)

    def test_the_metrics_of_the_keeper_and_its_health_are_shown(self):
        setup = self.setup_of()
        answers = {
            "domains": ["domain 1 halted"],
            "show 1": ["domain 1 sessions 2 held 205 casts 4 moment 5"],
            "datagrams": ["datagrams sent 5 received 6 lost 7 undecoded 8"],
            "record": ["record ended"],
            "groups 1": ["group 1 view 9 holder 1.2 members 1.2 2.1 frozen"],
        }
        self.stand_in(setup, answers=answers)
        ran = self.once(setup, "--interval", "0.1")
        self.assertEqual(ran.returncode, 1)
        told = [line.split() for line in ran.stdout.splitlines()]
        self.assertIn(["1", "1", "halted", "2/16", "205/256!", "0", "here"], told)
        self.assertIn(["1", "1", "9", "frozen", "1.2", "all", "2:", "1.2", "2.1"], told)
        self.assertIn(["domain", "1", "is", "halted"], told)
        self.assertIn(["the", "record", "has", "ended"], told)
        change_plan(setup, 1, answers={**answers, "groups 1": ["group x view 9 none"]})
        ran = self.once(setup, "--interval", "0.1")
        self.assertEqual((ran.returncode, ran.stderr), (3, ""))
        self.assertIn("its answers have a form that is not known", ran.stdout)

    def test_a_site_that_was_put_out_and_a_home_that_is_silent_are_shown(self):
        setup = self.setup_of(2)
        answers = {"retire 1": ["ok"], "show 1": ["domain 1 sessions 0 held 0 casts 4 moment 5"]}
        keeper = self.stand_in(setup, 2, answers=answers)
        self.assertEqual([keeper.ask("retire 1"), keeper.ask("home-silent 1")], ["ok", "ok"])
        ran = self.once(setup, "--interval", "0.1")
        self.assertEqual(ran.returncode, 1)
        told = [line.split() for line in ran.stdout.splitlines()]
        self.assertIn(["1", "2", "retired", "0/16", "0/256", "0", "1", "is", "silent"], told)

    def test_sigint_ends_it_without_a_word(self):
        setup = self.setup_of()
        with socket.socket(socket.AF_UNIX) as keeper:
            keeper.bind(setup.control(1))
            keeper.listen()
            top = subprocess.Popen(words(setup, "--once"), stdout=subprocess.PIPE, stderr=subprocess.PIPE)
            keeper.settimeout(PATIENCE)
            keeper.accept()[0].close()
            top.send_signal(signal.SIGINT)
            self.assertEqual((top.communicate(timeout=PATIENCE), top.returncode), ((b"", b""), -signal.SIGINT))

    def test_where_none_runs_or_the_configuration_is_at_fault_it_says_so(self):
        setup = self.setup_of(2)
        ran = self.once(setup)
        self.assertEqual((ran.returncode, ran.stdout), (3, ""))
        self.assertIn(f"no site runs on this host: there is no {setup.folder}/site-{{site}}/control", ran.stderr)
        pathlib.Path(setup.config).write_text("site = 1")
        ran = self.once(setup)
        self.assertEqual((ran.returncode, ran.stdout), (6, ""))
        self.assertIn("castd.conf: site: not tables [[site]]", ran.stderr)

    def test_wrong_usage(self):
        setup = self.setup_of()
        for more in (["--socket", "/tmp/control"], ["--interval", "0"], ["--interval", "nan"], ["more"]):
            with self.subTest(more):
                ran = run(str(TOOLS / "castd-top"), setup.config, "--once", *more)
                self.assertEqual((ran.returncode, ran.stdout), (2, ""))
                self.assertIn("usage: castd-top", ran.stderr)

    def test_without_a_terminal_it_shows_nothing_again_and_again(self):
        ran = run(*words(self.setup_of()))
        self.assertEqual((ran.returncode, ran.stdout), (2, ""))
        self.assertEqual(ran.stderr, "castd-top: standard input and output are no terminal: --once needs none\n")


class Interactive(Case):
    def top(self, setup, *more: str, **terminal) -> AtTerminal:
        top = AtTerminal(words(setup, "--interval", "0.1", *more), **terminal)
        self.addCleanup(top.end)
        return top

    def wait_for(self, top: AtTerminal, *texts: str) -> list[str]:
        """What the terminal shows once all these texts are there."""
        return top.wait_for(lambda lines: all(any(text in line for line in lines) for text in texts), PATIENCE)

    def assert_ends(self, top: AtTerminal, status: int = 0) -> None:
        """It ends, and leaves the terminal as it was."""
        end = time.monotonic() + PATIENCE
        while top.process.poll() is None and time.monotonic() < end:
            top.read(0.02)
        self.assertEqual(top.process.returncode, status)
        self.assertEqual(top.settings_now(), top.settings)

    def two_sites(self, **plan):
        """Two sites, each with a stand-in for its daemon, and their keepers."""
        setup = self.setup_of(2)
        plan = {"answers": {"suspect 1 2": ["ok"], "show 1": ["domain 1 sessions 3 held 0 casts 0 moment 0"]}, **plan}
        return setup, [self.stand_in(setup, number, **plan) for number in (1, 2)]

    def test_a_site_is_suspected_after_a_y_alone(self):
        setup, (home, other) = self.two_sites()
        top = self.top(setup)
        self.wait_for(top, "2 of 2 sites answer", "     1    1 running     3/16      0/256         0 here", HELP)
        top.press("s")
        self.wait_for(top, "suspect which site, in which domain?")
        top.press("2 1\r")
        self.wait_for(top, "suspect 1 2 at the home 1? [y/N]")
        top.press("n")
        self.wait_for(top, "nothing was said")
        self.assertEqual(home.ask("suspected"), "")
        top.press("s2 1\r")
        self.wait_for(top, "suspect 1 2 at the home 1? [y/N]")
        top.press("y")
        self.assertIn("suspect 1 2 at site 1: ok", self.wait_for(top, "at site 1: ok")[-1])
        self.assertEqual(home.ask("suspected"), "suspected 1 2")
        self.assertEqual(other.ask("suspected"), "")
        top.press("q")
        self.assert_ends(top)

    def test_a_suspicion_whose_home_does_not_run_here_is_refused(self):
        setup = self.setup_of(2)
        self.stand_in(setup, 2)
        top = self.top(setup)
        self.wait_for(top, "1 of 1 sites answer")
        top.press("s2 1\r")
        self.wait_for(top, "refused: the home of domain 1 is site 1, which does not run here")
        top.press("q")
        self.assert_ends(top)

    def test_a_site_is_stopped_and_shown_as_ended(self):
        setup, (_, other) = self.two_sites()
        top = self.top(setup)
        self.wait_for(top, "2 of 2 sites answer")
        top.press("x2\r")
        self.wait_for(top, "stop site 2? [y/N]")
        top.press("q")
        self.wait_for(top, "nothing was said")
        self.assertIsNone(other.process.poll())
        top.press("x2\ry")
        self.wait_for(top, "stop at site 2: ok", "1 of 2 sites answer", f"2 {setup.addresses[2]} has ended")
        self.assertEqual(other.process.wait(PATIENCE), 0)
        # A refusal of what is no more is told as well.
        top.press("x2\r")
        self.wait_for(top, "refused: site 2 does not run here")
        top.press("q")
        self.assert_ends(top)

    def test_a_keeper_that_does_not_answer_holds_nothing_up(self):
        setup, (home, other) = self.two_sites()
        os.kill(other.process.pid, signal.SIGSTOP)
        top = self.top(setup, columns=160)
        self.wait_for(top, "1 of 2 sites answer", f"2 {setup.addresses[2]} no answer within 2 s")
        # Keys are taken while it is asked. To wait for the answer each time would take 20 seconds.
        begun = time.monotonic()
        for _ in range(5):
            top.press("x")
            self.wait_for(top, "stop site which?")
            top.press("\x1b")
            self.wait_for(top, HELP)
        self.assertLess(time.monotonic() - begun, 6)
        # So is a line that it does not answer.
        top.press("x2\ry")
        self.wait_for(top, "stop: said to site 2, which has not answered yet")
        os.kill(other.process.pid, signal.SIGCONT)
        self.wait_for(top, "stop at site 2: ok")
        home.process.kill()
        self.wait_for(top, "0 of 2 sites answer", f"1 {setup.addresses[1]} Connection refused")
        top.press("x1\ry")
        self.wait_for(top, f"stop at site 1: {setup.control(1)}: Connection refused")
        top.press("q")
        self.assert_ends(top)

    def test_a_site_that_starts_later_is_shown(self):
        setup = self.setup_of(2)
        self.stand_in(setup, 1)
        top = self.top(setup)
        self.wait_for(top, "1 of 1 sites answer")
        self.stand_in(setup, 2)
        self.wait_for(top, "2 of 2 sites answer")

    def test_signals_end_it_and_leave_the_terminal_as_it_was(self):
        setup, (_, other) = self.two_sites()
        os.kill(other.process.pid, signal.SIGSTOP)
        for end in (lambda top: top.press(CONTROL_C), lambda top: top.process.send_signal(signal.SIGTERM)):
            top = self.top(setup)
            self.wait_for(top, "castd-top")
            self.assertNotEqual(top.settings_now(), top.settings)
            end(top)
            self.assert_ends(top)

    def test_a_terminal_of_any_size(self):
        setup, _ = self.two_sites()
        top = self.top(setup)
        self.wait_for(top, "2 of 2 sites answer", HELP)
        for rows, columns, texts in (
            (6, 30, ["castd-top  ", "lines more"]),
            (2, 10, ["lines more"[:1]]),
            (1, 1, []),
            (24, 30, ["castd-top  "]),
            (24, 80, ["2 of 2 sites answer", HELP]),
            (40, 200, ["2 of 2 sites answer", HELP]),
        ):
            with self.subTest(rows=rows, columns=columns):
                top.resize(rows, columns)
                # It has drawn what it shows at this size before it takes a key.
                top.press("x")
                top.wait_for(lambda lines: lines[-1] == "stop site which? "[:columns].rstrip(), PATIENCE)
                top.press("\x1b")
                top.wait_for(lambda lines: lines[-1] == HELP[:columns].rstrip(), PATIENCE)
                lines = self.wait_for(top, *texts)
                # No line goes on in the next one, which is empty.
                self.assertEqual(lines[1:2], [""] if rows > 2 else [HELP[:columns].rstrip()][: rows - 1])
                self.assertIsNone(top.process.poll())
        top.press("q")
        self.assert_ends(top)

    def test_lines_that_do_not_fit_are_scrolled(self):
        setup, _ = self.two_sites()
        top = self.top(setup, rows=6)
        self.wait_for(top, "2 of 2 sites answer", "7 lines more")
        for keys, first in (
            ("j", ""),
            ("j", "SITE ADDRESS"),
            (ARROW_UP, ""),
            ("k", "castd-top  "),
            ("kk" + ARROW_DOWN * 2, "SITE ADDRESS"),
            ("j" * 50 + "k", ""),
            ("j", "DOMAIN SITE"),
        ):
            top.press(keys)
            self.wait_for_first(top, first)
        top.wait_for(lambda lines: not any("lines more" in line for line in lines), PATIENCE)

    def test_pages_are_scrolled(self):
        setup, _ = self.two_sites()
        # A vt52 with two more keys.
        kind = pathlib.Path(self.folder, "kind")
        kind.write_text("paged|vt52 with keys for pages,\n\tknp=\\EU, kpp=\\EV, use=vt52,\n")
        subprocess.run(["tic", "-o", self.folder, kind], check=True)
        top = self.top(setup, rows=6, kind="paged", TERMINFO=self.folder)
        self.wait_for(top, "2 of 2 sites answer", "7 lines more")
        down, up = "\x1bU", "\x1bV"
        for key, first in ((down, "   2"), (down, "DOMAIN SITE"), (down, "DOMAIN SITE"), (up, "SITE ADDRESS")):
            top.press(key)
            self.wait_for_first(top, first)

    def wait_for_first(self, top: AtTerminal, first: str) -> list[str]:
        """What the terminal shows once its first line begins so, or is empty as this text."""
        return top.wait_for(lambda lines: lines[0].startswith(first) and bool(first) == bool(lines[0]), PATIENCE)

    def test_a_terminal_that_cannot_be_used_is_refused(self):
        setup, _ = self.two_sites()
        for kind, text in (("dumb", "its cursor cannot be moved"), ("no-such-kind", "could not find terminal")):
            with self.subTest(kind):
                top = self.top(setup, kind=kind, columns=120)
                self.wait_for(top, f"castd-top: the terminal '{kind}' cannot be used: ", text)
                self.assert_ends(top, 2)


class Pictures(Case):
    def test_three_sites_are_drawn(self):
        path = pathlib.Path(self.folder, "picture.svg")
        ran = run(str(ROOT / "tools/picture"), PROGRAM, str(path))
        self.assertEqual((ran.returncode, ran.stderr), (0, ""))
        lines = [element.text for element in ElementTree.parse(path).iter("{http://www.w3.org/2000/svg}text")]
        self.assertRegex(lines[0], "^castd-top  .* UTC  3 of 3 sites answer  castd.conf$")
        told = [line.split() for line in lines]
        # Each program casts, and the two of domain 2 at site 3 use up the quota of two sessions.
        self.assertGreater(float(told[2][3]), 1)
        self.assertIn(["2", "3", "running", "2/2!", "0/256"], [row[:5] for row in told])
        self.assertIn(["1", "1", "3", "open", "1.1", "all", "3:", "1.1", "2.1", "3.1"], told)

    def test_a_picture_that_cannot_be_made_leaves_the_old_one(self):
        path = pathlib.Path(self.folder, "picture.svg")
        path.write_text("old")
        ran = run(str(ROOT / "tools/picture"), "/bin/false", str(path))
        self.assertEqual((ran.returncode, ran.stdout, path.read_text()), (1, "", "old"))
        self.assertIn("picture: castd-keeper ended with 1", ran.stderr)
