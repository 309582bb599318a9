"""What castd prints for whole scripts, for a record and for command lines, and with which status it ends."""

from __future__ import annotations

import pathlib
import subprocess
from collections.abc import Sequence
from typing import NamedTuple

from harness import PATIENCE, PROGRAM, Case

DONE, USAGE, UNREADABLE = 0, 2, 3

# Process 1.1 is in view 2 of group 1 with 2.1; the home is site 9.
SET_UP = """\
site 1
domain 1 home 9 sites 1,2,9 groups 1 quotas 16 256 4096 200
open 1
join 1 1 0 1
frame 4344010501000900010000000100
frame 4344010a01000900010000000202000100000001000200000001000000000100000000000000
"""
SET_UP_PUSHES = """\
push 1 1 opened 1.1
push 1 1 reply 0 0
push 1 1 view 1 2 holder 1.1 members 1.1 2.1
"""
SET_UP_FRAMES = """\
send 1 9 4344010401000100010000000101000100000001
send 1 9 4344010b010001000100000002
"""

# The pieces of a record: its first events, and what was written behind a gap.
RECORD = {
    "castd-1-000001.script": """\
site 1
domain 1 home 1 sites 1 groups 1 quotas 16 256 256 200
domain 2 home 1 sites 1 groups 1 quotas 16 256 256 200
# 0 events before
open 1
open 2
bad 1 1
""",
    "castd-1-000002.script": """\
site 1
domain 1 home 1 sites 1 groups 1 quotas 16 256 256 200
domain 2 home 1 sites 1 groups 1 quotas 16 256 256 200
# 3 events before
take 2 1 0
bad 2 1
# gap 5 events
open 1
""",
}

HELP = {
    "--version": "castd 0.1.0\n",
    "--help": """\
A group communication daemon

Usage: castd <COMMAND>

Commands:
  serve   Runs the daemon of a site
  check   Says what the daemon of a site would serve
  replay  Replays a script or a record and prints its log
  help    Print this message or the help of the given subcommand(s)

Options:
  -h, --help     Print help
  -V, --version  Print version
""",
    "replay --help": """\
Replays a script or a record and prints its log

Usage: castd replay [OPTIONS] <FILE>

Arguments:
  <FILE>  The script, or the folder of a record

Options:
      --until <N>   Replays the first N events alone
      --domain <D>  Replays one domain alone
  -h, --help        Print help
""",
    "serve --help": """\
Runs the daemon of a site

Usage: castd serve [OPTIONS] --site <site> <CONFIG>

Arguments:
  <CONFIG>  The configuration

Options:
      --site <site>        The number of the own site
      --workers <workers>  How many threads serve, 1 to 64 [default: 4]
      --keys <FILE>        The keys of the host, for sealed sites
      --record <DIR>       The folder to record each event in, as scripts that replay
  -h, --help               Print help
""",
    "check --help": """\
Says what the daemon of a site would serve

Usage: castd check --site <site> <CONFIG>

Arguments:
  <CONFIG>  The configuration

Options:
      --site <site>  The number of the own site
  -h, --help         Print help
""",
}

# What is not understood, and what is said of it.
FAULTS = {
    "": """\
'castd' requires a subcommand but one was not provided
  [subcommands: serve, check, replay, help]

Usage: castd <COMMAND>
""",
    "serve": """\
the following required arguments were not provided:
  --site <site>
  <CONFIG>

Usage: castd serve --site <site> <CONFIG>
""",
    "check castd.conf": """\
the following required arguments were not provided:
  --site <site>

Usage: castd check --site <site> <CONFIG>
""",
    "replay": """\
the following required arguments were not provided:
  <FILE>

Usage: castd replay <FILE>
""",
    "replay a b": "unexpected argument 'b' found\n\nUsage: castd replay [OPTIONS] <FILE>\n",
    "replay . --domain 0": "invalid value '0' for '--domain <D>': 0 is not in 1..=255\n",
    "replay . --domain 256": "invalid value '256' for '--domain <D>': 256 is not in 1..=255\n",
    "serve castd.conf --site 0": "invalid value '0' for '--site <site>': 0 is not in 1..=65535\n",
    "check castd.conf --site 65536": "invalid value '65536' for '--site <site>': 65536 is not in 1..=65535\n",
    "serve castd.conf --site 1 --workers 0": "invalid value '0' for '--workers <workers>': 0 is not in 1..=64\n",
    "serve castd.conf --site 1 --workers 65": "invalid value '65' for '--workers <workers>': 65 is not in 1..=64\n",
}

# What is understood, and ends since the file is not there.
MISSING = (
    "replay missing",
    "replay missing --until 18446744073709551615 --domain 255",
    "check missing --site 7",
    "serve missing --site 65535",
    "serve missing --site 1 --workers 64 --record there",
)


class Tenant(NamedTuple):
    """A domain with its home, a group and its quotas.

    Where the home is site 1, that site is alone in the views. Where it is site 9, site 2 has a member too.
    """

    number: int
    home: int
    group: int
    quotas: str

    def head(self) -> str:
        return f"domain {self.number} home {self.home} sites 1,2,9 groups {self.group},99 quotas {self.quotas}"

    def outbox(self) -> int:
        return int(self.quotas.split()[2])

    def event(self, turn: int) -> str:
        """Its event in a round: the site enters a view of the group, and then programs and sites do this and that."""
        entering = self.entering()
        return entering[turn] if turn < len(entering) else self.later(turn)

    def entering(self) -> list[str]:
        domain, group = f"{self.number:02x}", f"{self.group:04x}"
        joining = [f"open {self.number}", f"join {self.number} 1 0 {self.group}"]
        asked = f"frame 43440105{domain}{self.home:04x}{group}0000000100"
        if self.home == 1:
            return [
                *joining,
                f"frame 43440104{domain}0001{group}0000000101000100000001",
                asked,
                f"frame 4344010a{domain}0001{group}0000000101000100000001000000000100000000000000",
                f"frame 4344010b{domain}0001{group}00000001",
            ]
        members = "02000100000001000200000001"
        sent = f"{group}0000000201000200000001000000010000"
        return [
            *joining,
            asked,
            asked,
            f"frame 4344010a{domain}0009{group}00000002{members}000000000100000000000000",
            f"frame 43440101{domain}0002{group}00000002000200000001000000010101{sent}",
        ]

    def later(self, turn: int) -> str:
        number, group = self.number, self.group
        events = (
            f"cast {number} 1 {turn} {group} {turn:02x}",
            f"abcast {number} 1 {turn} {group} -",
            f"abcast {number} 1 {turn} {group} -",
            f"frame 43440102{number:02x}0002{group:04x}0000000200010000000100000001",
            f"take {number} 1 {group}",
            f"open {number}",
            f"join {number} 2 {turn} {group}",
            f"quota {number} held {turn}00",
            f"cast {number} 1 {turn} 9 -",
            f"take {number} 2 0",
            f"quota {number} outbox {group}",
            f"bad {number} 3",
            f"gone {number} 2",
        )
        return events[(number * 5 + turn) % len(events)]


TENANTS = (
    Tenant(16, 1, 1, "16 256 256 200"),
    Tenant(3, 9, 2, "16 256 256 200"),
    Tenant(255, 1, 3, "1 256 256 200"),
    Tenant(1, 9, 4, "2 1 256 200"),
    Tenant(77, 1, 5, "64 256 2 200"),
    Tenant(2, 9, 6, "16 256 3 200"),
    Tenant(101, 1, 7, "16 1 256 10"),
    Tenant(4, 9, 8, "16 1024 4096 10"),
    Tenant(5, 1, 9, "3 3 5 50"),
    Tenant(200, 9, 10, "3 4 8 60000"),
    Tenant(6, 1, 11, "16 5 13 100"),
    Tenant(254, 9, 12, "16 6 21 110"),
    Tenant(7, 1, 13, "2 7 34 120"),
    Tenant(128, 9, 14, "1 8 55 130"),
    Tenant(8, 1, 15, "64 9 1 140"),
    Tenant(99, 9, 16, "16 10 40 150"),
)


def script_of(tenants: Sequence[Tenant]) -> str:
    """The script of these domains, with ticks for the others' events, so that each has the same number."""
    lines = ["site 1", *(it.head() for it in TENANTS if it in tenants)]
    for turn in range(60):
        lines += [it.event(turn) if it in tenants else "tick 0" for it in TENANTS]
        lines.append(f"tick {10 * turn}")
    return "\n".join(lines) + "\n"


class ReplayCase(Case):
    def castd(self, line: str) -> tuple[int, str, str]:
        """The status that castd ends with in the folder of the test, what it prints, and what it says of errors."""
        how = {"stdin": subprocess.DEVNULL, "capture_output": True, "text": True, "timeout": 4 * PATIENCE}
        ran = subprocess.run(["castd", *line.split()], executable=PROGRAM, cwd=self.folder, check=False, **how)
        return ran.returncode, ran.stdout, ran.stderr

    def write(self, name: str, text: str) -> None:
        pathlib.Path(self.folder, name).write_text(text, encoding="utf-8")

    def replayed(self, script: str) -> list[str]:
        """The lines that a script prints."""
        self.write("it.script", script)
        status, printed, told = self.castd("replay it.script")
        self.assertEqual((status, told), (DONE, ""))
        return printed.splitlines()

    def assert_lines(self, lines: Sequence[str], wanted: Sequence[str]) -> None:
        for place, (line, other) in enumerate(zip(lines, wanted), 1):
            self.assertEqual(line, other, f"line {place}")
        self.assertEqual(len(lines), len(wanted))


class Scripts(ReplayCase):
    def test_each_of_five_thousand_events_is_printed_as_it_has_to_be(self):
        # A round has a cast, its acknowledgement twice, and time twice. The cast is answered and delivered, and sent to
        # site 2, which is told that it is stable as often as it acknowledges it. Nothing is owed then, so time sends
        # nothing.
        script, pushes, frames = SET_UP, SET_UP_PUSHES, SET_UP_FRAMES
        for number in range(1, 1_001):
            message = f"000100000002000100000001{number:08x}"
            script += f"cast 1 1 {number} 1 -\n" + 2 * f"frame 43440102010002{message}\n" + 2 * f"tick {number}\n"
            pushes += f"push 1 1 reply {number} 0\npush 1 1 deliver 1/2/1.1/{number} causal -\n"
            frames += f"send 1 2 43440101010001{message}010100010000000201000100000001{number:08x}0000\n"
            frames += 2 * f"send 1 2 43440103010001{message}\n"
        self.assertEqual(len(script.splitlines()), 5_006)
        self.assert_lines(self.replayed(script), (pushes + frames).splitlines())

    def test_of_each_of_sixteen_domains_is_printed_what_it_prints_alone(self):
        def number_of(answer: str) -> int:
            return int(answer.split()[1])

        answers, others = [], []
        for tenant in TENANTS:
            lines = self.replayed(script_of([tenant]))
            answered = [line for line in lines if line.startswith("event ")]
            self.assertTrue(answered, tenant)
            # The view is the third push.
            views = [line for line in lines if line.startswith(f"push {tenant.number} 1 view {tenant.group} ")]
            self.assertEqual(len(views), int(tenant.outbox() > 2), tenant)
            answers += answered
            others += [line for line in lines if not line.startswith("event ")]
        lines = self.replayed(script_of(TENANTS))
        self.assert_lines(lines, sorted(answers, key=number_of) + others)


class Records(ReplayCase):
    def setUp(self) -> None:
        super().setUp()
        for name, text in RECORD.items():
            self.write(name, text)

    def test_a_record_is_replayed_up_to_its_gap(self):
        printed = """\
event 4 refused 15
push 1 1 opened 1.1
push 1 1 closed 1
push 2 1 opened 1.1
push 2 1 closed 1
"""
        told = "castd: the record lacks what came after event 5\n"
        self.assertEqual(self.castd("replay ."), (DONE, printed, told))

    def test_its_first_events_alone_are_replayed(self):
        printed = "push 1 1 opened 1.1\npush 1 1 closed 1\npush 2 1 opened 1.1\n"
        self.assertEqual(self.castd("replay . --until 3"), (DONE, printed, ""))

    def test_one_domain_alone_is_replayed(self):
        printed = "event 2 refused 15\npush 2 1 opened 1.1\npush 2 1 closed 1\n"
        told = "castd: the record lacks what came after event 5\n"
        self.assertEqual(self.castd("replay . --domain 2"), (DONE, printed, told))


class Words(ReplayCase):
    def test_help_and_the_version_are_printed(self):
        for line, text in HELP.items():
            with self.subTest(line):
                self.assertEqual(self.castd(line), (DONE, text, ""))

    def test_what_is_not_understood_is_said(self):
        for line, fault in FAULTS.items():
            with self.subTest(line):
                told = f"error: {fault}\nFor more information, try '--help'.\n"
                self.assertEqual(self.castd(line), (USAGE, "", told))

    def test_a_file_that_is_not_there_is_named(self):
        for line in MISSING:
            with self.subTest(line):
                self.assertEqual(self.castd(line), (UNREADABLE, "", "castd: cannot read missing\n"))

    def test_the_greatest_site_is_checked(self):
        domain = 'number = 1\nhome = 65535\nsites = [65535]\ngroups = [1]\nsocket = "castd.sock"\n'
        self.write("castd.conf", f'[[site]]\nnumber = 65535\naddress = "127.0.0.1:7001"\n[[domain]]\n{domain}')
        printed = """\
site 65535
domain 1 home 65535 sites 65535 groups 1 quotas 16 256 256 200
# site 65535 address 127.0.0.1:7001
# domain 1 socket castd.sock
"""
        self.assertEqual(self.castd("check castd.conf --site 65535"), (DONE, printed, ""))
