"""castd-conf: what it makes, castd serves; what it finds at fault, castd refuses with its own words."""

from __future__ import annotations

import json
import os
import pathlib
import random
import re
import subprocess
import sys
import tomllib
from collections.abc import Iterable

from dist import need
from harness import PATIENCE, PROGRAM, TESTS, TOOLS, Case, Failed, Tool, castd, wait_for_push, wait_for_view

from castd_tools import configuration

REFUSED = 6
UNBOUND = 7

SITES = """\
[[site]]
number = 1
address = "127.0.0.1:7001"
[[site]]
number = 2
address = "127.0.0.2:7002"
"""
DOMAIN = """\
[[domain]]
number = 1
home = 1
sites = [1, 2]
groups = [1, 2]
socket = "FOLDER/one.sock"
"""
OTHER_DOMAIN = DOMAIN.replace("number = 1", "number = 2").replace("one.sock", "other.sock")
GOOD = SITES + DOMAIN

# What castd refuses: the text, and how a finding begins. castd names the field that stands behind the table.
FAULTS = {
    "not toml": (GOOD + "=", "text: not TOML"),
    "no sites": (DOMAIN, "the document: site: missing"),
    "sites that are no tables": ("site = 1\n" + DOMAIN, "site: not tables"),
    "no domains": (SITES, "the document: domain: missing"),
    "domains that are no tables": ("domain = [1]\n" + SITES, "domain: not tables"),
    "an empty array of domains": ("domain = []\n" + SITES, "the document: domain: 0 of them"),
    "17 domains": (
        SITES + "".join(DOMAIN.replace("number = 1", f"number = {n}").replace("one", f"{n}") for n in range(1, 18)),
        "the document: domain: 17 of them",
    ),
    "a site without a number": (GOOD.replace("number = 1\naddress", "address", 1), "site table 1: number: missing"),
    "a site of another kind of number": (GOOD.replace("number = 2", "number = 2.0"), "site table 2: number: not"),
    "a site with a truth": (GOOD.replace("number = 2", "number = true"), "site table 2: number: not a whole number"),
    "site 0": (GOOD.replace("number = 2", "number = 0"), "site table 2: number: 0 is not 1 to 65535"),
    "site 65536": (GOOD.replace("number = 2", "number = 65536"), "site table 2: number: 65536 is not"),
    "a site without an address": (GOOD.replace('address = "127.0.0.2:7002"\n', ""), "site 2: address: missing"),
    "a site whose address is a number": (GOOD.replace('"127.0.0.2:7002"', "7002"), "site 2: address: not a text"),
    "seals of another kind": (SITES + "sealed = 1\n" + DOMAIN, "site 2: sealed: not a boolean"),
    "two sites of one number": (GOOD.replace("number = 2", "number = 1"), "site 1: number: repeated"),
    "domain 0": (SITES + DOMAIN.replace("number = 1", "number = 0"), "domain table 1: number: 0 is not 1 to 255"),
    "domain 256": (SITES + DOMAIN.replace("number = 1", "number = 256"), "domain table 1: number: 256 is not"),
    "two domains of one number": (GOOD + DOMAIN.replace("one", "two"), "domain 1: number: repeated"),
    "no home": (GOOD.replace("home = 1\n", ""), "domain 1: home: missing"),
    "home 0": (GOOD.replace("home = 1", "home = 0"), "domain 1: home: 0 is not 1 to 65535"),
    "a home that is none of its sites": (GOOD.replace("home = 1", "home = 3"), "domain 1: home: 3 is not one of"),
    "sites that are one number": (GOOD.replace("[1, 2]", "1", 1), "domain 1: sites: not an array"),
    "no site": (GOOD.replace("sites = [1, 2]", "sites = []"), "domain 1: sites: 0 of them"),
    "17 sites": (GOOD.replace("sites = [1, 2]", f"sites = {list(range(1, 18))}"), "domain 1: sites: 17 of them"),
    "a site twice": (GOOD.replace("sites = [1, 2]", "sites = [1, 2, 1]"), "domain 1: sites: a number is repeated"),
    "a site that is not listed": (GOOD.replace("sites = [1, 2]", "sites = [1, 3]"), "domain 1: sites: site 3 is not"),
    "no group": (GOOD.replace("groups = [1, 2]", "groups = []"), "domain 1: groups: 0 of them"),
    "33 groups": (GOOD.replace("groups = [1, 2]", f"groups = {list(range(1, 34))}"), "domain 1: groups: 33 of them"),
    "group 0": (GOOD.replace("groups = [1, 2]", "groups = [0]"), "domain 1: groups: 0 is not 1 to 65535"),
    "a group with a name": (GOOD.replace("groups = [1, 2]", 'groups = ["a"]'), "domain 1: groups: not a whole number"),
    "a group twice": (GOOD.replace("groups = [1, 2]", "groups = [2, 2]"), "domain 1: groups: a number is repeated"),
    "no socket": (GOOD.replace('socket = "FOLDER/one.sock"\n', ""), "domain 1: socket: missing"),
    "a socket that is a number": (GOOD.replace('"FOLDER/one.sock"', "1"), "domain 1: socket: not a text"),
    "65 sessions": (GOOD + "sessions = 65", "domain 1: sessions: 65 is not 1 to 64"),
    "no room for messages": (GOOD + "held = 0", "domain 1: held: 0 is not 1 to 1024"),
    "a great outbox": (GOOD + "outbox = 4097", "domain 1: outbox: 4097 is not 1 to 4096"),
    "a short time": (GOOD + "resend = 9", "domain 1: resend: 9 is not 10 to 60000"),
    "a network that is no table": ("network = true\n" + GOOD, "network: not a table [network]"),
    "two tables of the network": (GOOD + 2 * "[[network]]\nbundle = true\n", "network: not a table [network]"),
    "a bundle of another kind": (GOOD + "[network]\nbundle = 1", "network: bundle: not a boolean"),
    "a datagram of another kind": (GOOD + "[network]\ndatagram = 512.0", "network: datagram: not a whole number"),
    "a datagram with a truth": (GOOD + "[network]\ndatagram = true", "network: datagram: not a whole number"),
    "a short datagram": (GOOD + "[network]\ndatagram = 511", "network: datagram: 511 is not 512 to 60000"),
    "a long datagram": (GOOD + "[network]\nbundle = true\ndatagram = 60001", "network: datagram: 60001 is not"),
    "no bundles, and a short datagram": (GOOD + "[network]\nbundle = false\ndatagram = 0", "network: datagram: 0 is"),
    "a delay of another kind": (GOOD + '[network]\ndelay = "300"', "network: delay: not a whole number"),
    "a delay with a truth": (GOOD + "[network]\ndelay = false", "network: delay: not a whole number"),
    "a delay below none": (GOOD + "[network]\ndelay = -1", "network: delay: -1 is not 0 to 1000000"),
    "a long delay": (GOOD + "[network]\nbundle = true\ndelay = 1000001", "network: delay: 1000001 is not 0 to"),
}

# What castd does not refuse with status 6: the text, the finding, and the status of castd, None where it serves.
KNOWLEDGE = {
    "an unknown key of the document": ("title = 1\n" + GOOD, "the document: title: unknown", None),
    "an unknown key of a site": (SITES + "port = 1\n" + DOMAIN, "site 2: port: unknown", None),
    "a site without seals": (
        SITES + "sealed = true\n" + DOMAIN,
        "site 1: sealed: others are, and it is not: who can send from its address passes for it",
        None,
    ),
    "an unknown key of a domain": (GOOD + "quota = 1", "domain 1: quota: unknown", None),
    "an unknown key of the network": (GOOD + "[network]\nbundles = true", "network: bundles: unknown", None),
    "a name for an address": (GOOD.replace("127.0.0.2", "localhost"), "site 2: address: localhost is a name", None),
    "no port": (GOOD.replace("127.0.0.2:7002", "127.0.0.2"), "site 2: address: '127.0.0.2' is not host:port", UNBOUND),
    "port 65536": (GOOD.replace(":7002", ":65536"), "site 2: address: '127.0.0.2:65536' is not host:port", UNBOUND),
    "no host": (GOOD.replace("127.0.0.2:", ":"), "site 2: address: ':7002' is not host:port", UNBOUND),
    "any address": (GOOD.replace("127.0.0.2", "0.0.0.0"), "site 2: address: 0.0.0.0 is not the address of one", None),
    "many addresses": (GOOD.replace("127.0.0.2", "224.0.0.1"), "site 2: address: 224.0.0.1 is not the address", None),
    "a port of root": (GOOD.replace(":7002", ":702"), "site 2: address: the user castd may not use a port below", None),
    "one address twice": (GOOD.replace("127.0.0.2:7002", "127.0.0.1:7001"), "site 2: address: 127.0.0.1:7001 is", None),
    "one address in two spellings": (
        GOOD.replace("127.0.0.2:7002", "[::1]:7001").replace("127.0.0.1:7001", "[0::1]:7001"),
        "site 2: address: [::1]:7001 is the address of site 1 too",
        None,
    ),
    "two kinds of addresses": (GOOD.replace("127.0.0.2", "[::1]"), "domain 1: sites: some have IPv4 and", None),
    "an address of this machine": (
        GOOD.replace("127.0.0.2", "192.0.2.2"),
        "domain 1: sites: some have addresses of this machine alone",
        None,
    ),
    "a host with one number": (GOOD.replace("127.0.0.2", "192.0.2.2"), "site 2: no other number has its host", None),
    "one socket twice": (GOOD + OTHER_DOMAIN.replace("other", "one"), "domain 2: socket: FOLDER/one.sock is", UNBOUND),
    "one socket in two spellings": (
        GOOD + OTHER_DOMAIN.replace("other", "./one"),
        "domain 2: socket: FOLDER/./one.sock is the socket of domain 1 too",
        UNBOUND,
    ),
    "a path that is not whole": (GOOD.replace("FOLDER/one.sock", "one.sock"), "domain 1: socket: one.sock stand", None),
    "a path that is too long": (GOOD.replace("one.sock", "s" * 100), "domain 1: socket: a path of ", UNBOUND),
    "no path": (GOOD.replace("FOLDER/one.sock", ""), "domain 1: socket: without a path, no program finds it", None),
    "the path of a folder": (GOOD.replace("one.sock", "one/"), "domain 1: socket: no socket can have this", UNBOUND),
    "a site in no domain": (
        GOOD.replace("sites = [1, 2]", "sites = [1]"),
        "site 2: it is in no domain: castd does not serve it",
        None,
    ),
}

PLAN = {
    "hosts": ["127.0.0.1", "127.0.0.2", "127.0.0.3"],
    "generations": 5,
    "domain": [{"number": 1, "home": "127.0.0.2", "groups": [1, 2], "socket": "FOLDER/orders.sock", "held": 512}],
}
# A domain of the third host alone.
OTHER_PLANNED = {"number": 2, "hosts": ["127.0.0.3"], "home": "127.0.0.3", "groups": [7], "socket": "FOLDER/other.sock"}


def run(*words: str) -> subprocess.CompletedProcess:
    return run_command(str(TOOLS / "castd-conf"), *words)


def run_command(*words: str, **how) -> subprocess.CompletedProcess:
    return subprocess.run(words, capture_output=True, text=True, timeout=PATIENCE, check=False, **how)


class Daemon(Tool):
    """A daemon of a configuration, which may be refused."""

    def __init__(self, case: Case, config: str, site: int, folder: str):
        super().__init__([PROGRAM, "serve", config, "--site", str(site)], folder, cwd=folder)
        case.addCleanup(self.end)

    def status(self) -> int | None:
        """How it ends. None where it serves; then it is stopped."""
        try:
            self.line(PATIENCE)
        except Failed:
            return self.process.wait(PATIENCE)
        self.say("stop\n")
        return self.process.wait(PATIENCE) or None


class ConfigurationCase(Case):
    def written(self, text: str, name: str = "castd.conf") -> str:
        path = f"{self.folder}/{name}"
        pathlib.Path(path).write_text(text.replace("FOLDER", self.folder), encoding="utf-8")
        return path

    def planned(self, plan: dict) -> str:
        """Writes a plan."""
        fields = {name: value for name, value in plan.items() if name != "domain" and not isinstance(value, dict)}
        tables = [("", fields), *(("[[domain]]\n", table) for table in plan.get("domain", []))]
        tables += [(f"[{name}]\n", table) for name, table in plan.items() if isinstance(table, dict)]
        text = ""
        for head, table in tables:
            text += head + "".join(f"{name} = {json.dumps(value)}\n" for name, value in table.items())
        return self.written(text, "plan.toml")

    def made(self, plan: dict) -> str:
        """The file of the configuration that a plan makes."""
        ran = run("make", self.planned(plan))
        self.assertEqual((ran.returncode, ran.stderr), (0, ""))
        return self.written(ran.stdout)

    def assert_found(self, path: str, wanted: Iterable[str]) -> None:
        """The lint finds one line for each of these, which begins so."""
        ran = run("lint", path)
        lines = [line.removeprefix(f"{path}: ") for line in ran.stdout.splitlines()]
        for beginning in wanted:
            self.assertTrue(any(line.startswith(beginning) for line in lines), f"{beginning!r} is not in {lines}")
        self.assertEqual(ran.returncode, 1 if wanted else 0, ran.stdout)


class Lint(ConfigurationCase):
    def test_finds_nothing_in_what_is_good(self):
        for network in (
            "",
            "[network]\n",
            "[network]\nbundle = true\n",
            "[network]\nbundle = true\ndatagram = 60000\n",
            "[network]\ndelay = 0\n",
            "[network]\nbundle = true\ndelay = 1000000\n",
        ):
            with self.subTest(network):
                path = self.written(GOOD + network)
                self.assert_found(path, [])
                self.assertIsNone(Daemon(self, path, 1, self.folder).status())

    def test_a_byte_order_mark_says_nothing_to_castd_nor_to_its_tools(self):
        path = self.written("\ufeff" + GOOD)
        self.assert_found(path, [])
        self.assertIsNone(Daemon(self, path, 1, self.folder).status())
        self.assertEqual(configuration.read(path), configuration.parse(GOOD.replace("FOLDER", self.folder)))

    def test_finds_what_castd_refuses_at_the_field_that_castd_names(self):
        for name, (text, finding) in FAULTS.items():
            with self.subTest(name):
                path = self.written(text)
                daemon = Daemon(self, path, 1, self.folder)
                self.assertEqual(daemon.status(), REFUSED)
                (field,) = re.findall(r"^castd: config: (\w+): ", daemon.complained())
                self.assertIn(f"{field}: ", f"{finding}: ")
                self.assert_found(path, [finding])

    def test_finds_what_an_operator_should_know(self):
        for name, (text, finding, status) in KNOWLEDGE.items():
            with self.subTest(name):
                path = self.written(text)
                self.assertEqual(Daemon(self, path, 1, self.folder).status(), status)
                self.assert_found(path, [finding.replace("FOLDER", self.folder)])

    def test_finds_all_at_once(self):
        text = GOOD.replace("number = 2", "number = 0") + "held = 0\nother = 1\n"
        self.assert_found(self.written(text), ["site table 2: number", "domain 1: held", "domain 1: other"])

    def test_says_what_cannot_be_read(self):
        latin = self.written("")
        pathlib.Path(latin).write_bytes(b"# \xff\n")
        for path in (f"{self.folder}/none", self.folder, latin):
            with self.subTest(path):
                ran = run("lint", path)
                self.assertEqual((ran.returncode, ran.stdout), (3, ""))
                self.assertIn(path, ran.stderr)

    def test_says_how_it_is_used(self):
        for words in ([], ["lint"], ["lint", "a", "b"], ["other"], ["next", "a"], ["next", "a", "--site", "0"]):
            with self.subTest(words):
                ran = run(*words)
                self.assertEqual(ran.returncode, 2)
                self.assertIn("usage: castd-conf", ran.stderr)


class Check(ConfigurationCase):
    """castd itself says what it would serve."""

    def check(self, text: str, command: str = "check", site: int = 2) -> subprocess.CompletedProcess:
        path = pathlib.Path(f"{self.folder}/checked.conf")
        path.write_text(text)
        words = [PROGRAM, command, str(path), "--site", str(site)]
        how = {"stdin": subprocess.DEVNULL, "capture_output": True, "text": True, "timeout": PATIENCE}
        return subprocess.run(words, check=False, **how)

    def test_says_it_as_the_first_lines_of_a_script(self):
        ran = self.check(GOOD)
        self.assertEqual((ran.returncode, ran.stderr), (0, ""))
        lines = [
            "site 2",
            "domain 1 home 1 sites 1,2 groups 1,2 quotas 16 256 256 200",
            "# site 1 address 127.0.0.1:7001",
            "# site 2 address 127.0.0.2:7002",
            "# domain 1 socket FOLDER/one.sock",
        ]
        self.assertEqual(ran.stdout.splitlines(), lines)
        script = pathlib.Path(f"{self.folder}/checked.script")
        script.write_text(ran.stdout)
        replay = subprocess.run([PROGRAM, "replay", str(script)], capture_output=True, timeout=PATIENCE, check=False)
        self.assertEqual((replay.returncode, replay.stdout, replay.stderr), (0, b"", b""))

    def test_names_the_first_fault(self):
        site = SITES.partition("[[site]]\nnumber = 2")[0]
        domain = DOMAIN.replace("[1, 2]", "[1]", 1).partition("groups")[0]
        rest = 'groups = [2, 1]\nsocket = "/tmp/one.sock"\n'
        for text, number, fault in (
            ("[[", 1, "text: not toml"),
            (domain + rest, 1, "site: missing"),
            ("site = 1\n" + domain + rest, 1, "site: wrong kind"),
            (site, 1, "domain: missing"),
            ("[[site]]\nnumber = 0\n" + domain + rest, 1, "number: out of range"),
            ("[[site]]\nnumber = 1\naddress = 7\n" + domain + rest, 1, "address: wrong kind"),
            ("[[site]]\nnumber = 1\naddress = \"a\"\nsealed = 0\n" + domain + rest, 1, "sealed: wrong kind"),
            (site + site + domain + rest, 1, "number: repeated"),
            (site + domain + rest, 2, "site: not listed"),
            ("domain = []\n" + site, 1, "domain: out of range"),
            (site + domain + rest + "held = 0\n", 1, "held: out of range"),
            (site + domain + rest.replace("[2, 1]", "[1, 1]"), 1, "groups: repeated"),
            (site + domain + rest.replace("[2, 1]", "[]"), 1, "groups: out of range"),
            (site + domain.replace("home = 1\n", "") + rest, 1, "home: missing"),
            (site + domain.replace("home = 1", "home = 2") + rest, 1, "home: not listed"),
            (site + domain.replace("sites = [1]", "sites = [1, 2]") + rest, 1, "sites: not listed"),
            (site + 2 * (domain + rest), 1, "number: repeated"),
            ("network = 1\n" + site + domain + rest, 1, "network: wrong kind"),
            (site + domain + rest + '[network]\nbundle = "true"\ndatagram = 0\n', 1, "bundle: wrong kind"),
            (site + domain + rest + "[network]\nbundle = true\ndatagram = true\n", 1, "datagram: wrong kind"),
            (site + domain + rest + "[network]\nbundle = true\ndatagram = 60001\n", 1, "datagram: out of range"),
            (site + domain + rest + "[network]\nbundle = false\ndatagram = 511\n", 1, "datagram: out of range"),
            (site + domain + rest + "[network]\ndatagram = -512\n", 1, "datagram: out of range"),
            (site + domain + rest + "[network]\ndelay = 300.0\n", 1, "delay: wrong kind"),
            (site + domain + rest + "[network]\nbundle = true\ndelay = true\n", 1, "delay: wrong kind"),
            (site + domain + rest + "[network]\ndelay = -1\n", 1, "delay: out of range"),
            (site + domain + rest + "[network]\nbundle = true\ndelay = 1000001\n", 1, "delay: out of range"),
            # The delay is looked at behind the datagram.
            (site + domain + rest + '[network]\ndelay = "1"\ndatagram = 511\n', 1, "datagram: out of range"),
            # The network is looked at last.
            ("network = 1\n" + site + site.replace("= 1", "= 2", 1) + domain + rest, 2, "domain: out of range"),
        ):
            with self.subTest(fault):
                ran = self.check(text, site=number)
                self.assertEqual((ran.returncode, ran.stdout, ran.stderr), (REFUSED, "", f"castd: config: {fault}\n"))
        for network, told in (
            ("", ""),
            ("bundle = true\ndatagram = 512\n", "# bundles of at most 512 bytes\n"),
            ("bundle = true\n", "# bundles of at most 8972 bytes\n"),
            ("bundle = false\n", ""),
            ("delay = 1000000\n", "# casts queue for 1000000 microseconds\n"),
        ):
            with self.subTest(network):
                ran = self.check(site + domain + rest + "[network]\n" + network, site=1)
                self.assertIn("domain 1 home 1 sites 1 groups 1,2 quotas 16 256 256 200\n", ran.stdout)
                self.assertEqual(ran.stdout.partition("# domain 1 socket /tmp/one.sock\n")[2], told)

    def test_refuses_what_is_not_served_in_the_same_words(self):
        for text in (GOOD.replace("home = 1", "home = 3"), SITES, GOOD + "="):
            with self.subTest(text):
                checked, served = self.check(text), self.check(text, "serve")
                self.assertEqual((checked.returncode, checked.stdout), (REFUSED, ""))
                self.assertEqual((checked.returncode, checked.stderr), (served.returncode, served.stderr))


class Make(ConfigurationCase):
    def test_makes_what_castd_serves_and_lint_passes(self):
        path = self.made(PLAN)
        self.assert_found(path, [])
        for site in (101, 203, 503):
            self.assertIsNone(Daemon(self, path, site, self.folder).status())

    def test_gives_each_host_a_number_and_a_port_in_each_generation(self):
        document = tomllib.loads(pathlib.Path(self.made(PLAN)).read_text())
        numbers = [site["number"] for site in document["site"]]
        self.assertEqual(numbers, [100 * generation + host for generation in range(1, 6) for host in (1, 2, 3)])
        ports = [int(site["address"].rpartition(":")[2]) for site in document["site"]]
        self.assertEqual(ports, list(range(7001, 7016)))
        hosts = {site["number"]: site["address"].rpartition(":")[0] for site in document["site"]}
        self.assertEqual({hosts[number] for number in numbers if number % 100 == 3}, {"127.0.0.3"})
        (domain,) = document["domain"]
        self.assertEqual((domain["home"], domain["sites"], domain["held"]), (102, numbers, 512))

    def test_makes_later_generations_and_domains_of_some_hosts(self):
        other = {**OTHER_PLANNED, "socket": "FOLDER/b \\\" é\x7f"}
        later = {"first_generation": 6, "generations": 2, "first_port": 9001}
        path = self.made({**PLAN, **later, "domain": [*PLAN["domain"], other]})
        document = tomllib.loads(pathlib.Path(path).read_text())
        self.assertEqual(document["domain"][0]["home"], 602)
        self.assertEqual(document["domain"][1]["sites"], [603, 703])
        self.assertEqual(document["domain"][1]["socket"], other["socket"].replace("FOLDER", self.folder))
        self.assertEqual(document["site"][0], {"number": 601, "address": "127.0.0.1:9001"})
        self.assertIsNone(Daemon(self, path, 703, self.folder).status())

    def test_carries_the_network_of_a_plan_over(self):
        for network in ({"bundle": True, "datagram": 1472}, {"bundle": False}, {"bundle": True, "delay": 300}):
            with self.subTest(network):
                path = self.made({**PLAN, "network": network})
                self.assertEqual(tomllib.loads(pathlib.Path(path).read_text())["network"], network)
                self.assertIsNone(Daemon(self, path, 203, self.folder).status())
        for plan in (PLAN, {**PLAN, "network": {}}):
            self.assertNotIn("network", tomllib.loads(pathlib.Path(self.made(plan)).read_text()))

    def test_seals_the_sites_of_sealed_hosts(self):
        for sealed, wanted in (
            (True, {1, 2, 3}),
            (False, set()),
            (["127.0.0.3", "127.0.0.1"], {1, 3}),
        ):
            with self.subTest(sealed):
                path = self.made({**PLAN, "cluster": "trade", "sealed": sealed})
                sites = tomllib.loads(pathlib.Path(path).read_text())["site"]
                self.assertEqual({site["number"] % 100 for site in sites if site.get("sealed") is True}, wanted)
                self.assertEqual(sum("sealed" in site for site in sites), 5 * len(wanted))
                plain = [f"site {g}02: sealed: others are" for g in range(1, 6)] if len(wanted) == 2 else []
                self.assert_found(path, plain)
                if not sealed:
                    self.assertIsNone(Daemon(self, path, 203, self.folder).status())

    def test_refuses_a_plan_at_fault(self):
        domain = PLAN["domain"][0]
        faults = {
            "18 sites": ({**PLAN, "generations": 6}, "18 sites, and a domain has 16 at most: 5 generations fit"),
            "17 hosts": (
                {**PLAN, "hosts": [f"127.0.0.{n}" for n in range(1, 18)], "generations": 1},
                "17 sites, and a domain has 16 at most: 16 hosts fit",
            ),
            "an unknown key": ({**PLAN, "port": 1}, "the plan: port: unknown"),
            "no cluster": ({**PLAN, "sealed": True}, "the plan: cluster: missing"),
            "seals of another kind": ({**PLAN, "sealed": "all"}, "the plan: sealed: not a boolean"),
            "another host sealed": (
                {**PLAN, "cluster": "trade", "sealed": ["127.0.0.9"]},
                "the plan: sealed: 127.0.0.9 is not one of the plan's hosts",
            ),
            "no host sealed": ({**PLAN, "cluster": "trade", "sealed": []}, "the plan: sealed: hosts: 0 of them"),
            "an unknown key of a domain": ({**PLAN, "domain": [{**domain, "sites": [1]}]}, "domain 1: sites: unknown"),
            "no hosts": ({**PLAN, "hosts": []}, "the plan: hosts: 0 of them"),
            "one host": ({**PLAN, "hosts": "127.0.0.1"}, "the plan: hosts: not an array of texts"),
            "a host twice": ({**PLAN, "hosts": ["127.0.0.1", "127.0.0.1"]}, "the plan: hosts: one is repeated"),
            "another home": ({**PLAN, "domain": [{**domain, "home": "127.0.0.9"}]}, "127.0.0.9 is not one of the plan"),
            "a home elsewhere": (
                {**PLAN, "domain": [{**domain, "hosts": ["127.0.0.1"]}]},
                "domain 1: home: 127.0.0.2 is not one of its hosts",
            ),
            "a name": ({**PLAN, "hosts": ["localhost", *PLAN["hosts"][1:]]}, "localhost is a name"),
            "ports past the last": ({**PLAN, "first_port": 65530}, "the plan: first_port: 65530 is not"),
            "numbers past the last": ({**PLAN, "first_generation": 653}, "the plan: first_generation: 653 is not"),
            "no generations": ({key: PLAN[key] for key in ("hosts", "domain")}, "the plan: generations: missing"),
            "no domains": ({key: PLAN[key] for key in ("hosts", "generations")}, "domain: missing"),
            "a quota out of range": ({**PLAN, "domain": [{**domain, "held": 0}]}, "domain 1: held: 0 is not 1 to 1024"),
            "a network that is no table": ({**PLAN, "network": 1}, "network: not a table [network]"),
            "an unknown key of the network": ({**PLAN, "network": {"size": 1}}, "network: size: unknown"),
            "a bundle of another kind": ({**PLAN, "network": {"bundle": 1}}, "network: bundle: not a boolean"),
            "a datagram out of range": ({**PLAN, "network": {"datagram": 511}}, "network: datagram: 511 is not 512 to"),
            "a delay out of range": ({**PLAN, "network": {"delay": 1000001}}, "network: delay: 1000001 is not 0 to"),
        }
        for name, (plan, text) in faults.items():
            with self.subTest(name):
                path = self.planned(plan)
                ran = run("make", path)
                self.assertEqual((ran.returncode, ran.stdout), (1, ""))
                self.assertIn(f"castd-conf: {path}: ", ran.stderr)
                self.assertIn(text, ran.stderr)


class Keys(ConfigurationCase):
    SEALED = {**PLAN, "cluster": "trade", "sealed": ["127.0.0.1", "127.0.0.3"]}

    def setUp(self):
        super().setUp()
        self.to = f"{self.folder}/keys"
        os.mkdir(self.to)

    def master(self, byte: int) -> str:
        path = f"{self.folder}/master-{byte}"
        pathlib.Path(path).touch(0o600)
        return self.written(f"{byte:064x}\n", f"master-{byte}")

    def keys(self, plan: dict, *masters: str) -> subprocess.CompletedProcess:
        words = [word for master in masters for word in ("--master", master)]
        return run("keys", self.planned(plan), *words, "--to", self.to)

    def made_keys(self, *masters: str) -> dict[str, list[dict]]:
        """The keys of each host."""
        ran = self.keys(self.SEALED, *masters)
        self.assertEqual((ran.returncode, ran.stdout, ran.stderr), (0, "", ""))
        found = {}
        for path in pathlib.Path(self.to).iterdir():
            self.assertEqual(path.stat().st_mode & 0o7777, 0o600)
            found[path.name.removesuffix(".keys")] = tomllib.loads(path.read_text())["key"]
        return found

    def test_gives_each_pair_of_sealed_hosts_a_key_that_no_other_has(self):
        keys = self.made_keys(self.master(1))
        self.assertEqual(keys.keys(), {"127.0.0.1", "127.0.0.3"})
        secrets = {(host, key["host"]): key["secret"] for host, its in keys.items() for key in its}
        self.assertEqual(len(secrets), 4)
        self.assertEqual(secrets["127.0.0.1", "127.0.0.3"], secrets["127.0.0.3", "127.0.0.1"])
        self.assertEqual(len(set(secrets.values())), 3)
        for its in keys.values():
            sites = {key["host"]: key["sites"] for key in its}
            self.assertEqual(sites, {f"127.0.0.{host}": [100 * g + host for g in range(1, 6)] for host in (1, 3)})

    def test_accepts_keys_of_a_second_master_behind_those_of_the_first(self):
        old, new = self.master(1), self.master(2)
        first = self.made_keys(old)["127.0.0.1"]
        both = self.made_keys(new, old)["127.0.0.1"]
        self.assertEqual([key["host"] for key in both], ["127.0.0.1", "127.0.0.1", "127.0.0.3", "127.0.0.3"])
        self.assertEqual(both[1::2], first)
        self.assertEqual(both[::2], self.made_keys(new)["127.0.0.1"])
        self.assertEqual(len({key["number"] for key in both}), 2)

    def test_refuses_what_makes_no_keys(self):
        master = self.master(1)
        public = self.written("1" * 64, "public")
        os.chmod(public, 0o644)
        for plan, masters, text in (
            (PLAN, [master], "the plan: sealed: no host is"),
            (self.SEALED, [public], f"{public}: others than its user can use it"),
            (self.SEALED, [master, master], f"{master}: its keys have the number of those of {master}"),
            (self.SEALED, [master, self.master(2), self.master(3)], "3 masters: there are 1 to 2"),
            ({**self.SEALED, "hosts": ["a/b", "c"], "sealed": ["a/b"]}, [master], "no file can have the name of 'a/b'"),
        ):
            with self.subTest(text):
                ran = self.keys(plan, *masters)
                self.assertEqual((ran.returncode, ran.stdout), (1, ""))
                self.assertIn(text, ran.stderr)
                self.assertEqual(os.listdir(self.to), [])
        self.to = f"{self.folder}/none"
        ran = self.keys(self.SEALED, master)
        self.assertEqual((ran.returncode, ran.stdout), (3, ""))
        self.assertIn(f"{self.to}: No such file", ran.stderr)


class Next(ConfigurationCase):
    def setUp(self):
        super().setUp()
        self.state = f"{self.folder}/state"
        os.mkdir(self.state)
        self.config = self.made(PLAN)

    def note(self, *sites: int) -> None:
        for site in sites:
            pathlib.Path(f"{self.state}/site-{site}").touch()

    def next(self, site: int, state: str = "") -> tuple[int, str]:
        ran = run("next", self.config, "--site", str(site), "--state", state or self.state)
        self.said = ran.stderr
        return ran.returncode, ran.stdout

    def test_gives_the_least_number_of_the_host_that_was_not_used(self):
        self.assertEqual(self.next(101), (0, "101\n"))
        self.note(101, 102, 201, 303)
        self.assertEqual(self.next(101), (0, "301\n"))
        self.assertEqual(self.next(203), (0, "103\n"))
        self.assertEqual(self.said, "")

    def test_tells_that_a_home_cannot_go_on(self):
        self.assertEqual((*self.next(102), self.said), (0, "102\n", ""))
        self.note(102)
        self.assertEqual(self.next(102), (0, "202\n"))
        self.assertIn("domain 1: site 102 is its home: all its daemons start anew", self.said)

    def test_passes_over_numbers_of_other_domains(self):
        text = pathlib.Path(self.made({**PLAN, "domain": [*PLAN["domain"], OTHER_PLANNED]})).read_text()
        self.config = self.written(text.replace("sites = [103, 203, ", "sites = [103, "))
        self.note(103, 203)
        self.assertEqual(self.next(103), (0, "303\n"))
        self.assertEqual(self.next(203), (1, ""))

    def test_says_that_none_is_left(self):
        self.note(*(100 * generation + 1 for generation in range(1, 6)))
        self.assertEqual(self.next(101), (1, ""))
        self.assertIn("no unused number has the host and the domains of site 101", self.said)

    def test_says_that_the_site_or_the_state_is_missing(self):
        self.assertEqual(self.next(999), (1, ""))
        self.assertIn("site 999 is not listed", self.said)
        self.assertEqual(self.next(101, f"{self.folder}/none"), (3, ""))
        self.assertIn(f"{self.folder}/none: No such file or directory", self.said)


class Protection(ConfigurationCase):
    """Where others do not pass for sites. The user `daemon` stands for `castd`, and `nobody` for anybody else."""

    SITES = ("127.1.1.1:7001", "127.1.1.2:7002", "127.1.1.1:7003")

    def setUp(self):
        super().setUp()
        tables = (f'[[site]]\nnumber = {number}\naddress = "{it}"\n' for number, it in enumerate(self.SITES, 1))
        fields = "number = 1\nhome = 1\nsites = [1, 2, 3]\ngroups = [1]\nsocket = \"FOLDER/castd.sock\"\n"
        self.text = "".join(tables) + "[[domain]]\n" + fields
        self.config = self.written(self.text)

    def sent(self, *lines: str) -> list[str]:
        """Which datagrams come in a network of its own under the rules, which are loaded twice."""
        self.need_root()
        for command in ("nft", "unshare", "ip"):
            need(self, command)
        if run_command("unshare", "--net", "true").returncode:
            self.skipTest("no network can be made on this machine")
        ran = run("firewall", self.config, "--user", "daemon")
        self.assertEqual((ran.returncode, ran.stderr), (0, ""))
        rules = self.written(ran.stdout, "castd.nft")
        load = f"ip link set lo up && nft -f {rules} && nft -f {rules} && exec {sys.executable} {TESTS}/sends.py"
        given = "".join(f"{line}\n" for line in lines)
        ran = run_command("unshare", "--net", "sh", "-c", load, input=given)
        self.assertEqual((ran.returncode, ran.stderr), (0, ""))
        return ran.stdout.split()

    def test_only_the_user_of_the_daemons_sends_from_their_ports_and_to_them(self):
        one, two, spare = self.SITES
        beats = [it.replace(":7", ":8") for it in self.SITES]
        wanted = {
            f"daemon {one} {two}": "comes",
            f"daemon {beats[0]} {beats[1]}": "comes",
            f"nobody 127.1.1.1:0 {two}": "lost",
            f"nobody {spare} {two}": "lost",
            f"nobody {spare} 127.1.1.2:9000": "lost",
            f"nobody 127.1.1.1:0 {beats[1]}": "lost",
            f"nobody {beats[2]} 127.1.1.2:9000": "lost",
            # What is not from the host of a site does not come.
            f"daemon 127.1.1.9:7001 {two}": "lost",
            f"daemon 127.1.1.9:8001 {beats[1]}": "lost",
            # The rules concern nothing else.
            "nobody 127.1.1.1:0 127.1.1.2:9000": "comes",
            "nobody 127.1.1.9:7001 127.1.1.2:9000": "comes",
        }
        self.assertEqual(dict(zip(wanted, self.sent(*wanted))), wanted)

    def test_the_unit_is_told_the_hosts_of_the_sites(self):
        ran = run("unit", self.config)
        self.assertEqual((ran.returncode, ran.stderr), (0, ""))
        lines = ["[Service]", "IPAddressDeny=any", "IPAddressAllow=127.1.1.1 127.1.1.2"]
        self.assertEqual(ran.stdout.splitlines()[1:], lines)

    def test_it_needs_addresses_and_ports(self):
        for old, new, command, told in (
            ("127.1.1.2:", "b.example:", "firewall", "site 2: address: b.example is a name: a rule needs an address"),
            ("127.1.1.2:", "b.example:", "unit", "site 2: address: b.example is a name: a rule needs an address"),
            (":7003", ":64600", "firewall", "site 3: address: there is no port 65600"),
        ):
            ran = run(command, self.written(self.text.replace(old, new), "other.conf"))
            self.assertEqual((ran.returncode, ran.stdout), (1, ""))
            self.assertIn(told, ran.stderr)


class Generations(ConfigurationCase):
    """A host goes on under its next number, at the socket of the daemon before it."""

    def daemon(self, site: int) -> Daemon:
        daemon = Daemon(self, self.config, site, self.folder)
        self.assertEqual(daemon.line(PATIENCE), "ready")
        return daemon

    def joined(self, host: int, size: int) -> castd.Session:
        session = castd.Session(self.socket(host), PATIENCE)
        self.addCleanup(session.close)
        session.join(1, PATIENCE)
        wait_for_view(session, size)
        return session

    def socket(self, host: int) -> str:
        return f"{self.folder}/{host}.sock"

    def test_the_next_daemon_of_a_host_serves_where_the_last_one_did(self):
        block = f"127.{random.randint(1, 254)}.{random.randint(1, 254)}"
        hosts = [f"{block}.{host}" for host in (1, 2)]
        # On one machine the hosts differ by the folder in which a daemon makes its socket.
        domain = {**PLAN["domain"][0], "home": hosts[0], "socket": "FOLDER/1.sock"}
        self.config = self.made({"hosts": hosts, "generations": 2, "domain": [domain]})
        home = self.daemon(101)
        member = self.joined(1, 1)
        text = pathlib.Path(self.config).read_text().replace("1.sock", "2.sock")
        self.config = self.written(text, "of-host-2.conf")
        blue = self.daemon(102)
        newcomer = self.joined(2, 2)
        self.assertEqual(Daemon(self, self.config, 202, self.folder).status(), UNBOUND)
        blue.say("stop\n")
        self.assert_ends(blue, 0)
        green = self.daemon(202)
        home.say("suspect 1 102\n")
        self.assertEqual(home.line(PATIENCE), "ok")
        wait_for_view(member, 1)
        again = self.joined(2, 2)
        member.abcast(1, b"on", PATIENCE)
        for session in (member, again):
            wait_for_push(session, lambda push: isinstance(push, castd.Deliver) and push.payload == b"on")
