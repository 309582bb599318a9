"""castctl: its exit statuses, metrics and health."""

import json
import os
import pathlib
import re
import shutil
import signal
import socket
import subprocess
import time

from harness import PATIENCE, PROGRAM, TOOLS, Case, Client, castctl, castd, wait_for_push

DEBIAN_PYTHON = "/usr/bin/python3"

# Reads the text format by the parser of Prometheus' own client, and prints each sample.
PARSER = """
import json, sys
from prometheus_client.parser import text_string_to_metric_families
samples = [
    [family.type, sample.name, sample.labels, sample.value]
    for family in text_string_to_metric_families(sys.stdin.read())
    for sample in family.samples
]
print(json.dumps(samples))
"""

DATAGRAMS = "datagrams sent 5 received 6 lost 7 undecoded 8"


class Statuses(Case):
    def test_they_tell_whether_a_line_was_done(self):
        setup = self.setup_of()
        keeper = self.keeper(setup)
        for line, status, text in (
            ("domains", 0, "domain 1 running\n"),
            ("groups 1", 0, "group 1 view 0 none\n"),
            ("quota 1 held 512", 0, "ok\n"),
            ("suspect 1 1", 0, "ok\n"),
            ("quota 1 held 0", 1, "refused 15\n"),
            ("show 2", 1, "no domain\n"),
            ("nothing", 1, "fault 2\n"),
            ("show", 1, "fault 3\n"),
            ("show x", 1, "fault 4\n"),
        ):
            with self.subTest(line):
                self.assertEqual(keeper.castctl(*line.split(" ")), (status, text))

    def test_they_tell_of_halted_domains_and_of_no_memory(self):
        setup = self.setup_of()
        keeper = self.stand_in(setup, answers={"suspect 1 2": ["halted 1"], "groups 1": ["no memory"], "show 1": [""]})
        self.assertEqual(keeper.castctl("suspect", "1", "2"), (1, "halted 1\n"))
        self.assertEqual(keeper.castctl("groups", "1"), (1, "no memory\n"))
        # An answer that is one empty line is no line, and does not end the next answer too early.
        with Client(keeper.control) as client:
            self.assertEqual([client.ask("show 1"), client.ask("domains")], ["", "domain 1 running"])

    def test_a_keeper_that_is_not_there_is_not_reached(self):
        for words, text in (
            (["--socket", f"{self.folder}/none", "domains"], "No such file or directory"),
            (["65535", "domains"], "/run/castd-65535/control: No such file or directory"),
        ):
            ran = castctl(*words)
            self.assertEqual((ran.returncode, ran.stdout), (3, ""))
            self.assertIn(text, ran.stderr)

    def test_wrong_usage_says_nothing_to_the_daemon(self):
        setup = self.setup_of()
        keeper = self.keeper(setup)
        for words in (
            [],
            ["1"],
            ["0", "domains"],
            ["x", "domains"],
            ["--socket", keeper.control],
            ["--socket", keeper.control, "domains\nstop"],
            ["--socket", keeper.control, ""],
            ["--socket", keeper.control, "x" * 5_000],
        ):
            with self.subTest(words):
                ran = castctl(*words)
                self.assertEqual((ran.returncode, ran.stdout), (2, ""))
                self.assertIn("usage: castctl", ran.stderr)
        self.assertEqual(keeper.castctl("domains"), (0, "domain 1 running\n"))

    def test_commands_find_their_package_where_they_are_installed(self):
        prefix = pathlib.Path(self.folder, "prefix")
        (prefix / "bin").mkdir(parents=True)
        for name in ("castctl", "castd-keeper", "castd-top", "castd-watch"):
            shutil.copy(TOOLS / name, prefix / "bin")
            os.symlink(prefix / "bin" / name, f"{self.folder}/{name}")
            words = [f"{self.folder}/{name}", "--help"]
            self.assertIn("ModuleNotFoundError", subprocess.run(words, capture_output=True, text=True).stderr)
        shutil.copytree(TOOLS / "castd_tools", prefix / "lib" / "castd" / "castd_tools")
        for name in ("castctl", "castd-keeper", "castd-top", "castd-watch"):
            ran = subprocess.run([f"{self.folder}/{name}", "--help"], capture_output=True, text=True, cwd="/")
            self.assertEqual((ran.returncode, ran.stderr), (0, ""))
            self.assertIn(f"usage: {name} ", ran.stdout)

    def test_tools_have_the_version_of_the_daemon(self):
        version = subprocess.run([PROGRAM, "--version"], capture_output=True, text=True).stdout.split()[1]
        for name in ("castctl", "castd-conf", "castd-keeper", "castd-top", "castd-watch"):
            with self.subTest(name):
                ran = subprocess.run([str(TOOLS / name), "--version"], capture_output=True, text=True)
                self.assertEqual((ran.returncode, ran.stdout), (0, f"{name} {version}\n"))

    def test_help_tells_the_statuses(self):
        ran = castctl("--help")
        self.assertEqual(ran.returncode, 0)
        self.assertIn("a keeper cannot be reached", ran.stdout)


class Values(Case):
    """What castctl prints with --json."""

    def values(self, *words: str) -> tuple[int, object]:
        """The exit status, and what is printed."""
        ran = castctl("--json", *words)
        return ran.returncode, json.loads(ran.stdout)

    def test_they_have_names(self):
        setup = self.setup_of()
        answers = {
            "domains": ["domain 1 running", "domain 7 halted"],
            "show 1": ["domain 1 sessions 2 held 3 casts 4 moment 5"],
            "groups 1": [
                "group 1 view 0 none",
                "group 2 view 9 holder 1.2 members 1.2 2.1 open",
                "group 3 view 1 holder 2.1 members 2.1 frozen",
            ],
            "trace": ["events 6 kept 7"],
            "datagrams": [DATAGRAMS],
            "record": ["record running waiting 9 lost 0"],
            "keys": ["keys: no file"],
        }
        keeper = self.stand_in(setup, answers=answers)
        for line, expected in (
            ("domains", [{"domain": 1, "running": True}, {"domain": 7, "running": False}]),
            ("show 1", [{"domain": 1, "sessions": 2, "held": 3, "casts": 4, "moment": 5}]),
            (
                "groups 1",
                [
                    {"group": 1, "view": 0, "holder": None, "members": [], "frozen": False},
                    {"group": 2, "view": 9, "holder": "1.2", "members": ["1.2", "2.1"], "frozen": False},
                    {"group": 3, "view": 1, "holder": "2.1", "members": ["2.1"], "frozen": True},
                ],
            ),
            ("trace", [{"events": 6, "kept": 7}]),
            ("datagrams", [{"sent": 5, "received": 6, "lost": 7, "undecoded": 8}]),
            ("record", [{"record": "running", "waiting": 9, "lost": 0}]),
        ):
            with self.subTest(line):
                told = self.values("--socket", keeper.control, line)
                self.assertEqual(told, (0, {"done": True, "answer": expected}))
        refused = {"done": False, "answer": [{"line": "keys: no file"}]}
        self.assertEqual(self.values("--socket", keeper.control, "keys"), (1, refused))

    def test_lines_of_another_form_stay_lines(self):
        lines = ["group x view 1 none", "group 1", "domain 1 running fast", "record", "suspected 1", "events", "fine"]
        keeper = self.stand_in(self.setup_of(), answers={"domains": lines})
        told = self.values("--socket", keeper.control, "domains")
        self.assertEqual(told, (0, {"done": True, "answer": [{"line": line} for line in lines]}))


class All(Case):
    """castctl --all: each site that runs on this host."""

    def all(self, setup, *words: str):
        return castctl("--all", setup.config, "--socket", f"{setup.folder}/site-{{site}}/control", *words)

    def test_each_site_that_runs_is_asked(self):
        setup = self.setup_of(3)
        for site in (1, 3):
            self.stand_in(setup, site, answers={"show 1": [f"domain 1 sessions {site}"], "record": ["record off"]})
        ran = self.all(setup, "show", "1")
        expected = (0, "1: domain 1 sessions 1\n3: domain 1 sessions 3\n", "")
        self.assertEqual((ran.returncode, ran.stdout, ran.stderr), expected)
        ran = self.all(setup, "--json", "record")
        answer = {"done": True, "answer": [{"record": "off"}]}
        self.assertEqual(json.loads(ran.stdout), [{"site": 1, **answer}, {"site": 3, **answer}])

    def test_the_worst_is_the_status(self):
        setup = self.setup_of(3)
        self.stand_in(setup, 1, answers={"show 1": ["no domain"]})
        killed = self.stand_in(setup, 2)
        killed.process.kill()
        killed.process.wait()
        ran = self.all(setup, "show", "1")
        path = setup.control(2)
        self.assertEqual((ran.returncode, ran.stdout), (3, "1: no domain\n"))
        self.assertEqual(ran.stderr, f"castctl: {path}: Connection refused\n")
        ran = self.all(setup, "--json", "show", "1")
        self.assertEqual(json.loads(ran.stdout)[1], {"site": 2, "problem": f"{path}: Connection refused"})
        os.unlink(path)
        ran = self.all(setup, "show", "1")
        self.assertEqual((ran.returncode, ran.stderr), (1, ""))

    def test_where_none_runs_it_says_so(self):
        setup = self.setup_of(2)
        ran = self.all(setup, "domains")
        self.assertEqual((ran.returncode, ran.stdout), (3, ""))
        self.assertIn(f"no site runs on this host: there is no {setup.folder}/site-{{site}}/control", ran.stderr)
        ran = castctl("--all", f"{setup.folder}/none", "domains")
        self.assertEqual((ran.returncode, ran.stdout), (6, ""))
        self.assertIn("No such file", ran.stderr)
        ran = castctl("--all", setup.config, "--socket", "/tmp/control", "domains")
        self.assertEqual((ran.returncode, ran.stdout), (2, ""))


class Metrics(Case):
    def metrics(self, keeper) -> dict[str, float]:
        """The values by name and labels."""
        return self.read(keeper.ask("metrics"))

    def read(self, text: str) -> dict[str, float]:
        """Reads the text format strictly: each metric has its help, its type and its samples, one behind the other."""
        values, types = {}, {}
        lines = text.splitlines()
        while lines:
            told = re.fullmatch(r"# HELP (castd_[a-z_]+) ([A-Z][^\\\n]*\.)", lines.pop(0))
            self.assertIsNotNone(told)
            name = told[1]
            self.assertNotIn(name, types)
            kind = re.fullmatch(rf"# TYPE {name} (gauge|counter)", lines.pop(0))
            self.assertIsNotNone(kind, name)
            types[name] = kind[1]
            self.assertEqual(kind[1] == "counter", name.endswith("_total"), name)
            self.assertTrue(lines and lines[0].startswith(f"{name}{{"), f"{name} has no sample")
            while lines and not lines[0].startswith("#"):
                sample = re.fullmatch(rf'{name}\{{(site="\d+"(?:,[a-z]+="[0-9.]+")*)\}} (\d+(?:\.\d+)?)', lines.pop(0))
                self.assertIsNotNone(sample, name)
                key = f"{name} {sample[1]}".replace('"', "")
                self.assertNotIn(key, values)
                values[key] = float(sample[2])
        return values

    def read_by_prometheus(self, text: str) -> dict[str, float]:
        """The same by the parser of Prometheus' client."""
        ran = subprocess.run(
            [DEBIAN_PYTHON, "-c", PARSER], input=text, capture_output=True, text=True, timeout=PATIENCE, check=True
        )
        values = {}
        for kind, name, labels, value in json.loads(ran.stdout):
            self.assertEqual(kind, "counter" if name.endswith("_total") else "gauge")
            values[f"{name} {','.join(f'{label}={value}' for label, value in labels.items())}"] = value
        return values

    def test_the_parser_of_prometheus_reads_the_same(self):
        words = [DEBIAN_PYTHON, "-c", "import prometheus_client.parser"]
        if not shutil.which(DEBIAN_PYTHON) or subprocess.run(words, capture_output=True, timeout=PATIENCE).returncode:
            self.skipTest(f"{DEBIAN_PYTHON} has no prometheus_client (Debian: python3-prometheus-client)")
        domains = [{"number": number, "groups": [1, 2], "socket": f"{number}.sock"} for number in (1, 2)]
        answers = {"datagrams": [DATAGRAMS], "record": ["record running waiting 9 lost 10"]}
        for keeper in (self.keeper(self.setup_of(1, *domains)), self.stand_in(self.setup_of(), answers=answers)):
            text = keeper.ask("metrics")
            self.assertGreater(len(self.read(text)), 8)
            self.assertEqual(self.read_by_prometheus(text), self.read(text))

    def test_they_tell_what_happens_at_a_daemon(self):
        setup = self.setup_of(
            1, {"number": 1, "groups": [1, 2], "sessions": 5}, {"number": 7, "groups": [3], "socket": "7.sock"}
        )
        begun = time.monotonic()
        keeper = self.keeper(setup)
        session = self.joined(setup, 1, 1)
        for _ in range(3):
            session.cast(1, b"x", PATIENCE)
            wait_for_push(session, lambda push: isinstance(push, castd.Deliver))
        self.session(setup).read(PATIENCE)
        values = self.metrics(keeper)
        version = subprocess.run([PROGRAM, "--version"], capture_output=True, text=True).stdout.split()[1]
        expected = {
            "castd_up site=1": 1,
            f"castd_build_info site=1,version={version}": 1,
            "castd_domain_running site=1,domain=1": 1,
            "castd_domain_running site=1,domain=7": 1,
            "castd_sessions site=1,domain=1": 2,
            "castd_sessions_quota site=1,domain=1": 5,
            "castd_sessions site=1,domain=7": 0,
            "castd_sessions_quota site=1,domain=7": 16,
            "castd_held_messages_quota site=1,domain=7": 256,
            "castd_casts_total site=1,domain=1": 3,
            "castd_casts_total site=1,domain=7": 0,
            "castd_group_view site=1,domain=1,group=1": 1,
            "castd_group_members site=1,domain=1,group=1": 1,
            "castd_group_frozen site=1,domain=1,group=1": 0,
            "castd_group_view site=1,domain=1,group=2": 0,
            "castd_group_members site=1,domain=1,group=2": 0,
            "castd_group_members site=1,domain=7,group=3": 0,
        }
        self.assertEqual({name: values.get(name) for name in expected}, expected)
        self.assertIn("castd_held_messages site=1,domain=1", values)
        # Two sessions, a join, three casts, at least.
        self.assertGreaterEqual(values["castd_events_total site=1"], 6)
        self.assertIn("castd_trace_events site=1", values)
        daemon = keeper.daemon()
        self.assertEqual(values["castd_open_descriptors site=1"], len(os.listdir(f"/proc/{daemon}/fd")))
        with open(f"/proc/{daemon}/status", encoding="utf-8") as file:
            resident = next(1024 * int(line.split()[1]) for line in file if line.startswith("VmRSS:"))
        self.assertAlmostEqual(values["castd_resident_memory_bytes site=1"], resident, delta=resident / 2)
        self.assertLessEqual(0, values["castd_uptime_seconds site=1"])
        self.assertLess(values["castd_uptime_seconds site=1"], time.monotonic() - begun + 0.1)

    def test_quotas_that_are_set_are_told(self):
        setup = self.setup_of(1, {"number": 1, "held": 100})
        keeper = self.keeper(setup)
        quota = "castd_held_messages_quota site=1,domain=1"
        self.assertEqual(self.metrics(keeper)[quota], 100)
        self.assertEqual(keeper.ask("quota 1 held 77"), "ok")
        self.assertEqual(keeper.ask("quota 1 sessions 3"), "ok")
        self.assertEqual(keeper.ask("quota 1 held 0"), "refused 15")
        self.assertEqual(self.metrics(keeper)[quota], 77)
        self.assertEqual(self.metrics(keeper)["castd_sessions_quota site=1,domain=1"], 3)

    def test_a_group_that_changes_its_view_is_frozen(self):
        setup = self.setup_of(3)
        keepers = {site: self.keeper(setup, site) for site in (1, 2, 3)}
        first, second = self.joined(setup, 1, 1), self.joined(setup, 2, 2)
        # Site 2 tells the home that it has entered the view before it sends this.
        second.cast(1, b"entered", PATIENCE)
        wait_for_push(first, lambda push: isinstance(push, castd.Deliver))
        # Site 2 does not answer the home, which changes the view for the member of site 3.
        os.kill(keepers[2].daemon(), signal.SIGSTOP)
        session = self.session(setup, 3)
        session.send(castd.Join(1))
        end = time.monotonic() + PATIENCE
        while not (values := self.metrics(keepers[1]))["castd_group_frozen site=1,domain=1,group=1"]:
            self.assertLess(time.monotonic(), end)
        self.assertEqual(values["castd_group_view site=1,domain=1,group=1"], 2)
        self.assertEqual(values["castd_group_members site=1,domain=1,group=1"], 2)
        self.assertEqual(keepers[1].ask("suspect 1 2"), "ok")
        wait_for_push(session, lambda push: isinstance(push, castd.View))
        self.assertEqual(self.metrics(keepers[1])["castd_group_frozen site=1,domain=1,group=1"], 0)

    def test_lines_of_newer_daemons_are_told(self):
        setup = self.setup_of()
        answers = {"datagrams": [DATAGRAMS], "record": ["record running waiting 9 lost 10"]}
        values = self.metrics(self.stand_in(setup, answers=answers))
        self.assertEqual(values["castd_datagrams_sent_total site=1"], 5)
        self.assertEqual(values["castd_datagrams_received_total site=1"], 6)
        self.assertEqual(values["castd_datagrams_lost_total site=1"], 7)
        self.assertEqual(values["castd_datagrams_undecoded_total site=1"], 8)
        self.assertEqual(values["castd_record_running site=1"], 1)
        self.assertEqual(values["castd_record_ended site=1"], 0)
        self.assertEqual(values["castd_record_waiting_bytes site=1"], 9)
        self.assertEqual(values["castd_record_lost_events_total site=1"], 10)

    def test_datagrams_and_the_record_of_a_daemon_are_told(self):
        setup = self.setup_of(2)
        folder = f"{setup.folder}/record"
        os.mkdir(folder)
        keeper = self.keeper(setup, more=["--record", folder])
        host, port = setup.addresses[1].split(":")
        with socket.socket(socket.AF_INET, socket.SOCK_DGRAM) as sender:
            sender.bind((setup.hosts[2], int(port)))
            for _ in range(3):
                sender.sendto(b"no frame", (host, int(port)))
        end = time.monotonic() + PATIENCE
        while (values := self.metrics(keeper))["castd_datagrams_undecoded_total site=1"] < 3:
            self.assertLess(time.monotonic(), end)
        # What the daemon sends itself comes too.
        sent = values["castd_datagrams_sent_total site=1"]
        self.assertEqual(values["castd_datagrams_received_total site=1"], sent + 3)
        self.assertEqual(values["castd_datagrams_undecoded_total site=1"], 3)
        self.assertEqual(values["castd_datagrams_lost_total site=1"], 0)
        self.assertEqual(values["castd_record_running site=1"], 1)
        self.assertEqual(values["castd_record_lost_events_total site=1"], 0)

    def test_states_of_the_record_are_told(self):
        for line, running, ended in (("record off", 0, 0), ("record ended", 0, 1)):
            keeper = self.stand_in(self.setup_of(), answers={"record": [line]})
            values = self.metrics(keeper)
            self.assertEqual(values["castd_record_running site=1"], running)
            self.assertEqual(values["castd_record_ended site=1"], ended)
            self.assertNotIn("castd_record_waiting_bytes site=1", values)

    def test_lines_that_a_daemon_does_not_know_are_left_out(self):
        values = self.metrics(self.stand_in(self.setup_of()))
        self.assertEqual([name for name in values if "datagrams" in name or "record" in name], [])
        self.assertEqual(values["castd_up site=1"], 1)

    def test_groups_of_a_form_that_is_not_known_are_left_out(self):
        for line in ("group x view 9 none", "group 1 view 9 full", "group 1"):
            with self.subTest(line):
                values = self.metrics(self.stand_in(self.setup_of(), answers={"groups 1": [line]}))
                self.assertEqual([name for name in values if "group" in name], [])
                self.assertEqual(values["castd_up site=1"], 1)

    def test_the_version_is_the_one_that_the_program_says(self):
        for said, expected in (("castd 12.3.4", {"castd_build_info site=1,version=12.3.4": 1}), ("fast 1", {}), ("castd", {})):
            with self.subTest(said):
                values = self.metrics(self.stand_in(self.setup_of(), version=said))
                self.assertEqual({name: it for name, it in values.items() if "build" in name}, expected)

    def test_a_halted_domain_does_not_run(self):
        answers = {
            "domains": ["domain 1 halted"],
            "show 1": ["domain 1 sessions 0 held 0 casts 4 moment 9"],
            "groups 1": [""],
        }
        values = self.metrics(self.stand_in(self.setup_of(), answers=answers))
        self.assertEqual(values["castd_domain_running site=1,domain=1"], 0)
        self.assertEqual(values["castd_casts_total site=1,domain=1"], 4)

    def test_a_daemon_that_hangs_is_not_up(self):
        keeper = self.keeper(self.setup_of())
        os.kill(keeper.daemon(), signal.SIGSTOP)
        values = self.metrics(keeper)
        self.assertEqual(values["castd_up site=1"], 0)
        self.assertIn("castd_resident_memory_bytes site=1", values)


class Health(Case):
    def test_a_daemon_that_answers_is_healthy(self):
        self.assertEqual(self.keeper(self.setup_of()).castctl("health"), (0, "healthy\n"))

    def test_a_daemon_that_hangs_is_not(self):
        keeper = self.keeper(self.setup_of())
        os.kill(keeper.daemon(), signal.SIGSTOP)
        begun = time.monotonic()
        self.assertEqual(keeper.castctl("health"), (1, "unhealthy: the daemon does not answer within 2 s\n"))
        self.assertLess(time.monotonic() - begun, 4)
        os.kill(keeper.daemon(), signal.SIGCONT)
        self.assertEqual(keeper.castctl("health"), (0, "healthy\n"))

    def test_a_daemon_that_halted_a_domain_or_lost_its_record_is_not(self):
        answers = {"domains": ["domain 1 running", "domain 2 halted"], "record": ["record ended"]}
        keeper = self.stand_in(self.setup_of(), answers=answers)
        self.assertEqual(
            keeper.castctl("health"), (1, "unhealthy: domain 2 is halted\nunhealthy: the record has ended\n")
        )

    def test_a_daemon_without_memory_is_not(self):
        keeper = self.stand_in(self.setup_of(), answers={"domains": ["no memory"]})
        self.assertEqual(keeper.castctl("health"), (1, "unhealthy: no memory\n"))

    def test_a_record_that_runs_is_healthy(self):
        for line in ("record off", "record running waiting 3 lost 1"):
            keeper = self.stand_in(self.setup_of(), answers={"record": [line]})
            self.assertEqual(keeper.castctl("health"), (0, "healthy\n"))
