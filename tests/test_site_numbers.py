"""Site numbers are used once."""

import os
import pathlib
import signal
import subprocess

from harness import PATIENCE, STAND_IN, TOOLS, Case, change_plan


class SiteNumbers(Case):
    def test_a_number_that_was_used_is_refused(self):
        # Sites 1 to 4 are at one host. Site 3 is in another domain too, so it is none that site 1 may start again as.
        setup = self.setup_of(
            4,
            {"number": 1, "sites": [1, 2, 3, 4]},
            {"number": 2, "home": 3, "sites": [3], "socket": "other.sock"},
            is_one_host=True,
        )
        for site, free in ((1, 2), (2, 4), (4, None)):
            keeper = self.keeper(setup, site)
            keeper.process.send_signal(signal.SIGTERM)
            self.assert_ends(keeper, 0)
            self.assertEqual(set(os.listdir(setup.site_folder(site))), set())
            again = self.started_keeper(setup, site)
            self.assert_ends(again, 8)
            note = f"{setup.state}/site-{site}"
            self.assertIn(f"a daemon was started as site {site} before; {note} notes it", again.complained())
            self.assertIn("remove that file only if you are certain", again.complained())
            told = f"the next free number in {setup.config} is {free}\n" if free else "has no free number"
            self.assertIn(told, again.complained())
            self.assertIn(f"site {site} of {setup.config}", pathlib.Path(note).read_text())

    def test_a_site_at_another_host_is_not_proposed(self):
        setup = self.setup_of(2)
        setup.config = setup.write("castd.conf", {1: "127.0.0.1:7001", 2: "127.0.0.2:7001"})
        pathlib.Path(setup.state, "site-1").write_text("noted\n")
        keeper = self.started_keeper(setup)
        self.assert_ends(keeper, 8)
        self.assertIn("has no free number", keeper.complained())
        self.assertEqual(pathlib.Path(setup.state, "site-1").read_text(), "noted\n")

    def test_a_daemon_that_is_killed_has_used_its_number(self):
        for is_ready in (True, False):
            with self.subTest(is_ready=is_ready):
                setup = self.setup_of()
                if is_ready:
                    keeper = self.keeper(setup)
                else:
                    keeper = self.started_stand_in(setup, ends_by=signal.SIGKILL)
                if is_ready:
                    os.kill(keeper.daemon(), signal.SIGKILL)
                self.assert_ends(keeper, 128 + signal.SIGKILL)
                self.assert_ends(self.started_keeper(setup), 8)

    def test_a_keeper_that_is_killed_leaves_the_number_used(self):
        setup = self.setup_of()
        keeper = self.keeper(setup)
        keeper.process.kill()
        keeper.process.wait(PATIENCE)
        self.assert_ends(self.started_keeper(setup), 8)

    def test_a_daemon_that_refuses_to_serve_has_not_used_its_number(self):
        setup = self.setup_of()
        blocked = pathlib.Path(setup.site_folder(1), "castd.sock")
        blocked.touch()
        self.assert_ends(self.started_keeper(setup), 7)
        self.assertEqual(os.listdir(setup.state), [])
        blocked.unlink()
        keeper = self.keeper(setup)
        self.assertEqual(os.listdir(setup.state), ["site-1"])
        self.assertEqual(keeper.ask("stop"), "ok")

    def test_a_daemon_that_finds_no_memory_may_have_served(self):
        setup = self.setup_of()
        keeper = self.started_stand_in(setup, ends_with=5)
        self.assert_ends(keeper, 5)
        self.assertEqual(os.listdir(setup.state), ["site-1"])

    def test_the_note_is_on_the_disk_before_the_daemon_starts(self):
        trace = f"{self.folder}/trace"
        setup = self.setup_of()
        change_plan(setup, 1)
        own = ["--program", STAND_IN, "--control", setup.control(1), "--state", setup.state]
        words = [TOOLS / "castd-keeper", setup.config, "--site", "1", *own]
        program = TRACED.format(trace=trace)
        with subprocess.Popen(
            ["python3", "-c", program, *words],
            stdin=subprocess.PIPE,
            stdout=subprocess.PIPE,
            text=True,
            env={**os.environ, "STAND_IN": setup.plan(1)},
        ) as keeper:
            self.addCleanup(keeper.kill)
            self.assertEqual(keeper.stdout.readline(), "ready\n")
            keeper.send_signal(signal.SIGTERM)
            self.assertEqual(keeper.wait(PATIENCE), 0)
        calls = pathlib.Path(trace).read_text().splitlines()
        self.assertEqual(calls, [f"sync {setup.state}/site-1", f"sync {setup.state}", "start --version", "start serve"])

    def test_of_two_keepers_at_once_one_wins(self):
        for _ in range(3):
            setup = self.setup_of()
            both = [self.started_keeper(setup) for _ in range(2)]
            statuses = []
            for keeper in both:
                if keeper.process.stdout.readline() == b"ready\n":
                    self.assertEqual(keeper.ask("stop"), "ok")
                statuses.append(keeper.process.wait(PATIENCE))
            self.assertEqual(sorted(statuses), [0, 8])


# Runs the keeper, and writes down when it syncs a file and when it starts the program of the daemon.
TRACED = """
import asyncio, os, sys
sync, start = os.fsync, asyncio.create_subprocess_exec
def write(text):
    with open({trace!r}, "a") as file:
        file.write(text + "\\n")
def traced_sync(descriptor):
    sync(descriptor)
    write("sync " + os.readlink(f"/proc/self/fd/{{descriptor}}"))
async def traced_start(*words, **how):
    write("start " + words[1])
    return await start(*words, **how)
os.fsync, asyncio.create_subprocess_exec = traced_sync, traced_start
sys.argv = sys.argv[1:]
with open(sys.argv[0]) as file:
    exec(compile(file.read(), sys.argv[0], "exec"), {{"__file__": sys.argv[0], "__name__": "__main__"}})
"""
