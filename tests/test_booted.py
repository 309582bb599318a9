"""The units where systemd has booted: in a container over a view of this machine, in which castd is installed."""

from __future__ import annotations

import errno
import json
import os
import pathlib
import shutil
import subprocess
import tempfile
import unittest

from dist import copied, run
from harness import TESTS

BOOT_SECONDS = 90.0

PLAN = """\
hosts = ["127.0.0.1", "127.0.0.2"]
generations = 4

[[domain]]
number = 1
home = "127.0.0.2"
groups = [1]
socket = "/run/castd/orders/castd.sock"

[[domain]]
number = 2
home = "127.0.0.2"
groups = [1]
socket = "/run/castd/quotes/castd.sock"
"""
# The container ends once the check has.
UNIT = """\
[Unit]
SuccessAction=exit
FailureAction=exit

[Service]
Type=oneshot
ExecStart=/usr/bin/python3 /castd-test/booted_check.py /castd-test/plan.toml
StandardOutput=file:/castd-test/found
StandardError=file:/castd-test/errors
"""


class Booted(unittest.TestCase):
    @classmethod
    def setUpClass(cls):
        if os.geteuid() or not shutil.which("systemd-nspawn"):
            raise unittest.SkipTest("root and systemd-nspawn are wanted to boot a container")
        cls.folder = cls.enterClassContext(tempfile.TemporaryDirectory(prefix="castd-"))
        root = cls.mounted()
        installed = copied(cls.folder).make("install", f"DESTDIR={root}")
        if installed.returncode:
            raise AssertionError(installed.stderr)
        own = pathlib.Path(root, "castd-test")
        own.mkdir()
        (own / "plan.toml").write_text(PLAN)
        for name in ("booted_check.py", "join_once.py"):
            shutil.copy(TESTS / name, own)
        units = pathlib.Path(root, "etc/systemd/system")
        (units / "castd-test.service").write_text(UNIT)
        for waiting in ("systemd-networkd-wait-online", "NetworkManager-wait-online"):
            (units / f"{waiting}.service").symlink_to("/dev/null")
        cls.boot(root)
        errors = (own / "errors").read_text() if (own / "errors").exists() else "the check was not run"
        if errors:
            raise AssertionError(errors)
        cls.found = json.loads((own / "found").read_text())

    @classmethod
    def mounted(cls) -> str:
        """A view of the root of this machine, of which all that is written stays in memory."""
        memory, root = f"{cls.folder}/memory", f"{cls.folder}/root"
        os.mkdir(memory)
        os.mkdir(root)
        cls.mount("tmpfs", memory, "size=512m")
        for name in ("upper", "work"):
            os.mkdir(f"{memory}/{name}")
        cls.mount("overlay", root, f"lowerdir=/,upperdir={memory}/upper,workdir={memory}/work")
        pathlib.Path(root, "etc/machine-id").unlink(missing_ok=True)
        return root

    @classmethod
    def mount(cls, kind: str, path: str, options: str) -> None:
        ran = run("mount", "--types", kind, "--options", options, kind, path)
        if ran.returncode:
            raise unittest.SkipTest(f"{kind} cannot be mounted here: {ran.stderr.strip()}")
        # A container that was killed may hold it for a moment yet.
        cls.addClassCleanup(run, "umount", "--lazy", path)

    @classmethod
    def boot(cls, root: str) -> None:
        name = pathlib.Path(cls.folder).name.replace("_", "-")
        cls.addClassCleanup(shutil.rmtree, f"/run/systemd/nspawn/propagate/{name}", ignore_errors=True)
        words = ["systemd-nspawn", "--quiet", "--register=no", "--keep-unit", "--private-network", "--link-journal=no"]
        words += [f"--machine={name}", f"--directory={root}", "--boot", "--", "--unit=castd-test.service"]
        with open(f"{cls.folder}/boot.log", "w+", encoding="utf-8", errors="replace") as log:
            how = {"stdin": subprocess.DEVNULL, "stdout": log, "stderr": log, "timeout": BOOT_SECONDS, "check": False}
            subprocess.run(["setpriv", "--pdeathsig", "KILL", *words], **how)

    def test_the_daemon_serves_once_the_unit_is_up(self):
        first = self.found["first"]
        self.assertEqual(first["start"], 0, self.found["journal"])
        self.assertEqual(first["active"], {"ActiveState": "active", "SubState": "running"})

    def test_the_sockets_belong_to_the_tenants_and_the_operators(self):
        first = self.found["first"]
        for tenant in ("orders", "quotes"):
            self.assertEqual(first[f"directory of {tenant}"], f"drwxr-s--- castd {tenant}")
            self.assertEqual(first[f"socket of {tenant}"], f"srwxrwx--- castd {tenant}")
        self.assertEqual(first["control socket"], "srw-rw---- castd castd")

    def test_each_tenant_connects_to_its_own_domain_alone(self):
        denied = errno.EACCES
        wanted = {"alice orders": 0, "alice quotes": denied, "bob orders": denied, "bob quotes": 0}
        wanted |= {f"{user} {tenant}": denied for user in ("oscar", "eve") for tenant in ("orders", "quotes")}
        self.assertEqual(self.found["first"]["joins"], wanted)

    def test_operators_alone_speak_with_the_keeper(self):
        self.assertEqual(self.found["first"]["castctl"], {"alice": 3, "bob": 3, "oscar": 0, "eve": 3})

    def test_the_daemon_is_confined(self):
        first = self.found["first"]
        none = "0" * 16
        self.assertEqual(first["confinement"], {"NoNewPrivs": "1", "Seccomp": "2", "CapEff": none, "CapBnd": none})
        self.assertEqual(first["user"], "castd")

    def test_the_daemon_has_the_memory_of_jemalloc(self):
        if not list(pathlib.Path("/usr/lib").rglob("libjemalloc.so.2")):
            self.skipTest("libjemalloc2 is not on this machine")
        self.assertTrue(self.found["first"]["jemalloc"])

    def test_it_is_stopped_in_order(self):
        first = self.found["first"]
        self.assertEqual(first["stop"], 0)
        self.assertLess(first["seconds to stop"], 5)
        self.assertEqual(first["stopped"], {"ActiveState": "inactive", "Result": "success", "ExecMainStatus": "0"})
        self.assertEqual(first["socket behind it"], "missing")

    def test_the_watch_runs_as_long_as_the_daemon(self):
        first = self.found["first"]
        self.assertEqual((first["watch"], first["watch while it runs"]), (0, "active"), self.found["journal"])
        self.assertEqual(first["watch behind it"], "inactive")

    def test_no_number_is_used_twice(self):
        later = self.found["later"]
        self.assertNotEqual(later["again"], 0)
        self.assertEqual(later["refused"], {"ExecMainStatus": "8"})
        self.assertEqual((later["next"], later["start"], later["joins"]), (201, 0, 0), self.found["journal"])

    def test_a_killed_daemon_stays_down_and_the_next_one_serves_in_its_place(self):
        later = self.found["later"]
        self.assertEqual(later["killed"], "failed")
        self.assertEqual(later["restarts"], {"NRestarts": "0", "ActiveState": "failed"})
        self.assertEqual((later["third"], later["start of third"], later["joins the third"]), (301, 0, 0))
        self.assertEqual(later["stop of third"], 0)

    def test_a_daemon_is_recorded_below_the_state_directory(self):
        later = self.found["later"]
        self.assertEqual(later["directory of the record"], "drwxr-x--- castd castd")
        self.assertEqual(later["files of the record"], ["castd-301-000001.script"])
        self.assertIn("push 1 1 view 1 ", later["replay"])

    def test_the_watch_starts_the_daemon_that_it_watches(self):
        later = self.found["later"]
        self.assertEqual((later["start of third"], later["third runs"]), (0, "active"), self.found["journal"])
