"""The unit files, the user, the directories and the manual pages, as the tools that read them see them."""

from __future__ import annotations

import os
import pathlib
import re
import stat

from dist import InstalledCase, TreeCase, need, run
from harness import ROOT, Case

UNITS = ("castd@", "castd-watch@")
# The exposure that systemd calls OK ends below this. `systemd-analyze` counts in tenths.
MOST_EXPOSURE = 3.0
TENANTS = """\
d /run/castd/orders 2750 castd orders
d /run/castd/quotes 2750 castd quotes
"""


class Units(InstalledCase):
    """The units as they are installed below a prefix of their own, in which their programs and pages are."""

    def setUp(self):
        super().setUp()
        need(self, "systemd-analyze")

    def unit(self, name: str) -> str:
        return f"{self.prefix}/lib/systemd/system/{name}.service"

    def test_systemd_has_nothing_to_say_of_them(self):
        environment = {**os.environ, "MANPATH": f"{self.prefix}/share/man"}
        for unit in UNITS:
            with self.subTest(unit):
                ran = run("systemd-analyze", "verify", self.unit(unit), env=environment)
                self.assertEqual((ran.returncode, ran.stdout, ran.stderr), (0, "", ""))

    def test_they_expose_little(self):
        for unit in UNITS:
            with self.subTest(unit):
                threshold = f"--threshold={MOST_EXPOSURE * 10:.0f}"
                ran = run("systemd-analyze", "security", "--offline=true", "--no-pager", threshold, self.unit(unit))
                self.assertEqual(ran.returncode, 0, ran.stdout)
                (figure,) = re.findall(r"Overall exposure level for .*: (\d+\.\d)", ran.stdout)
                self.assertLess(float(figure), MOST_EXPOSURE)
                print(f"         {unit}: exposure {figure}", flush=True)


class Files(TreeCase):
    """The user and the directories, made below a root of their own."""

    def setUp(self):
        super().setUp()
        self.need_root()
        self.root = f"{self.folder}/root"
        os.makedirs(f"{self.root}/etc")

    def test_the_user_and_the_directories_are_made(self):
        need(self, "systemd-sysusers")
        need(self, "systemd-tmpfiles")
        self.install(DESTDIR=self.root)
        (pathlib.Path(self.root) / "etc/group").write_text("orders:x:901:\nquotes:x:902:\n")
        os.makedirs(f"{self.root}/etc/tmpfiles.d")
        (pathlib.Path(self.root) / "etc/tmpfiles.d/castd-tenants.conf").write_text(TENANTS)
        users = run("systemd-sysusers", f"--root={self.root}", "castd.conf")
        self.assertEqual(users.returncode, 0, users.stderr)
        (line,) = re.findall(r"^castd:.*", (pathlib.Path(self.root) / "etc/passwd").read_text(), re.MULTILINE)
        _, _, user, group, _, _, shell = line.split(":")
        self.assertIn("nologin", shell)
        made = run("systemd-tmpfiles", f"--root={self.root}", "--create", "castd.conf", "castd-tenants.conf")
        self.assertEqual(made.returncode, 0, made.stderr)
        wanted = {
            "run/castd": ("drwxr-xr-x", 0, 0),
            "run/castd/orders": ("drwxr-s---", int(user), 901),
            "run/castd/quotes": ("drwxr-s---", int(user), 902),
            "var/lib/castd": ("drwxr-x---", int(user), int(group)),
        }
        for path, told in wanted.items():
            found = os.stat(f"{self.root}/{path}")
            self.assertEqual((stat.filemode(found.st_mode), found.st_uid, found.st_gid), told, path)


class Pages(Case):
    def test_nothing_is_to_be_said_of_them(self):
        need(self, "mandoc")
        for page in sorted(ROOT.glob("man/*.[0-9]")):
            with self.subTest(page.name):
                linted = run("mandoc", "-Tlint", "-W", "warning", str(page))
                self.assertEqual((linted.returncode, linted.stdout), (0, ""))
                shown = run("man", "--warnings", "--local-file", str(page))
                self.assertEqual((shown.returncode, shown.stderr), (0, ""))
