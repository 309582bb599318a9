"""Installing: what is installed runs, what is removed is gone, and nothing unproved is installed."""

from __future__ import annotations

import os
import pathlib
import shutil
import subprocess
import sys

from dist import InstalledCase, TreeCase, contents, need, run
from harness import PROGRAM

TOOLS = ("castctl", "castd-conf", "castd-keeper", "castd-top", "castd-watch")
C_PROGRAM = """\
#include <castd.h>
int main(int count, char **words) {
    struct castd session;
    return count == 2 && castd_connect(&session, words[1], 0) == CASTD_FAILED ? 0 : 1;
}
"""


class Installed(InstalledCase):
    def test_the_program_is_the_one_that_was_proved(self):
        self.assertEqual(pathlib.Path(f"{self.prefix}/bin/castd").read_bytes(), pathlib.Path(PROGRAM).read_bytes())
        self.assertEqual(run(f"{self.prefix}/bin/castd", "--version").stdout, run(PROGRAM, "--version").stdout)

    def test_each_tool_finds_what_it_stands_on(self):
        for tool in TOOLS:
            with self.subTest(tool):
                ran = run(f"{self.prefix}/bin/{tool}", "--help", cwd="/", env={"PATH": os.environ["PATH"]})
                self.assertEqual(ran.returncode, 0, ran.stderr)
                self.assertIn(f"usage: {tool} ", ran.stdout)

    def test_each_tool_has_a_page_that_was_installed(self):
        for page in ("castd.1", "castd.conf.5", *(f"{tool}.1" for tool in TOOLS)):
            self.assertTrue(os.path.isfile(f"{self.prefix}/share/man/man{page[-1]}/{page}"), page)

    def test_shells_find_the_completion_of_each_command(self):
        share = f"{self.prefix}/share"
        for name in ("castd", *TOOLS):
            script = f'source "$1" && complete -p {name}'
            ran = run("bash", "-c", script, "bash", f"{share}/bash-completion/completions/{name}")
            self.assertEqual((ran.stdout, ran.stderr), (f"complete -o filenames -F _castd {name}\n", ""))
        zsh = pathlib.Path(f"{share}/zsh/site-functions/_castd").read_text()
        self.assertIn(f"\nsource {share}/bash-completion/completions/castd\n", zsh)

    def test_a_c_program_is_built_by_pkg_config(self):
        need(self, "pkg-config")
        environment = {**os.environ, "PKG_CONFIG_PATH": f"{self.prefix}/lib/pkgconfig"}
        version = run("pkg-config", "--modversion", "castd", env=environment).stdout.strip()
        self.assertEqual(f"castd {version}\n", run(PROGRAM, "--version").stdout)
        flags = run("pkg-config", "--cflags", "--libs", "castd", env=environment).stdout.split()
        pathlib.Path(f"{self.folder}/program.c").write_text(C_PROGRAM)
        built = run("cc", "-Wall", "-Werror", "-o", f"{self.folder}/program", f"{self.folder}/program.c", *flags)
        self.assertEqual((built.returncode, built.stderr), (0, ""))
        self.assertEqual(run(f"{self.folder}/program", f"{self.folder}/none.sock").returncode, 0)

    def test_the_python_client_is_a_module(self):
        environment = {**os.environ, "PYTHONPATH": f"{self.prefix}/lib/castd/python"}
        ran = run(sys.executable, "-c", "import castd; print(castd.__file__)", cwd="/", env=environment)
        self.assertEqual(ran.stdout, f"{self.prefix}/lib/castd/python/castd/__init__.py\n", ran.stderr)

    def test_the_files_that_programs_in_rust_and_go_take_are_there(self):
        for name in ("rust/castd.rs", "rust/replica.rs", "go/go.mod", "go/castd.go"):
            installed = pathlib.Path(f"{self.prefix}/share/castd/{name}").read_bytes()
            self.assertEqual(installed, (self.tree.path / "clients" / name).read_bytes())

    def test_the_licence_is_there(self):
        licence = pathlib.Path(f"{self.prefix}/share/doc/castd/LICENSE").read_bytes()
        self.assertEqual(licence, (self.tree.path / "LICENSE").read_bytes())


class Removing(TreeCase):
    PREFIX = "/opt/castd"

    def setUp(self):
        super().setUp()
        self.root = f"{self.folder}/root"
        os.makedirs(f"{self.root}{self.PREFIX}/bin", mode=0o750)
        pathlib.Path(f"{self.root}{self.PREFIX}/bin/other").write_text("of another package")
        self.before = contents(self.root)
        self.where = {"PREFIX": self.PREFIX, "DESTDIR": self.root}

    def uninstall(self) -> subprocess.CompletedProcess:
        return self.tree.make("uninstall", *(f"{name}={value}" for name, value in self.where.items()))

    def assert_removed(self) -> None:
        ran = self.uninstall()
        self.assertEqual((ran.returncode, ran.stderr), (0, ""))
        self.assertEqual(contents(self.root), self.before)

    def test_leaves_what_was_there_before_and_nothing_else(self):
        self.install(**self.where)
        self.assertGreater(len(contents(self.root)), 40)
        self.assert_removed()

    def test_leaves_what_others_put_beside_it(self):
        self.install(**self.where)
        other = pathlib.Path(f"{self.root}{self.PREFIX}/share/man/man1/other.1")
        other.write_text("of another package")
        self.assertEqual(self.uninstall().returncode, 0)
        self.assertEqual(other.read_text(), "of another package")
        shutil.rmtree(f"{self.root}{self.PREFIX}/share")
        self.assertEqual(contents(self.root), self.before)

    def test_takes_what_python_keeps_of_modules(self):
        self.install(**self.where)
        environment = {name: value for name, value in os.environ.items() if name != "PYTHONDONTWRITEBYTECODE"}
        run(f"{self.root}{self.PREFIX}/bin/castd-conf", "--help", env=environment)
        self.assertTrue(os.path.isdir(f"{self.root}{self.PREFIX}/lib/castd/castd_tools/__pycache__"))
        self.assert_removed()

    def test_takes_what_an_earlier_version_had(self):
        old = self.tree.path / "man/castd-old.1"
        old.write_text(".TH OLD 1\n")
        self.addCleanup(old.unlink, missing_ok=True)
        self.install(**self.where)
        installed = pathlib.Path(f"{self.root}{self.PREFIX}/share/man/man1/castd-old.1")
        self.assertTrue(installed.exists())
        old.unlink()
        self.install(**self.where)
        self.assertFalse(installed.exists())
        self.assert_removed()

    def test_keeps_a_program_that_runs_whole(self):
        self.install(**self.where)
        installed = pathlib.Path(f"{self.root}{self.PREFIX}/bin/castd")
        with open(installed, "rb") as running:
            self.install(**self.where)
            self.assertNotEqual(os.fstat(running.fileno()).st_ino, installed.stat().st_ino)
            self.assertEqual(running.read(), pathlib.Path(PROGRAM).read_bytes())

    def test_takes_what_an_install_that_failed_has_written(self):
        os.mkdir(f"{self.root}{self.PREFIX}/share")
        blocked = pathlib.Path(f"{self.root}{self.PREFIX}/share/man")
        blocked.write_text("no folder")
        self.before = contents(self.root)
        ran = self.tree.make("install", *(f"{name}={value}" for name, value in self.where.items()))
        self.assertNotEqual(ran.returncode, 0)
        self.assertIn(f"castd: {blocked}", ran.stderr)
        self.assertNotIn("Traceback", ran.stderr)
        if os.path.exists(f"{self.root}{self.PREFIX}/lib"):
            self.assertEqual(self.uninstall().returncode, 0)
        self.assertEqual(contents(self.root), self.before)

    def test_says_that_nothing_is_installed(self):
        ran = self.uninstall()
        self.assertNotEqual(ran.returncode, 0)
        self.assertIn(f"castd: nothing is installed below {self.root}{self.PREFIX}", ran.stderr)


class Unproved(TreeCase):
    """Nothing is installed where the program is not what its sources give."""

    def assert_refused(self, why: str) -> None:
        ran = self.tree.make("install", f"DESTDIR={self.folder}/root")
        self.assertNotEqual(ran.returncode, 0)
        self.assertIn(why, ran.stderr)
        self.assertIn("./castd prove proves and builds the program", ran.stderr)
        self.assertFalse(os.path.exists(f"{self.folder}/root"))

    def test_a_program_that_is_missing(self):
        self.tree.program.unlink()
        self.addCleanup(self.tree.add_program)
        self.assert_refused("crates/castd/out/castd is missing")

    def test_a_program_of_other_code_or_other_contracts(self):
        for source in ("src/lib.rt", "specs/Sets.antt"):
            with self.subTest(source):
                path = self.tree.path / "crates/cast_types" / source
                before = path.read_bytes()
                path.write_bytes(before + b"\n")
                self.addCleanup(path.write_bytes, before)
                self.assert_refused("crates/castd/out/castd is not what the sources give")
                path.write_bytes(before)

    def test_another_program_than_the_one_that_was_proved(self):
        self.tree.program.write_bytes(self.tree.program.read_bytes() + b"\n")
        self.addCleanup(self.tree.add_program)
        self.assert_refused("crates/castd/out/castd is not what the sources give")
