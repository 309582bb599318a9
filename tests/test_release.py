"""Releases: the same commit gives the same bytes, and only what was committed is packed."""

from __future__ import annotations

import os
import pathlib
import tarfile

from dist import Tree, TreeCase, contents, run
from harness import PROGRAM

IDENTITY = ("-c", "user.name=Tester", "-c", "user.email=tester@example.org", "-c", "commit.gpgsign=false")


def git(tree: pathlib.Path, *words: str) -> None:
    ran = run("git", *IDENTITY, "-C", str(tree), *words)
    if ran.returncode:
        raise AssertionError(ran.stderr)


class Releases(TreeCase):
    @classmethod
    def setUpClass(cls):
        super().setUpClass()
        for words in (("init", "--quiet"), ("add", "--all"), ("commit", "--quiet", "--message", "All")):
            git(cls.tree.path, *words)
        cls.version = run(PROGRAM, "--version").stdout.split()[1]

    def released(self, tree: Tree) -> pathlib.Path:
        ran = tree.make("release", f"VERSION={self.version}")
        self.assertEqual((ran.returncode, ran.stderr), (0, ""))
        archive = tree.path / f"out/castd-{self.version}-x86_64.tar.gz"
        self.assertEqual(ran.stdout, f"{archive}\n")
        return archive

    def other_tree(self) -> Tree:
        """The same commit elsewhere, checked out by a user with another umask, at another time."""
        before = os.umask(0o077)
        try:
            other = Tree(pathlib.Path(self.folder, "elsewhere/castd"))
            git(self.tree.path, "clone", "--quiet", str(self.tree.path), str(other.path))
            for path in other.path.rglob("*.*"):
                os.utime(path, (1, 1))
            other.add_program()
        finally:
            os.umask(before)
        return other

    def test_one_commit_gives_one_archive(self):
        first = self.released(self.tree).read_bytes()
        self.assertEqual(first, self.released(self.tree).read_bytes())
        other = self.other_tree()
        self.addCleanup(os.umask, os.umask(0o077))
        self.assertEqual(first, self.released(other).read_bytes())

    def test_the_archive_has_what_is_installed_and_its_sum(self):
        archive = self.released(self.tree)
        checked = run("sha256sum", "--check", f"{archive.name}.sha256", cwd=archive.parent)
        self.assertEqual(checked.stdout, f"{archive.name}: OK\n")
        with tarfile.open(archive) as packed:
            self.assertEqual({(it.uid, it.gid, it.uname, it.gname) for it in packed}, {(0, 0, "root", "root")})
            self.assertTrue(all(it.isfile() for it in packed))
            packed.extractall(f"{self.folder}/unpacked")
        self.install(DESTDIR=f"{self.folder}/installed")
        files = {path: it for path, it in contents(f"{self.folder}/installed").items() if it[1]}
        self.assertEqual({path: it for path, it in contents(f"{self.folder}/unpacked").items() if it[1]}, files)

    def test_another_version_is_refused(self):
        ran = self.tree.make("release", "VERSION=9.9.9")
        self.assertNotEqual(ran.returncode, 0)
        self.assertIn(f"the program says that it is castd {self.version}, not castd 9.9.9", ran.stderr)
        for words in ((), ("1",), ("1.0.0", "2.0.0")):
            self.assertEqual(run(str(self.tree.path / "tools/release"), *words).returncode, 2)

    def test_what_was_not_committed_is_refused(self):
        changed = self.tree.path / "clients/c/castd.h"
        text = changed.read_text()
        self.addCleanup(changed.write_text, text)
        changed.write_text(f"{text}\n")
        ran = self.tree.make("release", f"VERSION={self.version}")
        self.assertNotEqual(ran.returncode, 0)
        self.assertIn("clients/c/castd.h", ran.stderr)
