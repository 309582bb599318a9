"""./castd of the repository: what it tries unproved, and what it says of itself."""

import os
import pathlib
import shutil
import subprocess
import sys
import time

from harness import PROGRAM, ROOT, Case

# Prints where the build of these sources is kept.
KEPT = "import unproved; print(unproved.kept_path())"


class Trying(Case):
    def setUp(self):
        super().setUp()
        if shutil.which("rt") is None:
            self.skipTest("the kit is not here")
        self.tree = pathlib.Path(self.folder, "tree")
        self.tree.mkdir()
        for name in ("castd", "crates.txt", "HANDLES"):
            shutil.copy(ROOT / name, self.tree)
        for name in ("tools", "crates"):
            shutil.copytree(ROOT / name, self.tree / name, ignore=shutil.ignore_patterns("out", "__pycache__"))

    def kept(self) -> pathlib.Path:
        environment = {**os.environ, "PYTHONPATH": str(self.tree / "tools"), "PYTHONDONTWRITEBYTECODE": "1"}
        ran = subprocess.run([sys.executable, "-c", KEPT], capture_output=True, text=True, check=True, env=environment)
        return pathlib.Path(ran.stdout.strip())

    def castd(self, *words: str, **how) -> subprocess.CompletedProcess:
        return subprocess.run([self.tree / "castd", *words], capture_output=True, text=True, check=False, **how)

    def test_what_was_built_of_these_sources_runs_at_once(self):
        path = self.kept()
        path.parent.mkdir(parents=True)
        shutil.copy(PROGRAM, path)
        begun = time.monotonic()
        ran = self.castd("try", "--version")
        self.assertLess(time.monotonic() - begun, 20)
        version = subprocess.run([PROGRAM, "--version"], capture_output=True, text=True).stdout
        self.assertEqual((ran.returncode, ran.stdout), (0, version))
        self.assertIn("unproved build of the same sources", ran.stderr)
        with open(self.tree / "crates/cast_types/src/lib.rt", "a", encoding="utf-8") as file:
            file.write("// Another one.\n")
        self.assertNotEqual(self.kept(), path)

    def test_a_build_that_fails_leaves_nothing_and_keeps_what_there_is(self):
        old = self.kept()
        old.parent.mkdir(parents=True)
        old.write_text("of the sources before")
        with open(self.tree / "crates/castd/src/main.rt", "a", encoding="utf-8") as file:
            file.write("this is no Rattle\n")
        ran = self.castd("try", "--version")
        self.assertEqual((ran.returncode, ran.stdout), (20, ""))
        self.assertIn("the sources cannot be built without proofs", ran.stderr)
        self.assertEqual(list(old.parent.iterdir()), [old])

    def test_help_names_what_the_program_does_not_know(self):
        ran = self.castd("--help")
        self.assertEqual(ran.returncode, 0)
        for words in ("castd prove ", "castd try ARGS..."):
            self.assertIn(words, ran.stdout)
