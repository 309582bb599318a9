"""The Go client: its line tool and its calls."""

from __future__ import annotations

import os
import pathlib
import shutil
import subprocess
import tempfile
import unittest

from client_cases import CASTS, CallCases, ToolCases
from harness import PATIENCE, ROOT, TESTS

CLIENT = ROOT / "clients" / "go"
MODULE = f"module calls\n\ngo 1.18\n\nrequire castd v0.0.0\n\nreplace castd => {CLIENT}\n"


def setUpModule() -> None:
    if not shutil.which("go"):
        raise unittest.SkipTest("go is not on this machine")


def folder_of(case: type[unittest.TestCase]) -> str:
    return case.enterClassContext(tempfile.TemporaryDirectory(prefix="castd-"))


def go(folder: pathlib.Path | str, *words: str) -> None:
    """Runs go in a folder, and asks no network for anything."""
    subprocess.run(["go", *words], cwd=folder, env={**os.environ, "GOFLAGS": "-mod=mod", "GOPROXY": "off"}, check=True)


class GoTool(ToolCases):
    @classmethod
    def setUpClass(cls) -> None:
        cls.tool = [f"{folder_of(cls)}/castd-client"]
        go(CLIENT, "vet", "./...")
        go(CLIENT, "build", "-o", cls.tool[0], "./castd-client")


class GoCalls(CallCases):
    @classmethod
    def setUpClass(cls) -> None:
        folder = folder_of(cls)
        pathlib.Path(f"{folder}/go.mod").write_text(MODULE)
        shutil.copy(TESTS / "calls.go", folder)
        go(folder, "build", "-o", "calls", ".")
        cls.calls = [f"{folder}/calls"]

    def test_goroutines_share_a_session(self):
        setup = self.setup_of()
        self.keeper(setup)
        program = self.program(f"{setup.site_folder(1)}/castd.sock")
        self.assertRegex(program.line(PATIENCE), "^connected ")
        self.assertRegex(program.ask("30 join 1"), "^view 1 ")
        self.assertEqual(program.ask(f"30 together 1 {CASTS}"), "done")
        delivered = [push.removeprefix("deliver ") for push in program.pushes() if push.startswith("deliver ")]
        for number in range(4):
            own = [it for it in delivered if it.startswith(f"{number}:")]
            self.assertEqual(own, [f"{number}:{cast}" for cast in range(CASTS)])
        self.assertEqual(program.finish(), 0)


# The cases are for the tests of each language alone.
del CallCases, ToolCases
