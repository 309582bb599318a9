"""The Rust client: its line tool and its calls."""

from __future__ import annotations

import shutil
import subprocess
import tempfile
import unittest

from client_cases import CallCases, ToolCases
from harness import ROOT


def setUpModule() -> None:
    if not shutil.which("rustc"):
        raise unittest.SkipTest("rustc is not on this machine")


def compiled(case: type[unittest.TestCase], source: str) -> list[str]:
    """The command line of a Rust program. It is compiled for the tests of this class, without a warning."""
    folder = case.enterClassContext(tempfile.TemporaryDirectory(prefix="castd-"))
    words = ["rustc", "-O", "-D", "warnings", "--edition", "2021", "-o", f"{folder}/program", str(ROOT / source)]
    subprocess.run(words, check=True)
    return [f"{folder}/program"]


class RustTool(ToolCases):
    @classmethod
    def setUpClass(cls) -> None:
        cls.tool = compiled(cls, "clients/rust/castd-client.rs")


class RustCalls(CallCases):
    @classmethod
    def setUpClass(cls) -> None:
        cls.calls = compiled(cls, "tests/calls.rs")


# The cases are for the tests of each language alone.
del CallCases, ToolCases
