"""The completion of words in shells: bash, and zsh by the same file."""

import os
import pathlib
import re
import shutil
import subprocess

from harness import PROGRAM, ROOT, TOOLS, Case

COMPLETION = ROOT / "dist/castd.completion"

# Completes the last of the words, and prints what may stand there.
COMPLETE = """
source "$1"
shift
COMP_WORDS=("$@")
COMP_CWORD=$(($# - 1))
_castd
printf '%s\\n' "${COMPREPLY[@]}"
"""


class Completing(Case):
    def completed(self, *words: str) -> list[str]:
        ran = subprocess.run(
            ["bash", "-c", COMPLETE, "bash", COMPLETION, *words],
            capture_output=True,
            text=True,
            cwd=self.folder,
            env={**os.environ, "CASTD_RUN": self.folder},
        )
        self.assertEqual((ran.returncode, ran.stderr), (0, ""))
        return sorted(filter(None, ran.stdout.split("\n")))

    def options(self, *words: str) -> list[str]:
        """The long options that the help of a command names."""
        ran = subprocess.run([*words, "--help"], capture_output=True, text=True)
        told = ran.stdout.partition("ptions:\n")[2].partition("exit status")[0]
        return sorted(re.findall(r"^ +(?:-\w, +)?(--[a-z-]+)", told, re.MULTILINE))

    def test_each_option_of_the_help_and_no_other(self):
        commands = [(tool,) for tool in ("castctl", "castd-conf", "castd-keeper", "castd-top", "castd-watch")]
        commands += [("castd-conf", it) for it in ("make", "lint", "next", "keys", "firewall", "unit")]
        for tool, *more in commands:
            with self.subTest(tool, more=more):
                options = self.options(str(TOOLS / tool), *more)
                self.assertIn("--help", options)
                self.assertEqual(self.completed(tool, *more, "--"), options)
        for more in ([], ["serve"], ["check"], ["replay"]):
            with self.subTest("castd", more=more):
                self.assertEqual(self.completed("castd", *more, "--"), self.options(PROGRAM, *more))

    def test_each_command_of_the_help(self):
        for tool, path in (("castd", PROGRAM), ("castd-conf", str(TOOLS / "castd-conf"))):
            help = subprocess.run([path, "--help"], capture_output=True, text=True).stdout
            words = self.completed(tool, "")
            self.assertGreater(len(words), 3)
            for word in words:
                self.assertRegex(help, rf"(?m)^ +{word} ")
        self.assertEqual(self.completed("castd-conf", "ma"), ["make"])

    def test_each_line_is_known(self):
        keeper = self.keeper(self.setup_of())
        lines = self.completed("castctl", "1", "")
        section = (ROOT / "docs/OPERATIONS.md").read_text().partition("\n## Console\n")[2].partition("\n## ")[0]
        told = re.findall(r"`([a-z-]+)[^`]*`", "".join(re.findall(r"(?m)^\| (`.*?) \|", section)))
        self.assertEqual(lines, sorted(it for it in told if not it.startswith("castd")))
        # The keeper knows these two with a domain alone, of which another site is the home.
        alone = set(lines) - {"home-silent", "home-heard"}
        for line in sorted(alone, key="stop".__eq__):
            self.assertNotEqual(keeper.castctl(line)[1], "fault 2\n", line)
        quotas = self.completed("castctl", "1", "quota", "1", "")
        self.assertEqual(quotas, ["held", "outbox", "resend", "sessions"])

    def test_sites_that_run_here_and_files(self):
        for name in ("castd-101/control", "castd-7/control", "castd-8/other", "castd.conf"):
            path = pathlib.Path(self.folder, name)
            path.parent.mkdir(exist_ok=True)
            path.touch()
        for words in (["castctl", ""], ["castctl", "--json", ""], ["castd-watch", "castd.conf", "--site", ""]):
            self.assertEqual(self.completed(*words), ["101", "7"])
        self.assertEqual(self.completed("castctl", "--all", "castd.c"), ["castd.conf"])
        self.assertEqual(self.completed("castctl", "--all", "castd.conf", "dom"), ["domains"])
        pathlib.Path(self.folder, "a plan.toml").touch()
        self.assertEqual(self.completed("castd-conf", "make", "a"), ["a plan.toml"])
        self.assertEqual(self.completed("castd", "check", "castd.c"), ["castd.conf"])
        self.assertEqual(self.completed("castd-watch", "castd.conf", "--patience", ""), [])
        self.assertEqual(self.completed("castd-top", "--once", "castd.c"), ["castd.conf"])

    def test_zsh_takes_it(self):
        if shutil.which("zsh") is None:
            self.skipTest("zsh is not here")
        script = 'autoload -U compinit && compinit -u -D && autoload -U +X bashcompinit && bashcompinit && source "$1" && print $_comps[castctl]'
        ran = subprocess.run(["zsh", "-f", "-c", script, "zsh", COMPLETION], capture_output=True, text=True)
        self.assertEqual((ran.returncode, ran.stdout, ran.stderr), (0, "_bash_complete -o filenames -F _castd\n", ""))
