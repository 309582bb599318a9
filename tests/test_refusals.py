"""What castd does where a request for memory is refused."""

import subprocess
import unittest

from harness import PROGRAM, ROOT


class Refusals(unittest.TestCase):
    def test_want_of_memory_halts_one_domain_or_changes_nothing(self):
        words = [ROOT / "tools/daemon-refusals", PROGRAM, "--part"]
        ran = subprocess.run(words, stdout=subprocess.PIPE, stderr=subprocess.STDOUT, text=True, check=False)
        self.assertEqual(ran.returncode, 0, ran.stdout)
