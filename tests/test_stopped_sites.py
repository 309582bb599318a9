"""A site that stops, and goes on."""

import os
import signal
import time

from harness import PATIENCE, PROGRAM, Case, castd, wait_for_view
from daemons import Castd, free_addresses

CASTS = 100
# How many seconds a site acknowledges nothing before it counts as silent, with time to spare.
SILENCE = 2.0
SECONDS = 2.0
MOST_A_SECOND = 110
# Within so many seconds it has all, in one of so many rounds.
SOON = 2.0
ROUNDS = 3


class StoppedSites(Case):
    def sent(self, daemon: Castd) -> int:
        """How many datagrams a daemon sent."""
        daemon.say("datagrams\n")
        words = daemon.line(PATIENCE).split()
        return int(words[words.index("sent") + 1])

    def time_to_catch_up(self, daemons: list[Castd], sessions: list[castd.Session]) -> float:
        """Stops the second site, casts at the first one, and says how many seconds the second one then needs for all."""
        stopped = daemons[1].process.pid
        os.kill(stopped, signal.SIGSTOP)
        self.addCleanup(os.kill, stopped, signal.SIGCONT)
        for _ in range(CASTS):
            sessions[0].cast(1, b"x" * 1_024, PATIENCE)
        time.sleep(SILENCE)
        before = self.sent(daemons[0])
        time.sleep(SECONDS)
        # By the rules alone each cast goes there five times a second.
        self.assertLessEqual(self.sent(daemons[0]) - before, SECONDS * MOST_A_SECOND)
        os.kill(stopped, signal.SIGCONT)
        begun, delivered = time.monotonic(), 0
        while delivered < CASTS:
            push = sessions[1].read(PATIENCE)
            self.assertIsNotNone(push)
            delivered += isinstance(push, castd.Deliver)
        return time.monotonic() - begun

    def test_a_stopped_site_is_sent_little_and_has_all_soon_after_it_goes_on(self):
        addresses, daemons, sessions = free_addresses(2), [], []
        for site in addresses:
            daemons.append(Castd(PROGRAM, self.folder, site, addresses))
            self.addCleanup(daemons[-1].kill)
            sessions.append(castd.Session(daemons[-1].path, PATIENCE))
            self.addCleanup(sessions[-1].close)
        for session in sessions:
            session.join(1, PATIENCE)
        wait_for_view(sessions[0], 2)
        # Beside other work a site may need longer once.
        self.assertTrue(any(self.time_to_catch_up(daemons, sessions) < SOON for _ in range(ROUNDS)))
