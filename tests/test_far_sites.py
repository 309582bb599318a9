"""Sites that are far from each other."""

import time

from harness import PATIENCE, PROGRAM, Case, castd, wait_for_view
from daemons import Castd, free_addresses
from links import linked

# How many seconds a datagram takes from one site to the other.
FAR = 0.08
CASTS, A_SECOND = 80, 40
# What a cast takes where there is one other site: a Data, an Ack and a Stable.
DATAGRAMS = 3


class FarSites(Case):
    def test_what_is_acknowledged_late_is_not_sent_again(self):
        told, links = linked(free_addresses(2), FAR)
        for link in links:
            self.addCleanup(link.end)
        sessions = []
        for site, addresses in told.items():
            daemon = Castd(PROGRAM, self.folder, site, addresses)
            self.addCleanup(daemon.kill)
            # By the rules nothing is sent again meanwhile.
            daemon.say("quota 1 resend 60000\n")
            self.assertEqual(daemon.line(PATIENCE), "ok")
            sessions.append(castd.Session(daemon.path, PATIENCE))
            self.addCleanup(sessions[-1].close)
        for session in sessions:
            session.join(1, PATIENCE)
        wait_for_view(sessions[0], 2)
        before = sum(link.carried for link in links)
        for _ in range(CASTS):
            sessions[0].cast(1, b"hi", PATIENCE)
            time.sleep(1 / A_SECOND)
        delivered = 0
        while delivered < CASTS:
            push = sessions[1].read(PATIENCE)
            self.assertIsNotNone(push)
            delivered += isinstance(push, castd.Deliver)
        time.sleep(4 * FAR)
        carried = sum(link.carried for link in links) - before
        # Some of the first are sent again: until one is acknowledged the other site may be near.
        self.assertLess(carried, 1.5 * DATAGRAMS * CASTS)
