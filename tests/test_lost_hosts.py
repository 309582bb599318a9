"""Hosts that vanish from the network, beside a tenant that has no program there."""

import contextlib
import os
import threading
import time

from harness import PATIENCE, PROGRAM, Case, Process, castd, wait_for_view
from daemons import Failed
from namespaces import Host, Namespace, make_bridge

SITES = (1, 2, 3, 4)
LOST = (3, 4)
PORT = 7_001
CASTS, SECONDS = 100, 4.0
LARGEST = 16_384
# How many seconds a cast may take longer than twice the slowest before: the machine may have other things to do.
SLACK = 1.0


class LostHosts(Case):
    """Two tenants, each with one group. The first has a program at each site, and the second at the first two."""

    def setUp(self):
        super().setUp()
        self.need_root()
        try:
            bridge = Namespace()
            self.addCleanup(bridge.end)
            make_bridge(bridge.inside)
            self.hosts = {}
            for site in SITES:
                self.hosts[site] = Host(site, bridge.inside)
                self.addCleanup(self.hosts[site].end)
        except (OSError, Failed) as why:
            self.skipTest(f"no hosts can be made here: {why}")

    def start(self) -> None:
        self.daemons = {}
        for site in SITES:
            folder = f"{self.folder}/{site}"
            os.mkdir(folder)
            lines = []
            for number, host in self.hosts.items():
                lines += ["[[site]]", f"number = {number}", f'address = "{host.address}:{PORT}"']
            for domain, sites in ((1, SITES), (2, SITES[:2])):
                lines += ["[[domain]]", f"number = {domain}", "home = 1", f"sites = {list(sites)}", "groups = [1]"]
                lines += [f'socket = "{folder}/{domain}.sock"', "held = 1024", "outbox = 4096"]
            with open(f"{folder}/castd.conf", "w", encoding="utf-8") as file:
                file.write("\n".join(lines) + "\n")
            words = [PROGRAM, "serve", f"{folder}/castd.conf", "--site", str(site)]
            self.daemons[site] = Process(words, folder, inside=self.hosts[site].inside)
            self.addCleanup(self.daemons[site].kill)
            self.assertEqual(self.daemons[site].line(PATIENCE), "ready")

    def members(self, domain: int, sites: tuple[int, ...]) -> list[castd.Session]:
        """A program at each of these sites, in the tenant's group."""
        sessions = []
        for site in sites:
            sessions.append(castd.Session(f"{self.folder}/{site}/{domain}.sock", PATIENCE))
            self.addCleanup(sessions[-1].close)
            sessions[-1].join(1, PATIENCE)
        for session in sessions:
            wait_for_view(session, len(sites))
        return sessions

    def slowest(self, near: castd.Session, far: castd.Session) -> float:
        """The longest that one of some casts takes to the other site, one after the other, for as long as hosts are missed."""
        slowest, end, casts = 0.0, time.monotonic() + SECONDS, 0
        while casts < CASTS or time.monotonic() < end:
            begun = time.monotonic()
            near.cast(1, b"hi", PATIENCE)
            while not isinstance(far.read(PATIENCE), castd.Deliver):
                pass
            slowest, casts = max(slowest, time.monotonic() - begun), casts + 1
            while near.read(0):
                pass
            time.sleep(SECONDS / CASTS / 4)
        return slowest

    def flood(self, session: castd.Session, is_over: threading.Event) -> None:
        """Casts of the first tenant, as many as it may."""
        while not is_over.is_set():
            with contextlib.suppress(castd.Refused, castd.Late):
                session.cast(1, bytes(LARGEST), 0.5)
            while session.read(0):
                pass

    def test_no_other_tenant_is_slower(self):
        self.start()
        first = self.members(1, SITES)
        near, far = self.members(2, SITES[:2])
        before = self.slowest(near, far)
        for site in LOST:
            self.hosts[site].leave()
        for site in SITES[:2]:
            self.hosts[site].forget()
        is_over = threading.Event()
        flood = threading.Thread(target=self.flood, args=(first[0], is_over))
        flood.start()
        try:
            now = self.slowest(near, far)
        finally:
            is_over.set()
            flood.join()
        self.assertLess(now, 2 * before + SLACK)
