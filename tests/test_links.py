"""Links between sites: frames that share datagrams."""

import collections
import json
import random
import struct
import threading
import time
import unittest

import raw
from harness import PATIENCE, PROGRAM, Case, castd, wait_until, wait_for_view
from daemons import Castd, free_addresses, networked
from links import linked
from test_daemon import ACK, ASK, CAST, DATA, ID, INSTALL, INSTALLED, DaemonCase, Site, cast

CASTS = 30
# Seconds within which a slow build delivers them over bad links.
LONG = 4 * PATIENCE
# Of a hundred datagrams so many are lost, come twice, or come late.
LOST, TWICE, LATE = 5, 5, 20


def bad_fate(*_: object) -> list[float]:
    """After how many seconds a datagram is delivered, if it is."""
    if random.random() < LOST / 100:
        return []
    late = 0.003 if random.random() < LATE / 100 else 0.0
    return [late] * (2 if random.random() < TWICE / 100 else 1)


# In both tests casts queue little, too.
Bundling = networked(Castd, "bundle = true,delay = 300")


def delivered_by(session: castd.Session, count: int) -> list[bytes]:
    """The payloads of the next so many messages that a program is told."""
    payloads: list[bytes] = []
    while len(payloads) < count:
        push = session.read(PATIENCE)
        if push is None:
            raise AssertionError(f"after {len(payloads)} messages no more came")
        if isinstance(push, castd.Deliver):
            payloads.append(push.payload)
    return payloads


class Member(threading.Thread):
    """A program that casts, and keeps what it is pushed. Each payload says how many messages of each process its sender had delivered."""

    def __init__(self, session: castd.Session):
        super().__init__(daemon=True)
        self.session, self.process = session, session.process
        self.delivered: collections.Counter[str] = collections.Counter()
        # Of each view in which there are casts, what it delivered.
        self.views: dict[int, list[tuple[str, int, bool]]] = collections.defaultdict(list)
        self.faults: list[str] = []
        self.lock = threading.Lock()

    def say(self, place: int) -> None:
        kind = castd.ATOMIC if place % 3 == 0 else castd.CAUSAL
        with self.lock:
            payload = json.dumps([place, self.delivered]).encode()
        self.session.send(castd.codec.Cast(1, kind, payload))

    def run(self) -> None:
        for push in self.session:
            if isinstance(push, castd.Deliver):
                self.take(push)

    def take(self, push: castd.Deliver) -> None:
        sender, (place, before) = str(push.process), json.loads(push.payload)
        if place != self.delivered[sender]:
            self.faults.append(f"{sender} {place} after {self.delivered[sender]} of it")
        for other, count in before.items():
            if self.delivered[other] < count:
                self.faults.append(f"{sender} {place} before {other} {self.delivered[other]}")
        with self.lock:
            self.delivered[sender] += 1
        self.views[push.view].append((sender, place, push.kind == castd.ATOMIC))


class Clusters(Case):
    def cluster(self, *kinds: type[Castd]) -> tuple[list[Castd], list[Member]]:
        """Daemons of these kinds at sites whose links are bad, with a program at each that joined."""
        told, links = linked(free_addresses(len(kinds)), bad_fate)
        for link in links:
            self.addCleanup(link.end)
        daemons = []
        for kind, (site, addresses) in zip(kinds, told.items()):
            daemons.append(kind(PROGRAM, self.folder, site, addresses))
            self.addCleanup(daemons[-1].kill)
        sessions = [castd.Session(it.path, PATIENCE) for it in daemons]
        for session in sessions:
            self.addCleanup(session.close)
            session.join(1, PATIENCE)
        for session in sessions[:-1]:
            wait_for_view(session, len(sessions))
        members = [Member(it) for it in sessions]
        for member in members:
            member.start()
        return daemons, members

    def assert_agree(self, one: Member, other: Member) -> None:
        """Two members of the same views delivered the same messages in each, and ABCASTs in one order."""
        for view in one.views.keys() | other.views.keys():
            mine, others = one.views[view], other.views[view]
            self.assertEqual(sorted(mine), sorted(others), view)
            self.assertEqual(*([it for it in all if it[2]] for all in (mine, others)), view)

    def assert_delivered(self, members: list[Member], senders: list[Member]) -> None:
        """Each of these delivered all casts of those, and none before one that happened before it."""
        names = [str(it.process) for it in senders]
        for member in members:
            wait_until(lambda: all(member.delivered[it] == CASTS for it in names), f"{CASTS} each, not {member.delivered}", LONG)
            self.assertEqual(member.faults, [])

    def all_casts(self, members: list[Member], then=lambda place: None) -> None:
        for place in range(CASTS):
            for member in members:
                member.say(place)
            then(place)
            time.sleep(0.002)

    def test_sites_with_and_without_bundles_deliver_alike(self):
        _, members = self.cluster(Bundling, Castd, Bundling)
        self.all_casts(members)
        self.assert_delivered(members, members)
        for member in members[1:]:
            self.assert_agree(members[0], member)

    def test_a_site_that_is_wrongly_suspected_is_put_out(self):
        daemons, members = self.cluster(Bundling, Bundling, Bundling)

        def suspect(place: int) -> None:
            if place == CASTS // 2:
                daemons[0].say("suspect 1 3\n")
                self.assertEqual(daemons[0].line(PATIENCE), "ok")

        self.all_casts(members, suspect)
        self.assert_delivered(members[:2], members[:2])
        self.assert_agree(*members[:2])
        self.assertEqual(members[2].faults, [])


class TwoGroups(Castd):
    """A daemon of a domain with two groups that keeps few messages."""

    CONFIG = Castd.CONFIG.replace("groups = [1]", "groups = [1, 2]").replace("held = 1024", "held = 256")


class Overlapping(Case):
    # So many datagrams with a message of the first group are lost on their way from site 2 to site 1, and so many casts follow it in the
    # second: more than site 1 may keep.
    LOST, CASTS = 4, 2_000

    def setUp(self) -> None:
        super().setUp()
        self.to_lose = 0

    def fate(self, near: int, far: int, sender: int, data: bytes) -> list[float]:
        is_first_group = data[3] == DATA and data[7:9] == b"\x00\x01"
        if self.to_lose and (near, sender) == (1, 2) and far == 2 and is_first_group:
            self.to_lose -= 1
            return []
        return [0.0]

    def sessions(self) -> list[castd.Session]:
        """Programs at sites 1 and 2 that are in both groups, and one at site 3 that is in the second alone."""
        told, links = linked(free_addresses(3), self.fate)
        for link in links:
            self.addCleanup(link.end)
        sessions = []
        for site, addresses in told.items():
            daemon = TwoGroups(PROGRAM, self.folder, site, addresses)
            self.addCleanup(daemon.kill)
            sessions.append(castd.Session(daemon.path, PATIENCE))
            self.addCleanup(sessions[-1].close)
        for session, groups in zip(sessions, ((1, 2), (1, 2), (2,))):
            for group in groups:
                session.join(group, PATIENCE)
        return sessions

    def test_what_depends_on_a_lost_message_leaves_room_for_it(self):
        first, second, third = self.sessions()
        # The program at site 3 knows nothing of the first group, and so its site does not keep the message that is lost.
        self.to_lose = self.LOST
        second.cast(1, b"lost", PATIENCE)
        second.cast(2, b"go", PATIENCE)
        self.assertEqual(delivered_by(third, 1), [b"go"])
        payloads = [b"%d" % it for it in range(self.CASTS)]
        for session in (second, third):
            threading.Thread(target=collections.deque, args=(session, 0), daemon=True).start()
        for payload in payloads:
            third.send(castd.codec.Cast(2, castd.CAUSAL, payload))
        self.assertEqual(delivered_by(first, 2 + self.CASTS), [b"lost", b"go", *payloads])
        self.assertEqual(self.to_lose, 0)


class Datagrams(DaemonCase):
    def played(self, **domain) -> tuple:
        """A daemon that sends bundles, a program of it, and the other site, which the test plays."""
        daemon = self.serving(self.setup_of(2, {"number": 1, "resend": 60_000, **domain}, network={"bundle": True, "datagram": 512}))
        program, site = self.member(), Site(self, 2)
        self.addCleanup(site.socket.close)
        site.enter(2)
        self.assertEqual(program.kinds(1), [castd.View])
        return daemon, program, site

    def test_frames_of_one_read_share_datagrams(self):
        daemon, program, site = self.played()
        program.write(*[cast(bytes([place]) * 100) for place in range(6)], cast(bytes(600)), cast())
        frames, sizes = [], []
        while len(frames) < 8:
            datagram = site.socket.recv(65_536)
            # What is not acknowledged in time comes again.
            new = [it for it in raw.frames_of(datagram) if it[3] == DATA and it not in frames]
            sizes += [len(datagram)] if new else []
            frames += new
        self.assertEqual(program.kinds(16), CAST * 8)
        # In the order of the casts, in bundles of at most 512 bytes; the long one goes alone.
        self.assertEqual([struct.unpack_from(">I", it, 19)[0] for it in frames], list(range(1, 9)))
        self.assertEqual([it for it in sizes if it > 512], [len(frames[6])])
        self.assertLess(len(sizes), 6)
        site.socket.sendto(raw.bundle(*(site.frame(ACK, it[ID]) for it in frames)), self.address(1))
        wait_until(lambda: " held 0 " in daemon.ask("show 1"), "all are acknowledged")
        self.assert_stops(daemon)

    def test_a_site_that_enters_a_view_late_gets_its_messages(self):
        # The rules send nothing again meanwhile.
        daemon = self.serving(self.setup_of(2, {"number": 1, "resend": 60_000}))
        program, site = self.member(), Site(self, 2)
        self.addCleanup(site.socket.close)
        site.say(ASK, struct.pack(">HIBHI", 1, 1, 1, 2, 1))
        site.hear(INSTALL)
        self.assertEqual(program.kinds(1), [castd.View])
        program.write(cast())
        site.hear(DATA)
        # It passes over what it is sent until it has entered the view.
        self.assertLess(len(site.heard(DATA, 1)), 5)
        site.say(INSTALLED, struct.pack(">HI", 1, 2))
        site.say(ACK, site.hear(DATA)[ID])
        wait_until(lambda: " held 0 " in daemon.ask("show 1"), "it is acknowledged")
        self.assert_stops(daemon)

    def test_random_bundles_are_counted(self):
        daemon, program, site = self.played()
        expected = 0
        for place in range(1, 1_001):
            datagram = bytearray(raw.bundle(*(b"?" + random.randbytes(random.randint(0, 20)) for _ in range(random.randint(1, 4)))))
            for _ in range(random.randint(0, 2)):
                datagram[random.randrange(2, len(datagram))] = random.randrange(256)
            if random.random() < 0.2:
                del datagram[random.randrange(2, len(datagram)) :]
            site.socket.sendto(datagram, self.address(1))
            # What is in it is no frame.
            expected += len(raw.frames_of(bytes(datagram)) or [b""])
            if place % 50 == 0:
                wait_until(lambda: int(daemon.ask("datagrams").split()[-1]) == expected, f"{expected} are counted")
        self.assert_is_served(program)
        self.assertEqual(daemon.ask("stop"), "ok")
        self.assert_ends(daemon, 0)


if __name__ == "__main__":
    unittest.main()
