"""The daemon as programs, other sites and its operator see it, also where they crash, write no frames or do not read."""

from __future__ import annotations

import contextlib
import os
import pathlib
import re
import resource
import select
import socket
import struct
import subprocess
import time

import raw
from daemons import compiled
from harness import PATIENCE, PROGRAM, TESTS, Case, Failed, Setup, Tool, castd, wait_until

Opened, Reply, View, Deliver, Closed = castd.Opened, castd.Reply, castd.View, castd.Deliver, castd.Closed
# What a program is pushed that joins, and that casts.
JOINED, CAST = [Opened, Reply, View], [Reply, Deliver]
UNBOUND = 7
LARGEST = 16_384
# So many casts fill what a program may have to read.
MOST_CASTS = 1_000
# Types of frames between sites, and where an id stands in a Data and in an Ack.
DATA, ACK, ASK, ASKED, PREPARE, FLUSHED, INSTALL, INSTALLED = 1, 2, 4, 5, 6, 7, 10, 11
ID = slice(7, 23)
# Events in a trace before it is trimmed.
MOST_TRACE = 4_096


def events_recorded(folder: str) -> int:
    """How many events a record has: as many as it says that there were before its last piece, and those of this piece."""
    text = ""
    for path in sorted(entry.path for entry in os.scandir(folder)):
        with open(path, encoding="utf-8") as file:
            text += file.read()
    *_, before, events = re.split(r"^# (\d+) events before\n", text, flags=re.MULTILINE)
    return int(before) + sum(not line.startswith("#") for line in events.splitlines())


class Daemon(Tool):
    """A daemon of a set-up, with two workers."""

    def __init__(self, case: Case, setup: Setup, *more: str, **how):
        words = [PROGRAM, "serve", setup.config, "--site", "1", "--workers", "2", *more]
        super().__init__(words, setup.folder, cwd=setup.site_folder(1), **how)
        case.addCleanup(self.end)

    def ask(self, line: str) -> str:
        """The first line of the answer to a line."""
        self.say(f"{line}\n")
        return self.line(PATIENCE)

    def told(self) -> str:
        """What it told its operator, but for how many sites have no seals, and how many events it served."""
        return re.sub(r"castd: (other sites that exchange datagrams without seals|events served): \d+\n", "", self.complained())

    def status(self) -> int | None:
        """How it ends that cannot serve. None where it serves."""
        try:
            self.line(PATIENCE)
        except Failed:
            return self.process.wait(PATIENCE)
        return None


class Program(raw.Session):
    """A program, which is pushed something in time."""

    def hear(self) -> object:
        push = self.read(PATIENCE)
        if push is None:
            raise Failed("a program was pushed nothing")
        return push

    def kinds(self, count: int) -> list[type]:
        """The kinds of the next pushes, which refuse nothing."""
        pushes = [self.hear() for _ in range(count)]
        return [it.code if isinstance(it, Reply) and it.code else type(it) for it in pushes]

    def is_at_end(self) -> bool:
        try:
            return not self.hear()
        except EOFError:
            return True

    def write(self, *commands: castd.codec.Command) -> None:
        """Writes commands at once. Each has its place as its tag."""
        self.socket.sendall(b"".join(castd.codec.frame_of(it, tag) for tag, it in enumerate(commands)))


def cast(payload: bytes = b"hi") -> castd.codec.Cast:
    return castd.codec.Cast(1, castd.CAUSAL, payload)


class DaemonCase(Case):
    def serving(self, setup: Setup | None = None, *more: str, **how) -> Daemon:
        self.setup = setup or self.setup_of()
        daemon = Daemon(self, self.setup, *more, **how)
        self.assertEqual(daemon.line(PATIENCE), "ready")
        return daemon

    def program(self) -> Program:
        program = Program(f"{self.setup.site_folder(1)}/castd.sock")
        self.addCleanup(program.close)
        return program

    def member(self) -> Program:
        """A program that joined."""
        program = self.program()
        program.join(1)
        self.assertEqual(program.kinds(3), JOINED)
        return program

    def pair(self) -> tuple[Program, Program]:
        """Two programs that joined one after the other."""
        first, second = self.member(), self.member()
        self.assertEqual(first.kinds(1), [View])
        return first, second

    def assert_is_served(self, program: Program) -> None:
        program.cast(1, b"hi")
        self.assertEqual(program.kinds(2), CAST)

    def assert_stops(self, daemon: Daemon, told: str = "") -> None:
        self.assertEqual(daemon.ask("stop"), "ok")
        self.assert_ends(daemon, 0)
        # What it would send itself of the last sessions finds its socket shut.
        self.assertEqual(re.sub(r"castd: site \d+: datagrams that could not be sent: \d+\n", "", daemon.told()), told)
        self.assertEqual(os.listdir(self.setup.site_folder(1)), [])

    def address(self, site: int) -> tuple[str, int]:
        host, _, port = self.setup.addresses[site].partition(":")
        return host, int(port)


class Programs(DaemonCase):
    def test_programs_are_served(self):
        daemon = self.serving()
        self.assert_is_served(self.member())
        self.assert_stops(daemon)

    def test_bytes_that_are_no_frame_close_their_program_alone(self):
        for length in (4, 20_001):
            with self.subTest(length):
                daemon = self.serving()
                first, second = self.member(), self.program()
                second.socket.sendall(struct.pack(">I", length))
                self.assertIsInstance(second.hear(), Opened)
                self.assertEqual(second.hear(), Closed(castd.Code.BAD_FRAME))
                self.assertTrue(second.is_at_end())
                self.assert_is_served(first)
                self.assert_stops(daemon)

    def test_many_casts_at_once_reach_both(self):
        daemon = self.serving()
        first, second = self.pair()
        first.write(*[cast()] * 100)
        heard = first.kinds(200)
        self.assertEqual((heard.count(Reply), heard.count(Deliver)), (100, 100))
        self.assertEqual(second.kinds(100), [Deliver] * 100)
        self.assert_stops(daemon)

    def test_one_that_reads_nothing_is_put_out(self):
        daemon = self.serving()
        first, _second = self.pair()
        for _cast in range(MOST_CASTS):
            first.write(cast(bytes(LARGEST)))
            if View in first.kinds(2):
                break
        else:
            self.fail("it is not put out")
        self.assert_stops(daemon)

    def test_casts_of_each_come_in_the_order_written(self):
        # A daemon in which two threads serve one session at once mixes up its entries only now and then.
        daemon = self.serving()
        programs = [*self.pair(), self.member(), self.member()]
        for program, views in zip(programs, (2, 2, 1, 0)):
            self.assertEqual(program.kinds(views), [View] * views)
        casts, others = range(50), range(len(programs))
        for _round in range(20):
            for number, program in enumerate(programs):
                program.write(*(cast(bytes([number, it])) for it in casts))
            for program in programs:
                heard = [program.hear() for _ in range(len(casts) * (1 + len(programs)))]
                self.assertEqual([it.tag for it in heard if isinstance(it, Reply) and not it.code], [*casts])
                for number in others:
                    payloads = [it.payload for it in heard if isinstance(it, Deliver) and it.payload[0] == number]
                    self.assertEqual(payloads, [bytes([number, it]) for it in casts])
        self.assert_stops(daemon)

    def test_one_that_writes_no_more_is_told_all(self):
        daemon = self.serving()
        program = self.member()
        program.write(*[cast()] * 3)
        program.socket.shutdown(socket.SHUT_WR)
        self.assertEqual(program.kinds(6), CAST * 3)
        self.assertTrue(program.is_at_end())
        self.assert_stops(daemon)

    def test_those_that_crash_give_their_sessions_back(self):
        daemon = self.serving()
        for _program in range(64):
            program = self.program()
            # It is let in or refused, so all before it have been.
            program.hear()
            # The daemon may close it before all is written.
            with contextlib.suppress(OSError):
                program.write(castd.codec.Join(1), *[cast()] * 200)
            program.close()
        wait_until(lambda: daemon.ask("show 1").startswith("domain 1 sessions 0 "), "no session is left", within=2)
        self.assert_is_served(self.member())
        self.assert_stops(daemon)

    def test_a_daemon_under_load_stops(self):
        daemon = self.serving()
        program = self.member()
        program.socket.settimeout(PATIENCE)
        program.write(*[cast()] * 2_000)
        self.assert_stops(daemon)

    def test_what_is_recorded_replays(self):
        record = f"{self.folder}/record"
        os.mkdir(record)
        daemon = self.serving(None, "--record", record)
        program = self.member()
        program.write(*[cast()] * 300)
        program.socket.shutdown(socket.SHUT_WR)
        heard = []
        with contextlib.suppress(EOFError):
            while True:
                heard.append(program.hear())
        self.assert_stops(daemon)
        modes = {os.stat(file).st_mode & 0o777 for file in os.scandir(record)}
        self.assertEqual(modes, {0o600})
        ran = subprocess.run([PROGRAM, "replay", record], capture_output=True, text=True, timeout=PATIENCE, check=True)
        pushes = re.findall("^push 1 1 (.*)$", ran.stdout, flags=re.MULTILINE)
        self.assertGreaterEqual(len(heard), 300)
        self.assertEqual(daemon.complained(), f"castd: events served: {events_recorded(record)}\n")
        self.assertEqual(pushes[3:], [castd.text_of(it).replace("causal hi", "causal 6869") for it in heard])


class Sockets(DaemonCase):
    def test_a_path_that_is_in_use_is_named(self):
        setup = self.setup_of()
        path = f"{setup.site_folder(1)}/castd.sock"
        with socket.socket(socket.AF_UNIX) as taken:
            taken.bind(path)
            taken.listen()
            daemon = Daemon(self, setup)
            self.assertEqual(daemon.status(), UNBOUND)
        self.assertEqual(daemon.complained(), "castd: socket: castd.sock: in use\n")
        self.assertTrue(os.path.exists(path))

    def test_a_file_that_is_no_socket_stays(self):
        setup = self.setup_of()
        path = pathlib.Path(setup.site_folder(1), "castd.sock")
        target = pathlib.Path(self.folder, "target.sock")
        with socket.socket(socket.AF_UNIX) as dead:
            dead.bind(str(target))
        for make in (lambda: path.write_text("mine"), path.mkdir, lambda: path.symlink_to(target)):
            make()
            daemon = Daemon(self, setup)
            self.assertEqual(daemon.status(), UNBOUND)
            self.assertEqual(daemon.complained(), "castd: socket: castd.sock: the file is no socket\n")
            self.assertTrue(path.exists() and target.exists())
            path.rmdir() if path.is_dir() else path.unlink()

    def test_the_socket_of_a_daemon_that_was_killed_makes_room(self):
        daemon = self.serving()
        daemon.process.kill()
        daemon.process.wait()
        path = pathlib.Path(self.setup.site_folder(1), "castd.sock")
        self.assertTrue(path.is_socket())
        again = Daemon(self, self.setup)
        self.assertEqual(again.line(PATIENCE), "ready")
        self.session(self.setup)
        self.assertEqual(again.ask("stop"), "ok")
        self.assert_ends(again, 0)
        self.assertFalse(path.exists())

    def test_an_address_that_is_none_is_named(self):
        setup = self.setup_of()
        setup.config = setup.write("nowhere.conf", {1: "nowhere"})
        daemon = Daemon(self, setup)
        self.assertEqual(daemon.status(), UNBOUND)
        self.assertEqual(daemon.complained(), "castd: socket: nowhere\n")

    def setup_of_two(self) -> Setup:
        return self.setup_of(1, {"number": 1, "socket": "1.sock"}, {"number": 2, "socket": "2.sock"})

    def test_a_socket_that_another_daemon_made_at_its_path_stays(self):
        daemon = self.serving()
        path = f"{self.setup.site_folder(1)}/castd.sock"
        os.unlink(path)
        with socket.socket(socket.AF_UNIX) as other:
            other.bind(path)
            self.assertEqual(daemon.ask("stop"), "ok")
            self.assert_ends(daemon, 0)
            self.assertTrue(os.path.exists(path))

    def test_no_file_stays_where_a_socket_cannot_listen(self):
        library = f"{self.folder}/deaf.so"
        subprocess.run(["cc", "-shared", "-fPIC", "-o", library, str(TESTS / "deaf.c")], check=True)
        setup = self.setup_of_two()
        daemon = Daemon(self, setup, env={**os.environ, "LD_PRELOAD": library})
        self.assertEqual(daemon.status(), UNBOUND)
        self.assertEqual(daemon.complained(), "castd: socket: 2.sock\n")
        self.assertEqual(os.listdir(setup.site_folder(1)), [])

    def test_no_file_stays_where_descriptors_run_out(self):
        setup, told = self.setup_of_two(), set()
        for most in range(4, 40):
            limit = lambda most=most: resource.setrlimit(resource.RLIMIT_NOFILE, (most, most))
            daemon = Daemon(self, setup, preexec_fn=limit)
            status = daemon.status()
            if status is None:
                break
            told.add((status, daemon.complained()))
            self.assertEqual(os.listdir(setup.site_folder(1)), [])
            daemon.end()
        self.assertIsNone(status)
        unbound = {(UNBOUND, f"castd: socket: {it}\n") for it in (setup.addresses[1], "1.sock", "2.sock")}
        self.assertEqual(told, unbound)


class Floods(DaemonCase):
    """What bench/tenants measures, at one flood."""

    PROGRAMS, SECONDS, TRIES = 16, 3.0, 5

    def test_a_tenant_with_many_programs_has_one_place_at_the_table(self):
        flooded = {"number": 1, "socket": "1.sock", "sessions": 64, "held": 1_024, "outbox": 4_096}
        self.serving(self.setup_of(1, flooded, {"number": 2, "socket": "2.sock"}))
        self.flood = compiled(self.folder, "flood", "flood.c", "../clients/c/castd.c")
        other = Program(f"{self.setup.site_folder(1)}/2.sock")
        self.addCleanup(other.close)
        other.join(1)
        self.assertEqual(other.kinds(3), JOINED)
        alone = self.casts_for(other, 1.0)
        # Where the machine does much else, the other program may not get the processor when it could cast. It does once in a few tries.
        for _ in range(self.TRIES):
            casts, most = self.casts_beside_a_flood(other)
            if casts > most and 30 * casts / self.SECONDS > alone:
                break
        # It does more than any of theirs, of which each has 32 casts under way. If all had one place each, it would do far less.
        self.assertGreater(casts, most)
        # Nor does it do far less than without them.
        self.assertGreater(30 * casts / self.SECONDS, alone)

    def casts_beside_a_flood(self, other: Program) -> tuple[int, int]:
        """How many casts a program makes while those of another domain cast as fast as they can, and the most that one of them makes."""
        words = [self.flood, f"{self.setup.site_folder(1)}/1.sock", "causal", "1", str(self.SECONDS)]
        programs = [Tool(words, self.folder) for _ in range(self.PROGRAMS)]
        for it in programs:
            self.addCleanup(it.end)
            self.assertEqual(it.line(PATIENCE), "ready")
        for it in programs:
            it.say("\n")
        casts = self.casts_for(other, self.SECONDS)
        return casts, max(int(it.line(PATIENCE).removeprefix("casts=")) for it in programs)

    def casts_for(self, program: Program, seconds: float) -> int:
        """How many casts a program makes, each once the one before has come back."""
        casts, end = 0, time.monotonic() + seconds
        while time.monotonic() < end:
            self.assert_is_served(program)
            casts += 1
        return casts


class Datagrams(DaemonCase):
    def test_garbage_is_counted_and_does_no_harm(self):
        daemon = self.serving(self.setup_of(2, {"number": 1}))
        program, site = self.member(), self.site(2)
        for _datagram in range(10_000):
            # The system may have no room for one.
            with contextlib.suppress(OSError):
                site.socket.sendto(b"garbage", self.address(1))
        wait_until(lambda: self.counts(daemon)["undecoded"] > 0, "one is counted")
        self.assert_is_served(program)
        self.assertEqual(daemon.told().partition("\n")[0], "castd: datagrams that could not be read: 1")
        self.assertEqual(daemon.ask("stop"), "ok")
        self.assert_ends(daemon, 0)

    def site(self, number: int) -> Site:
        site = Site(self, number)
        self.addCleanup(site.socket.close)
        return site

    def counts(self, daemon: Daemon) -> dict[str, int]:
        _, *words = daemon.ask("datagrams").split()
        return {name: int(count) for name, count in zip(words[::2], words[1::2])}

    def test_each_frame_of_a_bundle_is_served(self):
        daemon = self.serving(self.setup_of(2, {"number": 1, "resend": 60_000}))
        program, site = self.member(), self.site(2)
        site.enter(2)
        self.assertEqual(program.kinds(1), [View])
        program.write(*[cast()] * 4)
        acks = [site.frame(ACK, site.hear(DATA)[ID]) for _ in range(4)]
        whole = raw.bundle(*acks)
        bad = (
            *(raw.bundle(*acks, head=head) for head in (b"CB\0\0", b"CB\2\0", b"CB\1\1")),
            *(raw.bundle(), b"CB", b"CB\1", whole[:-1], whole + b"\0", whole[:4] + b"\0" + whole[4:]),
        )
        for datagram in bad:
            site.socket.sendto(datagram, self.address(1))
        wait_until(lambda: self.counts(daemon)["undecoded"] == len(bad), "they are refused")
        self.assertRegex(daemon.ask("show 1"), " held 4 ")
        # One of them is no frame, and one is of another site.
        site.socket.sendto(raw.bundle(acks[0], b"garbage", *acks[1:], site.frame(ACK, acks[0][7:], 3), b""), self.address(1))
        wait_until(lambda: " held 0 " in daemon.ask("show 1"), "the others are served")
        wait_until(lambda: self.counts(daemon)["undecoded"] == len(bad) + 3, "they are counted")
        self.assertEqual(daemon.ask("stop"), "ok")
        self.assert_ends(daemon, 0)

    def test_a_message_that_seems_lost_is_sent_again(self):
        # By the rules nothing is sent again for a minute.
        daemon = self.serving(self.setup_of(2, {"number": 1, "resend": 60_000}))
        program, site = self.member(), self.site(2)
        site.enter(2)
        self.assertEqual(program.kinds(1), [View])
        program.write(*[cast()] * 4)
        first = site.hear(DATA)
        while (again := site.hear(DATA)) != first:
            site.say(ACK, again[ID])
        self.assert_stops(daemon)

    def test_a_site_that_answers_nothing_is_sent_little_until_it_answers(self):
        quotas = {"held": 1_024, "outbox": 4_096, "resend": 200}
        daemon = self.serving(self.setup_of(2, {"number": 1, **quotas}))
        program, site = self.member(), self.site(2)
        site.enter(2)
        self.assertEqual(program.kinds(1), [View])
        # So many pass before the pace holds casts back, and find room in the site's socket at once. By the rules alone each goes there
        # five times a second.
        program.write(*[cast()] * 150)
        site.heard(DATA, 1.5)
        heard = site.heard(DATA, 2.0)
        self.assertLess(0, len(heard))
        self.assertLessEqual(len(heard), 2.0 * 110)
        site.say(ACK, heard[-1][ID])
        self.assertEqual(len({frame[ID] for frame in site.heard(DATA, 2.0)} | {heard[-1][ID]}), 150)
        self.assert_stops(daemon)

    def test_a_message_goes_ever_more_seldom_to_a_site_that_answers_others(self):
        daemon = self.serving(self.setup_of(2, {"number": 1, "resend": 50}))
        program, site = self.member(), self.site(2)
        site.enter(2)
        self.assertEqual(program.kinds(1), [View])
        program.write(cast())
        first, again, begun = site.hear(DATA)[ID], 0, time.monotonic()
        # By the rules it goes to the site twenty times a second.
        for _ in range(40):
            program.write(cast())
            frames = site.heard(DATA, 0.05)
            again += sum(frame[ID] == first for frame in frames)
            for frame in frames:
                if frame[ID] != first:
                    site.say(ACK, frame[ID])
        # Three times since later ones are acknowledged, three times by the rules, and then at most every eighth time.
        self.assertGreaterEqual(again, 4)
        self.assertLessEqual(again, 7 + (time.monotonic() - begun) * 20 / 8)
        self.assert_stops(daemon)

    def test_one_that_cannot_be_sent_is_counted_and_the_others_are_sent(self):
        setup = self.setup_of(2, {"number": 1}, {"number": 2, "home": 2, "socket": "second.sock"})
        # Only a socket that asked for it may send to all hosts.
        setup.addresses[2] = "255.255.255.255:9"
        setup.config = setup.write("castd.conf", setup.addresses)
        daemon = self.serving(setup)
        second = Program(f"{setup.site_folder(1)}/second.sock")
        self.addCleanup(second.close)
        before = self.counts(daemon)
        # Its home is asked.
        second.join(1)
        wait_until(lambda: self.counts(daemon)["lost"] > before["lost"], "one is lost")
        # The reporter says so in its own time.
        wait_until(lambda: daemon.told() != "", "it is reported")
        self.assertEqual(daemon.told().partition("\n")[0], "castd: site 2: datagrams that could not be sent: 1")
        self.assert_is_served(self.member())
        self.assertGreater(self.counts(daemon)["sent"], before["sent"])

    def test_those_of_strangers_and_in_the_name_of_another_site_are_passed_over(self):
        daemon = self.serving(self.setup_of(3, {"number": 1}))
        program, second, third = self.member(), self.site(2), self.site(3)
        ask = struct.pack(">HIBHI", 1, 1, 1, 2, 1)
        with socket.socket(socket.AF_INET, socket.SOCK_DGRAM) as stranger:
            stranger.sendto(struct.pack(">2s3BH", b"CD", 1, ASK, 1, 2) + ask, self.address(1))
        third.say(ASK, ask, 2)
        wait_until(lambda: self.counts(daemon)["undecoded"] == 1, "that of site 3 is counted")
        self.assert_is_served(program)
        self.assertEqual(second.heard(ASKED, 0.5), [])
        second.enter(2)
        self.assertEqual(program.kinds(1), [View])


class Site:
    """A site that a test plays. It acknowledges what the test says, and nothing else."""

    def __init__(self, case: DaemonCase, number: int):
        self.number, self.daemon = number, case.address(1)
        self.socket = socket.socket(socket.AF_INET, socket.SOCK_DGRAM)
        self.socket.bind(case.address(number))
        self.socket.settimeout(PATIENCE)
        # The frames of the last datagram that were not heard yet.
        self.frames: list[bytes] = []

    def frame(self, kind: int, fields: bytes, number: int | None = None) -> bytes:
        """A frame of domain 1, in the name of another site if one is named."""
        return struct.pack(">2s3BH", b"CD", 1, kind, 1, number or self.number) + fields

    def say(self, kind: int, fields: bytes, number: int | None = None) -> None:
        self.socket.sendto(self.frame(kind, fields, number), self.daemon)

    def hear(self, kind: int) -> bytes:
        """The next frame of this type."""
        while True:
            while not self.frames:
                self.frames = raw.frames_of(self.received())
            frame = self.frames.pop(0)
            if frame[3] == kind:
                return frame

    def received(self) -> bytes:
        """The next datagram."""
        return self.socket.recv(65_536)

    def heard(self, kind: int, seconds: float) -> list[bytes]:
        """The frames of this type that come within so many seconds, each in a datagram of its own."""
        end, frames = time.monotonic() + seconds, []
        while (left := end - time.monotonic()) > 0:
            if select.select([self.socket], [], [], left)[0]:
                frames.append(self.socket.recv(65_536))
        return [frame for frame in frames if frame[3] == kind]

    def enter(self, view: int) -> None:
        """Its process 1 comes into group 1, in this view."""
        self.say(ASK, struct.pack(">HIBHI", 1, 1, 1, self.number, 1))
        self.hear(INSTALL)
        self.say(INSTALLED, struct.pack(">HI", 1, view))


class Console(DaemonCase):
    def test_it_stops_although_nobody_reads_its_reports(self):
        path = f"{self.folder}/reports"
        os.mkfifo(path)
        pipe = os.open(path, os.O_RDWR | os.O_NONBLOCK)
        self.addCleanup(os.close, pipe)
        with contextlib.suppress(BlockingIOError):
            while True:
                os.write(pipe, bytes(4_096))
        daemon = self.serving(self.setup_of(2, {"number": 1}), inside=["sh", "-c", f'exec "$@" 2>> {path}', "sh"])
        with Site(self, 2).socket as link:
            link.sendto(b"garbage", self.address(1))
        wait_until(lambda: daemon.ask("datagrams").endswith(" undecoded 1"), "a datagram is counted")
        self.assertEqual(daemon.ask("stop"), "ok")
        self.assert_ends(daemon, 0)

    def test_lines_are_answered(self):
        daemon = self.serving()
        self.assert_is_served(self.member())
        for line, answer in (
            ("domains", "domain 1 running"),
            ("show 1", r"domain 1 sessions 1 held 0 casts 1 moment \d+"),
            ("groups 1", "group 1 view 1 holder 1.1 members 1.1 open"),
            ("trace", r"events (\d+) kept \1"),
            ("show 9", "no domain"),
            ("quota 1 held 0", "refused 15"),
            ("", "fault 1"),
            ("show", "fault 3"),
            ("show x", "fault 4"),
            ("shown x", "fault 2"),
            ("quota x home y", "fault 4"),
            ("quota 1 home y", "fault 2"),
            ("trace 1", "fault 3"),
            ("groups 9", "no domain"),
            ("suspect 9 1", "no domain"),
            ("quota 1 held 12", "ok"),
            ("suspect 1 1", "ok"),
            # It sends itself what other sites would be sent.
            ("datagrams", r"datagrams sent [1-9]\d* received [1-9]\d* lost 0 undecoded 0"),
            ("record", "record off"),
            ("record 1", "fault 3"),
        ):
            with self.subTest(line):
                self.assertRegex(daemon.ask(line), f"^{answer}$")
        self.assert_stops(daemon)

    def test_a_line_that_is_not_utf_8_is_a_fault(self):
        daemon = self.serving()
        daemon.process.stdin.write(b"\xff\xfe\n")
        self.assertEqual(daemon.line(PATIENCE), "fault 2")
        self.assertEqual(daemon.ask("domains"), "domain 1 running")
        self.assert_stops(daemon)

    def test_domains_are_told_in_the_order_of_their_numbers(self):
        domains = ({"number": 255, "socket": "255.sock", "groups": [1, 2]}, {"number": 2, "socket": "castd.sock"})
        daemon = self.serving(self.setup_of(1, *domains))
        self.assertIsInstance(self.program().hear(), Opened)
        self.assertEqual([daemon.ask("domains"), daemon.line(PATIENCE)], ["domain 2 running", "domain 255 running"])
        groups = [daemon.ask("groups 255"), daemon.line(PATIENCE)]
        self.assertEqual(groups, ["group 1 view 0 none", "group 2 view 0 none"])
        self.assertRegex(daemon.ask("show 2"), r"^domain 2 sessions 1 held 0 casts 0 moment \d+$")
        self.assertRegex(daemon.ask("show 255"), r"^domain 255 sessions 0 held 0 casts 0 moment \d+$")
        self.assert_stops(daemon)

    def test_each_event_is_counted(self):
        daemon = self.serving()
        before = daemon.ask("trace").split()
        # One is refused, and one names no domain, which is no event.
        for line in ("quota 1 held 0", "quota 1 held 12", "quota 9 held 12", "suspect 1 1"):
            daemon.ask(line)
        after = daemon.ask("trace").split()
        # Ticks are events too.
        self.assertIn(int(after[1]) - int(before[1]), range(3, 100))
        self.assert_stops(daemon)

    def test_a_full_trace_is_trimmed(self):
        daemon, seen = self.serving(), set()
        while len(seen) < 2:
            daemon.say("quota 1 held 12\n" * 64 + "trace\n")
            for _line in range(64):
                self.assertEqual(daemon.line(PATIENCE), "ok")
            found = re.fullmatch(r"events (\d+) kept (\d+)", daemon.line(PATIENCE))
            events, kept = map(int, found.groups())
            self.assertEqual((events - 1) % MOST_TRACE + 1, kept)
            seen.add(events > MOST_TRACE)
        self.assert_stops(daemon)

    def test_a_trace_with_many_bytes_of_payloads_is_trimmed(self):
        daemon = self.serving()
        program, events, kept = self.member(), 0, 0
        while events == kept:
            program.write(*[cast(bytes(LARGEST))] * 16)
            self.assertEqual(program.kinds(32).count(Deliver), 16)
            found = re.fullmatch(r"events (\d+) kept (\d+)", daemon.ask("trace"))
            events, kept = map(int, found.groups())
            self.assertLessEqual(events, MOST_TRACE)
        self.assert_stops(daemon)

    def test_datagrams_and_what_is_not_recorded_yet_are_counted(self):
        record = f"{self.folder}/record"
        os.mkdir(record)
        daemon = self.serving(self.setup_of(2, {"number": 1}), "--record", record)
        with Site(self, 2).socket as link:
            for data in (b"garbage", b"CD\1\2", struct.pack(">2s3BHHI", b"CD", 1, INSTALLED, 1, 2, 1, 1)):
                link.sendto(data, self.address(1))
            counted = "datagrams sent 0 received 3 lost 0 undecoded 2"
            wait_until(lambda: daemon.ask("datagrams") == counted, "they are counted")
        end, waiting = time.monotonic() + PATIENCE, 0
        while not waiting:
            self.assertLess(time.monotonic(), end)
            daemon.say("quota 1 held 12\n" * 16 + "record\n")
            for _line in range(16):
                self.assertEqual(daemon.line(PATIENCE), "ok")
            found = re.fullmatch(r"record running waiting (\d+) lost 0", daemon.line(PATIENCE))
            waiting = int(found[1])
        self.assert_stops(daemon, "castd: datagrams that could not be read: 1\n")
