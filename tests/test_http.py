"""The pages of the keeper: what Prometheus is served, and whoever asks whether a site is healthy."""

from __future__ import annotations

import contextlib
import email.utils
import http.client
import os
import signal
import socket
import struct
import subprocess
import time

from harness import PATIENCE, TOOLS, Case, Client, Keeper, Setup, wait_until

METRICS_PORT = 9_477
MOST_CLIENTS = 16
LONGEST_HEAD = 8_192
SILENT_SECONDS = 5.0
# What changes from one moment to the next.
OF_THE_MOMENT = ("castd_uptime_seconds{", "castd_resident_memory_bytes{", "castd_open_descriptors{")


class PagesCase(Case):
    """Tests of a keeper that serves pages at an address that no other test has."""

    def address(self, setup: Setup) -> tuple[str, int]:
        return setup.hosts[1], METRICS_PORT

    def words(self, setup: Setup) -> list[str]:
        host, port = self.address(setup)
        return ["--metrics", f"{host}:{port}"]

    def paged(self, setup: Setup, site: int = 1) -> Keeper:
        return self.keeper(setup, site, more=self.words(setup))

    def paged_stand_in(self, setup: Setup, **plan) -> Keeper:
        return self.stand_in(setup, more=self.words(setup), **plan)

    def get(self, setup: Setup, path: str, method: str = "GET") -> tuple[int, str]:
        """The status and the text of what is answered."""
        with contextlib.closing(http.client.HTTPConnection(*self.address(setup), timeout=PATIENCE)) as asking:
            asking.request(method, path)
            answered = asking.getresponse()
            return answered.status, answered.read().decode()

    def connected(self, setup: Setup) -> socket.socket:
        connected = socket.create_connection(self.address(setup), PATIENCE)
        self.addCleanup(connected.close)
        return connected

    def said(self, setup: Setup, data: bytes) -> bytes:
        """All that is answered to these bytes, up to the end of the connection."""
        connected = self.connected(setup)
        connected.sendall(data)
        return rest_of(connected)


def rest_of(connected: socket.socket) -> bytes:
    """All that comes up to the end of a connection."""
    return b"".join(iter(lambda: connected.recv(65_536), b""))


def is_closed(connected: socket.socket) -> bool:
    """Whether the other end has closed a connection, also where what it has sent is not read."""
    try:
        connected.send(b"\n")
    except OSError:
        return True
    return False


def status_of(answer: bytes) -> int:
    version, status, _ = answer.split(b" ", 2)
    assert version == b"HTTP/1.1", answer
    return int(status)


class Pages(PagesCase):
    def test_metrics_are_those_that_castctl_prints(self):
        setup = self.setup_of(1, {"number": 1, "groups": [1, 2]})
        answers = {"trace": ["events 6 kept 7"], "groups 1": ["group 1 view 9 holder 1.2 members 1.2 2.1 frozen"]}
        keeper = self.paged_stand_in(setup, answers=answers)
        status, text = self.get(setup, "/metrics")
        self.assertEqual(status, 200)
        _, printed = keeper.castctl("metrics")
        lasting = [
            [line for line in it.split("\n") if not line.startswith(OF_THE_MOMENT)] for it in (text, printed)
        ]
        self.assertEqual(*lasting)
        self.assertIn('castd_events_total{site="1"} 6', lasting[0])
        self.assertIn('castd_group_frozen{site="1",domain="1",group="1"} 1', lasting[0])

    def test_a_response_says_what_it_has(self):
        setup = self.setup_of()
        self.paged(setup)
        before = time.time()
        head, _, body = self.said(setup, b"GET /metrics HTTP/1.1\r\nHost: x\r\n\r\n").partition(b"\r\n\r\n")
        line, *fields = head.decode().split("\r\n")
        self.assertEqual(line, "HTTP/1.1 200 OK")
        told = dict(field.split(": ", 1) for field in fields)
        date = email.utils.parsedate_to_datetime(told.pop("Date")).timestamp()
        self.assertTrue(int(before) <= date <= time.time(), date)
        self.assertEqual(
            told,
            {
                "Content-Type": "text/plain; version=0.0.4; charset=utf-8",
                "Content-Length": str(len(body)),
                "Connection": "close",
            },
        )
        self.assertTrue(body.endswith(b"\n"))

    def test_health_has_a_status(self):
        setup = self.setup_of()
        self.paged(setup)
        self.assertEqual(self.get(setup, "/health"), (200, "healthy\n"))
        setup = self.setup_of()
        answers = {"domains": ["domain 1 running", "domain 2 halted"], "record": ["record ended"]}
        self.paged_stand_in(setup, answers=answers)
        expected = (503, "unhealthy: domain 2 is halted\nunhealthy: the record has ended\n")
        self.assertEqual(self.get(setup, "/health"), expected)

    def test_a_daemon_that_hangs_is_told(self):
        setup = self.setup_of()
        keeper = self.paged(setup)
        os.kill(keeper.daemon(), signal.SIGSTOP)
        status, text = self.get(setup, "/metrics")
        self.assertEqual(status, 200)
        self.assertIn('castd_up{site="1"} 0\n', text)
        self.assertIn("castd_resident_memory_bytes{", text)
        self.assertEqual(self.get(setup, "/health"), (503, "unhealthy: the daemon does not answer within 2 s\n"))
        os.kill(keeper.daemon(), signal.SIGCONT)
        self.assertIn('castd_up{site="1"} 1\n', self.get(setup, "/metrics")[1])

    def test_nothing_is_served_unless_it_is_asked_for(self):
        setup = self.setup_of()
        self.keeper(setup)
        with self.assertRaises(ConnectionRefusedError):
            socket.create_connection(self.address(setup), PATIENCE)

    def test_pages_end_with_the_daemon(self):
        setup = self.setup_of()
        keeper = self.paged(setup)
        self.assertEqual(self.get(setup, "/health")[0], 200)
        os.kill(keeper.daemon(), signal.SIGKILL)
        self.assert_ends(keeper, 128 + signal.SIGKILL)
        with self.assertRaises(ConnectionRefusedError):
            socket.create_connection(self.address(setup), PATIENCE)


class Requests(PagesCase):
    def test_forms_of_a_request(self):
        setup = self.setup_of()
        self.paged(setup)
        for request in (
            b"GET /health HTTP/1.1\r\nHost: x\r\n\r\n",
            b"GET /health HTTP/1.0\r\n\r\n",
            b"GET /health?now HTTP/1.1\r\nHost: x\r\n\r\n",
            b"GET http://x:9477/health?now HTTP/1.1\r\nHost: x\r\n\r\n",
            b"\r\nGET /health HTTP/1.1\r\nHost: x\r\n\r\n",
            b"GET /health HTTP/1.1\nHost: x\n\n",
            b"GET /health HTTP/1.1\r\nHost: x\r\n\r\nGET /metrics HTTP/1.1\r\nHost: x\r\n\r\n",
        ):
            with self.subTest(request):
                head, _, body = self.said(setup, request).partition(b"\r\n\r\n")
                self.assertEqual((status_of(head), body), (200, b"healthy\n"))

    def test_a_request_may_come_in_pieces(self):
        setup = self.setup_of()
        self.paged(setup)
        connected = self.connected(setup)
        for piece in (b"GET /hea", b"lth HTTP/1.1\r", b"\nHost: x\r\n\r", b"\n"):
            connected.sendall(piece)
            time.sleep(0.1)
        self.assertEqual(status_of(rest_of(connected)), 200)

    def test_what_is_not_served_has_a_status(self):
        setup = self.setup_of()
        self.paged(setup)
        for request, status in (
            (b"GET / HTTP/1.1", 404),
            (b"GET /metrics/ HTTP/1.1", 404),
            (b"GET /Metrics HTTP/1.1", 404),
            (b"GET /%6detrics HTTP/1.1", 404),
            (b"GET * HTTP/1.1", 404),
            (b"POST /metrics HTTP/1.1", 405),
            (b"DELETE /health HTTP/1.1", 405),
            (b"get /metrics HTTP/1.1", 405),
            (b"GET /metrics HTTP/2.0", 400),
            (b"GET /metrics", 400),
            (b"GET  /metrics HTTP/1.1", 400),
            (b"GET /met rics HTTP/1.1", 400),
            (b"GET http://[/metrics HTTP/1.1", 400),
            (b"\xff\xfe\x00", 400),
            (b"domains", 400),
        ):
            with self.subTest(request):
                self.assertEqual(status_of(self.said(setup, request + b"\r\nHost: x\r\n\r\n")), status)
        with self.subTest("what is allowed"):
            self.assertIn(b"\r\nAllow: GET\r\n", self.said(setup, b"PUT /metrics HTTP/1.1\r\nHost: x\r\n\r\n"))
        with self.subTest("the head alone"):
            head, _, body = self.said(setup, b"HEAD /metrics HTTP/1.1\r\nHost: x\r\n\r\n").partition(b"\r\n\r\n")
            self.assertEqual((status_of(head), body), (405, b""))

    def test_a_head_has_8_kib_at_most(self):
        setup = self.setup_of()
        self.paged(setup)
        line, end = b"GET /health HTTP/1.1\r\nX: ", b"\r\n\r\n"
        room = LONGEST_HEAD - len(line + end)
        for filling, status in ((room, 200), (room + 1, 431), (1_000_000, 431)):
            with self.subTest(filling):
                self.assertEqual(status_of(self.said(setup, line + b"x" * filling + end)), status)
        with self.subTest("the line"):
            self.assertEqual(status_of(self.said(setup, b"GET /" + b"x" * 10_000)), 431)

    def test_what_a_client_says_besides_is_read(self):
        setup = self.setup_of()
        self.paged(setup)
        connected = self.connected(setup)
        connected.sendall(b"POST /metrics HTTP/1.1\r\nHost: x\r\nContent-Length: 300000\r\n\r\n")
        for _ in range(3):
            time.sleep(0.1)
            connected.sendall(b"x" * 100_000)
        self.assertTrue(rest_of(connected).endswith(b"pages are read by GET\n"))


class Clients(PagesCase):
    def test_who_says_nothing_is_let_go_of(self):
        setup = self.setup_of()
        self.paged(setup)
        for begun in (b"", b"GET /metrics HTT"):
            with self.subTest(begun):
                connected = self.connected(setup)
                since = time.monotonic()
                connected.sendall(begun)
                self.assertEqual(rest_of(connected), b"")
                self.assertAlmostEqual(time.monotonic() - since, SILENT_SECONDS, delta=2)

    def test_who_says_little_at_a_time_or_stays_is_let_go_of(self):
        setup = self.setup_of()
        self.paged(setup)
        for request in (b"", b"GET /health HTTP/1.1\r\n\r\n"):
            with self.subTest(request):
                connected = self.connected(setup)
                since = time.monotonic()
                connected.sendall(request)
                with self.assertRaises(OSError):
                    while time.monotonic() - since < PATIENCE:
                        connected.sendall(b"x")
                        time.sleep(0.5)
                self.assertAlmostEqual(time.monotonic() - since, SILENT_SECONDS, delta=2)

    def test_one_more_takes_the_place_of_who_says_nothing(self):
        setup = self.setup_of()
        self.paged(setup)
        silent = [self.connected(setup) for _ in range(MOST_CLIENTS)]
        since = time.monotonic()
        self.assertEqual(self.get(setup, "/health"), (200, "healthy\n"))
        self.assertEqual(rest_of(silent[0]), b"")
        self.assertLess(time.monotonic() - since, SILENT_SECONDS / 2)
        silent[1].sendall(b"GET /health HTTP/1.1\r\n\r\n")
        self.assertEqual(status_of(rest_of(silent[1])), 200)

    def test_more_than_can_be_answered_are_refused(self):
        setup = self.setup_of()
        keeper = self.paged_stand_in(setup, delays={"trace": 3})
        answered = [self.connected(setup) for _ in range(MOST_CLIENTS)]
        for connected in answered:
            connected.sendall(b"GET /metrics HTTP/1.1\r\n\r\n")
        time.sleep(1)
        self.assertEqual(self.get(setup, "/health"), (503, "too many clients\n"))
        # However many come, the keeper has descriptors left.
        open_files = f"/proc/{keeper.process.pid}/fd"
        before = len(os.listdir(open_files))
        more = [self.connected(setup) for _ in range(3 * MOST_CLIENTS)]
        self.assertEqual(keeper.ask("suspected"), "")
        self.assertLess(len(os.listdir(open_files)), before + 2 * MOST_CLIENTS)
        wait_until(lambda: is_closed(more[-1]), "one too many is let go of", SILENT_SECONDS / 2)
        self.assertEqual({status_of(rest_of(connected)) for connected in answered}, {200})
        self.assertEqual(self.get(setup, "/health"), (200, "healthy\n"))

    def test_many_who_ask_wait_no_longer_than_one(self):
        setup = self.setup_of()
        keeper = self.paged_stand_in(setup, delays={"trace": 2})
        since = time.monotonic()
        asking = [self.connected(setup) for _ in range(MOST_CLIENTS)]
        for connected in asking:
            connected.sendall(b"GET /metrics HTTP/1.1\r\n\r\n")
        time.sleep(0.5)
        self.assertEqual(keeper.castctl("domains"), (0, "domain 1 running\n"))
        for connected in asking:
            self.assertIn(b'castd_up{site="1"} 1\n', rest_of(connected))
        self.assertLess(time.monotonic() - since, 4)

    def test_who_does_not_read_or_dies_holds_up_nobody(self):
        domains = [
            {"number": it, "groups": list(range(1, 33)), "socket": f"{it}.sock"} for it in range(1, 17)
        ]
        setup = self.setup_of(1, *domains)
        keeper = self.paged(setup)
        self.assertGreater(len(self.get(setup, "/metrics")[1]), 80_000)
        for _ in range(MOST_CLIENTS):
            gone = self.connected(setup)
            gone.sendall(b"GET /metrics HTTP/1.1\r\n\r\n")
            gone.setsockopt(socket.SOL_SOCKET, socket.SO_LINGER, struct.pack("ii", 1, 0))
            gone.close()
        unread = [self.unread(setup) for _ in range(MOST_CLIENTS)]
        since = time.monotonic()
        self.assertEqual(keeper.ask("show 1").split(" ")[0], "domain")
        self.assertLess(time.monotonic() - since, SILENT_SECONDS)
        for connected in unread:
            wait_until(lambda: is_closed(connected), "one who does not read is let go of", 4 * SILENT_SECONDS)
        self.assertEqual(self.get(setup, "/health"), (200, "healthy\n"))
        keeper.process.send_signal(signal.SIGTERM)
        self.assert_ends(keeper, 0)
        self.assertRegex(keeper.complained(), r"\Acastd: events served: \d+\n\Z")

    def unread(self, setup: Setup) -> socket.socket:
        """A client that has asked for the metrics, and has no room to read them."""
        connected = socket.socket()
        self.addCleanup(connected.close)
        connected.setsockopt(socket.SOL_SOCKET, socket.SO_RCVBUF, 1)
        connected.connect(self.address(setup))
        connected.sendall(b"GET /metrics HTTP/1.1\r\n\r\n")
        return connected

    def test_the_keeper_ends_at_once_whoever_is_connected(self):
        setup = self.setup_of()
        keeper = self.paged(setup)
        self.addCleanup(Client(keeper.control).close)
        for begun in (b"", b"GET /metrics HTT", b"GET /metrics HTTP/1.1\r\n\r\n"):
            self.connected(setup).sendall(begun)
        self.assertEqual(self.get(setup, "/health")[0], 200)
        since = time.monotonic()
        keeper.process.send_signal(signal.SIGTERM)
        self.assert_ends(keeper, 0)
        self.assertLess(time.monotonic() - since, 0.9)
        self.assertRegex(keeper.complained(), r"\Acastd: events served: \d+\n\Z")


class Addresses(PagesCase):
    def test_one_that_cannot_be_had_ends_the_keeper_before_a_daemon_starts(self):
        setup = self.setup_of()
        taken = self.enterContext(socket.create_server(self.address(setup)))
        host, port = taken.getsockname()
        for address, text in (
            (f"{host}:{port}", "Address already in use"),
            ("192.0.2.1:9477", "Cannot assign requested address"),
            ("a..b:9477", "not the name of a host"),
            ("no-host.invalid:9477", "no-host.invalid:9477: "),
        ):
            with self.subTest(address):
                keeper = self.started_keeper(setup, more=["--metrics", address])
                self.assert_ends(keeper, 13)
                self.assertIn(f"castd-keeper: the metrics cannot be served: {address}: ", keeper.complained())
                self.assertIn(text, keeper.complained())
                self.assertEqual((os.listdir(setup.state), os.listdir(setup.site_folder(1))), ([], []))

    def test_a_word_that_is_none_is_refused(self):
        setup = self.setup_of()
        for word in ("9477", ":9477", "localhost", "127.0.0.1:0", "127.0.0.1:65536", "::1:9477", "127.0.0.1:x", ""):
            with self.subTest(word):
                words = [TOOLS / "castd-keeper", setup.config, "--site", "1", "--metrics", word]
                ran = subprocess.run(words, capture_output=True, text=True, timeout=PATIENCE)
                self.assertEqual(ran.returncode, 2)
                self.assertIn(f"argument --metrics: {word!r} is not host:port", ran.stderr)

    def test_the_next_keeper_has_it_at_once(self):
        setup = self.setup_of(2, is_one_host=True)
        first = self.paged(setup)
        self.assertEqual(self.get(setup, "/health")[0], 200)
        first.process.send_signal(signal.SIGTERM)
        self.assert_ends(first, 0)
        self.paged(setup, 2)
        self.assertEqual(self.get(setup, "/health")[0], 200)

    def test_one_of_version_six(self):
        setup = self.setup_of()
        try:
            with socket.create_server(("::1", 0), family=socket.AF_INET6) as free:
                port = free.getsockname()[1]
        except OSError as error:
            self.skipTest(f"this machine has no ::1: {error}")
        self.keeper(setup, more=["--metrics", f"[::1]:{port}"])
        with contextlib.closing(http.client.HTTPConnection("::1", port, timeout=PATIENCE)) as asking:
            asking.request("GET", "/health")
            self.assertEqual(asking.getresponse().status, 200)
