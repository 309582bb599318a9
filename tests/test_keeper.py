"""The keeper: how a daemon is started, told to stop, and lost."""

import concurrent.futures
import contextlib
import ctypes
import errno
import fcntl
import os
import signal
import socket
import stat
import struct
import subprocess
import termios
import time

from harness import PATIENCE, PORT, TOOLS, Case, Client, is_running, wait_for_end, wait_until

IN_ATTRIB, IN_CREATE = 0x4, 0x100
NOBODY = 65_534
PIPE_BYTES, PIPE_PAGES = 65_536, 16


class Notifications(socket.socket):
    """The socket at which systemd would be told."""

    def __init__(self, path: str):
        super().__init__(socket.AF_UNIX, socket.SOCK_DGRAM)
        self.bind(path)
        self.settimeout(PATIENCE)

    def next_with(self, text: str) -> list[str]:
        while text not in (told := self.recv(4_096).decode()):
            pass
        return told.split("\n")


class Starting(Case):
    def test_systemd_is_told_when_the_daemon_serves_and_when_it_stops(self):
        for name in (f"{self.folder}/notify", f"\0{os.path.basename(self.folder)}"):
            with self.subTest(name), Notifications(name) as told:
                setup = self.setup_of()
                keeper = self.started_keeper(setup, env={"NOTIFY_SOCKET": name.replace("\0", "@")})
                self.assertIn("STATUS=serving site 1", told.next_with("READY=1"))
                # The daemon serves by then, and so does the keeper.
                self.assertEqual(keeper.ask("domains"), "domain 1 running")
                self.session(setup)
                keeper.process.send_signal(signal.SIGTERM)
                self.assertIn("STATUS=stopping site 1", told.next_with("STOPPING=1"))
                self.assert_ends(keeper, 0)

    def test_systemd_is_not_told_of_a_daemon_that_does_not_come_to_serve(self):
        setup = self.setup_of()
        with Notifications(f"{self.folder}/notify") as told:
            open(f"{setup.site_folder(1)}/castd.sock", "w").close()
            keeper = self.started_keeper(setup, env={"NOTIFY_SOCKET": f"{self.folder}/notify"})
            self.assert_ends(keeper, 7)
            told.setblocking(False)
            with contextlib.suppress(BlockingIOError):
                while True:
                    self.assertNotIn(b"READY=1", told.recv(4_096))
        self.assertIn("castd: socket: castd.sock", keeper.complained())
        self.assertIn("castd-keeper: the daemon ended with status 7", keeper.complained())
        self.assertFalse(os.path.exists(setup.control(1)))

    def test_more_words_come_to_the_daemon(self):
        setup = self.setup_of()
        record = f"{self.folder}/record"
        os.mkdir(record)
        keeper = self.keeper(setup, more=["--record", record, "--", "--workers", "2"])
        with open(f"/proc/{keeper.daemon()}/cmdline", encoding="utf-8") as file:
            words = file.read().split("\0")[1:-1]
        self.assertEqual(words, ["serve", setup.config, "--site", "1", "--record", record, "--workers", "2"])
        self.assertEqual(keeper.ask("stop"), "ok")
        self.assertEqual(os.listdir(record), ["castd-1-000001.script"])

    def test_what_cannot_be_started_is_said(self):
        setup = self.setup_of()
        keeper = self.started_keeper(setup, program="/no/such/program")
        self.assert_ends(keeper, 11)
        self.assertIn("/no/such/program: No such file or directory", keeper.complained())
        self.assertEqual(os.listdir(setup.state), [])

    def test_faults_of_the_command_line_and_of_the_configuration_have_statuses(self):
        setup = self.setup_of()
        for words, status, text in (
            ([setup.config], 2, "required: --site"),
            ([setup.config, "--site", "0"], 2, "not a number from 1 to 65535"),
            ([setup.config, "--site", "2"], 6, "site 2 is not listed"),
            ([f"{self.folder}/none", "--site", "1"], 6, "No such file"),
            ([setup.config, "--site", "1", "--state", f"{self.folder}/none"], 10, "No such file"),
        ):
            with self.subTest(words):
                ran = subprocess.run([TOOLS / "castd-keeper", *words], capture_output=True, text=True, timeout=PATIENCE)
                self.assertEqual(ran.returncode, status)
                self.assertIn(text, ran.stderr)
        self.assertEqual(os.listdir(setup.state), [])


class Stopping(Case):
    def test_signals_stop_the_daemon_in_order(self):
        for number in (signal.SIGTERM, signal.SIGINT):
            with self.subTest(number):
                setup = self.setup_of()
                keeper = self.keeper(setup)
                session = self.session(setup)
                # Who says nothing is no reason to complain.
                idle = Client(keeper.control)
                self.addCleanup(idle.close)
                self.assertNotEqual(idle.ask("domains"), "")
                self.addCleanup(Client(keeper.control).close)
                begun = time.monotonic()
                # As from a terminal, which signals all processes of a group.
                os.killpg(keeper.process.pid, number)
                self.assert_ends(keeper, 0)
                # In order, it is not killed after 5 seconds.
                self.assertLess(time.monotonic() - begun, 4)
                wait_for_end(session)
                self.assertEqual(os.listdir(setup.site_folder(1)), [])
                self.assertRegex(keeper.complained(), r"\Acastd: events served: \d+\n\Z")

    def test_the_line_stop_is_answered_and_ends_all(self):
        setup = self.setup_of()
        keeper = self.keeper(setup)
        self.assertEqual(keeper.ask("stop"), "ok")
        self.assert_ends(keeper, 0)
        self.assertEqual(os.listdir(setup.site_folder(1)), [])

    def test_a_daemon_that_hangs_is_killed_after_five_seconds(self):
        setup = self.setup_of()
        keeper = self.keeper(setup)
        daemon = keeper.daemon()
        os.kill(daemon, signal.SIGSTOP)
        begun = time.monotonic()
        keeper.process.send_signal(signal.SIGTERM)
        self.assert_ends(keeper, 128 + signal.SIGKILL)
        self.assertGreater(time.monotonic() - begun, 4.5)
        self.assertFalse(is_running(daemon))
        self.assertEqual(os.listdir(setup.site_folder(1)), [])
        self.assertIn("did not stop within 5 s, and is killed", keeper.complained())

    def test_a_signal_before_the_daemon_serves_stops_it_too(self):
        setup = self.setup_of()
        keeper = self.started_stand_in(setup, before_ready=1.5)
        wait_until(lambda: os.path.exists(setup.control(1)), "the control socket is there")
        keeper.process.send_signal(signal.SIGTERM)
        self.assert_ends(keeper, 0)
        self.assertEqual(os.listdir(setup.site_folder(1)), [])


class Losing(Case):
    def test_a_daemon_that_is_killed_ends_the_keeper(self):
        setup = self.setup_of()
        keeper = self.keeper(setup)
        os.kill(keeper.daemon(), signal.SIGKILL)
        self.assert_ends(keeper, 128 + signal.SIGKILL)
        self.assertIn("castd-keeper: signal 9 killed the daemon", keeper.complained())
        self.assertEqual(os.listdir(setup.site_folder(1)), [])

    def test_a_keeper_that_is_killed_leaves_no_daemon_behind(self):
        setup = self.setup_of()
        keeper = self.keeper(setup)
        daemon = keeper.daemon()
        self.assertTrue(is_running(daemon))
        keeper.process.kill()
        wait_until(lambda: not is_running(daemon), "the daemon has ended")
        self.assertEqual(sorted(os.listdir(setup.site_folder(1))), ["castd.sock", "control"])

    def test_the_next_keeper_takes_over_from_one_that_was_killed(self):
        # Site 1 starts again as site 2, with the same sockets.
        setup = self.setup_of(2, is_one_host=True)
        first = self.keeper(setup)
        daemon = first.daemon()
        first.process.kill()
        wait_until(lambda: not is_running(daemon), "the daemon has ended")
        second = self.keeper(setup, 2)
        self.assertEqual(second.ask("domains"), "domain 1 running")
        self.session(setup)
        self.assertIn("removed castd.sock, which a killed daemon left behind", second.complained())

    def test_a_tenant_that_locks_the_directory_of_its_socket_stops_nothing(self):
        setup = self.setup_of(2, {"number": 1, "socket": "tenant/castd.sock"}, is_one_host=True)
        os.mkdir(f"{setup.site_folder(1)}/tenant")
        folder = os.open(f"{setup.site_folder(1)}/tenant", os.O_RDONLY)
        self.addCleanup(os.close, folder)
        fcntl.flock(folder, fcntl.LOCK_EX)
        first = self.keeper(setup)
        daemon = first.daemon()
        first.process.kill()
        wait_until(lambda: not is_running(daemon), "the daemon has ended")
        second = self.keeper(setup, 2)
        begun = time.monotonic()
        second.process.send_signal(signal.SIGTERM)
        self.assert_ends(second, 0)
        self.assertLess(time.monotonic() - begun, 4)

    def test_the_port_of_the_next_number_is_kept_for_it(self):
        setup = self.setup_of(3, {"number": 1, "socket": f"{self.folder}/castd.sock"}, is_one_host=True)
        address = setup.hosts[1], PORT + 2
        with self.port(setup.hosts[1], PORT + 3):
            first = self.keeper(setup)
            self.assertRegex(first.complained(), f"the port of site 3 cannot be kept for it: .*:{PORT + 3}: Address already")
            with self.assertRaises(OSError) as refused:
                self.port(*address)
            self.assertEqual(refused.exception.errno, errno.EADDRINUSE)
            first.process.send_signal(signal.SIGTERM)
            self.assert_ends(first, 0)
        second = self.keeper(setup, 2)
        told = "castd: other sites that exchange datagrams without seals: 2\n"
        self.assertEqual((second.ask("domains"), second.complained()), ("domain 1 running", told))

    def port(self, *address) -> socket.socket:
        """A socket at an address, as another program would have it."""
        bound = socket.socket(socket.AF_INET, socket.SOCK_DGRAM)
        self.addCleanup(bound.close)
        bound.bind(address)
        return bound

    def test_the_sockets_of_those_who_live_are_left_to_them(self):
        setup = self.setup_of(2, is_one_host=True)
        first = self.keeper(setup)
        with self.subTest("the control socket"):
            second = self.started_keeper(setup, 2)
            self.assert_ends(second, 9)
            self.assertIn("Address already in use", second.complained())
        with self.subTest("the socket of a domain"):
            third = self.started_keeper(setup, 2, more=["--control", f"{self.folder}/other"])
            self.assert_ends(third, 7)
            self.assertIn("castd: socket: castd.sock", third.complained())
        self.assertEqual(first.ask("domains"), "domain 1 running")
        self.session(setup)
        # Nothing was served under the number, so it is free.
        self.assertEqual(os.listdir(setup.state), ["site-1"])

    def test_a_file_that_is_no_socket_is_left_alone(self):
        setup = self.setup_of()
        with open(setup.control(1), "w") as file:
            file.write("mine")
        keeper = self.started_keeper(setup)
        self.assert_ends(keeper, 9)
        with open(setup.control(1)) as file:
            self.assertEqual(file.read(), "mine")


class ControlSocket(Case):
    def test_only_the_own_user_and_group_may_use_it(self):
        self.need_root()
        setup = self.setup_of()
        for folder in (self.folder, setup.folder):
            os.chmod(folder, 0o755)
        watching = Inotify(setup.site_folder(1))
        before = os.umask(0)
        try:
            keeper = self.keeper(setup)
        finally:
            os.umask(before)
        self.assertEqual(stat.S_IMODE(os.stat(keeper.control).st_mode), 0o660)
        # Its mode was never another: it was made with it, and not changed later.
        self.assertEqual(watching.of("control"), [IN_CREATE])
        as_nobody = ["setpriv", f"--reuid={NOBODY}", "--clear-groups", "--bounding-set=-all"]
        words = [TOOLS / "castctl", "--socket", keeper.control, "domains"]
        denied = subprocess.run(
            [*as_nobody, f"--regid={NOBODY}", *words], capture_output=True, text=True, timeout=PATIENCE
        )
        self.assertEqual((denied.returncode, denied.stdout), (3, ""))
        self.assertIn("Permission denied", denied.stderr)
        os.chown(keeper.control, 0, NOBODY)
        allowed = subprocess.run(
            [*as_nobody, f"--regid={NOBODY}", *words], capture_output=True, text=True, timeout=PATIENCE
        )
        self.assertEqual((allowed.returncode, allowed.stdout), (0, "domain 1 running\n"))

    def test_each_of_twenty_clients_at_once_gets_its_own_answers(self):
        domains = [{"number": it, "groups": [it], "socket": f"{it}.sock"} for it in range(1, 11)]
        setup = self.setup_of(1, *domains)
        keeper = self.keeper(setup)

        def ask(number: int) -> list[str]:
            """The answers to four lines, twenty times, which are all said before the first is answered."""
            domain = number % 10 + 1
            with Client(keeper.control) as connected:
                connected.sendall(f"show {domain}\ngroups {domain}\nshow {domain + 100}\nnothing\n".encode() * 20)
                return [connected.answer() for _ in range(80)]

        with concurrent.futures.ThreadPoolExecutor(20) as clients:
            found = list(clients.map(ask, range(20), timeout=PATIENCE))
        for number, said in enumerate(found):
            domain = number % 10 + 1
            for show, *others in zip(*[iter(said)] * 4):
                self.assertRegex(show, f"^domain {domain} sessions 0 held 0 casts 0 moment [0-9]+$")
                self.assertEqual(others, [f"group {domain} view 0 none", "no domain", "fault 2"])

    def test_clients_that_do_not_read_stop_no_others(self):
        setup = self.setup_of()
        keeper = self.keeper(setup)
        unread = []
        for _ in range(10):
            connected = Client(keeper.control)
            self.addCleanup(connected.close)
            connected.setblocking(False)
            unread.append(connected)
        for connected in unread:
            with contextlib.suppress(BlockingIOError):
                while True:
                    connected.send(b"metrics\n" * 200)
        begun = time.monotonic()
        self.assertEqual(keeper.ask("domains"), "domain 1 running")
        self.assertLess(time.monotonic() - begun, 10)
        # Those that leave their answers unread are closed, once there are many.
        for connected in unread:
            wait_until(lambda: _is_closed(connected), "a client that does not read is closed", 5 * PATIENCE)

    def test_clients_that_say_nothing_stop_no_others(self):
        setup = self.setup_of()
        keeper = self.keeper(setup)
        silent = []
        for _ in range(64):
            silent.append(Client(keeper.control))
            self.addCleanup(silent[-1].close)
        # The first one has said something since the second one did.
        self.assertEqual(silent[0].ask("domains"), "domain 1 running")
        with Client(keeper.control) as one_more:
            self.assertEqual(one_more.ask("domains"), "domain 1 running")
        wait_until(lambda: _is_closed(silent[1]), "the one that said nothing for longest is closed")
        self.assertEqual(silent[0].ask("domains"), "domain 1 running")
        self.assertEqual(silent[63].ask("domains"), "domain 1 running")

    def test_more_clients_than_can_be_answered_are_refused(self):
        setup = self.setup_of()
        keeper = self.stand_in(setup, delays={"domains": 4})
        for _ in range(64):
            asking = Client(keeper.control)
            self.addCleanup(asking.close)
            asking.sendall(b"domains\n")
        # They have all been read.
        time.sleep(1)
        with Client(keeper.control) as one_more:
            self.assertEqual(one_more.ask("domains"), "keeper: too many clients")

    def test_lines_that_are_none_are_refused(self):
        setup = self.setup_of()
        keeper = self.keeper(setup)
        longest = b"x" * 4_096
        with Client(keeper.control) as connected:
            for line, answer in (
                (longest, "fault 2"),
                (longest + b"x", "keeper: a line of more than 4096 bytes"),
                (b"x" * 1_000_000, "keeper: a line of more than 4096 bytes"),
                (b"domains \xff", "keeper: not UTF-8"),
                (b"domains\r", "keeper: a control character"),
                (b"stop\0", "keeper: a control character"),
                ("domains\x85".encode(), "keeper: a control character"),
                (b"", "fault 1"),
                (b" ", "fault 2"),
                (b"domains", "domain 1 running"),
            ):
                connected.sendall(line + b"\n")
                self.assertEqual(connected.answer(), answer, line[:20])

    def test_a_late_answer_is_not_taken_for_that_of_the_next_line(self):
        setup = self.setup_of()
        keeper = self.stand_in(setup, delays={"slow": 7}, answers={"slow": ["late"], "fast": ["in time"]})
        self.assertEqual(keeper.ask("slow"), "keeper: said, but the daemon does not answer")
        self.assertEqual(keeper.ask("fast"), "in time")

    def test_a_line_that_has_no_turn_is_not_said(self):
        setup = self.setup_of()
        keeper = self.keeper(setup)
        os.kill(keeper.daemon(), signal.SIGSTOP)
        with Client(keeper.control) as first, Client(keeper.control) as second:
            first.sendall(b"trace\n")
            wait_until(lambda: _is_heard(first), "the first line is taken")
            second.sendall(b"stop\n")
            self.assertEqual(first.answer(), "keeper: said, but the daemon does not answer")
            self.assertEqual(second.answer(), "keeper: not said: the daemon does not answer")
        os.kill(keeper.daemon(), signal.SIGCONT)
        self.assertEqual(keeper.ask("domains"), "domain 1 running")

    def test_a_client_of_a_daemon_that_dies_is_told(self):
        setup = self.setup_of()
        keeper = self.stand_in(setup, delays={"slow": 60})
        with Client(keeper.control) as connected:
            connected.sendall(b"slow\n")
            wait_until(lambda: _is_heard(connected), "the line is taken")
            os.kill(keeper.daemon(), signal.SIGKILL)
            self.assertEqual(connected.answer(), "keeper: the daemon has ended")


class StandardInput(Case):
    def test_it_is_a_console(self):
        setup = self.setup_of()
        keeper = self.keeper(setup)
        for line, answer in (
            ("domains", "domain 1 running"),
            ("", "fault 1"),
            ("suspect 9 1", "no domain"),
            ("quota 1 held 0", "refused 15"),
            ("health", "healthy"),
            ("domains\r", "keeper: a control character"),
            ("stop", "ok"),
        ):
            keeper.say(line + "\n")
            self.assertEqual(keeper.line(PATIENCE), answer)
        self.assert_ends(keeper, 0)

    def test_its_end_ends_nothing(self):
        setup = self.setup_of()
        keeper = self.keeper(setup)
        threads = f"/proc/{keeper.process.pid}/task"
        before = len(os.listdir(threads))
        keeper.process.stdin.close()
        wait_until(lambda: len(os.listdir(threads)) < before, "the thread that reads the input has ended")
        self.assertEqual(keeper.ask("domains"), "domain 1 running")
        keeper.process.send_signal(signal.SIGTERM)
        self.assert_ends(keeper, 0)

    def test_an_output_that_is_not_read_stops_no_others(self):
        setup = self.setup_of()
        keeper = self.keeper(setup)
        # The lines fill one pipe almost, and their answers the other, but for the ends of its pages.
        keeper.say("domains\n" * (PIPE_BYTES // len("domains\n") - 1))
        full = PIPE_BYTES - PIPE_PAGES * len("domain 1 running\n")
        wait_until(lambda: _unread(keeper.process.stdout) >= full, "the output takes no more")
        self.assertEqual(keeper.ask("domains"), "domain 1 running")
        keeper.process.send_signal(signal.SIGTERM)
        self.assert_ends(keeper, 0)


class Inotify:
    """What happens to the files of a folder, from now on."""

    def __init__(self, folder: str):
        libc = ctypes.CDLL(None)
        self.descriptor = libc.inotify_init1(os.O_NONBLOCK)
        libc.inotify_add_watch(self.descriptor, folder.encode(), IN_ATTRIB | IN_CREATE)

    def of(self, name: str) -> list[int]:
        """What happened so far to the file of this name."""
        data, found = os.read(self.descriptor, 65_536), []
        os.close(self.descriptor)
        while data:
            _, mask, _, length = struct.unpack_from("iIII", data)
            if data[16 : 16 + length].rstrip(b"\0").decode() == name:
                found.append(mask)
            data = data[16 + length :]
        return found


def _is_closed(connected: socket.socket) -> bool:
    """Whether the other end has closed a connection, of which no answers are read."""
    try:
        connected.send(b"\n")
    except BlockingIOError:
        return False
    except OSError:
        return True
    return False


def _is_heard(connected: socket.socket) -> bool:
    """Whether the other end has read all that was sent."""
    return _count(connected, termios.TIOCOUTQ) == 0


def _unread(pipe) -> int:
    """How many bytes wait to be read from a pipe."""
    return _count(pipe, termios.FIONREAD)


def _count(file, question: int) -> int:
    return struct.unpack("i", fcntl.ioctl(file, question, bytes(4)))[0]
