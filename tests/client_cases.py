"""What the clients of all languages have in common, as cases that the tests of each take.

A language has its line tool, and a program `calls SOCKET SECONDS`, which connects within these seconds. Each line that
this is given is `SECONDS CALL` or `send COMMAND`, where `-` seconds are no deadline, and it answers with one line:

    connected 1.1
    done                    a call was done; of join it is the view
    tag 3                   of send
    none                    read gave no push in time; else it is the push:
    opened 1.1  reply 2 Done  view 1 2 1.1 2.1  deliver TEXT  ejected 1 2  denied 1 GroupFull  closed Slow
    refused NotMember       or another failure:
    late  ended  ended Slow  bad frame    each of these may have `, may be done` behind it
    failed                                the system could not connect
"""

from __future__ import annotations

import contextlib
import re
import socket
import subprocess
import tempfile
import threading
import time
from collections.abc import Callable, Iterator

from harness import PATIENCE, ROOT, Case, Setup, Tool, castd
from scripted_server import (
    ATOMIC,
    CAST,
    CAUSAL,
    JOIN,
    LEAVE,
    OPENED,
    PASS,
    ScriptedServer,
    Step,
    close,
    closed,
    command,
    deliver,
    denied,
    ejected,
    expect,
    opened,
    process,
    quiet,
    reply,
    view,
    wait,
    write,
)

DONE, NOT_MEMBER, FLUSHING, OWN_ABCAST, HELD_FULL, TOO_LONG, SLOW = 0, 5, 7, 8, 9, 10, 12
OWN, OTHER = process(1, 1), process(2, 1)
MOST_PAYLOAD = 16_384
# A command that is refused for now is sent again after 20 milliseconds.
PAUSE = 0.02
MEMBERS, CASTS = 3, 100
# A program that makes no call takes fewer bytes: 1,024 pushes, what it has read before, and what its socket holds.
BUFFERED = 2_000_000

CONVERSATION = rb"""
join 1
cast 1 hi
abcast 1 a\b""" + b"\t\xff\xc3\xa9  x" + rb"""
cast 1
join 1
leave 2
pass 1 9.9
frob 1
leave 0
cast 65536 x
pass 1 2.0
wait soon
wait -1
wait 0.1
join 01
join 1 2
""" + b"cast 1 " + b"x" * (MOST_PAYLOAD + 1) + rb"""
leave 1
cast 1 late
"""
# The set-order message of the atomic one has the count 3.
SHOWN = rb"""opened 1.1
reply 1 0
view 1 1 holder 1.1 members 1.1
reply 2 0
deliver 1/1/1.1/1 causal hi
reply 3 0
deliver 1/1/1.1/2 atomic a\x5cb\x09""" + b"\xff\xc3\xa9  x" + rb"""
reply 4 0
deliver 1/1/1.1/4 causal
reply 5 6 AlreadyMember
reply 6 4 NoGroup
reply 7 5 NotMember
reply 8 0
reply 9 5 NotMember
"""
UNKNOWN = b"""unknown: frob 1
unknown: leave 0
unknown: cast 65536 x
unknown: pass 1 2.0
unknown: wait soon
unknown: wait -1
unknown: join 01
unknown: join 1 2
unknown: cast 1 """ + b"x" * (MOST_PAYLOAD + 1) + b"\n"


def cast(tag: int, payload: bytes, kind: bytes = CAUSAL) -> bytes:
    """The frame of a cast to group 1."""
    return command(CAST, tag, 1, kind + payload)


def message(payload: bytes, sender: bytes = OTHER, kind: bytes = CAUSAL) -> bytes:
    """The frame of a message of group 1, in its view 1."""
    return deliver(1, 1, sender, 1, kind, payload)


def refuse_for(seconds: float, frame: bytes, answer: bytes) -> Step:
    """Gives this answer whenever the frame comes, for so long."""

    def step(stream: socket.socket) -> None:
        end, count = time.monotonic() + seconds, 0
        while (left := end - time.monotonic()) > 0:
            stream.settimeout(left)
            with contextlib.suppress(TimeoutError):
                expect(frame)(stream)
                write(answer)(stream)
                count += 1
        stream.settimeout(PATIENCE)
        # It is sent at once, and then after each pause.
        if not 1 < count <= 1 + seconds / PAUSE:
            raise AssertionError(f"in {seconds} s it came {count} times")

    return step


def flood(seconds: float, frame: bytes) -> Step:
    """Writes this frame again and again, until the client has enough of it."""

    def step(stream: socket.socket) -> None:
        end = time.monotonic() + seconds
        with contextlib.suppress(ConnectionError):
            while time.monotonic() < end:
                stream.sendall(100 * frame)

    return step


def fill(frame: bytes, most: int) -> Step:
    """Writes this frame until there is no room, which is before so many bytes. The last one is written to its end."""

    def step(stream: socket.socket) -> None:
        stream.settimeout(0.5)
        rest, count = b"", 0
        with contextlib.suppress(TimeoutError):
            while count < most:
                rest = rest or frame
                sent = stream.send(rest)
                rest, count = rest[sent:], count + sent
        stream.settimeout(PATIENCE)
        if count >= most:
            raise AssertionError(f"{count} bytes were taken")
        stream.sendall(rest)

    return step


def stopwatch(times: list[float]) -> Step:
    """Notes the time."""
    return lambda stream: times.append(time.monotonic())


class Log:
    """A machine for replicas: all operations, one behind the other, behind the state with which all begin."""

    def __init__(self, begin: bytes = b""):
        self.state = begin

    def apply(self, _: castd.Process, operation: bytes) -> int:
        self.state += operation
        return len(self.state)

    def snapshot(self) -> bytes:
        return self.state

    def restore(self, state: bytes) -> None:
        self.state = state


def replica_cases() -> Iterator[tuple[str, list[list[str]], bytes | None]]:
    """The cases of clients/replica-vectors: what each shows, its lines as words, and what the state is at last."""
    for case in (ROOT / "clients" / "replica-vectors").read_text().split("\ncase ")[1:]:
        name, *lines = case.split("\n")
        *steps, (_, *state) = (line.split() for line in lines if line)
        yield name, steps, None if state == ["none"] else bytes.fromhex("".join(state))


class Calls(Tool):
    """A program that makes the calls that it is told."""

    def ask(self, line: str) -> str:
        self.say(f"{line}\n")
        return self.line(PATIENCE)

    def pushes(self) -> list[str]:
        """What `read` gives, up to `none` or a failure."""
        found = [self.ask("0.2 read")]
        while re.match("opened|reply|view|deliver|ejected|denied|closed", found[-1]):
            found.append(self.ask("0.2 read"))
        return found

    def finish(self) -> int:
        """Closes the session. Returns the status with which the program ends."""
        self.process.stdin.close()
        return self.process.wait(PATIENCE)


class ToolCases(Case):
    """The line tool, whose command line begins with `tool`."""

    tool: list[str]

    def run_tool(self, *words: str, given: bytes = b"") -> tuple[int, bytes, bytes]:
        ran = subprocess.run([*self.tool, *words], input=given, capture_output=True, timeout=PATIENCE, check=False)
        return ran.returncode, ran.stdout, ran.stderr

    def test_vectors(self):
        given = (ROOT / "clients" / "vectors").read_bytes()
        wanted = b"".join(it for it in given.splitlines(keepends=True) if it.strip() and not it.startswith(b"#"))
        self.assertEqual(self.run_tool("--vectors", given=given), (0, wanted, b""))

    def test_command_line(self):
        status, shown, _ = self.run_tool("--help")
        self.assertEqual((status, shown[:7]), (0, b"usage: "))
        self.assertEqual(self.run_tool(), (2, b"", shown))
        self.assertEqual(self.run_tool("one.sock", "two.sock"), (2, b"", shown))
        status, shown, complained = self.run_tool(f"{self.folder}/none.sock")
        self.assertEqual((status, shown), (1, b""))
        self.assertNotEqual(complained, b"")

    def test_conversation(self):
        setup = self.setup_of()
        self.keeper(setup)
        path = f"{setup.site_folder(1)}/castd.sock"
        self.assertEqual(self.run_tool(path, given=CONVERSATION), (0, SHOWN, UNKNOWN))

    def test_it_ends_when_the_session_is_closed(self):
        path = f"{self.folder}/castd.sock"
        with ScriptedServer(path, write(OPENED + closed(SLOW)), close()):
            shown = self.run_tool(path, given=b"wait 60\nleave 1\n")
        self.assertEqual(shown, (0, b"opened 1.1\nclosed 12 Slow\n", b""))

    def test_it_ends_where_it_is_not_let_in(self):
        path = f"{self.folder}/castd.sock"
        with ScriptedServer(path, write(closed(3)), close()):
            status, shown, complained = self.run_tool(path)
        self.assertEqual((status, shown), (1, b""))
        self.assertIn(b"TooManySessions", complained)


class CallCases(Case):
    """The calls, by the program `calls`."""

    calls: list[str]

    def program(self, path: str, seconds: str = "-") -> Calls:
        program = Calls([*self.calls, path, seconds], self.folder)
        self.addCleanup(program.end)
        return program

    @contextlib.contextmanager
    def served(self, *steps: Step, seconds: str = "-") -> Iterator[Calls]:
        """A program that has to do with this server."""
        path = f"{tempfile.mkdtemp(dir=self.folder)}/castd.sock"
        with ScriptedServer(path, *steps):
            program = self.program(path, seconds)
            yield program
            self.assertEqual(program.finish(), 0, program.complained())

    @contextlib.contextmanager
    def connected(self, *steps: Step) -> Iterator[Calls]:
        """A program that is the process 1.1 of this server."""
        with self.served(write(OPENED), *steps) as program:
            self.assertEqual(program.line(PATIENCE), "connected 1.1")
            yield program

    def assert_takes(self, seconds: float, program: Calls, line: str, answer: str) -> None:
        """The program answers this after so many seconds. A machine that does much else may need more."""
        begun = time.monotonic()
        self.assertEqual(program.ask(line), answer)
        self.assertGreaterEqual(time.monotonic() - begun, seconds - 0.01)
        self.assertLess(time.monotonic() - begun, seconds + 1.5)

    def test_calls_are_answered(self):
        members = view(1, 1, OWN, OTHER)
        with self.connected(
            expect(command(JOIN, 1, 1)),
            write(reply(1, DONE) + view(2, 1, OWN) + view(1, 1, OTHER) + members),
            expect(cast(2, b"one")),
            write(message(b"before") + reply(2, DONE) + message(b"one", OWN)),
            expect(cast(3, b"two", ATOMIC)),
            write(reply(3, DONE)),
            expect(command(PASS, 4, 1, OTHER)),
            write(reply(4, DONE)),
            expect(command(LEAVE, 5, 1)),
            write(reply(5, NOT_MEMBER)),
        ) as program:
            self.assertEqual(program.ask("- join 1"), "view 1 1 1.1 2.1")
            self.assertEqual(program.ask("- cast 1 one"), "done")
            self.assertEqual(program.ask("- abcast 1 two"), "done")
            self.assertEqual(program.ask("- pass 1 2.1"), "done")
            self.assertEqual(program.ask("- leave 1"), "refused NotMember")
            views = ["view 2 1 1.1", "view 1 1 2.1", "view 1 1 1.1 2.1"]
            self.assertEqual(program.pushes(), ["opened 1.1", *views, "deliver before", "deliver one", "none"])

    def test_a_reply_that_does_not_come_in_time(self):
        """Nothing follows a command before its Reply, which nobody sees if its call has failed."""
        with self.connected(
            expect(cast(1, b"one")), quiet(1), write(reply(1, DONE)), expect(cast(3, b"three")), write(reply(3, DONE))
        ) as program:
            self.assert_takes(0.3, program, "0.3 cast 1 one", "late, may be done")
            self.assert_takes(0.2, program, "0.2 cast 1 two", "late")
            self.assertEqual(program.ask("- cast 1 three"), "done")
            self.assertEqual(program.pushes(), ["opened 1.1", "none"])

    def test_a_reply_for_now_that_does_not_come_in_time(self):
        """What nobody waits for is not sent again."""
        with self.connected(
            expect(cast(1, b"one")),
            quiet(0.5),
            write(reply(1, FLUSHING)),
            expect(cast(2, b"two")),
            write(reply(2, DONE)),
        ) as program:
            self.assertEqual(program.ask("0.2 cast 1 one"), "late, may be done")
            self.assertEqual(program.ask("- cast 1 two"), "done")

    def test_a_command_that_is_refused_for_now_until_its_deadline(self):
        for code, name in ((FLUSHING, "Flushing"), (OWN_ABCAST, "OwnAbcast"), (HELD_FULL, "HeldFull")):
            with self.subTest(name), self.connected(
                refuse_for(0.7, cast(1, b"one"), reply(1, code)), expect(cast(2, b"two")), write(reply(2, DONE))
            ) as program:
                # It may just be at the daemon again.
                self.assertIn(program.ask("0.5 cast 1 one"), (f"refused {name}", "late, may be done"))
                time.sleep(0.3)
                self.assertEqual(program.ask("- cast 1 two"), "done")

    def test_a_command_that_is_refused_for_now_is_sent_again_after_a_pause(self):
        others = message(b"of another", OTHER, ATOMIC) + message(b"causal", OWN) + denied(2, 14)
        with self.connected(
            expect(command(PASS, 1, 1, OTHER)),
            quiet(PAUSE / 2, reply(1, OWN_ABCAST) + others),
            expect(command(PASS, 1, 1, OTHER)),
            write(reply(1, DONE)),
        ) as program:
            self.assertEqual(program.ask("- pass 1 2.1"), "done")

    def test_a_command_that_is_refused_for_now_is_sent_again_at_what_may_end_that(self):
        for news in (view(2, 7), ejected(2, 7), message(b"own", OWN, ATOMIC)):
            times: list[float] = []
            frame = expect(cast(1, b"one", ATOMIC))
            again = [stopwatch(times), write(reply(1, FLUSHING) + news), frame, stopwatch(times)]
            with self.connected(frame, *(20 * again), write(reply(1, DONE))) as program:
                self.assertEqual(program.ask("- abcast 1 one"), "done")
            # A machine that does much else may delay some.
            self.assertLess(min(after - before for before, after in zip(times[::2], times[1::2])), PAUSE / 2)

    def test_news_before_the_refusal_is_no_news(self):
        with self.connected(
            expect(cast(1, b"one")),
            quiet(PAUSE / 2, view(1, 2, OWN) + reply(1, FLUSHING)),
            expect(cast(1, b"one")),
            write(reply(1, DONE)),
        ) as program:
            self.assertEqual(program.ask("- cast 1 one"), "done")

    def test_a_join_or_a_leave_that_is_refused_is_not_sent_again(self):
        with self.connected(
            expect(command(JOIN, 1, 1)),
            write(reply(1, HELD_FULL)),
            quiet(3 * PAUSE),
            expect(command(LEAVE, 2, 1)),
            write(reply(2, FLUSHING)),
            quiet(3 * PAUSE),
        ) as program:
            self.assertEqual(program.ask("- join 1"), "refused HeldFull")
            time.sleep(4 * PAUSE)
            self.assertEqual(program.ask("- leave 1"), "refused Flushing")
            time.sleep(4 * PAUSE)

    def test_sent_commands_keep_their_order(self):
        early = [expect(cast(1, b"one")), write(reply(1, FLUSHING))]
        with self.connected(
            *(3 * early),
            expect(cast(1, b"one")),
            write(reply(1, DONE)),
            expect(cast(2, b"two", ATOMIC)),
            write(reply(2, NOT_MEMBER)),
            expect(command(LEAVE, 3, 1)),
            write(reply(3, DONE)),
        ) as program:
            self.assertEqual(program.ask("send cast 1 one"), "tag 1")
            self.assertEqual(program.ask("send abcast 1 two"), "tag 2")
            self.assertEqual(program.ask("- leave 1"), "done")
            self.assertEqual(program.pushes(), ["opened 1.1", "reply 1 Done", "reply 2 NotMember", "none"])

    def test_a_call_behind_sent_commands_is_late(self):
        with self.connected(
            expect(cast(1, b"one")), quiet(0.5), write(reply(1, DONE)), expect(cast(3, b"three")), write(reply(3, DONE))
        ) as program:
            self.assertEqual(program.ask("send cast 1 one"), "tag 1")
            self.assertEqual(program.ask("0.2 cast 1 two"), "late")
            self.assertEqual(program.ask("send cast 1 three"), "tag 3")
            self.assertEqual(program.ask("- read"), "opened 1.1")
            self.assertEqual(program.ask("- read"), "reply 1 Done")
            self.assertEqual(program.ask("- read"), "reply 3 Done")

    def test_a_join_that_is_denied(self):
        pushes = reply(1, DONE) + denied(2, 14) + denied(1, 14)
        with self.connected(expect(command(JOIN, 1, 1)), write(pushes)) as program:
            self.assertEqual(program.ask("- join 1"), "refused GroupFull")
            self.assertEqual(program.pushes(), ["opened 1.1", "denied 2 GroupFull", "denied 1 GroupFull", "none"])

    def test_a_join_without_a_view_does_not_stop_the_queue(self):
        with self.connected(
            expect(command(JOIN, 1, 1)),
            write(reply(1, DONE)),
            expect(cast(2, b"one")),
            write(reply(2, NOT_MEMBER)),
            close(),
        ) as program:
            self.assert_takes(0.3, program, "0.3 join 1", "late, may be done")
            self.assertEqual(program.ask("- cast 1 one"), "refused NotMember")

    def test_a_join_whose_session_ends(self):
        with self.connected(expect(command(JOIN, 1, 1)), write(reply(1, DONE) + closed(SLOW)), close()) as program:
            self.assertEqual(program.ask("- join 1"), "ended Slow, may be done")
            self.assertEqual(program.ask("- join 1"), "ended Slow")

    def test_the_stream_ends(self):
        with self.connected(expect(cast(1, b"one")), write(message(b"last")), close()) as program:
            self.assertEqual(program.ask("- cast 1 one"), "ended, may be done")
            self.assertEqual(program.ask("- cast 1 two"), "ended")
            self.assertEqual(program.ask("send cast 1 two"), "ended")
            self.assertEqual(program.pushes(), ["opened 1.1", "deliver last", "ended"])

    def test_the_stream_ends_before_a_call(self):
        with self.connected(write(message(b"last")), close()) as program:
            time.sleep(0.2)
            self.assertEqual(program.ask("- cast 1 one"), "ended")
            self.assertEqual(program.pushes(), ["opened 1.1", "deliver last", "ended"])

    def test_the_stream_ends_while_a_command_waits_to_be_sent_again(self):
        """It was refused and is not at the daemon. If it was sent just before the end, this cannot be known."""
        with self.connected(expect(cast(1, b"one")), write(reply(1, FLUSHING) + closed(SLOW)), close()) as program:
            self.assertEqual(program.ask("- cast 1 one"), "ended Slow")
            self.assertEqual(program.pushes(), ["opened 1.1", "closed Slow", "ended Slow"])

    def test_nobody_reads_the_stream(self):
        last = [write(message(b"last")), lambda stream: stream.shutdown(socket.SHUT_RD), wait(3)]
        with self.connected(*last) as program:
            time.sleep(0.2)
            begun = time.monotonic()
            self.assertIn(program.ask("10 cast 1 one"), ("ended", "ended, may be done"))
            self.assertLess(time.monotonic() - begun, 2)
            self.assertEqual(program.pushes(), ["opened 1.1", "deliver last", "ended"])

    def test_half_a_frame(self):
        frame = message(b"whole")
        with self.connected(write(frame[:9]), quiet(0.5), write(frame[9:] + frame[:-1]), close()) as program:
            self.assertEqual(program.ask("- read"), "opened 1.1")
            self.assert_takes(0.2, program, "0.2 read", "none")
            self.assertEqual(program.ask("- read"), "deliver whole")
            self.assertEqual(program.ask("- read"), "ended")

    def test_a_reply_with_another_tag(self):
        pushes = message(b"right") + reply(2, DONE) + message(b"behind")
        with self.connected(expect(cast(1, b"one")), write(pushes)) as program:
            self.assertEqual(program.ask("- cast 1 one"), "bad frame, may be done")
            self.assertEqual(program.ask("- cast 1 two"), "bad frame")
            self.assertEqual(program.pushes(), ["opened 1.1", "deliver right", "bad frame"])

    def test_a_second_reply(self):
        for first in (DONE, FLUSHING):
            with self.subTest(first), self.connected(
                expect(cast(1, b"one")), write(reply(1, first) + reply(1, DONE))
            ) as program:
                self.assertEqual(program.ask("- cast 1 one"), "bad frame" if first else "done")
                self.assertEqual(program.pushes(), ["opened 1.1", "bad frame"])

    def test_bytes_that_are_no_push_or_a_second_opened(self):
        for wrong in (b"\0\0\0\4", reply(1, 16), cast(1, b"a command"), OPENED):
            with self.subTest(wrong.hex()), self.connected(
                expect(cast(1, b"one")), write(message(b"right") + wrong)
            ) as program:
                self.assertEqual(program.ask("- cast 1 one"), "bad frame, may be done")
                self.assertEqual(program.pushes(), ["opened 1.1", "deliver right", "bad frame"])

    def test_numbers_and_payloads_that_no_command_has(self):
        longest = b"x" * MOST_PAYLOAD
        with self.connected(expect(cast(1, longest)), write(reply(1, DONE))) as program:
            self.assertEqual(program.ask(f"- cast 1 {'x' * (MOST_PAYLOAD + 1)}"), "refused TooLong")
            self.assertEqual(program.ask(f"send abcast 1 {'x' * (MOST_PAYLOAD + 1)}"), "refused TooLong")
            self.assertEqual(program.ask("- join 0"), "refused OutOfRange")
            self.assertEqual(program.ask("- pass 1 1.0"), "refused OutOfRange")
            self.assertEqual(program.ask("send pass 1 0.1"), "refused OutOfRange")
            self.assertEqual(program.ask(f"- cast 1 {longest.decode()}"), "done")

    def test_a_deadline_passes_though_much_is_pushed(self):
        with self.connected(expect(cast(1, b"one")), flood(1, message(b"more")), close()) as program:
            self.assert_takes(0.3, program, "0.3 cast 1 one", "late, may be done")

    def test_a_program_that_does_not_read_leaves_its_pushes_to_the_daemon(self):
        """A call that waits reads on."""
        frames = 1_000 * message(b"more")
        with self.connected(
            fill(frames, BUFFERED), expect(cast(1, b"one")), write(100 * frames + reply(1, DONE))
        ) as program:
            time.sleep(2)
            self.assertEqual(program.ask("- cast 1 one"), "done")

    def test_connecting(self):
        path = f"{self.folder}/castd.sock"
        self.assertEqual(self.program(path).line(PATIENCE), "failed")
        for steps, answer in (
            ([write(closed(3)), close()], "refused TooManySessions"),
            ([write(closed(13)), close()], "refused Halted"),
            ([close()], "ended"),
            ([write(OPENED[:5]), close()], "ended"),
            ([write(view(1, 1))], "bad frame"),
            ([write(b"\0\0\0\0")], "bad frame"),
            ([quiet(0.3)], "late"),
            ([quiet(0.1), write(opened(7, 4_294_967_295))], "connected 7.4294967295"),
        ):
            with self.subTest(answer), self.served(*steps, seconds="0.5") as program:
                self.assertEqual(program.line(PATIENCE), answer)

    def test_connecting_where_nobody_takes_the_connection(self):
        path = f"{self.folder}/castd.sock"
        with socket.socket(socket.AF_UNIX) as listener, contextlib.ExitStack() as others:
            listener.bind(path)
            listener.listen(0)
            with contextlib.suppress(BlockingIOError):
                while True:
                    other = others.enter_context(socket.socket(socket.AF_UNIX))
                    other.setblocking(False)
                    other.connect(path)
            self.assertEqual(self.program(path, "0.2").line(PATIENCE), "late")
            program = self.program(path)
            time.sleep(0.2)
            for _ in range(2):
                stream, _ = listener.accept()
                others.enter_context(stream).sendall(OPENED)
            self.assertEqual(program.line(PATIENCE), "connected 1.1")

    def test_three_programs_cast_at_once(self):
        for sites in (1, MEMBERS):
            with self.subTest(sites=sites):
                # On a machine that does much else, what is sent again too soon keeps the daemons from all other work.
                setup = self.setup_of(sites, {"number": 1, "resend": 5_000})
                for site in range(1, sites + 1):
                    self.keeper(setup, site)
                self.assert_agree(setup, [min(member, sites) for member in range(1, MEMBERS + 1)])

    def assert_agree(self, setup: Setup, sites: list[int]) -> None:
        """Programs at these sites deliver all that they cast, in one order."""
        programs = [self.program(f"{setup.site_folder(site)}/castd.sock") for site in sites]
        for program in programs:
            self.assertRegex(program.line(PATIENCE), "^connected ")
            self.assertRegex(program.ask("30 join 1"), "^view 1 ")
        for program in programs:
            while program.ask("30 read").count(".") < len(programs):
                pass
        delivered: list[list[str]] = [[] for _ in programs]

        def act(number: int) -> None:
            program = programs[number]
            answers = {program.ask(f"30 abcast 1 {number}:{cast}") for cast in range(CASTS)}
            while answers == {"done"} and len(delivered[number]) < len(programs) * CASTS:
                push = program.ask("30 read")
                if not push.startswith("deliver "):
                    return
                delivered[number].append(push)

        at_once([lambda number=number: act(number) for number in range(len(programs))])
        wanted = {f"deliver {number}:{cast}" for number in range(len(programs)) for cast in range(CASTS)}
        self.assertEqual(set(delivered[0]), wanted)
        self.assertEqual([it == delivered[0] for it in delivered], [True for _ in programs])
        self.assertEqual(len(delivered[0]), len(wanted))


def at_once(acts: list[Callable[[], None]]) -> None:
    threads = [threading.Thread(target=act) for act in acts]
    for thread in threads:
        thread.start()
    for thread in threads:
        thread.join()
