"""The C client: what each of its calls comes to, beside a server that plays a script and beside daemons."""

from __future__ import annotations

import contextlib
import os
import pathlib
import shutil
import signal
import socket
import subprocess
import tempfile
import time
import unittest
from collections.abc import Sequence

from client_cases import ToolCases
from harness import PATIENCE, ROOT, Case, Process, Setup, stop
from scripted_server import (
    ATOMIC,
    CAST,
    CAUSAL,
    JOIN,
    LEAVE,
    OPENED,
    PASS,
    ScriptedServer,
    Step,
    close,
    closed,
    command,
    deliver,
    denied,
    ejected,
    expect,
    opened,
    process,
    quiet,
    reply,
    view,
    wait,
    write,
)

CLIENT = ROOT / "clients/c"
WARNINGS = ["-Wall", "-Wextra", "-Wpedantic", "-Wconversion", "-Werror"]
STRICT = ["-std=c11", "-D_POSIX_C_SOURCE=200809L", "-g", *WARNINGS]
SANITIZED = ["-fsanitize=address,undefined", "-fno-sanitize-recover=all"]
FLUSHING, OWN_ABCAST, HELD_FULL = 7, 8, 9
# After so many seconds a command that was refused for now is sent again.
AGAIN = 0.02
SELF, OTHER = process(1, 1), process(2, 1)

CPP_PROGRAM = """
#include <fcntl.h>
#include "castd.h"

int main(int, char **words) {
    struct castd session;
    struct castd_push push;
    if (castd_connect(&session, words[1], 10000)) return 1;
    if (castd_read(&session, &push, 10000) || push.type != CASTD_OPENED) return 2;
    if (push.process.serial != session.process.serial) return 3;
    if (!(fcntl(session.socket, F_GETFD) & FD_CLOEXEC)) return 4;
    castd_close(&session);
    return 0;
}
"""


def abcast(tag: int, text: bytes = b"a") -> bytes:
    return command(CAST, tag, 1, ATOMIC + text)


def answer(answers: dict[bytes, bytes]) -> Step:
    """Answers each of these frames, of one length, each time it comes, until the client closes its stream. This is the
    last step.
    """

    def step(stream: socket.socket) -> None:
        length = len(next(iter(answers)))
        with stream, contextlib.suppress(BrokenPipeError, ConnectionResetError):
            while frame := stream.recv(length, socket.MSG_WAITALL):
                stream.sendall(answers[frame])

    return step


def flood(frame: bytes) -> Step:
    """Writes a frame until the client closes its stream. This is the last step."""

    def step(stream: socket.socket) -> None:
        with stream, contextlib.suppress(BrokenPipeError, ConnectionResetError):
            while True:
                stream.sendall(frame)

    return step


class CCase(Case):
    """Tests that share the programs that they compile."""

    @classmethod
    def setUpClass(cls) -> None:
        if not shutil.which("cc"):
            raise unittest.SkipTest("cc is not on this machine")
        cls.programs = cls.enterClassContext(tempfile.TemporaryDirectory(prefix="castd-"))
        cls.sanitized = SANITIZED if cls.can_sanitize() else []
        calls = pathlib.Path(__file__).with_name("calls.c")
        cls.calls = cls.compiled("calls", "-Wl,--wrap=malloc", str(calls), str(CLIENT / "castd.c"))
        cls.tool = [cls.compiled("castd-client", str(CLIENT / "castd-client.c"), str(CLIENT / "castd.c"))]

    @classmethod
    def can_sanitize(cls) -> bool:
        """Whether this machine has what programs with sanitizers are linked with, and runs them."""
        source, program = f"{cls.programs}/empty.c", f"{cls.programs}/empty"
        pathlib.Path(source).write_text("int main(void) { return 0; }\n")
        linked = subprocess.run(["cc", *SANITIZED, "-o", program, source], capture_output=True, check=False)
        return linked.returncode == 0 and subprocess.run([program], capture_output=True, check=False).returncode == 0

    @classmethod
    def compiled(cls, name: str, *words: str) -> str:
        made = f"{cls.programs}/{name}"
        flags = [*STRICT, *cls.sanitized, "-I", str(CLIENT)]
        ran = subprocess.run(["cc", *flags, "-o", made, *words], capture_output=True, text=True, check=False)
        if ran.returncode or ran.stderr:
            raise AssertionError(ran.stderr)
        return made

    def run_calls(self, path: str, *lines: str, milliseconds: int = 10_000) -> list[str]:
        """What a program prints that connects there within that time and makes these calls."""
        words, said = [self.calls, path, str(milliseconds)], "".join(f"{line}\n" for line in lines)
        ran = subprocess.run(words, input=said, capture_output=True, text=True, timeout=4 * PATIENCE, check=False)
        self.assertEqual((ran.returncode, ran.stderr), (0, ""))
        return ran.stdout.splitlines()


class Scripted(CCase):
    """Calls beside a server that plays a script."""

    def check(self, steps: Sequence[Step], *lines: str, milliseconds: int = 10_000) -> None:
        """Checks the lines of a program whose server takes these steps.

        A line is what the program is told and, behind an arrow, what it prints then. The first is what connecting comes
        to, within so many milliseconds.
        """
        path = f"{tempfile.mkdtemp(dir=self.folder)}/castd.sock"
        told = [line.partition(" -> ") for line in lines[1:]]
        with ScriptedServer(path, *steps):
            printed = self.run_calls(path, *(call for call, _, _ in told), milliseconds=milliseconds)
        self.assertEqual(printed, [lines[0], *(result for _, arrow, result in told if arrow)])

    def check_opened(self, steps: Sequence[Step], *lines: str) -> None:
        """As `check`, behind Opened."""
        self.check([write(OPENED), *steps], "done", *lines)

    # Connecting

    def test_connecting_waits_for_opened_which_read_gives(self):
        self.check([wait(0.1), write(opened(3, 4))], "done", "read 0 -> opened 3.4", "read 0 -> none")

    def test_connecting_is_refused(self):
        self.check([write(closed(3)), close()], "TooManySessions")
        self.check([write(closed(13))], "Halted")

    def test_connecting_fails(self):
        self.check([wait(0.5)], "late", milliseconds=200)
        self.check([close()], "ended")
        self.check([write(OPENED[:-1]), close()], "ended")
        for wrong in (b"HTTP/1.1 400 Bad Request\r\n", view(1, 1, SELF), reply(1, 0)):
            self.check([write(wrong)], "bad bytes")
        self.assertEqual(self.run_calls(f"{self.folder}/none"), ["failed: No such file or directory"])
        self.assertEqual(self.run_calls(f"{self.folder}/{'long' * 30}"), ["failed: File name too long"])

    def test_calls_end_where_connecting_failed(self):
        self.check([close()], "ended", "cast 100 1 a -> ended", "read 100 -> ended", "wait -> wait 0", "close")

    def test_connecting_ends_in_time_where_nobody_takes_the_connection(self):
        path = f"{self.folder}/castd.sock"
        with socket.socket(socket.AF_UNIX) as listener, contextlib.ExitStack() as others:
            listener.bind(path)
            listener.listen(0)
            with contextlib.suppress(BlockingIOError):
                while True:
                    other = others.enter_context(socket.socket(socket.AF_UNIX))
                    other.setblocking(False)
                    other.connect(path)
            self.assertEqual(self.run_calls(path, milliseconds=200), ["late"])

    # Calls and their answers

    def test_each_call_sends_its_frame_and_takes_its_reply(self):
        steps = [
            *(expect(command(CAST, 1, 1, CAUSAL + b"hi")), write(reply(1, 0))),
            *(expect(command(CAST, 2, 2, ATOMIC)), write(reply(2, 0))),
            *(expect(command(LEAVE, 3, 65_535)), write(reply(3, 0))),
            *(expect(command(PASS, 4, 1, process(2, 4_294_967_295))), write(reply(4, 0))),
        ]
        calls = ("cast 5000 1 hi -> done", "abcast 5000 2 -> done", "leave 5000 65535 -> done")
        self.check_opened(steps, *calls, "pass 5000 1 2.4294967295 -> done", "read 0 -> opened 1.1", "read 0 -> none")

    def test_a_refusal_is_the_result(self):
        steps = [expect(abcast(1)), write(reply(1, 5)), expect(command(LEAVE, 2, 1)), write(reply(2, 7))]
        self.check_opened(steps, "abcast 5000 1 a -> NotMember", "leave 5000 1 -> Flushing")

    def test_a_payload_that_is_too_long_is_refused_at_once(self):
        steps = [expect(abcast(1, bytes(16_384))), write(reply(1, 0))]
        too_long = ("abcast 5000 1 16385* -> TooLong", "send 0 1 16385* -> TooLong")
        self.check_opened(steps, *too_long, "abcast 5000 1 16384* -> done")

    def test_numbers_that_no_command_has_are_refused_at_once(self):
        steps = [expect(command(LEAVE, 1, 1)), write(reply(1, 0))]
        wrong = ("join 5000 0", "cast 5000 0 a", "send 0 0 a", "pass 5000 1 0.1", "pass 5000 1 1.0")
        self.check_opened(steps, *(f"{call} -> OutOfRange" for call in wrong), "leave 5000 1 -> done")

    def test_what_comes_meanwhile_is_kept_in_order(self):
        before = deliver(1, 2, OTHER, 1, CAUSAL, b"before") + ejected(7, 3)
        after = denied(9, 14) + deliver(1, 2, SELF, 1, ATOMIC, b"after")
        self.check_opened(
            [expect(abcast(1)), write(before + reply(1, 0) + after)],
            "abcast 5000 1 a -> done",
            "read 0 -> opened 1.1",
            "read 0 -> deliver 1 before",
            "read 0 -> ejected 7 3",
            "read 5000 -> denied 9 14",
            "read 5000 -> deliver 1 after",
            "read 0 -> none",
        )

    def test_frames_may_come_in_pieces(self):
        short = deliver(1, 2, OTHER, 1, CAUSAL, b"short")
        long = deliver(1, 2, OTHER, 1, CAUSAL, b"x" * 16_384)
        pieces = [*(bytes([byte]) for byte in short), long[:9_000], long[9_000:]]
        steps = [step for piece in pieces for step in (write(piece), wait(0.01))]
        reads = ("read 5000 -> opened 1.1", "read 5000 -> deliver 1 short", f"read 5000 -> deliver 1 {'x' * 16_384}")
        self.check_opened(steps, *reads)

    def test_much_can_be_kept_and_its_room_is_given_back(self):
        numbers = [f"{count:05}" for count in range(1, 1_001)]
        many = b"".join(deliver(1, 2, OTHER, int(text), CAUSAL, text.encode() + bytes(3_000)) for text in numbers)
        path = f"{self.folder}/castd.sock"
        with ScriptedServer(path, write(OPENED), expect(abcast(1)), write(many), write(reply(1, 0))):
            lines = self.run_calls(path, "abcast 20000 1 a", "room", "read 0", "messages 0 1000", "read 0", "room")
        self.assertEqual(lines[:4], ["done", "done", "much room", "opened 1.1"])
        self.assertEqual([line[:15] for line in lines[4:-2]], [f"deliver 1 {text}" for text in numbers])
        self.assertEqual(lines[-2:], ["none", "little room"])

    # Joining

    def test_a_join_waits_for_its_view(self):
        others = view(2, 1, SELF) + view(1, 4, OTHER)
        self.check_opened(
            [
                *(expect(command(JOIN, 1, 1)), write(others + view(1, 4, SELF) + reply(1, 0))),
                *(wait(0.1), write(view(2, 1, SELF)), wait(0.1), write(view(1, 4, OTHER)), wait(0.1)),
                write(view(1, 5, SELF, OTHER) + view(1, 6, SELF)),
            ],
            "join 5000 1 -> done",
            "read 0 -> opened 1.1",
            *("read 0 -> view 2 1 of 1", "read 0 -> view 1 4 of 1", "read 0 -> view 1 4 of 1"),
            *("read 0 -> view 2 1 of 1", "read 0 -> view 1 4 of 1", "read 0 -> view 1 5 of 2"),
            "read 5000 -> view 1 6 of 1",
            "read 0 -> none",
        )

    def test_a_join_is_refused_or_denied(self):
        self.check_opened(
            [
                *(expect(command(JOIN, 1, 1)), write(view(1, 3, SELF) + reply(1, 6))),
                *(expect(command(JOIN, 2, 1)), write(reply(2, 0) + denied(2, 14)), wait(0.1)),
                write(denied(1, 14) + view(1, 3, SELF)),
            ],
            "join 5000 1 -> AlreadyMember",
            "join 5000 1 -> GroupFull",
            "read 0 -> opened 1.1",
            "read 0 -> view 1 3 of 1",
            "read 0 -> denied 2 14",
            "read 0 -> denied 1 14",
            "read 5000 -> view 1 3 of 1",
            "read 0 -> none",
        )

    def test_a_join_has_its_turn_up_to_its_reply(self):
        self.check_opened(
            [
                *(expect(command(JOIN, 1, 1)), write(reply(1, 0)), expect(abcast(2)), write(reply(2, 5))),
                *(write(view(1, 1, SELF)), expect(abcast(3)), write(reply(3, 0))),
            ],
            "join 200 1 -> late, may be done",
            "abcast 5000 1 a -> NotMember",
            "members 0 1 -> done",
            "abcast 5000 1 a -> done",
        )

    # Refusals for now

    def test_a_command_that_is_refused_for_now_is_sent_again(self):
        for frame, call in (
            (command(CAST, 1, 1, CAUSAL + b"a"), "cast 5000 1 a -> done"),
            (command(PASS, 1, 1, OTHER), "pass 5000 1 2.1 -> done"),
        ):
            steps = []
            for code in (FLUSHING, OWN_ABCAST, HELD_FULL):
                steps += [expect(frame), quiet(AGAIN / 2, reply(1, code))]
            steps += [expect(frame), write(reply(1, 0))]
            self.check_opened(steps, call, "read 0 -> opened 1.1", "read 0 -> none")

    def seconds_of(self, times: int, push: bytes) -> float:
        """The seconds that a cast takes which is refused so many times, each time with this push behind the refusal."""
        steps = [step for _ in range(times) for step in (expect(abcast(1)), write(reply(1, FLUSHING) + push))]
        begun = time.monotonic()
        self.check_opened([*steps, expect(abcast(1)), write(reply(1, 0))], "abcast 20000 1 a -> done")
        return time.monotonic() - begun

    def test_some_pushes_let_it_be_sent_at_once(self):
        times = 100
        for push in (view(2, 1, OTHER), ejected(2, 1), deliver(2, 1, SELF, 1, ATOMIC, b"")):
            self.assertLess(self.seconds_of(times, push), times * AGAIN)

    def test_other_pushes_do_not(self):
        times = 5
        for push in (deliver(2, 1, OTHER, 1, ATOMIC, b""), deliver(2, 1, SELF, 1, CAUSAL, b""), denied(2, 14)):
            self.assertGreaterEqual(self.seconds_of(times, push), times * AGAIN)

    def test_a_call_that_is_always_refused_for_now_ends_with_that_code(self):
        results = set()
        for turn in range(20):
            path = f"{self.folder}/{turn}"
            answers = answer({abcast(1): reply(1, OWN_ABCAST), abcast(2): reply(2, 0)})
            with ScriptedServer(path, write(OPENED), answers):
                # The end of its time comes at another moment between two tries in each turn.
                lines = self.run_calls(path, f"abcast {100 + turn} 1 a", "abcast 5000 1 a", "read 0", "read 0")
            self.assertEqual([lines[0], *lines[2:]], ["done", "done", "opened 1.1", "none"])
            results.add(lines[1])
        # At the end of its time it may just be at the daemon again.
        self.assertIn("OwnAbcast", results)
        self.assertLessEqual(results, {"OwnAbcast", "late, may be done"})

    # The queue

    def test_commands_go_one_by_one_in_the_order_of_the_calls(self):
        steps = [step for _ in range(3) for step in (expect(abcast(1, b"1")), write(reply(1, FLUSHING)))]
        steps += [expect(abcast(1, b"1")), quiet(2 * AGAIN), write(reply(1, 0))]
        steps += [expect(abcast(2, b"2")), quiet(2 * AGAIN), write(reply(2, 5))]
        steps += [expect(abcast(3, b"3")), quiet(2 * AGAIN), write(reply(3, 0))]
        steps += [expect(command(LEAVE, 4, 1)), write(reply(4, 0))]
        self.check_opened(
            steps,
            *("send 0 1 1 -> tag 1", "send 0 1 2 -> tag 2", "send 0 1 3 -> tag 3"),
            "leave 5000 1 -> done",
            "read 0 -> opened 1.1",
            *("read 0 -> reply 1 0", "read 0 -> reply 2 5", "read 0 -> reply 3 0"),
            "read 0 -> none",
        )

    def test_reads_move_the_queue_on(self):
        steps = [expect(abcast(1, b"1")), write(reply(1, FLUSHING)), expect(abcast(1, b"1")), write(reply(1, 0))]
        steps += [expect(abcast(2, b"2")), write(reply(2, 0))]
        reads = ("read 5000 -> opened 1.1", "read 5000 -> reply 1 0", "read 5000 -> reply 2 0")
        self.check_opened(steps, "send 0 1 1 -> tag 1", "send 0 1 2 -> tag 2", *reads)

    def test_an_event_loop_is_told_how_long_it_may_wait(self):
        steps = [expect(abcast(1)), wait(0.1), write(reply(1, FLUSHING))]
        steps += [expect(abcast(1)), wait(0.1), write(reply(1, 0))]
        self.check_opened(
            steps,
            *("wait -> wait 0", "read 0 -> opened 1.1", "wait -> wait -1"),
            *("send 0 1 a -> tag 1", "wait -> wait -1", "read 10 -> none", "pause 200"),
            *("read 0 -> none", "wait -> wait a little", "pause 30"),
            *("read 0 -> none", "wait -> wait -1", "read 5000 -> reply 1 0", "wait -> wait -1"),
        )

    # Deadlines

    def test_a_call_without_an_answer_is_late_and_the_next_waits_for_it(self):
        steps = [expect(abcast(1)), quiet(0.6), write(reply(1, FLUSHING)), expect(abcast(3, b"c")), write(reply(3, 0))]
        late = ("abcast 200 1 a -> late, may be done", "abcast 200 1 b -> late")
        self.check_opened(steps, *late, "abcast 5000 1 c -> done", "read 0 -> opened 1.1", "read 0 -> none")

    def test_a_deadline_of_nothing_sends_what_it_can(self):
        steps = [expect(abcast(1)), wait(0.1), write(reply(1, 0))]
        late = ("abcast 0 1 a -> late, may be done", "pause 200")
        self.check_opened(steps, *late, "read 0 -> opened 1.1", "read 0 -> none")

    def test_a_deadline_holds_while_much_comes(self):
        steps = [flood(deliver(1, 2, OTHER, 1, CAUSAL, b"x" * 100))]
        self.check_opened(steps, "abcast 300 1 a -> late, may be done")

    def test_a_deadline_holds_while_signals_come(self):
        steps = [expect(abcast(1)), wait(0.5), write(reply(1, 0)), expect(abcast(2, b"b")), write(reply(2, 0))]
        reads = ("read 0 -> opened 1.1", "alarm 5", "read 200 -> none")
        self.check_opened(steps, *reads, "abcast 100 1 a -> late, may be done", "abcast 5000 1 b -> done")

    def test_a_socket_without_room_is_waited_for(self):
        long = [wait(0.5), expect(abcast(1, bytes(16_384))), write(reply(1, 0))]
        self.check_opened(long, "narrow", "abcast 5000 1 16384* -> done")
        self.check_opened(
            [*long, expect(abcast(2, b"b")), write(reply(2, 0))],
            *("narrow", "abcast 100 1 16384* -> late, may be done", "wait -> wait 0"),
            *("read 0 -> opened 1.1", "read 100 -> none", "wait -> wait a little", "abcast 5000 1 b -> done"),
        )

    # The end of a session

    def test_the_end_of_the_stream_ends_all(self):
        kept, half = deliver(1, 2, OTHER, 1, CAUSAL, b"kept"), deliver(1, 2, OTHER, 2, CAUSAL, b"half")[:-1]
        self.check_opened(
            [expect(abcast(1)), write(kept + half), close()],
            *("abcast 5000 1 a -> ended, may be done", "abcast 5000 1 b -> ended", "send 0 1 c -> ended"),
            *("join 5000 1 -> ended", "read 5000 -> opened 1.1", "read 5000 -> deliver 1 kept"),
            *("read 5000 -> ended", "read 5000 -> ended", "wait -> wait 0"),
        )

    def test_what_stands_behind_in_the_queue_is_not_done(self):
        sent = ("send 0 1 a -> tag 1", "abcast 5000 1 b -> ended")
        self.check_opened([expect(abcast(1)), close()], *sent, "read 0 -> opened 1.1", "read 0 -> ended")

    def test_what_is_refused_for_now_at_the_end_is_not_done(self):
        steps = [expect(abcast(1)), write(reply(1, FLUSHING)), close()]
        self.check_opened(steps, "abcast 5000 1 a -> ended")

    def test_a_join_behind_its_reply_may_be_done_at_the_end(self):
        steps = [expect(command(JOIN, 1, 1)), write(reply(1, 0)), close()]
        self.check_opened(steps, "join 5000 1 -> ended, may be done")

    def test_a_stream_that_is_reset_has_ended(self):
        steps = [write(deliver(1, 2, OTHER, 1, CAUSAL, b"kept")), wait(0.2), close()]
        reads = ("read 0 -> opened 1.1", "read 0 -> deliver 1 kept", "read 0 -> ended")
        self.check_opened(steps, "abcast 5000 1 a -> ended, may be done", *reads)

    def test_a_stream_that_takes_no_more_is_read_to_its_end(self):
        steps = [write(deliver(1, 2, OTHER, 1, CAUSAL, b"kept") + closed(12)), close()]
        reads = ("read 0 -> opened 1.1", "read 0 -> deliver 1 kept", "read 0 -> closed 12", "read 0 -> ended with 12")
        self.check_opened(steps, "pause 200", "abcast 5000 1 a -> ended with 12", *reads)

    def test_a_stream_that_takes_no_more_has_ended_where_it_stays_open(self):
        steps = [lambda stream: stream.shutdown(socket.SHUT_RD), wait(1)]
        self.check_opened(steps, "pause 200", "abcast 300 1 a -> ended", "read 0 -> opened 1.1", "read 0 -> ended")

    def test_closed_ends_all(self):
        steps = [expect(abcast(1)), write(closed(12) + reply(1, 0))]
        calls = ("abcast 5000 1 a -> ended with 12, may be done", "abcast 5000 1 b -> ended with 12")
        self.check_opened(steps, *calls, "read 0 -> opened 1.1", "read 0 -> closed 12", "read 0 -> ended with 12")

    def test_bytes_that_are_no_push_end_all(self):
        kept = deliver(1, 2, OTHER, 1, CAUSAL, b"kept")
        for wrong in (reply(2, 0), reply(1, 16), b"\0\0\0\4", b"\0\0\x4e\x21", view(0, 1), OPENED):
            with self.subTest(wrong.hex()):
                steps = [expect(abcast(1)), write(kept + wrong + reply(1, 0))]
                reads = ("read 0 -> opened 1.1", "read 0 -> deliver 1 kept", "read 0 -> bad bytes")
                self.check_opened(steps, "abcast 5000 1 a -> bad bytes, may be done", *reads, "send 0 1 b -> bad bytes")

    def test_a_reply_to_nothing_is_a_fault(self):
        self.check_opened([write(reply(0, 0))], "read 0 -> opened 1.1", "read 5000 -> bad bytes")
        refused = [expect(abcast(1)), write(reply(1, FLUSHING) + reply(1, 0))]
        self.check_opened(refused, "abcast 5000 1 a -> bad bytes")

    def test_a_session_that_was_closed_ends_calls(self):
        calls = ("send 0 1 a -> tag 1", "close", "read 0 -> ended", "abcast 0 1 a -> ended", "wait -> wait 0", "close")
        self.check_opened([expect(abcast(1))], *calls)

    # Memory

    def test_without_memory_nothing_is_lost(self):
        numbers = [f"{count:05}" for count in range(1, 21)]
        many = b"".join(deliver(1, 2, OTHER, int(text), CAUSAL, text.encode() + bytes(9_000)) for text in numbers)
        path, no_memory = f"{self.folder}/castd.sock", "failed: Cannot allocate memory"
        steps = (expect(abcast(1)), write(many + reply(1, 0)), expect(abcast(3, b"c")), write(reply(3, 0)))
        calls = ["starve 0 1", "send 0 1 a", "starve 0 0", "send 0 1 a", "starve 0 1", "abcast 5000 1 b", "starve 0 0"]
        calls += ["read 0", "messages 0 20", "read 5000", "abcast 5000 1 c", "read 0"]
        with ScriptedServer(path, write(OPENED), *steps):
            lines = self.run_calls(path, *calls)
        self.assertEqual(lines[:5], ["done", no_memory, "tag 1", no_memory, "opened 1.1"])
        self.assertEqual([line[:15] for line in lines[5:25]], [f"deliver 1 {text}" for text in numbers])
        self.assertEqual(lines[25:], ["reply 1 0", "done", "none"])


class Beside(CCase):
    """Programs beside daemons that run."""

    def daemons(self, sites: int) -> Setup:
        """Daemons that wait long before they send a datagram again, so that a busy machine has less to do."""
        setup = self.setup_of(sites, {"number": 1, "resend": 2_000})
        for site in range(1, sites + 1):
            self.keeper(setup, site)
        return setup

    def program(self, setup: Setup, site: int) -> Process:
        """A program of calls, which has connected at a site."""
        program = Process([self.calls, f"{setup.site_folder(site)}/castd.sock", "10000"], setup.folder)
        self.addCleanup(program.kill)
        self.assertEqual(program.line(PATIENCE), "done")
        return program

    def assert_says(self, program: Process, line: str, *expected: str) -> None:
        program.say(f"{line}\n")
        self.assertEqual([program.line(PATIENCE) for _ in expected], list(expected))

    def assert_cast_in_one_order(self, setup: Setup, *sites: int) -> None:
        """Has three programs cast 100 messages each at once. All are delivered all of them, in one order."""
        programs = [self.program(setup, site) for site in sites]
        for program in programs:
            program.say("join 20000 1\nmembers 0 3\n")
        for program in programs:
            self.assertEqual([program.line(PATIENCE), program.line(PATIENCE)], ["done", "done"])
        texts = {number: [f"{number}-{count}" for count in range(100)] for number, _ in enumerate(programs)}
        for number, program in enumerate(programs):
            program.say("".join(f"abcast 60000 1 {text}\n" for text in texts[number]) + "messages 0 300\n")
        delivered = []
        for program in programs:
            self.assertEqual([program.line(PATIENCE) for _ in range(100)], ["done"] * 100)
            delivered.append([program.line(PATIENCE).removeprefix("deliver 1 ") for _ in range(300)])
        self.assertEqual(delivered[1:], delivered[:1] * 2)
        for number, cast in texts.items():
            self.assertEqual([text for text in delivered[0] if text.startswith(f"{number}-")], cast)

    def test_three_programs_of_a_daemon_cast_in_one_order(self):
        self.assert_cast_in_one_order(self.daemons(1), 1, 1, 1)

    def test_three_programs_of_three_daemons_cast_in_one_order(self):
        self.assert_cast_in_one_order(self.daemons(3), 1, 2, 3)

    def test_a_daemon_that_is_stopped_and_goes_on(self):
        setup = self.setup_of()
        daemon = self.keeper(setup).daemon()
        program = self.program(setup, 1)
        self.assert_says(program, "join 10000 1", "done")
        stop(daemon)
        self.assert_says(program, "abcast 200 1 first", "late, may be done")
        self.assert_says(program, "abcast 200 1 second", "late")
        os.kill(daemon, signal.SIGCONT)
        self.assert_says(program, "abcast 20000 1 third", "done")
        self.assert_says(program, "messages 0 2", "deliver 1 first", "deliver 1 third")

    def test_a_daemon_that_is_killed(self):
        setup = self.setup_of()
        daemon = self.keeper(setup).daemon()
        waiting, idle = self.program(setup, 1), self.program(setup, 1)
        for program in (waiting, idle):
            self.assert_says(program, "join 10000 1", "done")
        stop(daemon)
        waiting.say("abcast 20000 1 a\n")
        time.sleep(0.3)
        os.kill(daemon, signal.SIGKILL)
        self.assertEqual(waiting.line(PATIENCE), "ended, may be done")
        self.assert_says(idle, "abcast 20000 1 a", "ended")

    def test_it_links_from_cpp_and_leaves_programs_no_descriptor(self):
        if not shutil.which("c++"):
            self.skipTest("c++ is not on this machine")
        setup = self.daemons(1)
        pathlib.Path(f"{self.folder}/program.cc").write_text(CPP_PROGRAM)
        compiled = ["cc", *STRICT, "-c", "-o", f"{self.folder}/castd.o", str(CLIENT / "castd.c")]
        linked = ["c++", "-std=c++17", *WARNINGS, "-I", str(CLIENT), "-o", f"{self.folder}/program"]
        for words in (compiled, [*linked, f"{self.folder}/program.cc", f"{self.folder}/castd.o"]):
            ran = subprocess.run(words, capture_output=True, text=True, check=False)
            self.assertEqual((ran.returncode, ran.stderr), (0, ""))
        path = os.path.relpath(f"{setup.site_folder(1)}/castd.sock")
        ran = subprocess.run([f"{self.folder}/program", path], timeout=PATIENCE, check=False)
        self.assertEqual(ran.returncode, 0)


class LineTool(CCase, ToolCases):
    def assert_prints(self, given: str, *lines: str, complaints: str = "", steps: tuple[Step, ...] = ()) -> None:
        """Checks what it prints that is given this, beside a server that plays a script behind Opened."""
        path = f"{tempfile.mkdtemp(dir=self.folder)}/castd.sock"
        with ScriptedServer(path, write(OPENED), *steps):
            status, printed, complained = self.run_tool(path, given=given.encode())
        self.assertEqual(printed.decode().splitlines(), ["opened 1.1", *lines])
        self.assertEqual((status, complained.decode()), (0, complaints))

    def test_lines_that_are_no_commands(self):
        wrong = ["joi 1", "join", "join 0", "join 65536", "join 01", "join -1", "join 1 ", "join  1", "cast", "cast x"]
        wrong += ["pass 1", "pass 1 2", "pass 1 0.1", "pass 1 1.4294967296", "pass 1 2.1 ", "wait", "wait x", "wait -1"]
        wrong += [f"cast 1 {'x' * 16_385}"]
        given = "".join(f"{line}\n" for line in wrong)
        self.assert_prints(given, complaints="".join(f"unknown: {line}\n" for line in wrong))

    def test_each_command_is_sent_and_what_comes_is_printed(self):
        steps = (
            *(expect(command(JOIN, 1, 1)), write(reply(1, 0) + view(1, 1, OTHER))),
            *(wait(0.1), write(view(1, 2, SELF, OTHER))),
            expect(command(CAST, 2, 1, CAUSAL + b"a  b")),
            write(deliver(1, 2, SELF, 1, CAUSAL, b"a  b") + reply(2, 0)),
            *(expect(command(CAST, 3, 1, ATOMIC)), write(reply(3, 0) + deliver(1, 2, SELF, 2, ATOMIC, b""))),
            *(expect(command(PASS, 4, 1, OTHER)), write(reply(4, 11))),
            *(expect(command(LEAVE, 5, 1)), write(reply(5, 0) + ejected(2, 3))),
            *(expect(command(JOIN, 6, 9)), write(reply(6, 0) + denied(8, 14) + denied(9, 14))),
            *(expect(command(JOIN, 7, 8)), write(reply(7, 4))),
        )
        given = "join 1\ncast 1 a  b\nabcast 1\nwait 0.1\npass 1 2.1\nleave 1\nwait 0.1\njoin 9\njoin 8"
        first = ("reply 1 0", "view 1 1 holder 2.1 members 2.1", "view 1 2 holder 1.1 members 1.1 2.1")
        casts = ("deliver 1/2/1.1/1 causal a  b", "reply 2 0", "reply 3 0", "deliver 1/2/1.1/2 atomic")
        others = ("reply 4 11 NotHolder", "reply 5 0", "ejected 2 3")
        joins = ("reply 6 0", "denied 8 14 GroupFull", "denied 9 14 GroupFull", "reply 7 4 NoGroup")
        self.assert_prints(given, *first, *casts, *others, *joins, steps=steps)

    def test_payloads_are_any_bytes(self):
        payload = bytes(byte for byte in range(256) if byte != ord("\n"))
        path = f"{self.folder}/castd.sock"
        steps = (expect(command(CAST, 1, 1, CAUSAL + payload)), write(reply(1, 0)))
        with ScriptedServer(path, write(OPENED + deliver(1, 1, OTHER, 1, CAUSAL, bytes(range(256)))), *steps):
            status, printed, complained = self.run_tool(path, given=b"cast 1 " + payload)
        low = "".join(f"\\x{byte:02x}" for byte in range(32)).encode()
        high = bytes(range(32, 256)).replace(b"\\", b"\\x5c").replace(b"\x7f", b"\\x7f")
        text = b"opened 1.1\ndeliver 1/1/2.1/1 causal " + low + high + b"\nreply 1 0\n"
        self.assertEqual((status, printed, complained), (0, text, b""))

    def test_the_end_of_a_session(self):
        steps = (expect(command(LEAVE, 1, 1)), write(closed(12)), close())
        self.assert_prints("leave 1\nleave 2\n", "closed 12 Slow", steps=steps)
        self.assert_prints("leave 1\nleave 2\n", steps=(expect(command(LEAVE, 1, 1)), close()))
        path = f"{self.folder}/castd.sock"
        with ScriptedServer(path, write(OPENED), expect(command(LEAVE, 1, 1)), write(reply(2, 0))):
            expected = (1, b"opened 1.1\n", b"castd-client: the daemon sent what is no push\n")
            self.assertEqual(self.run_tool(path, given=b"leave 1\n"), expected)


# The cases are for the tests of each language alone.
del ToolCases
