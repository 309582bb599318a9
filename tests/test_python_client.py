"""The Python client, with calls that wait and with asyncio: against a server that plays a script, and beside daemons."""

from __future__ import annotations

import asyncio
import contextlib
import math
import os
import resource
import signal
import socket
import subprocess
import sys
import threading
import time
import unittest
from collections.abc import Callable
from unittest import mock

from castd import aio, conversation
from castd.replica import Replica
from client_cases import Log, ToolCases, replica_cases
from harness import PATIENCE, ROOT, Case, castd, stop, wait_until
from scripted_server import (
    ATOMIC,
    CAST,
    CAUSAL,
    JOIN,
    LEAVE,
    OPENED,
    PASS,
    ScriptedServer,
    close,
    closed,
    command,
    deliver,
    denied,
    ejected,
    expect,
    frame,
    opened,
    process,
    quiet,
    reply,
    view,
    wait,
    write,
)

FLUSHING, OWN_ABCAST, HELD_FULL = 7, 8, 9
OWN, OTHER = process(1, 1), process(2, 1)
VIEW = castd.View(1, 1, (castd.Process(1, 1),), castd.Process(1, 1))
THREADS, COMMANDS = 4, 500
# select(2) takes no descriptor from this one on.
MOST_OF_SELECT = 1024
# So long that a command is sent again only by what comes.
LONG = 1_000.0
SHORT = 0.3


def cast(tag: int, payload: bytes, kind: bytes = CAUSAL) -> bytes:
    return command(CAST, tag, 1, kind + payload)


class Awaited:
    """A session of asyncio whose calls wait: its loop runs in a thread of its own."""

    def __init__(self, path: str, timeout: float | None = None):
        self.loop = asyncio.new_event_loop()
        threading.Thread(target=self.loop.run_forever, daemon=True).start()
        self.session = self.waited(aio.connect(path, timeout))
        self.process = self.session.process

    def waited(self, call):
        return asyncio.run_coroutine_threadsafe(call, self.loop).result(PATIENCE)

    def __getattr__(self, name: str):
        return lambda *words, **how: self.waited(getattr(self.session, name)(*words, **how))

    def send(self, command: castd.Command) -> int:
        async def send() -> int:
            return self.session.send(command)

        return self.waited(send())

    def close(self) -> None:
        async def close() -> None:
            self.session.close()

        self.waited(close())


class PythonTool(ToolCases):
    tool = ["env", f"PYTHONPATH={ROOT}/clients/python", sys.executable, "-m", "castd"]


# The cases are for the tests of each language alone.
del ToolCases


class Scripted(Case):
    """What a session does at each thing that a server may do."""

    Session: type = castd.Session

    def play(self, *steps) -> ScriptedServer:
        self.path = f"{self.folder}/{len(os.listdir(self.folder))}.sock"
        return ScriptedServer(self.path, *steps)

    def session(self, timeout: float | None = PATIENCE):
        session = self.Session(self.path, timeout)
        self.addCleanup(session.close)
        return session

    def assert_fails(self, kind: type, may_be_done: bool, call, *words, **how):
        with self.assertRaises(kind) as caught:
            call(*words, **how)
        self.assertEqual(caught.exception.may_be_done, may_be_done)
        return caught.exception

    def test_a_session_knows_its_process(self):
        with self.play(write(opened(65_535, 4_294_967_295))):
            session = self.session()
            self.assertEqual(session.process, (65_535, 4_294_967_295))
            self.assertEqual(session.read(PATIENCE), castd.Opened(castd.Process(65_535, 4_294_967_295)))
            self.assertIsNone(session.read(0))
            session.close()

    def test_a_connection_fails_with_the_reason(self):
        with self.play(write(closed(13))):
            self.assertEqual(self.assert_fails(castd.Refused, False, self.session).code, castd.Code.HALTED)
        with self.play(close()):
            self.assertIsNone(self.assert_fails(castd.Ended, False, self.session).code)
        with self.play(write(reply(1, 0))):
            self.assert_fails(castd.BadFrame, False, self.session)
        with self.play(write(OPENED[:-1])):
            self.assert_fails(castd.Late, False, self.session, SHORT)
        with self.assertRaises(OSError):
            self.Session(f"{self.folder}/none")

    def test_a_connection_waits_for_room(self):
        path = f"{self.folder}/full.sock"
        with socket.socket(socket.AF_UNIX) as listener, socket.socket(socket.AF_UNIX) as first:
            listener.bind(path)
            listener.listen(0)
            first.connect(path)
            begun = time.monotonic()
            self.assert_fails(castd.Late, False, self.Session, path, SHORT)
            self.assertGreaterEqual(time.monotonic() - begun, SHORT)

            def serve() -> None:
                listener.accept()[0].close()
                stream, _ = listener.accept()
                with stream:
                    stream.sendall(OPENED)
                    stream.recv(1)

            server = threading.Timer(SHORT, serve)
            server.start()
            session = self.Session(path, PATIENCE)
            self.assertEqual(session.process, (1, 1))
            session.close()
            server.join()

    def test_a_time_may_be_very_long(self):
        for longest in 1e7, 1e12, math.inf:
            with self.play(write(OPENED), expect(cast(1, b"a")), wait(SHORT), write(reply(1, 0)), close()):
                session = self.Session(self.path, longest)
                session.cast(1, b"a", longest)
                self.assertIsInstance(session.read(longest), castd.Opened)
                self.assert_fails(castd.Ended, False, session.read, longest)
                session.close()

    def test_what_was_not_sent_is_forgotten_at_the_end(self):
        with self.play(write(OPENED), close()):
            session = self.session()
            time.sleep(SHORT)
            # With asyncio the end is known already.
            with contextlib.suppress(castd.Ended):
                session.send(castd.Join(1))
            session.close()
            with self.assertRaises(castd.Ended):
                while session.read(PATIENCE):
                    pass

    def test_commands_are_sent_one_by_one_and_again_in_order(self):
        again = [step for code in (FLUSHING, OWN_ABCAST, HELD_FULL) for step in (expect(cast(1, b"a")), write(reply(1, code)))]
        one_by_one = [expect(cast(1, b"a")), quiet(SHORT), write(reply(1, 0)), expect(cast(2, b"b", ATOMIC)), quiet(SHORT)]
        rest = [write(reply(2, 0)), expect(command(PASS, 3, 1, OTHER)), write(reply(3, HELD_FULL))]
        end = [expect(command(PASS, 3, 1, OTHER)), write(reply(3, 0))]
        with self.play(write(OPENED), *again, *one_by_one, *rest, *end):
            session = self.session()
            commands = castd.Cast(1, castd.CAUSAL, b"a"), castd.Cast(1, castd.ATOMIC, b"b"), castd.Pass(1, castd.Process(2, 1))
            self.assertEqual([session.send(it) for it in commands], [1, 2, 3])
            pushes = [session.read(PATIENCE) for _ in range(4)]
            self.assertEqual(pushes[1:], [castd.Reply(tag, castd.Code.DONE) for tag in (1, 2, 3)])
            session.close()

    @mock.patch.object(conversation, "PAUSE", LONG)
    def test_what_ends_the_cause_of_a_refusal_has_the_command_sent_again(self):
        causes = view(1, 2, OWN), ejected(2, 5), deliver(1, 1, OWN, 1, ATOMIC, b"x")
        others = denied(1, 14) + deliver(1, 1, OTHER, 1, ATOMIC, b"x") + deliver(1, 1, OWN, 2, CAUSAL, b"x")
        steps = [expect(cast(1, b"a")), write(reply(1, FLUSHING) + others), quiet(SHORT)]
        for cause in causes:
            steps += [write(cause), expect(cast(1, b"a")), write(reply(1, OWN_ABCAST))]
        with self.play(write(OPENED), *steps, write(causes[0]), expect(cast(1, b"a")), write(reply(1, 0))):
            session = self.session()
            session.cast(1, b"a", PATIENCE)
            self.assertEqual(len([session.read(PATIENCE) for _ in range(8)]), 8)
            self.assertIsNone(session.read(0))
            session.close()

    @mock.patch.object(conversation, "PAUSE", LONG)
    def test_a_cast_that_stays_too_early_fails_with_the_reason_and_the_next_one_goes(self):
        steps = expect(cast(1, b"a")), write(reply(1, HELD_FULL)), expect(cast(2, b"b")), write(reply(2, 0))
        with self.play(write(OPENED), *steps):
            session = self.session()
            self.assertEqual(self.assert_fails(castd.Refused, False, session.cast, 1, b"a", SHORT).code, HELD_FULL)
            session.cast(1, b"b", PATIENCE)
            session.close()

    def test_other_refusals_are_final(self):
        codes = [code for code in castd.Code if code not in (0, FLUSHING, OWN_ABCAST, HELD_FULL)]
        steps = [step for tag, code in enumerate(codes, 1) for step in (expect(cast(tag, b"a")), write(reply(tag, code)))]
        join = [expect(command(JOIN, len(codes) + 1, 1)), write(reply(len(codes) + 1, HELD_FULL))]
        with self.play(write(OPENED), *steps, *join):
            session = self.session()
            for code in codes:
                self.assertEqual(self.assert_fails(castd.Refused, False, session.cast, 1, b"a", PATIENCE).code, code)
            self.assertEqual(self.assert_fails(castd.Refused, False, session.join, 1, PATIENCE).code, HELD_FULL)
            session.close()

    def test_the_answer_of_a_call_whose_time_is_over_is_waited_for(self):
        steps = expect(cast(1, b"a")), wait(4 * SHORT), write(reply(1, FLUSHING)), expect(cast(3, b"c")), write(reply(3, 0))
        with self.play(write(OPENED), *steps):
            session = self.session()
            self.assert_fails(castd.Late, True, session.cast, 1, b"a", SHORT)
            self.assert_fails(castd.Late, False, session.cast, 1, b"b", SHORT)
            session.cast(1, b"c", PATIENCE)
            session.close()

    def test_the_end_of_the_stream_is_told(self):
        for last in b"", closed(12)[:3]:
            with self.play(write(OPENED), expect(cast(1, b"a")), write(last), close()):
                session = self.session()
                session.send(castd.Cast(1, castd.CAUSAL, b"a"))
                self.assertIsNone(self.assert_fails(castd.Ended, False, session.abcast, 1, b"b", PATIENCE).code)
                self.assertIsInstance(session.read(PATIENCE), castd.Opened)
                self.assert_fails(castd.Ended, False, session.read, PATIENCE)
        with self.play(write(OPENED), expect(cast(1, b"a")), write(closed(12) + reply(1, 0))):
            session = self.session()
            self.assertEqual(self.assert_fails(castd.Ended, True, session.cast, 1, b"a", PATIENCE).code, castd.Code.SLOW)
            self.assertEqual(self.assert_fails(castd.Ended, False, session.leave, 1, PATIENCE).code, castd.Code.SLOW)
            self.assertEqual([session.read(PATIENCE) for _ in range(2)][1], castd.Closed(castd.Code.SLOW))
            self.assertEqual(self.assert_fails(castd.Ended, False, session.read, PATIENCE).code, castd.Code.SLOW)
            session.close()

    def test_what_a_daemon_never_sends_ends_the_session(self):
        for wrong in reply(2, 0), OPENED, frame(72, b""), bytes(4), reply(1, 16):
            with self.play(write(OPENED), expect(cast(1, b"a")), write(wrong)):
                session = self.session()
                self.assert_fails(castd.BadFrame, True, session.cast, 1, b"a", PATIENCE)
                self.assert_fails(castd.BadFrame, False, session.cast, 1, b"a", PATIENCE)
                session.close()

    def test_a_join_waits_for_its_view(self):
        steps = expect(command(JOIN, 1, 1)), write(reply(1, 0)), quiet(SHORT), write(view(1, 1, OWN))
        with self.play(write(OPENED), *steps):
            session = self.session()
            self.assertEqual(session.join(1, PATIENCE), VIEW)
            self.assertEqual([session.read(PATIENCE) for _ in range(2)][1], VIEW)
            session.close()

    def test_a_join_fails_with_the_reason(self):
        with self.play(write(OPENED), expect(command(JOIN, 1, 1)), write(reply(1, 0) + denied(1, 14))):
            session = self.session()
            self.assertEqual(self.assert_fails(castd.Refused, False, session.join, 1, PATIENCE).code, castd.Code.GROUP_FULL)
            session.close()
        leave = expect(command(LEAVE, 2, 1)), write(reply(2, 0)), expect(cast(3, b"c")), write(reply(3, 0))
        with self.play(write(OPENED), expect(command(JOIN, 1, 1)), write(reply(1, 0)), *leave):
            session = self.session()
            self.assert_fails(castd.Late, True, session.join, 1, SHORT)
            session.leave(1, PATIENCE)
            session.cast(1, b"c", PATIENCE)
            session.close()

    def test_a_join_ends_with_a_leave(self):
        join = expect(command(JOIN, 1, 1)), write(reply(1, 0))
        with self.play(write(OPENED), *join, expect(command(LEAVE, 2, 1)), write(reply(2, 0))):
            session = self.session()
            leave = threading.Timer(SHORT, session.leave, (1, PATIENCE))
            leave.start()
            self.assertEqual(self.assert_fails(castd.Refused, False, session.join, 1, PATIENCE).code, castd.Code.NOT_MEMBER)
            leave.join()
            session.close()

    def test_what_is_no_command_is_not_sent(self):
        with self.play(write(OPENED), expect(command(LEAVE, 1, 1)), write(reply(1, 0))):
            session = self.session()
            long = bytes(castd.MOST_PAYLOAD + 1)
            self.assertEqual(self.assert_fails(castd.Refused, False, session.cast, 1, long).code, castd.Code.TOO_LONG)
            for group, member in (0, (1, 1)), (65_536, (1, 1)), (1, (0, 1)), (1, (1, 0)), (1, (65_536, 1)), (1, (1, 1 << 32)):
                with self.assertRaises(ValueError):
                    session.pass_to(group, castd.Process(*member))
            session.leave(1, PATIENCE)
            session.close()


class ScriptedForAsyncio(Scripted):
    Session = Awaited

    def test_a_task_that_is_cancelled_takes_its_command_back(self):
        steps = expect(cast(1, b"a")), wait(2 * SHORT), write(reply(1, 0)), expect(cast(3, b"c")), write(reply(3, 0))

        async def run() -> None:
            async with await aio.connect(self.path, PATIENCE) as session:
                tasks = [asyncio.create_task(session.cast(1, payload)) for payload in (b"a", b"b", b"c")]
                await asyncio.sleep(SHORT)
                tasks[1].cancel()
                await asyncio.wait_for(asyncio.gather(tasks[0], tasks[2]), PATIENCE)
                self.assertTrue(tasks[1].cancelled())

        with self.play(write(OPENED), *steps):
            asyncio.run(run())

    def test_a_program_that_does_not_read_leaves_its_pushes_to_the_daemon(self):
        many = b"".join(deliver(1, 1, OTHER, count, CAUSAL, bytes(10_000)) for count in range(1, 5_001))

        async def run() -> None:
            async with await aio.connect(self.path, PATIENCE) as session:
                await asyncio.sleep(4 * SHORT)
                self.assertLess(len(session._conversation.pushes), 2 * aio.MOST_KEPT)
                for count in range(5_001):
                    push = await session.read(PATIENCE)
                self.assertEqual(push.count, 5_000)

        with self.play(write(OPENED), write(many)):
            asyncio.run(run())


class Interrupted(Case):
    """A session that waits in the main thread, and what a handler of a signal does there."""

    def assert_interrupted(self, handler: Callable[[castd.Session], None], kind: type) -> None:
        path = f"{self.folder}/castd.sock"
        with ScriptedServer(path, write(OPENED)):
            with castd.Session(path, PATIENCE) as session:
                session.read(PATIENCE)
                usual = signal.signal(signal.SIGALRM, lambda *_: handler(session))
                self.addCleanup(signal.signal, signal.SIGALRM, usual)
                signal.setitimer(signal.ITIMER_REAL, SHORT)
                with self.assertRaises(kind):
                    session.read(PATIENCE)

    def test_it_may_close_the_session(self):
        self.assert_interrupted(castd.Session.close, castd.Ended)

    def test_it_may_raise_an_error(self):
        def interrupt(_: castd.Session) -> None:
            raise KeyboardInterrupt

        self.assert_interrupted(interrupt, KeyboardInterrupt)

    def test_an_error_that_it_raises_when_the_turn_is_given_leaves_no_trace(self):
        path = f"{self.folder}/castd.sock"
        with ScriptedServer(path, write(OPENED), expect(cast(1, b"a")), write(reply(1, 0))):
            with castd.Session(path, PATIENCE) as session:
                turn = session._turn

                class Turn:
                    """The turn, which the interruption of a program comes right behind once."""

                    def __getattr__(self, name: str):
                        return getattr(turn, name)

                    def __enter__(self):
                        return turn.__enter__()

                    def __exit__(self, *words):
                        return turn.__exit__(*words)

                    def release(self) -> None:
                        turn.release()
                        session._turn = turn
                        raise KeyboardInterrupt

                session.read(PATIENCE)
                session._turn = Turn()
                with self.assertRaises(KeyboardInterrupt):
                    session.read(PATIENCE)
                session.cast(1, b"a", PATIENCE)


class Sent:
    """A session that keeps what is sent."""

    def __init__(self, serial: int):
        self.process, self.payloads = castd.Process(1, serial), []

    def send(self, command: castd.Cast) -> int:
        self.payloads.append(command.payload)
        return len(self.payloads)


class ReplicaAlone(unittest.TestCase):
    """What a replica sends and does at each push. Other members say what the format of its payloads has."""

    def replica(self, serial: int, *serials: int) -> Replica:
        """A replica without the state, in view 1 with processes of these serials."""
        replica = Replica(Sent(serial), 1, Log())
        self.begin(replica, 1, *serials)
        self.assertEqual(self.sent(replica), [bytes.fromhex("01 00000001")])
        return replica

    def begin(self, replica: Replica, number: int, *serials: int) -> None:
        members = tuple(castd.Process(1, serial) for serial in serials)
        replica.take(castd.View(1, number, members, members[0]))

    def deliver(self, replica: Replica, serial: int, payload: str | bytes) -> None:
        payload = bytes.fromhex(payload) if isinstance(payload, str) else payload
        replica.take(castd.Deliver(1, replica.view, castd.Process(1, serial), 1, castd.ATOMIC, payload))

    def sent(self, replica: Replica) -> list[bytes]:
        sent, replica.session.payloads = replica.session.payloads, []
        return sent

    def test_vectors(self):
        for name, steps, state in replica_cases():
            with self.subTest(name):
                session, sent = Sent(2), []
                replica = Replica(session, 1, Log(b"."))
                for word, *words in [*steps, ["end"]]:
                    if word == "sends":
                        sent.append(bytes.fromhex("".join(words)))
                        continue
                    self.assertEqual(session.payloads, sent)
                    if word == "view":
                        holder, *members = map(castd.process_of, words[1:])
                        replica.take(castd.View(1, int(words[0]), tuple(members), holder))
                    elif word == "deliver":
                        sender, payload = castd.process_of(words[0]), bytes.fromhex("".join(words[1:]))
                        replica.take(castd.Deliver(1, replica.view, sender, 1, castd.ATOMIC, payload))
                self.assertEqual(replica.machine.state if replica.has_state else None, state)

    def test_a_long_state_is_sent_in_parts(self):
        replica = self.replica(1, 1)
        self.deliver(replica, 1, "01 00000001")
        self.deliver(replica, 1, b"\0" + bytes(16_000) + b"end")
        self.begin(replica, 2, 1, 2)
        head = bytes.fromhex("02 00000002")
        first, second = bytes.fromhex("00000000 00000002"), bytes.fromhex("00000001 00000002")
        self.assertEqual(self.sent(replica), [head + first + bytes(16_000), head + second + b"end"])

    def test_one_that_is_ejected_lacks_the_state(self):
        replica = self.replica(1, 1)
        self.deliver(replica, 1, "01 00000001")
        self.deliver(replica, 1, "00 aa")
        replica.take(castd.Ejected(1, 2))
        self.begin(replica, 3, 1, 2)
        self.assertEqual(self.sent(replica), [bytes.fromhex("01 00000003")])
        self.deliver(replica, 1, "01 00000003")
        self.deliver(replica, 2, "02 00000003 00000000 00000001 bb")
        self.assertEqual(replica.machine.state, b"\xbb")

    def test_answers_behind_an_ejection_are_its_own_affair(self):
        replica = self.replica(1, 1)
        tag = len(replica.session.payloads) + 1
        future = replica.operation(b"a")
        replica.take(castd.Ejected(1, 2))
        self.assertTrue(future.exception(0).may_be_done)
        self.assertTrue(replica.take(castd.Reply(tag, castd.Code.NOT_MEMBER)))
        self.assertFalse(replica.take(castd.Reply(tag, castd.Code.NOT_MEMBER)))

    def test_views_are_taken_behind_the_end_of_the_session(self):
        for error in castd.Ended(), castd.BadFrame("what it never sends"):
            replica = self.replica(1, 1)
            with mock.patch.object(Sent, "send", side_effect=error):
                self.begin(replica, 2, 1)
                with self.assertRaises(type(error)):
                    replica.operation(b"a")
            self.assertEqual(replica.view, 2)


class Replicas(Case):
    """Programs that keep one state."""

    def member(self, setup, machine: Log) -> Replica:
        session = self.session(setup)
        replica = Replica(session, 1, machine)

        def run() -> None:
            for push in session:
                replica.take(push)
            replica.end()

        reader = threading.Thread(target=run)
        reader.start()
        self.addCleanup(reader.join)
        self.addCleanup(session.close)
        session.join(1, PATIENCE)
        return replica

    def done(self, replica: Replica, operation: bytes) -> int:
        return replica.operation(operation).result(PATIENCE)

    def assert_equal_states(self, replicas: list[Replica], state: bytes) -> None:
        """All have this state, once each has done an operation of its own."""
        for replica in replicas:
            self.done(replica, b"")
        self.assertEqual({replica.machine.state for replica in replicas}, {state})

    def test_a_newcomer_is_given_a_long_state(self):
        setup = self.setup_of()
        self.keeper(setup)
        replicas = [self.member(setup, Log())]
        state = b"".join(b"%09d\n" % number for number in range(10_000))
        for place in range(0, len(state), 10_000):
            self.done(replicas[0], state[place : place + 10_000])
        replicas.append(self.member(setup, Log()))
        self.assert_equal_states(replicas, state)
        replicas[0].session.close()
        # If the view without it came after the newcomer's operation, the result of that would not be known.
        wait_until(lambda: len(replicas[1].members) == 1, "the others have a view without it")
        replicas.append(self.member(setup, Log()))
        self.assertEqual(self.done(replicas[2], b"x"), len(state) + 1)
        self.assert_equal_states(replicas[1:], state + b"x")

    def test_those_who_come_first_begin_with_the_first_state(self):
        setup = self.setup_of()
        self.keeper(setup)
        for _ in range(2):
            sessions = [self.member(setup, Log()) for _ in range(3)]
            self.assert_equal_states(sessions, b"")
            self.done(sessions[1], b"x")
            self.assert_equal_states(sessions, b"x")
            for replica in sessions:
                replica.session.close()
            time.sleep(SHORT)

    def test_operations_while_members_come_and_go_are_done_once_and_everywhere(self):
        setup = self.setup_of()
        self.keeper(setup)
        replicas = [self.member(setup, Log()) for _ in range(2)]
        done: list[int] = []

        def load() -> None:
            done.extend(self.done(replicas[0], b"%04d" % number) for number in range(300))

        loading = threading.Thread(target=load)
        loading.start()
        for _ in range(3):
            passing = self.member(setup, Log())
            self.done(passing, b"")
            passing.session.close()
        loading.join()
        self.assertEqual(done, [4 * number for number in range(1, 301)])
        self.assert_equal_states(replicas, b"".join(b"%04d" % number for number in range(300)))

    def test_a_domain_moves_to_a_second_set_of_daemons(self):
        first, second = self.setup_of(), self.setup_of()
        self.keeper(first)
        self.keeper(second)
        old = [self.member(first, Log()) for _ in range(2)]
        self.done(old[1], b"before;")
        # The last operation here. Each member goes on, once it has done it, with the same machine.
        self.done(old[0], b"moved;")
        self.assert_equal_states(old, b"before;moved;")
        new = [self.member(second, replica.machine) for replica in old]
        self.assert_equal_states(new, b"before;moved;")
        new.append(self.member(second, Log()))
        self.done(new[0], b"after")
        self.assert_equal_states(new, b"before;moved;after")

    def test_an_operation_fails_with_the_reason(self):
        setup = self.setup_of()
        keeper = self.keeper(setup)
        replica = self.member(setup, Log())
        self.done(replica, b"x")
        with self.assertRaises(castd.Refused) as caught:
            replica.operation(bytes(castd.MOST_PAYLOAD))
        self.assertEqual(caught.exception.code, castd.Code.TOO_LONG)
        daemon = keeper.daemon()
        stop(daemon)
        future = replica.operation(b"y")
        os.kill(daemon, signal.SIGKILL)
        with self.assertRaises(castd.Error) as failed:
            future.result(PATIENCE)
        self.assertTrue(failed.exception.may_be_done)


class Beside(Case):
    """Programs beside a daemon."""

    def test_loops_of_abcasts_lose_nothing(self):
        setup = self.setup_of()
        self.keeper(setup)
        sessions = [self.joined(setup, 1, size) for size in (1, 2, 3)]
        for session in sessions[:2]:
            while len(session.read(PATIENCE).members) < len(sessions):
                pass

        def loop(number: int) -> None:
            for count in range(100):
                sessions[number].abcast(1, b"%d %d" % (number, count), PATIENCE)

        loops = [threading.Thread(target=loop, args=(number,)) for number in range(3)]
        for it in loops:
            it.start()
        heard = [[self.delivered(session) for _ in range(300)] for session in sessions]
        for it in loops:
            it.join()
        self.assertEqual(heard[0], heard[1])
        self.assertEqual(heard[0], heard[2])
        for number in range(3):
            own = [it for it in heard[0] if it.startswith(b"%d " % number)]
            self.assertEqual(own, [b"%d %d" % (number, count) for count in range(100)])

    def delivered(self, session: castd.Session) -> bytes:
        while not isinstance(push := session.read(PATIENCE), castd.Deliver):
            self.assertIsNotNone(push)
        return push.payload

    def test_threads_share_a_session(self):
        setup = self.setup_of()
        self.keeper(setup)
        session = self.joined(setup, 1, 1)

        def loop(number: int) -> None:
            for count in range(200):
                session.cast(1, b"%d %d" % (number, count), PATIENCE)

        loops = [threading.Thread(target=loop, args=(number,)) for number in range(4)]
        for it in loops:
            it.start()
        heard = [self.delivered(session) for _ in range(800)]
        for it in loops:
            it.join()
        for number in range(4):
            own = [it for it in heard if it.startswith(b"%d " % number)]
            self.assertEqual(own, [b"%d %d" % (number, count) for count in range(200)])

    def test_threads_that_share_a_session_make_no_equal_tags(self):
        setup, tags = self.setup_of(), []
        self.keeper(setup)
        session = self.session(setup)

        def send() -> None:
            tags.extend(session.send(castd.Leave(1)) for _ in range(COMMANDS))

        threads = [threading.Thread(target=send) for _ in range(THREADS)]
        for thread in threads:
            thread.start()
        replied = set()
        while len(replied) < THREADS * COMMANDS:
            push = session.read(PATIENCE)
            self.assertIsNotNone(push)
            if isinstance(push, castd.Reply):
                replied.add(push.tag)
        for thread in threads:
            thread.join()
        self.assertEqual(len(set(tags)), THREADS * COMMANDS)
        self.assertEqual(replied, set(tags))

    def test_a_session_may_have_any_descriptor(self):
        setup = self.setup_of()
        self.keeper(setup)
        _, most = resource.getrlimit(resource.RLIMIT_NOFILE)
        if most != resource.RLIM_INFINITY and most <= MOST_OF_SELECT:
            self.skipTest(f"a process has {most} descriptors at most")
        before = resource.getrlimit(resource.RLIMIT_NOFILE)
        resource.setrlimit(resource.RLIMIT_NOFILE, (max(before[0], 2 * MOST_OF_SELECT), most))
        self.addCleanup(resource.setrlimit, resource.RLIMIT_NOFILE, before)
        taken = [socket.socket() for _ in range(MOST_OF_SELECT)]
        for one in taken:
            self.addCleanup(one.close)
        session = self.session(setup)
        self.assertGreaterEqual(session.fileno(), MOST_OF_SELECT)
        self.assertIsInstance(session.read(PATIENCE), castd.Opened)
        self.assertIsNone(session.read(0))

    def test_a_session_that_another_thread_closes_ends(self):
        setup = self.setup_of()
        self.keeper(setup)
        session = self.session(setup)
        session.read(PATIENCE)
        closing = threading.Timer(SHORT, session.close)
        closing.start()
        begun = time.monotonic()
        with self.assertRaises(castd.Ended):
            session.read(PATIENCE)
        self.assertLess(time.monotonic() - begun, PATIENCE / 2)
        closing.join()

    def test_the_package_is_installed_by_pip(self):
        target = f"{self.folder}/target"
        for python in (sys.executable, "/usr/bin/python3"):
            words = [python, "-c", "import setuptools, wheel, pip"]
            if not subprocess.run(words, capture_output=True, check=False).returncode:
                break
        else:
            self.skipTest("no Python here has pip, setuptools and wheel")
        source = f"{self.folder}/python"
        subprocess.run(["cp", "-r", str(ROOT / "clients/python"), source], check=True)
        how = ["--no-build-isolation", "--no-index", "--no-deps", "--disable-pip-version-check", "--target", target]
        ran = subprocess.run([python, "-m", "pip", "install", *how, source], capture_output=True, text=True, check=False)
        self.assertEqual(ran.returncode, 0, ran.stderr)
        self.assertEqual(sorted(os.listdir(f"{target}/castd"))[-1:], ["text.py"])
        self.assertTrue(os.path.exists(f"{target}/castd/py.typed"))
