"""The Rust `Replica`: what it sends at each push, and programs that keep one state by it."""

from __future__ import annotations

import contextlib
import itertools
import socket
import tempfile
import threading
from collections.abc import Iterator

from castd.replica import Replica
from client_cases import DONE, NOT_MEMBER, OTHER, OWN, Log, cast, replica_cases
from harness import PATIENCE, Case, Tool, castd, wait_until
from scripted_server import (
    ATOMIC,
    JOIN,
    OPENED,
    ScriptedServer,
    Step,
    command,
    deliver,
    ejected,
    expect,
    opened,
    process,
    quiet,
    reply,
    view,
    write,
)
from test_rust_client import compiled, setUpModule  # noqa: F401

# The state with which all begin.
BEGIN = b"begin "
# Within so many seconds a member has taken what it was written.
SHORT = 0.2
FNV_OFFSET, FNV_PRIME = 0xCBF29CE484222325, 0x100000001B3


def text_of(state: bytes) -> str:
    """What a program says of this state."""
    value = FNV_OFFSET
    for byte in state:
        value = (value ^ byte) * FNV_PRIME % (1 << 64)
    return f"{len(state)} {value:x}"


def named(name: str) -> bytes:
    """A process, by a name such as 1.2."""
    return process(*map(int, name.split(".")))


def lacks(number: int) -> bytes:
    return bytes.fromhex("01") + number.to_bytes(4, "big")


def part(number: int, place: int, count: int, state: bytes) -> bytes:
    return bytes.fromhex("02") + b"".join(it.to_bytes(4, "big") for it in (number, place, count)) + state


def operation(text: bytes) -> bytes:
    return bytes.fromhex("00") + text


class Member(Tool):
    """A program of log.rs."""

    def __init__(self, words: list[str], folder: str):
        super().__init__(words, folder)
        self.told: dict[str, str] = {}

    def answer(self, line: str) -> str:
        self.say(f"{line}\n")
        while (answer := self.line(PATIENCE)).startswith("told "):
            self.hear(answer)
        return answer

    def hear(self, line: str) -> None:
        _, tag, result = line.split(" ", 2)
        self.told[tag] = result

    def add(self, text: str, count: int = 1) -> str:
        """What an operation came to."""
        _, tag = self.answer(f"add {text} {count}").split()
        while tag not in self.told:
            self.hear(self.line(PATIENCE))
        return self.told[tag]

    def wait_for(self, state: bytes) -> None:
        wanted = text_of(state)
        wait_until(lambda: self.answer("state") == wanted, f"{wanted} is the state")

    def finish(self) -> int:
        self.process.stdin.close()
        return self.process.wait(PATIENCE)


class RustReplica(Case):
    @classmethod
    def setUpClass(cls) -> None:
        cls.log = compiled(cls, "tests/log.rs")

    def member(self, path: str, begin: bytes = BEGIN) -> Member:
        member = Member([*self.log, path, begin.decode()], self.folder)
        self.addCleanup(member.end)
        return member


class RustReplicaAlone(RustReplica):
    """Beside a server that plays a script. The first frame is that of its join."""

    def setUp(self) -> None:
        super().setUp()
        self.has_come = threading.Event()

    def come(self, _: socket.socket) -> None:
        """A step: the member has sent what comes before, so an operation that it is given now is the next frame."""
        self.has_come.set()

    def wait_until_come(self) -> None:
        self.assertTrue(self.has_come.wait(PATIENCE))

    @contextlib.contextmanager
    def played(self, *steps: Step, own: bytes = OPENED, begin: bytes = BEGIN) -> Iterator[Member]:
        path, done = f"{tempfile.mkdtemp(dir=self.folder)}/castd.sock", threading.Event()
        joined = [write(own), expect(command(JOIN, 1, 1)), write(reply(1, DONE))]
        with ScriptedServer(path, *joined, *steps, lambda stream: done.set()):
            member = self.member(path, begin)
            yield member
            self.assertTrue(done.wait(PATIENCE))
            self.assertEqual(member.finish(), 0, member.complained())

    def asked(self, tag: int, payload: bytes) -> list[Step]:
        """The replica ABCASTs this."""
        return [expect(cast(tag, payload, ATOMIC)), write(reply(tag, DONE))]

    def told(self, number: int, sender: bytes, *payloads: bytes) -> Step:
        """These ABCASTs are delivered."""
        return write(b"".join(deliver(1, number, sender, 1, ATOMIC, payload) for payload in payloads))

    def steps_of(self, case: list[list[str]]) -> Iterator[Step]:
        """The lines of a case of clients/replica-vectors, but that for its state."""
        number, tags = 0, itertools.count(2)
        for word, *words in case:
            if word == "sends":
                yield from self.asked(next(tags), bytes.fromhex("".join(words)))
            elif word == "view":
                number, (holder, *members) = int(words[0]), words[1:]
                yield write(view(1, number, *map(named, members), holder=members.index(holder)))
            else:
                yield self.told(number, named(words[0]), bytes.fromhex("".join(words[1:])))

    def test_vectors(self):
        for name, case, state in replica_cases():
            self.has_come.clear()
            steps = [*self.steps_of(case), quiet(SHORT), self.come]
            with self.subTest(name), self.played(*steps, own=opened(1, 2), begin=b".") as member:
                self.wait_until_come()
                self.assertEqual(member.answer("state"), "none" if state is None else text_of(state))

    def test_a_long_state_is_sent_in_parts(self):
        most = 16_000
        state = BEGIN + most * b"z"
        self.assertEqual(len(state), most + 6)
        begun = [write(view(1, 1, OWN)), *self.asked(2, lacks(1)), self.told(1, OWN, lacks(1))]
        grown = [*self.asked(3, operation(most * b"z")), self.told(1, OWN, operation(most * b"z"))]
        given = [*self.asked(4, part(2, 0, 2, state[:most])), *self.asked(5, part(2, 1, 2, state[most:]))]
        shared = self.told(2, OWN, part(2, 0, 2, state[:most]), part(2, 1, 2, state[most:]))
        # In the next view all have it.
        end = [write(view(1, 3, OWN, OTHER)), quiet(0.2)]
        with self.played(*begun, self.come, *grown, write(view(1, 2, OWN, OTHER)), *given, shared, *end) as member:
            self.wait_until_come()
            self.assertEqual(member.add("z", most), f"Ok({len(state)})")
            member.wait_for(state)

    def test_one_that_is_ejected_lacks_the_state(self):
        begun = [write(view(1, 1, OWN)), *self.asked(2, lacks(1)), self.told(1, OWN, lacks(1))]
        with self.played(*begun, write(ejected(1, 2) + view(1, 3, OWN, OTHER)), *self.asked(3, lacks(3))) as member:
            wait_until(lambda: member.answer("state") == "none", "the state is gone")

    def test_what_becomes_of_operations(self):
        begun = [write(view(1, 1, OWN, OTHER)), *self.asked(2, lacks(1))]
        refused = [expect(cast(3, operation(b"x"), ATOMIC)), write(reply(3, NOT_MEMBER))]
        kept = [*self.asked(4, operation(b"y")), self.told(1, OWN, operation(b"y")), write(view(1, 2, OWN, OTHER))]
        with self.played(*begun, self.come, *refused, *kept, *self.asked(5, lacks(2))) as member:
            self.wait_until_come()
            self.assertEqual(member.add("x"), "Err(Refused(NotMember))")
            self.assertEqual(member.add("y"), "Err(Ended { may_be_done: true, code: None })")


class RustReplicas(RustReplica):
    """Programs of one daemon, and a program in Python, keep one state."""

    def setUp(self) -> None:
        super().setUp()
        self.setup = self.setup_of()
        self.keeper(self.setup)
        self.path = f"{self.setup.site_folder(1)}/castd.sock"

    def python_member(self) -> Replica:
        session = castd.Session(self.path, PATIENCE)
        replica = Replica(session, 1, Log(BEGIN))

        def run() -> None:
            for push in session:
                replica.take(push)

        reader = threading.Thread(target=run)
        reader.start()
        self.addCleanup(reader.join)
        self.addCleanup(session.close)
        session.join(1, PATIENCE)
        return replica

    def test_one_that_joins_later_has_the_state(self):
        members = [self.member(self.path) for _ in range(2)]
        for member in members:
            member.wait_for(BEGIN)
        self.assertEqual([member.add("ab") for member in members], ["Ok(8)", "Ok(10)"])
        members.append(self.member(self.path))
        members[2].wait_for(BEGIN + b"abab")
        self.assertEqual(members[2].add("c"), "Ok(11)")
        for member in members:
            member.wait_for(BEGIN + b"ababc")

    def test_a_long_state_is_handed_over(self):
        members = [self.member(self.path)]
        members[0].wait_for(BEGIN)
        for number in range(10):
            self.assertEqual(members[0].add("x", 10_000), f"Ok({len(BEGIN) + 10_000 * (number + 1)})")
        for _ in range(2):
            members.append(self.member(self.path))
            members[-1].wait_for(BEGIN + 100_000 * b"x")
            # The first one goes, and the others have it.
            members.pop(0).finish()

    def test_members_of_two_languages(self):
        python = self.python_member()
        self.assertEqual(python.operation(b"python ").result(PATIENCE), 13)
        rust = self.member(self.path)
        rust.wait_for(BEGIN + b"python ")
        self.assertEqual(rust.add("rust"), "Ok(17)")
        python.session.close()
        other = self.python_member()
        # What it does before that may be lost with a view, and nobody knows.
        wait_until(lambda: other.has_state, "the state is there")
        self.assertEqual(other.operation(b"").result(PATIENCE), 17)
        self.assertEqual(other.machine.state, BEGIN + b"python rust")


del RustReplica
