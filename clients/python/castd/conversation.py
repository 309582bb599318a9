"""What is said on a connection, without input and output: both kinds of session stand on it."""

from __future__ import annotations

from collections import deque
from collections.abc import Callable

from .codec import (
    MOST_PAYLOAD,
    Cast,
    Closed,
    Command,
    Deliver,
    Denied,
    Ejected,
    Join,
    Kind,
    Leave,
    Opened,
    Pass,
    Process,
    Push,
    Reply,
    View,
    frame_of,
    push_at,
)
from .errors import BadFrame, Code, Ended, Error, Late, Refused

# A Cast or a Pass that is answered so is only early. It is sent again after this time in seconds, or sooner.
EARLY = (Code.FLUSHING, Code.OWN_ABCAST, Code.HELD_FULL)
PAUSE = 0.02


class Pending:
    """A command in the queue, and what became of it."""

    def __init__(self, command: Command, tag: int, is_called: bool, wake: Callable[[], None]):
        self.command, self.tag, self.is_called, self.wake = command, tag, is_called, wake
        self.frame = frame_of(command, tag)
        # What it was refused with as early, and when it is sent again.
        self.refused: Code | None = None
        self.again = 0.0
        self.is_over, self.view, self.error = False, None, None

    def end(self, error: Error | None = None, view: View | None = None) -> None:
        self.is_over, self.error, self.view = True, error, view
        self.wake()

    def outcome(self) -> View | None:
        """The view of a join. Raises what the command failed with."""
        if self.error:
            raise self.error
        return self.view


class Conversation:
    """The commands of a session in the order in which they were given, and what was pushed and not read yet.

    Only the first command is at the daemon. If it is refused as early, it is sent again, and those behind it wait.
    """

    def __init__(self) -> None:
        self.process: Process | None = None
        self.over: Error | None = None
        self.pushes: deque[Push] = deque()
        self.queue: deque[Pending] = deque()
        self.joining: dict[int, Pending] = {}
        self.is_asked, self.tag, self.data = False, 0, bytearray()

    def opened(self) -> Process:
        """The own process. Raises why there is none."""
        if self.process:
            return self.process
        if isinstance(self.over, Ended) and self.over.code:
            raise Refused(self.over.code)
        raise self.over or Late(may_be_done=False)

    def add(self, command: Command, is_called: bool = False, wake: Callable[[], None] = lambda: None) -> Pending:
        """Puts a command at the end of the queue. Raises an error where it cannot be done."""
        if self.over:
            raise ended(self.over, may_be_done=False)
        if isinstance(command, Cast) and len(command.payload) > MOST_PAYLOAD:
            raise Refused(Code.TOO_LONG)
        pending = Pending(command, (self.tag + 1) % (1 << 32), is_called, wake)
        self.tag = pending.tag
        self.queue.append(pending)
        return pending

    def frame(self, now: float) -> bytes:
        """What is to be sent now."""
        if self.is_asked or not self.queue or now < self.queue[0].again:
            return b""
        self.is_asked = True
        return self.queue[0].frame

    def pause(self, now: float) -> float | None:
        """The seconds after which there is something to send even if nothing comes."""
        return None if self.is_asked or not self.queue else max(0.0, self.queue[0].again - now)

    def give_up(self, pending: Pending) -> None:
        """Ends a command whose time is over."""
        if pending.is_over:
            return
        if self.joining.get(pending.command.group) is pending:
            del self.joining[pending.command.group]
            pending.end(Late(may_be_done=True))
        elif self.is_asked and self.queue[0] is pending:
            pending.end(Late(may_be_done=True))
        else:
            self.queue.remove(pending)
            pending.end(Refused(pending.refused) if pending.refused else Late(may_be_done=False))

    def receive(self, data: bytes, now: float) -> None:
        """Takes bytes that have come; none at the end of the stream."""
        self.data += data
        place = 0
        try:
            while not self.over and (found := push_at(self.data, place)):
                push, place = found
                self.take(push, now)
        except BadFrame as error:
            self.end(error)
        finally:
            del self.data[:place]
        if not data:
            self.end(Ended())

    def take(self, push: Push, now: float) -> None:
        if isinstance(push, Opened) != (self.process is None) and not isinstance(push, Closed):
            raise BadFrame("a push out of its turn")
        match push:
            case Opened(process):
                self.process = process
            case Reply(tag, code):
                self.answer(tag, code, now)
                return
            case View(group):
                self.end_join(group, view=push)
            case Denied(group, code):
                self.end_join(group, Refused(code))
            case Closed(code):
                self.end(Ended(code))
        if self.queue and (isinstance(push, View | Ejected) or self.is_own_atomic(push)):
            self.queue[0].again = now
        self.pushes.append(push)

    def is_own_atomic(self, push: Push) -> bool:
        return isinstance(push, Deliver) and push.kind == Kind.ATOMIC and push.process == self.process

    def answer(self, tag: int, code: Code, now: float) -> None:
        """Takes the answer to the first command."""
        if not self.is_asked or self.queue[0].tag != tag:
            raise BadFrame("an answer to nothing")
        self.is_asked = False
        pending = self.queue[0]
        if code in EARLY and isinstance(pending.command, Cast | Pass) and not pending.is_over:
            pending.refused, pending.again = code, now + PAUSE
            return
        self.queue.popleft()
        if isinstance(pending.command, Leave) and code == Code.DONE:
            self.end_join(pending.command.group, Refused(Code.NOT_MEMBER))
        if not pending.is_called:
            self.pushes.append(Reply(tag, code))
        elif isinstance(pending.command, Join) and code == Code.DONE and not pending.is_over:
            self.joining[pending.command.group] = pending
        elif not pending.is_over:
            pending.end(Refused(code) if code else None)

    def end_join(self, group: int, error: Error | None = None, view: View | None = None) -> None:
        if pending := self.joining.pop(group, None):
            pending.end(error, view)

    def end(self, error: Error) -> None:
        """Ends the session, and all that is waited for."""
        if self.over:
            return
        self.over = error
        for pending in self.joining.values():
            pending.end(ended(error, may_be_done=True))
        for pending in self.queue:
            if not pending.is_over:
                pending.end(ended(error, may_be_done=self.is_asked and pending is self.queue[0]))
        self.joining.clear()
        self.queue.clear()


def ended(error: Error, may_be_done: bool) -> Error:
    """What a command fails with that meets the end of the session."""
    return BadFrame(error.what, may_be_done) if isinstance(error, BadFrame) else Ended(error.code, may_be_done)
