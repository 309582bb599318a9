"""The programs of a trading floor. Each is a session, and a task that reads it."""

import asyncio
import random
import time
from collections import Counter, deque

from castd import ATOMIC, CAUSAL, Cast, Deliver, Ejected, Error, Process, Reply, View, process_of, text_of
from castd.aio import Session

QUOTES, NEWS, ORDERS = 1, 2, 3
# A trader passes the token on by the senders of so many orders.
WINDOW = 10
PATIENCE = 20.0


class Member:
    """A program that is a member of some groups, and of them knows the views."""

    def __init__(self, name: str, session: Session):
        self.name, self.session = name, session
        self.views: dict[int, View] = {}

    async def join(self, *groups: int) -> None:
        for group in groups:
            await self.session.join(group, PATIENCE)

    async def run(self) -> None:
        """Reads what is pushed until the session is over."""
        async for push in self.session:
            if isinstance(push, View):
                self.views[push.group] = push
                self.changed(push)
            elif isinstance(push, Deliver):
                self.heard(push)
            elif isinstance(push, Ejected) or isinstance(push, Reply) and push.code:
                raise RuntimeError(f"{self.name} is told: {text_of(push)}")

    def changed(self, view: View) -> None:
        """A view begins."""

    def heard(self, message: Deliver) -> None:
        """A message is delivered."""


class Source(Member):
    """Who casts quotes, or news, at times of its own."""

    async def tell(self, group: int, what: str, pause: float) -> None:
        number = 0
        while True:
            number += 1
            await self.session.cast(group, f"{what} {number}; {random.uniform(99, 101):.2f}".encode())
            await asyncio.sleep(random.uniform(0, 2 * pause))


class Listener(Member):
    """Who hears quotes, news and orders. It notes in which order the orders come, and each that comes before what it
    answers: if castd is right there is none."""

    def __init__(self, name: str, session: Session):
        super().__init__(name, session)
        # The numbers of the last quote and of the last news that came. Each comes behind the one before.
        self.last: dict[str, int] = {}
        self.orders: list[str] = []
        self.breaches: list[str] = []

    def heard(self, message: Deliver) -> None:
        text, _, _ = message.payload.decode().partition(";")
        if message.group != ORDERS:
            what, number = text.split()
            self.last[what] = int(number)
        elif message.kind == ATOMIC:
            self.orders.append(text)
            what, number = text.split()[-2:]
            if int(number) > self.last.get(what, 0):
                self.breaches.append(text)


class Desk(Listener):
    """Who looks at all that is traded."""


class Trader(Listener):
    """Who answers quotes and news by orders. The one that holds the token hands it to the one that orders most."""

    def __init__(self, name: str, session: Session, zeal: float):
        super().__init__(name, session)
        # The share of the quotes that it answers.
        self.zeal = zeal
        self.holder: Process | None = None
        self.number = 0
        self.waiting: dict[str, float] = {}
        self.times: dict[bool, list[float]] = {True: [], False: []}
        self.senders: deque[Process] = deque(maxlen=WINDOW)
        self.passing: asyncio.Task | None = None
        self.passed = 0

    def changed(self, view: View) -> None:
        if view.group == ORDERS:
            self.holder = view.holder

    def heard(self, message: Deliver) -> None:
        super().heard(message)
        if message.group != ORDERS:
            if random.random() < self.zeal:
                self.order(message)
        elif message.kind == CAUSAL:
            # Who has passed the token says so: no push does.
            self.holder = process_of(message.payload.decode())
        else:
            self.senders.append(message.process)
            if message.process == self.session.process:
                is_holder = self.holder == self.session.process
                self.times[is_holder].append(time.monotonic() - self.waiting.pop(self.orders[-1]))
            if self.holder == self.session.process and not self.passing:
                self.consider()

    def order(self, message: Deliver) -> None:
        """Answers a quote or news. It is cast behind what was delivered here: that is all that castd needs to know."""
        self.number += 1
        answered, _, _ = message.payload.decode().partition(";")
        own = self.session.process
        text = f"order {own.site}{own.serial:03}{self.number:05} answers {answered}"
        self.waiting[text] = time.monotonic()
        self.session.send(Cast(ORDERS, ATOMIC, f"{text};".encode()))

    def consider(self) -> None:
        """Hands the token over if another member sent more than half of the last orders."""
        (most, count), *_ = Counter(self.senders).most_common(1)
        if most != self.session.process and 2 * count > WINDOW:
            self.passing = asyncio.create_task(self.hand_over(most))

    async def hand_over(self, process: Process) -> None:
        try:
            await self.session.pass_to(ORDERS, process, PATIENCE)
            await self.session.cast(ORDERS, str(process).encode(), PATIENCE)
            self.passed += 1
        except Error:
            # The other is no member any more, and a view names the holder; or the floor is closed.
            pass
        finally:
            self.passing = None
