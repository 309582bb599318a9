#!/usr/bin/env python3
"""The program of an operator's station: it shows who is on duty, and takes the controls and gives them back.

usage: station.py DAEMON LOG

DAEMON is the socket of the station's daemon. LOG is the file where it notes what it claims, for who wants to check it.
It takes lines: `take` asks for the controls, `give` gives them back, and `leave` goes off duty. It says `duty` with the
stations of all members, `has` when it comes to have the controls, and `has not` when it has them no more. It ends where
its membership does.
"""

from __future__ import annotations

import asyncio
import contextlib
import sys

import castd
from castd import aio
from lock import BEAT, Lock, station_of

GROUP = 1
STATIONS = 3
# Seconds within which the watch of a site that was put out has stopped its daemon.
PAUSE = 2.0


class Station:
    """A member of the group of stations."""

    def __init__(self, session: aio.Session, log: str):
        self._session, self._log, self._had = session, open(log, "w", encoding="utf-8"), False
        self._lock = Lock(session, GROUP, STATIONS, self._note)

    async def run(self) -> None:
        """Is on duty until the session ends."""
        self._session.send(castd.Join(GROUP))
        tasks = [asyncio.create_task(self._beat()), asyncio.create_task(self._obey())]
        with contextlib.suppress(castd.Ended):
            async for push in self._session:
                self._lock.take(push)
                if isinstance(push, castd.View):
                    print("duty", *sorted(map(station_of, push.members)), flush=True)
                self._tell()
                if isinstance(push, castd.Ejected):
                    # The site was put out. If its watch knows, it stops the daemon, and nobody is to join here before.
                    await asyncio.sleep(PAUSE)
                    break
        for task in tasks:
            task.cancel()

    async def _beat(self) -> None:
        with contextlib.suppress(castd.Ended):
            while True:
                self._lock.beat()
                self._tell()
                await asyncio.sleep(BEAT)

    async def _obey(self) -> None:
        """Does what the operator says, up to `leave` or the end of the lines."""
        lines = asyncio.StreamReader()
        await asyncio.get_running_loop().connect_read_pipe(lambda: asyncio.StreamReaderProtocol(lines), sys.stdin)
        with contextlib.suppress(castd.Error):
            while (line := await lines.readline()) not in (b"", b"leave\n"):
                if line == b"take\n":
                    self._lock.acquire()
                elif line == b"give\n":
                    self._lock.release()
                self._tell()
            self._lock.release()
            await self._session.leave(GROUP)
        self._session.close()

    def _tell(self) -> None:
        """Says where the station comes to have the controls, or has them no more."""
        has = self._lock.holds()
        if has != self._had:
            self._had = has
            print("has" if has else "has not", flush=True)

    def _note(self, claim: str) -> None:
        print(claim, file=self._log, flush=True)


async def main(daemon: str, log: str) -> None:
    async with await aio.connect(daemon) as session:
        await Station(session, log).run()


if __name__ == "__main__":
    asyncio.run(main(*sys.argv[1:]))
