#!/usr/bin/env python3
"""The store of a site: it keeps a copy of the table, and serves clients.

usage: store.py DAEMON SOCKET

DAEMON is the socket of the site's daemon. At SOCKET it takes lines of clients, as `table.py` has them, and answers each
by a line. Each line, a read too, is cast to all stores, and answered once it is done here: so all clients of all stores
see one order. It says `serves` once it has the table. It ends where its membership does; clients whose line may have
been done or not then see the end of their connection.
"""

from __future__ import annotations

import asyncio
import contextlib
import functools
import sys

import castd
from castd.aio import connect
from castd.replica import Replica
from table import Table

GROUP = 1
LONGEST_LINE = 16_000


async def serve(replica: Replica, reader: asyncio.StreamReader, writer: asyncio.StreamWriter) -> None:
    """Serves a client until it ends, or an answer is not known."""
    with contextlib.suppress(castd.Error, OSError, ValueError), contextlib.closing(writer):
        while line := await reader.readline():
            answer = await asyncio.wrap_future(replica.operation(line.rstrip(b"\n")))
            writer.write(f"{answer}\n".encode())
            await writer.drain()


async def main(daemon: str, path: str) -> None:
    async with await connect(daemon) as session:
        replica = Replica(session, GROUP, Table())
        await session.join(GROUP)
        await asyncio.start_unix_server(functools.partial(serve, replica), path, limit=LONGEST_LINE)
        is_said = False
        async for push in session:
            replica.take(push)
            if replica.has_state and not is_said:
                is_said = True
                print("serves", flush=True)
            if isinstance(push, castd.Ejected):
                break
        replica.end()


if __name__ == "__main__":
    asyncio.run(main(*sys.argv[1:]))
