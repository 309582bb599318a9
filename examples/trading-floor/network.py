"""A network between daemons that loses and delays datagrams, so that they overtake each other."""

import asyncio
import random
import re

# How many of a hundred datagrams are lost, and how many seconds the others take at most: on the line from the exchange to
# the desk, and elsewhere.
LOST = 10
SLOW, FAST = 0.15, 0.02
# What the payloads of the floor say: a quote or news with its number, or an order and what it answers.
TOLD = re.compile(rb"(?P<order>order \d+ answers )?(?P<what>(?:quote|news) \d+);")


class Network:
    """Ways between sites. A daemon is told of each other site the address at which the way to that begins. What comes from that site comes
    from there, too."""

    def __init__(self, exchange: int, desk: int):
        self.exchange, self.desk = exchange, desk
        self.sent = self.lost = self.late = 0
        self.ways: dict[tuple[int, int], Way] = {}
        # What came to the site of the desk: the quotes and the news, and how many orders came before what they answer.
        self._came: set[bytes] = set()
        self._orders: set[bytes] = set()
        self.overtaken = 0

    async def connect(self, addresses: dict[int, str], site: int) -> dict[int, str]:
        """Opens the ways from a site to all others. Gives the addresses that its daemon is told."""
        told = {site: addresses[site]}
        for other in addresses.keys() - {site}:
            host, port = addresses[other].rsplit(":", 1)
            slowest = SLOW if (site, other) == (self.exchange, self.desk) else FAST
            way = self.ways[site, other] = Way(self, site, other, (host, int(port)), slowest)
            transport, _ = await asyncio.get_running_loop().create_datagram_endpoint(lambda: way, ("127.0.0.1", 0))
            told[other] = "{}:{}".format(*transport.get_extra_info("sockname"))
        return told

    def note(self, data: bytes) -> None:
        """Notes what comes to the site of the desk."""
        if not (told := TOLD.search(data)):
            return
        if not told["order"]:
            self._came.add(told["what"])
        elif told[0] not in self._orders:
            self._orders.add(told[0])
            self.overtaken += told["what"] not in self._came


class Way(asyncio.DatagramProtocol):
    """The way from one site to another."""

    def __init__(self, network: Network, near: int, site: int, address: tuple[str, int], slowest: float):
        self.network, self.near, self.site, self.address, self.slowest = network, near, site, address, slowest
        self.last = 0.0

    def connection_made(self, transport: asyncio.DatagramTransport) -> None:
        self.transport = transport

    def datagram_received(self, data: bytes, _: tuple[str, int]) -> None:
        self.network.sent += 1
        if random.randrange(100) < LOST:
            self.network.lost += 1
            return
        loop = asyncio.get_running_loop()
        comes = loop.time() + random.uniform(0, self.slowest)
        self.network.late += comes < self.last
        self.last = max(self.last, comes)
        loop.call_at(comes, self.pass_on, data)

    def pass_on(self, data: bytes) -> None:
        if self.site == self.network.desk:
            self.network.note(data)
        # The other site has the near one where its own way back begins.
        back = self.network.ways.get((self.site, self.near))
        if back and not back.transport.is_closing():
            back.transport.sendto(data, self.address)
