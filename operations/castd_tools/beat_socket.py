"""The socket of beats: to the other sites, and from their addresses alone."""

from __future__ import annotations

import asyncio
import collections
import socket
from collections.abc import Callable, Mapping

from castd_tools.beat import Beat, BeatError, decode
from castd_tools.command_line import Failure
from castd_tools.configuration import MOST_PORT, Address, Configuration
from castd_tools.keys import Key
from castd_tools.sealed_beat import seal, unseal
from castd_tools.statuses import UNBOUND, USAGE
from castd_tools.system import reason


class BeatSocket(asyncio.DatagramProtocol):
    """Sends beats, and hands on those that come from the host and the port of the site that they name. It counts others.

    Beats to sites with keys are sealed, and from these sites no other beats are read.
    """

    def __init__(
        self, own: int, addresses: dict[int, tuple], keys: Mapping[int, list[Key]], believe: Callable[[Beat], None]
    ):
        self.undecodable, self.foreign = 0, 0
        # How many came from the address of a site without its seal, by site.
        self.unsealed: collections.Counter[int] = collections.Counter()
        self._own, self._addresses, self._keys, self._believe = own, addresses, keys, believe
        self._sites = {address[:2]: site for site, address in addresses.items()}

    def connection_made(self, transport: asyncio.DatagramTransport) -> None:
        self._transport = transport

    def datagram_received(self, data: bytes, source: tuple) -> None:
        site = self._sites.get(source[:2])
        if site is None:
            self.foreign += 1
            return
        text = unseal(data, self._own, self._keys[site]) if site in self._keys else data
        if text is None:
            self.unsealed[site] += 1
            return
        try:
            beat = decode(text)
        except BeatError:
            self.undecodable += 1
            return
        if beat.site == site:
            self._believe(beat)
        else:
            self.foreign += 1

    def send(self, site: int, beat: Beat) -> None:
        """Sends a beat to another site. It may be lost, as any datagram may."""
        text = beat.encode()
        if site in self._keys:
            text = seal(text, site, self._keys[site][0])
        self._transport.sendto(text, self._addresses[site])


async def open_socket(
    configuration: Configuration,
    own: int,
    others: set[int],
    offset: int,
    keys: Mapping[int, list[Key]],
    believe: Callable[[Beat], None],
) -> BeatSocket:
    """The socket of a site, `offset` above the port of its daemon. A `Failure` where it cannot be bound."""
    _check_apart(configuration, offset)
    family, address = _resolved(configuration.sites[own], offset)
    addresses = {}
    for site in others:
        its_family, addresses[site] = _resolved(configuration.sites[site], offset)
        if its_family != family:
            raise Failure(UNBOUND, f"site {site} and site {own} have addresses of different families")
    bound = socket.socket(family, socket.SOCK_DGRAM)
    try:
        bound.bind(address)
    except OSError as error:
        bound.close()
        raise Failure(UNBOUND, f"no beats can come: {address[0]}, port {address[1]}: {reason(error)}") from error
    bound.setblocking(False)
    loop = asyncio.get_running_loop()
    _, protocol = await loop.create_datagram_endpoint(lambda: BeatSocket(own, addresses, keys, believe), sock=bound)
    return protocol


def _check_apart(configuration: Configuration, offset: int) -> None:
    """No beat goes to a daemon."""
    of_daemons = {address: site for site, address in configuration.sites.items()}
    for site, address in configuration.sites.items():
        other = of_daemons.get(Address(address.host, address.port + offset))
        if other:
            raise Failure(
                USAGE, f"beats of site {site} would come to the daemon of site {other}: choose another port offset"
            )


def _resolved(address: Address, offset: int) -> tuple[int, tuple]:
    """The family and the address of the beats of a site, as `socket` has them. Its name is looked up once."""
    port = address.port + offset
    if port > MOST_PORT:
        raise Failure(UNBOUND, f"{address}: there is no port {port}")
    try:
        family, _, _, _, resolved = socket.getaddrinfo(address.host, port, type=socket.SOCK_DGRAM)[0]
    except OSError as error:
        raise Failure(UNBOUND, f"{address}: {reason(error)}") from error
    return family, resolved
