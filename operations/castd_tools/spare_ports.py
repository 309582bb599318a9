"""The ports of the numbers under which a host goes on later: another user who had one could pass for a site."""

from __future__ import annotations

import contextlib
import os
import socket
from collections.abc import Callable, Iterator

from castd_tools.configuration import Configuration
from castd_tools.internet_sockets import bound
from castd_tools.numbers import numbers_alike
from castd_tools.system import reason


@contextlib.contextmanager
def held(configuration: Configuration, site: int, complain: Callable[[str], None]) -> Iterator[None]:
    """Has the ports of the other numbers that have the host and the domains of a site. Complains of those it cannot have.

    Daemons with the same sockets do not run at once, so none of these numbers is in use. Where sockets stand in the folder
    in which a daemon is started, they may be, and nothing is done.
    """
    own = configuration.sites[site]
    if not all(os.path.isabs(domain.socket) for domain in configuration.domains_of(site)):
        yield
        return
    with contextlib.ExitStack() as ports:
        for number in numbers_alike(configuration, site):
            address = configuration.sites[number]
            if number != site and address != own:
                try:
                    # As little room as may be: what comes is lost.
                    ports.enter_context(bound(address, socket.SOCK_DGRAM, socket.SO_RCVBUF, 0))
                except OSError as error:
                    complain(f"the port of site {number} cannot be kept for it: {address}: {reason(error)}")
        yield
