"""Sockets at addresses of this host."""

from __future__ import annotations

import errno
import socket

from castd_tools.configuration import Address


def bound(address: Address, kind: socket.SocketKind, option: int, value: int) -> socket.socket:
    """A socket at an address, with this value of an option of `SOL_SOCKET`. An `OSError` where there can be none."""
    try:
        found = socket.getaddrinfo(address.host, address.port, type=kind)
    except UnicodeError as error:
        raise OSError(errno.EINVAL, "not the name of a host") from error
    family, kind, protocol, _, resolved = found[0]
    made = socket.socket(family, kind, protocol)
    try:
        made.setsockopt(socket.SOL_SOCKET, option, value)
        made.bind(resolved)
    except OSError:
        made.close()
        raise
    return made


def listening(address: Address) -> socket.socket:
    """A socket that listens for streams at an address. An `OSError` where there can be none."""
    # A keeper that ended a moment ago is no hindrance.
    server = bound(address, socket.SOCK_STREAM, socket.SO_REUSEADDR, 1)
    try:
        server.listen()
    except OSError:
        server.close()
        raise
    return server
