"""Tells systemd how a service is, as sd_notify(3) does."""

from __future__ import annotations

import os
import socket

VARIABLE = "NOTIFY_SOCKET"


def notify(*assignments: str) -> None:
    """Tells systemd these assignments, such as `READY=1`. Does nothing where no socket for that is named."""
    path = os.environ.get(VARIABLE)
    if not path:
        return
    address = "\0" + path[1:] if path.startswith("@") else path
    with socket.socket(socket.AF_UNIX, socket.SOCK_DGRAM) as it:
        it.setblocking(False)
        it.sendto("\n".join(assignments).encode(), address)
