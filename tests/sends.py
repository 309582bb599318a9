"""Sends datagrams as users of this machine, and says which of them come.

Each line of standard input is `USER HOST:PORT HOST:PORT`: as whom a datagram is sent, from where, and where to. Each is
answered with `comes` or `lost`.
"""

import contextlib
import os
import pwd
import socket
import sys

PATIENCE = 0.3


def address(text: str) -> tuple[str, int]:
    host, port = text.split(":")
    return host, int(port)


def comes(user: str, near: str, far: str) -> bool:
    with socket.socket(socket.AF_INET, socket.SOCK_DGRAM) as receiver:
        receiver.bind(address(far))
        receiver.settimeout(PATIENCE)
        child = os.fork()
        if not child:
            os.setuid(pwd.getpwnam(user).pw_uid)
            with socket.socket(socket.AF_INET, socket.SOCK_DGRAM) as sender:
                sender.bind(address(near))
                # A rule refuses the call.
                with contextlib.suppress(PermissionError):
                    sender.sendto(b"x", address(far))
            os._exit(0)
        os.waitpid(child, 0)
        with contextlib.suppress(TimeoutError):
            return receiver.recv(16) == b"x"
    return False


for line in sys.stdin:
    print("comes" if comes(*line.split()) else "lost", flush=True)
