"""What tests and measures the daemon writes and reads itself: sessions of programs, in which each command is sent at once and each push is
seen, replies too; bundles; and seals, by RFC 8439 and RFC 2104."""
import hmac
import select
import socket
import struct
import time

from castd.codec import Cast, Join, Kind, Leave, Pass, frame_of, push_at

JOIN, LEAVE, CAST, PASS = 1, 2, 3, 4


def frame(kind, body):
    """The bytes of a frame of this type, whatever its body is."""
    return struct.pack(">IB", 5 + len(body), kind) + body


class Session:
    """A connection to a domain."""

    def __init__(self, path):
        self.socket = socket.socket(socket.AF_UNIX, socket.SOCK_STREAM)
        self.socket.connect(path)
        self.poll = select.poll()
        self.poll.register(self.socket, select.POLLIN)
        self.bytes, self.tag = bytearray(), 0

    def send(self, command):
        """Sends a command, and gives the tag that its reply will bear."""
        self.tag = (self.tag + 1) % (1 << 32)
        self.socket.sendall(frame_of(command, self.tag))
        return self.tag

    def join(self, group):
        return self.send(Join(group))

    def leave(self, group):
        return self.send(Leave(group))

    def cast(self, group, payload, kind=Kind.CAUSAL):
        return self.send(Cast(group, kind, payload))

    def abcast(self, group, payload):
        return self.cast(group, payload, Kind.ATOMIC)

    def pass_to(self, group, process):
        return self.send(Pass(group, process))

    def read(self, timeout=None):
        """The next push. None where none came in time. EOFError at the end of the stream."""
        end = None if timeout is None else time.monotonic() + timeout
        while (found := push_at(self.bytes)) is None:
            if not self.poll.poll(None if end is None else 1_000 * max(0, end - time.monotonic())):
                return None
            more = self.socket.recv(65_536)
            if not more:
                raise EOFError("the daemon closed the stream")
            self.bytes += more
        push, place = found
        del self.bytes[:place]
        return push

    def close(self):
        self.socket.close()


def bundle(*frames, head=b"CB\1\0"):
    """A datagram of these frames, each behind its length."""
    return head + b"".join(struct.pack(">H", len(it)) + it for it in frames)


def frames_of(datagram):
    """The frames of a bundle, or the one that another datagram is. None for what begins as a bundle, and is none."""
    if datagram[:2] != b"CB":
        return [datagram]
    frames, rest = [], datagram[4:]
    while len(rest) >= 2 and len(rest) >= (end := 2 + int.from_bytes(rest[:2], "big")):
        frames.append(rest[2:end])
        rest = rest[end:]
    return frames if datagram[2:4] == b"\1\0" and frames and not rest else None


# The bytes of a seal, behind which the body stands, and those of the nonce in it.
SEAL = 38
NONCE = slice(6, 22)


def poly1305(key, message):
    """The sum of a message under a key that serves once."""
    factor = int.from_bytes(key[:16], "little") & 0x0FFFFFFC0FFFFFFC0FFFFFFC0FFFFFFF
    total = 0
    for place in range(0, len(message), 16):
        block = message[place : place + 16] + b"\1"
        total = (total + int.from_bytes(block, "little")) * factor % ((1 << 130) - 5)
    return ((total + int.from_bytes(key[16:], "little")) % (1 << 128)).to_bytes(16, "little")


def sealed(secret, body, sender, receiver, nonce, number):
    """A datagram that seals a body with the key of this number."""
    head = struct.pack(">2s2BH", b"CS", 1, number, sender) + nonce
    key = hmac.digest(secret, head + struct.pack(">H", receiver), "sha256")
    return head + poly1305(key, body) + body


class SealedLink:
    """The socket of a site, by which it seals what it sends to site 1, and opens what comes from there."""

    def __init__(self, link, site, secret, number):
        self.link, self.site, self.secret, self.number, self.count = link, site, secret, number, 0

    def _seal(self, body):
        self.count += 1
        return sealed(self.secret, body, self.site, 1, self.count.to_bytes(16, "big"), self.number)

    def send(self, body):
        self.link.send(self._seal(body))

    def sendto(self, body, address):
        self.link.sendto(self._seal(body), address)

    def recv(self, most):
        datagram = self.link.recv(most)
        body = datagram[SEAL:]
        if datagram != sealed(self.secret, body, 1, self.site, datagram[NONCE], self.number):
            raise ValueError(f"a datagram without its seal: {datagram[:SEAL].hex()}")
        return body

    def settimeout(self, seconds):
        self.link.settimeout(seconds)

    def close(self):
        self.link.close()
