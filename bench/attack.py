"""What tools/fuzz does to a daemon: the bytes that programs, sites and operators may write, and who writes them. All is by chance."""
import collections
import contextlib
import os
import random
import resource
import select
import socket
import struct
import sys
import time

sys.path.insert(0, f"{os.path.dirname(os.path.realpath(__file__))}/../clients/python")
import raw  # noqa: E402

# The domain of the honest pair, and those that are attacked.
HONEST, ATTACKED = 1, (2, 3, 4)
GROUPS = [1, 2, 3]
SESSIONS = 16
# So many streams of the attacker are open at most.
STREAMS = 120
MOST = (1 << 32) - 1


def some(chance, most=MOST):
    """A number, most often a small one."""
    return chance.choice((1, 1, 1, 2, 2, 3, chance.randint(1, 12), chance.randint(1, 40), chance.randint(0, most), 0, most))


def process(chance, site=None):
    return (site or chance.choice((1, 2, 3))), chance.choice((1, 2, 3, chance.randint(1, 200)))


def spoiled(chance, data):
    """Bytes that were cut, added to or flipped, or whose length is another."""
    data, place = bytearray(data), chance.randint(0, len(data))
    match chance.randrange(5):
        case 0:
            del data[place:]
        case 1:
            data += chance.randbytes(chance.choice((1, 4, 999)))
        case 2:
            data[place:place] = chance.randbytes(chance.randint(1, 9))
        case 3:
            data[:4] = struct.pack(">I", chance.choice((0, 4, 5, 6, 20000, 20001, MOST, len(data) + chance.randint(-9, 9) & MOST)))
        case _:
            for _turn in range(chance.choice((1, 1, 2, 30)) if data else 0):
                data[chance.randrange(min(len(data), chance.choice((4, 20, 70000))))] ^= 1 << chance.randrange(8)
    return bytes(data)


def command(chance):
    """A frame of a program, most often one that the daemon understands."""
    kind = chance.choice((raw.JOIN, raw.JOIN, raw.LEAVE, raw.CAST, raw.CAST, raw.CAST, raw.PASS, chance.randrange(256)))
    head = struct.pack(">IH", chance.getrandbits(32), chance.choice((1, 1, 1, 2, 3, some(chance, 65535))))
    if kind == raw.CAST:
        size = chance.choice((0, 1, 99, 1024, 16384, 16385, 19988, chance.randint(0, 19988)))
        return raw.frame(kind, head + bytes([chance.choice((1, 1, 2, 2, chance.randrange(256)))]) + chance.randbytes(size))
    if kind == raw.PASS:
        return raw.frame(kind, head + struct.pack(">HI", *process(chance)))
    return raw.frame(kind, head if kind in (raw.JOIN, raw.LEAVE) else chance.randbytes(chance.randint(0, 40)))


def entries(chance, most, *more):
    """Processes with counts, rising by process. Those in `more` are among them."""
    number = chance.choice((0, 0, 0, 1, 2, chance.randint(0, most), most - len(more)))
    found = {process(chance): some(chance) or 1 for _ in range(number)} | dict(more)
    return sorted(found.items())[:most]


def spelled(found):
    return b"".join(struct.pack(">HII", *who, count) for who, count in found)


def counts(chance, *more):
    found = entries(chance, 64, *more)
    return bytes([len(found)]) + spelled(found)


def tail(chance):
    found = entries(chance, 512)
    return struct.pack(">IH", some(chance, 4_000_000_000), len(found)) + spelled(found)


def message(chance, name, is_passed=False):
    """A message of this name, which is its group, view, process and count."""
    group, view, *who, count = struct.unpack(">HIHII", name)
    kind = 3 if is_passed else chance.choice((1, 1, 2, 2, 3))
    groups = sorted({group, *(chance.sample(GROUPS, 2) if chance.random() < 0.2 else [])})
    times = [struct.pack(">HI", it, view or 1) + counts(chance, *([(tuple(who), count)] if it == group else [])) for it in groups]
    if kind == 3:
        found = entries(chance, 64) if is_passed else entries(chance, 64, (process(chance), 1))
        body = struct.pack(">IB", some(chance, 4_000_000_000) or 1, len(found)) + spelled(found)
        body += struct.pack(">HI", *process(chance)) if is_passed else b""
    else:
        body = chance.randbytes(chance.choice((0, 1, 1000, 16384, chance.randint(0, 16384))))
        body = struct.pack(">H", len(body)) + body
    return name + bytes([kind, len(times)]) + b"".join(times) + body


def whole_frame(domain, site, kind, fields, version=1):
    return b"CD" + struct.pack(">BBBH", version, kind, domain, site) + fields


def site_frame(chance, domain, site, view):
    """A frame of one of the twelve types in the name of a site, most often of this view: a group that passes a high one has no more."""
    kind, version = chance.randint(1, 12), 1
    number = chance.choice((*[view] * 9, 1, 2, view - 1, view + 1)) if chance.randrange(400) else some(chance)
    head = struct.pack(">HI", chance.choice(GROUPS), max(1, min(number, MOST)))
    name = head + struct.pack(">HII", *process(chance, chance.choice((site, site, 1))), some(chance) or 1)
    if kind in (1, 9):
        version = chance.choice((1, 1, 2))
        fields = message(chance, name, version == 2)
    elif kind in (2, 3, 8):
        fields = name
    elif kind == 4:
        fields = name[:2] + struct.pack(">IB", some(chance) or 1, chance.choice((1, 2))) + name[6:12]
    elif kind == 5:
        fields = name[:2] + struct.pack(">IB", some(chance) or 1, chance.choice((0, 0, 14)))
    elif kind == 7:
        kept = [(*it, chance.randrange(2)) for it in entries(chance, 200)]
        fields = head + counts(chance) + tail(chance) + struct.pack(">H", len(kept))
        fields += b"".join(spelled([it[:2]]) + bytes([it[2]]) for it in kept)
    elif kind == 10:
        members = [who for who, _ in entries(chance, 64, (process(chance, 1), 1))]
        fields = head + bytes([len(members)]) + b"".join(struct.pack(">HI", *it) for it in members)
        fields += bytes([chance.randrange(len(members))]) + struct.pack(">I", some(chance)) + counts(chance) + tail(chance)
    else:
        fields = head
    return whole_frame(domain, site, kind, fields, version)


def replies(chance, site, kind, fields, view):
    """What a site answers a frame of the daemon, as types and fields: as home with this view, and its process 1 casts in each new view."""
    head = fields[:6]
    casts = lambda begin: [(1, message(chance, begin + struct.pack(">HII", site, 1, it))) for it in (1, 2, 3)]
    if kind == 4:
        group, number, who = fields[:2], fields[2:6], fields[7:]
        new = group + struct.pack(">I", view)
        members = b"\2" + who + struct.pack(">HI", site, 1) + bytes([chance.randrange(2)])
        return [(5, group + number + b"\0"), (10, new + members + number + bytes(7)), *casts(new)]
    if kind == 5:
        number = int.from_bytes(fields[2:6], "big") + 1
        return [(4, fields[:2] + struct.pack(">IBHI", number & MOST, chance.choice((1, 1, 2)), site, chance.choice((1, 1, 2, 3))))]
    if kind == 8:
        return [(9, message(chance, fields))]
    same = {1: [(2, fields[:16])], 2: [(3, fields)], 6: [(7, head + bytes(9))]}
    return [(11, head), *casts(head)] if kind == 10 else same.get(kind, [])


def no_frame(chance):
    """Bytes that name the honest domain and are no frame: one that was cut or added to, or of another magic or version."""
    data = site_frame(chance, HONEST, chance.choice((1, 2, 3)), 1)
    return chance.choice((data[: chance.randrange(len(data))], data + b"\0", b"X" + data[1:], data[:2] + b"\3" + data[3:]))


def line(chance):
    """A line of the console, without its end. It is not `stop`, and changes nothing for the honest pair."""
    domain = chance.choice((*ATTACKED, 5, 255, 0, 256, "x", MOST + 1))
    quota = chance.choice(("sessions", "held", "outbox", "resend", "other")), chance.choice((0, 1, 2, 10, 64, 100, MOST, MOST + 1))
    site = chance.choice((0, 1, 2, 3, 4, 65536))
    lines = ["domains", "trace", "", "\r", "domains\r", f"show {domain}", f"groups {domain}", "show 1", "groups 1", "show  2"]
    lines += [f"suspect {domain} {site}", "quota %s %s %d" % (domain, *quota), "quota 2 held", " stop", "stop 1"]
    junk = chance.randbytes(chance.choice((1, 9, 300, 9000, 400_000))).replace(b"\n", b" ")
    return chance.choice((*(it.encode() for it in lines), junk, b"show " + junk, b"x" * chance.randint(1, 400_000)))


class Attacker:
    """What is done to a daemon. Each action takes its chance from its own seed. It never waits long, and fails nowhere."""

    def __init__(self, daemon, sites):
        self.daemon, self.sites, self.streams = daemon, sites, []
        self.done = collections.deque(maxlen=10)
        # The view of each domain that the daemon named last.
        self.views = dict.fromkeys(ATTACKED, 1)
        self.unknown = socket.socket(socket.AF_INET, socket.SOCK_DGRAM)
        self.actions = [self.speak, self.speak, self.cast, self.deaf, self.crowd, self.flash, self.trickle, self.drop]
        self.actions += [self.noise, self.forge, self.forge, self.answer, self.answer, self.type, self.type, self.short]

    def plan(self, chance):
        """Actions by chance, each with its seed."""
        return [(chance.choice(self.actions), chance.getrandbits(64)) for _ in range(chance.randint(25, 60))]

    def act(self, action, seed):
        self.done.append(f"{action.__name__} {seed}")
        action(random.Random(seed))

    def connect(self, chance, domain=None):
        """A stream that never waits, to an attacked domain. None where the daemon takes none now."""
        if len(self.streams) >= STREAMS:
            self.streams.pop(0).close()
        it = socket.socket(socket.AF_UNIX, socket.SOCK_STREAM)
        it.setblocking(False)
        try:
            it.connect(f"{self.daemon.folder}/{domain or chance.choice(ATTACKED)}.sock")
        except OSError:
            it.close()
            return None
        self.streams.append(it)
        return it

    @staticmethod
    def write(stream, *frames):
        """Writes what the daemon takes within a moment. False where that is not all."""
        data, end = b"".join(frames), time.monotonic() + 0.1
        with contextlib.suppress(OSError):
            while data and select.select([], [stream], [], max(0, end - time.monotonic()))[1]:
                data = data[stream.send(data) :]
        return not data

    @staticmethod
    def read(stream, most=65536):
        with contextlib.suppress(OSError):
            stream.recv(most)

    def end(self, chance, stream):
        """Closes a stream, or half of it, or leaves it as it is."""
        with contextlib.suppress(OSError):
            match chance.randrange(5):
                case 0 | 1:
                    stream.close()
                    self.streams.remove(stream)
                case 2:
                    stream.shutdown(chance.choice((socket.SHUT_WR, socket.SHUT_RD, socket.SHUT_RDWR)))

    def speak(self, chance):
        """A program writes frames in cuts by chance, perhaps until one of them is none."""
        stream = self.connect(chance)
        is_sound = chance.random() < 0.5
        for _turn in range(chance.randint(0, 40) if stream else 0):
            data = command(chance)
            if not is_sound and chance.random() < 0.2:
                data = spoiled(chance, data)
            cut = chance.randint(0, len(data))
            if not self.write(stream, data[:cut]) or not self.write(stream, data[cut:]):
                break
            if chance.random() < 0.5:
                self.read(stream)
        if stream:
            self.end(chance, stream)

    def member(self, chance):
        """A program that joined a group, where the daemon serves one."""
        stream, group = self.connect(chance), chance.choice(GROUPS)
        if stream:
            self.write(stream, raw.frame(raw.JOIN, struct.pack(">IH", 1, group)))
            for _turn in range(4):
                time.sleep(0.01)
                self.answer(random.Random(chance.getrandbits(64)))
        return stream, struct.pack(">IH", 2, group)

    def cast(self, chance):
        """A member casts and passes the token, and reads what it is told."""
        stream, head = self.member(chance)
        for _turn in range(chance.randint(1, 60) if stream else 0):
            size = chance.choice((0, 10, 1000, 16384))
            frames = [raw.frame(raw.CAST, head + bytes([chance.choice((1, 2))]) + bytes(size))]
            if chance.random() < 0.1:
                frames.append(raw.frame(raw.PASS, head + struct.pack(">HI", *process(chance, 1))))
            self.read(stream)
            if not self.write(stream, *frames):
                break
        if stream:
            self.end(chance, stream)

    def deaf(self, chance):
        """A member casts much, and reads nothing."""
        stream, head = self.member(chance)
        size = chance.choice((10, 1000, 16384))
        for _turn in range(chance.randint(50, 400) if stream else 0):
            if not self.write(stream, raw.frame(raw.CAST, head + b"\1" + bytes(size))):
                break

    def crowd(self, chance):
        """More programs than a domain has sessions. They say nothing, and stay."""
        domain = chance.choice(ATTACKED)
        for _turn in range(SESSIONS + chance.randint(1, 9)):
            self.connect(chance, domain)

    def flash(self, chance):
        """Programs that are gone at once, or with one frame on the way."""
        for _turn in range(chance.randint(1, 50)):
            stream = self.connect(chance)
            if stream and chance.random() < 0.3:
                self.write(stream, command(chance))
            if stream:
                self.streams.pop().close()

    def trickle(self, chance):
        """All programs read a byte, or write one."""
        for it in self.streams:
            if chance.random() < 0.5:
                self.read(it, 1)
            else:
                self.write(it, chance.choice((b"\0", chance.randbytes(1))))

    def drop(self, chance):
        """Some programs are gone."""
        for it in chance.sample(self.streams, len(self.streams) // 2):
            it.close()
            self.streams.remove(it)

    def send(self, chance, data):
        """Sends a datagram from the site that it names, and seldom from another one or from nowhere."""
        link = self.sites.get(int.from_bytes(data[5:7], "big"))
        if link is None or not chance.randrange(8):
            link = chance.choice((self.unknown, *self.sites.values()))
        if isinstance(link, raw.SealedLink) and not chance.randrange(8):
            link = link.link
        with contextlib.suppress(OSError):
            link.sendto(data, self.daemon.address)

    def send_frame(self, chance, data):
        """Sends a frame, one in eight of them spoiled. One that so names the honest domain gets another magic."""
        if not chance.randrange(8):
            data = spoiled(chance, data)
            data = b"X" + data[1:] if data[4:5] == bytes([HONEST]) else data
        self.send(chance, data)

    def noise(self, chance):
        """Datagrams of any bytes and length, and such as name the honest domain and are no frame."""
        for _turn in range(chance.randint(1, 100)):
            size = chance.choice((0, 1, 7, 59_999, 60_000, 60_001, 65_507, chance.randint(0, 65_507), chance.randint(0, 99)))
            self.send(chance, chance.choice((chance.randbytes(size), no_frame(chance))))

    def forge(self, chance):
        """Frames in the name of a site, each in a datagram or in bundles."""
        for _turn in range(chance.randint(1, 300)):
            domain, site = chance.choice(ATTACKED), chance.choice((1, 2, 2, 3, 3, some(chance, 65535)))
            frames = [site_frame(chance, domain, site, self.views[domain]) for _ in range(chance.choice((1, 1, 1, chance.randint(2, 20))))]
            if len(frames) == 1:
                self.send_frame(chance, *frames)
            else:
                self.send_bundle(chance, site, frames)

    def send_bundle(self, chance, site, frames):
        """Sends a bundle, one in four of them with another head or length, or cut."""
        data = bytearray(raw.bundle(*frames))
        if not chance.randrange(8):
            data[chance.randrange(2, 6)] = chance.randrange(256)
        if not chance.randrange(8):
            del data[chance.randrange(2, len(data)) :]
        link = self.sites.get(site, self.unknown)
        with contextlib.suppress(OSError):
            link.sendto(data, self.daemon.address)

    def answer(self, chance):
        """Answers what the daemon sent to sites 2 and 3, as these would."""
        for site, link in self.sites.items():
            for _turn in range(300):
                try:
                    came = link.recv(65_536)
                except OSError:
                    break
                for frame in raw.frames_of(came):
                    self.answer_frame(chance, site, frame)

    def answer_frame(self, chance, site, frame):
        """Answers a frame that a site was sent."""
        kind, domain, fields = frame[3], frame[4], frame[7:]
        named = int.from_bytes(fields[2:6], "big")
        self.views[domain] = named if kind not in (4, 5) else min(self.views[domain] + 1, MOST)
        for reply in replies(chance, site, kind, fields, self.views[domain]):
            self.send_frame(chance, whole_frame(domain, site, *reply))

    def type(self, chance):
        """Lines of the console, each of which is answered. The last may have no end."""
        for _turn in range(chance.randint(1, 12)):
            self.daemon.ask(line(chance))
        if chance.random() < 0.3:
            self.daemon.ask(b"x" + line(chance), is_ended=False)

    def let_open(self, number):
        """Sets how many descriptors the daemon may have, and gives how many it could have before."""
        soft, hard = resource.prlimit(self.daemon.process.pid, resource.RLIMIT_NOFILE)
        resource.prlimit(self.daemon.process.pid, resource.RLIMIT_NOFILE, (number, hard))
        return soft

    def short(self, chance):
        """Descriptors run short for a while, while programs connect."""
        used = len(os.listdir(f"/proc/{self.daemon.process.pid}/fd"))
        before = self.let_open(max(0, used + chance.randint(-20, 6)))
        try:
            for _turn in range(chance.randint(1, 12)):
                self.connect(chance)
            time.sleep(chance.random() / 4)
        finally:
            with contextlib.suppress(OSError):
                self.let_open(before)

    def close(self):
        for it in self.streams:
            it.close()
        self.streams.clear()
        for it in self.sites.values():
            with contextlib.suppress(OSError):
                while it.recv(65_536):
                    pass

    def storm(self, plan):
        """Acts while another thread ends the daemon. The console and the descriptors are that one's."""
        for action, seed in plan:
            if action not in (self.type, self.short):
                with contextlib.suppress(OSError):
                    self.act(action, seed)
