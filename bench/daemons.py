"""Daemons, and programs that load them: what the scripts of bench/ and tools/ share."""
import json
import os
import select
import shutil
import socket
import subprocess
import time

HERE = os.path.dirname(os.path.realpath(__file__))
PATH = f"{os.environ.get('PATH', os.defpath)}:/usr/sbin:/sbin"
# Seconds within which a daemon serves, and a program is a member or has said what it measured.
PATIENCE = 60


class Failed(Exception):
    """What could not be done, and why."""


def need(*names):
    """Fails where the machine lacks one of these commands."""
    missing = [it for it in names if shutil.which(it, path=PATH) is None]
    if missing:
        raise Failed(f"not on this machine: {', '.join(missing)}")


def runnable(path):
    """The whole path of a program. Fails where it is none."""
    if not os.access(path, os.X_OK) or os.path.isdir(path):
        raise Failed(f"{path} is no program")
    return os.path.realpath(path)


def free_port():
    """A port of this host that no datagrams come to."""
    with socket.socket(socket.AF_INET, socket.SOCK_DGRAM) as it:
        it.bind(("127.0.0.1", 0))
        return it.getsockname()[1]


def free_addresses(sites):
    """An address of this host for each of so many sites, at a port that nobody uses now."""
    found = [socket.socket(socket.AF_INET, socket.SOCK_DGRAM) for _ in range(sites)]
    for it in found:
        it.bind(("127.0.0.1", 0))
    addresses = {site: "127.0.0.1:%d" % it.getsockname()[1] for site, it in enumerate(found, 1)}
    for it in found:
        it.close()
    return addresses


def compiled(folder, name, *words):
    """The file that a C program or library is compiled into."""
    made = f"{folder}/{name}"
    flags = ["-std=c11", "-O2", "-Wall", "-Wextra", "-D_POSIX_C_SOURCE=200809L"]
    ran = subprocess.run(["cc", *flags, "-o", made, *words], cwd=HERE, stderr=subprocess.PIPE, text=True, check=False)
    if ran.returncode:
        errors = [it for it in ran.stderr.splitlines() if "error" in it or "cannot find" in it]
        raise Failed(f"{name} cannot be compiled: {errors[0] if errors else ran.stderr.strip()}")
    return made


class Process:
    """A process that is written lines, and of which lines are read. It is killed where this one ends."""

    def __init__(self, words, folder, **how):
        self.complaints = open(f"{folder}/complaints-{time.monotonic_ns()}", "w+b")
        pipes = {"stdin": subprocess.PIPE, "stdout": subprocess.PIPE, "stderr": self.complaints, "bufsize": 0}
        self.name, self.bytes = os.path.basename(words[0]), b""
        self.process = subprocess.Popen(["setpriv", "--pdeathsig", "KILL", *how.pop("inside", []), *words], **pipes, **how)

    def say(self, text):
        try:
            self.process.stdin.write(text.encode())
        except BrokenPipeError:
            self.fail("has ended")

    def line(self, seconds):
        """The next line that it writes, without its end. Fails where none comes in time."""
        end = time.monotonic() + seconds
        while b"\n" not in self.bytes:
            if not select.select([self.process.stdout], [], [], max(0, end - time.monotonic()))[0]:
                self.fail(f"wrote nothing for {seconds:.0f} s")
            more = os.read(self.process.stdout.fileno(), 65536)
            if not more:
                self.process.wait()
                self.fail(f"ended with {self.process.returncode}")
            self.bytes += more
        line, _, self.bytes = self.bytes.partition(b"\n")
        return line.decode()

    def complained(self):
        """What it has written to standard error so far. It writes at the offset of this file, which reading must not move."""
        file = self.complaints.fileno()
        return os.pread(file, os.fstat(file).st_size, 0).decode(errors="replace")

    def fail(self, what):
        raise Failed(f"{self.name} {what}. {self.complained().strip()}".strip())

    def memory(self):
        """Resident, in KiB."""
        with open(f"/proc/{self.process.pid}/status", encoding="utf-8") as file:
            return next(int(it.split()[1]) for it in file if it.startswith("VmRSS:"))

    def seconds(self, of=0):
        """Of processor time that its threads took so far; or by 1, for which they waited for a processor."""
        found = 0
        for thread in os.listdir(f"/proc/{self.process.pid}/task"):
            with open(f"/proc/{self.process.pid}/task/{thread}/schedstat", encoding="utf-8") as file:
                found += int(file.read().split()[of])
        return found / 1e9

    def time_to_end(self):
        """How many seconds it takes to end, which it was told to."""
        begun = time.monotonic()
        try:
            self.process.wait(PATIENCE)
        except subprocess.TimeoutExpired:
            self.fail(f"did not end within {PATIENCE} s")
        return time.monotonic() - begun

    def kill(self):
        self.process.kill()
        self.process.wait()
        for it in (self.process.stdin, self.process.stdout, self.complaints):
            it.close()


class Castd(Process):
    """A daemon of one domain with one group. `addresses` says by which each site is reached from here, and `more` what else its command line
    has."""

    CONFIG = "[[domain]]\nnumber = 1\nhome = 1\nsites = {sites}\ngroups = [1]\nsocket = {socket}\nsessions = 64\nheld = 1024\noutbox = 4096\n"
    IS_SEALED = False

    def __init__(self, program, folder, site, addresses, *more, **how):
        self.path, config = f"{folder}/{site}.sock", f"{folder}/{site}.conf"
        if self.IS_SEALED:
            more = (*more, "--keys", keys(folder, site, addresses))
        with open(config, "w", encoding="utf-8") as file:
            for number, address in addresses.items():
                file.write(f'[[site]]\nnumber = {number}\naddress = "{address}"\nsealed = {json.dumps(self.IS_SEALED)}\n')
            file.write(self.CONFIG.format(sites=list(addresses), socket=f'"{self.path}"', folder=folder, site=site))
        super().__init__([program, "serve", config, "--site", str(site), *more], folder, **how)
        try:
            if self.line(PATIENCE) != "ready":
                self.fail("does not serve")
        except Failed:
            self.kill()
            raise

    def stop(self):
        """Seconds from `stop` to its end."""
        self.say("stop\n")
        return self.time_to_end()


# The number of all keys.
KEY = 1


def secret_of(one, other):
    """The secret of two sites."""
    return bytes.fromhex(f"{min(one, other):032x}{max(one, other):032x}")


def keys(folder, site, others):
    """The file of the keys of a site. Each two sites have one."""
    path = f"{folder}/{site}.keys"
    with open(path, "w", encoding="utf-8", opener=lambda name, flags: os.open(name, flags, 0o600)) as file:
        for other in others:
            file.write(f'[[key]]\nsites = [{other}]\nnumber = {KEY}\nsecret = "{secret_of(site, other).hex()}"\n')
    return path


def networked(kind, lines):
    """Daemons of this kind whose configuration says these lines of the network, which commas part. None: they are as they were."""
    if not lines:
        return kind
    network = "[network]\n" + lines.replace(",", "\n") + "\n"
    return type(kind.__name__, (kind,), {"CONFIG": kind.CONFIG + network})


class Member(Process):
    """A program of bench/load.c."""

    def __init__(self, program, folder, path, order, members, senders, place, size, in_flight, seconds, *more, **how):
        numbers = [str(it) for it in (members, senders, place, size, in_flight, seconds)]
        super().__init__([program, path, order, *numbers, *more], folder, **how)

    def wait_for_view(self):
        if self.line(PATIENCE) != "ready":
            self.fail("did not join")

    def result(self, seconds):
        """What it measured, by name."""
        line = self.line(seconds)
        return {name: float(value) for name, value in (word.split("=") for word in line.split())}
