"""Hosts on a network of their own: each is a network namespace, joined to a bridge. Root is wanted, or a user namespace."""

import os
import subprocess
import time

from daemons import Failed


def ip(*words, inside=()):
    """Runs ip(8), in a namespace that these words enter."""
    ran = subprocess.run([*inside, "ip", *words], stderr=subprocess.PIPE, text=True, check=False)
    if ran.returncode:
        raise Failed(f"ip {' '.join(words)}: {ran.stderr.strip()}")


class Namespace:
    """A network namespace, as long as a process in it runs. The words `inside` enter it."""

    def __init__(self):
        own = os.readlink("/proc/self/ns/net")
        self.holder = subprocess.Popen(["setpriv", "--pdeathsig", "KILL", "unshare", "--net", "sleep", "infinity"])
        link = f"/proc/{self.holder.pid}/ns/net"
        self.inside = ["nsenter", f"--net={link}"]
        for _turn in range(500):
            if self.holder.poll() is not None:
                raise Failed("no network namespace can be made")
            if os.readlink(link) != own:
                break
            time.sleep(0.01)
        ip("link", "set", "lo", "up", inside=self.inside)

    def end(self):
        self.holder.kill()
        self.holder.wait()


def make_bridge(inside=()):
    """Makes the bridge of the network, in the namespace that these words enter."""
    ip("link", "add", "bridge", "type", "bridge", inside=inside)
    ip("link", "set", "bridge", "up", inside=inside)


class Host(Namespace):
    """A host on the bridge, which is in the namespace that these words enter."""

    def __init__(self, number, bridge=()):
        super().__init__()
        self.number, self.bridge, self.address = number, bridge, f"10.77.0.{number}"
        ip("link", "add", f"site{number}", "type", "veth", "peer", "name", "eth0", "netns", str(self.holder.pid), inside=bridge)
        ip("link", "set", f"site{number}", "master", "bridge", "up", inside=bridge)
        ip("address", "add", f"{self.address}/24", "dev", "eth0", inside=self.inside)
        ip("link", "set", "eth0", "up", inside=self.inside)

    def forget(self):
        """No longer knows where the others are."""
        ip("neigh", "flush", "dev", "eth0", inside=self.inside)

    def leave(self):
        """Is on the bridge no longer."""
        ip("link", "set", f"site{self.number}", "down", inside=self.bridge)
