"""Links between daemons that take their time."""

import functools
import heapq
import itertools
import select
import socket
import threading
import time


class Link(threading.Thread):
    """Carries datagrams between two sites. Of each `fate` says after how many seconds it is delivered: once for each number that it gives.
    Each site has the other at an address of this host, from which what the other sends comes, too."""

    def __init__(self, addresses, fate):
        super().__init__(daemon=True)
        self.fate, self.carried, self.ends, self.sites = fate, 0, {}, {}
        for site, address in addresses.items():
            host, port = address.rsplit(":", 1)
            self.sites[site] = (host, int(port))
            self.ends[site] = socket.socket(socket.AF_INET, socket.SOCK_DGRAM)
            self.ends[site].bind(("127.0.0.1", 0))
        self.is_over = threading.Event()

    def address(self, site):
        """Where this site has the other one."""
        return "{}:{}".format(*self.ends[site].getsockname())

    def run(self):
        waiting, place = [], itertools.count()
        one, other = self.ends
        while not self.is_over.is_set():
            left = waiting[0][0] - time.monotonic() if waiting else 0.05
            ready = select.select([*self.ends.values()], [], [], max(0, left))[0]
            for near, far in ((one, other), (other, one)):
                if self.ends[near] in ready:
                    data = self.ends[near].recv(65_536)
                    for seconds in self.fate(near, data):
                        heapq.heappush(waiting, (time.monotonic() + seconds, next(place), far, data))
                    self.carried += 1
            while waiting and waiting[0][0] <= time.monotonic():
                _, _, far, data = heapq.heappop(waiting)
                self.ends[far].sendto(data, self.sites[far])

    def end(self):
        self.is_over.set()
        self.join()
        for it in self.ends.values():
            it.close()


def linked(addresses, fate):
    """Starts a link between each two sites. Gives by which addresses each site reaches all, and the links. The fate of a datagram is what
    `fate` says of the two sites, the one of them that sent it, and its bytes; or this number of seconds."""
    links, told = [], {site: {site: address} for site, address in addresses.items()}
    for near in addresses:
        for far in (it for it in addresses if it > near):
            fates = functools.partial(fate, near, far) if callable(fate) else lambda *_: (fate,)
            link = Link({site: addresses[site] for site in (near, far)}, fates)
            link.start()
            links.append(link)
            told[near][far], told[far][near] = link.address(near), link.address(far)
    return told, links
