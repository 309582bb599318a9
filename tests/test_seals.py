"""Sealed sites: a daemon serves what opens, and nothing else. The seals of the other sites are made here, by RFC 8439 and RFC 2104."""

from __future__ import annotations

import os
import pathlib
import struct
import subprocess

import raw
from harness import PATIENCE, PROGRAM, Setup, castd, wait_until
from test_daemon import ASK, DATA, Daemon, DaemonCase, Site, cast

SECRETS = {2: bytes(range(32)), 3: bytes(range(1, 33))}
NUMBER, NEW = 17, 18
OUT = 12


def keys_of(setup: Setup, name: str = "keys", mode: int = 0o600, numbers: tuple[int, ...] = (NUMBER,)) -> str:
    """The file of the keys of site 1."""
    path = pathlib.Path(f"{setup.folder}/{name}")
    path.touch()
    os.chmod(path, mode)
    secrets = {1: bytes(32), **SECRETS}
    path.write_text(
        "".join(
            f'[[key]]\nsites = [{site}]\nnumber = {number}\nsecret = "{secrets[site].hex()}"\n'
            for site in setup.hosts
            for number in numbers
        ),
        encoding="utf-8",
    )
    return str(path)


class SealedSite(Site):
    """A site whose datagrams are sealed, and which takes in sealed ones alone."""

    def __init__(self, case: DaemonCase, number: int):
        super().__init__(case, number)
        # How many datagrams it sealed, the number of the key that the last one for it was sealed with, and how long these were.
        self.count, self.key, self.lengths = 0, None, []

    def seal(self, body: bytes, **other) -> bytes:
        """A datagram for site 1, in which something may be another."""
        self.count += 1
        how = {"secret": SECRETS[self.number], "sender": self.number, "receiver": 1, "number": NUMBER, **other}
        return raw.sealed(body=body, nonce=self.count.to_bytes(16, "big"), **how)

    def say(self, kind: int, fields: bytes, number: int | None = None) -> None:
        self.send(self.seal(self.frame(kind, fields, number)))

    def send(self, datagram: bytes) -> None:
        self.socket.sendto(datagram, self.daemon)

    def received(self) -> bytes:
        """The body of the next datagram, which is sealed."""
        datagram = self.socket.recv(65_536)
        self.lengths.append(len(datagram))
        self.key, body = datagram[3], datagram[raw.SEAL :]
        assert datagram == raw.sealed(SECRETS[self.number], body, 1, self.number, datagram[raw.NONCE], self.key), datagram
        return body


class Seals(DaemonCase):
    def sealed_setup(self, sealed_sites: tuple[int, ...] = (1, 2, 3), **network) -> None:
        setup = self.setup_of(3, {"number": 1}, sealed=sealed_sites, network=network)
        self.daemon = self.serving(setup, "--keys", keys_of(setup))

    def sealed_site(self, number: int) -> SealedSite:
        site = SealedSite(self, number)
        self.addCleanup(site.socket.close)
        return site

    def undecoded(self) -> int:
        words = self.daemon.ask("datagrams").split()
        return int(words[words.index("undecoded") + 1])

    def test_what_a_site_seals_is_served_and_what_it_is_sent_is_sealed(self):
        self.sealed_setup()
        program, second = self.member(), self.sealed_site(2)
        second.enter(2)
        self.assertEqual(program.kinds(1), [castd.View])
        self.assert_is_served(program)
        self.assertEqual(self.undecoded(), 0)
        self.assertEqual(self.daemon.complained(), "")

    def test_a_bundle_leaves_room_for_its_seal(self):
        self.sealed_setup(bundle=True, datagram=512)
        program, second = self.member(), self.sealed_site(2)
        second.enter(2)
        self.assertEqual(program.kinds(1), [castd.View])
        program.write(*[cast()] * 40)
        for _ in range(40):
            second.hear(DATA)
        # One more frame, of 48 bytes, would have no room.
        self.assertTrue(512 - 48 < max(second.lengths) <= 512, second.lengths)

    def test_what_does_not_open_is_counted_and_does_nothing(self):
        self.sealed_setup()
        program, second, third = self.member(), self.sealed_site(2), self.sealed_site(3)
        ask = second.frame(ASK, struct.pack(">HIBHI", 1, 1, 1, 2, 1))
        good = second.seal(ask)
        bad = [good[:place] + bytes([good[place] ^ 1]) + good[place + 1 :] for place in range(len(good))]
        bad += [good[:place] for place in range(len(good))]
        # The last one, if it were believed, would put all members out.
        bad += [good + b"\0", ask, second.frame(OUT, struct.pack(">HI", 1, 4_294_967_295))]
        others = ({"secret": SECRETS[3]}, {"number": NUMBER + 1}, {"sender": 3}, {"receiver": 2})
        bad += [second.seal(ask, **other) for other in others]
        for datagram in bad:
            second.send(datagram)
        # One that was caught on its way to another site, one in the name of another site, and one of a stranger at a spare site.
        third.send(good)
        third.send(third.seal(ask))
        third.send(third.frame(ASK, struct.pack(">HIBHI", 1, 1, 1, 3, 1)))
        wait_until(lambda: self.undecoded() == len(bad) + 3, "each is counted")
        self.assert_is_served(program)
        told = "castd: site 2: datagrams from elsewhere or without its seal: "
        wait_until(lambda: told in self.daemon.complained(), "it is reported")
        second.enter(2)
        self.assertEqual(program.kinds(1), [castd.View])

    def test_plain_sites_are_served_beside_sealed_ones(self):
        self.sealed_setup((1, 2))
        wait_until(lambda: self.daemon.complained() == "castd: other sites that exchange datagrams without seals: 1\n", "it says so")
        program = self.member()
        third = Site(self, 3)
        self.addCleanup(third.socket.close)
        third.enter(2)
        self.assertEqual(program.kinds(1), [castd.View])
        with self.subTest("and seal nothing"):
            before, out = self.undecoded(), third.frame(OUT, struct.pack(">HI", 1, 3))
            third.socket.sendto(raw.sealed(SECRETS[3], out, 3, 1, bytes(16), NUMBER), third.daemon)
            wait_until(lambda: self.undecoded() == before + 1, "it is counted")

    def test_keys_are_read_again_when_the_console_says_so(self):
        self.sealed_setup()
        program, second = self.member(), self.sealed_site(2)
        second.enter(2)
        self.assertEqual(program.kinds(1), [castd.View])
        ask = second.frame(ASK, struct.pack(">HIBHI", 1, 1, 1, 2, 1))
        for numbers, used, opened in (((NUMBER, NEW), NUMBER, 2), ((NEW, NUMBER), NEW, 2), ((NEW,), NEW, 1)):
            keys_of(self.setup, numbers=numbers)
            self.assertEqual(self.daemon.ask("keys"), "ok")
            before = self.undecoded()
            for number in (NUMBER, NEW):
                second.send(second.seal(ask, number=number))
            program.cast(1, b"hi")
            wait_until(lambda: second.hear(DATA) and second.key == used, "it seals with the first key")
            wait_until(lambda: self.undecoded() == before + 2 - opened, "other keys open nothing")
        path = pathlib.Path(keys_of(self.setup))
        path.write_text(path.read_text().replace("sites = [3]", "sites = [4]"))
        self.assertEqual(self.daemon.ask("keys"), f"keys: none for {self.setup.addresses[3]}")
        self.assertEqual(self.daemon.ask("keys x"), "fault 3")
        before = self.undecoded()
        second.send(second.seal(ask, number=NUMBER))
        wait_until(lambda: self.undecoded() == before + 1, "the old ones stay")

    def test_a_check_says_which_sites_are_sealed(self):
        setup = self.setup_of(3, {"number": 1}, sealed=(1, 2))
        words = [PROGRAM, "check", setup.config, "--site", "1"]
        said = subprocess.run(words, capture_output=True, text=True, timeout=PATIENCE, check=True).stdout
        sealed = {1: " sealed", 2: " sealed", 3: ""}
        for site, address in setup.addresses.items():
            self.assertIn(f"# site {site} address {address}{sealed[site]}\n", said)

    def test_keys_that_cannot_be_used_are_named(self):
        setup = self.setup_of(3, {"number": 1}, sealed=(1, 2, 3))
        missing = pathlib.Path(keys_of(setup, "missing"))
        missing.write_text(missing.read_text().replace("sites = [3]", "sites = [4]"))
        for words, why in (
            ([], f"castd: keys: none for {setup.addresses[1]}"),
            (["--keys", str(missing)], f"castd: keys: none for {setup.addresses[3]}"),
            (["--keys", keys_of(setup, "three", numbers=(1, 2, 3))], f"castd: keys: more than two for {setup.addresses[1]}"),
            (["--keys", keys_of(setup, "twice", numbers=(1, 1))], f"castd: keys: more than two for {setup.addresses[1]}"),
            (["--keys", keys_of(setup, "public", 0o644)], "not a plain file that only its user can use"),
            (["--keys", f"{setup.folder}/none"], "cannot be read"),
            (["--keys", setup.config], "not a plain file that only its user can use"),
        ):
            with self.subTest(why):
                daemon = Daemon(self, setup, *words)
                self.assertEqual(daemon.status(), 6)
                self.assertIn(why, daemon.complained())
