"""Parts that need no daemon: reading a configuration, cutting lines, serving, and whom a home may suspect."""

import asyncio
import os
import pathlib
import socket
import stat
import tempfile
import unittest

from harness import ROOT
from castd_tools import configuration, control
from castd_tools.beat import NONE, Beat, BeatError, decode
from castd_tools.belief import Belief, SealedBelief
from castd_tools.keys import Key, KeysError, key_of_pair, read, read_master, write
from castd_tools.sealed_beat import seal, unseal
from castd_tools.stream_server import Client, StreamServer
from castd_tools.suspicion import Suspicion

SITE = '[[site]]\nnumber = 1\naddress = "127.0.0.1:7001"\n'
DOMAIN = '[[domain]]\nnumber = 1\nhome = 1\nsites = [1]\ngroups = [1, 2]\nsocket = "/tmp/one.sock"\n'


class Reading(unittest.TestCase):
    def test_the_configuration_of_the_formats_is_read(self):
        text = (ROOT / "docs" / "FORMATS.md").read_text()
        _, _, behind = text.partition("## Configuration")
        read = configuration.parse(behind.split("```")[1])
        self.assertEqual({site: str(address) for site, address in read.sites.items()}, {1: "127.0.0.1:7001"})
        domain = read.domains[1]
        self.assertEqual((domain.home, domain.sites, domain.groups, domain.socket), (1, (1,), (1, 2), "/tmp/one.sock"))
        self.assertEqual(domain.quotas, {"sessions": 16, "held": 256, "outbox": 256, "resend": 200})
        self.assertIsNone(read.bundle)
        self.assertEqual(read.delay, 0)

    def test_quotas_that_are_absent_are_the_usual_ones(self):
        domain = configuration.parse(SITE + DOMAIN + "held = 9\n").domains[1]
        self.assertEqual(domain.quotas, {"held": 9})
        quotas = [domain.quota(name) for name in ("sessions", "held", "outbox", "resend")]
        self.assertEqual(quotas, [16, 9, 256, 200])

    def test_a_bundle_has_as_many_bytes_as_the_network_says(self):
        for network, most in (
            ("", None),
            ("[network]\n", None),
            ("[network]\ndatagram = 512\n", None),
            ("[network]\nbundle = false\ndatagram = 60000\n", None),
            ("[network]\nbundle = true\n", 8972),
            ("[network]\nbundle = true\ndatagram = 512\n", 512),
            ("[network]\nbundle = true\ndatagram = 60000\n", 60000),
        ):
            with self.subTest(network):
                self.assertEqual(configuration.parse(SITE + DOMAIN + network).bundle, most)

    def test_a_delay_has_as_many_microseconds_as_the_network_says(self):
        for network, delay in (
            ("[network]\n", 0),
            ("[network]\nbundle = true\n", 0),
            ("[network]\ndelay = 0\n", 0),
            ("[network]\ndelay = 300\n", 300),
            ("[network]\nbundle = true\ndelay = 1000000\n", 1000000),
        ):
            with self.subTest(network):
                self.assertEqual(configuration.parse(SITE + DOMAIN + network).delay, delay)

    def test_what_castd_ignores_is_ignored(self):
        read = configuration.parse('title = "x"\n' + SITE + 'color = "red"\n' + DOMAIN + "more = [1]\n[network]\nx = 1\n")
        self.assertEqual(list(read.domains), [1])

    def test_an_address_of_version_six_stands_in_brackets(self):
        read = configuration.parse(SITE.replace("127.0.0.1", "[::1]") + DOMAIN)
        self.assertEqual((read.sites[1].host, read.sites[1].port, str(read.sites[1])), ("::1", 7001, "[::1]:7001"))

    def test_faults_are_named(self):
        for text, fault in (
            ("site = ", "not TOML"),
            ("x = " + "[" * 100_000, "not TOML"),
            (DOMAIN, "the document: site: missing"),
            ("site = 1\n" + DOMAIN, "site: not tables [[site]]"),
            (SITE, "the document: domain: missing"),
            ("domain = []\n" + SITE, "0 domains: there are 1 to 16"),
            (SITE.replace("= 1", "= 0", 1) + DOMAIN, "a site: number: 0 is not 1 to 65535"),
            (SITE.replace("= 1", "= true", 1) + DOMAIN, "a site: number: not a whole number"),
            (SITE.replace("7001", "0") + DOMAIN, "site 1: address: '127.0.0.1:0' is not host:port"),
            (SITE.replace("127.0.0.1", "::1") + DOMAIN, "site 1: address: '::1:7001' is not host:port"),
            (SITE + SITE + DOMAIN, "site 1: repeated"),
            (SITE + DOMAIN + DOMAIN, "domain 1: repeated"),
            (SITE + DOMAIN.replace("= 1", "= 256", 1), "a domain: number: 256 is not 1 to 255"),
            (SITE + DOMAIN.replace("home = 1", "home = 2"), "domain 1: home: 2 is not one of its sites"),
            (SITE + DOMAIN.replace("sites = [1]", "sites = [1, 2]"), "domain 1: sites: site 2 is not listed"),
            (SITE + DOMAIN.replace("sites = [1]", "sites = []"), "domain 1: sites: 0 of them: there are 1 to 16"),
            (SITE + DOMAIN.replace("[1, 2]", "[1, 1]"), "domain 1: groups: a number is repeated"),
            (SITE + DOMAIN.replace('"/tmp/one.sock"', "1"), "domain 1: socket: not a text"),
            (SITE + DOMAIN + "held = 1025\n", "domain 1: held: 1025 is not 1 to 1024"),
            (SITE + DOMAIN + "resend = 9\n", "domain 1: resend: 9 is not 10 to 60000"),
            ("network = 1\n" + SITE + DOMAIN, "network: not a table [network]"),
            ("network = 1\n" + SITE, "the document: domain: missing"),
            (SITE + DOMAIN + "[network]\nbundle = 1\ndatagram = 0\n", "network: bundle: not a boolean"),
            (SITE + DOMAIN + "[network]\ndatagram = true\n", "network: datagram: not a whole number"),
            (SITE + DOMAIN + "[network]\ndatagram = 511\n", "network: datagram: 511 is not 512 to 60000"),
            (SITE + DOMAIN + "[network]\nbundle = true\ndatagram = 60001\n", "network: datagram: 60001 is not"),
            (SITE + DOMAIN + "[network]\ndelay = 1.0\ndatagram = 0\n", "network: datagram: 0 is not 512 to 60000"),
            (SITE + DOMAIN + "[network]\ndelay = true\n", "network: delay: not a whole number"),
            (SITE + DOMAIN + "[network]\ndelay = -1\n", "network: delay: -1 is not 0 to 1000000"),
            (SITE + DOMAIN + "[network]\nbundle = true\ndelay = 1000001\n", "network: delay: 1000001 is not 0"),
        ):
            with self.subTest(text[:60]):
                with self.assertRaises(configuration.ConfigurationError) as raised:
                    configuration.parse(text)
                self.assertIn(fault, str(raised.exception))

    def test_a_site_has_to_be_listed_and_in_a_domain(self):
        read = configuration.parse(SITE + SITE.replace("= 1", "= 2", 1) + DOMAIN)
        self.assertEqual([domain.number for domain in read.domains_of(1)], [1])
        for site in (2, 3):
            self.assertRaises(configuration.ConfigurationError, read.domains_of, site)

    def test_a_file_that_cannot_be_read_is_named(self):
        for path in ("/no/such/file", str(pathlib.Path(__file__).parent)):
            with self.assertRaises(configuration.ConfigurationError) as raised:
                configuration.read(path)
            self.assertIn(path, str(raised.exception))


class Lines(unittest.TestCase):
    def test_a_stream_is_cut_wherever_its_pieces_end(self):
        data = b"one\n\ntwo\nthr"
        for cut in range(len(data) + 1):
            lines = control.LineBuffer()
            self.assertEqual(lines.feed(data[:cut]) + lines.feed(data[cut:]), [b"one", b"", b"two"])
            self.assertEqual(lines.feed(b"ee\n"), [b"three"])

    def test_a_line_without_end_takes_no_more_memory(self):
        lines = control.LineBuffer()
        for _ in range(100):
            self.assertEqual(lines.feed(b"x" * 10_000), [])
        (line,) = lines.feed(b"\n")
        self.assertEqual(len(line), 4_097)
        self.assertRaises(control.LineError, control.line_of, line)


class Beats(unittest.TestCase):
    def test_a_beat_is_as_it_is_told(self):
        words = "9f86d081884c7d65", "2c26b46b68ffc68f", "fcde2b2edba56bf4"
        beat = Beat(1, *words, frozenset({2, 1}), frozenset({(1, 4), (1, 3)}))
        self.assertEqual(beat.encode(), f"castd-beat-2 1 {' '.join(words)} 1,2 1:3,1:4".encode())
        self.assertEqual(decode(beat.encode()), beat)
        least = Beat(65_535, "0" * 16, "1" * 16, NONE, frozenset(), frozenset())
        self.assertEqual(least.encode(), b"castd-beat-2 65535 0000000000000000 1111111111111111 - - -")
        self.assertEqual(decode(least.encode()), least)
        self.assertRaises(BeatError, decode, least.encode() + b",")

    def test_a_life_is_known_once_it_answers(self):
        def beat(life: str, echo: str) -> Beat:
            return Beat(2, life * 16, "0123456789abcdef", echo, frozenset(), frozenset())

        belief = Belief()
        self.assertEqual(belief.echo, NONE)
        self.assertFalse(belief.believes(beat("a", NONE)))
        self.assertEqual(belief.echo, "0123456789abcdef")
        number = belief.number()
        self.assertFalse(belief.believes(beat("a", "f" * 16)))
        self.assertTrue(belief.believes(beat("a", number)))
        self.assertTrue(belief.believes(beat("a", NONE)))
        with self.subTest("a new life that does not answer silences no other"):
            self.assertFalse(belief.believes(beat("b", NONE)))
            self.assertTrue(belief.believes(beat("a", NONE)))
        with self.subTest("a former life does not come back"):
            self.assertTrue(belief.believes(beat("b", number)))
            self.assertFalse(belief.believes(beat("a", number)))
        with self.subTest("an answer to what was sent long ago is none"):
            for _ in range(32):
                belief.number()
            self.assertFalse(belief.believes(beat("c", number)))


class SealedBeats(unittest.TestCase):
    KEY = Key(17, bytes(range(32)))
    BEAT = b"castd-beat-2 1 9f86d081884c7d65 2c26b46b68ffc68f fcde2b2edba56bf4 1,2 1:3,1:4"
    # The sum is that of `openssl dgst -sha256 -mac HMAC`.
    SEALED = b"castd-sealed-beat-1 2 17 " + BEAT + b" aecb6148d383cc1cb77da947bec55bfb"

    def test_a_sealed_beat_is_as_it_is_told(self):
        self.assertEqual(seal(self.BEAT, 2, self.KEY), self.SEALED)
        self.assertEqual(unseal(self.SEALED, 2, [Key(16, bytes(32)), self.KEY]), self.BEAT)

    def test_a_seal_opens_with_its_key_and_for_its_receiver_alone(self):
        for place in range(len(self.SEALED)):
            changed = bytearray(self.SEALED)
            changed[place] ^= 1
            self.assertIsNone(unseal(bytes(changed), 2, [self.KEY]), place)
            self.assertIsNone(unseal(self.SEALED[:place], 2, [self.KEY]), place)
        self.assertIsNone(unseal(self.SEALED + b" ", 2, [self.KEY]))
        self.assertIsNone(unseal(self.BEAT, 2, [self.KEY]))
        self.assertIsNone(unseal(self.SEALED, 1, [self.KEY]))
        for key in (Key(16, self.KEY.secret), Key(17, bytes(32))):
            self.assertIsNone(unseal(self.SEALED, 2, [key]))
        self.assertIsNone(unseal(self.SEALED, 2, []))

    def beat(self, life: str, number: int, echo: str) -> Beat:
        return Beat(2, life * 16, f"{number:016x}", echo, frozenset(), frozenset())

    def test_a_beat_is_believed_once_and_only_as_an_answer(self):
        belief = SealedBelief()
        self.assertFalse(belief.believes(self.beat("a", 1, NONE)))
        self.assertEqual(belief.echo, f"{1:016x}")
        number = belief.number()
        second = self.beat("a", 2, number)
        self.assertTrue(belief.believes(second))
        self.assertFalse(belief.believes(second))
        self.assertFalse(belief.believes(self.beat("a", 3, NONE)))
        self.assertTrue(belief.believes(self.beat("a", 5, number)))
        with self.subTest("not after a later one"):
            self.assertFalse(belief.believes(self.beat("a", 4, number)))
            self.assertEqual(belief.echo, f"{5:016x}")
        with self.subTest("not as an answer to what was sent long ago"):
            for _ in range(32):
                belief.number()
            self.assertFalse(belief.believes(self.beat("a", 6, number)))

    def test_a_former_life_does_not_come_back(self):
        belief = SealedBelief()
        number = belief.number()
        self.assertTrue(belief.believes(self.beat("a", 7, number)))
        # The clock of its host was set back.
        self.assertTrue(belief.believes(self.beat("b", 3, number)))
        self.assertFalse(belief.believes(self.beat("a", 8, number)))
        self.assertTrue(belief.believes(self.beat("b", 4, number)))

    def test_numbers_rise(self):
        belief = SealedBelief()
        numbers = [belief.number() for _ in range(100)]
        self.assertEqual(numbers, sorted(set(numbers)))


class Keys(unittest.TestCase):
    MASTER = bytes(range(32))
    TABLE = f'[[key]]\nhost = "a"\nsites = [1, 101]\nnumber = 0\nsecret = "{MASTER.hex()}"\n'

    def setUp(self) -> None:
        self.folder = self.enterContext(tempfile.TemporaryDirectory(prefix="castd-"))

    def written(self, text: str, mode: int = 0o600) -> str:
        path = f"{self.folder}/keys"
        pathlib.Path(path).write_text(text, encoding="utf-8")
        os.chmod(path, mode)
        return path

    def test_a_master_makes_one_key_for_two_hosts(self):
        # The secret and the number are those of `openssl dgst -sha256 -mac HMAC`.
        secret = "f04bb7bbae06b81bc26d79f86d74f41d1f033347e7a5b4155aa12dbcb70d9d63"
        key = Key(111, bytes.fromhex(secret))
        self.assertEqual(key_of_pair(self.MASTER, "trade", "192.0.2.1", "192.0.2.2"), key)
        self.assertEqual(key_of_pair(self.MASTER, "trade", "192.0.2.2", "192.0.2.1"), key)
        for words in (("trades", "192.0.2.1", "192.0.2.2"), ("trade1", "92.0.2.1", "192.0.2.2"), ("trade", "192.0.2.1", "192.0.2.1")):
            self.assertNotEqual(key_of_pair(self.MASTER, *words).secret, key.secret)

    def test_keys_are_found_by_site(self):
        second = self.TABLE.replace("number = 0", "number = 255").replace("[1, 101]", "[1]")
        keys = read(self.written(self.TABLE + second))
        self.assertEqual({site: [key.number for key in its] for site, its in keys.items()}, {1: [0, 255], 101: [0]})
        self.assertEqual(keys[101], [Key(0, self.MASTER)])

    def test_a_file_that_has_no_keys_is_refused(self):
        for text, why in (
            ("[[key]", "not TOML"),
            ("", "the document: key: missing"),
            (self.TABLE.replace("sites = [1, 101]\n", ""), "a key: sites: missing"),
            (self.TABLE.replace("[1, 101]", "[0]"), "a key: sites: 0 is not 1 to 65535"),
            (self.TABLE.replace("[1, 101]", f"{list(range(1, 18))}"), "a key: sites: 17 of them"),
            (self.TABLE.replace("number = 0", "number = 256"), "a key: number: 256 is not 0 to 255"),
            (self.TABLE.replace("1f", "1"), "a key: secret: not 64 digits of base 16"),
            (self.TABLE.replace("1f", "1g"), "a key: secret: not 64 digits of base 16"),
            (self.TABLE + self.TABLE, "site 1: key 0: repeated"),
            ("".join(self.TABLE.replace("number = 0", f"number = {it}") for it in range(3)), "site 1: more than 2 keys"),
        ):
            with self.subTest(why):
                with self.assertRaises(KeysError) as raised:
                    read(self.written(text))
                self.assertIn(f"{self.folder}/keys: {why}", str(raised.exception))
                self.assertNotIn("0001020304", str(raised.exception))

    def test_a_file_that_others_can_use_is_refused(self):
        path = self.written(self.TABLE)
        for mode in (0o601, 0o602, 0o604, 0o610, 0o620, 0o640):
            os.chmod(path, mode)
            with self.assertRaises(KeysError) as raised:
                read(path)
            self.assertIn("others than its user can use it", str(raised.exception))
        os.chmod(path, 0o400)
        self.assertEqual(set(read(path)), {1, 101})
        os.symlink(path, f"{self.folder}/link")
        for bad in ("/dev/null", self.folder, f"{self.folder}/link", f"{self.folder}/none"):
            self.assertRaises(KeysError, read, bad)
        if os.geteuid() == 0:
            os.chown(path, 65_534, 65_534)
            with self.assertRaises(KeysError) as raised:
                read(path)
            self.assertIn("of another user", str(raised.exception))

    def test_a_master_has_64_digits(self):
        self.assertEqual(read_master(self.written(self.MASTER.hex() + "\n")), self.MASTER)
        for text in ("", self.MASTER.hex()[:-2], self.MASTER.hex() + "00", "x" * 64):
            self.assertRaises(KeysError, read_master, self.written(text))

    def test_a_file_that_is_made_is_private_from_the_beginning(self):
        path = f"{self.folder}/keys"
        before = os.umask(0)
        self.addCleanup(os.umask, before)
        for text in ("first", "second"):
            write(path, text)
            self.assertEqual(pathlib.Path(path).read_text(), text)
            self.assertEqual(stat.S_IMODE(os.stat(path).st_mode), 0o600)
        self.assertRaises(OSError, write, f"{self.folder}/none/keys", "")
        self.assertEqual(os.listdir(self.folder), ["keys"])


class Serving(unittest.TestCase):
    def test_a_client_that_comes_at_any_moment_of_the_end_is_no_fault(self):
        for turns in range(8):
            with self.subTest(turns), self.assertNoLogs("asyncio"):
                asyncio.run(self.end(turns))

    async def end(self, turns: int) -> None:
        """Ends so many turns of the loop after a client has connected."""
        listening = socket.create_server(("127.0.0.1", 0))
        self.addCleanup(listening.close)
        await StreamServer(1, self.read, self.read).start(listening)
        self.addCleanup(socket.create_connection(listening.getsockname()).close)
        for _ in range(turns):
            await asyncio.sleep(0)

    async def read(self, client: Client) -> None:
        await client.read(60.0)


class Suspecting(unittest.TestCase):
    """The patience is 10."""

    def heard(self, others: dict[int, float]) -> Suspicion:
        """Sites that were last heard at these times."""
        suspicion = Suspicion(set(others), 10.0)
        for site, now in others.items():
            suspicion.hear(site, now)
        return suspicion

    def test_a_site_is_silent_after_the_patience_and_not_before(self):
        suspicion = self.heard({2: 0, 3: 5})
        self.assertEqual(suspicion.silent(9.9), [])
        self.assertEqual(suspicion.silent(10), [2])
        self.assertEqual(suspicion.silent(15), [2, 3])
        suspicion.hear(2, 15)
        self.assertEqual(suspicion.silent(15), [3])
        suspicion.start_anew(16)
        self.assertEqual(suspicion.silent(25), [])

    def test_a_site_that_was_never_heard_is_not_silent(self):
        self.assertEqual(Suspicion({2, 3}, 10.0).silent(1_000), [])

    def test_a_site_that_was_suspected_stays_so(self):
        suspicion = self.heard({2: 0, 3: 10, 4: 10})
        self.assertEqual(suspicion.due(11), [2])
        suspicion.suspected.add(2)
        self.assertFalse(suspicion.hear(2, 11))
        self.assertEqual(suspicion.due(11), [])

    def test_a_suspected_site_is_suspected_again_after_each_patience(self):
        suspicion = self.heard({2: 0, 3: 10, 4: 10})
        suspicion.suspected.add(2)
        self.assertEqual(suspicion.due_again(20), [])
        suspicion.hear(3, 25)
        self.assertEqual(suspicion.due_again(29.9), [])
        self.assertEqual(suspicion.due_again(30), [2])
        suspicion.hear(2, 35)
        self.assertEqual(suspicion.due_again(39.9), [])
        self.assertEqual(suspicion.due_again(40), [2])

    def test_more_than_half_have_to_stay(self):
        # At time 10 those at 0 are silent, those at 9 are heard, and those at 4 may have fallen silent.
        for others, due in (
            ({2: 0, 3: 9}, [2]),
            ({2: 0, 3: 0}, []),
            ({2: 0, 3: 4}, []),
            ({2: 0}, []),
            ({2: 0, 3: 9, 4: 9}, [2]),
            ({2: 0, 3: 0, 4: 9}, []),
            ({2: 0, 3: 0, 4: 9, 5: 9}, [2, 3]),
            ({2: 0, 3: 0, 4: 0, 5: 9}, []),
        ):
            with self.subTest(others):
                self.assertEqual(self.heard(others).due(10), due)

    def test_sites_that_are_suspected_do_not_stay(self):
        suspicion = self.heard({2: 9, 3: 0})
        suspicion.suspected.add(2)
        self.assertEqual(suspicion.due(10), [])
        suspicion = self.heard({2: 9, 3: 0, 4: 9, 5: 9})
        suspicion.suspected.add(2)
        self.assertEqual(suspicion.due(10), [3])

    def test_a_site_that_was_suspected_before_it_was_heard_does_not_count(self):
        suspicion = Suspicion({2, 3, 4}, 10.0)
        suspicion.suspected.add(2)
        for site, now in ((2, 0), (3, 0), (4, 9)):
            suspicion.hear(site, now)
        self.assertEqual(suspicion.due(10), [3])

    def lasting(self, *others: int) -> Suspicion:
        """Sites that were heard from time 0 to 10."""
        suspicion = Suspicion({2, 3, 4, 5, 6}, 10.0)
        self.hear(suspicion, others, 0, 10)
        return suspicion

    def hear(self, suspicion: Suspicion, sites: tuple[int, ...], begin: int, end: int) -> None:
        """These sites, and no others, are heard at each moment from the first to the last."""
        for now in range(begin, end + 1):
            for site in sites:
                suspicion.hear(site, now)
            suspicion.suspected.update(suspicion.due(now))

    def test_a_spare_takes_the_place_of_a_site_that_was_put_out(self):
        suspicion = self.lasting(2, 3)
        self.hear(suspicion, (2,), 11, 20)
        self.assertEqual(suspicion.suspected, {3})
        self.hear(suspicion, (2, 4), 21, 40)
        self.hear(suspicion, (4,), 41, 50)
        self.assertEqual(suspicion.suspected, {2, 3})

    def test_a_spare_may_be_heard_before_the_site_that_it_replaces_is_put_out(self):
        suspicion = self.lasting(2, 3)
        self.hear(suspicion, (2, 4), 11, 40)
        self.hear(suspicion, (4,), 41, 50)
        self.assertEqual(suspicion.suspected, {2, 3})

    def test_a_home_that_loses_one_site_after_the_other_stops_in_time(self):
        suspicion = self.lasting(2, 3)
        self.hear(suspicion, (2,), 11, 30)
        self.hear(suspicion, (), 31, 90)
        self.assertEqual(suspicion.suspected, {3})
        suspicion = self.lasting(2, 3, 4, 5)
        for sites, begin in ((2, 3, 4), 11), ((2, 3), 31), ((2,), 51), ((), 71):
            self.hear(suspicion, sites, begin, begin + 19)
        self.assertEqual(suspicion.suspected, {4, 5})

    def test_sites_that_come_back_together_are_not_suspected(self):
        suspicion = self.heard({2: 0, 3: 0})
        self.assertEqual(suspicion.due(20), [])
        suspicion.hear(2, 21)
        self.assertEqual(suspicion.due(21), [])
        suspicion.hear(2, 30)
        self.assertEqual(suspicion.due(30.9), [])
        # One that does not come back is suspected, a patience later.
        self.assertEqual(suspicion.due(31), [3])
