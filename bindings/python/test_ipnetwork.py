"""Rows with known answers, and the differences between this module's grammar and that of ``ipaddress``."""

import array
import copy
import ipaddress
import itertools
import pickle
import random
import unittest
from ipaddress import IPv4Address, IPv6Address

import ipnetwork
from ipnetwork import (
    AddressError,
    AddressSet,
    FormatError,
    IPv4Network,
    IPv6Network,
    MaskError,
    PrefixError,
    Table,
    ip_network,
)

# Text, and what IPv4Network and IPv6Network answer: a canonical text or an error.
TEXTS = [
    ("10.1.9.32/16", "10.1.9.32/16", AddressError),
    ("192.0.2.0/255.255.255.0", "192.0.2.0/24", AddressError),
    ("198.51.100.7", "198.51.100.7/32", AddressError),
    ("10.0.0.0/+8", "10.0.0.0/8", AddressError),
    ("10.0.0.0/008", "10.0.0.0/8", AddressError),
    ("2001:DB8::1/064", AddressError, "2001:db8::1/64"),
    ("::ffff:0:0", AddressError, "::ffff:0.0.0.0/128"),
    ("1:2:3:4:5:6:7::", AddressError, "1:2:3:4:5:6:7:0/128"),
    ("x/y/z", FormatError, FormatError),
    ("x/99", AddressError, AddressError),
    ("10.0.0.0/99", PrefixError, AddressError),
    ("::1/129", AddressError, PrefixError),
    ("::1/24/", FormatError, FormatError),
    ("", AddressError, AddressError),
    ("10/8", AddressError, AddressError),
    ("10.1.9.32/33", PrefixError, AddressError),
    ("01.2.3.4", AddressError, AddressError),
    ("1.2.3.4\0", AddressError, AddressError),
    ("\u0661.2.3.4", AddressError, AddressError),
    ("1.2.3.4/\udcff", PrefixError, AddressError),
]

# Where ipaddress reads or prints otherwise: the text, what ipaddress answers, what this module answers.
DIFFERENCES = [
    ("a plus before the prefix length", "10.0.0.0/+8", None, "10.0.0.0/8"),
    ("a mask of host bits", "10.0.0.0/0.0.0.255", "10.0.0.0/24", None),
    ("a zone", "fe80::1%eth0/64", "fe80::1%eth0/64", None),
]


def ours(text):
    try:
        return str(ip_network(text))
    except ipnetwork.NetworkError:
        return None


def theirs(text):
    try:
        return str(ipaddress.ip_interface(text))
    except ValueError:
        return None


class Texts(unittest.TestCase):
    def answer(self, kind, text):
        try:
            return str(kind(text))
        except ipnetwork.NetworkError as error:
            self.assertIn(repr(text), str(error))
            return type(error)

    def test_rows(self):
        for text, four, six in TEXTS:
            with self.subTest(text=text):
                self.assertEqual(self.answer(IPv4Network, text), four)
                self.assertEqual(self.answer(IPv6Network, text), six)
                wanted = next((it for it in (four, six) if isinstance(it, str)), None)
                self.assertEqual(ours(text), wanted)
                # Of either family it is the cause of the one whose address is before the slash.
                cause = four if six is AddressError else six
                self.assertEqual(self.answer(ip_network, text), wanted or cause)

    def test_bytes(self):
        # Packed addresses, as in ipaddress.
        self.assertEqual(ip_network(b"\x0a\x01\x09\x20"), IPv4Network("10.1.9.32/32"))
        self.assertEqual(ip_network(bytes(15) + b"\x01"), IPv6Network("::1/128"))
        for given in (b"", b"::1/64", b"10.0.0.0/8", bytes(5), bytes(17)):
            with self.assertRaises(AddressError):
                ip_network(given)
        with self.assertRaises(AddressError):
            IPv6Network(bytes(4))
        with self.assertRaises(TypeError):
            ip_network(1)

    def test_differences_of_grammar(self):
        for what, text, other, own in DIFFERENCES:
            with self.subTest(what):
                self.assertEqual(theirs(text), other)
                self.assertEqual(ours(text), own)

    def test_differences_of_printing(self):
        mapped = "::ffff:1.2.3.4"
        self.assertEqual(str(IPv6Network(mapped)), "::ffff:1.2.3.4/128")
        # Dotted from Python 3.13 on.
        self.assertIn(str(IPv6Address(mapped)), ("::ffff:102:304", mapped))

    def test_host_bits_are_kept(self):
        self.assertEqual(str(ip_network("10.1.9.32/16")), "10.1.9.32/16")
        with self.assertRaises(ValueError):
            ipaddress.ip_network("10.1.9.32/16")


class Questions(unittest.TestCase):
    def test_parts(self):
        net = IPv4Network("10.10.1.97/23")
        self.assertEqual(net.ip, IPv4Address("10.10.1.97"))
        self.assertEqual(net.prefixlen, 23)
        self.assertEqual(net.network_address, IPv4Address("10.10.0.0"))
        self.assertEqual(net.broadcast_address, IPv4Address("10.10.1.255"))
        self.assertEqual(net.netmask, IPv4Address("255.255.254.0"))
        self.assertEqual(net.num_addresses, 512)
        net = IPv6Network("2001:db8::/96")
        self.assertEqual(net.broadcast_address, IPv6Address("2001:db8::ffff:ffff"))
        self.assertEqual(net.num_addresses, 4294967296)
        self.assertEqual(IPv6Network("::/40").netmask, IPv6Address("ffff:ffff:ff00::"))

    def test_made(self):
        self.assertEqual(IPv4Network.of(IPv4Address("10.0.0.1"), 8), IPv4Network("10.0.0.1/8"))
        for prefixlen in (-1, 33, 255, 256):
            with self.assertRaises(PrefixError):
                IPv4Network.of(IPv4Address("10.0.0.1"), prefixlen)
        with self.assertRaises(TypeError):
            IPv4Network.of(IPv6Address("::"), 8)
        self.assertEqual(IPv4Network.prefix_of_mask(IPv4Address("255.192.0.0")), 10)
        with self.assertRaises(MaskError):
            IPv6Network.prefix_of_mask(IPv6Address("0:0:ffff:ffff::"))

    def test_zones_are_refused(self):
        # A zone is part of no network; the address without it is asked about.
        zoned = IPv6Address("fe80::1%eth0")
        self.assertIn(zoned, IPv6Network("fe80::/10"))
        self.assertIn(IPv6Address("fe80::1"), IPv6Network("fe80::/10"))
        for call in (lambda: IPv6Network.of(zoned, 64), lambda: IPv6Network.prefix_of_mask(zoned)):
            with self.assertRaises(AddressError):
                call()

    def test_subclasses(self):
        class Named(IPv4Network):
            pass

        class Own(IPv4Address):
            pass

        net = Named("10.0.0.0/8")
        self.assertEqual(net, IPv4Network("10.0.0.0/8"))
        self.assertEqual(hash(net), hash(IPv4Network("10.0.0.0/8")))
        self.assertTrue(IPv4Network("10.1.0.0/16").subnet_of(net) and net.supernet_of(IPv4Network("10.1.0.0/16")))
        self.assertIn(Own("10.1.2.3"), net)
        self.assertLess(net, IPv4Network("10.0.0.0/9"))
        self.assertIs(type(pickle.loads(pickle.dumps(IPv6Network("::/0")))), IPv6Network)
        self.assertIs(type(Named.of(Own("10.0.0.0"), 8)), Named)
        self.assertIs(type(Named.from_ipaddress(ipaddress.ip_network("10.0.0.0/8"))), Named)

        class Made(IPv4Network):
            def __init__(self, first, second):
                super().__init__(first)
                self.second = second

        self.assertEqual((str(Made("10.0.0.0/8", 2)), Made("10.0.0.0/8", 2).second), ("10.0.0.0/8", 2))

    def test_not_made(self):
        """A subclass that does not call __init__ has no members, rather than every address."""

        class Forgetful(IPv4Network):
            def __init__(self, text):
                self.note = text

        class Six(IPv6Network):
            def __init__(self, text):
                self.note = text

        for network, made in ((Forgetful("10.0.0.0/8"), IPv4Network("10.0.0.0/8")), (Six("::1"), IPv6Network("::1"))):
            questions = [
                lambda: made.ip in network,
                lambda: network.contains_column(made.ip.packed),
                lambda: network.subnet_of(made),
                lambda: network.supernet_of(made),
                lambda: made.overlaps(network),
                lambda: network == made,
                lambda: made < network,
                lambda: hash(network),
                lambda: str(network),
                lambda: list(network)[:1],
                lambda: network[0],
                lambda: list(network.subnets(new_prefix=network.max_prefixlen)),
                lambda: AddressSet([network]),
                lambda: network in AddressSet([made]),
                lambda: Table([network]),
                lambda: ipnetwork.PrefixTable({made: 1}).longest_match(network),
                *(lambda name=name: getattr(network, name) for name in (
                    "ip", "network_address", "broadcast_address", "netmask", "prefixlen", "num_addresses")),
            ]
            for number, ask in enumerate(questions):
                with self.subTest(network=type(network).__name__, number=number):
                    self.assertRaises(AttributeError, ask)

    def test_membership(self):
        net = IPv4Network("74.125.227.0/25")
        self.assertIn(IPv4Address("74.125.227.4"), net)
        self.assertNotIn(IPv4Address("74.125.228.4"), net)
        self.assertNotIn(IPv6Address("::ffff:74.125.227.4"), net)
        # A network of one address is that address, any other is no member, and an interface is its
        # address.
        self.assertNotIn(net, net)
        self.assertNotIn(ipaddress.ip_network("74.125.227.4/31"), net)
        for given in (ip_network("74.125.227.4"), ipaddress.ip_network("74.125.227.4/32")):
            self.assertIn(given, net)
            self.assertNotIn(given, IPv4Network("74.125.228.0/25"))
            self.assertNotIn(given, IPv6Network("::/0"))
        self.assertIn(ip_network("2001:db8::1"), IPv6Network("2001:db8::/32"))
        self.assertIn(ipaddress.ip_network("2001:db8::1%eth0/128"), IPv6Network("2001:db8::/32"))
        self.assertIn(ipaddress.ip_interface("74.125.227.4/8"), net)
        for given in ("74.125.227.4", 1, None, b"\x4a\x7d\xe3\x04"):
            with self.assertRaises(TypeError):
                given in net

    def test_columns(self):
        for kind, address, net in (
            (IPv4Network, IPv4Address, "10.1.9.32/30"),
            (IPv6Network, IPv6Address, "2001:db8::1:2/126"),
        ):
            network = kind(net)
            given = [address(int(network.network_address) + offset) for offset in range(-3, 8)]
            column = b"".join(each.packed for each in given)
            wanted = [int(each in network) for each in given]
            self.assertEqual(sum(wanted), 4)
            for buffer in (column, bytearray(column), memoryview(column), memoryview(bytearray(column))):
                self.assertEqual(list(network.contains_column(buffer)), wanted)
            self.assertEqual(network.contains_column(b""), b"")
            with self.assertRaises(ValueError):
                network.contains_column(column[1:])
            with self.assertRaises(TypeError):
                network.contains_column("10.1.9.32")

    def test_columns_that_are_refused(self):
        # The bytes of numbers of several bytes are in the order of the machine; those of a str are not its text.
        four, which = IPv4Network("10.0.0.0/8"), AddressSet([IPv4Network("10.0.0.0/8")])
        table, offsets = Table(which), array.array("I", [0, 4])
        words = [array.array(kind, [1] * 17) for kind in "HIQd"] + [memoryview(array.array("I", [1] * 17))]
        for column in [*words, "10.1.2.3", [10, 1, 2, 3], None, 7]:
            for call in (
                four.contains_column,
                which.contains_column,
                table.find_column,
                IPv4Network.print_column,
                ipnetwork.print_address_column,
                lambda texts: ipnetwork.read_address_column(texts, offsets),
                lambda texts: IPv6Network.read_column(texts, offsets),
            ):
                with self.assertRaises(TypeError):
                    call(column)
        # An address is 4 or 16 bytes long, and a row without one 0.
        good = bytes([10, 1, 2, 3, *bytes(12), 4])
        self.assertEqual(list(which.contains_column(good + bytes(17))), [1, 0])
        for length in (1, 3, 5, 15, 17, 32, 255):
            for call, row in itertools.product((which.contains_column, table.find_column), (1, 300)):
                with self.assertRaisesRegex(ValueError, f"row {row} .* {length}$"):
                    call(good * row + bytes(16) + bytes([length]) + good)

    def test_attributes_are_read_only(self):
        of_networks = "ip prefixlen network_address broadcast_address netmask hostmask num_addresses version"
        of_networks += " max_prefixlen reverse_pointer _row other"
        some = AddressSet([ip_network("10.0.0.0/8")])
        for given, names in (
            (IPv4Network("10.1.9.32/16"), of_networks),
            (IPv6Network("2001:db8::1/32"), of_networks),
            (some, "mapped num_addresses other"),
            (Table(some), "mapped other"),
            (ipnetwork.PrefixTable({}), "mapped other"),
            (ipnetwork.AddressSetBuilder(), "other"),
        ):
            for name in names.split():
                before = getattr(given, name, None)
                for call in (lambda: setattr(given, name, 33), lambda: delattr(given, name)):
                    with self.assertRaises(AttributeError, msg=(given, name)):
                        call()
                self.assertEqual(getattr(given, name, None), before)

        class Named(IPv4Network):
            pass

        named = Named("10.0.0.0/8")
        named.name = "tens"
        for name in ("ip", "prefixlen", "netmask", "hostmask", "_row"):
            with self.assertRaises(AttributeError, msg=name):
                setattr(named, name, 33)
        del named.name
        self.assertEqual((named.prefixlen, vars(named).get("name")), (8, None))

    def test_a_network_does_not_change(self):
        for network, other in ((IPv4Network("10.1.9.32/16"), "::"), (IPv6Network("2001:db8::1/32"), b"")):
            before = str(network), network.network_address, hash(network)
            for text in (other, str(network)):
                with self.assertRaises(TypeError):
                    network.__init__(text)
            self.assertEqual((str(network), network.network_address, hash(network)), before)

    def test_columns_of_texts(self):
        texts = [text for text, _, _ in TEXTS] * 3 + ["2001:db8::1", "192.0.2.9"]
        encoded = [text.encode("utf-8", "surrogatepass") for text in texts]
        offsets = array.array("I", [0])
        for text in encoded:
            offsets.append(offsets[-1] + len(text))
        column = b"".join(encoded)
        faults_of = {FormatError: 1, AddressError: 2, PrefixError: 3}
        for kind, step in ((IPv4Network, 5), (IPv6Network, 17)):
            networks, faults = kind.read_column(column, offsets)
            self.assertEqual((len(networks), len(faults)), (step * len(texts), len(texts)))
            for row, text in enumerate(texts):
                held = bytes(networks[row * step : (row + 1) * step])
                try:
                    network = kind(text)
                except ipnetwork.NetworkError as error:
                    self.assertEqual((faults[row], held), (faults_of[type(error)], bytes(step)), text)
                else:
                    self.assertEqual((faults[row], held), (0, network.ip.packed + bytes([network.prefixlen])), text)
        addresses, faults = ipnetwork.read_address_column(bytearray(column), memoryview(offsets))
        for row, text in enumerate(texts):
            held = bytes(addresses[row * 17 : (row + 1) * 17])
            try:
                packed = ipaddress.ip_address(text).packed
                self.assertEqual((faults[row], held), (0, packed.ljust(16, b"\0") + bytes([len(packed)])), text)
            except ValueError:
                self.assertEqual((faults[row], held), (2, bytes(17)), text)
        self.assertEqual(IPv4Network.read_column(b"", array.array("I")), (b"", b""))
        self.assertEqual(IPv4Network.read_column(b"", array.array("i", [0])), (b"", b""))
        for kind in "IiQq":
            for wrong in ([0, 3], [2, 1], [3], [0, 2, 1, 2]):
                with self.assertRaisesRegex(ValueError, "fall, or pass"):
                    ipnetwork.read_address_column(b"::", array.array(kind, wrong))
        for kind in "bBhH":
            with self.assertRaisesRegex(ValueError, "32 or of 64 bits, not of (8|16)"):
                ipnetwork.read_address_column(b"::", array.array(kind, [0, 1]))

    def test_sets_of_addresses(self):
        texts = ["10.0.0.7/8", "2001:db8::/33", "192.0.2.0/25", "2001:db8:8000::/33"]
        allowed = AddressSet(map(ip_network, texts))
        self.assertEqual(list(map(str, allowed)), ["10.0.0.0/8", "192.0.2.0/25", "2001:db8::/32"])
        rows = [
            ("10.255.0.0", True),
            ("192.0.2.127", True),
            ("192.0.2.128", False),
            ("2001:db8:8000::1", True),
            ("2001:db9::", False),
            ("2001:db8::1%eth0", False),
        ]
        for text, wanted in rows[:-1]:
            self.assertEqual(ipaddress.ip_address(text) in allowed, wanted, text)
        offsets = array.array("I", itertools.accumulate((len(text) for text, _ in rows), initial=0))
        addresses, _ = ipnetwork.read_address_column("".join(text for text, _ in rows).encode(), offsets)
        for column in (addresses, bytes(addresses), memoryview(addresses)):
            self.assertEqual(list(allowed.contains_column(column)), [int(wanted) for _, wanted in rows])
        self.assertEqual(allowed.contains_column(b""), b"")
        with self.assertRaises(ValueError):
            allowed.contains_column(bytes(16))
        self.assertEqual(allowed.num_addresses, 2**24 + 128 + 2**96)
        parts = [AddressSet([ip_network(text)]) for text in texts]
        self.assertEqual(parts[0] | parts[1] | parts[2] | parts[3], allowed)
        self.assertEqual(hash(parts[3] | parts[2] | parts[1] | parts[0]), hash(allowed))
        self.assertNotEqual(parts[0], allowed)
        for again in (pickle.loads(pickle.dumps(allowed)), copy.deepcopy(allowed), eval(repr(allowed), vars(ipnetwork))):
            self.assertEqual(again, allowed)
        self.assertNotIn(IPv4Address("0.0.0.0"), AddressSet())
        self.assertFalse(AddressSet())
        self.assertTrue(allowed)
        with self.assertRaises(TypeError):
            "10.0.0.1" in allowed

    def test_operations_on_sets(self):
        rng = random.Random(30)
        for kind, address, width, base in (
            (IPv4Network, IPv4Address, 32, int(IPv4Address("192.0.2.0"))),
            (IPv6Network, IPv6Address, 128, int(IPv6Address("2001:db8::"))),
        ):
            for count in range(300):
                networks = [
                    [kind.of(address(base + rng.randrange(256)), width - rng.randrange(9)) for _ in range(count % size)]
                    for size in (12, 7)
                ]
                one, other = map(AddressSet, networks)
                has, others = ({each for network in side for each in network} for side in networks)
                for made, wanted in ((one | other, has | others), (one & other, has & others), (one - other, has - others)):
                    self.assertEqual({each for network in made for each in network}, wanted)
                    self.assertEqual(made.num_addresses, len(wanted))
                    self.assertEqual(list(made), list(ipnetwork.collapse_addresses(made)))
                    self.assertTrue(all((address(base + host) in made) == (address(base + host) in wanted) for host in range(256)))
        both, all_fours = AddressSet(map(ip_network, ("0.0.0.0/0", "::/0"))), AddressSet([ip_network("0.0.0.0/0")])
        self.assertEqual(both - all_fours, AddressSet([ip_network("::/0")]))
        self.assertEqual(both & all_fours, all_fours)
        ends = AddressSet(map(ip_network, ("0.0.0.0", "255.255.255.255", "::", "ffff:ffff:ffff:ffff:ffff:ffff:ffff:ffff")))
        self.assertEqual(len(list(both - ends)), 62 + 254)
        self.assertEqual((both - ends) | ends, both)
        self.assertEqual(AddressSet() | AddressSet() & both - both, AddressSet())

    def test_tables(self):
        rng = random.Random(31)
        for count in range(60):
            hosts = [rng.randrange(256) for _ in range(count)]
            networks = [
                IPv4Network.of(IPv4Address(f"192.0.2.{host}"), 32 - rng.randrange(9))
                if rng.randrange(2)
                else IPv6Network.of(IPv6Address(f"2001:db8::{host:x}"), 128 - rng.randrange(9))
                for host in hosts
            ]
            table = Table(networks)
            self.assertEqual(len(table), count)
            asked = [text for host in range(256) for text in (f"192.0.2.{host}", f"2001:db8::{host:x}", f"x{host}")]
            offsets = array.array("I", itertools.accumulate(map(len, asked), initial=0))
            addresses, _ = ipnetwork.read_address_column("".join(asked).encode(), offsets)
            numbers = memoryview(table.find_column(addresses)).cast("q").tolist()
            for text, number in zip(asked, numbers):
                if text.startswith("x"):
                    self.assertEqual(number, -1)
                    continue
                address = ipaddress.ip_address(text)
                having = [place for place, network in enumerate(networks) if address in network]
                wanted = max(having, key=lambda place: (networks[place].prefixlen, place), default=None)
                self.assertEqual(table.find(address), wanted)
                self.assertEqual(number, -1 if wanted is None else wanted)
        again = pickle.loads(pickle.dumps(table))
        self.assertEqual((len(again), again.find_column(addresses)), (len(table), table.find_column(addresses)))
        self.assertIsNone(Table([]).find(IPv4Address("10.0.0.1")))
        with self.assertRaises(TypeError):
            Table([ip_network("::/0")]).find(ip_network("::/0"))
        self.assertEqual(Table([]).find_column(b""), b"")
        with self.assertRaises(ValueError):
            table.find_column(bytes(16))
        with self.assertRaises(TypeError):
            table.find("10.0.0.1")
        with self.assertRaises(TypeError):
            Table(["10.0.0.0/8"])

    def test_subnets(self):
        for text, longer in (("10.1.9.32/16", 1), ("2001:db8::7/126", 2), ("0.0.0.0/0", 8), ("::/0", 3), ("::1/128", 0)):
            network = ip_network(text)
            theirs = ipaddress.ip_network(text, strict=False)
            prefix = network.prefixlen + longer
            wanted = list(map(str, theirs.subnets(longer)))
            self.assertEqual(list(map(str, network.subnets(longer))), wanted)
            self.assertEqual(list(map(str, network.subnets(new_prefix=prefix))), wanted)
            self.assertIs(type(next(iter(network.subnets(longer)))), type(network))
        self.assertEqual(str(next(ip_network("::/0").subnets(new_prefix=128))), "::/128")
        net = IPv4Network("10.0.0.0/8")
        for given in ({"new_prefix": 7}, {"new_prefix": 33}, {"prefixlen_diff": 25}, {"prefixlen_diff": -1}, {"prefixlen_diff": 2, "new_prefix": 10}):
            with self.assertRaises(ValueError):
                net.subnets(**given)
        with self.assertRaises(TypeError):
            net.subnets(1.0)

    def test_conveniences_of_ipaddress(self):
        rng = random.Random(95)
        for kind, theirs_kind, lengths in (
            (IPv4Network, ipaddress.IPv4Network, (0, 1, 8, 24, 29, 30, 31, 32)),
            (IPv6Network, ipaddress.IPv6Network, (0, 1, 64, 120, 125, 126, 127, 128)),
        ):
            for length in lengths * 3:
                number = rng.getrandbits(kind.max_prefixlen)
                theirs = theirs_kind((number, length), strict=False)
                for network in (kind.from_ipaddress(theirs), kind.of(kind._address(number), length)):
                    self.compare(network, theirs, rng)
        net = IPv4Network("10.0.0.0/8")
        for other in (IPv6Network("::/0"), ipaddress.ip_network("10.0.0.0/9"), IPv4Address("10.0.0.1"), "10.0.0.0/9"):
            with self.assertRaises(TypeError):
                net.address_exclude(other)
        for call in (lambda: net.supernet(1.0), lambda: net.supernet(new_prefix="7")):
            with self.assertRaises(TypeError):
                call()

    def compare(self, network, theirs, rng):
        """The same of a network here and in ``ipaddress``."""
        self.assertEqual((network.hostmask, network.reverse_pointer), (theirs.hostmask, theirs.reverse_pointer))
        shown = itertools.islice(theirs.hosts(), 300)
        self.assertEqual(list(itertools.islice(network.hosts(), 300)), list(shown))
        length, greatest = theirs.prefixlen, theirs.max_prefixlen
        pairs = [(difference, None) for difference in (-1, 0, 1, 2, length, length + 1)]
        pairs += [(1, prefix) for prefix in (-1, 0, length - 1, length, length + 1)] + [(2, length - 2)]
        for pair in pairs:
            try:
                wanted = str(theirs.supernet(*pair))
            except ValueError:
                with self.assertRaises(ValueError):
                    network.supernet(*pair)
            else:
                made = network.supernet(*pair)
                self.assertEqual((str(made), type(made)), (wanted, type(network)))
        for prefix in {length, min(length + 1, greatest), (length + greatest) // 2, greatest}:
            number = int(theirs.network_address) + rng.randrange(theirs.num_addresses)
            other = type(theirs)((number, prefix), strict=False)
            wanted = list(map(str, theirs.address_exclude(other)))
            self.assertEqual(list(map(str, network.address_exclude(network.from_ipaddress(other)))), wanted)
        if length:
            with self.assertRaises(ValueError):
                network.address_exclude(network.supernet())

    def test_columns_printed(self):
        rng = random.Random(31)
        for kind, width in ((IPv4Network, 4), (IPv6Network, 16)):
            rows = [bytes(rng.choice((0, rng.randrange(256))) for _ in range(width)) + bytes([rng.randrange(8 * width + 1)]) for _ in range(300)]
            column = b"".join(rows)
            for given in (column, bytearray(column), memoryview(column)):
                texts, offsets = kind.print_column(given)
            starts = memoryview(offsets).cast("I").tolist()
            each = [texts[begin:end].decode() for begin, end in zip(starts, starts[1:])]
            self.assertEqual(each, [str(kind.of(kind._address(row[:-1]), row[-1])) for row in rows])
            self.assertEqual(kind.read_column(texts, memoryview(offsets).cast("I")), (column, bytes(300)))
            self.assertEqual(kind.print_column(b""), (b"", bytes(4)))
            with self.assertRaises(PrefixError):
                kind.print_column(column + bytes(width) + bytes([8 * width + 1]))
            with self.assertRaises(ValueError):
                kind.print_column(column[1:])

    def test_columns_of_addresses_printed(self):
        rng = random.Random(32)
        each = [rng.choice((IPv4Address(rng.getrandbits(32)), IPv6Address(rng.getrandbits(128)), IPv6Address(rng.getrandbits(16)))) for _ in range(300)]
        column = b"".join(address.packed.ljust(16, b"\0") + bytes([len(address.packed)]) for address in each)
        texts, offsets = ipnetwork.print_address_column(column)
        starts = memoryview(offsets).cast("I").tolist()
        self.assertEqual([texts[begin:end].decode() for begin, end in zip(starts, starts[1:])], list(map(str, each)))
        self.assertEqual(ipnetwork.read_address_column(texts, memoryview(offsets).cast("I")), (column, bytes(300)))
        self.assertEqual(ipnetwork.print_address_column(b""), (b"", bytes(4)))
        with self.assertRaises(AddressError):
            ipnetwork.print_address_column(column + bytes(17))
        with self.assertRaises(ValueError):
            ipnetwork.print_address_column(column[1:])

    def test_collapse(self):
        rng = random.Random(20)
        for kind, theirs, address, width, base in (
            (IPv4Network, ipaddress.IPv4Network, IPv4Address, 32, int(IPv4Address("192.0.2.0"))),
            (IPv6Network, ipaddress.IPv6Network, IPv6Address, 128, int(IPv6Address("2001:db8::"))),
        ):
            for count in range(200):
                pairs = [(address(base + rng.randrange(256)), width - rng.randrange(9)) for _ in range(count % 12)]
                wanted = ipaddress.collapse_addresses([theirs(pair, strict=False) for pair in pairs])
                given = ipnetwork.collapse_addresses(kind.of(*pair) for pair in pairs)
                self.assertEqual(list(map(str, given)), list(map(str, wanted)))
            self.assertEqual(list(ipnetwork.collapse_addresses(iter([kind("::/0" if width == 128 else "0.0.0.0/0")])))[0].prefixlen, 0)
        with self.assertRaises(TypeError):
            ipnetwork.collapse_addresses([IPv4Network("0.0.0.0/0"), IPv6Network("::/0")])
        with self.assertRaises(TypeError):
            ipnetwork.collapse_addresses([ipaddress.ip_network("10.0.0.0/8")])

    def test_sets(self):
        inner, outer = IPv6Network("2000:aaa::/56"), IPv6Network("2000:aaa::/48")
        self.assertTrue(inner.subnet_of(outer) and outer.supernet_of(inner) and inner.overlaps(outer))
        self.assertFalse(outer.subnet_of(inner) or inner.supernet_of(outer))
        for other in (IPv4Network("0.0.0.0/0"), ipaddress.ip_network("::/0"), "::/0"):
            with self.assertRaises(TypeError):
                inner.subnet_of(other)
            with self.assertRaises(TypeError):
                inner.supernet_of(other)
        # As in ipaddress.
        self.assertFalse(inner.overlaps(IPv4Network("0.0.0.0/0")))
        with self.assertRaises(TypeError):
            inner.overlaps("::/0")

    def test_of_ipaddress(self):
        for text in ("10.1.9.32/16", "2001:db8::1/64", "::/0"):
            network = ip_network(text)
            interface = ipaddress.ip_interface(text)
            self.assertEqual(network.to_ipaddress(), interface)
            self.assertEqual(type(network).from_ipaddress(interface), network)
            masked = type(network).from_ipaddress(interface.network)
            self.assertEqual((masked.ip, masked.prefixlen), (network.network_address, network.prefixlen))
            self.assertNotEqual(network, interface.network)
            for given in (interface, interface.network):
                made = ipnetwork.from_ipaddress(given)
                self.assertEqual((made, type(made)), (type(network).from_ipaddress(given), type(network)))
            for wrong in (text, network, ipaddress.ip_network("10.0.0.0/8" if network.version == 6 else "::/0")):
                with self.assertRaises(TypeError):
                    type(network).from_ipaddress(wrong)
        zoned = ipaddress.ip_interface("fe80::1%eth0/64")
        for given in (zoned, zoned.network):
            if getattr(given, "scope_id", None) or given.network_address.scope_id:
                for call in (IPv6Network.from_ipaddress, ipnetwork.from_ipaddress):
                    with self.assertRaises(AddressError):
                        call(given)
        for wrong in ("::/0", IPv4Address("10.0.0.1"), IPv6Network("::/0"), 7, None):
            with self.assertRaises(TypeError):
                ipnetwork.from_ipaddress(wrong)

    def test_index(self):
        class Seven:
            def __index__(self):
                return 7

        net = IPv4Network("10.0.0.0/24")
        self.assertEqual(net[Seven()], IPv4Address("10.0.0.7"))
        self.assertEqual(IPv4Network.of(IPv4Address("10.0.0.0"), Seven()).prefixlen, 7)
        for index in (1.0, "1", None):
            with self.assertRaises(TypeError):
                net[index]
            with self.assertRaises(TypeError):
                IPv4Network.of(IPv4Address("10.0.0.0"), index)
        for index in (2**200, -(2**200), 2**32, 2**64):
            with self.assertRaises(IndexError):
                net[index]
        for prefixlen in (2**200, -(2**200)):
            with self.assertRaises(PrefixError):
                IPv4Network.of(IPv4Address("10.0.0.0"), prefixlen)

    def test_members(self):
        members = [str(address) for address in IPv4Network("192.168.122.1/30")]
        self.assertEqual(members, ["192.168.122.0", "192.168.122.1", "192.168.122.2", "192.168.122.3"])
        self.assertEqual(IPv4Network("127.0.0.0/24")[255], IPv4Address("127.0.0.255"))
        self.assertEqual(IPv4Network("0.0.0.0/0")[-1], IPv4Address("255.255.255.255"))
        self.assertEqual(IPv6Network("::/0")[2**128 - 1], IPv6Address(2**128 - 1))
        for index in (256, -257):
            with self.assertRaises(IndexError):
                IPv4Network("127.0.0.0/24")[index]

    def test_values(self):
        texts = ["10.0.0.1/8", "10.0.0.0/30", "10.0.0.0/8", "9.0.0.0/32"]
        nets = sorted(map(IPv4Network, texts))
        self.assertEqual(list(map(str, nets)), ["9.0.0.0/32", "10.0.0.0/8", "10.0.0.0/30", "10.0.0.1/8"])
        self.assertEqual(len(set(nets + nets)), 4)
        self.assertLessEqual(nets[0], nets[0])
        self.assertNotEqual(IPv4Network("0.0.0.0/0"), IPv6Network("::/0"))
        self.assertEqual(pickle.loads(pickle.dumps(nets[1])), nets[1])
        self.assertEqual(copy.copy(nets[1]), nets[1])
        self.assertEqual(f"{nets[1]:>12}|{nets[1]}", "  10.0.0.0/8|10.0.0.0/8")
        self.assertEqual(copy.deepcopy(nets)[1], nets[1])
        with self.assertRaises(AttributeError):
            nets[1].hostmask_of_none
        self.assertEqual(eval(repr(nets[1])), nets[1])
        with self.assertRaises(TypeError):
            IPv4Network("0.0.0.0/0") < IPv6Network("::/0")


if __name__ == "__main__":
    unittest.main()
