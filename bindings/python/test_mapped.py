"""IPv4-mapped addresses: as they are, and with ``mapped`` in either form, compared with ``ipv4_mapped``
and the numbers of ``ipaddress``."""

import array
import collections
import copy
import ipaddress
import itertools
import pickle
import random
import unittest
from ipaddress import IPv4Address, IPv6Address

import ipnetwork
from ipnetwork import AddressSet, AddressSetBuilder, PrefixTable, Table, ip_network, unmapped

DENIED = [ip_network("10.0.0.0/8"), ip_network("10.1.0.0/16"), ip_network("2001:db8::/32")]
#: What a socket of both families reports of an IPv4 peer, and what is next to such addresses.
TEXTS = [
    "::ffff:10.1.2.3",
    "::ffff:10.2.0.0",
    "::ffff:11.0.0.0",
    "::ffff:0.0.0.0",
    "::ffff:255.255.255.255",
    "::fffe:ffff:ffff",
    "::1:0:0:0",
    "::10.1.2.3",
    "64:ff9b::10.1.2.3",
    "2001:db8::1",
    "10.1.2.3",
    "8.8.8.8",
]
MAPPED = 0xFFFF << 32
ADDRESSES = [ipaddress.ip_address(text) for text in TEXTS]


def standing_for(address):
    """The IPv4 address by ``ipaddress``."""
    return getattr(address, "ipv4_mapped", None) or address


def column():
    offsets = array.array("I", itertools.accumulate(map(len, TEXTS), initial=0))
    return "".join(TEXTS).encode(), offsets


def ends(network):
    """The numbers of the first and the last address, for IPv4 those of the IPv4-mapped ones."""
    low, high = int(network.network_address), int(network.broadcast_address)
    return (low, high) if network.version == 6 else (MAPPED + low, MAPPED + high)


def covered(asked, networks):
    """Whether each address of a network lies in one of these, by the numbers of the first and the
    last addresses."""
    low, high = ends(asked)
    for first, last in sorted(map(ends, networks)):
        if first <= low:
            low = max(low, last + 1)
    return low > high


def has(network, asked):
    return network.version == asked.version and covered(asked, [network])


def member(asked, networks, mapped):
    """Whether a network of ``ipaddress`` is in the set of these: each address as it is or, with
    ``mapped``, in one of its forms."""
    mapped = mapped and asked.version == 6
    return covered(asked, [each for each in networks if mapped or each.version == asked.version])


def longest(asked, networks, mapped):
    """The place of the longest of these with all of a network, the last of equal ones, or -1: of
    the IPv4 network and, if there is none, of the IPv6 network."""
    forms = [asked]
    address = standing_for(asked.network_address)
    if mapped and asked.prefixlen >= 96 and address.version < asked.version:
        forms.insert(0, ipaddress.ip_network((address, asked.prefixlen - 96)))
    for form in forms:
        places = [place for place, each in enumerate(networks) if has(each, form)]
        if places:
            return max(places, key=lambda place: (networks[place].prefixlen, place))
    return -1


def drawn(rng):
    """A network of ``ipaddress``: of IPv4, IPv4-mapped, with all of these, or next to them."""
    number = 0x0A000000 | rng.choice((0, 0, 0x800000)) | rng.getrandbits(5)
    prefix = 32 - rng.choice((0, 0, 1, 2, 3, 4, 5, 23, 24, 32))
    kind = rng.randrange(6)
    if kind < 2:
        return ipaddress.ip_network((number, prefix), strict=False)
    if kind < 4:
        return ipaddress.IPv6Network((MAPPED + number, 96 + prefix), strict=False)
    number = (MAPPED + number) ^ rng.choice((0, 0, 1 << 32, 1 << 48, 1 << 127))
    return ipaddress.IPv6Network((number, rng.choice((0, 1, 79, 80, 81, 94, 95, 96, 97, 128))), strict=False)


def in_parts(rng):
    """A network with IPv4-mapped addresses, and parts of it, each in one form; one part may lack."""
    whole = ipaddress.IPv6Network((MAPPED + 0x0A000000, rng.choice((0, 80, 95, 96, 97, 104, 120))), strict=False)
    first = ipaddress.IPv6Network((MAPPED + 0x0A000000, max(whole.prefixlen, 96)), strict=False)
    outside, parts = list(whole.address_exclude(first)), [first]
    for _ in range(rng.randrange(24)):
        parts += parts.pop(rng.randrange(len(parts))).subnets()
    forms = [(each.network_address.ipv4_mapped, each.prefixlen - 96) for each in parts]
    parts = [rng.choice((each, ipaddress.ip_network(form))) for each, form in zip(parts, forms)] + outside
    rng.shuffle(parts)
    return whole, parts[rng.randrange(2) :]


class EitherForm(unittest.TestCase):
    """Random sets and tables compared with the sentence about ``mapped``, over networks of ``ipaddress``."""

    def test_sets(self):
        rng = random.Random(931)
        seen = collections.Counter()
        for turn in range(2000):
            networks = [drawn(rng) for _ in range(rng.randrange(14))]
            asked = [drawn(rng) for _ in range(8)] + networks[:3]
            if turn % 2:
                whole, networks = in_parts(rng)
                asked.append(whole)
                seen["together"] += member(whole, networks, True) and not member(whole, networks, False)
            held = list(map(ipnetwork.from_ipaddress, networks))
            plain, either = AddressSet(held), AddressSet(held, mapped=True)
            for network in asked:
                for which, mapped in ((plain, False), (either, True)):
                    wanted = member(network, networks, mapped)
                    own = ipnetwork.from_ipaddress(network)
                    got = network in which, own in which, which.covers(network), which.covers(own)
                    self.assertEqual(got, (wanted,) * 4, (network, which))
                    seen[mapped, wanted] += 1
                # The switch only adds members.
                self.assertLessEqual(network in plain, network in either)
            rows = [rng.choice((each.network_address, each.broadcast_address)) for each in asked]
            for which, mapped in ((plain, False), (either, True)):
                wanted = [member(ipaddress.ip_network(row), networks, mapped) for row in rows]
                self.assertEqual([row in which for row in rows], wanted)
                self.assertEqual(list(which.contains_column(rows)), wanted)
        self.assertGreater(min(seen.values()), 300)

    def test_tables(self):
        rng = random.Random(932)
        for turn in range(400):
            networks = in_parts(rng)[1] if turn % 2 else [drawn(rng) for _ in range(rng.randrange(14))]
            own = list(map(ipnetwork.from_ipaddress, networks))
            asked = [drawn(rng) for _ in range(6)] + networks[:3]
            rows = [rng.choice((each.network_address, each.broadcast_address)) for each in asked]
            for mapped in (False, True):
                table = Table(own, range(len(own)), mapped=mapped)
                routes = PrefixTable(zip(own, itertools.count()), mapped=mapped)
                wanted = [longest(ipaddress.ip_network(row), networks, mapped) for row in rows]
                for _ in range(2):  # a PrefixTable that is asked often makes an index
                    self.assertEqual([-1 if each is None else each for each in map(table.find, rows)], wanted)
                    self.assertEqual([routes.get(row, -1) for row in rows], wanted)
                    self.assertEqual([row in routes for row in rows], [number >= 0 for number in wanted])
                    found = [routes.longest(row) for row in rows]
                    self.assertEqual([-1 if each is None else each[1] for each in found], wanted)
                    self.assertEqual(memoryview(table.find_column(rows)).cast("q").tolist(), wanted)
                    self.assertEqual((table.join(rows, -1), routes.join(rows, -1)), (wanted, wanted))
                for network in asked:
                    number = longest(network, networks, mapped)
                    for each in (network, ipnetwork.from_ipaddress(network)):
                        found = routes.longest(each)
                        self.assertEqual(-1 if found is None else found[1], number, (network, routes))

    def test_operations(self):
        rng = random.Random(933)
        for turn in range(300):
            lists = [in_parts(rng)[1] if (turn + side) % 3 else [drawn(rng) for _ in range(4)] for side in (0, 1)]
            flags = rng.choice(((True, True), (True, False), (False, True)))
            one, other = (AddressSet(each, mapped=flag) for each, flag in zip(lists, flags))
            all_of = [AddressSet(each, mapped=True) for each in lists]
            made = one | other, one & other, one - other, one ^ other, ~all_of[0]
            self.assertEqual([each.mapped for each in made], [True] * 5)
            for network in [*lists[0][:5], *lists[1][:5], drawn(rng)]:
                address = network.network_address
                has, others = (member(ipaddress.ip_network(address), each, True) for each in lists)
                wanted = has or others, has and others, has and not others, has != others, not has
                four = standing_for(address)
                # Of a difference it is a member too if its IPv4 address is.
                has, others = (member(ipaddress.ip_network(four), each, True) for each in lists)
                of_four = False, False, has and not others, has != others, not has
                answers = [answer or four != address and it for answer, it in zip(wanted, of_four)]
                self.assertEqual([address in each for each in made], answers, (address, one, other))
            within = all(member(each, lists[1], True) for each in lists[0])
            self.assertEqual((one <= other, one.issubset(other), other >= one), (within,) * 3)
            self.assertIs(one < other, within and not other <= one)
            self.assertIs(one.isdisjoint(other), not one & other)
            self.assertIs(one <= other, not one - other)
            self.assertEqual((one | one, one & one, one - one), (one, one, AddressSet()))
            builder = AddressSetBuilder(one, mapped=True)
            builder.update(other)
            builder.difference_update(lists[0][:3])
            self.assertEqual(builder.build(), (one | other) - lists[0][:3])

    def test_the_option_is_kept(self):
        peer, denied = IPv6Address("::ffff:10.0.0.1"), AddressSet(["10.0.0.0/8"], mapped=True)
        everything = ["0.0.0.0/0", "::/0"]
        for start in ([], ["10.0.0.0/9"]):
            builder = AddressSetBuilder(everything)
            builder.difference_update(start)
            builder.difference_update(denied)
            built = builder.build()
            self.assertFalse(peer in built)
            self.assertEqual(built, AddressSet(everything) - denied)
        builder = AddressSetBuilder()
        builder.update(denied)
        table = PrefixTable({ip_network("10.0.0.0/8"): "deny"}, mapped=True)
        for each in (builder.build(), AddressSet(table), AddressSet() | table, AddressSetBuilder(table).build()):
            self.assertTrue(peer in each)
        self.assertFalse(peer in AddressSet(everything) - table)

    def test_first_free(self):
        either = AddressSet(["10.0.0.0/9", "::ffff:10.128.0.0/106"], mapped=True)
        within = ip_network("::ffff:10.0.0.0/104")
        self.assertEqual(either.first_free(106, within), ip_network("::ffff:10.192.0.0/106"))
        self.assertIsNone(either.first_free(105, within))
        self.assertEqual(AddressSet(list(either)).first_free(106, within), ip_network("::ffff:10.0.0.0/106"))


class Mapped(unittest.TestCase):
    def test_texts(self):
        sentence = (
            "With ``mapped``, what is said of either form counts: an IPv4-mapped IPv6 address is a member if the IPv4 "
            "address, or the IPv6 address itself, is one; its longest network is that of the IPv4 address, and if "
            "there is none that of the IPv6 address; and so for a network within ::ffff:0:0/96."
        )
        for of in (ipnetwork, AddressSet, AddressSetBuilder, Table, PrefixTable):
            self.assertIn(sentence, " ".join(of.__doc__.split()), of)

    def test_one_address(self):
        rng = random.Random(75)
        drawn = [IPv6Address(0xFFFF << 32 | rng.getrandbits(32)) for _ in range(50)]
        near = [IPv6Address((0xFFFF << 32 | rng.getrandbits(32)) ^ 1 << rng.randrange(32, 128)) for _ in range(50)]
        for address in [*ADDRESSES, *drawn, *near]:
            self.assertEqual(unmapped(address), standing_for(address))
        self.assertEqual(unmapped(ADDRESSES[0]), IPv4Address("10.1.2.3"))
        self.assertIs(type(unmapped(ADDRESSES[0])), IPv4Address)
        self.assertIs(unmapped(ADDRESSES[-1]), ADDRESSES[-1])
        zoned = IPv6Address("::ffff:10.1.2.3%eth0")
        self.assertEqual(unmapped(zoned), zoned.ipv4_mapped)
        zoned = IPv6Address("fe80::1%eth0")
        self.assertIs(unmapped(zoned), zoned)
        for wrong in ("::ffff:10.1.2.3", 7, None, DENIED[0], b"\n\1\2\3"):
            with self.assertRaises(TypeError):
                unmapped(wrong)

    def test_sets(self):
        plain, denied = AddressSet(DENIED), AddressSet(DENIED, mapped=True)
        self.assertEqual((plain.mapped, denied.mapped), (False, True))
        self.assertNotIn(ADDRESSES[0], plain)
        self.assertIn(ADDRESSES[0], denied)
        rows, _ = ipnetwork.read_address_column(*column())
        self.assertEqual(plain.contains_column(rows), bytes(each in plain for each in ADDRESSES))
        wanted = [standing_for(each) in plain for each in ADDRESSES]
        self.assertEqual(wanted.count(True), 4)
        self.assertEqual([each in denied for each in ADDRESSES], wanted)
        for given in (rows, TEXTS, ADDRESSES):
            self.assertEqual(list(denied.contains_column(given)), wanted)
        self.assertIn(IPv6Address("::ffff:10.1.2.3%eth0"), denied)
        # What the list has of mapped addresses, and of all, counts too.
        for text in ("::ffff:10.0.0.0/104", "::ffff:0:0/96", "::/0"):
            network = ip_network(text)
            for asked in (IPv6Address("::ffff:10.0.0.1"), network):
                self.assertIn(asked, AddressSet([network], mapped=True))
            self.assertEqual(Table([network], mapped=True).find(IPv6Address("::ffff:10.0.0.1")), 0)
            routes = PrefixTable({network: "denied"}, mapped=True)
            self.assertEqual(routes.get(IPv6Address("::ffff:10.0.0.1")), "denied")
            self.assertEqual(routes.longest(network), (network, "denied"))

    def test_networks_in_sets(self):
        denied = AddressSet(DENIED, mapped=True)
        for text, wanted in (
            ("::ffff:10.0.0.0/104", True),
            ("::ffff:10.1.2.3", True),
            ("::ffff:10.0.0.0/103", False),
            ("::ffff:0:0/96", False),
            ("::/0", False),
            ("2001:db8:1::/48", True),
            ("::fffe:10.0.0.0/104", False),
        ):
            for network in (ip_network(text), ipaddress.ip_network(text)):
                self.assertEqual((network in denied, denied.covers(network)), (wanted, wanted), text)
        self.assertNotIn(ip_network("::ffff:10.0.0.0/104"), AddressSet(DENIED))
        all_of = AddressSet([ip_network("0.0.0.0/0"), ip_network("::/0")], mapped=True)
        sixes = AddressSet([ip_network("::/0")], mapped=True)
        without = all_of - AddressSet([ip_network("::ffff:0:0/96")])
        for text in ("::/0", "::/80", "::ffff:0:0/95"):
            answers = [ip_network(text) in each for each in (all_of, sixes, without)]
            self.assertEqual(answers, [True, True, True], text)
        self.assertNotIn(ip_network("::/0"), without - AddressSet([ip_network("::1")]))
        self.assertNotIn(ipaddress.IPv6Network("::/0"), without - AddressSet([ip_network("10.1.2.3")]))
        # One half in each form.
        halves = AddressSet(["10.0.0.0/9", "::ffff:10.128.0.0/105"], mapped=True)
        self.assertIn(ip_network("::ffff:10.0.0.0/104"), halves)
        self.assertNotIn(ip_network("::ffff:10.0.0.0/103"), halves)

    def test_sets_of_sets(self):
        plain, denied = AddressSet(DENIED), AddressSet(DENIED, mapped=True)
        self.assertEqual(plain, denied)
        self.assertEqual((hash(plain), list(plain)), (hash(denied), list(denied)))
        some = AddressSet([ip_network("10.1.0.0/16")])
        kept = (
            denied | some,
            some | denied,
            denied & some,
            denied - some,
            some ^ denied,
            ~denied,
            denied.complement(4),
            denied.union(some),
            denied.intersection(some),
            denied.difference([some_network for some_network in some]),
            AddressSet(denied),
            AddressSet.of_ranges(denied.ranges(), mapped=True),
            AddressSetBuilder(denied).build(),
            AddressSetBuilder(DENIED, mapped=True).build(),
            AddressSetBuilder(plain, mapped=True).build(),
            copy.copy(denied),
            copy.deepcopy(denied),
            pickle.loads(pickle.dumps(denied)),
            eval(repr(denied), vars(ipnetwork)),
            pickle.loads(pickle.dumps(AddressSetBuilder(denied))).build(),
        )
        self.assertEqual([each.mapped for each in kept], [True] * len(kept))
        for each in (plain | some, ~plain, AddressSet.of_ranges(plain.ranges()), AddressSetBuilder(plain).build()):
            self.assertFalse(each.mapped)
        builder = AddressSetBuilder(mapped=True)
        builder.add(DENIED[0])
        self.assertIn(ADDRESSES[0], builder.build())
        self.assertEqual(repr(builder), "AddressSetBuilder([IPv4Network('10.0.0.0/8')], mapped=True)")

    def test_tables(self):
        plain, table = Table(DENIED, "abc"), Table(DENIED, "abc", mapped=True)
        self.assertEqual((plain.mapped, table.mapped), (False, True))
        self.assertEqual((plain.find(ADDRESSES[0]), table.find(ADDRESSES[0])), (None, 1))
        wanted = [plain.find(standing_for(each)) for each in ADDRESSES]
        self.assertEqual(wanted[:3], [1, 0, None])
        rows, _ = ipnetwork.read_address_column(*column())
        for each in (table, pickle.loads(pickle.dumps(table)), copy.copy(table), copy.deepcopy(table)):
            self.assertEqual([each.find(address) for address in ADDRESSES], wanted)
            found = memoryview(each.find_column(rows)).cast("q").tolist()
            self.assertEqual([None if number < 0 else number for number in found], wanted)
            values = [None if number is None else "abc"[number] for number in wanted]
            self.assertEqual((each.join(TEXTS), each.join(rows)), (values, values))
        self.assertEqual(plain.join(TEXTS)[:3], [None] * 3)

    def test_prefix_tables(self):
        items = list(zip(DENIED, "abc"))
        plain, table = PrefixTable(items), PrefixTable(items, mapped=True)
        self.assertEqual((plain.mapped, table.mapped), (False, True))
        with self.assertRaises(KeyError):
            plain[ADDRESSES[0]]
        wanted = [plain.get(standing_for(each)) for each in ADDRESSES]
        self.assertEqual(wanted[:3], ["b", "a", None])
        for each in (table, table.copy(), copy.copy(table), pickle.loads(pickle.dumps(table)), PrefixTable(table)):
            # The first questions are asked of the mapping, the later ones of its ranges.
            for _ in range(3):
                self.assertEqual([each.get(address) for address in ADDRESSES], wanted)
                self.assertEqual([address in each for address in ADDRESSES], [it is not None for it in wanted])
                self.assertEqual(each.join(TEXTS), wanted)
            self.assertEqual(each.longest(ADDRESSES[0]), (DENIED[1], "b"))
            self.assertEqual(each.longest(ip_network("::ffff:10.0.0.0/111")), (DENIED[0], "a"))
            self.assertEqual(each.longest(ipaddress.ip_network("::ffff:10.1.0.0/112")), (DENIED[1], "b"))
            self.assertIsNone(each.longest(ip_network("::/0")))
            # A network of more than one address is a key as it is.
            self.assertNotIn(ip_network("::ffff:10.0.0.0/104"), each)
            self.assertEqual(each, plain)
        self.assertIsNone(plain.longest(ip_network("::ffff:10.0.0.0/111")))
        self.assertEqual(PrefixTable(items, mapped=True).join(TEXTS), wanted)
        self.assertTrue(repr(table).endswith("}, mapped=True)"))

    def test_columns(self):
        texts, offsets = column()
        rows, faults = ipnetwork.read_address_column(texts, offsets, unmapped=True)
        packed = [standing_for(each).packed for each in ADDRESSES]
        wanted = b"".join(each.ljust(16, b"\0") + bytes([len(each)]) for each in packed)
        self.assertEqual((rows, faults), (wanted, bytes(len(ADDRESSES))))
        rows, faults = ipnetwork.read_address_column(b"x::ffff:1.2.3.4", array.array("I", [0, 1, 15]), unmapped=True)
        self.assertEqual((rows, faults), (bytes(17) + bytes([1, 2, 3, 4, *bytes(12), 4]), b"\2\0"))
        for wrong in (bytes(16), bytes(16) + b"\5", bytes(17) + bytes(16) + b"\x11"):
            with self.assertRaises(ValueError):
                ipnetwork._core.unmapped_rows(wrong)

    def test_over_numpy(self):
        try:
            from ipnetwork.columns import find, is_member, read_addresses
        except ImportError:
            self.skipTest("numpy is not here")
        import numpy

        plain, table = AddressSet(DENIED), Table(DENIED)
        wanted = [standing_for(each) in plain for each in ADDRESSES]
        found = [-1 if number is None else number for number in (table.find(standing_for(each)) for each in ADDRESSES)]
        read, present = read_addresses(TEXTS)
        pairs = numpy.array([divmod(int(each), 2**64) for each in ADDRESSES[:10]], "u8")
        for given in (TEXTS, ADDRESSES, numpy.array(TEXTS), read):
            self.assertEqual(is_member(given, plain, mapped=True).tolist(), wanted)
            self.assertEqual(is_member(given, AddressSet(DENIED, mapped=True)).tolist(), wanted)
            self.assertEqual(is_member(given, plain).tolist(), [each in plain for each in ADDRESSES])
            self.assertEqual(find(given, table, mapped=True).tolist(), found)
            self.assertEqual(find(given, Table(DENIED, mapped=True)).tolist(), found)
        self.assertEqual(is_member(pairs, plain, numbers=6, mapped=True).tolist(), wanted[:10])
        self.assertEqual(is_member(TEXTS, DENIED[0], mapped=True).tolist()[:3], [True, True, False])
        self.assertEqual(read_addresses(TEXTS, unmapped=True)[0][0].tolist(), [10, 1, 2, 3, *bytes(12), 4])
        self.assertTrue(present.all())


if __name__ == "__main__":
    unittest.main()
