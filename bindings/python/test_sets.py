"""Sets of addresses compared with Python's own ``set`` of the same addresses."""

import copy
import ipaddress
import operator
import pickle
import random
import re
import threading
import unittest
from ipaddress import IPv4Address, IPv6Address

import ipnetwork
from ipnetwork import (
    AddressError,
    AddressSet,
    AddressSetBuilder,
    FormatError,
    IPv4Network,
    IPv6Network,
    PrefixError,
    Table,
    ip_network,
)

EVERYTHING = AddressSet(map(ip_network, ("0.0.0.0/0", "::/0")))
#: Windows of 256 addresses: at both ends of each family, and in it.
WINDOWS = [
    (IPv4Network, IPv4Address, base) for base in (0, int(IPv4Address("192.0.2.0")), 2**32 - 256)
] + [
    (IPv6Network, IPv6Address, base)
    for base in (0, int(IPv6Address("2001:db8::")), 2**64 - 128, 2**128 - 256)
]


def networks_of(texts):
    return list(map(ip_network, texts.split()))


def drawn(rng, window, count):
    """Networks of a window, host bits and all."""
    kind, address, base = window
    width = kind.max_prefixlen
    hosts = [base + rng.randrange(256) for _ in range(count)]
    return [kind.of(address(host), width - rng.randrange(8)) for host in hosts]


def addresses(networks):
    """The addresses of networks, by ``ipaddress``."""
    each = (ipaddress.ip_network(str(network), strict=False) for network in networks)
    return {address for network in each for address in network}


def least(each):
    """The fewest networks with these addresses, by ``ipaddress``, as texts."""
    fours = [ipaddress.ip_network(address) for address in each if address.version == 4]
    sixes = [ipaddress.ip_network(address) for address in each if address.version == 6]
    both = [*ipaddress.collapse_addresses(fours), *ipaddress.collapse_addresses(sixes)]
    return [str(network) for network in both]


def sets(rng, window, sizes):
    for size in sizes:
        networks = drawn(rng, window, size)
        yield AddressSet(networks), addresses(networks)


class Operations(unittest.TestCase):
    def test_compared_with_set(self):
        rng = random.Random(53)
        signs = [operator.or_, operator.and_, operator.sub, operator.xor]
        names = ["union", "intersection", "difference", "symmetric_difference"]
        questions = [operator.le, operator.lt, operator.ge, operator.gt, operator.eq, operator.ne]
        for window in WINDOWS:
            for count in range(18):
                (one, has), (other, others) = sets(rng, window, (count % 9, count % 5))
                for sign, name in zip(signs, names):
                    wanted = least(sign(has, others))
                    made = sign(one, other)
                    self.assertEqual([str(network) for network in made], wanted)
                    self.assertEqual(len(made), len(wanted))
                    self.assertEqual(made.num_addresses, len(sign(has, others)))
                    self.assertEqual(getattr(one, name)(other), made)
                    self.assertEqual(getattr(one, name)(list(other)), made)
                for part in (other, one & other, one):
                    held = others if part is other else has & others if part is not one else has
                    for ask in questions:
                        self.assertIs(ask(part, one), ask(held, has), (ask, part, one))
                        self.assertIs(ask(one, part), ask(has, held), (ask, one, part))
                    self.assertIs(part.issubset(one), held <= has)
                    self.assertIs(one.issuperset(part), has >= held)
                    self.assertIs(one.isdisjoint(part), has.isdisjoint(held))
                    self.assertIs(one.isdisjoint(list(part)), has.isdisjoint(held))

    def test_what_is_in(self):
        rng = random.Random(54)
        for window in WINDOWS:
            kind, address, base = window
            for count in range(6):
                ((one, has),) = sets(rng, window, (count,))
                for host in range(256):
                    each = address(base + host)
                    self.assertIs(each in one, each in has)
                for network in drawn(rng, window, 20) + list(one):
                    wanted = addresses([network]) <= has
                    theirs = ipaddress.ip_network(str(network), strict=False)
                    for asked in (network, theirs):
                        self.assertIs(asked in one, wanted, (asked, one))
                        self.assertIs(one.covers(asked), wanted)
                    self.assertIs(one >= AddressSet([network]), wanted)

    def test_many(self):
        # Sets and tables of many networks, which are asked by an index: compared with a look at each of
        # them, by arithmetic.
        rng = random.Random(67)
        for kind, address, base in WINDOWS:
            width = kind.max_prefixlen
            for bits, count in ((8, 9), (16, 300), (width, 300)):
                networks, ends = [], []
                for _ in range(count):
                    number = (base + rng.getrandbits(bits)) % 2**width
                    host_bits = rng.randrange(bits) if bits < width else rng.randrange(width // 2)
                    networks.append(kind.of(address(number), width - host_bits))
                    low = number >> host_bits << host_bits
                    ends.append((low, low + 2**host_bits - 1))
                near = [end + step for pair in ends for end in pair for step in (-1, 0, 1)]
                asked = [0, 2**width - 1, *(each for each in near if 0 <= each < 2**width)]
                column = [address(each) for each in asked]
                having = [
                    [place for place, (low, high) in enumerate(ends) if low <= each <= high]
                    for each in asked
                ]
                wanted = [
                    max(places, key=lambda at: (networks[at].prefixlen, at), default=-1)
                    for places in having
                ]
                some, table = AddressSet(networks), Table(networks, range(count))
                self.assertEqual(
                    list(some.contains_column(column)), [int(place >= 0) for place in wanted]
                )
                self.assertEqual(memoryview(table.find_column(column)).cast("q").tolist(), wanted)
                ranges, _, index = table._search[:3] if width == 32 else table._search[3:6]
                blocks, own = some._search[:2] if width == 32 else some._search[2:4]
                self.assertEqual(index, ipnetwork._core.index(kind.version, ranges))
                self.assertEqual(own, ipnetwork._core.index(kind.version, blocks))
                step = width // 8 + 1  # a table has at most two ranges for each network
                self.assertLessEqual((len(ranges), len(index)), (2 * count * step, 32 * count))
                self.assertEqual(table.join(column, -1), wanted)
                for each, place in list(zip(column, wanted))[:: count // 8]:
                    self.assertIs(each in some, place >= 0)
                    self.assertEqual(table.find(each), None if place < 0 else place)
                    block = IPv4Network if width == 32 else IPv6Network
                    self.assertIs(some.covers(block.of(each, width)), place >= 0)
                for again in (copy.copy(some), pickle.loads(pickle.dumps(some))):
                    self.assertEqual((again, hash(again)), (some, hash(some)))
                    self.assertEqual(again.contains_column(column), some.contains_column(column))

    def test_nested(self):
        # Networks that lie in each other, twice each, down to one address.
        for kind, address, base in WINDOWS:
            width = kind.max_prefixlen
            networks = [kind.of(address(base), bits) for bits in range(width + 1) for _ in (0, 1)]
            table = Table(networks)
            for bits in range(width + 1):
                network = networks[bits * 2]
                for end in (network.network_address, network.broadcast_address):
                    longest = width - (int(end) ^ base).bit_length()
                    self.assertEqual(table.find(end), longest * 2 + 1)

    def test_asked_at_once(self):
        # The threads ask for the first time, so that each may make the index.
        networks = [ip_network(f"10.{part}.{host}.0/25") for part in range(9) for host in range(99)]
        column = [ip_network(f"10.{part}.3.128/25")[part % 2 - 1] for part in range(20)] * 20
        for _ in range(20):
            asked, table, answers = AddressSet(networks), Table(networks), []

            def ask():
                has = asked.contains_column(column), column[0] in asked
                answers.append((has, table.find_column(column), table.find(column[0])))

            threads = [threading.Thread(target=ask) for _ in range(6)]
            for thread in threads:
                thread.start()
            for thread in threads:
                thread.join()
            self.assertEqual((len(answers), answers.count(answers[0])), (6, 6))

    def test_lists_as_columns(self):
        tens = AddressSet([ip_network("10.0.0.0/8")])
        rows = ["10.1.2.3", b"10.0.0.1", None, "x", IPv4Address("10.9.9.9"), float("nan"), "::1"]
        table = Table(tens)
        for column in (rows, tuple(rows)):
            self.assertEqual(list(tens.contains_column(column, invalid=False)), [1, 1, 0, 0, 1, 0, 0])
            numbers = memoryview(table.find_column(column, invalid=False)).cast("q").tolist()
            self.assertEqual(numbers, [0, 0, -1, -1, 0, -1, -1])
        for refused in ([7], ["10.1.2.3", ip_network("10.0.0.0/30")], {"10.1.2.3": 1}, "10.1.2.3"):
            for call in (tens.contains_column, table.find_column):
                with self.assertRaises(TypeError):
                    call(refused)

    def test_complements(self):
        rng = random.Random(55)
        for window in WINDOWS:
            kind, address, base = window
            whole = AddressSet([ip_network("0.0.0.0/0" if kind.version == 4 else "::/0")])
            for count in range(8):
                ((one, has),) = sets(rng, window, (count,))
                own = one.complement(kind.version)
                self.assertEqual(~one, own | one.complement(10 - kind.version))
                self.assertEqual(own.num_addresses, 2**kind.max_prefixlen - len(has))
                self.assertEqual((own | one, own & one), (whole, AddressSet()))
                self.assertEqual((whole - one, whole ^ one), (own, own))
                self.assertEqual(list(own), list(ipnetwork.collapse_addresses(own)))
                for host in range(256):
                    each = address(base + host)
                    self.assertIs(each in ~one, each not in has)
                self.assertEqual(~~one, one)
                ((other, _),) = sets(rng, window, (count,))
                self.assertEqual(~(one | other), ~one & ~other)
        self.assertEqual((~AddressSet(), ~EVERYTHING), (EVERYTHING, AddressSet()))
        self.assertEqual(AddressSet().complement(4), AddressSet(networks_of("0.0.0.0/0")))
        for version in (0, 5, 32, "4", True):
            with self.assertRaisesRegex(ValueError, "version is 4 or 6.*" + repr(version)):
                EVERYTHING.complement(version)

    def test_several(self):
        parts = [
            AddressSet(networks_of(text))
            for text in ("10.0.0.0/9", "::/1 10.128.0.0/9", "8000::/1")
        ]
        self.assertEqual(parts[0].union(*parts[1:]), AddressSet(networks_of("10.0.0.0/8 ::/0")))
        self.assertEqual(EVERYTHING.difference(*parts), ~parts[0].union(*parts))
        for others in ([parts[1], networks_of("::/2")], [networks_of("::/2"), parts[1]]):
            self.assertEqual(EVERYTHING.intersection(*others), AddressSet(networks_of("::/2")))
        for name in ("union", "intersection", "difference"):
            self.assertEqual(getattr(parts[1], name)(), parts[1])
        self.assertEqual(
            parts[0].union(networks_of("10.128.0.0/9")), AddressSet(networks_of("10.0.0.0/8"))
        )

    def test_ends(self):
        for family, last in (("0.0.0.0/0", "255.255.255.255"), ("::/0", "ffff:" * 7 + "ffff")):
            whole = AddressSet(networks_of(family))
            end = ipaddress.ip_address(last)
            self.assertTrue(
                end in whole and ip_network(last) in whole and ip_network(family) in whole
            )
            without = whole - AddressSet(networks_of(last))
            self.assertEqual(len(without), end.max_prefixlen)
            self.assertTrue(
                end not in without and ip_network(family) not in without and without < whole
            )
            self.assertTrue(whole.isdisjoint(~whole) and not whole.isdisjoint(networks_of(last)))
            self.assertEqual(list(whole.ranges()), [(type(end)(0), end)])
            self.assertEqual(list(without.ranges()), [(type(end)(0), end - 1)])
            self.assertEqual(AddressSet.of_ranges([(type(end)(0), end)]), whole)
        self.assertEqual(len(list(EVERYTHING.ranges())), 2)
        # The number of the first IPv6 address is the next one after that of the last IPv4 address.
        self.assertEqual(len(list(AddressSet(networks_of("255.255.255.255 ::1:0:0")).ranges())), 2)


class Ranges(unittest.TestCase):
    def test_of_a_set(self):
        rng = random.Random(56)
        for window in WINDOWS:
            for count in range(20):
                ((one, has),) = sets(rng, window, (count,))
                answers = list(one.ranges())
                numbers = [
                    number for low, high in answers for number in range(int(low), int(high) + 1)
                ]
                self.assertEqual(numbers, sorted(map(int, has)))
                for (_, high), (low, _) in zip(answers, answers[1:]):
                    self.assertGreater(int(low), int(high) + 1)
                rng.shuffle(answers)
                self.assertEqual(AddressSet.of_ranges(answers), one)

    def test_as_networks(self):
        rng = random.Random(57)
        for kind, address, base in WINDOWS:
            for _ in range(100):
                low, high = sorted(address(base + rng.randrange(256)) for _ in range(2))
                wanted = list(map(str, ipaddress.summarize_address_range(low, high)))
                made = list(ipnetwork.summarize_address_range(low, high))
                self.assertEqual(
                    (list(map(str, made)), {type(each) for each in made}), (wanted, {kind})
                )
            greatest = address(2**kind.max_prefixlen - 2)
            made = ipnetwork.summarize_address_range(address(1), greatest)
            self.assertEqual(len(list(made)), 2 * kind.max_prefixlen - 2)

    def test_refused(self):
        four, six, zoned = IPv4Address("10.0.0.1"), IPv6Address("::1"), IPv6Address("fe80::1%eth0")
        for call in (
            ipnetwork.summarize_address_range,
            lambda first, last: AddressSet.of_ranges([(four, four), (first, last)]),
        ):
            with self.assertRaisesRegex(ipnetwork.NetworkError, "10.0.0.1.*10.0.0.0"):
                call(four, four - 1)
            with self.assertRaises(AddressError):
                call(six, zoned)
            for first, last in (
                (four, six),
                ("10.0.0.1", four),
                (four, 7),
                (ip_network("::1"), six),
            ):
                with self.assertRaises(TypeError):
                    call(first, last)


class AsPython(unittest.TestCase):
    def test_foreign_types(self):
        one = AddressSet(networks_of("10.0.0.0/8"))
        binary = [operator.or_, operator.and_, operator.sub, operator.xor]
        order = [operator.le, operator.lt, operator.ge, operator.gt]
        single = "10.0.0.0/8", "", b"", 7, None, ip_network("10.0.0.0/8"), ipaddress.ip_network("::/0")
        for other in (set(), [], *single):
            for sign in binary * (other in single) + order:
                for pair in ((one, other), (other, one)):
                    with self.assertRaises(TypeError):
                        sign(*pair)
            self.assertFalse(one == other)
            self.assertTrue(one != other)
        for given in single:
            for call in (AddressSet, AddressSetBuilder, one.union, one.isdisjoint):
                with self.assertRaises(TypeError):
                    call(given)

        class Answers:
            def __ror__(self, other):
                return "ror"

            def __ge__(self, other):
                return "ge"

        self.assertEqual((one | Answers(), one <= Answers()), ("ror", "ge"))
        for call in (one.isdisjoint, one.issubset, one.issuperset, one.union, one.difference):
            for other in ([b"10.0.0.0/8"], [None], 7, [IPv4Address("10.0.0.1")]):
                with self.assertRaises(TypeError):
                    call(other)
        for asked in ("10.0.0.1", 7, None, b"\x0a\0\0\1", one):
            with self.assertRaisesRegex(TypeError, type(asked).__name__):
                asked in one
            with self.assertRaisesRegex(TypeError, type(asked).__name__):
                one.covers(asked)
        with self.assertRaises(TypeError):
            one.covers(IPv4Address("10.0.0.1"))
        for given in (b"10.0.0.0/8", IPv4Address("10.0.0.1"), ipaddress.ip_interface("::1/8"), 7, None):
            with self.assertRaisesRegex(TypeError, f"network 1: .*{type(given).__name__}"):
                AddressSet(["::", given])

    def test_made_of_texts_and_of_theirs(self):
        texts = ["10.0.0.7/9", "10.128.0.0/9", "2001:db8::/32", "192.0.2.1", "10.1.0.0/255.255.0.0"]
        whole = AddressSet(map(ip_network, texts))
        self.assertEqual([str(each) for each in whole], ["10.0.0.0/8", "192.0.2.1/32", "2001:db8::/32"])
        theirs = [ipaddress.ip_network(text, strict=False) for text in texts]
        mixed = [ip_network(texts[0]), texts[1], *theirs[2:]]
        for given in (texts, tuple(texts), iter(texts), {*texts}, dict.fromkeys(texts), theirs, mixed):
            self.assertEqual(AddressSet(given), whole)
        builder = AddressSetBuilder(texts[:2])
        builder.update(texts[2:])
        for each in (theirs[0], texts[1]):
            builder.discard(each)
            builder.add(each)
        self.assertEqual(builder.build(), whole)
        for text, kind in (
            ("10.0.0.0/33", PrefixError),
            (" 10.0.0.0/8", AddressError),
            ("10.0.0.0/8\n", PrefixError),
            ("010.0.0.0/8", AddressError),
            ("10.0.0.0/8/", FormatError),
            ("fe80::1%eth0", AddressError),
            ("", AddressError),
        ):
            for call in (AddressSet, builder.update, builder.difference_update, whole.union, whole.__or__):
                with self.assertRaises(kind) as raised:
                    call(["::/0", "10.0.0.0/8", text, "x"])
                self.assertRegex(str(raised.exception), "^network 2: .*" + re.escape(repr(text)))
        self.assertEqual(builder.build(), whole)  # nothing of what was refused
        zoned = ipaddress.ip_network("fe80::%eth0/64")
        if zoned.network_address.scope_id:
            with self.assertRaisesRegex(AddressError, "network 1: .*eth0"):
                AddressSet(["::", zoned])

    def test_operators_take_iterables(self):
        rng = random.Random(93)
        signs = [operator.or_, operator.and_, operator.sub, operator.xor]
        inplace = [operator.ior, operator.iand, operator.isub, operator.ixor]
        for window in WINDOWS:
            (one, has), (other, others) = sets(rng, window, (6, 5))
            networks = list(other)
            for sign, own in zip(signs, inplace):
                wanted, turned = least(sign(has, others)), least(sign(others, has))
                for given in (networks, tuple(networks), [*map(str, networks)], {*networks}):
                    self.assertEqual([*map(str, sign(one, given))], wanted)
                    self.assertEqual([*map(str, sign(given, one))], turned)
                    self.assertEqual([*map(str, own(one, given))], wanted)
                self.assertEqual([*map(str, sign(one, iter(networks)))], wanted)
                self.assertEqual([*map(str, sign(iter(networks), one))], turned)
                self.assertEqual(sign(one, []), sign(one, AddressSet()))
                self.assertTrue(sign(networks, AddressSet(one, mapped=True)).mapped)

    def test_first_free(self):
        rng = random.Random(94)
        for window in WINDOWS:
            kind, address, base = window
            for count in range(30):
                networks = drawn(rng, window, count)
                one, has = AddressSet(networks), addresses(networks)
                for within in drawn(rng, window, 4):
                    theirs = ipaddress.ip_network(str(within), strict=False)
                    prefix = rng.randrange(within.prefixlen, kind.max_prefixlen + 1)
                    free = (each for each in theirs.subnets(new_prefix=prefix) if has.isdisjoint(each))
                    wanted = next(map(str, free), "None")
                    for asked in (within, theirs, str(within)):
                        self.assertEqual(str(one.first_free(prefix, asked)), wanted)
        for text in ("0.0.0.0/0", "::/0", "255.255.255.255", "::1"):
            network = ip_network(text)
            for prefix in {network.prefixlen, network.max_prefixlen}:
                first = ipaddress.ip_network((network.network_address, prefix))
                self.assertEqual(str(AddressSet().first_free(prefix, network)), str(first))
                self.assertIsNone(EVERYTHING.first_free(prefix, network))
                self.assertIs(type(AddressSet().first_free(prefix, network)), type(network))
            for prefix in (network.prefixlen - 1, network.max_prefixlen + 1, 300):
                with self.assertRaisesRegex(ValueError, "no prefix length of subnets"):
                    EVERYTHING.first_free(prefix, network)
        for prefix, within in ((24.0, "10.0.0.0/8"), (24, IPv4Address("10.0.0.0")), (24, None)):
            with self.assertRaises(TypeError):
                EVERYTHING.first_free(prefix, within)

    def test_interfaces(self):
        # An interface is its address, as elsewhere.
        self.assertIn(ipaddress.ip_interface("10.1.2.3/0"), AddressSet(networks_of("10.0.0.0/8")))

    def test_values(self):
        one, same = AddressSet(networks_of("10.0.0.0/9 10.128.0.0/9 ::/0")), AddressSet(
            networks_of("::/0 10.0.0.0/8")
        )
        self.assertEqual((hash(one), len({one, same}), {one: 1}[same]), (hash(same), 1, 1))
        for again in (
            pickle.loads(pickle.dumps(one)),
            copy.copy(one),
            copy.deepcopy(one),
            AddressSet(one),
        ):
            self.assertEqual(again, one)
        self.assertEqual(eval(repr(one), vars(ipnetwork)), one)
        self.assertEqual(repr(AddressSet()), "AddressSet([])")
        self.assertEqual(
            (len(one), len(AddressSet()), bool(AddressSet()), bool(one)), (2, 0, False, True)
        )
        self.assertTrue(all(network in one for network in one))
        with self.assertRaises(TypeError):
            one.__init__(networks_of("::/0"))
        with self.assertRaises(AttributeError):
            one.other = 1
        self.assertEqual((one, len(one)), (same, 2))

    def test_subclasses(self):
        class Named(AddressSet):
            pass

        globals()["Named"], Named.__qualname__ = Named, "Named"
        named = Named(networks_of("10.0.0.0/8"))
        named.name = "tens"
        self.assertEqual(named, AddressSet(named))
        self.assertIs(type(named | named), AddressSet)
        for again in (pickle.loads(pickle.dumps(named)), copy.copy(named), copy.deepcopy(named)):
            self.assertEqual((type(again), again, again.name), (Named, named, "tens"))
        self.assertTrue(repr(named).startswith("Named(["))
        self.assertTrue(AddressSet() < named <= AddressSet(named) and named in {named})

    def test_iterables(self):
        def refuses():
            yield ip_network("10.0.0.0/8")
            raise KeyError("of the caller")

        for call in (AddressSet, EVERYTHING.union, EVERYTHING.isdisjoint, AddressSetBuilder):
            with self.assertRaisesRegex(KeyError, "of the caller"):
                call(refuses())
        many = AddressSet(IPv4Network.of(IPv4Address(host * 2), 32) for host in range(3000))
        self.assertEqual((len(many), len(list(many))), (3000, 3000))
        self.assertEqual(next(iter(many)), ip_network("0.0.0.0"))


if __name__ == "__main__":
    unittest.main()
