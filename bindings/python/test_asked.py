"""What a text, a zone, a network of one address and packed bytes are to each call; copies and pickles; what messages
say."""

import copy
import gc
import ipaddress
import pickle
import random
import unittest
from ipaddress import IPv4Address, IPv6Address

import ipnetwork
from ipnetwork import (
    AddressError,
    AddressSet,
    AddressSetBuilder,
    IPv4Network,
    IPv6Network,
    PrefixTable,
    Table,
    ip_network,
    read_address,
)

NETWORKS = [ip_network("10.0.0.0/8"), ip_network("10.1.0.0/16"), ip_network("2001:db8::/32")]
SET, TABLE, ROUTES = AddressSet(NETWORKS), Table(NETWORKS, "abc"), PrefixTable(zip(NETWORKS, "abc"))


class OneAddress(unittest.TestCase):
    def test_networks_of_one_address(self):
        for text, number in (("10.1.2.3", 1), ("10.2.0.0", 0), ("8.8.8.8", None), ("2001:db8::1", 2), ("::", None)):
            address = ipaddress.ip_address(text)
            value = None if number is None else "abc"[number]
            for asked in (address, ip_network(text), ipaddress.ip_network(text), ipaddress.ip_interface(text)):
                self.assertEqual(asked in SET, number is not None)
                self.assertEqual(TABLE.find(asked), number)
                self.assertEqual((TABLE.join([asked]), ROUTES.join([asked])), ([value], [value]))
                self.assertEqual(memoryview(TABLE.find_column([asked])).cast("q")[0], -1 if number is None else number)
                self.assertEqual([asked in each for each in NETWORKS], [address in each for each in NETWORKS])
                longest = ROUTES.longest(asked)
                self.assertEqual(longest and longest[1], value)
                self.assertEqual((ROUTES.get(asked), ROUTES.get(asked, 7)), (value, value or 7))
                self.assertIs(asked in ROUTES, number is not None)
                self.assertNotIn(asked, ROUTES.keys())
                if number is None:
                    with self.assertRaises(KeyError):
                        ROUTES[asked]
                else:
                    self.assertEqual(ROUTES[asked], value)

    def test_keys_of_one_address(self):
        # A network is first of all a key; what is no key is asked about as its address.
        host, other, deny = ip_network("10.1.1.1"), ip_network("10.1.1.2"), ip_network("10.0.0.0/8")
        table = PrefixTable({deny: "deny", host: "host"})
        self.assertEqual((table[host], table[other], table.get(other, "allow")), ("host", "deny", "deny"))
        self.assertEqual([each in table.keys() for each in (host, other, deny)], [True, False, True])
        self.assertIn(ipaddress.ip_network("10.0.0.0/8"), table.keys())
        self.assertEqual(table.keys() & {host, other, deny}, {host, deny})
        self.assertIn((host, "host"), table.items())
        self.assertNotIn((other, "deny"), table.items())
        for call in (table.pop, table.__delitem__):
            with self.assertRaises(KeyError):
                call(other)
        self.assertEqual((table.pop(other, "none"), table.setdefault(other, "set")), ("none", "set"))
        self.assertEqual((len(table), table[other]), (3, "set"))
        # A wider network is only a key, and `longest` tells what has it.
        wider = ip_network("10.1.1.0/31")
        self.assertEqual((table.get(wider), wider in table, table.longest(wider)), (None, False, (deny, "deny")))
        # So too where a key is IPv4-mapped, and an IPv4 network has the address.
        mapped = ip_network("::ffff:10.1.1.1")
        table = PrefixTable({deny: "deny", mapped: "mapped"}, mapped=True)
        self.assertEqual((table[mapped], table[mapped.ip]), ("mapped", "deny"))
        self.assertEqual(list(map(table.get, table)), ["deny", "mapped"])

    def test_wider_networks(self):
        for asked in (ip_network("10.1.2.2/31"), ipaddress.ip_network("10.1.2.2/31"), ip_network("::/0")):
            for call in (TABLE.find, lambda asked: TABLE.join([asked]), lambda asked: ROUTES.join([asked])):
                with self.assertRaisesRegex(TypeError, "more than one address"):
                    call(asked)
            self.assertNotIn(asked, IPv4Network("10.0.0.0/8"))

    def test_zones(self):
        networks = [*NETWORKS, ip_network("fe80::/64"), ip_network("::ffff:0:0/96"), ip_network("::5")]
        theirs = [ipaddress.ip_network(str(each)) for each in networks]
        for text in ("fe80::1", "fe80::", "2001:db8::1", "::ffff:10.1.2.3", "::ffff:11.0.0.0", "::5", "::6", "ff02::1"):
            address, zoned = IPv6Address(text), IPv6Address(text + "%eth0")
            interface = ipaddress.ip_interface(text + "%1/64")
            single = ipaddress.ip_network(text + "%eth0/128")
            self.assertEqual((zoned.scope_id, interface.scope_id), ("eth0", "1"))
            wanted = [zoned in each for each in theirs]
            for asked in (zoned, interface, single):
                self.assertEqual([asked in each for each in networks], wanted)
                for mapped in (False, True):
                    some, table = AddressSet(networks, mapped=mapped), Table(networks, mapped=mapped)
                    routes = PrefixTable(zip(networks, "abcdef"), mapped=mapped)
                    self.assertIs(asked in some, any(wanted))
                    self.assertEqual(table.find(asked), table.find(address))
                    for _ in range(2):
                        self.assertEqual(routes.longest(asked), routes.longest(address))
                        self.assertEqual((routes.get(asked), asked in routes), (routes.get(address), any(wanted)))
            self.assertEqual(ipnetwork.unmapped(zoned), zoned.ipv4_mapped or zoned)
            self.assertEqual(ipnetwork.unmapped(interface), zoned.ipv4_mapped or interface)
        local = ipaddress.ip_network("fe80::%eth0/64")
        self.assertIn(local, AddressSet(networks))
        self.assertTrue(AddressSet(networks).covers(local))
        self.assertNotIn(ipaddress.ip_network("fe80::%eth0/63"), AddressSet(networks))
        self.assertEqual(PrefixTable(zip(networks, "abcdef"))[local], "d")
        # A text with a zone is none of an address, nor of a network.
        for call in (read_address, ip_network, IPv6Network):
            with self.assertRaises(AddressError):
                call("fe80::1%eth0")
        with self.assertRaises(AddressError):
            IPv6Network.of(IPv6Address("fe80::1%eth0"), 64)


class Read(unittest.TestCase):
    def test_addresses(self):
        rng = random.Random(4)
        texts = [str(IPv4Address(rng.getrandbits(32))) for _ in range(200)]
        texts += [str(IPv6Address(rng.getrandbits(128) >> rng.randrange(128))) for _ in range(200)]
        for text in [*texts, "::ffff:1.2.3.4", "0.0.0.0", "::", "1:2:3:4:5:6:7:8"]:
            self.assertEqual(read_address(text), ipaddress.ip_address(text))
            self.assertIs(type(read_address(text)), type(ipaddress.ip_address(text)))
        for text in ("", "x", "10.0.0.0/8", "01.2.3.4", "fe80::1%eth0", " ::1", "1.2.3.4\0", "\u0661.2.3.4", "\udcff"):
            with self.assertRaises(AddressError):
                read_address(text)
        for wrong in (b"::1", 7, None, IPv4Address("10.0.0.1"), ip_network("::1")):
            with self.assertRaises(TypeError):
                read_address(wrong)

    def test_packed_bytes_in_columns(self):
        for packed in (b"\n\1\2\3", IPv6Address("2001:db8::1").packed, b"none", bytes(16)):
            for call in (TABLE.join, ROUTES.join, TABLE.find_column, SET.contains_column):
                with self.assertRaisesRegex(TypeError, f"row 1: .* {len(packed)} .* packed address"):
                    call(["10.1.2.3", packed])
        # Texts of as many bytes, and other bytes, are texts.
        for text in (b"1::8", b"2001:db8:0:1::10", b"10.1.2.3", b"", b"no"):
            try:
                wanted = ipaddress.ip_address(text.decode()) in SET
            except ValueError:
                wanted = False
            self.assertEqual(list(SET.contains_column(["10.1.2.3", text], invalid=False)), [1, wanted])


class Messages(unittest.TestCase):
    def test_types(self):
        theirs = ipaddress.ip_network("10.0.0.0/8")
        for call, words in (
            (lambda: "10.0.0.1" in NETWORKS[0], "ipaddress, not str: read_address"),
            (lambda: TABLE.find("10.0.0.1"), "ipaddress, not str: read_address"),
            (lambda: "10.0.0.1" in SET, "not str: read_address and ip_network"),
            (lambda: ip_network(theirs), "not as ipaddress.IPv4Network: from_ipaddress"),
            (lambda: IPv4Network(ipaddress.ip_interface("10.0.0.1/8")), "IPv4Interface: from_ipaddress"),
            (lambda: IPv4Network(IPv4Address("10.0.0.1")), "IPv4Address: str of it"),
            (lambda: AddressSet([ipaddress.ip_interface("::1/8")]), "not ipaddress.IPv6Interface: from_ipaddress"),
            (lambda: AddressSet([b"10.0.0.0/8"]), "network 0: .* not bytes: ip_network"),
            (lambda: AddressSet("10.0.0.0/8"), "in an iterable, not as one str"),
            (lambda: Table([theirs]), "not ipaddress.IPv4Network: from_ipaddress"),
            (lambda: Table(["10.0.0.0/8"]), "not str: ip_network"),
            (lambda: PrefixTable([(theirs, 1)]), "not ipaddress.IPv4Network: from_ipaddress"),
            (lambda: Table([IPv4Address("10.0.0.1")]), "not ipaddress.IPv4Address: IPv4Network.of"),
        ):
            with self.assertRaisesRegex(TypeError, words):
                call()


class Kept(unittest.TestCase):
    def test_copies(self):
        for given in (*NETWORKS, SET, AddressSet(NETWORKS, mapped=True)):
            self.assertIs(copy.copy(given), given)
            self.assertIs(copy.deepcopy(given), given)
        self.assertIs(copy.copy(TABLE), TABLE)
        table = Table(NETWORKS, [[1], [2], [3]])
        again = copy.deepcopy(table)
        again.join(["10.1.2.3"])[0].append(7)
        self.assertEqual((table.join(["10.1.2.3"]), again.join(["10.1.2.3"])), ([[2]], [[2, 7]]))
        routes = copy.copy(ROUTES)
        routes[NETWORKS[0]] = "x"
        self.assertEqual((routes[NETWORKS[0]], ROUTES[NETWORKS[0]], list(routes)), ("x", "a", NETWORKS))

    def test_subclasses(self):
        class Named(AddressSet):
            pass

        class Routes(Table):
            pass

        for made in (Named(NETWORKS), Routes(NETWORKS, "abc")):
            made.names = ["x"]
            shallow, deep = copy.copy(made), copy.deepcopy(made)
            for again in (shallow, deep):
                self.assertIsNot(again, made)
                self.assertIs(type(again), type(made))
                self.assertEqual(again.names, ["x"])
                self.assertEqual(len(again), 3 if isinstance(made, Table) else 2)
            self.assertIs(shallow.names, made.names)
            self.assertIsNot(deep.names, made.names)

    def test_pickles_are_packed(self):
        count = 1000
        networks = [IPv4Network.of(IPv4Address(number << 9), 24) for number in range(count)]
        for given, most in (
            (AddressSet(networks), 5),
            (Table(networks), 13),
            (PrefixTable(zip(networks, [None] * count)), 8),
        ):
            data = pickle.dumps(given)
            self.assertLess(len(data), most * count + 400, type(given))
            again = pickle.loads(data)
            self.assertEqual(len(again), count)
            if not isinstance(given, Table):
                self.assertEqual((list(again), again), (list(given), given))

    def test_pickles(self):
        rng = random.Random(11)
        networks = [IPv4Network.of(IPv4Address(rng.getrandbits(32)), rng.randrange(33)) for _ in range(200)]
        networks += [IPv6Network.of(IPv6Address(rng.getrandbits(128)), rng.randrange(129)) for _ in range(200)]
        rng.shuffle(networks)
        networks += networks[:9]
        table, routes = Table(networks, range(len(networks))), PrefixTable(zip(networks, range(len(networks))))
        asked = [each.broadcast_address for each in networks] + [each.ip for each in networks]
        for protocol in range(pickle.HIGHEST_PROTOCOL + 1):
            again = pickle.loads(pickle.dumps(table, protocol))
            self.assertEqual([again.find(each) for each in asked], [table.find(each) for each in asked])
            self.assertEqual(again.join(asked), table.join(asked))
            other = pickle.loads(pickle.dumps(routes, protocol))
            self.assertEqual(list(other.items()), list(routes.items()))
            self.assertEqual([other.longest(each) for each in asked], [routes.longest(each) for each in asked])
        self.assertEqual(pickle.loads(pickle.dumps(Table([]))).find(asked[0]), None)
        self.assertEqual(pickle.loads(pickle.dumps(PrefixTable())), {})
        turning = PrefixTable()
        turning[NETWORKS[0]] = turning
        again = pickle.loads(pickle.dumps(turning))
        self.assertIs(again[NETWORKS[0]], again)
        self.assertEqual(pickle.loads(pickle.dumps(AddressSetBuilder(SET))).build(), SET)

    def test_pickles_that_are_none(self):
        make, held, _ = SET.__reduce__()
        for rows in (bytes(4), b"\n\0\0\0\x21", bytes(9)):
            with self.assertRaises(ValueError):
                make(held[0], rows, b"", False)
        self.assertEqual(make(held[0], b"\n\1\2\3\x08\n\0\0\0\x09", b"", False), AddressSet(NETWORKS[:1]))
        make, held, _ = Table(NETWORKS).__reduce__()
        good = (b"\n\0\0\0\x08", bytes(8), b"", b"")
        self.assertEqual(make(Table, good, None, False).find(IPv4Address("10.1.2.3")), 0)
        for blocks, values in (
            ((bytes(4), bytes(8), b"", b""), None),
            ((good[0], b"\1" + bytes(7), b"", b""), None),
            ((good[0], bytes(16), b"", b""), None),
            ((good[0] * 2, bytes(16), b"", b""), None),
            ((b"\n\0\0\0\x21", bytes(8), b"", b""), None),
            (good, ["a", "b"]),
        ):
            with self.assertRaises(ValueError):
                make(Table, blocks, values, False)
        make, held, state = PrefixTable({NETWORKS[0]: 1}).__reduce__()
        for rows, widths, values in (
            (b"\n\1\0\0\x08", b"\5", [1]),
            (b"\n\0\0\0\x21", b"\5", [1]),
            (b"\n\0\0\0\x08", b"\4", [1]),
            (b"\n\0\0\0\x08", b"\5", []),
            (b"\n\0\0\0\x08" * 2, b"\5\5", [1, 2]),
            (b"\n\0\0\0\x08\0", b"\5", [1]),
        ):
            with self.assertRaises(ValueError):
                make(*held).__setstate__((rows, widths, values, None))

    @unittest.skipIf(ipnetwork.CORE == "ctypes", "by ctypes a network has a dict")
    def test_networks_are_not_tracked(self):
        for network in (*NETWORKS, IPv4Network("10.0.0.0/8"), IPv6Network.of(IPv6Address("::"), 8), *SET):
            self.assertFalse(gc.is_tracked(network))


if __name__ == "__main__":
    unittest.main()
