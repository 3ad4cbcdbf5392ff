"""No message of the package has more than 60 bytes of a text that is refused."""

import ipaddress
import unittest

import ipnetwork
from ipnetwork import AddressSet, IPv4Network, IPv6Network, PrefixTable, Table, ip_network

NETWORK, MANY = ip_network("10.0.0.0/8"), 1000
ONE = AddressSet([NETWORK])
CALLS = {
    "ip_network": ip_network,
    "IPv4Network": IPv4Network,
    "IPv6Network": IPv6Network,
    "read_address": ipnetwork.read_address,
    "unmapped": ipnetwork.unmapped,
    "from_ipaddress": ipnetwork.from_ipaddress,
    "IPv4Network.from_ipaddress": IPv4Network.from_ipaddress,
    "IPv6Network.from_ipaddress": IPv6Network.from_ipaddress,
    "in a network": lambda text: text in NETWORK,
    "in a set": lambda text: text in ONE,
    "a set of it": lambda text: AddressSet([text]),
    "complement": ONE.complement,
    "a table of it": lambda text: Table([text]),
    "find": Table([NETWORK]).find,
    "key": lambda text: PrefixTable().__setitem__(text, 1),
    "longest": PrefixTable().longest,
    "subnets": lambda text: NETWORK.subnets(new_prefix=text),
    "subnet_of": NETWORK.subnet_of,
    "supernet_of": NETWORK.supernet_of,
    "overlaps": NETWORK.overlaps,
    "address_exclude": NETWORK.address_exclude,
    "joined": lambda text: PrefixTable({NETWORK: 1}).join([text]),
    "asked of a set": lambda text: ONE.contains_column([text]),
    "asked of a table": lambda text: Table([NETWORK]).find_column([text]),
    "invalid": lambda text: ONE.contains_column(["10.0.0.1"], invalid=text),
    "printed": lambda text: ipnetwork.print_address_column(text.encode() * 17 if isinstance(text, str) else text * 17),
    "offsets": lambda text: ipnetwork.read_address_column(b"", text),
}


class Messages(unittest.TestCase):
    def test_long_texts(self):
        for name, call in CALLS.items():
            for text, piece, most in (
                ("x" * MANY, "x", 60),
                (b"x" * MANY, "x", 60),
                (bytearray(b"x" * MANY), "x", 60),
                ("\u00e9" * MANY, "\u00e9", 30),
                ("\U0001f600" * MANY, "\U0001f600", 15),
                ("/x" * MANY, "/x", 30),
                (b"\0" * MANY, "\\x00", 60),
            ):
                with self.subTest((name, text[:2])), self.assertRaises((ValueError, TypeError)) as raised:
                    call(text)
                said = str(raised.exception)
                self.assertLessEqual(said.count(piece), most + 5, said)
                self.assertLess(len(said), 500)

    def test_long_zones_and_numbers(self):
        zoned = ipaddress.IPv6Network("fe80::%" + "x" * MANY + "/64")
        for call in (Table([NETWORK]).find, NETWORK.overlaps, lambda row: ONE.contains_column([row])):
            with self.subTest(call), self.assertRaisesRegex(TypeError, "IPv6Network.*x[.][.][.] ") as raised:
                call(zoned)
            self.assertLess(len(str(raised.exception)), 200)
        for call in (NETWORK.subnets, NETWORK.supernet):
            with self.subTest(call), self.assertRaisesRegex(ValueError, "0[.][.][.] is no prefix length") as raised:
                call(new_prefix=10**MANY)
            self.assertLess(len(str(raised.exception)), 200)

    def test_the_mark(self):
        for text in ("x" * 60, "\u00e9" * 30):
            for call in (ip_network, ipnetwork.read_address):
                with self.assertRaisesRegex(ValueError, f": '{text}'$"):
                    call(text)
                with self.assertRaisesRegex(ValueError, f": '{text}'[.][.][.]$"):
                    call(text + "x")
        with self.assertRaisesRegex(ValueError, "row 1: '" + "x" * 60 + "'[.][.][.] is no address"):
            PrefixTable().join(["10.0.0.1", "x" * 61])


if __name__ == "__main__":
    unittest.main()
