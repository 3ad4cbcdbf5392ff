"""Calls in loops, the refused ones too: what is in use afterwards is what was in use before."""

import array
import gc
import ipaddress
import pickle
import sys
import tracemalloc
import unittest
from ipaddress import IPv4Address, IPv6Address

import ipnetwork
from ipnetwork import (
    AddressSet,
    AddressSetBuilder,
    IPv4Network,
    IPv6Network,
    PrefixTable,
    Table,
    ip_network,
)

TEXTS, OFFSETS = b"10.1.2.38.8.8.8::1x", array.array("I", [0, 8, 15, 18, 19])
NETWORKS = [ip_network("10.0.0.0/8"), ip_network("2001:db8::/32"), ip_network("10.1.9.32/16")]
SET, OTHER, TABLE = AddressSet(NETWORKS), AddressSet([ip_network("10.64.0.0/10")]), Table(NETWORKS)
ROWS, _ = ipnetwork.read_address_column(TEXTS, OFFSETS)
ASKED = [IPv4Address("10.1.2.3"), IPv6Address("::"), IPv6Address("fe80::1%eth0"), NETWORKS[0]]
ALONE = [ip_network("10.1.2.3"), ipaddress.ip_network("::1")]
#: Sets and tables of so many networks have an index once they are asked.
MANY = AddressSet(
    ip_network(text)
    for part in range(9)
    for text in (f"10.{part}.0.0/17", f"2001:db8:{part:x}::/49", f"2001:db9:{part:x}::/64")
)
MANY_ROUTES = Table(MANY, range(len(MANY)))
LEAST = 4000  # an object that is lost in each of 500 calls takes at least 8000 bytes
ROUTES, CHANGED = PrefixTable(zip(NETWORKS, "abc")), PrefixTable(zip(NETWORKS, "abc"))
JOINED, WIDE = Table(NETWORKS, "abc"), array.array("Q", OFFSETS)
TEXT_ROWS = ["10.1.2.3", None, b"8.8.8.8", IPv6Address("::1")]
LAID = [["10.1.2.3", b"::1", None, float("nan")], ["10.1.2.3", "\udcff"], ["10.1.2.3", 7]]


def changed():
    """A table that changes, and is asked before and after its search is ready."""
    for network in (ip_network("192.0.2.0/24"), ip_network("2001:db8:1::/48")):
        CHANGED[network] = 1
        found = [CHANGED.get(address, 0) for address in ASKED[:3] for _ in range(5)]
        del CHANGED[network]
    return found, CHANGED.join(TEXT_ROWS), list(CHANGED.items())


def built():
    """A builder that is changed in turn."""
    builder = AddressSetBuilder(SET)
    for network in NETWORKS:
        builder.add(network)
        builder.discard(ip_network("10.64.0.0/10"))
    return builder.build(), repr(builder)


def parts(network):
    for part in ("ip", "netmask", "network_address", "broadcast_address", "num_addresses"):
        getattr(network, part)
    return str(network), hash(network), network == network, network[0], network[-1], repr(network)


CALLS = {
    "read": lambda: (parts(IPv4Network("10.1.9.32/30")), parts(IPv6Network("::1:2/126"))),
    "read, either": lambda: (ip_network("::1"), ip_network("10.1.9.32/30"), ip_network(bytes(4))),
    "made": lambda: IPv4Network.of(IPv4Address("10.0.0.1"), 8),
    "mask": lambda: IPv6Network.prefix_of_mask(IPv6Address("ffff::")),
    "members": lambda: (list(IPv4Network("10.1.9.32/30")), list(IPv6Network("::1:2/126"))),
    "asked": lambda: [address in network for address in ASKED for network in NETWORKS],
    "subnet": lambda: (NETWORKS[2].subnet_of(NETWORKS[0]), NETWORKS[0].supernet_of(NETWORKS[2])),
    "overlaps": lambda: (NETWORKS[0].overlaps(NETWORKS[1]), NETWORKS[2] < NETWORKS[0]),
    "subnets": lambda: list(NETWORKS[2].subnets(2)),
    "collapse": lambda: list(ipnetwork.collapse_addresses([NETWORKS[0], NETWORKS[2]])),
    "sets": lambda: (AddressSet(NETWORKS), SET | OTHER, SET & OTHER, SET - OTHER, list(SET)),
    "asked of a set": lambda: [address in SET for address in ASKED + NETWORKS],
    "of texts": lambda: (SET | ["10.0.0.0/8"], SET.first_free(12, "10.0.0.0/8")),
    "questions of sets": lambda: (SET <= OTHER, SET < SET, SET.isdisjoint(OTHER), SET ^ OTHER, ~SET),
    "sets and tables with an index": lambda: (
        AddressSet(MANY).contains_column(ROWS),
        Table(MANY, range(len(MANY))).join(TEXT_ROWS),
        MANY.contains_column(TEXT_ROWS[:2]),
        [(each in MANY, MANY_ROUTES.find(each)) for each in ASKED[:3]],
    ),
    "ranges": lambda: AddressSet.of_ranges(SET.ranges()),
    "builders": built,
    "prefix tables": lambda: PrefixTable(zip(NETWORKS, "abc")),
    "asked of a prefix table": lambda: [ROUTES.get(asked, 0) for asked in ASKED + NETWORKS],
    "longest": lambda: [ROUTES.longest(asked) for asked in ASKED + NETWORKS],
    "changed": changed,
    "joined": lambda: (JOINED.join(TEXT_ROWS), ROUTES.join(TEXT_ROWS), ROUTES.join(ROWS)),
    "tables": lambda: (Table(NETWORKS), TABLE.find_column(ROWS), list(map(TABLE.find, ASKED[:3]))),
    "addresses read": lambda: ipnetwork.read_address_column(TEXTS, OFFSETS),
    "networks read": lambda: IPv4Network.read_column(TEXTS, OFFSETS),
    "read, 64 bits": lambda: ipnetwork.read_address_column(TEXTS, WIDE),
    "printed, 64 bits": lambda: ipnetwork.print_address_column(ROWS[:51], 64),
    "columns": lambda: (SET.contains_column(ROWS), NETWORKS[0].contains_column(bytes(8))),
    "addresses printed": lambda: ipnetwork.print_address_column(ROWS[:51]),
    "networks printed": lambda: IPv4Network.print_column(bytes(10)),
    "addresses": lambda: [ipnetwork.read_address(text) for text in ("10.1.2.3", "2001:db8::1")],
    "alone": lambda: [each in NETWORKS[0] for each in ALONE],
    "unmapped": lambda: (list(map(ipnetwork.unmapped, ASKED[:3])), ipnetwork._core.unmapped_rows(ROWS)),
    "joined, not refused": lambda: JOINED.join(["x" * 100, None, "\udcff"], invalid=False),
    "laid": lambda: [ipnetwork._core.layout(rows, None) for rows in LAID],
    "ipaddress": lambda: IPv4Network.from_ipaddress(NETWORKS[2].to_ipaddress()),
    "pickled": lambda: pickle.loads(pickle.dumps(NETWORKS)),
}
REFUSED = {
    "text": lambda: IPv4Network("10.0.0.0/99"),
    "either": lambda: ip_network("x"),
    "type": lambda: ip_network(7),
    "again": lambda: NETWORKS[0].__init__("::"),
    "prefix": lambda: IPv4Network.of(IPv4Address("10.0.0.1"), 99),
    "mask": lambda: IPv4Network.prefix_of_mask(IPv4Address("10.0.0.1")),
    "nth": lambda: NETWORKS[0][2**200],
    "member": lambda: "10.0.0.1" in NETWORKS[0],
    "family": lambda: NETWORKS[0].subnet_of(NETWORKS[1]),
    "set": lambda: "10.0.0.1" in SET,
    "table": lambda: TABLE.find("10.0.0.1"),
    "network of a table": lambda: TABLE.find(NETWORKS[0]),
    "address read": lambda: ipnetwork.read_address("fe80::1%eth0"),
    "no address read": lambda: ipnetwork.read_address(b"::1"),
    "unmapped": lambda: ipnetwork.unmapped("::1"),
    "packed in a column": lambda: ROUTES.join([b"\n\1\2\3"]),
    "part": lambda: SET.contains_column(bytes(16)),
    "row": lambda: SET.contains_column(bytes(16) + b"\5"),
    "row of a table": lambda: TABLE.find_column(bytes(16) + b"\5"),
    "words": lambda: SET.contains_column(array.array("I", [1])),
    "words of a network": lambda: NETWORKS[0].contains_column(array.array("I", [1])),
    "offsets": lambda: ipnetwork.read_address_column(TEXTS, array.array("I", [9, 1])),
    "no offsets": lambda: ipnetwork.read_address_column(TEXTS, array.array("H", [0])),
    "offsets of 64 bits": lambda: ipnetwork.read_address_column(TEXTS, array.array("Q", [9, 1])),
    "no whole numbers": lambda: ipnetwork.read_address_column(TEXTS, array.array("d", [0, 1])),
    "covered": lambda: SET.covers("10.0.0.0/8"),
    "a range": lambda: AddressSet.of_ranges([(ASKED[0], ASKED[0] - 1)]),
    "a range of two": lambda: ipnetwork.summarize_address_range(ASKED[0], ASKED[1]),
    "built": lambda: AddressSetBuilder().add(b"10.0.0.0/8"),
    "set of texts": lambda: AddressSet(["::/0", "10.0.0.0/33"]),
    "key": lambda: ROUTES.__setitem__(ASKED[0], 1),
    "no key": lambda: ROUTES[ip_network("8.0.0.0/8")],
    "no key for an address": lambda: ROUTES[IPv4Address("8.8.8.8")],
    "asked of a prefix table": lambda: ROUTES.longest("10.0.0.1"),
    "joined": lambda: JOINED.join([7]),
    "no address joined": lambda: JOINED.join(["x" * 100, None]),
    "rows joined": lambda: ROUTES.join(bytes(16) + b"\5"),
    "printed": lambda: IPv4Network.print_column(bytes(4) + b"\x63"),
}


def used(call, turns):
    """How many bytes more are in use after a call, many times: the least of some rounds, since what
    others keep grows once."""
    rounds = []
    for _ in range(4):
        gc.collect()
        before = tracemalloc.get_traced_memory()[0]
        for _ in range(turns):
            call()
        gc.collect()
        rounds.append(tracemalloc.get_traced_memory()[0] - before)
        if rounds[-1] < LEAST:
            break
    return min(rounds)


def memory_in_use():
    """The bytes of memory that the process has, as Linux tells them."""
    with open("/proc/self/statm") as file:
        return int(file.read().split()[1]) * 4096


class Memory(unittest.TestCase):
    def setUp(self):
        tracemalloc.start()

    def tearDown(self):
        tracemalloc.stop()

    def test_calls(self):
        for name, call in CALLS.items():
            with self.subTest(name):
                self.assertLess(used(call, 500), LEAST)

    def test_refusals(self):
        for name, call in REFUSED.items():

            def refused():
                with self.assertRaises((ValueError, TypeError, LookupError)):
                    call()

            with self.subTest(name):
                self.assertLess(used(refused, 500), LEAST)

    def test_a_million_questions(self):
        routes = PrefixTable(zip(MANY, range(len(MANY))))
        address, row = ASKED[0], bytes(ROWS[:17])
        turns = 250_000 if ipnetwork.CORE == "native" else 2_500
        tracemalloc.stop()
        for call in (
            lambda: address in MANY,
            lambda: MANY.contains_column(row),
            lambda: MANY_ROUTES.find(address),
            lambda: routes.get(address),
        ):
            call()
            before = memory_in_use()
            for _ in range(turns):
                call()
            self.assertLess(memory_in_use() - before, 2**20)
        tracemalloc.start()

    def test_references(self):
        # From Python 3.12 on those of the first four are not counted, and so do not change.
        masks = [IPv4Network("10.1.9.32/30").netmask, IPv6Network("::1:2/126").netmask]
        kept = [None, NotImplemented, True, False, *masks, IPv4Network, IPv6Network]
        for call in CALLS.values():
            call()
        before = [sys.getrefcount(each) for each in kept]
        for call in CALLS.values():
            for _ in range(1000):
                call()
        for each, count in zip(kept, before):
            self.assertLess(abs(sys.getrefcount(each) - count), 500, each)


if __name__ == "__main__":
    unittest.main()
