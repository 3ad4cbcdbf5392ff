"""Each request for memory of a call refused in turn: MemoryError, and what was there is as it was.

It needs `_testcapi`, which is in the Python that CPython's own tests are run by."""

import contextlib
import faulthandler
import functools
import io
import ipaddress
import pickle
import sys
import unittest
from ipaddress import IPv4Address, IPv6Address

import ipnetwork
import test_memory
from ipnetwork import (
    AddressSet,
    AddressSetBuilder,
    IPv4Network,
    IPv6Network,
    PrefixTable,
    ip_network,
)

try:
    from _testcapi import remove_mem_hooks, set_nomemory
except ImportError:
    set_nomemory = None

MOST = 3000  # requests of a call that are refused
#: From this version on the interpreter itself may fault if memory for a frame is refused.
FRAMES = sys.version_info >= (3, 12)


def core_calls():
    """Calls of the extension itself, without a frame of Python."""
    core, four, six = ipnetwork._core, ip_network("10.1.9.32/16"), ip_network("2001:db8::1/32")
    fours, sixes = test_memory.MANY._fours, test_memory.MANY._sixes
    asked_set, asked_table = test_memory.MANY._indexed(), test_memory.MANY_ROUTES._made()
    for kind, text in ((IPv4Network, "10.1.9.32/16"), (IPv6Network, "2001:db8::1/32")):
        yield functools.partial(kind, text)
        yield functools.partial(core.ip_network, text)
        yield functools.partial(core.of_packed, kind, bytes(kind.max_prefixlen // 8), 8)
        yield functools.partial(core.of_rows, kind, bytes((kind.max_prefixlen // 8 + 1) * 3))
    for network in (four, six):
        for part in ("ip", "broadcast_address", "num_addresses", "netmask", "_row"):
            yield functools.partial(getattr, network, part)
        yield from (
            functools.partial(call, network)
            for call in (str, hash, core.block_row, network.subnet_of)
        )
        yield functools.partial(core.subnet_at, network, network.prefixlen + 1, 1)
        yield functools.partial(network.__getitem__, -1)
        yield functools.partial(network.contains_column, bytes(32))
    for asked in (*test_memory.ASKED, four, six, ipaddress.ip_network("10.1.0.0/16")):
        yield functools.partial(core.set_contains, asked_set, asked)
        yield functools.partial(
            core.longest_key, test_memory.ROUTES._values, b"\x10\x08", b"\x20", asked
        )
    for text in ("10.1.9.32", "2001:db8::1"):
        yield functools.partial(core.read_address, text)
    for asked in test_memory.ASKED[:3]:
        yield functools.partial(core.unmapped, asked)
        yield functools.partial(core.table_find, asked_table, asked)
    for version, rows in ((4, fours), (6, sixes)):
        yield functools.partial(core.aggregate, version, rows * 3)
        yield functools.partial(core.table_make, version, rows * 3)
        yield functools.partial(core.index, version, rows)
        yield functools.partial(core.ranges, version, rows, bytes(8 * len(rows)))
        for sign in "|&-":
            yield functools.partial(core.operate, sign, version, rows, rows)
            yield functools.partial(core.is_empty, sign, version, rows, rows)
        yield functools.partial(core.print_rows, version, rows * 3, 64)
    for low, high in (
        (IPv4Address(1), IPv4Address(2**32 - 2)),
        (IPv6Address(1), IPv6Address(2**128 - 2)),
    ):
        yield functools.partial(core.range_rows, low.packed, high.packed)
    for offsets in (test_memory.OFFSETS, test_memory.WIDE):
        for kind in (0, 4, 6):
            yield functools.partial(core.read_rows, kind, test_memory.TEXTS, offsets)
    yield functools.partial(core.set_contains_column, asked_set, test_memory.ROWS)
    yield functools.partial(core.table_find_column, asked_table, test_memory.ROWS)
    yield functools.partial(core.layout, ["10.1.2.3", None, b"::1"], None)


def refused(call, turns=MOST):
    """Calls again and again, each time with another request refused, until none is left; gives what
    the last call gave, and how many were refused."""
    count = 0
    for turn in range(turns):
        raised = made = None
        set_nomemory(turn, turn + 1)
        try:
            made = call()
        except MemoryError:
            raised = True
        finally:
            remove_mem_hooks()
        if not raised:
            return made, count
        count += 1
    raise AssertionError("there is no end of requests")


@unittest.skipIf(set_nomemory is None, "this Python has no _testcapi")
@unittest.skipIf(ipnetwork.CORE == "ctypes", "the module of ctypes asks for memory of its own")
class Refused(unittest.TestCase):
    def setUp(self):
        # Python itself says there what it cannot raise: of a bytearray that was refused its bytes,
        # and of a generator that was not run to its end.
        said = contextlib.redirect_stderr(io.StringIO())
        said.__enter__()
        self.addCleanup(said.__exit__, None, None, None)

    def test_core(self):
        refusals = 0
        for call in core_calls():
            with self.subTest(call):
                wanted = call()
                made, count = refused(call)
                self.assertEqual(made, wanted)
                refusals += count
        self.assertGreater(refusals, 100)

    @unittest.skipIf(FRAMES, "the interpreter faults")
    def test_calls(self):
        refusals = 0
        for name, call in test_memory.CALLS.items():
            with self.subTest(name):
                wanted = call()
                made, count = refused(call)
                refusals += count
                if name != "tables":  # those are not equal
                    self.assertEqual(made, wanted)
        self.assertGreater(refusals, 500)

    @unittest.skipIf(FRAMES, "the interpreter faults")
    def test_a_builder_is_as_it_was(self):
        for settled in (False, True):
            builder, network = AddressSetBuilder(test_memory.SET), ip_network("192.0.2.0/24")
            for change, wanted in (
                (builder.add, test_memory.SET | AddressSet([network])),
                (builder.discard, test_memory.SET),
            ):
                for turn in range(MOST):
                    before = builder.build() if settled else None
                    set_nomemory(turn, turn + 1)
                    try:
                        change(network)
                    except MemoryError:
                        continue
                    finally:
                        remove_mem_hooks()
                        if settled:
                            self.assertIn(builder.build(), (before, wanted))
                    break
                made, _ = refused(builder.build)
                self.assertEqual(made, wanted)

    @unittest.skipIf(FRAMES, "the interpreter faults")
    def test_an_index_that_is_refused(self):
        asked, rows = test_memory.ASKED[:2], test_memory.ROWS
        for make, calls in (
            (
                lambda: AddressSet(test_memory.MANY),
                (
                    lambda given: [each in given for each in asked],
                    lambda given: given.covers(test_memory.NETWORKS[2]),
                    lambda given: given.contains_column(rows),
                ),
            ),
            (
                lambda: pickle.loads(pickle.dumps(test_memory.MANY_ROUTES)),
                (
                    lambda given: list(map(given.find, asked)),
                    lambda given: given.find_column(rows),
                    lambda given: given.join(rows),
                ),
            ),
            (
                lambda: PrefixTable((network, 7) for network in test_memory.MANY),
                (
                    lambda given: [given.get(each) for each in asked * 9],
                    lambda given: given.join(rows * 9),  # as many rows as make the index
                ),
            ),
        ):
            wanted = [call(make()) for call in calls]
            for call, answer in zip(calls, wanted):
                for turn in range(MOST):
                    given, raised = make(), False
                    set_nomemory(turn, turn + 1)
                    try:
                        got = call(given)
                    except MemoryError:
                        raised = True
                    finally:
                        remove_mem_hooks()
                    self.assertEqual([each(given) for each in calls], wanted)
                    self.assertEqual(len(given), len(make()))
                    if not raised:
                        self.assertEqual(got, answer)
                        break

    @unittest.skipIf(FRAMES, "the interpreter faults")
    def test_a_table_is_as_it_was(self):
        network = ip_network("192.0.2.0/24")
        for new in (network, test_memory.NETWORKS[0]):
            for name, act in (
                ("set", lambda table: table.__setitem__(new, "x")),
                ("setdefault", lambda table: table.setdefault(new, "x")),
                ("pop", lambda table: table.pop(new, None)),
                ("popitem", PrefixTable.popitem),
                ("clear", PrefixTable.clear),
            ):
                model = PrefixTable(zip(test_memory.NETWORKS, "abc"))
                before = list(model.items())
                act(model)
                after = list(model.items())
                for turn in range(MOST):
                    table, raised = PrefixTable(before), False
                    table.join(test_memory.TEXT_ROWS)  # its search is ready
                    set_nomemory(turn, turn + 1)
                    try:
                        act(table)
                    except MemoryError:
                        raised = True
                    finally:
                        remove_mem_hooks()
                    got = list(table.items())
                    self.assertEqual(got, before if raised else after, (name, new, turn))
                    for asked in test_memory.ASKED[:2]:
                        found = table.longest(asked)
                        self.assertEqual(found, PrefixTable(table.items()).longest(asked))
                    if not raised:
                        break


if __name__ == "__main__":
    faulthandler.enable()
    unittest.main()
