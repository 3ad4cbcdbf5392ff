"""The mapping from networks to values, compared with a ``dict`` and a look at each of its networks; the
values of a ``Table``."""

import array
import copy
import ipaddress
import itertools
import pickle
import random
import sys
import threading
import time
import unittest
from collections.abc import MutableMapping
from ipaddress import IPv4Address, IPv6Address

import ipnetwork
from ipnetwork import IPv4Network, IPv6Network, PrefixTable, Table, ip_network

WINDOWS = [
    (IPv4Network, IPv4Address, base) for base in (0, int(IPv4Address("192.0.2.0")), 2**32 - 256)
] + [
    (IPv6Network, IPv6Address, base) for base in (0, int(IPv6Address("2001:db8::")), 2**128 - 256)
]


def drawn(rng, window):
    """A network of a window, with host bits, or one of the shortest."""
    kind, address, base = window
    length = rng.choice((kind.max_prefixlen - rng.randrange(9), rng.randrange(3)))
    return kind.of(address(base + rng.randrange(256)), length)


def block(network):
    return type(network).of(network.network_address, network.prefixlen)


def longest(model, asked):
    """The longest network of a dict that has an address, or all of a network."""
    if isinstance(asked, (IPv4Network, IPv6Network)):
        having = [each for each in model if each.version == asked.version and asked.subnet_of(each)]
    else:
        having = [each for each in model if asked in each]
    return max(having, key=lambda each: each.prefixlen, default=None)


def column(texts):
    offsets = array.array("I", itertools.accumulate(map(len, texts), initial=0))
    return ipnetwork.read_address_column("".join(texts).encode(), offsets)[0]


class Mapping(unittest.TestCase):
    def compare(self, table, model, rng, window):
        kind, address, base = window
        self.assertEqual((len(table), bool(table)), (len(model), bool(model)))
        self.assertEqual(list(table), list(model))
        self.assertEqual(list(table.items()), list(model.items()))
        self.assertEqual(
            (list(table.keys()), list(table.values())), (list(model), list(model.values()))
        )
        hosts = [address(base + host) for host in rng.sample(range(256), 24)]
        hosts += [address(0), address(2**kind.max_prefixlen - 1)]
        wanted = [longest(model, host) for host in hosts]
        for host, key in zip(hosts, wanted):
            self.assertEqual(table.longest(host), None if key is None else (key, model[key]))
            self.assertEqual(table.get(host, "none"), "none" if key is None else model[key])
            self.assertIs(host in table, key is not None)
            if key is None:
                with self.assertRaises(KeyError):
                    table[host]
            else:
                self.assertEqual(table[host], model[key])
        values = [None if key is None else model[key] for key in wanted]
        self.assertEqual(table.join(hosts), values)
        self.assertEqual(table.join(column([str(host) for host in hosts])), values)
        for network in [drawn(rng, window) for _ in range(8)]:
            key, exact = longest(model, network), model.get(block(network), "none")
            self.assertEqual(table.longest(network), None if key is None else (key, model[key]))
            self.assertIs(network in table.keys(), exact != "none")
            if network.num_addresses == 1 and key is not None:  # asked about as its address
                exact = model[key]
            self.assertEqual(table.get(network, "none"), exact)
            self.assertEqual(table.get(network.to_ipaddress().network, "none"), exact)
            self.assertIs(network in table, exact != "none")

    def test_compared_with_dict(self):
        rng = random.Random(60)
        for window in WINDOWS:
            for _ in range(6):
                table, model = PrefixTable(), {}
                for turn in range(40):
                    network, act = drawn(rng, window), rng.random()
                    if act < 0.6:
                        table[network] = model[block(network)] = turn
                    elif act < 0.8 and model:
                        network = rng.choice(list(model))
                        del table[network], model[network]
                    elif act < 0.9:
                        self.assertEqual(table.pop(network, -1), model.pop(block(network), -1))
                    else:
                        self.assertEqual(
                            table.setdefault(network, turn), model.setdefault(block(network), turn)
                        )
                    if turn % 3 == 0:
                        self.compare(table, model, rng, window)
                self.compare(table, model, rng, window)
                self.assertEqual(table, PrefixTable(model))
                while model:
                    self.assertEqual(table.popitem(), model.popitem())
                self.compare(table, model, rng, window)

    def test_both_families(self):
        table = PrefixTable([(ip_network("::/0"), "six"), (ip_network("0.0.0.0/0"), "four")])
        for asked, wanted in (("::1", "six"), ("::ffff:1.2.3.4", "six"), ("1.2.3.4", "four")):
            self.assertEqual(table[ipaddress.ip_address(asked)], wanted)
        self.assertEqual(table.join(["::1", "1.2.3.4", "x", None], invalid=False), ["six", "four", None, None])
        del table[ip_network("0.0.0.0/0")]
        self.assertEqual(table.join(["::1", "1.2.3.4"], "none"), ["six", "none"])

    def test_what_it_is_asked(self):
        table = PrefixTable({ip_network("10.1.9.32/16"): 1})
        self.assertEqual(list(table), [ip_network("10.1.0.0/16")])
        self.assertEqual(table[ip_network("10.1.200.0/16")], 1)
        self.assertEqual(table[ipaddress.ip_network("10.1.0.0/16")], 1)
        self.assertEqual(
            table[ipaddress.ip_interface("10.1.2.3/30")], 1
        )  # an interface is its address
        with self.assertRaises(KeyError) as raised:
            table[ip_network("10.1.0.0/17")]
        self.assertEqual(raised.exception.args, (ip_network("10.1.0.0/17"),))
        for asked in ("10.1.0.0/16", 7, None, b"\x0a\1\0\0", ("10.1.0.0", 16)):
            for call in (table.__getitem__, table.get, table.__contains__, table.longest):
                with self.assertRaisesRegex(TypeError, type(asked).__name__):
                    call(asked)
        for key in (
            "10.0.0.0/8",
            IPv4Address("10.1.2.3"),
            ipaddress.ip_network("10.1.0.0/16"),
            None,
        ):
            for call in (
                table.__delitem__,
                table.pop,
                table.setdefault,
                lambda each: table.__setitem__(each, 1),
            ):
                with self.assertRaisesRegex(TypeError, type(key).__name__):
                    call(key)
            with self.assertRaisesRegex(TypeError, type(key).__name__):
                PrefixTable([(key, 1)])
        with self.assertRaises(TypeError):
            table.pop(ip_network("10.1.0.0/16"), 1, 2)
        for call in (table.__delitem__, table.pop):
            with self.assertRaises(KeyError):
                call(ip_network("10.1.0.0/17"))
        self.assertEqual(dict(table), {ip_network("10.1.0.0/16"): 1})

    def test_values(self):
        table = PrefixTable({ip_network("10.0.0.0/8"): [1], ip_network("::/0"): None})
        self.assertIsInstance(table, MutableMapping)
        with self.assertRaises(TypeError):
            hash(table)
        for again in (
            pickle.loads(pickle.dumps(table)),
            copy.copy(table),
            copy.deepcopy(table),
            table.copy(),
        ):
            self.assertEqual(again, table)
            again[ip_network("10.0.0.0/9")] = 2
            self.assertEqual(len(table), 2)
        self.assertIs(copy.copy(table)[IPv4Address("10.0.0.1")], table[IPv4Address("10.0.0.1")])
        self.assertIsNot(
            copy.deepcopy(table)[IPv4Address("10.0.0.1")], table[IPv4Address("10.0.0.1")]
        )
        self.assertEqual(eval(repr(table), vars(ipnetwork)), table)
        self.assertEqual(table, dict(table))
        self.assertNotEqual(table, {ip_network("10.0.0.0/8"): [1]})
        self.assertNotEqual(table, 7)
        table[ip_network("::1")] = table  # it may have itself, as a dict may
        again = pickle.loads(pickle.dumps(table))
        self.assertIs(again[ip_network("::1")], again)
        self.assertIsNone(table[ip_network("::/0")])
        self.assertIn(ip_network("::/0"), table)
        table.clear()
        self.assertEqual((len(table), table.longest(IPv6Address("::1"))), (0, None))
        table.update({ip_network("::/0"): 1})
        self.assertEqual(table[IPv6Address("::1")], 1)
        with self.assertRaises(KeyError):
            PrefixTable().popitem()

    def test_subclasses(self):
        class Named(PrefixTable):
            pass

        globals()["Named"], Named.__qualname__ = Named, "Named"
        named = Named({ip_network("10.0.0.0/8"): 1})
        named.name = "tens"
        for again in (pickle.loads(pickle.dumps(named)), copy.copy(named), copy.deepcopy(named)):
            self.assertEqual((type(again), again, again.name), (Named, named, "tens"))
        self.assertIs(type(named.copy()), Named)

    def test_changed_meanwhile(self):
        for view in (iter, PrefixTable.keys, PrefixTable.values, PrefixTable.items):
            table = PrefixTable({ip_network("10.0.0.0/8"): 1, ip_network("::/0"): 2})
            each = iter(view(table))
            next(each)
            table[ip_network("10.0.0.0/8")] = 3  # the value of a network that is there
            table[ip_network("10.0.0.0/9")] = 4
            with self.assertRaises(RuntimeError):
                next(each)

    def test_clustered(self):
        # Each network lies in the one before: look-ups go on from the longest to the shortest.
        table = PrefixTable(
            {IPv4Network.of(IPv4Address(0), length): length for length in range(33)}
        )
        for turn in range(2):
            for bit in range(32):
                self.assertEqual(table[IPv4Address(1 << bit)], 31 - bit)
            self.assertEqual(
                table.join([IPv4Address(1 << bit) for bit in range(32)]),
                [31 - bit for bit in range(32)],
            )
            self.assertEqual(table[IPv4Address(0)], 32)
        table = PrefixTable(
            {IPv6Network.of(IPv6Address(0), length): length for length in range(129)}
        )
        self.assertEqual(
            [table[IPv6Address(1 << bit)] for bit in range(128)], [127 - bit for bit in range(128)]
        )

    def test_changes_and_questions_in_turn(self):
        rng = random.Random(61)
        networks = [IPv4Network.of(IPv4Address(rng.getrandbits(32)), 24) for _ in range(20_000)]

        def changed(size):
            table, began = PrefixTable(dict.fromkeys(networks[:size], 0)), time.process_time()
            for turn in range(2000):
                table[IPv4Network.of(IPv4Address(turn), 32)] = turn
                self.assertEqual(table[IPv4Address(turn)], turn)
                self.assertEqual(table.join([IPv4Address(turn)]), [turn])
                del table[IPv4Network.of(IPv4Address(turn), 32)]
            return time.process_time() - began

        few, many = changed(200), changed(20_000)
        self.assertLess(many, 20 * few, "a change should not take time in proportion to the table")

    def test_threads(self):
        table, errors = PrefixTable({ip_network("10.0.0.0/8"): 0}), []

        def change(part):
            for host in range(256):
                table[ip_network(f"10.{part}.{host}.0/24")] = part

        def ask():
            for _ in range(300):
                if table[IPv4Address("10.200.0.1")] != 0 or table.join(["10.200.0.1"]) != [0]:
                    errors.append("a value was lost")

        threads = [threading.Thread(target=change, args=(part,)) for part in range(6)]
        threads += [threading.Thread(target=ask) for _ in range(2)]
        for thread in threads:
            thread.start()
        for thread in threads:
            thread.join()
        self.assertEqual((errors, len(table)), ([], 6 * 256 + 1))
        asked = [f"10.{part}.{host}.1" for part in range(6) for host in range(256)]
        self.assertEqual(table.join(asked), [part for part in range(6) for _ in range(256)])
        for text in asked:
            self.assertEqual(table[IPv4Address(text)], int(text.split(".")[1]))

    def test_a_network_that_comes_and_goes(self):
        # Each answer is that of the table before a change, or after it.
        table, errors = PrefixTable({ip_network("10.0.0.0/8"): 8}), []
        asked, network = IPv4Address("10.1.2.3"), ip_network("10.1.0.0/16")

        def change():
            for _ in range(10_000):
                table[network] = 16
                table.join([asked])  # its search is ready
                del table[network]

        def ask():
            while threads[0].is_alive() and not errors:
                try:
                    got = {table[asked], table.get(asked), table.longest(asked)[1]}
                    got.update(table.join([asked]))
                except (LookupError, TypeError) as error:
                    errors.append(error)
                else:
                    errors.extend(got - {8, 16})

        before = sys.getswitchinterval()
        sys.setswitchinterval(1e-6)
        self.addCleanup(sys.setswitchinterval, before)
        threads = [
            threading.Thread(target=change),
            *(threading.Thread(target=ask) for _ in range(2)),
        ]
        for thread in threads:
            thread.start()
        for thread in threads:
            thread.join()
        self.assertEqual(errors, [])


class Joined(unittest.TestCase):
    TABLE = [ip_network(text) for text in ("10.0.0.0/8", "2001:db8::/32", "10.1.0.0/16")]
    ROWS = ["10.1.2.3", "8.8.8.8", None, float("nan"), IPv6Address("2001:db8::1"), b"10.2.0.0"]

    def test_values_of_a_table(self):
        table = Table(self.TABLE, iter("abc"))
        self.assertEqual(table.join(self.ROWS), ["c", None, None, None, "b", "a"])
        self.assertEqual(table.join(tuple(self.ROWS), 7), ["c", 7, 7, 7, "b", "a"])
        self.assertEqual(table.join([]), [])
        self.assertEqual(table.join(column(["10.1.2.3", "8.8.8.8", "::"])), ["c", None, None])
        self.assertEqual(table.find(IPv4Address("10.1.2.3")), 2)
        again = pickle.loads(pickle.dumps(table))
        self.assertEqual((again.join(self.ROWS), len(again)), (table.join(self.ROWS), 3))
        self.assertEqual(
            pickle.loads(pickle.dumps(Table(self.TABLE))).find(IPv4Address("10.1.2.3")), 2
        )
        with self.assertRaisesRegex(ValueError, "2 values for 3 networks"):
            Table(self.TABLE, "ab")
        with self.assertRaisesRegex(ValueError, "no values"):
            Table(self.TABLE).join(self.ROWS)
        with self.assertRaises(TypeError):
            table.__init__(self.TABLE)
        self.assertEqual(len(table), 3)

    def test_ranges_are_those_of_the_library(self):
        # 10.0.0.0/8 and 10.1.0.0/16 are cut at 10.0.0.0, 10.1.0.0, 10.2.0.0 and 11.0.0.0.
        numbers = array.array("q", [7, 3]).tobytes()
        blocks = b"".join(ip_network(text)._row for text in ("10.0.0.0/8", "10.1.0.0/16"))
        core = ipnetwork._core
        ranges, range_numbers, index = core.ranges(4, blocks, numbers)
        wanted = ("10.0.0.0", "10.1.0.0", "10.2.0.0", "11.0.0.0")
        self.assertEqual(ranges, b"".join(ip_network(text)._row for text in wanted))
        self.assertEqual(memoryview(range_numbers).cast("q").tolist(), [7, 3, 7, -1])
        self.assertEqual(index, b"")
        # The last address of all has none after it; a range is cut twice where one block ends and another begins.
        blocks = b"".join(ip_network(text)._row for text in ("::/1", "8000::/1"))
        ranges, range_numbers, _ = core.ranges(6, blocks, numbers)
        wanted = ("::", "8000::", "8000::")
        self.assertEqual(ranges, b"".join(ip_network(text)._row for text in wanted))
        self.assertEqual(memoryview(range_numbers).cast("q").tolist(), [7, 3, 3])
        self.assertEqual(core.ranges(4, b"", b""), (b"", b"", b""))
        with self.assertRaises(ValueError):
            core.ranges(4, bytes(10), bytes(8))

    def test_rows_that_are_refused(self):
        for table in (Table(self.TABLE, "abc"), PrefixTable(zip(self.TABLE, "abc")), PrefixTable()):
            for rows in (
                "10.1.2.3",
                7,
                None,
                [7],
                ["10.1.2.3", object()],
                {"10.1.2.3": 1},
                array.array("I", [1]),
            ):
                with self.assertRaises(TypeError):
                    table.join(rows)
            for rows in (
                b"10.1.2.3",
                bytes(16) + b"\5",
                bytearray(18),
                memoryview(bytes(16) + b"\1"),
            ):
                with self.assertRaises(ValueError):
                    table.join(rows)
            for words in (
                memoryview(array.array("I", [1] * 17)),
                memoryview(array.array("Q", [0] * 17)),
            ):
                with self.assertRaises(TypeError):
                    table.join(words)

    def test_of_a_data_frame(self):
        try:
            import pandas
        except ImportError:
            self.skipTest("there is no pandas here")
        log = pandas.DataFrame(
            {"address": ["10.1.2.3", "8.8.8.8", None], "bytes": [1, 2, 3]}, index=[5, 6, 7]
        )
        for table in (Table(self.TABLE, "abc"), PrefixTable(zip(self.TABLE, "abc"))):
            log["site"] = table.join(log.address, "elsewhere")
            self.assertEqual(log.site.tolist(), ["c", "elsewhere", "elsewhere"])
            self.assertEqual(log.groupby("site").bytes.sum().to_dict(), {"c": 1, "elsewhere": 5})


if __name__ == "__main__":
    unittest.main()
