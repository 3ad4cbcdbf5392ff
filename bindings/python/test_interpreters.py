"""Two interpreters of one process at once, each with a package of its own, and threads of one.

    test_interpreters.py [unittest's arguments]

Before Python 3.12 the interpreters take turns under one lock; from then on each has its own. What
the Python that runs this has not is skipped by name.
"""

import collections
import gc
import importlib.util
import os
import sys
import sysconfig
import threading
import unittest
import weakref
from ipaddress import IPv4Address, IPv6Address

import ipnetwork

try:
    import _interpreters as interpreters  # from Python 3.13 on
except ImportError:
    try:
        import _xxsubinterpreters as interpreters
    except ImportError:
        interpreters = None

HERE = os.path.dirname(os.path.abspath(__file__))
ENDS = ("10.0.0.0", 32), ("::", 128)

# What each interpreter asks. `ipnetwork` is imported once; `first` is what its classes were then.
ASKED = """
import array, ipaddress, sys
sys.path.insert(0, {here!r})
import ipnetwork
first = globals().setdefault("first", (ipnetwork.IPv4Network, ipnetwork.IPv6Network))
assert (ipnetwork.IPv4Network, ipnetwork.IPv6Network) == first
four, six = ipnetwork.ip_network("10.1.9.32/16"), ipnetwork.ip_network("2001:db8::/32")
assert (type(four), type(six)) == first, (type(four), type(six), first)
assert ipaddress.ip_address("10.1.2.3") in four and ipaddress.ip_address("10.2.0.0") not in four
assert four.subnet_of(ipnetwork.IPv4Network("10.0.0.0/8")) and not four.overlaps(six)
assert (str(four.netmask), str(four.network_address)) == ("255.255.0.0", "10.1.0.0")
assert (str(four[-1]), four.num_addresses) == ("10.1.255.255", 65536)
assert four == ipnetwork.IPv4Network(str(four)) and not four < four
allowed, table = ipnetwork.AddressSet([four, six]), ipnetwork.Table([six, four])
for turn in range({turns}):
    offsets = array.array("I", [0, 8, 15, 18, 19])
    rows, faults = ipnetwork.read_address_column(b"10.1.2.38.8.8.8::1x", offsets)
    assert (list(allowed.contains_column(rows)), list(faults)) == ([1, 0, 0, 0], [0, 0, 0, 2])
    assert memoryview(table.find_column(rows)).cast("q").tolist() == [1, -1, -1, -1]
    routes = ipnetwork.PrefixTable({{four: "lab", six: "office"}})
    assert routes[ipaddress.ip_address("10.1.2.3")] == "lab" and four in routes and four in allowed
    assert routes.join(rows) == ["lab", None, None, None]
    assert allowed - ~allowed == allowed > ipnetwork.AddressSet([four]) and len(allowed) == 2
    builder = ipnetwork.AddressSetBuilder(allowed)
    builder.discard(six)
    assert builder.build() == ipnetwork.AddressSet([four])
    halves = list(map(str, ipnetwork.IPv4Network("10.0.0.0/8").subnets()))
    assert halves == ["10.0.0.0/9", "10.128.0.0/9"]
for wrong, name in (("x", "AddressError"), ("a/b/c", "FormatError"), ("0.0.0.0/99", "PrefixError")):
    error = getattr(ipnetwork, name)
    try:
        ipnetwork.IPv4Network(wrong)
    except error:
        pass
    else:
        raise AssertionError(wrong)
try:
    "10.1.2.3" in allowed
except TypeError:
    pass
else:
    raise AssertionError("a text is no address")
"""


def asked(turns):
    return ASKED.format(here=HERE, turns=turns)


def run(number, code):
    """Runs code in an interpreter, and raises what it raises."""
    got = interpreters.run_string(number, code)
    if got is not None:  # from Python 3.13 on it is given back
        raise AssertionError(getattr(got, "formatted", got))


def at_once(calls):
    """Runs calls in threads of their own, and raises what one of them raises."""
    errors = []

    def kept(call):
        try:
            call()
        except BaseException as error:
            errors.append(error)

    threads = [threading.Thread(target=kept, args=(call,)) for call in calls]
    for thread in threads:
        thread.start()
    for thread in threads:
        thread.join()
    if errors:
        raise errors[0]


@unittest.skipIf(interpreters is None, "this Python has no module for interpreters")
@unittest.skipIf(
    ipnetwork.CORE == "ctypes" and sys.version_info[:2] == (3, 12),
    "_ctypes of Python 3.12 is for interpreters that share a lock",
)
class Interpreters(unittest.TestCase):
    def test_in_turn(self):
        own = {}
        exec(asked(1), own)
        one, other = interpreters.create(), interpreters.create()
        for number in (one, other, one):
            run(number, asked(1))
            exec(asked(1), own)
        interpreters.destroy(one)
        run(other, asked(1))
        exec(asked(1), own)
        interpreters.destroy(other)
        exec(asked(1), own)

    def test_at_once(self):
        numbers = [interpreters.create() for _ in range(2)]
        calls = [lambda number=number: run(number, asked(3000)) for number in numbers]
        at_once([*calls, lambda: exec(asked(3000), {})])
        for number in numbers:
            interpreters.destroy(number)
        exec(asked(1), {})

    @unittest.skipIf(sys.version_info >= (3, 12), "importlib imports it")
    def test_without_threading(self):
        # With it the end of an interpreter that another thread has run may wait for good.
        number = interpreters.create()
        run(number, 'import sys\nbefore = "threading" in sys.modules')
        run(number, asked(1) + 'assert ("threading" in sys.modules) == before')
        interpreters.destroy(number)

    def test_many_in_a_row(self):
        for _ in range(10):
            number = interpreters.create()
            run(number, asked(1))
            interpreters.destroy(number)


class Threads(unittest.TestCase):
    def test_what_is_kept_is_made_once(self):
        for _ in range(200):
            networks = [ipnetwork.ip_network("10.1.9.32/16"), ipnetwork.ip_network("2001:db8::/32")]
            parts = ("ip", "netmask", "network_address", "broadcast_address", "num_addresses")
            got = []

            def ask():
                got.append([[str(it), *(getattr(it, part) for part in parts)] for it in networks])

            at_once([ask] * 4)
            self.assertEqual(got, [got[0]] * 4)
            wanted = ["10.1.9.32/16", IPv4Address("10.1.9.32"), IPv4Address("255.255.0.0")]
            self.assertEqual(got[0][0][:3], wanted)

    def test_columns(self):
        at_once([lambda: exec(asked(2000), {})] * 4)

    @unittest.skipUnless(sysconfig.get_config_var("Py_GIL_DISABLED"), "no Python with free threads")
    def test_free(self):
        exec(asked(1), {})
        self.assertFalse(sys._is_gil_enabled())


@unittest.skipIf(ipnetwork.CORE == "ctypes", "there is no module of C")
class Modules(unittest.TestCase):
    def test_a_module_is_released(self):
        def used():
            path = ipnetwork._core.__file__
            spec = importlib.util.spec_from_file_location("ipnetwork._native", path)
            module = importlib.util.module_from_spec(spec)
            spec.loader.exec_module(module)
            four, six = type("Four", (module.V4,), {}), type("Six", (module.V6,), {})
            module.register(four, six)
            four.some = module.ip_network("10.0.0.0/8")
            for text, bits in ENDS:
                for prefix in range(bits + 1):  # each has a mask, which the module keeps
                    module.ip_network(f"{text}/{prefix}")
            self.assertIsNot(module.V4, ipnetwork._core.V4)
            self.assertIsInstance(module.ip_network("::1"), six)
            with self.assertRaises(TypeError):
                module.of_rows(ipnetwork.IPv4Network, bytes(5))
            del four.some
            return [weakref.ref(each) for each in (module, module.V4, four)]

        def alive():
            # A weak reference tells nothing of what a module lost and did not let go of: its
            # collection cleared that too. What is lost is among all objects still.
            gc.collect()
            count = collections.Counter(map(type, gc.get_objects()))
            return count[IPv4Address], count[IPv6Address]

        before = alive()
        for _ in range(20):
            references = used()
            gc.collect()
            self.assertEqual([reference() for reference in references], [None] * 3)
        self.assertEqual(alive(), before)


if __name__ == "__main__":
    unittest.main()
