"""The columns over NumPy, and over pandas if it is here, row by row against single calls and ``ipaddress``."""

import ipaddress
import math
import random
import unittest

try:
    import numpy
except ImportError:
    raise unittest.SkipTest("there is no NumPy here") from None

from ipnetwork import AddressError, AddressSet, IPv4Network, PrefixTable, Table, ip_network, read_address_column
from ipnetwork.columns import find, is_member, layout, read_addresses

try:
    import pandas
except ImportError:
    pandas = None
try:
    import dask.dataframe as frames
except ImportError:
    frames = None


def random_texts(count):
    rng = random.Random(30)
    for row in range(count):
        address = ipaddress.IPv4Address(rng.getrandbits(32)) if row % 2 else ipaddress.IPv6Address(rng.getrandbits(128))
        text = str(address)
        yield text[: rng.randrange(len(text))] if row % 7 == 0 else text


def address(text):
    try:
        return None if "%" in text else ipaddress.ip_address(text)  # a text with a zone is none
    except ValueError:
        return None


TEXTS = [*random_texts(500), "", "x", "\u0661.2.3.4", "fe80::1%eth0", "1.2.3.4\0", "::1", "10.0.0.0/8", "\udcff", "1.2.3.4"]
WHICH = AddressSet(map(ip_network, ("0.0.0.0/1", "::/1", "fe80::/10", "1.2.3.4")))


class Columns(unittest.TestCase):
    def columns(self):
        yield TEXTS
        yield tuple(TEXTS)
        yield numpy.array(TEXTS, dtype=object)
        if pandas is not None:
            yield pandas.Series(TEXTS)

    def test_layout(self):
        for texts in self.columns():
            whole, offsets = layout(texts)
            self.assertEqual((offsets.dtype, len(offsets)), (numpy.uint32, len(TEXTS) + 1))
            for row, text in enumerate(TEXTS):
                self.assertEqual(whole[offsets[row] : offsets[row + 1]], text.encode("utf-8", "replace"))
        self.assertEqual(layout([])[1].tolist(), [0])

    def test_addresses(self):
        for texts in self.columns():
            addresses, present = read_addresses(texts, invalid=False)
            for row, text in enumerate(TEXTS):
                wanted = None if "%" in text else address(text)
                self.assertEqual(bool(present[row]), wanted is not None, text)
                packed = b"" if wanted is None else wanted.packed
                self.assertEqual(bytes(addresses[row]), packed.ljust(16, b"\0") + bytes([len(packed)]), text)

    def test_members(self):
        wanted = [address(text) is not None and address(text) in WHICH for text in TEXTS]
        self.assertIn(True, wanted)
        for texts in self.columns():
            self.assertEqual(is_member(texts, WHICH, invalid=False).tolist(), wanted)
        addresses, _ = read_addresses(TEXTS, invalid=False)
        self.assertEqual(is_member(addresses, WHICH).tolist(), wanted)
        self.assertEqual(is_member(addresses[::2], WHICH).tolist(), wanted[::2])
        network = IPv4Network("128.0.0.0/1")
        self.assertEqual(
            is_member(TEXTS, network, invalid=False).tolist(), [address(text) is not None and address(text) in network for text in TEXTS]
        )
        self.assertEqual(is_member([], WHICH).tolist(), [])

    def test_found(self):
        table = Table(map(ip_network, ("0.0.0.0/0", "::/0", "128.0.0.0/1", "8000::/1")))
        wanted = []
        for text in TEXTS:
            each = address(text) if "%" not in text else None
            wanted.append(-1 if each is None else (each.version == 6) + 2 * (int(each) >> each.max_prefixlen - 1))
        for texts in self.columns():
            self.assertEqual(find(texts, table, invalid=False).tolist(), wanted)
        addresses, _ = read_addresses(TEXTS, invalid=False)
        self.assertEqual(find(addresses[::2], table).tolist(), wanted[::2])
        self.assertEqual(find([], table).tolist(), [])
        with self.assertRaisesRegex(TypeError, "not PrefixTable: .* join"):
            find(["10.0.0.1"], PrefixTable())

    def test_rows_without_a_text(self):
        rows = ["10.0.0.1", None, float("nan"), numpy.float32("nan"), "::1"]
        columns = [rows, numpy.array(rows, dtype=object)]
        if pandas is not None:
            columns.append(pandas.Series(rows))
            columns.append(pandas.Series(["10.0.0.1", None, pandas.NA, float("nan"), "::1"], dtype="string"))
            columns.append(pandas.Series(["10.0.0.1", pandas.NaT, pandas.NA, None, "::1"], dtype=object))
        for column in columns:
            self.assertEqual(read_addresses(column)[1].tolist(), [True, False, False, False, True])

    def test_objects(self):
        # What each row is, and whether it is in 10.1.0.0/16 or 2001:db8::/32.
        rows = [
            (ipaddress.IPv4Address("10.1.2.3"), True),
            (ipaddress.IPv6Address("2001:db8::1"), True),
            (ipaddress.IPv4Address("10.2.0.0"), False),
            (ipaddress.IPv6Address("::ffff:10.1.2.3"), False),
            (ipaddress.ip_interface("10.1.2.3/8"), True),
            (ipaddress.ip_interface("2001:db8::1/16"), True),
            (ipaddress.IPv6Address("2001:db8::1%eth0"), True),
            (ipaddress.ip_interface("2001:db8::1%eth0/64"), True),
            (ipaddress.ip_network("2001:db8::1%eth0/128"), True),
            (ipaddress.IPv6Address("2001:db9::1%eth0"), False),
            (ip_network("10.1.2.3"), True),
            (ip_network("2001:db9::1/128"), False),
            (ipaddress.ip_network("10.1.2.3"), True),
            (ipaddress.ip_network("2001:db8::1/128"), True),
            (b"10.1.2.3", True),
            (b"10.1.2.3 and more", False),
            (numpy.str_("10.1.2.3"), True),
            (numpy.bytes_(b"2001:db8::1"), True),
            ("\udcff", False),
            (None, False),
        ]
        objects, wanted = [row for row, _ in rows], [answer for _, answer in rows]
        which, table = AddressSet(map(ip_network, ("10.1.0.0/16", "2001:db8::/32"))), Table(map(ip_network, ("10.1.0.0/16", "2001:db8::/32")))
        array = numpy.empty(len(objects), dtype=object)
        array[:] = objects
        for column in (objects, tuple(objects), iter(objects), array, *([pandas.Series(objects)] if pandas is not None else [])):
            column = list(column) if hasattr(column, "__next__") else column
            self.assertEqual(is_member(column, which, invalid=False).tolist(), wanted)
            self.assertEqual((find(column, table, invalid=False) >= 0).tolist(), wanted)
            for row, each in enumerate(objects):
                self.assertEqual(is_member(column[row : row + 1], which, invalid=False).tolist(), [wanted[row]], each)
        self.assertEqual(is_member((row for row in objects), which, invalid=False).tolist(), wanted)
        self.assertEqual(is_member(numpy.array([b"10.1.2.3", b"10.2.0.0"]), which).tolist(), [True, False])
        # As the networks of the stdlib have it.
        theirs = ipaddress.ip_network("10.1.0.0/16"), ipaddress.ip_network("2001:db8::/32")
        for each, answer in rows:
            if isinstance(each, (ipaddress.IPv4Address, ipaddress.IPv6Address)):
                self.assertEqual(any(each in network for network in theirs), answer)

    def test_rows_that_are_refused(self):
        which = AddressSet([ip_network("0.0.0.0/0"), ip_network("::/0")])
        wrong = [7, 7.5, True, numpy.uint32(7), b"x"[0], bytearray(b"::1"), ["::1"], object(), ip_network("10.0.0.0/8"), ipaddress.ip_network("::/64")]
        for each in wrong:
            for call in (layout, read_addresses, lambda rows: is_member(rows, which), lambda rows: find(rows, Table(which))):
                with self.subTest(each), self.assertRaises(TypeError) as raised:
                    call(["10.1.2.3", None, each])
                self.assertIn("row 2: ", str(raised.exception))
                self.assertIn(type(each).__name__, str(raised.exception))

    def test_columns_that_are_refused(self):
        which = AddressSet([ip_network("0.0.0.0/0"), ip_network("::/0")])
        wrong = ["10.1.2.3", b"10.1.2.3", bytearray(b"::1"), memoryview(b"::1"), {"10.1.2.3": 1}, 7, None, numpy.array("10.1.2.3")]
        wrong += [numpy.array([["10.1.2.3"]]), numpy.array([[10, 1, 2, 3]] * 17, numpy.uint8), numpy.zeros((1, 16), numpy.uint8)]
        for kind in ("u1", "u4", ">u4", "u8", "i8", "f8", "M8[s]"):
            wrong.append(numpy.ones(17, kind))
        if pandas is not None:
            wrong += [pandas.DataFrame({"address": ["10.1.2.3"]}), pandas.Series([7], dtype="uint32"), pandas.DataFrame()]
        for each in wrong:
            for call in (lambda rows: is_member(rows, which), lambda rows: find(rows, Table(which)), layout, read_addresses):
                if call is read_addresses and getattr(each, "shape", ()) in ((17, 4), (1, 16)):
                    continue
                with self.subTest(repr(each)), self.assertRaises(TypeError):
                    call(each)

    def test_numbers(self):
        four, six = IPv4Network("10.1.0.0/16"), ip_network("2001:db8::/32")
        which, table = AddressSet([four, six]), Table([four, six])
        each = [int(ipaddress.IPv4Address(text)) for text in ("10.1.2.3", "10.2.0.0", "255.255.255.255", "0.0.0.0")]
        columns = [numpy.array(each, kind) for kind in ("u4", ">u4", "u8")] + [numpy.array(each * 2, "u4").reshape(-1, 2)[:, 0]]
        if pandas is not None:
            columns.append(pandas.Series(each, dtype="uint32"))
        for column in columns[:3] + columns[4:]:
            self.assertEqual(is_member(column, which, numbers=4).tolist(), [True, False, False, False])
            self.assertEqual(find(column, table, numbers=4).tolist(), [0, -1, -1, -1])
            addresses, present = read_addresses(column, numbers=4)
            self.assertEqual((present.tolist(), addresses.tolist()), ([True] * 4, read_addresses([ipaddress.IPv4Address(it) for it in each])[0].tolist()))
        self.assertEqual(is_member(columns[3], which, numbers=4).tolist(), [True, False, True, False])
        pairs = [divmod(int(ipaddress.IPv6Address(text)), 2**64) for text in ("2001:db8::1", "2001:db9::", "::2001:db8:0:0")]
        for kind in ("u8", ">u8"):
            self.assertEqual(is_member(numpy.array(pairs, kind), which, numbers=6).tolist(), [True, False, False])
            self.assertEqual(find(numpy.array(pairs, kind), table, numbers=6).tolist(), [1, -1, -1])
        self.assertEqual(is_member(numpy.array([], "u4"), which, numbers=4).tolist(), [])
        for column, numbers in (
            (["10.1.2.3"], 4),
            (numpy.array([True, False]), 4),
            (numpy.array(each, "f8"), 4),
            (numpy.array([each], "u4"), 4),
            (numpy.array(each, "u8"), 6),
            (numpy.array([each], "u8"), 6),
            (numpy.array([[1, 2]], "u4"), 6),
        ):
            with self.assertRaises(TypeError):
                is_member(column, which, numbers=numbers)
        for wrong, numbers in (([each[0], -1], 4), ([[0, 1], [-1, 0]], 6)):
            column = numpy.array(wrong, "i8")
            self.assertEqual(is_member(column, which, numbers=numbers, invalid=False).tolist(), [numbers == 4, False])
            self.assertEqual(is_member(column, which, numbers=numbers, invalid="null").tolist(), [numbers == 4, None])
        # Numbers with a sign are taken if they are those of addresses.
        for given in (numpy.array(each, "i8"), each):
            self.assertEqual(is_member(given, which, numbers=4).tolist(), [True, False, False, False])
        self.assertEqual(is_member(numpy.array([5, 10], "i1"), which, numbers=4).tolist(), [False, False])
        self.assertEqual(is_member(numpy.array(pairs, "i8"), which, numbers=6).tolist(), [True, False, False])
        for wrong, numbers in (([1, -1], 4), ([1, 2**32], 4), ([[0, 1], [-1, 0]], 6), ([[0, 1], [0, -1]], 6)):
            with self.assertRaisesRegex(ValueError, f"row 1: .* IPv{numbers} address"):
                is_member(numpy.array(wrong, "i8"), which, numbers=numbers)
        with self.assertRaisesRegex(ValueError, "row 1: 4294967296"):
            is_member(numpy.array([1, 2**32], "u8"), which, numbers=4)
        for numbers in (0, 32, "4"):
            with self.assertRaises(ValueError):
                is_member(numpy.array(each, "u4"), which, numbers=numbers)

    def test_numbers_that_are_missing(self):
        four, six = IPv4Network("10.1.0.0/16"), ip_network("2001:db8::/32")
        which = AddressSet([four, six, ip_network("0.0.0.0/8"), ip_network("::/8")])
        tables = Table([four, six], "ab"), PrefixTable({four: "a", six: "b"})
        inside = int(ipaddress.IPv4Address("10.1.2.3"))
        sixes = [divmod(int(ipaddress.IPv6Address("2001:db8::1")), 2**64), (0, 0), (0, 7)]
        hidden = numpy.array([False, True, False])
        fours = numpy.array([inside, 0, 7], "u4")
        columns = [
            (numpy.ma.masked_array(fours, hidden), 4, None),
            (numpy.ma.masked_array(fours, numpy.ma.nomask), 4, 0),
            (fours, 4, 0),
            (fours, 4, hidden),
            (fours, 4, hidden.tolist()),
            (numpy.array([inside, -1, 7]), 4, -1),
            (numpy.array([inside, 2**32 - 1, 7], "u4"), 4, 2**32 - 1),
            (numpy.ma.masked_array(numpy.array([inside, -5, 7]), hidden), 4, None),
            (numpy.array(sixes, "u8"), 6, (0, 0)),
            (numpy.array(sixes, "u8"), 6, hidden),
            (numpy.ma.masked_array(numpy.array(sixes, "u8"), [[False, False], [False, True], [False, False]]), 6, None),
        ]
        if pandas is not None:
            columns.append((pandas.Series([inside, None, 7], dtype="UInt32"), 4, None))
            columns.append((pandas.Series([inside, None, 7], dtype="Int64"), 4, None))
            columns.append((pandas.Series([inside, -1, 7]), 4, -1))
        for column, numbers, missing in columns:
            addresses, present = read_addresses(column, numbers=numbers, missing=missing)
            self.assertEqual(present.tolist(), [True, False, True], column)
            self.assertEqual(addresses[1].tolist(), [0] * 17)
            self.assertEqual(is_member(column, which, numbers=numbers, missing=missing).tolist(), [True, False, True])
            found = find(column, tables[0], numbers=numbers, missing=missing)
            self.assertEqual(found.tolist(), [int(numbers == 6), -1, -1])
            for table in tables:
                joined = table.join(column, "none", numbers=numbers, missing=missing)
                self.assertEqual(list(joined), ["ab"[numbers == 6], "none", "none"])
        self.assertEqual(tables[0].join(fours, numbers=4), ["a", None, None])
        for column, numbers, missing in (
            (fours, 4, [True, False]),
            (fours, 4, "0"),
            (fours, 4, (0, 0)),
            (fours, 4, 0.5),
            (fours, 4, True),
            (numpy.array(sixes, "u8"), 6, 0),
            (["10.1.2.3"], None, 0),
        ):
            for call in (lambda: is_member(column, which, numbers=numbers, missing=missing), lambda: tables[0].join(column, numbers=numbers, missing=missing)):
                with self.assertRaises(TypeError):
                    call()
        # A masked array of texts, too, has no address where it is masked.
        texts = numpy.ma.masked_array(["10.1.2.3", "10.1.2.4"], [False, True])
        self.assertEqual(is_member(texts, which).tolist(), [True, False])

    def questions(self, **options):
        """Each call that takes a column with texts and answers for each row, about 10.0.0.0/8."""
        tens = [ip_network("10.0.0.0/8")]
        which, table, values = AddressSet(tens), Table(tens, ["lab"]), PrefixTable({tens[0]: "lab"})
        yield lambda rows: is_member(rows, which, **options)
        yield lambda rows: is_member(rows, tens[0], **options)
        yield lambda rows: find(rows, table, **options)
        yield lambda rows: table.join(rows, **options)
        yield lambda rows: values.join(rows, **options)
        yield lambda rows: which.contains_column(list(rows), **options)
        yield lambda rows: table.find_column(list(rows), **options)

    def test_texts_that_name_no_address(self):
        wrong = [" 10.0.0.1", "10.0.0.1 ", "10.0.0.1:443", "010.0.0.5", "", "fe80::1%eth0", "10.0.0.0/8", "10.0.0.1\n", "\u0661.2.3.4"]
        wrong += [b"10.0.0.1:443", b" 10.0.0.1", "10.0.0.1\0", "\udcff"]
        for each in wrong:
            rows = ["10.0.0.1", None, math.nan, each, "x"]
            array = numpy.empty(len(rows), object)
            array[:] = rows
            for column in (rows, tuple(rows), array, *([pandas.Series(rows, index=list("abcde"))] if pandas is not None else [])):
                for call in (*self.questions(), *self.questions(invalid="raise"), read_addresses, lambda rows: read_addresses(rows, invalid="raise")):
                    with self.subTest(repr(each)), self.assertRaises(AddressError) as raised:
                        call(column)
                    self.assertIn(f"row 3: {each!r} is no address", str(raised.exception))
                    self.assertIsInstance(raised.exception, ValueError)
        for invalid in (True, None, 1, "", "false", "ignore", "x" * 1000):
            for call in (*self.questions(invalid=invalid), lambda rows: read_addresses(rows, invalid=invalid)):
                for rows in (["10.0.0.1"], [], numpy.zeros((1, 17), numpy.uint8)):
                    with self.subTest(invalid), self.assertRaises((ValueError, TypeError)) as raised:
                        call(rows)
                    self.assertLess(len(str(raised.exception)), 200)

    def test_texts_that_are_no_member(self):
        rows = ["10.0.0.1", "10.0.0.1:443", None, "8.8.8.8"]
        answers = [[True, False, False, False]] * 2 + [[0, -1, -1, -1]] + [["lab", None, None, None]] * 2
        for column in (rows, numpy.array(rows, object)):
            for call, answer in zip(self.questions(invalid=False), answers):
                self.assertEqual(list(call(column)), answer)
            contained, found = list(self.questions(invalid=False))[5:]
            self.assertEqual(contained(rows), b"\1\0\0\0")
            self.assertEqual(memoryview(found(rows)).cast("q").tolist(), [0, -1, -1, -1])

    def test_null(self):
        rows = ["10.0.0.1", "10.0.0.1:443", None, "8.8.8.8"]
        answers = [[True, None, None, False]] * 2 + [[0, None, None, -1]] + [["lab", None, None, None]] * 2
        answers += [[True, None, None, False], [0, None, None, -1]]
        for column in (rows, numpy.array(rows, object)):
            for call, answer in zip(self.questions(invalid="null"), answers):
                got = call(column)
                self.assertIsInstance(got, numpy.ma.MaskedArray)
                self.assertEqual((got.tolist(), got.mask.tolist()), (answer, [False, True, True, False]))
                if got.dtype != object:
                    self.assertEqual(got.filled().tolist(), [each or 0 if got.dtype == bool else -1 if each is None else each for each in answer])
                self.assertEqual(call([]).tolist(), [])
        # What was read once is as the rows were.
        addresses, _ = read_addresses(rows, invalid=False)
        self.assertEqual(is_member(addresses, WHICH, invalid="null").mask.tolist(), [False, True, True, False])
        self.assertEqual(Table([ip_network("10.0.0.0/8")], [(1, 2)]).join(addresses.data.cast("B"), (3, 4), invalid="null").tolist()[::3], [(1, 2), (3, 4)])
        hidden = numpy.ma.masked_array(["10.0.0.1", "10.0.0.2"], [False, True])
        self.assertEqual(is_member(hidden, WHICH, invalid="null").tolist(), [True, None])
        numbers = numpy.ma.masked_array([0x0A000001, 7, 0x08080808], [False, True, False])
        for call, answer in zip(self.questions(invalid="null", numbers=4), answers[:5]):
            self.assertEqual(call(numbers).tolist(), [answer[0], None, answer[3]])

    @unittest.skipIf(pandas is None, "pandas is not here")
    def test_null_in_a_series(self):
        log = pandas.Series(["10.0.0.1", "10.0.0.1:443", pandas.NA, "8.8.8.8"], index=list("wxyz"))
        kinds = ["boolean", "boolean", "Int64", "string", "string"]
        answers = [{"w": True, "z": False}] * 2 + [{"w": 0, "z": -1}] + [{"w": "lab"}] * 2
        for call, kind, answer in zip(self.questions(invalid="null"), kinds, answers):
            got = call(log)
            self.assertEqual((str(got.dtype), got.index.tolist()), (kind, list("wxyz")))
            self.assertEqual(got.dropna().to_dict(), answer)
            self.assertEqual(call(log[:0]).index.tolist(), [])
        table = Table([ip_network("10.0.0.0/8")], [7])
        self.assertEqual(table.join(log, 0, invalid="null").to_dict(), {"w": 7, "x": pandas.NA, "y": pandas.NA, "z": 0})
        self.assertEqual(str(table.join(log, 0, invalid="null").dtype), "Int64")
        pair = Table([ip_network("10.0.0.0/8")], [(1, 2)]).join(log, (), invalid="null")
        self.assertEqual(pair.dropna().to_dict(), {"w": (1, 2), "z": ()})

    def test_unreadable_and_missing(self):
        rows = ["10.0.0.1", "10.0.0.1:443", None, ""]
        present = read_addresses(rows, invalid="null")[1]
        self.assertEqual(present.tolist(), [True, None, False, None])
        self.assertEqual(present.filled().tolist(), [True, False, False, False])
        self.assertEqual(read_addresses(rows, invalid=False)[1].tolist(), [True, False, False, False])
        present = read_addresses(numpy.array([7, -1, 0]), numbers=4, missing=0, invalid="null")[1]
        self.assertEqual(present.tolist(), [True, None, False])

    def test_packed_addresses_are_refused(self):
        fours = [ipaddress.ip_address(text).packed for text in ("10.0.0.0", "10.1.0.0", "8.8.8.8", "48.48.48.0", "0.0.0.0", "10.48.0.0")]
        sixes = [ipaddress.ip_address(text).packed for text in ("2001:db8::", "::1", "::", "2001:db8:1::", "3030:3030::")]
        for packed, width in ((fours, 4), (sixes, 16)):
            columns = [packed]
            for kind in (f"S{width}", f"V{width}"):
                # Each row alone, and all of them.
                columns += [numpy.array([row], kind) for row in packed]
                columns.append(numpy.array(packed, kind))
                columns.append(numpy.array(packed, kind).tolist())
            columns.append(numpy.ma.masked_array(numpy.array(packed, f"S{width}"), [True] + [False] * (len(packed) - 1)))
            for column in columns:
                for invalid in ("raise", False, "null"):
                    for call in (*list(self.questions(invalid=invalid))[:5], lambda rows: read_addresses(rows, invalid=invalid)):
                        with self.subTest((column, invalid)), self.assertRaisesRegex(TypeError, "row [01]: .* packed address"):
                            call(column)
        # So are rows of 17 bytes, as read_address_column gives them.
        rows = read_addresses(["10.0.0.1", "2001:db8::1", None])[0]
        for column in (rows.view("V17").ravel(), [bytes(row) for row in rows]):
            with self.assertRaisesRegex(TypeError, "row 0: .* packed address"):
                is_member(column, AddressSet([ip_network("::/0")]), invalid=False)
        # Texts of these lengths are texts.
        which = AddressSet([ip_network("::/0"), ip_network("0.0.0.0/0")])
        for texts in ([b"::1", b"::"], [b"10.1.2.3", b"2001:db8::12:345"], [b"1.2.3.4", b"255.255.255.255"], [b"2001:db8:1::1:2:3", b"::2"]):
            self.assertEqual(is_member(numpy.array(texts), which).tolist(), [True, True])
        self.assertEqual(is_member(numpy.array([b"10.1.2.3", b"garbage", b""]), which, invalid=False).tolist(), [True, False, False])

    def test_masked_addresses_are_missing(self):
        rows = read_addresses(["10.0.0.1", "10.0.0.2", "8.8.8.8"])[0]
        masked = numpy.ma.masked_array(rows, numpy.arange(3 * 17).reshape(3, 17) == 17)  # a byte of the second
        tens = AddressSet([ip_network("10.0.0.0/8")])
        self.assertEqual(is_member(masked, tens).tolist(), [True, False, False])
        self.assertEqual(is_member(masked, tens, invalid="null").tolist(), [True, None, False])
        self.assertEqual(find(masked, Table(tens)).tolist(), [0, -1, -1])
        self.assertEqual(is_member(numpy.ma.masked_array(rows), tens).tolist(), [True, True, False])

    def test_zones(self):
        link = AddressSet([ip_network("fe80::/10")])
        for zoned in (ipaddress.ip_address("fe80::1%eth0"), ipaddress.ip_interface("fe80::1%eth0/64")):
            self.assertTrue(zoned in ipaddress.ip_network("fe80::/10"))
            self.assertEqual(is_member([zoned], link).tolist(), [True])
            self.assertEqual(list(link.contains_column([zoned])), [1])
            self.assertEqual(find([zoned], Table(link)).tolist(), [0])
            self.assertEqual(PrefixTable({ip_network("fe80::/10"): "link"}).join([zoned, None]), ["link", None])
        self.assertEqual(is_member(["fe80::1%eth0"], link, invalid=False).tolist(), [False])

    def test_mapped_questions(self):
        rows = ["::ffff:10.0.0.1", "10.0.0.1", "::1", None]
        tens = [ip_network("10.0.0.0/8")]
        for which in (AddressSet(tens), AddressSet(tens, mapped=True)):
            self.assertEqual(is_member(rows, which, mapped=True).tolist(), [True, True, False, False])
            self.assertEqual(which.mapped, is_member(rows, which).tolist()[0])
        for table in (Table(tens), Table(tens, mapped=True)):
            self.assertEqual(find(rows, table, mapped=True).tolist(), [0, 0, -1, -1])
            self.assertEqual(table.mapped, find(rows, table).tolist()[0] == 0)

    def test_unmapped(self):
        packed = [10, 0, 0, 1, *bytes(12), 4]
        self.assertEqual(read_addresses(["::ffff:10.0.0.1"], unmapped=True)[0].tolist(), [packed])
        offsets = numpy.array([0, 15], numpy.uint32)
        self.assertEqual(list(read_address_column(b"::ffff:10.0.0.1", offsets, unmapped=True)[0]), packed)
        for call in (lambda: read_addresses([], mapped=True), lambda: read_address_column(b"", offsets[:1], mapped=True)):
            with self.assertRaises(TypeError):
                call()

    @unittest.skipIf(pandas is None, "pandas is not here")
    def test_joined_series(self):
        four = ip_network("10.1.0.0/16")
        log = pandas.Series(["8.8.8.8", "10.1.2.3", None], index=["x", "y", "z"])
        for table in (Table([four], ["a"]), PrefixTable({four: "a"})):
            joined = table.join(log, "none")
            self.assertIsInstance(joined, pandas.Series)
            self.assertEqual(joined.to_dict(), {"x": "none", "y": "a", "z": "none"})
            self.assertEqual(table.join(log[:0]).index.tolist(), [])
            self.assertEqual(table.join(log.tolist()), [None, "a", None])
            numbers = pandas.Series([int(ipaddress.IPv4Address("10.1.2.3")), 0], index=[7, 9])
            self.assertEqual(table.join(numbers, "none", numbers=4).to_dict(), {7: "a", 9: "none"})

    def test_packed(self):
        packed = numpy.frombuffer(b"".join(ipaddress.IPv4Address(row << 24).packed for row in range(256)), numpy.uint8)
        network = IPv4Network("10.0.0.0/7")
        for column in (packed, packed.reshape(-1, 4), packed.copy()):
            self.assertEqual(numpy.flatnonzero(numpy.frombuffer(network.contains_column(column), bool)).tolist(), [10, 11])

    @unittest.skipIf(frames is None, "there is no dask here")
    def test_dask(self):
        log = frames.from_pandas(pandas.DataFrame({"address": TEXTS, "row": range(len(TEXTS))}), 3)
        wanted = is_member(TEXTS, WHICH, invalid=False).tolist()
        self.assertEqual(is_member(log.address, WHICH, invalid=False).tolist(), wanted)
        asked = log.address.map_partitions(lambda part: pandas.Series(is_member(part, WHICH, invalid=False)), meta=("x", bool))
        self.assertEqual(asked.compute().tolist(), wanted)
        wrong = log.map_partitions(lambda part: pandas.Series(is_member(part, WHICH)), meta=("x", bool))
        numbers = log.row.map_partitions(lambda part: pandas.Series(is_member(part, WHICH)), meta=("x", bool))
        for call in (lambda: is_member(log, WHICH), lambda: is_member(log.row, WHICH), wrong.compute, numbers.compute):
            with self.assertRaises(TypeError):
                call()

    @unittest.skipIf(pandas is None, "there is no pandas here")
    def test_frame(self):
        log = pandas.DataFrame({"address": TEXTS, "row": range(len(TEXTS))})
        kept = log[is_member(log.address, WHICH, invalid=False)]
        self.assertEqual(kept.row.tolist(), [row for row, text in enumerate(TEXTS) if address(text) is not None and address(text) in WHICH])


if __name__ == "__main__":
    unittest.main()
