"""Columns whose offsets have 64 bits, compared with those of 32 bits; and which numbers offsets are."""

import array
import faulthandler
import mmap
import os
import random
import subprocess
import sys
import threading
import time
import unittest
from ipaddress import IPv4Address, IPv6Address

import ipnetwork
from ipnetwork import (
    AddressSet,
    IPv4Network,
    IPv6Network,
    PrefixError,
    Table,
    print_address_column,
    read_address_column,
)

try:
    import numpy
except ImportError:
    numpy = None

CALLS = [
    (read_address_column, print_address_column),
    (IPv4Network.read_column, IPv4Network.print_column),
    (IPv6Network.read_column, IPv6Network.print_column),
]
#: A row of each of these.
ROWS = [
    lambda rng: rng.choice((rng.randbytes(4) + bytes(12) + b"\x04", rng.randbytes(16) + b"\x10")),
    lambda rng: rng.randbytes(4) + bytes([rng.randrange(33)]),
    lambda rng: rng.randbytes(16) + bytes([rng.randrange(129)]),
]


#: How long each call is made while another thread writes to its buffers.
SECONDS = 0.3
#: The memory that is free: a text of 2 GiB is copied.
FREE = os.sysconf("SC_AVPHYS_PAGES") * os.sysconf("SC_PAGE_SIZE") if hasattr(os, "sysconf") else 0


def texts_of(rng, count):
    for _ in range(count):
        four, six = IPv4Address(rng.getrandbits(32)), IPv6Address(rng.getrandbits(128))
        address = rng.choice((four, six))
        yield rng.choice(
            ("", "x", str(address), f"{address}/{rng.randrange(140)}", str(address)[:-1])
        )


def laid(texts, kind):
    offsets = array.array(kind, [0])
    for text in texts:
        offsets.append(offsets[-1] + len(text))
    return "".join(texts).encode(), offsets


def written_meanwhile(call, buffer, states):
    """Calls again and again, while another thread writes each of these states to the buffer in
    turn; what a call raises must be a ValueError."""
    end, view = time.monotonic() + SECONDS, memoryview(buffer).cast("B")

    def write():
        while time.monotonic() < end:
            for state in states:
                view[:] = state

    writer = threading.Thread(target=write)
    writer.start()
    while time.monotonic() < end:
        try:
            call()
        except ValueError:
            pass
    writer.join()


def all_written_meanwhile():
    """The calls that read, print and search columns, by offsets and rows that turn from right to
    wrong."""
    count = 200_000
    texts = bytearray(b"10.1.2.3" * count)
    other = b"::/1/200" * count
    for kind in "IQ":
        offsets = array.array(kind, range(0, 8 * count + 1, 8))
        states = offsets.tobytes(), b"\x7f" * (len(offsets) * offsets.itemsize)
        for read, _ in CALLS:
            written_meanwhile(lambda: read(texts, offsets), offsets, states)
    for read, _ in CALLS:
        written_meanwhile(lambda: read(texts, offsets), texts, (bytes(texts), other))
    for (_, printed), size, right, wrong in zip(CALLS, (17, 5, 17), (16, 32, 128), (4, 255, 255)):
        rows = bytearray((b"\xfe" * (size - 1) + bytes([right])) * count)
        states = bytes(rows), (b"\1" * (size - 1) + bytes([wrong])) * count
        for bits in (32, 64):
            written_meanwhile(lambda: printed(rows, bits), rows, states)
    networks = [IPv4Network.of(IPv4Address(number << 12), 20) for number in range(0, 2**20, 16)]
    networks += [IPv6Network.of(IPv6Address(number << 108), 20) for number in range(0, 2**20, 16)]
    which, table = AddressSet(networks), Table(networks)
    rows = bytearray((b"\xfe" * 16 + b"\4") * count)
    states = bytes(rows), (b"\0\xff" * 8 + b"\x10") * count, b"\5" * len(rows)
    for call in (which.contains_column, table.find_column):
        written_meanwhile(lambda: call(rows), rows, states)


class Wide(unittest.TestCase):
    def test_buffers_that_another_thread_writes(self):
        # In a process of its own, which a wrong read would end.
        ran = subprocess.run(
            [sys.executable, os.path.abspath(__file__), "written"], capture_output=True, text=True
        )
        self.assertEqual((ran.returncode, ran.stderr), (0, ""))

    def test_read(self):
        rng = random.Random(62)
        for count in (0, 1, 2, 300, 65535, 65536, 65537):
            texts = list(texts_of(rng, count))
            whole, offsets = laid(texts, "I")
            for read, _ in CALLS:
                wanted = read(whole, offsets)
                self.assertEqual(len(wanted[1]), count)
                for kind in "Qq" if count < 1000 else "q":
                    self.assertEqual(read(whole, array.array(kind, offsets)), wanted)
        # The first offset need not be 0, nor the last one the end.
        for kind in "Iq":
            rows, faults = read_address_column(b"xx::1yy", array.array(kind, [2, 5]))
            self.assertEqual((rows[15:17], faults), (b"\1\x10", b"\0"))
        for kind in "Qq":
            self.assertEqual(read_address_column(b"", array.array(kind)), (b"", b""))
            self.assertEqual(read_address_column(b"", array.array(kind, [0, 0, 0]))[1], b"\2\2")

    def test_printed(self):
        rng = random.Random(63)
        for count in (0, 1, 300, 65535, 65536, 65537, 131_073):
            for (read, printed), row in zip(CALLS, ROWS):
                given = b"".join(row(rng) for _ in range(count))
                texts, starts = printed(given)
                wide, places = printed(given, 64)
                self.assertEqual((wide, len(places)), (texts, 8 * (count + 1)))
                got = memoryview(places).cast("q")
                self.assertEqual(got.tolist(), memoryview(starts).cast("I").tolist())
                self.assertEqual(read(wide, got), (given, bytes(count)))
        self.assertEqual(IPv6Network.print_column(given, offset_bits=32), (texts, starts))
        with self.assertRaises(PrefixError):
            IPv4Network.print_column(bytes(5 * 65536) + bytes(4) + b"\x21", 64)
        for bits in (0, 8, 33, 128, -64):
            with self.assertRaisesRegex(ValueError, f"offset_bits is 32 or 64, not {bits}"):
                print_address_column(b"", bits)
        with self.assertRaises(TypeError):
            print_address_column(b"", "64")

    def test_offsets_that_are_refused(self):
        far = 2**63 - 1
        for wrong in (
            [0, 3],
            [1, 0],
            [3],
            [0, far],
            [far, far],
            [0, 2, 1, 2],
            [-1, 2],
            [0, -1],
            [2**33, 2],
        ):
            for read, _ in CALLS:
                with self.assertRaisesRegex(ValueError, "fall, or pass"):
                    read(b"::", array.array("q", wrong))
        many = array.array("q", range(70_000))
        for read, _ in CALLS:
            self.assertEqual(read(bytes(69_999), many)[1], b"\2" * 69_999)
            with self.assertRaises(ValueError):
                read(bytes(69_998), many)
        for kind in "fd":
            with self.assertRaisesRegex(TypeError, "whole numbers"):
                read_address_column(b"::", array.array(kind, [0, 0]))
        for given in ([0, 2], None, "01", 7):
            with self.assertRaises(TypeError):
                read_address_column(b"::", given)

    @unittest.skipIf(numpy is None, "there is no NumPy here")
    def test_arrays(self):
        whole = numpy.frombuffer(b"10.1.2.38.8.8.8::1x", numpy.uint8)
        wanted = read_address_column(whole, array.array("I", [0, 8, 15, 18, 19]))
        offsets = numpy.array([0, 8, 15, 18, 19])
        for kind in ("u4", "i4", "u8", "i8", "<u4", "<i8"):
            self.assertEqual(read_address_column(whole, offsets.astype(kind)), wanted)
        for kind in (">u4", ">i8", "f4", "f8", "M8[s]", "c8"):
            with self.assertRaises((TypeError, ValueError)):
                read_address_column(whole, offsets.astype(kind))
        with self.assertRaises((TypeError, ValueError, BufferError)):
            read_address_column(whole, numpy.repeat(offsets, 2)[::2])

    @unittest.skipUnless(hasattr(mmap, "MAP_ANONYMOUS"), "there is no memory of zeros here")
    @unittest.skipIf(FREE < 2**33, "there are no 8 GiB of memory free, for copies of a text")
    @unittest.skipIf(ipnetwork.CORE == "ctypes", "it makes several copies of the texts")
    def test_a_text_past_offsets_of_32_bits(self):
        # A text of more than 2 GiB of zeros, which take no memory, and others around it.
        long = 2**31 + 5
        size, flags = long + 4096, mmap.MAP_PRIVATE | mmap.MAP_ANONYMOUS
        with mmap.mmap(-1, size, flags=flags) as texts:
            texts[0:8] = b"10.1.2.3"
            texts[8 + long : 11 + long] = b"::1"
            texts[size - 7 : size] = b"8.8.8.8"
            offsets = array.array("q", [0, 8, 8 + long, 11 + long, size - 7, size, size])
            rows, faults = read_address_column(texts, offsets)
            self.assertEqual(faults, b"\0\2\0\2\0\2")
            small, offsets = laid(["10.1.2.3", "x", "::1", "x", "8.8.8.8", ""], "I")
            self.assertEqual(rows, read_address_column(small, offsets)[0])


if __name__ == "__main__":
    if sys.argv[1:] == ["written"]:
        faulthandler.enable()
        all_written_meanwhile()
    else:
        unittest.main()
