# mypy: ignore-errors
"""The shared library, loaded by ``ctypes``, and the structs of its header.

The library is looked for next to this file, as ``libipnetwork_c.so`` (``libipnetwork_c.dylib`` on
macOS, ``ipnetwork_c.dll`` on Windows), or at IPNETWORK_LIBRARY.
"""

from __future__ import annotations

import ctypes
import os
import sys
from typing import TYPE_CHECKING, Union

if TYPE_CHECKING:
    from _typeshed import ReadableBuffer

ADDRESS = 17  # the bytes of a struct ipnetwork_address
NAMES = {"darwin": "libipnetwork_c.dylib", "win32": "ipnetwork_c.dll"}


class V4(ctypes.Structure):
    _fields_ = [("address", ctypes.c_ubyte * 4), ("prefix", ctypes.c_uint8)]


class V6(ctypes.Structure):
    _fields_ = [("address", ctypes.c_ubyte * 16), ("prefix", ctypes.c_uint8)]


class Either(ctypes.Structure):
    _fields_ = [("family", ctypes.c_uint8), ("v4", V4), ("v6", V6)]


def _declare(library: ctypes.CDLL, name: str, arguments: list[type]) -> None:
    call = getattr(library, f"ipnetwork_{name}")
    call.argtypes, call.restype = arguments, ctypes.c_uint32


def _load() -> ctypes.CDLL:
    name = NAMES.get(sys.platform, "libipnetwork_c.so")
    adjacent = os.path.join(os.path.dirname(os.path.abspath(__file__)), name)
    path = os.environ.get("IPNETWORK_LIBRARY", adjacent)
    if not os.path.exists(path):
        raise ImportError(
            f"the library is not there, neither as _native next to {__file__} nor as {path}: "
            "install the package by `pip install ./bindings/python`, after `rt lib` in "
            f"crates/ipnetwork_c or with cargo, or set IPNETWORK_LIBRARY to the path of {name}, as "
            "bindings/README.md says"
        )
    library = ctypes.CDLL(path)
    pointer, octets, size, word = ctypes.c_void_p, ctypes.c_char_p, ctypes.c_size_t, ctypes.c_uint32
    _declare(library, "abi_version", [])
    if library.ipnetwork_abi_version() != 4:
        raise ImportError(
            f"{path} is of another version than this module: build it again, as "
            "bindings/README.md says"
        )
    number = {"v4": word, "v6": octets}
    read = [octets, size, pointer, size, pointer, size, pointer, size]
    printed = [octets, size, pointer, size, pointer, size, pointer]
    operation = [octets, size, octets, size, pointer, size, pointer]
    searched = [octets, size, octets, size, octets, size, pointer, size, pointer, size]
    numbered = [pointer, size, pointer, size, pointer]
    for name, arguments in (
        ("build", [octets, size, pointer]),
        ("read_with_cause", [octets, size, pointer]),
        ("address_read", [octets, size, pointer]),
        ("address_read_column", read),
        ("address_print_column", printed),
        ("index_size", [size, pointer]),
        ("v6_unmapped", [octets, pointer]),
    ):
        _declare(library, name, arguments)
    for family in ("v4", "v6"):
        for name, arguments in (
            ("read", [octets, size, pointer]),
            ("new", [octets, ctypes.c_uint8, pointer]),
            ("canonical", [octets, pointer, size, pointer]),
            ("contains_column", [octets, pointer, size, pointer, size]),
            ("table_make", [octets, size, pointer, size, pointer, size]),
            ("ranges_make_numbered", [octets, size, octets, size, octets, size, *numbered]),
            ("table_index_make", [octets, size, pointer, size]),
            ("index_contains_column", searched),
            ("index_find_column", searched),
            ("ranges_find_column", [octets, size, *searched]),
            ("union", operation),
            ("intersection", operation),
            ("difference", operation),
            ("range_to_blocks", [octets, octets, pointer, size, pointer]),
            ("contains", [octets, octets, pointer]),
            ("is_subnet_of", [octets, octets, pointer]),
            ("overlaps", [octets, octets, pointer]),
            ("compare", [octets, octets, pointer]),
            ("nth", [octets, number[family], pointer]),
            ("size", [octets, pointer]),
            ("subnet_at", [octets, ctypes.c_uint8, number[family], pointer]),
            ("aggregate", [pointer, size, pointer]),
            ("read_column", read),
            ("print_column", printed),
            ("network", [octets, pointer]),
            ("broadcast", [octets, pointer]),
            ("mask", [octets, pointer]),
            ("prefix_of_mask", [octets, pointer]),
        ):
            _declare(library, f"{family}_{name}", arguments)
    return library


library = _load()


def answered(fault: int) -> None:
    """Checks that there is no fault: a question about a network has none, because its prefix length
    is one of its family."""
    if fault:
        raise RuntimeError(f"the library returned fault {fault} for a question about a network")


def unmapped_octets(packed: bytes) -> Union[bytes, None]:
    """The packed IPv4 address in a packed IPv6 address; None if that is not IPv4-mapped."""
    octets = (ctypes.c_ubyte * 4)()
    fault = library.ipnetwork_v6_unmapped(packed, ctypes.byref(octets))
    if fault == 6:
        return None
    answered(fault)
    return bytes(octets)


def flat(given: ReadableBuffer) -> memoryview:
    """The bytes of a buffer; TypeError if its items are longer than a byte, because the bytes of
    such numbers are in the order of the machine, not in that of addresses."""
    view = memoryview(given)
    if view.itemsize != 1:
        raise TypeError(
            f"a column is a buffer of bytes, and the items of this {type(given)!r} have "
            f"{view.itemsize} bytes each"
        )
    return view.cast("B") if view.nbytes else memoryview(b"")
