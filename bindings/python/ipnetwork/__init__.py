"""IP networks in CIDR notation: read, printed and queried.

>>> from ipaddress import IPv4Address, IPv6Address
>>> network = ip_network("10.1.9.32/16")
>>> network
IPv4Network('10.1.9.32/16')
>>> IPv4Address("10.1.255.255") in network
True
>>> network.network_address, network.prefixlen
(IPv4Address('10.1.0.0'), 16)

A network keeps the host bits of its address, as ``ipaddress.ip_interface`` does. Its members are
the addresses that share the first bits of its address, as many as the prefix length says, and the
questions are about the members. Networks are hashable, equal if their addresses and prefix lengths
are, and ordered by address and then by prefix length, so they can be sorted. As in ``ipaddress``,
``a <= b`` is that order; ``a.subnet_of(b)`` tells whether a is part of b. Addresses are those of
``ipaddress``, which ``read_address`` reads. Where an address is asked about, a network of one
address may be given instead; in a ``PrefixTable`` it is first of all a key. An address with a zone
is asked by its address; a text with one is no address.

>>> read_address("10.1.255.255") in network, ip_network("10.1.255.255") in network
(True, True)

A server that listens on IPv4 and IPv6 with one socket sees the address of an IPv4 peer as
``::ffff:10.1.9.32``, an IPv4-mapped IPv6 address, which is in no IPv4 network: such a peer gets
past a list of denied networks. So make a set or a table with ``mapped=True``, or ask about
``unmapped(address)`` too.

With ``mapped``, what is said of either form counts: an IPv4-mapped IPv6 address is a member if the
IPv4 address, or the IPv6 address itself, is one; its longest network is that of the IPv4
address, and if there is none that of the IPv6 address; and so for a network within ::ffff:0:0/96.

>>> IPv6Address("::ffff:10.1.9.32") in AddressSet([network], mapped=True)
True
>>> unmapped(IPv6Address("::ffff:10.1.9.32")) in network
True

``AddressSet`` is a set of addresses, which ``AddressSetBuilder`` makes step by step; ``Table`` and
``PrefixTable`` find the longest network that has an address, and the value that belongs to it.

Every answer is that of a library. ``__version__`` is its version, and ``__build__`` says how it was
made. The package calls it by an extension, ``_native``, if its wheel was built where a C compiler
and the headers of Python were available, and otherwise by ``ctypes``: calls are slower then, and a
RuntimeWarning says so. ``CORE`` tells which of the two it is. If the environment variable
IPNETWORK_LIBRARY names a shared library, that library is used, by ``ctypes`` and without a warning.
"""

from __future__ import annotations

import warnings
from typing import TYPE_CHECKING

from ._builder import AddressSetBuilder
from ._chosen import ASKED as _ASKED
from ._chosen import core as _core
from ._errors import AddressError, FormatError, MaskError, NetworkError, PrefixError
from ._networks import (
    IPv4Network,
    IPv6Network,
    collapse_addresses,
    from_ipaddress,
    ip_network,
    read_address,
    summarize_address_range,
    unmapped,
)
from ._prefix_table import PrefixTable
from ._sets import AddressSet
from ._tables import Table

if TYPE_CHECKING:
    from _typeshed import ReadableBuffer

__all__ = [
    "CORE",
    "AddressError",
    "AddressSet",
    "AddressSetBuilder",
    "FormatError",
    "IPv4Network",
    "IPv6Network",
    "MaskError",
    "NetworkError",
    "PrefixError",
    "PrefixTable",
    "Table",
    "collapse_addresses",
    "from_ipaddress",
    "ip_network",
    "print_address_column",
    "read_address",
    "read_address_column",
    "summarize_address_range",
    "unmapped",
]

#: The version of the library that is loaded, and how it was made: "proved", or "plain Rust, made of
#: proved sources".
__version__: str
__build__: str
__version__, _, __build__ = _core.build()[:-1].partition(" (")

#: How the library is called: "native" or "ctypes".
CORE: str = "ctypes" if _core.__name__.endswith("ctypes") else "native"

if CORE == "ctypes" and not _ASKED:
    warnings.warn(
        "ipnetwork was built without its extension, which needs Linux and the headers of Python, "
        "and calls its library by ctypes: the answers are the same, and a call takes five to twenty "
        "times as long; bindings/README.md says how to build the extension",
        RuntimeWarning,
        stacklevel=2,
    )

for _public in (AddressSet, AddressSetBuilder, IPv4Network, IPv6Network, PrefixTable, Table):
    _public.__module__ = __name__


def read_address_column(
    texts: ReadableBuffer, offsets: ReadableBuffer, *, unmapped: bool = False
) -> tuple[bytearray, bytearray]:
    """The addresses of either family that a column of texts in Arrow's layout names, as in
    ``IPv4Network.read_column``, and for each text a byte that is 0 if it names one. Each address is
    17 bytes: its octets, followed by zeros for an IPv4 address, and their number, 4 or 16, or 0 if
    there is no address. With ``unmapped``, each IPv4-mapped address is replaced by the IPv4
    address, so that nothing tells of the IPv6 one: a set or a table with ``mapped`` knows both.

    >>> import array
    >>> offsets = array.array("I", [0, 7, 10, 11])
    >>> addresses, faults = read_address_column(b"8.8.8.8::1x", offsets)
    >>> [addresses[at + 16] for at in (0, 17, 34)], list(faults)
    ([4, 16, 0], [0, 0, 2])
    """
    addresses, faults = _core.read_rows(0, texts, offsets)
    return (_core.unmapped_rows(addresses) if unmapped else addresses), faults


def print_address_column(
    addresses: ReadableBuffer, offset_bits: int = 32
) -> tuple[bytearray, bytearray]:
    """The texts of a column of addresses in Arrow's layout, with offsets of 32 or 64 bits, as in
    ``IPv4Network.print_column``. The column has 17 bytes for each address, as
    ``read_address_column`` returns it. AddressError if a row is not an address.

    >>> column = bytes([8, 8, 8, 8, *bytes(12), 4, *bytes(15), 1, 16])
    >>> texts, offsets = print_address_column(column)
    >>> bytes(texts), memoryview(offsets).cast("I").tolist()
    (b'8.8.8.8::1', [0, 7, 10])
    """
    return _core.print_rows(0, addresses, offset_bits)
