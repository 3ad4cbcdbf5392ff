# mypy: ignore-errors
# The types of these names are those of _native.pyi.
"""The core of the package over ``ctypes``, which needs no compiler: the same names as in
``_native.c``, with the same meanings. Each answer about texts, members, order and ends comes from
the library, as with the extension.
"""

from __future__ import annotations

import ctypes
from ipaddress import IPv4Address, IPv4Network, IPv6Address, IPv6Network
from typing import Union

from ._by_ctypes_addresses import read_address, type_name, unmapped
from ._by_ctypes_library import answered, library
from ._by_ctypes_lists import (
    aggregate,
    contains_packed,
    find_packed,
    index,
    is_empty,
    layout,
    numbers_packed,
    operate,
    print_rows,
    range_rows,
    ranges,
    read_rows,
    set_contains_column,
    table_find_column,
    table_make,
    unmapped_rows,
)
from ._by_ctypes_networks import (
    V4,
    V6,
    Network,
    alone,
    ip_network,
    no_member,
    of_packed,
    of_rows,
    prefix_of_mask,
    register,
    subnet_at,
)
from ._errors import shown

__all__ = [
    "V4",
    "V6",
    "aggregate",
    "block_row",
    "build",
    "index",
    "ip_network",
    "is_empty",
    "layout",
    "longest_key",
    "of_packed",
    "of_rows",
    "operate",
    "prefix_of_mask",
    "print_rows",
    "range_rows",
    "ranges",
    "read_address",
    "read_rows",
    "register",
    "set_contains",
    "set_contains_column",
    "subnet_at",
    "table_find",
    "table_find_column",
    "table_make",
    "unmapped",
    "unmapped_rows",
]


def build() -> str:
    """The version of the library and how it was made, such as ``0.2.0 (proved)``."""
    text, length = ctypes.create_string_buffer(64), ctypes.c_size_t()
    answered(library.ipnetwork_build(text, len(text), ctypes.byref(length)))
    return text.value.decode()


def _asked(given: object) -> bytes:
    """The bytes of the struct of the network that is asked about, or of the network of only an
    address, without its zone if it has one. TypeError for any other object."""
    if isinstance(given, Network):
        return given._row
    address, prefix = given, None
    if isinstance(given, (IPv4Network, IPv6Network)):
        address, prefix = given.network_address, given.prefixlen
    elif not isinstance(given, (IPv4Address, IPv6Address)):
        raise TypeError(
            "what is asked about is an address of ipaddress, or a network, not "
            f"{type_name(given)}: read_address and ip_network read a text"
        )
    packed = address.packed
    return packed + bytes([len(packed) * 8 if prefix is None else prefix])


def _block_at(row: bytes, prefix: int) -> bytes:
    """The bytes of the block with this prefix length that has the address of a network."""
    width = len(row) - 1
    octets = (ctypes.c_ubyte * width)()
    call = library.ipnetwork_v4_network if width == 4 else library.ipnetwork_v6_network
    answered(call(row[:-1] + bytes([prefix]), ctypes.byref(octets)))
    return bytes(octets) + bytes([prefix])


def block_row(network: object) -> bytes:
    """The bytes of the struct of a network without host bits."""
    row = _asked(network)
    return _block_at(row, row[-1])


def longest_key(
    keys: dict[bytes, object], fours: bytes, sixes: bytes, asked: object
) -> Union[bytes, None]:
    """Of the keys of a dict, which are the bytes of structs without host bits, returns that of the
    longest network that has all that is asked about; None if there is none. ``fours`` and ``sixes``
    are the prefix lengths of the keys, in descending order."""
    row = _asked(asked)
    for prefix in fours if len(row) == 5 else sixes:
        if prefix <= row[-1]:
            key = _block_at(row, prefix)
            if key in keys:
                return key
    return None


def set_contains(search: tuple[bytes, bytes, bytes, bytes, bool], asked: object) -> bool:
    """Whether a set, given by the bytes of its blocks, has an address, or each of a network as it
    is."""
    if search[4] and isinstance(asked, IPv6Address):
        address = unmapped(asked)
        if address is not asked and set_contains(search, address):
            return True
    row = _asked(asked)
    blocks, index = search[:2] if len(row) == 5 else search[2:4]
    if not contains_packed(blocks, index, row[:-1], len(row) - 1)[0]:
        return False
    if isinstance(asked, (IPv4Address, IPv6Address)):
        return True
    # One block has all of them, because the blocks are the fewest with their addresses.
    place, answer = find_packed(blocks, index, row[:-1], len(row) - 1)[0], ctypes.c_uint8()
    block = blocks[place * len(row) :][: len(row)]
    family = "v4" if len(row) == 5 else "v6"
    answered(getattr(library, f"ipnetwork_{family}_is_subnet_of")(row, block, ctypes.byref(answer)))
    return answer.value == 1


def table_find(
    search: tuple[bytes, bytes, bytes, bytes, bytes, bytes, bool], address: object
) -> int:
    """The number of the longest network that has an address, or -1."""
    address = alone(address)
    if not isinstance(address, (IPv4Address, IPv6Address)):
        no_member(address)
        raise TypeError(f"{shown(address)} has more than one address, and one is asked about")
    number = -1
    for form in (unmapped(address), address) if search[6] else (address,):
        lists = search[:3] if form.version == 4 else search[3:6]
        if number < 0:
            number = numbers_packed(*lists, form.packed, len(form.packed))[0]
    return number
