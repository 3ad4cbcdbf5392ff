# mypy: ignore-errors
"""The addresses of the core over ``ctypes``, which are objects of ``ipaddress``."""

from __future__ import annotations

import ctypes
from ipaddress import IPv4Address, IPv6Address
from typing import Union

from ._by_ctypes_library import ADDRESS, library, unmapped_octets
from ._errors import error


def type_name(given: object) -> str:
    """The name of the type of an object, with that of its module unless that is ``builtins``."""
    kind = type(given)
    if kind.__module__ == "builtins":
        return kind.__qualname__
    return f"{kind.__module__}.{kind.__qualname__}"


def read_address(text: str) -> Union[IPv4Address, IPv6Address]:
    """The address of either family that a text names; AddressError for any other text."""
    if not isinstance(text, str):
        raise TypeError(f"the text of an address is str, not {type_name(text)}")
    given, held = text.encode("utf-8", "replace"), (ctypes.c_ubyte * ADDRESS)()
    fault = library.ipnetwork_address_read(given, len(given), ctypes.byref(held))
    if fault:
        raise error(fault, text)
    return (IPv4Address if held[16] == 4 else IPv6Address)(bytes(held[: held[16]]))


def no_address(given: object) -> TypeError:
    """The error for an object that is not an address."""
    return TypeError(
        f"an address is IPv4Address or IPv6Address of ipaddress, not {type_name(given)}: "
        "read_address reads a text"
    )


def unmapped(address: Union[IPv4Address, IPv6Address]) -> Union[IPv4Address, IPv6Address]:
    """The IPv4 address in an IPv4-mapped one, with or without a zone; any other address as it
    is."""
    if not isinstance(address, (IPv4Address, IPv6Address)):
        raise no_address(address)
    if address.version == 6:
        octets = unmapped_octets(address.packed)
        return address if octets is None else IPv4Address(octets)
    return address
