"""The errors raised if there is no network, or no answer."""

from __future__ import annotations

__all__ = ["AddressError", "FormatError", "MaskError", "NetworkError", "PrefixError"]


class NetworkError(ValueError):
    """There is no network, or no answer. The subclasses say why."""


class FormatError(NetworkError):
    """The text has two or more slashes."""


class AddressError(NetworkError):
    """The part before the slash, or the whole text if it has none, is not an address of the family;
    for ``ip_network``, of either family."""


class PrefixError(NetworkError):
    """The prefix length is not one of the family."""


class MaskError(NetworkError):
    """The address is not a mask."""


for _kind in (NetworkError, FormatError, AddressError, PrefixError, MaskError):
    _kind.__module__ = "ipnetwork"

# By the number of the fault in `bindings/c/ipnetwork.h`.
_FAULTS: dict[int, tuple[type[NetworkError], str]] = {
    1: (FormatError, "more than one slash"),
    2: (AddressError, "no address before the slash"),
    3: (PrefixError, "no prefix length of the family"),
    5: (MaskError, "no mask"),
    9: (NetworkError, "the first address of a range comes after its last"),
}


def shown(given: object) -> str:
    """What a message shows of an object: of a text or of bytes at most 60 bytes, and of any other
    object at most 60 bytes of its ``repr``."""
    if isinstance(given, (bytes, bytearray)):
        return repr(given[:60]) + "..." * (len(given) > 60)
    text = str(given) if isinstance(given, str) else repr(given)
    front = text[:60]
    while len(front.encode("utf-8", "surrogatepass")) > 60:
        front = front[:-1]
    return (repr(front) if isinstance(given, str) else front) + "..." * (front != text)


def error(fault: int, given: object) -> NetworkError:
    """The error for a fault of the library, with the object that was given to it."""
    kind, words = _FAULTS[fault]
    return kind(f"{words}: {shown(given)}")
