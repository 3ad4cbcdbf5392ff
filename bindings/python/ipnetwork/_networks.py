"""The networks of both families, and functions that make them from other objects."""

from __future__ import annotations

from collections.abc import Iterable, Iterator
from copy import deepcopy
from ipaddress import IPv4Address, IPv4Interface, IPv6Address, IPv6Interface
from ipaddress import IPv4Network as TheirV4
from ipaddress import IPv6Network as TheirV6
from operator import attrgetter, index
from typing import TYPE_CHECKING, Any, ClassVar, Generic, SupportsIndex, TypeVar, Union, overload

from ._chosen import core
from ._errors import NetworkError, error, shown

if TYPE_CHECKING:
    from _typeshed import ReadableBuffer
    from typing_extensions import Self

Address = TypeVar("Address", IPv4Address, IPv6Address)
EitherAddress = Union[IPv4Address, IPv6Address]
_Kind = TypeVar("_Kind")
_Asked = TypeVar("_Asked")


def packed(kind: Union[type[EitherAddress], tuple[type, ...]], address: EitherAddress) -> bytes:
    """The packed bytes of an address of this type; AddressError if it has a zone, which no network
    keeps."""
    if not isinstance(address, kind):
        names = getattr(kind, "__name__", "IPv4Address or IPv6Address")
        raise TypeError(f"an address is {names}, not {type(address).__name__}")
    if getattr(address, "scope_id", None) is not None:
        raise error(2, address)
    return address.packed


def _subnets(network: _Kind, prefix: int, count: int) -> Iterator[_Kind]:
    for number in range(count):
        subnet = core.subnet_at(network, prefix, number)
        if subnet is not None:
            yield subnet


if TYPE_CHECKING:
    _Base = core.Network
else:
    _Base = Generic


class _Network(_Base[Address]):
    """What the networks of both families have in addition to what the core provides."""

    __slots__ = ()

    version: ClassVar[int]
    max_prefixlen: ClassVar[int]
    _address: type[Address]

    if TYPE_CHECKING:

        def to_ipaddress(self) -> Union[IPv4Interface, IPv6Interface]:
            ...

    @property
    def hostmask(self) -> Address:
        """The address whose set bits are the host bits of the network.

        >>> IPv4Network("10.0.0.0/8").hostmask
        IPv4Address('0.255.255.255')
        """
        zeros = bytes(self.max_prefixlen // 8)
        return core.of_packed(type(self), zeros, self.prefixlen).broadcast_address

    @property
    def reverse_pointer(self) -> str:
        """The name that ``ipaddress`` gives to the network without host bits, in which the prefix
        length is too. The name of an address in the DNS is ``network.ip.reverse_pointer``.

        >>> IPv4Network("192.0.2.128/25").reverse_pointer
        '128/25.2.0.192.in-addr.arpa'
        """
        return self.to_ipaddress().network.reverse_pointer

    @classmethod
    def of(cls, address: Address, prefixlen: SupportsIndex) -> Self:
        """The network of this address, host bits kept, and this prefix length. PrefixError if the
        prefix length is greater than the width, and AddressError if the address has a zone."""
        return core.of_packed(cls, packed(cls._address, address), prefixlen)

    @classmethod
    def prefix_of_mask(cls, mask: Address) -> int:
        """The prefix length of a mask; MaskError if the address is not a mask."""
        return core.prefix_of_mask(packed(cls._address, mask))

    def subnets(
        self, prefixlen_diff: SupportsIndex = 1, new_prefix: Union[SupportsIndex, None] = None
    ) -> Iterator[Self]:
        """The blocks of one prefix length within the network, in ascending order: of a prefix
        length that is greater by ``prefixlen_diff``, or of ``new_prefix`` if it is given.
        ValueError if the prefix length is less than the network's, or greater than the width.

        >>> list(IPv4Network("10.0.0.0/8").subnets(new_prefix=9))
        [IPv4Network('10.0.0.0/9'), IPv4Network('10.128.0.0/9')]
        """
        prefix = self._prefix(1, prefixlen_diff, new_prefix)
        if new_prefix is None and self.prefixlen == self.max_prefixlen:
            prefix = self.prefixlen
        return _subnets(self, self._longer(prefix), 2 ** (prefix - self.prefixlen))

    def _prefix(
        self, sign: int, prefixlen_diff: SupportsIndex, new_prefix: Union[SupportsIndex, None]
    ) -> int:
        """The prefix length that is given by its difference, of this sign, or by itself."""
        difference = index(prefixlen_diff)
        if new_prefix is None:
            return self.prefixlen + sign * difference
        if difference != 1:
            raise ValueError("cannot set prefixlen_diff and new_prefix")
        return index(new_prefix)

    def _longer(self, prefix: int) -> int:
        """This prefix length, if networks within this one may have it; else ValueError."""
        if not self.prefixlen <= prefix <= self.max_prefixlen:
            raise ValueError(f"{shown(prefix)} is no prefix length of subnets of {self!r}")
        return prefix

    def supernet(
        self, prefixlen_diff: SupportsIndex = 1, new_prefix: Union[SupportsIndex, None] = None
    ) -> Self:
        """The network without host bits that has this one, of a prefix length that is less by
        ``prefixlen_diff``, or of ``new_prefix`` if it is given; of prefix length 0, if this one
        has it. Else ValueError if the prefix length is greater than the network's, or less than 0.

        >>> IPv4Network("10.1.9.32/16").supernet(new_prefix=12)
        IPv4Network('10.0.0.0/12')
        """
        prefix = self.prefixlen and self._prefix(-1, prefixlen_diff, new_prefix)
        if not 0 <= prefix <= self.prefixlen:
            raise ValueError(f"{shown(prefix)} is no prefix length of a supernet of {self!r}")
        wider = core.of_packed(type(self), self._row[:-1], prefix)
        return core.of_rows(type(self), core.block_row(wider))[0]

    def hosts(self) -> Iterator[Address]:
        """The members that a host may have, in ascending order: all but the first, which for IPv4
        names the network and for IPv6 its routers, and for IPv4 but the last, to broadcast. Of a
        network of one or two addresses these are all of its members.

        >>> list(IPv4Network("192.0.2.0/30").hosts())
        [IPv4Address('192.0.2.1'), IPv4Address('192.0.2.2')]
        """
        first, last = int(self.network_address), int(self.broadcast_address)
        if last - first > 1:
            first, last = first + 1, last - (self.version == 4)
        return map(self._address, range(first, last + 1))

    def address_exclude(self, other: Self) -> Iterator[Self]:
        """The fewest networks with the members that are not in ``other``, those of the least prefix
        length first; none if it has the same members. TypeError if ``other`` is not a network of
        the family; ValueError if it is not part of this one.

        >>> list(IPv4Network("10.0.0.0/8").address_exclude(IPv4Network("10.0.0.0/10")))
        [IPv4Network('10.128.0.0/9'), IPv4Network('10.64.0.0/10')]
        """
        if not self.supernet_of(other):
            raise ValueError(f"{other!r} is not part of {self!r}")
        rows = core.operate("-", self.version, core.block_row(self), core.block_row(other))
        return iter(sorted(core.of_rows(type(self), rows), key=attrgetter("prefixlen")))

    @classmethod
    def read_column(
        cls, texts: ReadableBuffer, offsets: ReadableBuffer
    ) -> tuple[bytearray, bytearray]:
        """The networks that a column of texts in Arrow's layout names, and for each text a byte
        that is 0 if it names one.

        ``texts`` has the bytes of all texts, one after the other, and ``offsets`` has numbers of 32
        or 64 bits: text i goes from offset i to the next. Each network is its packed address and
        its prefix length, or zeros if the text names none. A byte other than 0 is 1, 2 or 3, for
        FormatError, AddressError or PrefixError. A text that names no network does not stop the
        call. ValueError if the offsets decrease, or go past the end of the texts.

        >>> import array
        >>> offsets = array.array("I", [0, 10, 17])
        >>> networks, faults = IPv4Network.read_column(b"10.0.0.0/8nothing", offsets)
        >>> list(networks[:5]), list(faults)
        ([10, 0, 0, 0, 8], [0, 2])
        """
        return core.read_rows(cls.version, texts, offsets)

    @classmethod
    def print_column(
        cls, networks: ReadableBuffer, offset_bits: int = 32
    ) -> tuple[bytearray, bytearray]:
        """The texts of a column of networks in Arrow's layout: their bytes, one after the other,
        and the offsets at which each begins and the last one ends, of 32 or 64 bits. The column is
        as ``read_column`` returns it. PrefixError if a prefix length is greater than the width;
        ValueError if the texts have 2147483648 bytes or more and the offsets 32 bits.

        >>> column = bytes([10, 1, 9, 32, 16, 0, 0, 0, 0, 0])
        >>> texts, offsets = IPv4Network.print_column(column)
        >>> bytes(texts), memoryview(offsets).cast("I").tolist()
        (b'10.1.9.32/160.0.0.0/0', [0, 12, 21])
        """
        return core.print_rows(cls.version, networks, offset_bits)

    def __copy__(self) -> Self:
        """The network itself, because it does not change."""
        return self if type(self) in _UNCHANGED else copied(self)

    def __deepcopy__(self, memo: dict[int, Any]) -> Self:
        """The network itself, because its parts do not change either."""
        return self if type(self) in _UNCHANGED else copied(self, memo)

    def __format__(self, spec: str) -> str:
        """The canonical text, formatted as a ``str``."""
        return format(str(self), spec)

    def __repr__(self) -> str:
        return f"{type(self).__name__}({str(self)!r})"

    def __reduce__(self) -> tuple[type, tuple[str]]:
        return type(self), (str(self),)


class IPv4Network(_Network[IPv4Address], core.V4):
    """An IPv4 network: an address, which may have host bits, and a prefix length from 0 to 32.

    ``address in network`` tells whether an address is a member, ``network[i]`` is the member of a
    number, and to go through a network gives its members, in ascending order.

    >>> column = b"".join(IPv4Address(text).packed for text in ("10.1.9.32", "8.8.8.8"))
    >>> list(IPv4Network("10.0.0.0/8").contains_column(column))
    [1, 0]
    """

    __slots__ = ()
    version = 4
    max_prefixlen = 32
    _address = IPv4Address

    def to_ipaddress(self) -> IPv4Interface:
        """The same address and prefix length in ``ipaddress``, where a network with host bits is an
        interface."""
        return IPv4Interface((self.ip, self.prefixlen))

    @classmethod
    def from_ipaddress(cls, given: Union[TheirV4, IPv4Interface]) -> Self:
        """The network with the address and prefix length of a network or an interface of
        ``ipaddress``."""
        if isinstance(given, IPv4Interface):
            return cls.of(given.ip, given.network.prefixlen)
        if isinstance(given, TheirV4):
            return cls.of(given.network_address, given.prefixlen)
        raise TypeError(f"{shown(given)} is no IPv4 network or interface of ipaddress")


class IPv6Network(_Network[IPv6Address], core.V6):
    """An IPv6 network: an address, which may have host bits, and a prefix length from 0 to 128.

    ``address in network`` tells whether an address is a member, ``network[i]`` is the member of a
    number, and to go through a network gives its members, in ascending order. An address with a
    zone is asked by its address; a text with one is no address.

    >>> IPv6Address("2001:db8::1") in IPv6Network("2001:db8::/32")
    True
    """

    __slots__ = ()
    version = 6
    max_prefixlen = 128
    _address = IPv6Address

    def to_ipaddress(self) -> IPv6Interface:
        """The same address and prefix length in ``ipaddress``, where a network with host bits is an
        interface."""
        return IPv6Interface((self.ip, self.prefixlen))

    @classmethod
    def from_ipaddress(cls, given: Union[TheirV6, IPv6Interface]) -> Self:
        """The network with the address and prefix length of a network or an interface of
        ``ipaddress``; AddressError if it has a zone."""
        if isinstance(given, IPv6Interface):
            if given.scope_id is not None:
                raise error(2, given)
            return cls.of(given.ip, given.network.prefixlen)
        if isinstance(given, TheirV6):
            return cls.of(given.network_address, given.prefixlen)
        raise TypeError(f"{shown(given)} is no IPv6 network or interface of ipaddress")


def copied(given: _Kind, memo: Union[dict[int, Any], None] = None) -> _Kind:
    """Another object with what a pickle keeps of one. With the objects that were already copied, it
    is a deep copy."""
    reduced: Any = given.__reduce__()
    make, arguments, *more = reduced
    made: _Kind = make(*arguments)
    if more and more[0]:
        made.__dict__.update(more[0] if memo is None else deepcopy(more[0], memo))
    return made


core.register(IPv4Network, IPv6Network)
_UNCHANGED = (IPv4Network, IPv6Network)
Either = Union[IPv4Network, IPv6Network]
#: What a set is made of.
Given = Union[Either, TheirV4, TheirV6, str]
#: Iterables that are not taken for one of networks.
SINGLE = (str, bytes, bytearray, memoryview, IPv4Network, IPv6Network, TheirV4, TheirV6)
_Net = TypeVar("_Net", IPv4Network, IPv6Network)

if TYPE_CHECKING:

    def ip_network(text: Union[str, bytes]) -> Either:
        """The network of either family that a text names, or that of a single address, given as its
        4 or 16 packed bytes. FormatError if the text has two or more slashes; else AddressError if
        the part before the slash is an address of neither family; else PrefixError."""

else:
    ip_network = core.ip_network


if TYPE_CHECKING:

    def read_address(text: str) -> EitherAddress:
        """The address of either family that a text names; AddressError for any other text, such as
        one with a zone."""

    @overload
    def unmapped(address: IPv4Address) -> IPv4Address:
        ...

    @overload
    def unmapped(address: IPv6Address) -> EitherAddress:
        ...

    def unmapped(address: EitherAddress) -> EitherAddress:
        """The IPv4 address in an IPv4-mapped IPv6 address, one of ``::ffff:0:0/96``, with or
        without a zone. Any other address is returned as it is."""

else:
    read_address, unmapped = core.read_address, core.unmapped


def unmapped_network(asked: _Asked) -> Union[_Asked, IPv4Network]:
    """The IPv4 network that corresponds to a network of IPv4-mapped addresses; anything else is
    returned as it is."""
    if isinstance(asked, (IPv6Network, TheirV6)) and asked.prefixlen >= 96:
        address = unmapped(asked.network_address)
        if isinstance(address, IPv4Address):
            return IPv4Network.of(address, asked.prefixlen - 96)
    return asked


def no_network(given: object) -> TypeError:
    """The error for an object that is not a network of this package."""
    kind = type(given)
    name = kind.__name__ if kind.__module__ == "builtins" else f"{kind.__module__}.{kind.__name__}"
    hint = ""
    if isinstance(given, (str, bytes)):
        hint = ": ip_network reads one"
    elif isinstance(given, (TheirV4, TheirV6, IPv4Interface, IPv6Interface)):
        hint = ": from_ipaddress makes one of it"
    elif isinstance(given, (IPv4Address, IPv6Address)):
        hint = ": IPv4Network.of and IPv6Network.of make one of it"
    return TypeError(f"a network is IPv4Network or IPv6Network of ipnetwork, not {name}{hint}")


def network_of(given: object) -> Either:
    """The network that an object is, of this package or of ``ipaddress``, or that a text names."""
    if isinstance(given, (IPv4Network, IPv6Network)):
        return given
    if isinstance(given, str):
        return ip_network(given)
    if isinstance(given, (TheirV4, TheirV6)):
        return from_ipaddress(given)
    raise no_network(given)


def rows_of_networks(networks: Iterable[Given]) -> tuple[bytes, bytes]:
    """The structs of the IPv4 and of the IPv6 networks that ``network_of`` takes from an iterable;
    an error has the number of the element, counted from 0."""
    if isinstance(networks, SINGLE):
        raise TypeError(f"networks are given in an iterable, not as one {type(networks).__name__}")
    rows = [
        given._row if isinstance(given, _UNCHANGED) else _row_of(number, given)
        for number, given in enumerate(networks)
    ]
    fours, sixes = ([row for row in rows if len(row) == step] for step in (5, 17))
    return b"".join(fours), b"".join(sixes)


def _row_of(number: int, given: object) -> bytes:
    """The struct of the network that an element is."""
    try:
        return network_of(given)._row
    except (NetworkError, TypeError) as refused:
        raise type(refused)(f"network {number}: {refused}") from None


def family(network: _Net) -> type[_Net]:
    """The class for the family of a network."""
    if isinstance(network, IPv4Network):
        return IPv4Network
    if isinstance(network, IPv6Network):
        return IPv6Network
    raise no_network(network)


def checked(rows: bytes, version: int) -> bytes:
    """These bytes, if they are the structs of networks of a family; else ValueError."""
    step, longest = (5, 32) if version == 4 else (17, 128)
    if len(rows) % step or max(rows[step - 1 :: step], default=0) > longest:
        raise ValueError(f"these bytes are no IPv{version} networks")
    return rows


def of_rows(rows: bytes, version: int) -> Iterator[Either]:
    """The networks of a family whose structs these bytes are, one after the other."""
    if version == 4:
        yield from _each(IPv4Network, rows, 5)
    else:
        yield from _each(IPv6Network, rows, 17)


def _each(kind: type[_Net], rows: bytes, step: int) -> Iterator[_Net]:
    many = 256 * step  # as many are made at once, and no more are kept
    for at in range(0, len(rows), many):
        yield from core.of_rows(kind, rows[at : at + many])


@overload
def from_ipaddress(given: Union[TheirV4, IPv4Interface]) -> IPv4Network:
    ...


@overload
def from_ipaddress(given: Union[TheirV6, IPv6Interface]) -> IPv6Network:
    ...


def from_ipaddress(given: Union[TheirV4, TheirV6, IPv4Interface, IPv6Interface]) -> Either:
    """The network with the address and prefix length of a network or an interface of ``ipaddress``,
    of either family; AddressError if it has a zone, which no network keeps.

    >>> from ipaddress import ip_interface
    >>> from_ipaddress(ip_interface("2001:db8::7/64"))
    IPv6Network('2001:db8::7/64')
    """
    if isinstance(given, (TheirV4, IPv4Interface)):
        return IPv4Network.from_ipaddress(given)
    if isinstance(given, (TheirV6, IPv6Interface)):
        return IPv6Network.from_ipaddress(given)
    raise TypeError(f"{shown(given)} is no network or interface of ipaddress")


def collapse_addresses(networks: Iterable[_Net]) -> Iterator[_Net]:
    """The fewest networks with the same addresses, in ascending order: the aggregate of networks of
    one family, with or without host bits. TypeError if they are of both families.

    >>> parts = map(IPv4Network, ("10.128.0.0/9", "10.0.0.0/9", "10.1.9.32/16"))
    >>> list(collapse_addresses(parts))
    [IPv4Network('10.0.0.0/8')]
    """
    each = list(networks)
    if not each:
        return iter(())
    kind: type[_Net] = family(each[0])
    for network in each:
        if family(network) is not kind:
            raise TypeError(f"{each[0]!r} and {network!r} are not of one family")
    rows = core.aggregate(kind.version, b"".join([network._row for network in each]))
    return _each(kind, rows, kind.max_prefixlen // 8 + 1)


def range_rows(first: EitherAddress, last: EitherAddress) -> bytes:
    """The structs of the fewest networks with the addresses of a range; NetworkError if the first
    address comes after the last, and TypeError if they are of different families."""
    both = IPv4Address, IPv6Address
    ends = packed(both, first), packed(both, last)
    if len(ends[0]) != len(ends[1]):
        raise TypeError(f"{first!r} and {last!r} are not of one family")
    rows = core.range_rows(*ends)
    if rows is None:
        raise error(9, (first, last))
    return rows


@overload
def summarize_address_range(first: IPv4Address, last: IPv4Address) -> Iterator[IPv4Network]:
    ...


@overload
def summarize_address_range(first: IPv6Address, last: IPv6Address) -> Iterator[IPv6Network]:
    ...


def summarize_address_range(first: EitherAddress, last: EitherAddress) -> Iterator[Either]:
    """The fewest networks with the addresses from first to last, both included, in ascending order.
    NetworkError, which is a ValueError, if the first comes after the last; TypeError if they are of
    different families.

    >>> list(summarize_address_range(IPv4Address("10.0.0.0"), IPv4Address("10.0.0.4")))
    [IPv4Network('10.0.0.0/30'), IPv4Network('10.0.0.4/32')]
    """
    return of_rows(range_rows(first, last), 4 if isinstance(first, IPv4Address) else 6)
