# mypy: ignore-errors
"""The networks of the core over ``ctypes``.

What a network has computed once is kept. The bytes of a network are its address and its prefix
length, so networks are equal if these are.
"""

from __future__ import annotations

import ctypes
import operator
from collections.abc import Iterator
from functools import cached_property
from ipaddress import IPv4Address, IPv4Network, IPv6Address, IPv6Network
from typing import TYPE_CHECKING, ClassVar, Generic, SupportsIndex, TypeVar, Union

from ._by_ctypes_addresses import no_address, type_name
from ._by_ctypes_library import V4 as StructV4
from ._by_ctypes_library import V6 as StructV6
from ._by_ctypes_library import Either, answered, flat, library
from ._errors import error, shown

if TYPE_CHECKING:
    from _typeshed import ReadableBuffer

_Room = ctypes.c_char * 44

Address = TypeVar("Address", IPv4Address, IPv6Address)
_Kind = TypeVar("_Kind", bound="Network[IPv4Address] | Network[IPv6Address]")


def _bytes(given: str) -> bytes:
    if isinstance(given, str):
        return given.encode("utf-8", "surrogatepass")
    hint = ""
    if hasattr(given, "network_address") or hasattr(given, "network"):
        hint = ": from_ipaddress takes it"
    elif hasattr(given, "packed"):
        hint = ": str of it is one"
    raise TypeError(
        "a network is given as str, or as bytes of a packed address, not as "
        f"{type_name(given)}{hint}"
    )


def alone(given: object) -> object:
    """The address of a network of one address; anything else as it is."""
    if isinstance(given, (Network, IPv4Network, IPv6Network)) and given.num_addresses == 1:
        return given.network_address
    return given


def no_member(address: object) -> bool:
    """The result of ``in`` for an object that is not an address of the family: an address of the
    other family or a network is no member; anything else is a TypeError."""
    if isinstance(address, (IPv4Address, IPv6Address, Network, IPv4Network, IPv6Network)):
        return False
    raise no_address(address)


class Network(Generic[Address]):
    """What the networks of both families have. A network is the bytes of its struct: the address
    and the prefix length."""

    _width: ClassVar[int]
    _family: ClassVar[str]
    _struct: ClassVar[type[ctypes.Structure]]
    _octets: ClassVar[type[ctypes.Array[ctypes.c_ubyte]]]
    _address: type[Address]

    _row: bytes

    def __init__(self, text: Union[str, bytes]) -> None:
        """The network that a text names, or that of a single address, given as its packed bytes.
        FormatError, AddressError or PrefixError, the first that applies."""
        if "_row" in self.__dict__:
            raise TypeError("a network is made once, and does not change")
        if isinstance(text, bytes):
            if len(text) != self._width:
                raise error(2, text)
            self._keep(text + bytes([self._width * 8]))
            return
        given = _bytes(text)
        held = self._struct()
        fault = self._read(given, len(given), ctypes.byref(held))
        if fault:
            raise error(fault, text)
        self._keep(bytes(held))

    def _keep(self, row: bytes) -> None:
        self.__dict__["_row"] = row

    def __setattr__(self, name: str, value: object) -> None:
        """A network does not change: only one of a subclass has attributes that can be set, and
        these are not those of a network."""
        self._changes(name)
        super().__setattr__(name, value)

    def __delattr__(self, name: str) -> None:
        self._changes(name)
        super().__delattr__(name)

    def _changes(self, name: str) -> None:
        if type(self) in _classes or name == "_row" or name in vars(Network):
            kind = type(self).__name__
            raise AttributeError(f"attribute {name!r} of {kind!r} objects is not writable")

    @property
    def prefixlen(self) -> int:
        """The prefix length."""
        return self._row[-1]

    def _asked(self, call: ctypes._NamedFuncPointer) -> Address:
        """The address that a call of the library returns for this network."""
        octets = self._octets()
        answered(call(self._row, ctypes.byref(octets)))
        return self._address(bytes(octets))

    @cached_property
    def ip(self) -> Address:
        """The address, host bits included."""
        return self._address(self._row[:-1])

    @cached_property
    def network_address(self) -> Address:
        """The least member: the address with its host bits cleared."""
        return self._asked(self._least)

    @cached_property
    def broadcast_address(self) -> Address:
        """The greatest member: the address with its host bits set."""
        return self._asked(self._greatest)

    @cached_property
    def netmask(self) -> Address:
        """The mask of the prefix length."""
        return self._asked(self._mask)

    @cached_property
    def num_addresses(self) -> int:
        """The number of members."""
        size = self._size_type()
        answered(self._size(self._row, ctypes.byref(size)))
        return size.value if self._width == 4 else int.from_bytes(size, "big")

    @cached_property
    def _text(self) -> str:
        room, length = _Room(), ctypes.c_size_t()
        answered(self._print(self._row, ctypes.byref(room), 44, ctypes.byref(length)))
        return room.value.decode("ascii")

    def __str__(self) -> str:
        """The canonical text."""
        return self._text

    def __getitem__(self, index: SupportsIndex) -> Address:
        """The member of this number in ascending order, counted from 0, or from the end if it is
        negative."""
        place = operator.index(index)
        if place < 0:
            place += self.num_addresses
        fault, octets = 6, self._octets()
        if 0 <= place < 1 << 8 * self._width:
            number = place if self._width == 4 else place.to_bytes(16, "big")
            fault = self._nth(self._row, number, ctypes.byref(octets))
        if fault == 6:
            raise IndexError("no member of this number")
        answered(fault)
        return self._address(bytes(octets))

    def __iter__(self) -> Iterator[Address]:
        """The members, each once, in ascending order."""
        return map(self._address, range(int(self.network_address), int(self.broadcast_address) + 1))

    def __contains__(self, address: object) -> bool:
        """Whether an address, or the address of a network of one address, is a member. An address
        of the other family is not, nor is a network of more than one address."""
        address = alone(address)
        if isinstance(address, self._address):
            answer = ctypes.c_uint8()
            answered(self._has(self._row, address.packed, ctypes.byref(answer)))
            return answer.value == 1
        return no_member(address)

    def contains_column(self, packed: ReadableBuffer) -> bytearray:
        """For each address of a column a byte: 1 if it is a member of the network, else 0.

        A column is packed addresses of the network's family, one after the other, in any contiguous
        buffer: ``bytes``, ``bytearray``, ``memoryview``, a NumPy array. ValueError if it ends
        within an address."""
        view = flat(packed)
        count, part = divmod(view.nbytes, self._width)
        if part:
            raise ValueError(
                f"{view.nbytes} bytes are no column of addresses of {self._width} bytes"
            )
        answers = bytearray(count)
        if count:
            shared = ctypes.c_ubyte * view.nbytes
            given = bytes(view) if view.readonly else shared.from_buffer(view)
            room = (ctypes.c_ubyte * count).from_buffer(answers)
            answered(self._column(self._row, given, count, room, count))
        return answers

    def _of_this(self, other: Network[Address]) -> None:
        if not isinstance(other, Network) or other._width != self._width:
            raise TypeError(f"{shown(other)} is no network of this package, or of another family")

    def subnet_of(self, other: Network[Address]) -> bool:
        """Whether each member of this network is a member of ``other``. Host bits make no
        difference."""
        if other.__class__ is not self.__class__:
            self._of_this(other)
        answer = ctypes.c_uint8()
        answered(self._within(self._row, other._row, ctypes.byref(answer)))
        return answer.value == 1

    def supernet_of(self, other: Network[Address]) -> bool:
        """Whether each member of ``other`` is a member of this network. Host bits make no
        difference."""
        if other.__class__ is not self.__class__:
            self._of_this(other)
        return other.subnet_of(self)

    def overlaps(self, other: Union[Network[IPv4Address], Network[IPv6Address]]) -> bool:
        """Whether some address is a member of both networks; ``False`` if the families differ."""
        if not isinstance(other, Network):
            self._of_this(other)
        if self._width != other._width:
            return False
        answer = ctypes.c_uint8()
        answered(self._shares(self._row, other._row, ctypes.byref(answer)))
        return answer.value == 1

    def _order(self, other: object) -> Union[int, None]:
        """Negative if this network comes before another, 0 if they are equal, positive if it comes
        after; None if the other is not a network of its family."""
        if not isinstance(other, Network) or other._width != self._width:
            return None
        order = ctypes.c_int32()
        answered(self._compare(self._row, other._row, ctypes.byref(order)))
        return order.value

    # The bytes of networks of different families differ in length, so such networks are not equal.
    def __eq__(self, other: object) -> bool:
        return self._row == other._row if isinstance(other, Network) else NotImplemented

    def __hash__(self) -> int:
        return hash(self._row)

    def __lt__(self, other: Network[Address]) -> bool:
        order = self._order(other)
        return NotImplemented if order is None else order < 0

    def __le__(self, other: Network[Address]) -> bool:
        order = self._order(other)
        return NotImplemented if order is None else order <= 0

    def __gt__(self, other: Network[Address]) -> bool:
        order = self._order(other)
        return NotImplemented if order is None else order > 0

    def __ge__(self, other: Network[Address]) -> bool:
        order = self._order(other)
        return NotImplemented if order is None else order >= 0


class V4(Network[IPv4Address]):
    """The IPv4 networks."""

    _width = 4
    _family = "v4"
    _struct = StructV4
    _address = IPv4Address
    _octets = ctypes.c_ubyte * 4
    _read = library.ipnetwork_v4_read
    _print = library.ipnetwork_v4_canonical
    _column = library.ipnetwork_v4_contains_column
    _least = library.ipnetwork_v4_network
    _greatest = library.ipnetwork_v4_broadcast
    _mask = library.ipnetwork_v4_mask
    _size = library.ipnetwork_v4_size
    _size_type = ctypes.c_uint64
    _nth = library.ipnetwork_v4_nth
    _has = library.ipnetwork_v4_contains
    _within = library.ipnetwork_v4_is_subnet_of
    _shares = library.ipnetwork_v4_overlaps
    _compare = library.ipnetwork_v4_compare


class V6(Network[IPv6Address]):
    """The IPv6 networks."""

    _width = 16
    _family = "v6"
    _struct = StructV6
    _address = IPv6Address
    _octets = ctypes.c_ubyte * 16
    _read = library.ipnetwork_v6_read
    _print = library.ipnetwork_v6_canonical
    _column = library.ipnetwork_v6_contains_column
    _least = library.ipnetwork_v6_network
    _greatest = library.ipnetwork_v6_broadcast
    _mask = library.ipnetwork_v6_mask
    _size = library.ipnetwork_v6_size
    _size_type = ctypes.c_ubyte * 17
    _nth = library.ipnetwork_v6_nth
    _has = library.ipnetwork_v6_contains
    _within = library.ipnetwork_v6_is_subnet_of
    _shares = library.ipnetwork_v6_overlaps
    _compare = library.ipnetwork_v6_compare


_classes: tuple[type[V4], type[V6]] = (V4, V6)


def register(four: type[V4], six: type[V6]) -> None:
    """Sets the classes of the networks that ``ip_network`` makes."""
    global _classes
    _classes = four, six


def ip_network(text: Union[str, bytes]) -> Union[V4, V6]:
    """The network of either family that a text names, or that of a packed address."""
    if isinstance(text, bytes):
        return _classes[len(text) == 16](text)
    given = _bytes(text)
    either = Either()
    fault = library.ipnetwork_read_with_cause(given, len(given), ctypes.byref(either))
    if fault:
        raise error(fault, text)
    kind, held = (_classes[0], either.v4) if either.family == 4 else (_classes[1], either.v6)
    network = kind.__new__(kind)
    network._keep(bytes(held))
    return network


def of_packed(kind: type[_Kind], packed: bytes, prefixlen: SupportsIndex) -> _Kind:
    """The network of a packed address and a prefix length."""
    given = operator.index(prefixlen)
    held = kind._struct()
    make = getattr(library, f"ipnetwork_{kind._family}_new")
    fault = make(packed, given, ctypes.byref(held)) if 0 <= given <= 255 else 3
    if fault:
        raise error(fault, given)
    network = kind.__new__(kind)
    network._keep(bytes(held))
    return network


def of_rows(kind: type[_Kind], rows: bytes) -> list[_Kind]:
    """The networks with these structs."""
    step = kind._width + 1
    networks = []
    for at in range(0, len(rows), step):
        network = kind.__new__(kind)
        network._keep(rows[at : at + step])
        networks.append(network)
    return networks


def prefix_of_mask(packed: bytes) -> int:
    """The prefix length of a packed mask; MaskError if it is not a mask."""
    prefix = ctypes.c_uint8()
    call = getattr(library, f"ipnetwork_v{4 if len(packed) == 4 else 6}_prefix_of_mask")
    fault = call(packed, ctypes.byref(prefix))
    if fault:
        raise error(fault, packed)
    return prefix.value


def subnet_at(network: _Kind, prefixlen: int, number: int) -> Union[_Kind, None]:
    """The block of this number, as a network of the class; None if there is none."""
    held = network._struct()
    if number >= 2 ** (8 * network._width):
        return None
    given = number if network._width == 4 else number.to_bytes(16, "big")
    call = getattr(library, f"ipnetwork_{network._family}_subnet_at")
    fault = call(network._row, prefixlen, given, ctypes.byref(held))
    if fault == 6:
        return None
    answered(fault)
    subnet = type(network).__new__(type(network))
    subnet._keep(bytes(held))
    return subnet
