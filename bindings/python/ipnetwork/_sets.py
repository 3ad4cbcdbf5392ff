"""Sets of addresses of both families."""

from __future__ import annotations

from collections.abc import Iterable, Iterator
from ipaddress import IPv4Network as TheirV4
from ipaddress import IPv6Network as TheirV6
from operator import index
from typing import TYPE_CHECKING, Literal, SupportsIndex, Union, overload

from ._chosen import core
from ._errors import shown
from ._networks import (
    SINGLE,
    Either,
    EitherAddress,
    Given,
    IPv4Network,
    IPv6Network,
    checked,
    copied,
    network_of,
    of_rows,
    range_rows,
    rows_of_networks,
    unmapped_network,
)
from ._rows import nulled, packed

if TYPE_CHECKING:
    from typing import Any

    from ._rows import AnyAddress, Invalid, Packed

_ALL_FOURS, _ALL_SIXES = bytes(5), bytes(17)  # 0.0.0.0/0 and ::/0
_ALL_MAPPED = bytes(10) + b"\xff\xff" + bytes(4) + b"\x60"  # ::ffff:0:0/96
#: By the prefix length of an IPv4 network, that of the network of the IPv4-mapped addresses.
_MAPPED_PREFIXES = bytes((prefix + 96) % 256 for prefix in range(256))


class AddressSet:
    """A set of addresses of either family, made from networks in any order and with or without host
    bits. It does not change. The networks are those of this package or of ``ipaddress``, or texts
    that ``ip_network`` reads; a text that it does not read is an error with its number and itself.

    It holds the fewest networks that have these addresses, so sets with the same addresses are
    equal, whatever networks they were made from. Iteration gives these networks, and ``len`` their
    number. ``in`` takes an address, or a network of this package or of ``ipaddress``, which is in
    the set if all of its addresses are. ``|``, ``&``, ``-`` and ``^`` take another set, or any
    iterable of what a set is made from; ``<=`` and ``<`` tell whether one set is part of another.
    ``AddressSetBuilder`` makes a set step by step.

    With ``mapped``, what is said of either form counts: an IPv4-mapped IPv6 address is a member if
    the IPv4 address, or the IPv6 address itself, is one; its longest network is that of the
    IPv4 address, and if there is none that of the IPv6 address; and so for a network within
    ::ffff:0:0/96. Without it, ``::ffff:10.1.9.32``, as a socket for both families reports an IPv4
    peer, is in no set of IPv4 networks. The option changes neither the networks of a set nor which
    sets are equal. The sets made from this one keep it, and of two sets both are taken to have it
    if one does. An IPv4-mapped address is a member of a difference or a complement as long as its
    IPv4 address is. An address with a zone is asked by its address; a text with one is no address.

    The first question about an address or a network makes an index, which the set keeps: 16 bytes
    for each network, and at most 4 MB for each family.

    >>> one = AddressSet([ip_network("10.0.0.0/9")])
    >>> other = AddressSet([ip_network("10.128.0.0/9")])
    >>> allowed = one | other | AddressSet([ip_network("2001:db8::/32")])
    >>> allowed
    AddressSet([IPv4Network('10.0.0.0/8'), IPv6Network('2001:db8::/32')])
    >>> IPv4Address("10.1.9.32") in allowed, IPv6Address("2001:db9::") in allowed
    (True, False)
    >>> ip_network("10.0.0.0/8") in allowed, ip_network("10.0.0.0/7") in allowed
    (True, False)
    >>> one < allowed, one.isdisjoint(other), len(allowed)
    (True, True, 2)
    >>> allowed - AddressSet([ip_network("10.0.0.0/10"), ip_network("::/0")])
    AddressSet([IPv4Network('10.64.0.0/10'), IPv4Network('10.128.0.0/9')])
    >>> peer = IPv6Address("::ffff:10.1.9.32")
    >>> peer in one, peer in AddressSet(one, mapped=True)
    (False, True)
    >>> one | ["2001:db8::/32"]
    AddressSet([IPv4Network('10.0.0.0/9'), IPv6Network('2001:db8::/32')])
    """

    __slots__ = ("__weakref__", "_fours", "_mapped", "_search", "_sixes")

    _fours: bytes
    _sixes: bytes
    _mapped: bool
    #: The blocks of both families with their indexes, after the first question.
    _search: Union[tuple[bytes, bytes, bytes, bytes, bool], None]

    def __init__(self, networks: Iterable[Given] = (), *, mapped: bool = False) -> None:
        if hasattr(self, "_fours"):
            raise TypeError("a set is made once, and does not change")
        fours, sixes = rows_of_networks(networks)
        self._sixes = core.aggregate(6, sixes)
        self._mapped, self._search = bool(mapped) or _is_mapped(networks), None
        self._fours = core.aggregate(4, fours)

    @staticmethod
    def _of(fours: bytes, sixes: bytes, mapped: bool = False) -> AddressSet:
        """The set of these blocks, which must be the fewest with their addresses."""
        made = AddressSet.__new__(AddressSet)
        made._fours, made._sixes, made._mapped, made._search = fours, sixes, mapped, None
        return made

    @property
    def mapped(self) -> bool:
        """Whether an IPv4-mapped address is a member in either of its forms."""
        return self._mapped

    def _indexed(self) -> tuple[bytes, bytes, bytes, bytes, bool]:
        """The blocks with their indexes, which the first question makes. Several threads may make
        them, with the same result."""
        search = self._search
        if search is None:
            fours, sixes = self._fours, self._sixes
            indexes = core.index(4, fours), core.index(6, sixes)
            search = self._search = fours, indexes[0], sixes, indexes[1], self._mapped
        return search

    def _has(self, asked: object) -> bool:
        """Whether an address, or each address of a network, is in the set."""
        search = self._search or self._indexed()
        if core.set_contains(search, asked):
            return True
        if not self._mapped or not isinstance(asked, (IPv6Network, TheirV6)):
            return False
        row = core.block_row(asked)
        if core.is_empty("&", 6, row, _ALL_MAPPED):
            return False
        if core.set_contains(search, unmapped_network(asked)):
            return True
        # Some of its addresses may be members in one form, and the others in the other form.
        return core.set_contains(search, asked.network_address) and core.is_empty(
            "-", 6, row, self._six_members(True)
        )

    def _six_members(self, mapped: bool) -> bytes:
        """The blocks of the IPv6 members; with ``mapped``, also of the IPv4-mapped addresses whose
        IPv4 addresses are members."""
        if not mapped:
            return self._sixes
        rows = bytearray(len(self._fours) // 5 * 17)
        rows[10::17] = rows[11::17] = b"\xff" * (len(self._fours) // 5)
        for octet in range(4):
            rows[12 + octet :: 17] = self._fours[octet::5]
        rows[16::17] = self._fours[4::5].translate(_MAPPED_PREFIXES)
        return core.operate("|", 6, self._sixes, bytes(rows))

    @staticmethod
    def of_ranges(
        ranges: Iterable[tuple[EitherAddress, EitherAddress]], *, mapped: bool = False
    ) -> AddressSet:
        """The set of the addresses of ranges, each given as its first and its last address.
        NetworkError, which is a ValueError, if the first address of a range comes after its last;
        TypeError if they are of different families.

        >>> AddressSet.of_ranges([(IPv4Address("10.0.0.1"), IPv4Address("10.0.0.3"))])
        AddressSet([IPv4Network('10.0.0.1/32'), IPv4Network('10.0.0.2/31')])
        """
        rows: dict[int, list[bytes]] = {4: [], 6: []}
        for first, last in ranges:
            blocks = range_rows(first, last)
            rows[first.version].append(blocks)
        fours, sixes = core.aggregate(4, b"".join(rows[4])), core.aggregate(6, b"".join(rows[6]))
        return AddressSet._of(fours, sixes, bool(mapped))

    def _operated(self, operation: str, other: AddressSet) -> AddressSet:
        if operation == "^":
            return self._operated("-", other)._operated("|", other._operated("-", self))
        fours = core.operate(operation, 4, self._fours, other._fours)
        sixes, *more = [core.operate(operation, 6, *pair) for pair in self._pairs(operation, other)]
        for each in more:
            sixes = core.operate("|", 6, sixes, each)
        return AddressSet._of(fours, sixes, self._mapped or other._mapped)

    def _pairs(self, operation: str, other: AddressSet) -> list[tuple[bytes, bytes]]:
        """The IPv6 blocks of two sets, as pairs: the results of an operation on these are together
        the result. With ``mapped``, a block counts if the other set has it in either form."""
        mapped = operation != "|" and (self._mapped or other._mapped)
        pairs = [(self._sixes, other._six_members(mapped))]
        if mapped and operation == "&":
            pairs.append((self._six_members(mapped), other._sixes))
        return pairs

    def _operator(self, operation: str, other: object, turned: bool = False) -> AddressSet:
        """The result of an operator with another set, or with another iterable of networks, which
        is before the operator if it is ``turned``."""
        if isinstance(other, SINGLE) or not isinstance(other, Iterable):
            return NotImplemented
        one, another = self, _as_set(other)
        return another._operated(operation, one) if turned else one._operated(operation, another)

    def _has_none(self, operation: str, other: AddressSet) -> bool:
        """Whether the result of an operation has no addresses."""
        return core.is_empty(operation, 4, self._fours, other._fours) and all(
            core.is_empty(operation, 6, *pair) for pair in self._pairs(operation, other)
        )

    def __contains__(self, asked: Union[AnyAddress, TheirV4, TheirV6]) -> bool:
        """Whether an address, or each address of a network, is in the set."""
        if self._mapped:
            return self._has(asked)
        return core.set_contains(self._search or self._indexed(), asked)

    def covers(self, network: Union[Either, TheirV4, TheirV6]) -> bool:
        """Whether each address of a network is in the set; TypeError for an object that is not a
        network.

        >>> AddressSet([ip_network("10.0.0.0/9")]).covers(ip_network("10.0.0.0/8"))
        False
        """
        if not isinstance(network, (IPv4Network, IPv6Network, TheirV4, TheirV6)):
            raise TypeError(f"a network is asked about, not {type(network).__name__}")
        return self._has(network)

    @overload
    def contains_column(
        self, addresses: Packed, *, invalid: Literal["raise", False] = ...
    ) -> bytearray:
        ...

    @overload
    def contains_column(self, addresses: Packed, *, invalid: Literal["null"]) -> Any:
        ...

    def contains_column(self, addresses: Packed, *, invalid: Invalid = "raise") -> Any:
        """For each address of a column a byte: 1 if it is in the set, else 0. The column is a list
        of rows, as for ``ipnetwork.columns``, or has 17 bytes for each address, as
        ``read_address_column`` returns it. A row without an address is not in the set. ValueError
        for bytes that are not addresses, and for a text that names none; ``invalid`` is as there.

        >>> list(AddressSet([ip_network("8.0.0.0/8")]).contains_column(["8.8.8.8", "::1", None]))
        [1, 0, 0]
        """
        rows = packed(addresses, invalid)
        answers = core.set_contains_column(self._search or self._indexed(), rows)
        return nulled(addresses, rows, answers, "?") if invalid == "null" else answers

    def first_free(self, prefix: SupportsIndex, within: Given) -> Union[Either, None]:
        """The first block of a prefix length within a network that has no address of the set, or
        None if there is none. ValueError if no block within the network has this prefix length.

        >>> taken = AddressSet(["10.0.0.0/25", "10.0.1.0/24"])
        >>> taken.first_free(24, ip_network("10.0.0.0/8"))
        IPv4Network('10.0.2.0/24')
        """
        network = network_of(within)
        length, version = network._longer(index(prefix)), network.version
        taken = self._fours if version == 4 else self._six_members(self._mapped)
        free = core.operate("-", version, core.block_row(network), taken)
        width = network.max_prefixlen // 8
        for at in range(0, len(free), width + 1):
            if free[at + width] <= length:
                return next(of_rows(free[at : at + width] + bytes([length]), version))
        return None

    def __or__(self, other: Iterable[Given]) -> AddressSet:
        """The addresses that are in at least one of the two sets."""
        return self._operator("|", other)

    def __and__(self, other: Iterable[Given]) -> AddressSet:
        """The addresses that are in both sets."""
        return self._operator("&", other)

    def __sub__(self, other: Iterable[Given]) -> AddressSet:
        """The addresses that are in this set and not in the other."""
        return self._operator("-", other)

    def __xor__(self, other: Iterable[Given]) -> AddressSet:
        """The addresses that are in exactly one of the two sets."""
        return self._operator("^", other)

    __ror__, __rand__, __rxor__ = __or__, __and__, __xor__

    def __rsub__(self, other: Iterable[Given]) -> AddressSet:
        """The addresses that are in the other and not in this set."""
        return self._operator("-", other, turned=True)

    def complement(self, version: Union[Literal[4, 6], None] = None) -> AddressSet:
        """The addresses that are not in the set: those of one family if ``version`` is 4 or 6, else
        those of both families, as for ``~``.

        >>> AddressSet([ip_network("128.0.0.0/1")]).complement(4)
        AddressSet([IPv4Network('0.0.0.0/1')])
        """
        if version not in (None, 4, 6):
            raise ValueError(f"version is 4 or 6, for a family, or None, not {shown(version)}")
        fours = b"" if version == 6 else core.operate("-", 4, _ALL_FOURS, self._fours)
        taken = self._six_members(self._mapped)
        sixes = b"" if version == 4 else core.operate("-", 6, _ALL_SIXES, taken)
        return AddressSet._of(fours, sixes, self._mapped)

    def __invert__(self) -> AddressSet:
        """The addresses of both families that are not in the set."""
        return self.complement()

    def _is_in(self, other: AddressSet, proper: bool) -> bool:
        """Whether another set has each address of this one and, if ``proper`` is true, also other
        addresses."""
        return self._has_none("-", other) and not (proper and other._has_none("-", self))

    def __le__(self, other: AddressSet) -> bool:
        """Whether the other set has each address of this one."""
        return self._is_in(other, False) if isinstance(other, AddressSet) else NotImplemented

    def __lt__(self, other: AddressSet) -> bool:
        """Whether the other set has each address of this one, and also others."""
        return self._is_in(other, True) if isinstance(other, AddressSet) else NotImplemented

    def __ge__(self, other: AddressSet) -> bool:
        """Whether this set has each address of the other."""
        return other._is_in(self, False) if isinstance(other, AddressSet) else NotImplemented

    def __gt__(self, other: AddressSet) -> bool:
        """Whether this set has each address of the other, and also others."""
        return other._is_in(self, True) if isinstance(other, AddressSet) else NotImplemented

    def isdisjoint(self, other: Iterable[Given]) -> bool:
        """Whether this set and another, or networks, have no address in common."""
        return self._has_none("&", _as_set(other))

    def issubset(self, other: Iterable[Given]) -> bool:
        """Whether another set, or networks, have each address of this set."""
        return self._has_none("-", _as_set(other))

    def issuperset(self, other: Iterable[Given]) -> bool:
        """Whether this set has each address of another, or of networks."""
        return _as_set(other)._has_none("-", self)

    def union(self, *others: Iterable[Given]) -> AddressSet:
        """The addresses of this set and of others, or of networks."""
        each = [self, *map(_as_set, others)]
        return AddressSet._of(
            core.aggregate(4, b"".join([one._fours for one in each])),
            core.aggregate(6, b"".join([one._sixes for one in each])),
            any(one._mapped for one in each),
        )

    def intersection(self, *others: Iterable[Given]) -> AddressSet:
        """The addresses that are in this set and in each of the others."""
        common = self
        for other in others:
            common = common._operated("&", _as_set(other))
        return common._operated("|", _NONE)

    def difference(self, *others: Iterable[Given]) -> AddressSet:
        """The addresses that are in this set and in none of the others."""
        return self._operated("-", _NONE.union(*others))

    def symmetric_difference(self, other: Iterable[Given]) -> AddressSet:
        """The addresses that are in exactly one of this set and another."""
        return self._operated("^", _as_set(other))

    def __iter__(self) -> Iterator[Either]:
        """The fewest networks that have these addresses, in ascending order, IPv4 first."""
        yield from of_rows(self._fours, 4)
        yield from of_rows(self._sixes, 6)

    def __len__(self) -> int:
        """The number of these networks."""
        return len(self._fours) // len(_ALL_FOURS) + len(self._sixes) // len(_ALL_SIXES)

    def ranges(self) -> Iterator[tuple[EitherAddress, EitherAddress]]:
        """The fewest ranges that have these addresses, each as its first and its last address, in
        ascending order, IPv4 first.

        >>> list(AddressSet([ip_network("10.0.0.4/30"), ip_network("10.0.0.8/31")]).ranges())
        [(IPv4Address('10.0.0.4'), IPv4Address('10.0.0.9'))]
        """
        first: Union[EitherAddress, None] = None
        last: Union[EitherAddress, None] = None
        for block in self:
            least = block.network_address
            if first is None or last is None or not _follows(least, last):
                if first is not None and last is not None:
                    yield first, last
                first = least
            last = block.broadcast_address
        if first is not None and last is not None:
            yield first, last

    @property
    def num_addresses(self) -> int:
        """The number of addresses."""
        return sum(network.num_addresses for network in self)

    def __bool__(self) -> bool:
        """Whether the set has any addresses."""
        return bool(self._fours or self._sixes)

    def __eq__(self, other: object) -> bool:
        if not isinstance(other, AddressSet):
            return NotImplemented
        return (self._fours, self._sixes) == (other._fours, other._sixes)

    def __hash__(self) -> int:
        return hash((self._fours, self._sixes))

    def __repr__(self) -> str:
        return f"{type(self).__name__}({list(self)!r}{', mapped=True' * self._mapped})"

    def __copy__(self) -> AddressSet:
        """The set itself, because it does not change; for a subclass, another object."""
        return self if type(self) is AddressSet else copied(self)

    def __deepcopy__(self, memo: dict[int, Any]) -> AddressSet:
        """The same, because its networks do not change either."""
        return self if type(self) is AddressSet else copied(self, memo)

    def __reduce__(self) -> tuple[Any, ...]:
        held = type(self), self._fours, self._sixes, self._mapped
        return _unpickled, held, getattr(self, "__dict__", None)


def _unpickled(kind: type[AddressSet], fours: bytes, sixes: bytes, mapped: bool) -> AddressSet:
    """The set whose blocks a pickle has as bytes."""
    made = kind.__new__(kind)
    made._sixes = core.aggregate(6, checked(sixes, 6))
    made._mapped, made._search = bool(mapped), None
    made._fours = core.aggregate(4, checked(fours, 4))
    return made


def _is_mapped(networks: Iterable[Given]) -> bool:
    """Whether these are of a set or a table with the option."""
    return getattr(networks, "mapped", False) is True


def _follows(address: EitherAddress, last: EitherAddress) -> bool:
    """Whether an address is the next one after another address of its family."""
    return address.version == last.version and int(address) == int(last) + 1


def _as_set(networks: Iterable[Given]) -> AddressSet:
    return networks if isinstance(networks, AddressSet) else AddressSet(networks)


_NONE = AddressSet()
