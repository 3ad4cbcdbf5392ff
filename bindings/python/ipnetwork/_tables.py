"""Tables of networks that do not change, searched for the longest network that has an address."""

from __future__ import annotations

import sys
from array import array
from collections.abc import Iterable, Sequence
from typing import TYPE_CHECKING, Literal, NamedTuple, TypeVar, Union, overload

from ._chosen import core
from ._joins import Joins, Value
from ._networks import Either, IPv4Network, IPv6Network, checked, copied, no_network
from ._rows import nulled, packed

if TYPE_CHECKING:
    from typing import Any

    from _typeshed import ReadableBuffer

    from ._rows import AnyAddress, Invalid, Packed

_Default = TypeVar("_Default")


class _Blocks(NamedTuple):
    """The blocks of networks in the order of a table, and the number of the network of each."""

    fours: bytes
    four_numbers: bytes
    sixes: bytes
    six_numbers: bytes

    def search(self, mapped: bool) -> Search:
        """The search in these networks; with ``mapped``, an IPv4-mapped address is found in either
        form."""
        fours = core.ranges(4, self.fours, self.four_numbers)
        return Search(*fours, *core.ranges(6, self.sixes, self.six_numbers), mapped)


class Search(NamedTuple):
    """The ranges of addresses that have the same longest network, the number of that network or -1,
    and an index of the ranges; and whether an IPv4-mapped address is found in either form."""

    fours: bytes
    four_numbers: bytes
    four_index: bytes
    sixes: bytes
    six_numbers: bytes
    six_index: bytes
    mapped: bool

    def find_column(self, addresses: ReadableBuffer) -> bytearray:
        """The number for each address of a column, in 64 bits."""
        return core.table_find_column(self, addresses)

    def join(
        self, addresses: ReadableBuffer, values: Sequence[Value], default: _Default
    ) -> list[Union[Value, _Default]]:
        """For each address of a column, the value with the number that is found, or the default."""
        numbers = memoryview(self.find_column(addresses)).cast("q")
        return [default if number < 0 else values[number] for number in numbers]


def blocks_of(rows: Iterable[bytes]) -> _Blocks:
    """The table of networks, given by the bytes of their structs."""
    each: dict[int, list[bytes]] = {5: [], 17: []}
    numbers = {5: array("q"), 17: array("q")}
    for number, row in enumerate(rows):
        each[len(row)].append(row)
        numbers[len(row)].append(number)
    fours, sixes = _made(4, each[5], numbers[5]), _made(6, each[17], numbers[17])
    return _Blocks(*fours, *sixes)


def _made(version: int, rows: list[bytes], numbers: array[int]) -> tuple[bytes, bytes]:
    """The blocks of networks in the order of a table, and the number of the network of each."""
    blocks, places = core.table_make(version, b"".join(rows))
    if not rows or numbers[-1] == len(rows) - 1:  # of one family, a place is a number
        return blocks, places
    return blocks, array("q", [numbers[at] for at in memoryview(places).cast("N")]).tobytes()


def split(rows: bytes, step: int) -> list[bytes]:
    """The structs that these bytes consist of."""
    return [rows[at : at + step] for at in range(0, len(rows), step)]


def lengths_of(keys: list[bytes], version: int) -> bytes:
    """The prefix lengths of the keys of a family, in descending order; ValueError if a key is not a
    network without host bits."""
    step = 5 if version == 4 else 17
    those = sorted(key for key in keys if len(key) == step)
    blocks, _ = core.table_make(version, checked(b"".join(those), version))
    if blocks != b"".join(those) or any(len(key) not in (5, 17) for key in keys):
        raise ValueError("a key of the table is no network without host bits")
    return bytes(sorted({key[-1] for key in those}, reverse=True))


def _row(network: Either) -> bytes:
    if not isinstance(network, (IPv4Network, IPv6Network)):
        raise no_network(network)
    return network._row


class Table(Joins[Value]):
    """Networks of either family, in any order and with or without host bits, and the values that
    belong to them if they are given. It finds the longest network that has an address. A table does
    not change; a ``PrefixTable`` does.

    The result is the number of a network, counted from 0 in the order given. For networks with the
    same addresses it is that of the last one. Host bits make no difference, and the table does not
    keep them: a pickled table has only the blocks of the networks, and finds the same.

    The first question makes an index, which the table keeps: at most 58 bytes for each IPv4
    network, and 82 for each IPv6 network.

    With ``mapped``, what is said of either form counts: an IPv4-mapped IPv6 address is a member if
    the IPv4 address, or the IPv6 address itself, is one; its longest network is that of the
    IPv4 address, and if there is none that of the IPv6 address; and so for a network within
    ::ffff:0:0/96. Without it, ``::ffff:10.1.2.3``, as a socket for both families reports an IPv4
    peer, is found in no IPv4 network. An address with a zone is asked by its address; a text with
    one is no address.

    >>> networks = [ip_network(text) for text in ("10.0.0.0/8", "2001:db8::/32", "10.1.9.32/16")]
    >>> table = Table(networks, ["lab", "office", "cellar"])
    >>> table.find(IPv4Address("10.1.2.3")), table.find(IPv4Address("8.8.8.8"))
    (2, None)
    >>> table.join(["10.1.2.3", "8.8.8.8", None, "2001:db8::1"])
    ['cellar', None, None, 'office']
    """

    __slots__ = ("__weakref__", "_blocks", "_mapped", "_search", "_values")

    _blocks: _Blocks
    _mapped: bool
    #: The search in the blocks, after the first question.
    _search: Union[Search, None]
    _values: Union[list[Value], None]

    @overload
    def __init__(self: Table[None], networks: Iterable[Either], *, mapped: bool = ...) -> None:
        ...

    @overload
    def __init__(
        self, networks: Iterable[Either], values: Iterable[Value], *, mapped: bool = ...
    ) -> None:
        ...

    def __init__(
        self,
        networks: Iterable[Either],
        values: Union[Iterable[Value], None] = None,
        *,
        mapped: bool = False,
    ) -> None:
        if hasattr(self, "_blocks"):
            raise TypeError("a table is made once, and does not change")
        rows, kept = list(map(_row, networks)), None if values is None else list(values)
        if kept is not None and len(kept) != len(rows):
            raise ValueError(f"there are {len(kept)} values for {len(rows)} networks")
        self._values, self._mapped, self._search = kept, bool(mapped), None
        self._blocks = blocks_of(rows)

    def _made(self) -> Search:
        """The search, which the first question makes. Several threads may make it, with the same
        result."""
        search = self._search
        if search is None:
            search = self._search = self._blocks.search(self._mapped)
        return search

    @property
    def mapped(self) -> bool:
        """Whether an IPv4-mapped address is found in either of its forms."""
        return self._mapped

    def find(self, address: AnyAddress) -> Union[int, None]:
        """The number of the longest network that has an address; None if no network has it. A
        network of one address may be given as that address; any other network is a TypeError."""
        number = core.table_find(self._search or self._made(), address)
        return None if number < 0 else number

    @overload
    def find_column(
        self, addresses: Packed, *, invalid: Literal["raise", False] = ...
    ) -> bytearray:
        ...

    @overload
    def find_column(self, addresses: Packed, *, invalid: Literal["null"]) -> Any:
        ...

    def find_column(self, addresses: Packed, *, invalid: Invalid = "raise") -> Any:
        """For each address of a column the number of the longest network that has it, or -1 if none
        does, as signed numbers of 64 bits. The column is a list of rows, as for
        ``ipnetwork.columns``, or has 17 bytes for each address, as ``read_address_column`` returns
        it. A row without an address has the number -1. ValueError for bytes that are not addresses,
        and for a text that names none; ``invalid`` is as there.

        >>> table = Table([ip_network("::/0"), ip_network("8.0.0.0/8")])
        >>> memoryview(table.find_column(["8.8.8.8", "::1", None])).cast("q").tolist()
        [1, 0, -1]
        """
        rows = packed(addresses, invalid)
        numbers = core.table_find_column(self._search or self._made(), rows)
        return nulled(addresses, rows, numbers, "q") if invalid == "null" else numbers

    def _joined(self, addresses: ReadableBuffer, default: object) -> list[Any]:
        if self._values is None:
            raise ValueError("the table has no values: they are the second argument of Table")
        return self._made().join(addresses, self._values, default)

    def __len__(self) -> int:
        """The number of networks."""
        return (len(self._blocks.four_numbers) + len(self._blocks.six_numbers)) // 8

    def __copy__(self) -> Table[Value]:
        """The table itself, because it does not change; for a subclass, another object."""
        return self if type(self) is Table else copied(self)

    def __reduce__(self) -> tuple[Any, ...]:
        fours, four_numbers, sixes, six_numbers = self._blocks
        blocks = fours, _little(four_numbers), sixes, _little(six_numbers)
        held = type(self), blocks, self._values, self._mapped
        return _unpickled, held, getattr(self, "__dict__", None)


def _little(numbers: bytes) -> bytes:
    """Converts numbers of 64 bits between the byte order of the machine and little-endian."""
    if sys.byteorder == "little":
        return numbers
    other = array("q", numbers)
    other.byteswap()
    return other.tobytes()


def _unpickled(
    kind: type[Table[Value]],
    blocks: tuple[bytes, bytes, bytes, bytes],
    values: Union[list[Value], None],
    mapped: bool,
) -> Table[Value]:
    """The table whose blocks, with their numbers, a pickle has as bytes."""
    fours, four_numbers, sixes, six_numbers = blocks
    rows = split(checked(fours, 4), 5) + split(checked(sixes, 6), 17)
    numbers = array("q", _little(four_numbers) + _little(six_numbers))
    each = dict(zip(numbers, rows))
    if not len(each) == len(rows) == len(numbers) or each.keys() != set(range(len(rows))):
        raise ValueError("there is not one number for each network of the table")
    if values is not None and len(values) != len(rows):
        raise ValueError(f"there are {len(values)} values for {len(rows)} networks")
    made = kind.__new__(kind)
    made._values, made._mapped, made._search = values, bool(mapped), None
    made._blocks = blocks_of([each[number] for number in range(len(rows))])
    return made
