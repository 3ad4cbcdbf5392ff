"""A mapping from networks to values, searched for the longest network that has an address."""

from __future__ import annotations

from collections.abc import (
    ItemsView,
    Iterable,
    Iterator,
    KeysView,
    Mapping,
    MutableMapping,
    ValuesView,
)
from ipaddress import IPv4Address, IPv6Address, ip_address
from ipaddress import IPv4Network as TheirV4
from ipaddress import IPv6Network as TheirV6
from itertools import accumulate
from typing import TYPE_CHECKING, Any, NamedTuple, TypeVar, Union, overload

from ._chosen import core
from ._joins import Joins, Value
from ._lock import new_lock
from ._networks import (
    Either,
    EitherAddress,
    IPv4Network,
    IPv6Network,
    no_network,
    unmapped,
    unmapped_network,
)
from ._tables import Search, blocks_of, lengths_of

if TYPE_CHECKING:
    from _typeshed import ReadableBuffer

_Default = TypeVar("_Default")
#: What a table can be asked about.
Asked = Union[Either, TheirV4, TheirV6, EitherAddress]

_NO_KEY: Any = object()
_NONE = blocks_of(()).search(False)  # among no networks
_ADDRESSES = (IPv4Address, IPv6Address)
_NETWORKS = (IPv4Network, IPv6Network)
_ALL_NETWORKS = (IPv4Network, IPv6Network, TheirV4, TheirV6)


def _network(row: bytes) -> Either:
    """The network with this struct."""
    if len(row) == 5:
        return core.of_rows(IPv4Network, row)[0]
    return core.of_rows(IPv6Network, row)[0]


class _Ready(NamedTuple):
    """The search in the networks of a table that has not changed since, and its keys in order."""

    search: Search
    keys: list[bytes]


class PrefixTable(Joins[Value], MutableMapping[Either, Value]):
    """A mapping from networks of either family to values, which finds the longest network that has
    an address.

    Its keys are networks without host bits: ``table[network]`` is the value of that network, given
    with or without host bits, and ``table[address]`` that of the longest network that has the
    address. A network of one address that is no key is asked about as that address, by ``table[]``,
    ``get`` and ``in``. What changes the table, and ``keys()`` and ``items()``, know only keys.
    Iteration gives the networks in the order in which they were inserted, as for a ``dict``. An
    address cannot be inserted or removed.

    With ``mapped``, what is said of either form counts: an IPv4-mapped IPv6 address is a member if
    the IPv4 address, or the IPv6 address itself, is one; its longest network is that of the
    IPv4 address, and if there is none that of the IPv6 address; and so for a network within
    ::ffff:0:0/96. Without it, ``::ffff:10.1.2.3``, as a socket for both families reports an IPv4
    peer, is found in no IPv4 network. A key is first asked for as it is. An address with a zone
    is asked by its address; a text with one is no address.

    >>> table = PrefixTable({ip_network("10.0.0.0/8"): "lab"})
    >>> table[ip_network("10.1.9.32/16")] = "cellar"
    >>> table[IPv4Address("10.1.2.3")], table[IPv4Address("10.2.0.0")]
    ('cellar', 'lab')
    >>> IPv4Address("8.8.8.8") in table, table.get(IPv4Address("8.8.8.8"), "none")
    (False, 'none')
    >>> table[ip_network("10.1.2.3")], ip_network("10.1.2.3") in table.keys()
    ('cellar', False)
    >>> list(table)
    [IPv4Network('10.0.0.0/8'), IPv4Network('10.1.0.0/16')]
    """

    __slots__ = (
        "__weakref__",
        "_asked",
        "_fours",
        "_lock",
        "_mapped",
        "_ready",
        "_sixes",
        "_values",
    )

    _mapped: bool

    def __init__(
        self,
        items: Union[Mapping[Either, Value], Iterable[tuple[Either, Value]]] = (),
        *,
        mapped: bool = False,
    ) -> None:
        self._mapped = bool(mapped) or (isinstance(items, PrefixTable) and items._mapped)
        # The keys are the bytes of the structs of the networks.
        self._values: dict[bytes, Value] = {}
        # The prefix lengths of the keys of each family, and maybe others, in descending order.
        self._fours, self._sixes = b"", b""
        self._ready: Union[_Ready, None] = None
        self._asked = 0  # how often it was asked since a search was ready
        self._lock = new_lock()  # of what changes the keys, or makes a search ready
        self.update(items)

    # Keys.

    def _key(self, network: object) -> bytes:
        if isinstance(network, _NETWORKS):
            return core.block_row(network)
        raise no_network(network)

    def _know(self, prefix: int, version: int) -> None:
        """Adds a prefix length to those of the keys of a family."""
        known = self._fours if version == 4 else self._sixes
        if prefix in known:
            return
        lengths = bytes(sorted({*known, prefix}, reverse=True))
        if version == 4:
            self._fours = lengths
        else:
            self._sixes = lengths

    def _search_for(self, count: int) -> Union[_Ready, None]:
        """The search, which is made if that is worthwhile: if the questions since the last search
        was made, with ``count`` more, are at least an eighth as many as the keys. None if it is
        not. The lock must be held."""
        self._asked += count
        if self._ready is None and self._asked * 8 >= len(self._values):
            keys = list(self._values)
            self._ready, self._asked = _Ready(blocks_of(keys).search(self._mapped), keys), 0
        return self._ready

    def _found(self, asked: object) -> Union[tuple[bytes, Value], None]:
        """The key and the value of the longest network that has all that is asked about."""
        ready = self._ready
        if ready is not None and isinstance(asked, _ADDRESSES):
            number = core.table_find(ready.search, asked)
            if number < 0:
                return None
            key = ready.keys[number]
            value = self._values.get(key, _NO_KEY)
            if value is not _NO_KEY:  # else another thread has taken it out meanwhile
                return key, value
        self._lock.acquire()
        try:
            if isinstance(asked, _ADDRESSES) and self._ready is None and self._search_for(1):
                return self._found(asked)
            for form in self._forms(asked):
                longest = core.longest_key(self._values, self._fours, self._sixes, form)
                if longest is not None:
                    return longest, self._values[longest]
            return None
        finally:
            self._lock.release()

    def _forms(self, asked: object) -> tuple[object, ...]:
        """What is asked about; with ``mapped``, after the IPv4 address or network in it."""
        if not self._mapped:
            return (asked,)
        four: object = unmapped_network(asked)
        if isinstance(asked, IPv6Address):
            four = unmapped(asked)
        return (asked,) if four is asked else (four, asked)

    def _value_of(self, asked: object) -> Any:
        """The value of a network, or of the longest network that has an address, or ``_NO_KEY``."""
        if isinstance(asked, _ALL_NETWORKS):
            value = self._values.get(core.block_row(asked), _NO_KEY)
            if value is not _NO_KEY or asked.prefixlen < asked.max_prefixlen:
                return value
            asked = asked.network_address
        elif not isinstance(asked, _ADDRESSES):
            raise TypeError(
                "a table is asked about a network, or an address of ipaddress, not "
                f"{type(asked).__name__}"
            )
        found = self._found(asked)
        return _NO_KEY if found is None else found[1]

    @property
    def mapped(self) -> bool:
        """Whether an IPv4-mapped address is found in either of its forms."""
        return self._mapped

    # The methods of a mapping.

    def __getitem__(self, asked: Asked) -> Value:
        """The value of a network, or of the longest network that has an address, which a network of
        one address may stand for; KeyError if there is none."""
        value = self._value_of(asked)
        if value is _NO_KEY:
            raise KeyError(asked)
        return value  # type: ignore[no-any-return]

    def __setitem__(self, network: Either, value: Value) -> None:
        """Sets the value of a network, and replaces the one that it had. TypeError if the key is
        not a network of this package."""
        key = self._key(network)
        self._lock.acquire()
        try:
            if key not in self._values:
                self._know(key[-1], network.version)
                self._ready = None
            self._values[key] = value
        finally:
            self._lock.release()

    def __delitem__(self, network: Either) -> None:
        """Removes a network; KeyError if it is not there."""
        self.pop(network)

    @overload
    def pop(self, network: Either, /) -> Value:
        ...

    @overload
    def pop(self, network: Either, default: Union[Value, _Default], /) -> Union[Value, _Default]:
        ...

    def pop(self, network: Either, *default: object) -> Any:
        """Removes a network and returns its value, or else the default; KeyError if there is
        neither."""
        if len(default) > 1:
            raise TypeError("pop takes a network, and one default")
        key = self._key(network)
        self._lock.acquire()
        try:
            value = self._values.pop(key, _NO_KEY)
            if value is not _NO_KEY:
                self._ready = None
                return value
        finally:
            self._lock.release()
        if default:
            return default[0]
        raise KeyError(network)

    def popitem(self) -> tuple[Either, Value]:
        """Removes the network that was inserted last, and returns it with its value; KeyError if
        there is none."""
        self._lock.acquire()
        try:
            if not self._values:
                raise KeyError("the table is empty")
            last = next(reversed(self._values))
            network = _network(last)
            return network, self.pop(network)
        finally:
            self._lock.release()

    def setdefault(self, network: Either, default: Any = None) -> Any:
        """The value of a network; if it had none, it is set to the default."""
        key = self._key(network)
        self._lock.acquire()
        try:
            if key not in self._values:
                self[network] = default
            return self._values[key]
        finally:
            self._lock.release()

    def clear(self) -> None:
        """Removes all networks."""
        self._lock.acquire()
        try:
            self._ready, self._fours, self._sixes = None, b"", b""
            self._values.clear()
        finally:
            self._lock.release()

    @overload
    def get(self, asked: Asked, /) -> Union[Value, None]:
        ...

    @overload
    def get(self, asked: Asked, default: Union[Value, _Default], /) -> Union[Value, _Default]:
        ...

    def get(self, asked: Asked, default: object = None, /) -> Any:
        """The value of a network, or of the longest network that has an address, which a network of
        one address may stand for, or else the default. Of a network of more addresses that is no
        key, ``longest`` gives the longest one with all of them.

        >>> table = PrefixTable({ip_network("10.0.0.0/8"): "deny"})
        >>> table.get(ip_network("10.1.1.1"), "allow"), table.get(ip_network("10.1.1.0/24"))
        ('deny', None)
        """
        value = self._value_of(asked)
        return default if value is _NO_KEY else value

    def __contains__(self, asked: object) -> bool:
        """Whether the table has a network, or one that has an address, which a network of one
        address may stand for."""
        return self._value_of(asked) is not _NO_KEY

    def longest(self, asked: Asked) -> Union[tuple[Either, Value], None]:
        """The longest network that has an address, or all addresses of a network, and its value;
        None if there is none.

        >>> table = PrefixTable({ip_network("10.0.0.0/8"): "lab"})
        >>> table[ip_network("10.1.0.0/16")] = "cellar"
        >>> table.longest(IPv4Address("10.1.2.3"))
        (IPv4Network('10.1.0.0/16'), 'cellar')
        >>> table.longest(ip_network("10.0.0.0/15"))
        (IPv4Network('10.0.0.0/8'), 'lab')
        """
        found = self._found(asked)
        return None if found is None else (_network(found[0]), found[1])

    def _joined(self, addresses: ReadableBuffer, default: object) -> list[Any]:
        """The value for each address of a column, or the default."""
        self._lock.acquire()
        try:
            ready = self._search_for(memoryview(addresses).nbytes // 17)
            if ready is None:
                return [default if found is None else found[1] for found in self._each(addresses)]
            values, keys = self._values, ready.keys
            numbers = memoryview(ready.search.find_column(addresses)).cast("q")
            return [default if number < 0 else values[keys[number]] for number in numbers]
        finally:
            self._lock.release()

    def _each(self, addresses: ReadableBuffer) -> Iterator[Union[tuple[bytes, Value], None]]:
        """The result for each row of a column, as ``read_address_column`` returns it."""
        rows = bytes(addresses)
        _NONE.find_column(rows)  # ValueError of rows that are no addresses
        for at in range(0, len(rows), 17):
            packed = rows[at : at + rows[at + 16]]
            yield self._found(ip_address(packed)) if packed else None

    def __len__(self) -> int:
        """The number of networks."""
        return len(self._values)

    def __iter__(self) -> Iterator[Either]:
        """The networks, in the order in which they were inserted. RuntimeError if one is inserted
        or removed during the iteration."""
        return map(_network, self._values)

    def keys(self) -> KeysView[Either]:
        """The networks."""
        return _Keys(self)

    def items(self) -> ItemsView[Either, Value]:
        """The networks with their values."""
        return _Items(self)

    def values(self) -> ValuesView[Value]:
        """The values of the networks."""
        return _Values(self)

    def copy(self) -> PrefixTable[Value]:
        """Another table with the same networks and values."""
        return type(self)(self)

    def __eq__(self, other: object) -> bool:
        if isinstance(other, PrefixTable):
            return self._values == other._values
        return super().__eq__(other)

    __hash__ = None  # type: ignore[assignment]

    def __repr__(self) -> str:
        each = ", ".join(f"{network!r}: {value!r}" for network, value in self.items())
        return f"{type(self).__name__}({{{each}}}{', mapped=True' * self._mapped})"

    def __reduce__(self) -> tuple[Any, ...]:
        keys, attributes = list(self._values), getattr(self, "__dict__", None)
        widths = bytes(map(len, keys))
        state = b"".join(keys), widths, list(self._values.values()), attributes
        return _empty, (type(self), self._mapped), state

    def __setstate__(self, state: Any) -> None:
        """Fills an empty table from a pickle: the bytes of its networks, their lengths, their
        values, and the attributes of a subclass. A pickle of 0.1.0 has only the last."""
        if isinstance(state, dict):
            self.__dict__.update(state)
            return
        rows, widths, values, attributes = state
        ends = list(accumulate(widths, initial=0))
        keys = [rows[start:end] for start, end in zip(ends, ends[1:])]
        fours, sixes = lengths_of(keys, 4), lengths_of(keys, 6)
        if len({*keys}) != len(values) or len(keys) != len(values) or ends[-1] != len(rows):
            raise ValueError("there is not one value for each network of the table")
        self._fours, self._sixes = fours, sixes
        self._values.update(zip(keys, values))
        if attributes:
            self.__dict__.update(attributes)


def _empty(kind: type[PrefixTable[Value]], mapped: bool) -> PrefixTable[Value]:
    """A table without networks, to be filled from a pickle."""
    made = kind.__new__(kind)
    PrefixTable.__init__(made, mapped=mapped)
    return made


class _Keys(KeysView[Either]):
    _mapping: PrefixTable[Any]

    def __contains__(self, network: object) -> bool:
        if not isinstance(network, _ALL_NETWORKS):
            return False
        return core.block_row(network) in self._mapping._values


class _Items(ItemsView[Either, Value]):
    _mapping: PrefixTable[Value]

    def __contains__(self, item: Any) -> bool:
        return item[0] in self._mapping.keys() and super().__contains__(item)

    def __iter__(self) -> Iterator[tuple[Either, Value]]:
        for key, value in self._mapping._values.items():
            yield _network(key), value


class _Values(ValuesView[Value]):
    _mapping: PrefixTable[Value]

    def __iter__(self) -> Iterator[Value]:
        return iter(self._mapping._values.values())
