"""A builder for sets of addresses."""

from __future__ import annotations

from collections.abc import Iterable
from itertools import groupby
from operator import attrgetter
from typing import TYPE_CHECKING, NamedTuple

from ._chosen import core
from ._lock import new_lock
from ._networks import Given, network_of
from ._sets import AddressSet

if TYPE_CHECKING:
    from typing_extensions import Self

_LEAST = 1024  # so many changes are collected at least before they are made


class _Change(NamedTuple):
    """The addresses that are removed from a set, and those that are then added to it."""

    removed: AddressSet
    added: AddressSet

    def of(self, given: AddressSet) -> AddressSet:
        """The set after the change."""
        return given - self.removed | self.added

    def then(self, later: _Change) -> _Change:
        """Both changes, one after the other."""
        return _Change(self.removed | later.removed, later.of(self.added))


class _Step(NamedTuple):
    """A network that is added or removed: the bytes of its struct."""

    adds: bool
    row: bytes


def _of_run(adds: bool, rows: list[bytes], mapped: bool) -> _Change:
    """The change made by steps that all add, or all remove."""
    fours = core.aggregate(4, b"".join([row for row in rows if len(row) == 5]))
    sixes = core.aggregate(6, b"".join([row for row in rows if len(row) == 17]))
    run, none = AddressSet._of(fours, sixes, mapped), AddressSet()
    return _Change(none, run) if adds else _Change(run, none)


def _in_one(steps: list[_Step], mapped: bool) -> _Change:
    """The change made by steps, one after the other. Neighbours are combined first, so that each
    step takes part in few operations."""
    runs = groupby(steps, key=attrgetter("adds"))
    changes = [_of_run(adds, [step.row for step in run], mapped) for adds, run in runs]
    while len(changes) > 1:
        pairs = [one.then(other) for one, other in zip(changes[::2], changes[1::2])]
        changes = pairs + changes[len(pairs) * 2 :]
    return changes[0] if changes else _of_run(True, [], mapped)


class AddressSetBuilder:
    """A set of addresses to which networks are added, and from which they are removed, one by one.
    A network is given as for an ``AddressSet``.

    ``build`` returns the addresses so far as an ``AddressSet``, and the builder can be changed
    further. On average a change takes a few microseconds, whatever the size of the set; ``build``
    takes time in proportion to it. Several threads may change one builder.

    The option ``mapped`` is that of the sets that it builds; ``update`` and ``difference_update``
    with a set that has it add it. With ``mapped``, what is said of either form counts: an
    IPv4-mapped IPv6 address is a member if the IPv4 address, or the IPv6 address itself, is
    one; its longest network is that of the IPv4 address, and if there is none that of the IPv6
    address; and so for a network within ::ffff:0:0/96.

    >>> builder = AddressSetBuilder([ip_network("10.0.0.0/8")])
    >>> builder.discard(ip_network("10.0.0.0/9"))
    >>> builder.add(ip_network("2001:db8::/32"))
    >>> builder.build()
    AddressSet([IPv4Network('10.128.0.0/9'), IPv6Network('2001:db8::/32')])
    """

    __slots__ = ("__weakref__", "_lock", "_made", "_steps")

    def __init__(self, networks: Iterable[Given] = (), *, mapped: bool = False) -> None:
        if isinstance(networks, AddressSet) and (networks.mapped or not mapped):
            self._made = networks
        else:
            self._made = AddressSet(networks, mapped=mapped)
        self._steps: list[_Step] = []
        self._lock = new_lock()

    def _take(self, adds: bool, network: Given) -> None:
        step = _Step(adds, network_of(network)._row)
        self._lock.acquire()
        try:
            if len(self._steps) >= _LEAST + len(self._made) // 2:
                self.build()
            self._steps.append(step)
        finally:
            self._lock.release()

    def add(self, network: Given) -> None:
        """Adds the addresses of a network. Those that are already there change nothing."""
        self._take(True, network)

    def discard(self, network: Given) -> None:
        """Removes the addresses of a network. Those that are not there change nothing."""
        self._take(False, network)

    def update(self, networks: Iterable[Given]) -> None:
        """Adds the addresses of networks, or of a set; of none if an element is no network."""
        for network in self._given(networks):
            self._take(True, network)

    def difference_update(self, networks: Iterable[Given]) -> None:
        """Removes the addresses of networks, or of a set; of none if an element is no network."""
        for network in self._given(networks):
            self._take(False, network)

    def _given(self, networks: Iterable[Given]) -> AddressSet:
        """The set of these networks. If it is mapped, so is the builder from now on."""
        given = AddressSet(networks)
        self._lock.acquire()
        try:
            if given.mapped and not self._made.mapped:
                self._made = AddressSet(self.build(), mapped=True)
        finally:
            self._lock.release()
        return given

    def build(self) -> AddressSet:
        """The addresses so far."""
        self._lock.acquire()
        try:
            count = len(self._steps)
            if count:
                # Making these changes a second time would change nothing.
                self._made = _in_one(self._steps, self._made.mapped).of(self._made)
                del self._steps[:count]
            return self._made
        finally:
            self._lock.release()

    def __repr__(self) -> str:
        built = self.build()
        return f"{type(self).__name__}({list(built)!r}{', mapped=True' * built.mapped})"

    def __reduce__(self) -> tuple[type[Self], tuple[AddressSet]]:
        return type(self), (self.build(),)
