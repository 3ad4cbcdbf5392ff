"""Which columns the type hints take, and which they refuse, for `mypy --strict`.

Each line with "type: ignore" is one that the hints are to refuse.
"""

from collections.abc import Iterator
from ipaddress import IPv4Address, ip_interface
from typing import Any, Union

import numpy
from numpy.typing import NDArray

from ipnetwork import AddressSet, IPv4Network, Table, ip_network
from ipnetwork.columns import find, is_member, layout, read_addresses

which, table = AddressSet([ip_network("10.0.0.0/8")]), Table([ip_network("10.0.0.0/8")])
texts: list[str] = ["10.1.2.3"]
rows: list[Union[str, None]] = ["10.1.2.3", None]


def each() -> Iterator[IPv4Address]:
    yield IPv4Address("10.1.2.3")


is_member(texts, which)
is_member(rows, IPv4Network("10.0.0.0/8"))
is_member([IPv4Address("10.1.2.3"), ip_interface("::1"), ip_network("10.1.2.3"), b"::1"], which)
is_member([None, float("nan"), "10.1.2.3"], which)
is_member(tuple(texts), which)
is_member(each(), which)
is_member(numpy.array(texts), which)
is_member(numpy.array([1], numpy.uint32), which, numbers=4)
is_member(texts, which, mapped=True)
is_member(numpy.array([1]), which, numbers=4, missing=-1)
find(texts, table)
find(numpy.array([[0, 1]], numpy.uint64), table, numbers=6)
which.contains_column(texts)
which.contains_column(tuple(rows))
table.find_column(rows)
table.find_column(bytes(17))
members: NDArray[numpy.bool_] = is_member(rows, which, invalid=False)
found: NDArray[numpy.int64] = find(rows, table, invalid="raise")
masked: numpy.ma.MaskedArray[Any, Any] = is_member(rows, which, invalid="null")
table.find_column(rows, invalid=False)
which.contains_column(rows, invalid="null")
table.join(rows, invalid="null")
layout(texts)
read_addresses(rows)
read_addresses(rows, invalid="null", unmapped=True)

is_member("10.1.2.3", which)  # type: ignore[call-overload]
is_member(b"10.1.2.3", which)  # type: ignore[call-overload]
is_member([object()], which)  # type: ignore[list-item]
is_member([["10.1.2.3"]], which)  # type: ignore[list-item]
is_member(texts, texts)  # type: ignore[call-overload]
is_member(texts, which, numbers=32)  # type: ignore[call-overload]
which.contains_column("10.1.2.3")  # type: ignore[call-overload]
table.find_column([object()])  # type: ignore[list-item]
find("10.1.2.3", table)  # type: ignore[call-overload]
layout("10.1.2.3")  # type: ignore[arg-type]
read_addresses("10.1.2.3")  # type: ignore[arg-type]
is_member(texts, which, invalid=True)  # type: ignore[call-overload]
read_addresses(texts, invalid="nul")  # type: ignore[arg-type]
read_addresses(texts, mapped=True)  # type: ignore[call-arg]
