"""Which calls of sets and tables the type hints take, and which they refuse, for `mypy --strict`.

Each line with "type: ignore" is one that the hints are to refuse.
"""

import array
from collections.abc import Iterator, MutableMapping
from ipaddress import IPv4Address, IPv4Interface, IPv6Address, ip_interface
from ipaddress import IPv4Network as TheirNetwork
from typing import Union

from ipnetwork import (
    AddressSet,
    AddressSetBuilder,
    IPv4Network,
    IPv6Network,
    PrefixTable,
    Table,
    from_ipaddress,
    ip_network,
    read_address,
    read_address_column,
    summarize_address_range,
    unmapped,
)

Either = Union[IPv4Network, IPv6Network]
network, address = ip_network("10.0.0.0/8"), IPv4Address("10.1.2.3")

one, other = AddressSet([network]), AddressSet([IPv6Network("::/0")])
joined: AddressSet = one | other & one - other ^ ~one
part: bool = one <= other or one < other or one.isdisjoint(other) or network in one
count: int = len(one) + one.num_addresses
each: Iterator[Either] = iter(one)
ends: list[tuple[Union[IPv4Address, IPv6Address], Union[IPv4Address, IPv6Address]]] = list(
    one.ranges()
)
AddressSet.of_ranges(ends)
AddressSet.of_ranges([(address, address)])
one.covers(network)
one.covers(TheirNetwork("10.0.0.0/8"))
one.complement(4)
one.union([network], other)
joined = one | {network} | ["10.0.0.0/8", TheirNetwork("10.0.0.0/8")] | AddressSet(["::/0"])
free: Union[Either, None] = one.first_free(24, network) or one.first_free(24, "10.0.0.0/8")
excluded: Iterator[IPv4Network] = IPv4Network("10.0.0.0/8").address_exclude(IPv4Network("10.0.0.0/9"))
hosts: Iterator[IPv4Address] = IPv4Network("10.0.0.0/8").supernet().hosts()
masks: IPv6Address = IPv6Network("::/8").hostmask
builder = AddressSetBuilder(one)
builder.add(network)
builder.discard(network)
builder.update(other)
built: AddressSet = builder.build()

routes: PrefixTable[str] = PrefixTable({network: "lab"})
mapping: MutableMapping[Either, str] = routes
routes[network] = "cellar"
value: str = routes[network] + routes[address] + routes[ip_interface("10.1.2.3/8")]
missing: Union[str, None] = routes.get(address)
found: Union[str, int] = routes.get(address, 7)
longest: Union[tuple[Either, str], None] = routes.longest(address)
rows: list[Union[str, None]] = routes.join(["10.1.2.3", None])
numbers: list[Union[str, int]] = routes.join([address], 7)
packed: list[Union[str, None]] = routes.join(read_address_column(b"", array.array("Q"))[0])
popped: Union[str, None] = routes.pop(network, None)

plain, table = Table([network]), Table([network], [1.5])
place: Union[int, None] = plain.find(address)
values: list[Union[float, None]] = table.join(["10.1.2.3"])

asked: Union[IPv4Address, IPv6Address] = unmapped(read_address("::ffff:10.1.2.3"))
same: IPv4Address = unmapped(address)
within: bool = asked in one or network in one or TheirNetwork("10.0.0.0/8") in one or asked in network
denied = AddressSet([network], mapped=True), Table([network], mapped=True), PrefixTable(routes, mapped=True)
place = plain.find(network)
joined_numbers: list[Union[str, None]] = routes.join(array.array("L", [7]), numbers=4, missing=0)

four: IPv4Network = from_ipaddress(IPv4Interface("10.0.0.1/8"))
fours: Iterator[IPv4Network] = summarize_address_range(address, address)

"10.1.2.3" in one  # type: ignore[operator]
b"10.1.2.3" in network  # type: ignore[operator]
plain.find("10.1.2.3")  # type: ignore[arg-type]
read_address(b"10.1.2.3")  # type: ignore[arg-type]
unmapped("10.1.2.3")  # type: ignore[call-overload]
one | 7  # type: ignore[operator]
one <= {network}  # type: ignore[operator]
one.covers(address)  # type: ignore[arg-type]
one.complement(32)  # type: ignore[arg-type]
AddressSet([b"10.0.0.0/8"])  # type: ignore[list-item]
AddressSet.of_ranges([("10.0.0.0", "10.0.0.1")])  # type: ignore[list-item]
builder.add(b"10.0.0.0/8")  # type: ignore[arg-type]
routes[network] = 7  # type: ignore[assignment]
routes[address] = "lab"  # type: ignore[index]
routes["10.0.0.0/8"]  # type: ignore[index]
routes.longest("10.1.2.3")  # type: ignore[arg-type]
routes.join("10.1.2.3")  # type: ignore[call-overload]
routes.join([object()])  # type: ignore[list-item]
wrong: list[Union[int, None]] = table.join(["10.1.2.3"])  # type: ignore[assignment]
summarize_address_range(address, IPv6Address("::"))  # type: ignore[call-overload]
from_ipaddress("10.0.0.0/8")  # type: ignore[call-overload]
