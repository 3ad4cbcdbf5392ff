"""Nanoseconds a call of this package and of ``ipaddress``, side by side, and of a row of the columns.

    speed.py [networks|columns|sets|routes ...]

With no argument all four parts are measured. Each figure is the least of 15 runs, which take turns, so that what else the machine does meets both. Which core of the
package is measured is in the first line: see ``ipnetwork.CORE``. The columns need NumPy.
"""

import array
import ipaddress
import random
import sys
import time
from ipaddress import IPv4Address, IPv6Address

import ipnetwork
from ipnetwork import AddressSet, AddressSetBuilder, IPv4Network, IPv6Network, PrefixTable, Table

TURNS, COUNT, ROWS, MANY = 15, 2000, 200_000, 10_000


def timed(call, count):
    start = time.perf_counter_ns()
    call()
    return (time.perf_counter_ns() - start) / count


def least(*calls, count=COUNT):
    """The least time of each call of these, divided by how many it makes."""
    runs = [[timed(call, count) for call in calls] for _ in range(TURNS)]
    return [min(times) for times in zip(*runs)]


def each(source, objects):
    """Runs an expression on each object, which is called x there."""
    scope = {"objects": objects, "ipaddress": ipaddress, **vars(ipnetwork)}
    exec(f"def run():\n    for x in objects:\n        {source}", scope)
    return scope["run"]


def calls_of(kind, theirs, interface, address, width, rng):
    texts = [str(interface((address(rng.getrandbits(width)), rng.randrange(width + 1))).network) for _ in range(COUNT)]
    ours, other = [kind(text) for text in texts], [theirs(text) for text in texts]
    asked = [address(int(net.network_address) ^ (rng.getrandbits(width) >> rng.randrange(width))) for net in other]
    rows = []

    def row(name, source, own, wanted):
        rows.append((f"IPv{kind.version}: {name}", *least(each(source, own), each(source, wanted))))

    name = kind.__name__
    rows.append((f"IPv{kind.version}: read", *least(each(f"{name}(x)", texts), each(f"ipaddress.{name}(x)", texts))))
    rows.append((f"IPv{kind.version}: read, either family", *least(each("ip_network(x)", texts), each("ipaddress.ip_network(x)", texts))))
    both = lambda nets, others: list(zip(nets, others))
    row("in", "x[1] in x[0]", both(ours, asked), both(other, asked))
    for sign in ("==", "<"):
        row(sign, f"x[0] {sign} x[1]", both(ours, ours[1:] + ours[:1]), both(other, other[1:] + other[:1]))
    for call in ("subnet_of", "supernet_of", "overlaps"):
        row(call, f"x[0].{call}(x[1])", both(ours, ours[1:] + ours[:1]), both(other, other[1:] + other[:1]))
    row("hash", "hash(x)", ours, other)
    row("x[0]", "x[0]", ours, other)
    for part in ("network_address", "broadcast_address", "netmask", "num_addresses", "prefixlen"):
        rows.append(first(kind, theirs, part, texts))
        row(part, f"x.{part}", ours, other)
    row("str", "str(x)", ours, other)
    long, longer = kind(f"{address(0)}/{width - 11}"), theirs(f"{address(0)}/{width - 11}")
    rows.append((f"IPv{kind.version}: iteration, a member", *least(lambda: list(long), lambda: list(longer), count=2048)))
    rows.append((f"IPv{kind.version}: sorted, of {COUNT}", *least(lambda: sorted(ours), lambda: sorted(other))))
    rows.append((f"IPv{kind.version}: collapse, of {COUNT}",
                 *least(lambda: list(ipnetwork.collapse_addresses(ours)), lambda: list(ipaddress.collapse_addresses(other)))))
    return rows


def first(kind, theirs, part, texts):
    """Reading and asking for the part once, which counts what is computed once."""
    name = kind.__name__
    return (f"IPv{kind.version}: read and {part}",
            *least(each(f"{name}(x).{part}", texts), each(f"ipaddress.{name}(x).{part}", texts)))


def columns(rng):
    fours = [str(IPv4Address(rng.getrandbits(32))) for _ in range(ROWS)]
    sixes = [str(IPv6Address(rng.getrandbits(128) & ~(0xFFFFFFFF << rng.randrange(96)))) for _ in range(ROWS)]
    for name, texts, net in (("IPv4", fours, "10.0.0.0/8"), ("IPv6", sixes, "2001:db8::/32")):
        whole, offsets = laid(texts)
        kind = type(ipnetwork.ip_network(net))
        addresses, _ = ipnetwork.read_address_column(whole, offsets)
        width = 4 if name == "IPv4" else 16
        packed = b"".join(addresses[at : at + width] for at in range(0, len(addresses), 17))
        network, one = kind(net), AddressSet([kind(net)])
        many = AddressSet(kind.of(type(network.ip)(text), network.max_prefixlen * 3 // 4) for text in texts[:MANY])
        others = AddressSet(kind.of(type(network.ip)(text), network.max_prefixlen * 5 // 8) for text in texts[MANY // 2 : MANY * 2])
        blocks = list(many)
        rows = b"".join(block.ip.packed + bytes([block.prefixlen]) for block in blocks)
        yield (f"{name}: read_address_column", *least(lambda: ipnetwork.read_address_column(whole, offsets), count=ROWS))
        yield (f"{name}: read_column", *least(lambda: kind.read_column(whole, offsets), count=ROWS))
        yield (f"{name}: contains_column", *least(lambda: network.contains_column(packed), count=ROWS))
        yield (f"{name}: contains_column of a set of one", *least(lambda: one.contains_column(addresses), count=ROWS))
        yield (f"{name}: contains_column of a set of {len(blocks)}", *least(lambda: many.contains_column(addresses), count=ROWS))
        table = ipnetwork.Table(blocks)
        yield (f"{name}: find_column of a table of {len(blocks)}", *least(lambda: table.find_column(addresses), count=ROWS))
        yield (f"{name}: print_address_column", *least(lambda: ipnetwork.print_address_column(addresses), count=ROWS))
        yield (f"{name}: print_column", *least(lambda: kind.print_column(rows), count=len(blocks)))
        for sign, operation in (("|", many.__or__), ("&", many.__and__), ("-", many.__sub__)):
            yield (f"{name}: {sign} of two sets, a network of both", *least(lambda: operation(others), count=len(blocks) + len(list(others))))
        try:
            from ipnetwork import columns as over_numpy
        except ImportError:
            continue
        yield (f"{name}: columns.read_addresses of a list", *least(lambda: over_numpy.read_addresses(texts), count=ROWS))


def sets_and_tables(kind, address, width, rng):
    """Of sets and tables of MANY networks each: a call, or a network or a row of a call on all."""
    networks = [kind.of(address(rng.getrandbits(width)), width * 3 // 4) for _ in range(MANY * 2)]
    one, other = AddressSet(networks[:MANY]), AddressSet(networks[MANY // 2 :])
    asked = [network.ip for network in networks[:COUNT // 2]] + [address(rng.getrandbits(width)) for _ in range(COUNT // 2)]
    routes = PrefixTable(zip(networks[:MANY], range(MANY)))
    table, texts = Table(networks[:MANY], range(MANY)), [str(each) for each in asked] * (ROWS // COUNT)
    fresh = networks[MANY : MANY + COUNT]

    def build(steps):
        builder = AddressSetBuilder(one)
        for network in fresh:
            for step in steps:
                getattr(builder, step)(network)
        return builder.build()

    def change():
        for network in fresh:
            routes[network] = 1
            routes.get(network.ip)
        for network in fresh:
            del routes[network]

    both, all_of = len(one) + len(other), len(one) + len(one.complement(kind.version))
    yield "address in set", *least(lambda: [each in one for each in asked])
    yield "network in set", *least(lambda: [each in one for each in networks[:COUNT]])
    yield "|, a network of both", *least(lambda: one | other, count=both)
    yield "^, a network of both", *least(lambda: one ^ other, count=both)
    yield "complement, a network of both", *least(lambda: one.complement(kind.version), count=all_of)
    yield "<= of a set and itself, a network", *least(lambda: one <= one, count=len(one))
    yield "isdisjoint, a network of both", *least(lambda: one.isdisjoint(other), count=both)
    yield "iteration, a network", *least(lambda: list(one), count=len(one))
    yield "builder: add, and a build at the end", *least(lambda: build(["add"]))
    in_turn = ["add", "discard"]
    yield "builder: add and discard in turn", *least(lambda: build(in_turn), count=COUNT * 2)
    yield "table[network] = value, a new one", *least(lambda: PrefixTable(zip(fresh, fresh)))
    yield "table[network]", *least(lambda: [routes[each] for each in networks[:COUNT]])
    yield "table.get(address)", *least(lambda: [routes.get(each) for each in asked])
    yield "longest(address)", *least(lambda: [routes.longest(each) for each in asked])
    yield "table[network] = 1, get(address), del", *least(change)
    for name, joined in (("PrefixTable", routes), ("Table", table)):
        times = least(lambda: joined.join(texts), count=len(texts))
        yield f"{name}.join of a list of str, a row", *times


def routes(kind, address, width, rng):
    """Addresses, of which half lie in one of MANY routes, asked for the longest: a row, compared with py-radix if it is
    here."""
    shortest = 20 if width == 32 else 32
    longest = 29 if width == 32 else 65
    networks = [kind.of(address(rng.getrandbits(width)), rng.randrange(shortest, longest)) for _ in range(MANY)]
    asked = [address(rng.getrandbits(width)) for _ in range(ROWS // 2)] + [rng.choice(networks).broadcast_address for _ in range(ROWS // 2)]
    rng.shuffle(asked)
    texts = list(map(str, asked))
    table, column = Table(networks), ipnetwork.read_address_column(*laid(texts))[0]
    calls = {"Table.find_column of addresses that are read": lambda: table.find_column(column), "Table.find_column of a list of str": lambda: table.find_column(texts)}
    calls["Table.find(read_address(text)) of each str"] = lambda: [table.find(ipnetwork.read_address(text)) for text in texts]
    try:
        from radix import Radix
    except ImportError:
        pass
    else:
        tree = Radix()
        for number, network in enumerate(networks):
            tree.add(str(network)).data["number"] = number
        search = tree.search_best
        calls["py-radix: search_best of each str"] = lambda: [search(text) for text in texts]
    return list(zip(calls, least(*calls.values(), count=ROWS)))


def laid(texts):
    offsets = array.array("I", [0])
    for text in texts:
        offsets.append(offsets[-1] + len(text))
    return "".join(texts).encode(), offsets


def print_routes(rng):
    print(f"a table of {MANY} routes, ns a row: IPv4, IPv6")
    fours = routes(IPv4Network, IPv4Address, 32, rng)
    sixes = routes(IPv6Network, IPv6Address, 128, rng)
    for (name, four), (_, six) in zip(fours, sixes):
        print(f"{name:44} {four:9.1f} {six:9.1f}")


def print_networks(rng):
    slower = 0
    for rows in (
        calls_of(IPv4Network, ipaddress.IPv4Network, ipaddress.IPv4Interface, IPv4Address, 32, rng),
        calls_of(IPv6Network, ipaddress.IPv6Network, ipaddress.IPv6Interface, IPv6Address, 128, rng),
    ):
        for name, own, other in rows:
            slower += own > other
            print(f"{name:36} {own:9.0f} {other:9.0f} {own / other:6.2f}{'  slower' if own > other else ''}")
    if slower:
        print(f"{slower} calls are slower than those of ipaddress")


def print_columns(rng):
    print("a row, ns")
    for name, own in columns(rng):
        print(f"{name:44} {own:9.1f}")


def print_sets(rng):
    print(f"sets and tables of {MANY} networks, ns: IPv4, IPv6")
    fours = sets_and_tables(IPv4Network, IPv4Address, 32, rng)
    sixes = sets_and_tables(IPv6Network, IPv6Address, 128, rng)
    for (name, four), (_, six) in zip(fours, sixes):
        print(f"{name:44} {four:9.1f} {six:9.1f}")


def main():
    rng = random.Random(30)
    print(f"Python {sys.version.split()[0]}, {ipnetwork.CORE}: here, ipaddress, ratio")
    for part in sys.argv[1:] or PARTS:
        PARTS[part](rng)


PARTS = {"networks": print_networks, "columns": print_columns, "sets": print_sets, "routes": print_routes}

if __name__ == "__main__":
    main()
