"""The longest of 10,000 random IPv4 networks of each of 200,000 addresses, half of which lie in one: nanoseconds an
address, by this package and by the tries that are installed, in loops as one writes them.

    python_peers.py [TURNS]

It is run where the package `ipnetwork` can be imported. A line has a name and a figure, or `-` for what is not here. What
is found is compared: the status is 1 if a peer finds another network.
"""

import array
import ipaddress
import random
import sys
import time

from ipnetwork import IPv4Network, Table, read_address_column

MANY, ROWS = 10_000, 200_000


def least(turns, call, count):
    """The least time of a call, a row, and what it gave at last."""
    best, given = float("inf"), None
    for _ in range(turns):
        start = time.perf_counter_ns()
        given = call()
        best = min(best, (time.perf_counter_ns() - start) / count)
    return best, given


def by_radix(texts, addresses):
    import radix

    tree = radix.Radix()
    for text in texts:
        tree.add(text)

    def ask():
        found = []
        for address in addresses:
            node = tree.search_best(address)
            found.append(None if node is None else node.prefix)
        return found

    return ask


def by_subnet_tree(texts, addresses):
    import SubnetTree

    tree = SubnetTree.SubnetTree()
    for text in texts:
        tree[text] = text

    def ask():
        found = []
        for address in addresses:
            try:
                found.append(tree[address])
            except KeyError:
                found.append(None)
        return found

    return ask


def by_pytricia(texts, addresses):
    import pytricia

    tree = pytricia.PyTricia()
    for text in texts:
        tree[text] = text
    return lambda: [tree.get_key(address) for address in addresses]


def columns_of(addresses):
    """The column of these texts."""
    offsets = array.array("I", [0])
    for address in addresses:
        offsets.append(offsets[-1] + len(address))
    return read_address_column("".join(addresses).encode(), offsets)[0]


def lists():
    """The texts of the networks, and those of the addresses."""
    rng = random.Random(7)
    networks = [ipaddress.ip_network((rng.getrandbits(32), rng.randrange(20, 29)), strict=False) for _ in range(MANY)]
    numbers = [rng.getrandbits(32) for _ in range(ROWS // 2)] + [int(rng.choice(networks)[1]) for _ in range(ROWS // 2)]
    rng.shuffle(numbers)
    return sorted({str(network) for network in networks}), [str(ipaddress.IPv4Address(number)) for number in numbers]


def main():
    turns = int(sys.argv[1]) if len(sys.argv) > 1 else 5
    texts, addresses = lists()
    table, column = Table(IPv4Network(text) for text in texts), columns_of(addresses)
    best, numbers = least(turns, lambda: table.find_column(column), ROWS)
    print(f"find_column {best:.1f}")
    found = [None if number < 0 else texts[number] for number in memoryview(numbers).cast("q")]
    values = [IPv4Network(address).ip for address in addresses[: ROWS // 10]]
    print(f"find {least(turns, lambda: [table.find(value) for value in values], len(values))[0]:.1f}")
    status = 0
    for name, make in (("radix", by_radix), ("SubnetTree", by_subnet_tree), ("pytricia", by_pytricia)):
        try:
            ask = make(texts, addresses)
        except ImportError:
            print(f"{name} -")
            continue
        best, given = least(turns, ask, ROWS)
        print(f"{name} {best:.1f}")
        if given != found:
            print(f"{name} finds other networks", file=sys.stderr)
            status = 1
    return status


if __name__ == "__main__":
    sys.exit(main())
