"""Every answer compared with ``ipaddress``, on random texts and networks, and on mutated ones.

    against_ipaddress.py [ROWS [SEED]]

ROWS is how many texts and how many networks, a million each where it is not given. Any difference ends it with status
1, but for those of grammar that ``test_ipnetwork.py`` lists: ``reference`` of ``random_texts.py`` takes them into
account, each by itself.
"""

import concurrent.futures
import ipaddress
import os
import random
import sys
from ipaddress import IPv4Address, IPv4Interface, IPv6Address, IPv6Interface

from ipnetwork import AddressError, FormatError, IPv4Network, IPv6Network, PrefixError, ip_network
from random_texts import canonical, cause, mutated, near, number, reference, suffix, text_of_v6

CAUSES = {"format": FormatError, "address": AddressError, "prefix": PrefixError}
PARTS = 4


def read(kind, text):
    try:
        network = kind(text)
    except (FormatError, AddressError, PrefixError) as error:
        return type(error)
    return network.ip, network.prefixlen


def differ(what, text, own, other):
    raise SystemExit(f"{what} of {text!r}: here {own}, by ipaddress {other}")


def texts(rows, seed):
    rng = random.Random(seed)
    seen = {4: 0, 6: 0, None: 0}
    for row in range(rows):
        if rng.randrange(2):
            text = str(IPv4Address(number(rng, 32))) + suffix(rng, 32)
        else:
            text = text_of_v6(rng) + suffix(rng, 128)
        if row % 2:
            text = mutated(rng, text)
        six = ":" in text.partition("/")[0]
        kind, theirs, address = (IPv6Network, IPv6Interface, IPv6Address) if six else (IPv4Network, IPv4Interface, IPv4Address)
        other_kind = IPv4Network if six else IPv6Network
        own, other = read(kind, text), reference(theirs, text)
        if other is None:
            other = CAUSES[cause(address, text)]
        if own != other:
            differ("reading", text, own, other)
        crossed = FormatError if text.count("/") > 1 else AddressError
        if read(other_kind, text) is not crossed:
            differ("reading in the other family", text, read(other_kind, text), crossed)
        if isinstance(own, type):
            seen[None] += 1
            if read(ip_network, text) is not own:
                differ("reading in either family", text, read(ip_network, text), own)
        else:
            seen[kind.version] += 1
            network = ip_network(text)
            if type(network) is not kind or (network.ip, network.prefixlen) != own:
                differ("reading in either family", text, network, other)
            if str(network) != canonical(*other):
                differ("printing", text, str(network), canonical(*other))
    return seen


def networks(rows, seed):
    rng = random.Random(seed)
    seen = [[0, 0], [0, 0], [0, 0]]
    for row in range(rows):
        if row % 2:
            width, kind, address, theirs = 32, IPv4Network, IPv4Address, ipaddress.IPv4Network
        else:
            width, kind, address, theirs = 128, IPv6Network, IPv6Address, ipaddress.IPv6Network
        a = number(rng, width)
        b = near(rng, width, a)
        p, q = rng.randrange(width + 1), rng.randrange(width + 1)
        one, two = kind.of(address(a), p), kind.of(address(b), q)
        other, another = theirs((a, p), strict=False), theirs((b, q), strict=False)
        count = other.num_addresses
        place = near(rng, width, count - 1) % count
        inside = [address(b) in other, other.subnet_of(another), other.overlaps(another)]
        pairs = (
            ("address", one.ip, address(a)),
            ("network", one.network_address, other.network_address),
            ("broadcast", one.broadcast_address, other.broadcast_address),
            ("mask", one.netmask, other.netmask),
            ("prefix of the mask", kind.prefix_of_mask(other.netmask), p),
            ("size", one.num_addresses, count),
            ("member", one[place], other[place]),
            ("sets", [address(b) in one, one.subnet_of(two), one.overlaps(two)], inside),
            ("order", (one < two, one == two), ((a, p) < (b, q), (a, p) == (b, q))),
        )
        for what, own, wanted in pairs:
            if own != wanted:
                differ(what, f"{one}, {two}, {place}", own, wanted)
        for counts, truth in zip(seen, inside):
            counts[truth] += 1
    return seen


def main():
    rows = int(sys.argv[1]) if len(sys.argv) > 1 else 1_000_000
    seed = int(sys.argv[2]) if len(sys.argv) > 2 else 1
    each = -(-rows // PARTS)
    with concurrent.futures.ProcessPoolExecutor(min(PARTS, os.cpu_count() or 1)) as pool:
        read_jobs = [pool.submit(texts, each, f"texts {seed} {part}") for part in range(PARTS)]
        asked_jobs = [pool.submit(networks, each, f"networks {seed} {part}") for part in range(PARTS)]
        read_seen = [job.result() for job in read_jobs]
        asked = [job.result() for job in asked_jobs]
    totals = {key: sum(seen[key] for seen in read_seen) for key in (4, 6, None)}
    print(f"Python: {totals[4]} IPv4 texts, {totals[6]} of IPv6, {totals[None]} refused, as ipaddress says")
    yes = [[sum(seen[at][truth] for seen in asked) for truth in (0, 1)] for at in range(3)]
    print(f"Python: {each * PARTS} networks, no and yes of contains, subnet, overlap: {yes}")
    if min(totals.values()) * 20 < rows or min(map(min, yes)) * 50 < rows:
        raise SystemExit("too few of a kind")


if __name__ == "__main__":
    main()
