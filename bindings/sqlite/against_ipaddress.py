"""The functions of SQL compared with Python's ``ipaddress``, in Python's own ``sqlite3``: on random texts, on random
networks, and on a table of random addresses with an index.

    against_ipaddress.py EXTENSION [ROWS [SEED]]

ROWS is how many texts, how many networks and how many rows of the table, 100,000 each where it is not given. Any
difference ends it with status 1, but for those of grammar that ``reference`` of ``random_texts.py`` takes into account.
"""

import bisect
import ipaddress
import pathlib
import random
import sqlite3
import sys
from ipaddress import IPv4Address, IPv4Interface, IPv6Address, IPv6Interface

sys.path.insert(0, str(pathlib.Path(__file__).resolve().parent.parent / "python"))
from random_texts import canonical, cause, mutated, near, number, reference, suffix, text_of_v6  # noqa: E402

WORDS = {"format": "more than one slash", "address": "no address", "prefix": "no prefix length of the family"}


def differ(what, text, own, other):
    raise SystemExit(f"{what} of {text!r}: here {own}, by ipaddress {other}")


def blob(address):
    return bytes([address.version]) + address.packed


def answers(network):
    """What each function of one network has to answer, by ``ipaddress``."""
    version, address, prefix = network.version, network.ip, network.network.prefixlen
    ends = blob(network.network.network_address), blob(network.network.broadcast_address)
    return (canonical(address, prefix), *ends, prefix, version, None)


def ask(database, text):
    """The answers about a text, or the message of the refusal."""
    asked = "cidr_text(?1), cidr_first(?1), cidr_last(?1), cidr_prefix(?1), cidr_family(?1), cidr_cause(?1)"
    try:
        return database.execute(f"SELECT {asked}", (text,)).fetchone()
    except sqlite3.OperationalError as error:
        return str(error)


def address_of(database, text):
    try:
        return database.execute("SELECT cidr_addr(?)", (text,)).fetchone()[0]
    except sqlite3.OperationalError:
        return None


def printed(database, text, address):
    """What is printed of the blob of an address, and of what it stands for if it is IPv4-mapped."""
    unmapped = getattr(address, "ipv4_mapped", None) or address
    asked = "cidr_print(cidr_addr(?1)), cidr_unmapped(?1), cidr_unmapped(cidr_addr(?1))"
    own = database.execute(f"SELECT {asked}", (text,)).fetchone()
    first, second = (canonical(each, each.max_prefixlen).rpartition("/")[0] for each in (address, unmapped))
    if own != (first, second, blob(unmapped)):
        differ("what is printed", text, own, (first, second, blob(unmapped)))


def texts(database, rows, rng):
    """Texts, of which about half name a network: those that do, and those that do not."""
    seen = [0, 0]
    for row in range(rows):
        if rng.randrange(2):
            text = str(IPv4Address(number(rng, 32))) + suffix(rng, 32)
        else:
            text = text_of_v6(rng) + suffix(rng, 128)
        if row % 2:
            text = mutated(rng, text)
        six = ":" in text.partition("/")[0]
        kind, address = (IPv6Interface, IPv6Address) if six else (IPv4Interface, IPv4Address)
        other, own = reference(kind, text), ask(database, text)
        if other is not None:
            if own != answers(kind(other)):
                differ("reading", text, own, answers(kind(other)))
        else:
            words = WORDS[cause(address, text)]
            said = database.execute("SELECT cidr_cause(?)", (text,)).fetchone()[0]
            if said != words or not str(own).startswith(f"cidr_text, argument 1: {words}: '"):
                differ("the cause", text, (said, own), words)
        named = other is not None and "/" not in text
        if address_of(database, text) != (blob(other[0]) if named else None):
            differ("the address", text, address_of(database, text), other)
        or_null = database.execute("SELECT cidr_text_or_null(?1), cidr_addr_or_null(?1)", (text,)).fetchone()
        wanted = answers(kind(other))[0] if other is not None else None, blob(other[0]) if named else None
        if or_null != wanted:
            differ("the reading or NULL", text, or_null, wanted)
        if named:
            printed(database, text, other[0])
        seen[other is not None] += 1
    return seen


def networks(database, rows, rng):
    """Two networks and an address, now and then of both families: no and yes of has, and of covers."""
    seen = [[0, 0], [0, 0]]
    for row in range(rows):
        kind, width = (ipaddress.IPv4Network, 32) if row % 2 else (ipaddress.IPv6Network, 128)
        a = number(rng, width)
        one = kind((a, rng.randrange(width + 1)), strict=False)
        if rng.randrange(10) == 0:
            kind, width, b = (ipaddress.IPv6Network, 128, a) if row % 2 else (ipaddress.IPv4Network, 32, a >> 96)
        else:
            b = near(rng, width, a)
        two = kind((b, rng.randrange(width + 1)), strict=False)
        address = IPv4Address(b) if width == 32 else IPv6Address(b)
        texts_of_all = f"{one}", f"{two}", f"{address}"
        asked = "cidr_has(?1, ?3), cidr_covers(?1, ?2), cidr_addr(?3) BETWEEN cidr_first(?1) AND cidr_last(?1)"
        own = database.execute(f"SELECT {asked}", texts_of_all).fetchone()
        is_same = one.version == two.version
        has, covers = is_same and address in one, is_same and two.subnet_of(one)
        if own != (has, covers, has):
            differ("has, covers, between", texts_of_all, own, (has, covers, has))
        for counts, truth in zip(seen, (has, covers)):
            counts[truth] += 1
    return seen


def table(database, rows, rng):
    """Random addresses with an index: what it finds between the ends of a network, and their order."""
    near_v4, near_v6 = number(rng, 32), number(rng, 128)
    made = [
        IPv4Address(near(rng, 32, near_v4)) if rng.randrange(2) else IPv6Address(near(rng, 128, near_v6))
        for _ in range(rows)
    ]
    database.execute("CREATE TABLE log(client TEXT, address BLOB)")
    database.executemany("INSERT INTO log VALUES (?1, cidr_addr(?1))", ((str(address),) for address in made))
    database.execute("CREATE INDEX log_address ON log(address)")
    ordered = sorted((address.version, int(address)) for address in made)
    found = database.execute("SELECT address FROM log ORDER BY address")
    if [(key[0], int.from_bytes(key[1:], "big")) for (key,) in found] != ordered:
        raise SystemExit("the index has another order than the addresses")
    between = "SELECT count(*) FROM log WHERE address BETWEEN cidr_first(?1) AND cidr_last(?1)"
    plan = " ".join(row[-1] for row in database.execute(f"EXPLAIN QUERY PLAN {between}", ("::/0",)))
    if "INDEX log_address (address>? AND address<?)" not in plan:
        raise SystemExit(f"the index is not used: {plan}")
    for place in range(300):
        kind, width = (ipaddress.IPv4Network, 32) if place % 2 else (ipaddress.IPv6Network, 128)
        start = near(rng, width, near_v4 if place % 2 else near_v6)
        network = kind((start, rng.randrange(width + 1)), strict=False)
        first = network.version, int(network.network_address)
        last = network.version, int(network.broadcast_address)
        wanted = bisect.bisect_right(ordered, last) - bisect.bisect_left(ordered, first)
        count = database.execute(between, (str(network),)).fetchone()[0]
        if count != wanted:
            differ("the index", network, count, wanted)
        if place < 20:
            scanned = database.execute("SELECT total(cidr_has(?1, client)) FROM log", (str(network),)).fetchone()[0]
            if scanned != wanted:
                differ("a scan", network, scanned, wanted)


def longest(database, rng):
    """Lists of random networks, and the longest of each that has random addresses: by a look at each network."""
    for width, kind, of in (32, ipaddress.IPv4Network, IPv4Address), (128, ipaddress.IPv6Network, IPv6Address):
        start = number(rng, width)
        made = [kind((near(rng, width, start), rng.randrange(width + 1)), strict=False) for _ in range(300)]
        database.execute("DROP TABLE IF EXISTS nets")
        database.execute("CREATE TABLE nets(net TEXT)")
        database.executemany("INSERT INTO nets VALUES (?)", ((str(network),) for network in made))
        asked = [of(near(rng, width, start)) for _ in range(300)]
        asked += [end for network in made for end in (network.network_address, network.broadcast_address)]
        found = []
        for address in asked:
            having = [(network.prefixlen, row) for row, network in enumerate(made, 1) if address in network]
            prefix, row = max(having, default=(None, None))
            wanted = (row, str(made[row - 1].network_address), prefix) if having else None
            own = database.execute("SELECT * FROM cidr_longest('nets', ?)", (str(address),)).fetchone()
            if own is not None:
                own = own[0], str(kind(own[1]).network_address), own[2]
            if own != wanted:
                differ("the longest network", address, own, wanted)
            if wanted:
                found.append((str(address), row, prefix))
        database.execute("CREATE TEMP TABLE IF NOT EXISTS asked(address TEXT)")
        database.execute("DELETE FROM asked")
        database.executemany("INSERT INTO asked VALUES (?)", ((str(address),) for address in asked))
        either = (
            "SELECT address, number, prefix FROM asked JOIN cidr_longest('main.nets', address)"
            " WHERE number = ?1 OR prefix = ?2 ORDER BY asked.rowid"
        )
        for _, number_of, prefix_of in rng.sample(found, 20):
            wanted = [each for each in found if each[1] == number_of or each[2] == prefix_of]
            own = database.execute(either, (number_of, prefix_of)).fetchall()
            if own != wanted:
                differ("a number or a prefix length", (number_of, prefix_of), own, wanted)


def main():
    rows = int(sys.argv[2]) if len(sys.argv) > 2 else 100_000
    rng = random.Random(int(sys.argv[3]) if len(sys.argv) > 3 else 1)
    database = sqlite3.connect(":memory:")
    database.enable_load_extension(True)
    database.load_extension(sys.argv[1])
    no, yes = texts(database, rows, rng)
    print(f"SQLite: {yes} texts of networks, {no} refused, as ipaddress says")
    seen = networks(database, rows, rng)
    print(f"SQLite: {rows} networks, no and yes of has and covers: {seen}")
    if min(no, yes) * 5 < rows or min(map(min, seen)) * 20 < rows:
        raise SystemExit("too few of a kind")
    longest(database, rng)
    print("SQLite: the longest network that has an address is that which a look at each finds")
    table(database, rows, rng)
    print(f"SQLite: an index of {rows} addresses finds between the ends of 300 networks what ipaddress says")


if __name__ == "__main__":
    main()
