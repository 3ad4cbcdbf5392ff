"""Rows of `tests/cidr_merge` for `reduce`, compared with a joining by Python's `ipaddress` that tries each pair of neighbours:
a name, what a run gave and what is wanted, which is the status, standard output and standard error."""

import ipaddress
import os
import random

import limits
from cidr_merge_splits import least, run

# How many networks are reduced to a thousand.
SIZES = (62500, 62500 * limits.GROWTH)


def joined(first, second):
    """The smallest network with both, and how many other addresses it has."""
    around = first
    while not second.subnet_of(around):
        around = around.supernet()
    return around, around.num_addresses - first.num_addresses - second.num_addresses


def reduced(nets, most):
    """At most so many networks with all addresses of networks of one family, and the number of their other addresses. Each
    step joins the neighbours with the fewest other addresses, of several the first."""
    left, others = least(nets), 0
    while len(left) > most:
        count, at = min((joined(*left[at : at + 2])[1], at) for at in range(len(left) - 1))
        left[at : at + 2] = [joined(*left[at : at + 2])[0]]
        others += count
    return least(left), others


def allowed(bound, nets):
    """The greatest number of other addresses that a bound allows; that of no bound is 100%."""
    if bound == "any":
        return 2**128
    if bound and not bound.endswith("%"):
        return int(bound)
    return int((bound or "100%")[:-1]) * sum(net.num_addresses for net in least(nets)) // 100


def report(v4, v6):
    return f"{v4:,} other addresses of IPv4, {v6:,} of IPv6\n".encode()


def over(family, others, most):
    return f"{others:,} other addresses of {family} are more than {most:,}: see --max-others\n".encode()


def ends(nets, most, bound):
    """How a run ends on networks of both families with a number for each, or of one."""
    of = {version: [net for net in nets if net.version == version] for version in (4, 6)}
    left = {version: reduced(own, most[version]) for version, own in of.items()}
    most = {version: allowed(bound, own) for version, own in of.items()}
    error = b"".join(over(f"IPv{version}", left[version][1], most[version]) for version in (4, 6) if left[version][1] > most[version])
    if error:
        return 2, b"", error
    return 0, "".join(f"{net}\n" for net in left[4][0] + left[6][0]).encode(), report(left[4][1], left[6][1])


def random_nets(rng):
    """Networks of both families or of one, close to each other or far apart."""
    nets = []
    versions, spread = rng.choice([(4, 6), (4,), (6,)]), rng.choice((2, 6, 30))
    for _ in range(rng.randrange(30)):
        version = rng.choice(versions)
        kind = ipaddress.IPv4Network if version == 4 else ipaddress.IPv6Network
        bits = 32 if version == 4 else 128
        length = rng.randrange(0 if rng.random() < 0.02 else bits - spread, bits + 1)
        low = rng.choice((0, 2**bits - 2**spread, rng.randrange(2**bits)))
        nets.append(kind(((low + rng.randrange(2**spread)) % 2**bits, length), strict=False))
    return nets


BAD = b"some:3: refused address: x\n"
BOTH = b"the FILEs have addresses of both families: reduce each, with --ipv4 N --ipv6 N\n"
NO_NUMBER = b"reduce: no number of networks: write reduce N, --most N, --ipv4 N or --ipv6 N"
NO_BOUND = b": not a number, a number with a % after it, or any"
USAGE = b"\nusage: "
# The words, the text of the FILE `some`, and the status, standard output and the first lines of standard error.
ROWS = [
    # as many, more and fewer networks than there are
    ("--most 3", "10.0.0.0/24\n10.0.2.0/24\n10.0.8.0/24", (0, b"10.0.0.0/24\n10.0.2.0/24\n10.0.8.0/24\n", report(0, 0))),
    ("--most 18446744073709551616", "10.0.0.0/24", (0, b"10.0.0.0/24\n", report(0, 0))),
    ("--most 2", "10.0.0.0/24\n10.0.2.0/24\n10.0.8.0/24", (0, b"10.0.0.0/22\n10.0.8.0/24\n", report(512, 0))),
    ("--most=1 --max-others=any", "10.0.0.0/24\n10.0.2.0/24\n10.0.8.0/24", (0, b"10.0.0.0/20\n", report(3328, 0))),
    ("--most 1", "", (0, b"", report(0, 0))),
    ("--most 1", "# nothing", (0, b"", report(0, 0))),
    # of several pairs with as few others the first
    ("--most 3", "10.0.0.1\n10.0.0.2\n10.1.0.1\n10.1.0.2", (0, b"10.0.0.0/30\n10.1.0.1/32\n10.1.0.2/32\n", report(2, 0))),
    # the number right after the operation
    ("2", "10.0.0.0/24\n10.0.2.0/24\n10.0.8.0/24", (0, b"10.0.0.0/22\n10.0.8.0/24\n", report(512, 0))),
    ("18446744073709551616 --count", "10.0.0.0/24", (0, b"v4 1 256\nv6 0 0\n", report(0, 0))),
    ("1 -e 10.0.0.3 --ranges", "10.0.0.0", (0, b"10.0.0.0 - 10.0.0.3\n", report(2, 0))),
    ("1 none", "10.0.0.0", (2, b"", b"none: cannot open: no such file\n")),
    ("0", "10.0.0.0", (2, b"", b"--most: 0: not a number from 1" + USAGE)),
    ("1k", "10.0.0.0", (2, b"", NO_NUMBER + USAGE)),
    ("1 --most 1", "10.0.0.0", (2, b"", b"--most: given twice" + USAGE)),
    # both families, which one number does not reduce: it would join all of IPv4 before the first two networks of IPv6
    ("5", "192.0.2.1\n198.51.100.7\n203.0.113.9\n2001:db8:1::/48\n2001:db8:3::/48\n2001:db8:7::/48\n2001:db8:f::/48", (2, b"", BOTH)),
    ("1000", "192.0.2.1\n2001:db8::/48", (2, b"", BOTH)),
    ("--most 2", "0.0.0.0/0\n::/0", (2, b"", BOTH)),
    ("--most 1 --skip-bad", "10.0.0.0\n::\nx", (2, b"", BAD + BOTH)),
    ("--ipv4 2 --ipv6 3", "192.0.2.1\n192.0.2.2\n192.0.2.9\n2001:db8:1::/48\n2001:db8:3::/48\n2001:db8:4::/48\n2001:db8:5::/48",
        (0, b"192.0.2.0/30\n192.0.2.9/32\n2001:db8:1::/48\n2001:db8:3::/48\n2001:db8:4::/47\n", report(2, 0))),
    ("--ipv6=1 --ipv4=1", "::1\n::2\n10.0.0.1\n10.0.0.2", (0, b"10.0.0.0/30\n::/126\n", report(2, 2))),
    ("--ipv4 2 --ipv6 1 --max-others any", "0.0.0.0\n255.255.255.255\n::\nffff::", (0, b"0.0.0.0/32\n255.255.255.255/32\n::/0\n", report(0, 2**128 - 2))),
    ("--ipv4 1 --ipv6 1", "0.0.0.0/0\n::/0", (0, b"0.0.0.0/0\n::/0\n", report(0, 0))),
    # the number of only one family
    ("--ipv4 1", "10.0.0.0\n10.0.0.3", (0, b"10.0.0.0/30\n", report(2, 0))),
    ("--ipv6 1", "::\n::3", (0, b"::/126\n", report(0, 2))),
    ("--ipv6 1", "", (0, b"", report(0, 0))),
    ("--ipv4 9", "10.0.0.0\n::", (2, b"", b"the FILEs have addresses of IPv6, too: add --ipv6 N\n")),
    ("--ipv6 9", "10.0.0.0", (2, b"", b"the FILEs have addresses of IPv4, too: add --ipv4 N\n")),
    # as many others as the list has addresses, and one more; a number and a part of these
    ("1", "10.0.0.0/24\n10.0.2.0/24", (0, b"10.0.0.0/22\n", report(512, 0))),
    ("1", "10.0.0.0/24\n10.0.2.1/25\n10.0.3.0/26\n10.0.3.64/27\n10.0.3.96/28\n10.0.3.112/29\n10.0.3.120/30\n10.0.3.124/31\n10.0.3.126",
        (2, b"", over("IPv4", 513, 511))),
    ("--most 1 --max-others 512", "10.0.0.0/24\n10.0.2.0/24", (0, b"10.0.0.0/22\n", report(512, 0))),
    ("--most 1 --max-others=511", "10.0.0.0/24\n10.0.2.0/24", (2, b"", over("IPv4", 512, 511))),
    ("--most 1 --max-others 100%", "10.0.0.0/24\n10.0.2.0/24", (0, b"10.0.0.0/22\n", report(512, 0))),
    ("--most 1 --max-others=99%", "10.0.0.0/24\n10.0.2.0/24", (2, b"", over("IPv4", 512, 506))),
    ("--most 1 --max-others 0", "10.0.0.0/25\n10.0.0.128/25", (0, b"10.0.0.0/24\n", report(0, 0))),
    ("--most 1 --max-others 0%", "10.0.0.0\n10.0.0.3", (2, b"", over("IPv4", 2, 0))),
    ("--most 1", "0.0.0.0\n255.255.255.255", (2, b"", over("IPv4", 2**32 - 2, 2))),
    ("--ipv4 1 --ipv6 1 --max-others 3", "10.0.0.0\n10.0.0.7\n::\n::3", (2, b"", over("IPv4", 6, 3))),
    ("--ipv4 1 --ipv6 1", "10.0.0.0/9\n10.192.0.0/10\n::\n::7", (2, b"", over("IPv6", 6, 2))),
    ("--ipv4 1 --ipv6 1", "10.0.0.0\n10.0.0.7\n::\n::7", (2, b"", over("IPv4", 6, 2) + over("IPv6", 6, 2))),
    # the ends of IPv6: 2^128 - 2 others of 2 addresses, and parts of most addresses
    ("--most 1 --max-others any", "::\nffff:ffff:ffff:ffff:ffff:ffff:ffff:ffff", (0, b"::/0\n", report(0, 2**128 - 2))),
    (f"--most 1 --max-others {2**128 - 2}", "::\nffff:ffff:ffff:ffff:ffff:ffff:ffff:ffff", (0, b"::/0\n", report(0, 2**128 - 2))),
    (f"--most 1 --max-others {2**128 - 3}", "::\nffff:ffff:ffff:ffff:ffff:ffff:ffff:ffff", (2, b"", over("IPv6", 2**128 - 2, 2**128 - 3))),
    (f"--most 1 --max-others {10**40}", "::\nffff:ffff:ffff:ffff:ffff:ffff:ffff:ffff", (0, b"::/0\n", report(0, 2**128 - 2))),
    (f"--most 1 --max-others {2**128 - 1}%", "::/121\nffff:ffff:ffff:ffff:ffff:ffff:ffff:ffff", (0, b"::/0\n", report(0, 2**128 - 129))),
    (f"--most 1 --max-others {10**36 + 99}%", "::\n8000::", (2, b"", over("IPv6", 2**128 - 2, (10**36 + 99) * 2 // 100))),
    ("--most 1 --max-others 50%", "::/2\n8000::/2\nc000::/2", (0, b"::/0\n", report(0, 2**126))),
    ("--most 1 --max-others 33%", "::/2\n8000::/2\nc000::/2", (2, b"", over("IPv6", 2**126, 99 * 2**126 // 100))),
    ("--most 1 --max-others 0%", "::/0", (0, b"::/0\n", report(0, 0))),
    ("--most 1 --max-others 59%", "::/64\n0:0:0:2::/64\n0:0:0:3::/65", (2, b"", over("IPv6", 3 * 2**63, 59 * 5 * 2**63 // 100))),
    ("--most 1 --max-others 60%", "::/64\n0:0:0:2::/64\n0:0:0:3::/65", (0, b"::/62\n", report(0, 3 * 2**63))),
    # halves are one network, before and after others are joined
    ("--most 1", "10.0.0.0/25\n10.0.0.128/25", (0, b"10.0.0.0/24\n", report(0, 0))),
    ("--most 2", "10.0.0.1\n10.0.0.2\n10.0.0.4/30", (0, b"10.0.0.0/29\n", report(2, 0))),
    # what union takes
    ("--most 1 --count", "10.0.0.0/24\n10.0.2.0/24", (0, b"v4 1 1024\nv6 0 0\n", report(512, 0))),
    ("--ranges --most 1", "10.0.0.0/24\n10.0.2.0/24", (0, b"10.0.0.0 - 10.0.3.255\n", report(512, 0))),
    ("--most 1 --format netmask", "10.0.0.0/24\n10.0.2.0/24", (0, b"10.0.0.0 255.255.252.0\n", report(512, 0))),
    ("--most 1 --format addresses", "10.0.0.0\n10.0.0.3", (0, b"10.0.0.0\n10.0.0.1\n10.0.0.2\n10.0.0.3\n", report(2, 0))),
    ("--most 1 --line-prefix < --line-suffix >", "10.0.0.0\n10.0.0.3", (0, b"<10.0.0.0/30>\n", report(2, 0))),
    ("--most 1 --json", '["10.0.0.0", {"a": "10.0.0.3"}, 7, "x"]', (0, b"10.0.0.0/30\n", report(2, 0))),
    ("--most 1 -e 10.0.0.3", "10.0.0.0", (0, b"10.0.0.0/30\n", report(2, 0))),
    # what is refused
    ("--most 1", "10.0.0.0\n10.0.0.3\nx", (2, b"", BAD)),
    ("--most 1 --skip-bad", "10.0.0.0\n10.0.0.3\nx", (3, b"10.0.0.0/30\n", BAD + report(2, 0))),
    ("--most 1 none", "10.0.0.0", (2, b"", b"none: cannot open: no such file\n")),
    ("", "10.0.0.0", (2, b"", NO_NUMBER + USAGE)),
    ("--most 0", "10.0.0.0", (2, b"", b"--most: 0: not a number from 1" + USAGE)),
    ("--most 1k", "10.0.0.0", (2, b"", b"--most: 1k: not a number from 1" + USAGE)),
    ("--most -1", "10.0.0.0", (2, b"", b"--most: -1: not a number from 1" + USAGE)),
    ("--most= ", "10.0.0.0", (2, b"", b"--most: '': not a number from 1" + USAGE)),
    ("--most 1 --most 1", "10.0.0.0", (2, b"", b"--most: given twice" + USAGE)),
    ("--most 1 --prefix 8", "10.0.0.0", (2, b"", b"--prefix: not an option of reduce; it takes --most N, --ipv4 N, --ipv6 N, --max-others N and the options of union" + USAGE)),
    ("--most 1 --", "10.0.0.0", (2, b"", b"--: only common, minus, differ, find and free take a --" + USAGE)),
    ("--most 1 --ipv4 1", "10.0.0.0", (2, b"", b"--most: not together with --ipv4 or --ipv6" + USAGE)),
    ("1 --ipv6 1", "10.0.0.0", (2, b"", b"--most: not together with --ipv4 or --ipv6" + USAGE)),
    ("--ipv4 1 --ipv4 1", "10.0.0.0", (2, b"", b"--ipv4: given twice" + USAGE)),
    ("--ipv4 0", "10.0.0.0", (2, b"", b"--ipv4: 0: not a number from 1" + USAGE)),
    ("--ipv6 x", "10.0.0.0", (2, b"", b"--ipv6: x: not a number from 1" + USAGE)),
    ("--max-others 1", "10.0.0.0", (2, b"", NO_NUMBER + USAGE)),
    ("1 --max-others 1 --max-others 1", "10.0.0.0", (2, b"", b"--max-others: given twice" + USAGE)),
    *[(f"1 --max-others={value}", "10.0.0.0", (2, b"", b"--max-others: " + (value.encode() or b"''") + NO_BOUND + USAGE))
        for value in ("", "%", "1%%", "%1", "+1", "-1", "Any", "any%", "1.5%", "1k")],
    ("--most 1 --count --ranges", "10.0.0.0", (2, b"", b"--ranges: not together with --count" + USAGE)),
]


def reduces(program, folder):
    """Lists that are reduced: rows by hand, random lists, and a long one."""

    def give(text):
        with open(os.path.join(folder, "some"), "w") as file:
            file.write(text)

    for words, text, wanted in ROWS:
        give(text)
        # The number is right after the operation, or after its option.
        given = words.strip().split(" ") if words else []
        given = [*given, "some"] if words[:1].isdigit() else ["some", *given]
        status, output, error = run(program, ["reduce", *given], folder)
        # Of the usage only its beginning is compared.
        error = error[: error.find(USAGE) + len(USAGE)] if USAGE in error else error
        yield f"reduce {words} of {text!r}", (status, output, error), wanted
    for seed in range(400):
        rng = random.Random(seed)
        nets = random_nets(rng)
        most = {version: rng.choice((1, 2, 3, 5, rng.randrange(1, 40))) for version in (4, 6)}
        bound = rng.choice(("", "any", "any", f"{rng.randrange(200)}%", str(2 ** rng.randrange(70))))
        words = ["reduce", "--ipv4", str(most[4]), "--ipv6", str(most[6]), *(["--max-others", bound] if bound else []), "some"]
        give("".join(f"{net}\n" for net in nets))
        yield f"{words}, seed {seed}", run(program, words, folder), ends(nets, most, bound)
        words[1:5] = [str(most[4])]
        wanted = (2, b"", BOTH) if {4, 6} == {net.version for net in nets} else ends(nets, {4: most[4], 6: most[4]}, bound)
        yield f"{words}, seed {seed}", run(program, words, folder), wanted
    rng = random.Random(1)
    lines = [f"{ipaddress.IPv4Address(rng.randrange(2**32))}/{rng.randrange(20, 33)}\n" for _ in range(SIZES[-1])]
    for size in SIZES:
        give("".join(lines[:size]))
        os.rename(os.path.join(folder, "some"), os.path.join(folder, f"some {size}"))
    words = ["reduce", "--most", "1000", "--max-others", "any"]
    well, taken = limits.is_proportional(lambda size: run(program, [*words, f"some {size}"], folder), SIZES[0])
    yield f"many networks to a thousand, in proportion: {taken}", well, True
    os.rename(os.path.join(folder, f"some {SIZES[-1]}"), os.path.join(folder, "some"))
    status, output, _ = run(program, [*words, "some"], folder)
    yield "a million networks to a thousand", (status, output.count(b"\n") <= 1000, b""), (0, True, b"")
    status, all_others, _ = run(program, ["minus", "--count", "some", "--", "-"], folder, output)
    yield "none of a million networks is lost", (status, all_others, b""), (0, b"v4 0 0\nv6 0 0\n", b"")
