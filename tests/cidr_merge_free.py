"""Rows of `tests/cidr_merge` for `free`, compared with Python's `ipaddress`: a name, what a run gave and what is wanted, which
is the status, standard output and standard error."""

import ipaddress
import os
import random
import subprocess

import limits
from cidr_merge_splits import least, run

USAGE = b"\nusage: "
REFUSED = b"used:2: refused address: x\n"
NONE_FREE = b"no network of this length is free\n"
BOTH = b"the FILEs before the -- have addresses of both families: see -4 and -6\n"
NO_POOL = b"the FILEs before the -- have no address\n"
NO_V6_POOL = b"the FILEs before the -- have no address of IPv6, and IPv4 has no network of this length\n"
NONE_USED = b"the FILEs after the -- have no address of the family of the pools: see --allow-empty\n"


def without(nets, others):
    """The shortest list of the addresses of networks of one family that no other network has."""
    left = list(ipaddress.collapse_addresses(nets))
    for other in others:
        left = [part for net in left for part in (net.address_exclude(other) if other.subnet_of(net) else () if net.subnet_of(other) else (net,))]
    return sorted(left)


def free_of(pools, used, length):
    """The networks of this prefix length among the addresses of the pools that are not used."""
    pools = [net for net in pools if length <= 32 or net.version == 6]
    if not pools:
        return []
    version = pools[0].version
    left = without(pools, [net for net in used if net.version == version])
    return [part for net in left if net.prefixlen <= length <= net.max_prefixlen for part in net.subnets(new_prefix=length)]


def random_case(rng):
    """Pools and used networks of a family, close to each other, also at both ends of the family, and a prefix length."""
    kind, bits = rng.choice(((ipaddress.IPv4Network, 32), (ipaddress.IPv6Network, 128)))
    spread = rng.choice((2, 6, 12))
    low = rng.choice((0, 2**bits - 2**spread, rng.randrange(2**bits) >> spread << spread))
    sides = []
    for most, shortest in ((4, bits - spread), (30, bits - spread + 1)):
        side = []
        for _ in range(rng.randrange(1, most)):
            length = rng.randrange(shortest, bits + 1)
            side.append(kind((low + rng.randrange(2**spread), length), strict=False))
        sides.append(side)
    return *sides, rng.randrange(max(bits - spread - 1, 0), bits + 1)


def lines(nets):
    return "".join(f"{net}\n" for net in nets).encode()


ROWS = [
    ("--prefix 26", "10.0.0.0/24", "10.0.0.0/25", 0, b"10.0.0.128/26\n", b""),
    ("--prefix 26 --all", "10.0.0.0/24", "10.0.0.0/25", 0, b"10.0.0.128/26\n10.0.0.192/26\n", b""),
    ("--prefix 26 --all", "10.0.0.0/24", "10.0.0.1\n10.0.0.255\n", 0, b"10.0.0.64/26\n10.0.0.128/26\n", b""),
    # What is free spans two pools, and is no block of either.
    ("--prefix 23 --all", "10.0.0.0/24\n10.0.1.0/24\n", "10.0.2.0", 0, b"10.0.0.0/23\n", b""),
    ("--prefix 24 --all", "10.0.0.128 - 10.0.2.127", "10.0.3.0", 0, b"10.0.1.0/24\n", b""),
    ("--prefix 25 --all", "10.0.0.0/24", "10.0.0.0/8", 1, b"", NONE_FREE),
    ("--prefix 24", "10.0.0.0/24", "10.0.0.255", 1, b"", NONE_FREE),
    ("--prefix 23", "10.0.0.0/24", "10.0.1.0", 1, b"", NONE_FREE),
    ("--prefix 33", "10.0.0.0/24", "10.0.1.0", 2, b"", NO_V6_POOL),
    ("--prefix 33", "10.0.0.0/24", "", 2, b"", NO_V6_POOL),
    ("--prefix 33", "", "::1", 1, b"", NONE_FREE),
    ("--prefix 24", "", "10.0.1.0", 2, b"", NO_POOL),
    ("--prefix 24 -6", "10.0.0.0/24", "10.0.1.0", 2, b"", NO_POOL),
    ("--prefix 33", "10.0.0.0/24", "10.0.1.0\n::1\n", 1, b"", NONE_FREE),
    ("--prefix 0", "0.0.0.0/0", "::1", 2, b"", NONE_USED),
    ("--prefix 0 --allow-empty", "0.0.0.0/0", "::1", 0, b"0.0.0.0/0\n", b""),
    ("--prefix 0 --allow-empty", "::/0", "", 0, b"::/0\n", b""),
    ("--prefix 1 --all", "0.0.0.0/0", "255.255.255.255", 0, b"0.0.0.0/1\n", b""),
    ("--prefix 1 --all", "::/0", "::", 0, b"8000::/1\n", b""),
    ("--prefix 32 --all", "255.255.255.252/30", "255.255.255.254", 0, b"255.255.255.252/32\n255.255.255.253/32\n255.255.255.255/32\n", b""),
    ("--prefix 32", "255.255.255.252/30", "255.255.255.252 - 255.255.255.254", 0, b"255.255.255.255/32\n", b""),
    ("--prefix 32", "0.0.0.0/31", "0.0.0.0", 0, b"0.0.0.1/32\n", b""),
    ("--prefix 128", "ffff:ffff:ffff:ffff:ffff:ffff:ffff:fffe/127", "ffff:ffff:ffff:ffff:ffff:ffff:ffff:fffe", 0,
        b"ffff:ffff:ffff:ffff:ffff:ffff:ffff:ffff/128\n", b""),
    ("--prefix 64", "2001:db8::/32", "2001:db8::/48", 0, b"2001:db8:1::/64\n", b""),
    # Of pools of both families one is asked for.
    ("--prefix 26", "10.0.0.0/24\n2001:db8::/32\n", "10.0.0.0/25\n2001:db8::\n", 2, b"", BOTH),
    ("--prefix 64", "10.0.0.0/24\n2001:db8::/32\n", "10.0.0.0/25\n2001:db8::\n", 0, b"2001:db8:0:1::/64\n", b""),
    ("--prefix 64", "10.0.0.0/24\n2001:db8::/32\n", "10.0.0.0/25\n", 2, b"", NONE_USED),
    # A ledger that is empty or of the other family.
    ("--prefix 26", "10.0.0.0/24", "", 2, b"", NONE_USED),
    ("--prefix 26", "10.0.0.0/24", "# none yet\n", 2, b"", NONE_USED),
    ("--prefix 26", "10.0.0.0/24", "2001:db8::/32", 2, b"", NONE_USED),
    ("--prefix 26 --allow-empty", "10.0.0.0/24", "", 0, b"10.0.0.0/26\n", b""),
    ("--prefix 26", "", "10.0.0.0/24\n2001:db8::/32\n", 1, b"", NONE_FREE),
    # A refused line of the ledger.
    ("--prefix 26", "10.0.0.0/24", "10.0.0.0/25\nx\n", 2, b"", REFUSED),
    ("--prefix 26 --skip-bad", "10.0.0.0/24", "10.0.0.0/25\nx\n", 3, b"10.0.0.128/26\n", REFUSED),
    ("--prefix 24 --skip-bad", "10.0.0.0/24", "10.0.0.0/25\nx\n", 1, b"", REFUSED + NONE_FREE),
    ("--prefix 26 --strict", "10.0.0.0/24", "10.0.0.0\n10.0.0.9/25\n", 2, b"", None),
    ("--prefix 26 --json", '["10.0.0.0/24"]', '{"used": ["10.0.0.0/25"]}', 0, b"10.0.0.128/26\n", b""),
    ("--prefix 26 --json", '["10.0.0.0/24"]', '{"used": ["10.0.0.0/25"', 2, b"", None),
    ("--prefix 26 --json", '["10.0.0.0/24"]', "{}", 2, b"", NONE_USED),
    ("--prefix +26 --line-prefix net= --line-suffix ;", "10.0.0.0/24", "10.0.0.0/25", 0, b"net=10.0.0.128/26;\n", b""),
]

# Words that are refused, with what is reported of them.
WRONG = [
    ("free --prefix 129 -e 10.0.0.0/8 -- used", b"--prefix: 129: not a prefix length, 0 to 128"),
    ("free --prefix 24 --prefix 24 -e 10.0.0.0/8 -- used", b"--prefix: given twice"),
    ("free --prefix 24 -e 10.0.0.0/8", b"free: no -- with a FILE after it"),
    ("free --prefix 24 -e 10.0.0.0/8 --", b"--: no FILE after it"),
    ("free --prefix 24 -- used", b"--: no FILE before it"),
    ("free --prefix 24 --count -e 10.0.0.0/8 -- used", None),
    ("split --prefix 24 --all used", None),
]


def free(program, folder):
    """Pools with addresses that are used."""
    for words, pools, used, *wanted in ROWS:
        for name, text in (("pools", pools), ("used", used)):
            with open(os.path.join(folder, name), "w") as file:
                file.write(text)
        got = list(run(program, ["free", *words.split(), "pools", "--", "used"], folder))
        if wanted[2] is None:
            got[2] = None
        yield f"free {words} {pools!r} -- {used!r}", tuple(got), tuple(wanted)
    for words, reported in WRONG:
        status, output, error = run(program, words.split(), folder)
        is_reported = error.startswith(b"cidr_merge: " + (reported or b"")) and USAGE in error
        yield words, (status, output, is_reported), (2, b"", True)
    yield "a ledger that is not there", run(program, "free --prefix 24 -e 10.0.0.0/8 -- none".split(), folder), (2, b"", b"none: cannot open: no such file\n")
    yield "a pool that is not there", run(program, "free --prefix 24 none -- used".split(), folder), (2, b"", b"none: cannot open: no such file\n")
    with open("/dev/full", "wb") as full:
        asked = "free --prefix 24 --all -e 10.0.0.0/16 -- -e 10.0.0.0"
        done = limits.run([program, *asked.split()], cwd=folder, stdout=full, stderr=subprocess.PIPE)
    yield f"{asked} with a full device", (done.returncode, None, done.stderr), (2, None, b"write error\nstandard output: no space left on device\n")
    for seed in range(300):
        pools, used, length = random_case(random.Random(seed))
        for name, nets in (("pools", pools), ("used", used)):
            with open(os.path.join(folder, name), "wb") as file:
                file.write(lines(nets))
        wanted = free_of(pools, used, length)
        for words, some in (([], wanted[:1]), (["--all"], wanted)):
            asked = ["free", "--prefix", str(length), *words, "pools", "--", "used"]
            end = (0, lines(some), b"") if some else (1, b"", NONE_FREE)
            yield f"{' '.join(asked)}, seed {seed}", run(program, asked, folder), end
