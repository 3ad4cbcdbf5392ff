"""Rows of `tests/cidr_merge` for `free --hosts` and `free --usage`, compared with Python's `ipaddress`: a name, what a run gave
and what is wanted, which is the status, standard output and standard error."""

import fractions
import ipaddress
import math
import os
import random
import resource

from cidr_merge_free import BOTH, NONE_USED, REFUSED, USAGE, lines, without
from cidr_merge_splits import least, run

LACKING = b"the FILEs before the -- have no address, or those after it none of a family of theirs: see --allow-empty\n"


def hosts_of(net):
    """How many hosts a network has: those that `ipaddress` lists, which for a large one are counted by its ends."""
    if net.num_addresses <= 256:
        return sum(1 for _ in net.hosts())
    return net.num_addresses - (2 if net.version == 4 else 1)


def length_for(kind, bits, number):
    """The longest prefix length of networks with so many hosts."""
    return next((length for length in range(bits, -1, -1) if hosts_of(kind((0, length))) >= number), None)


def places_of(pools, used, numbers):
    """The network of each number of hosts, or nothing; the larger are placed first, and of one size the earlier."""
    kind, bits = type(pools[0]), pools[0].max_prefixlen
    lengths = [length_for(kind, bits, number) for number in numbers]
    taken, places = [net for net in used if type(net) is kind], [None] * len(numbers)
    for at in sorted(range(len(numbers)), key=lambda at: (lengths[at], at)):
        left = [net for net in without(pools, taken) if net.prefixlen <= lengths[at]]
        if left:
            places[at] = kind((left[0].network_address, lengths[at]))
            taken.append(places[at])
    return places


def usage_of(pools, used):
    """The line of each network of the pools."""
    for net in least(pools):
        left = sum(part.num_addresses for part in without([net], [other for other in used if other.version == net.version]))
        share = math.floor(fractions.Fraction(net.num_addresses - left, net.num_addresses) * 1000)
        yield f"{net} {net.num_addresses - left} {left} {share // 10}.{share % 10}\n"


def lacking(*numbers):
    return "".join(f"no network is free for {number:,} hosts\n" for number in numbers).encode()


ALL_OF_IPV6 = 2**128

PLACES = [
    ("100,50,20", "10.0.0.0/24", "10.0.1.0", 0, b"10.0.0.0/25\n10.0.0.128/26\n10.0.0.192/27\n", b""),
    # The networks come in the order of the numbers, and the larger are placed first.
    ("20,50,100", "10.0.0.0/24", "10.0.1.0", 0, b"10.0.0.192/27\n10.0.0.128/26\n10.0.0.0/25\n", b""),
    ("20,100", "10.0.0.0/24", "10.0.0.0/26", 0, b"10.0.0.64/27\n10.0.0.128/25\n", b""),
    # Of one size the earlier number gets the earlier network.
    ("62,50,60", "10.0.0.0/24", "10.0.0.64", 0, b"10.0.0.0/26\n10.0.0.128/26\n10.0.0.192/26\n", b""),
    ("62,50,60", "10.0.0.0/24", "10.0.0.64\n10.0.0.255", 1, b"", lacking(60)),
    ("62,50", "10.0.0.0/24", "10.0.0.64", 0, b"10.0.0.0/26\n10.0.0.128/26\n", b""),
    ("100,50,20", "10.0.0.0/24", "10.0.0.0/26", 1, b"", lacking(20)),
    ("100,100,20", "10.0.0.0/24", "10.0.0.0/26", 1, b"", lacking(100)),
    ("1000,1001", "10.0.0.0/24", "10.0.0.0/26", 1, b"", lacking(1000, 1001)),
    # How many hosts a network has.
    ("1,2,3,6,7", "10.0.0.0/24", "10.0.1.0", 0, b"10.0.0.34/32\n10.0.0.32/31\n10.0.0.16/29\n10.0.0.24/29\n10.0.0.0/28\n", b""),
    ("254", "10.0.0.0/24", "10.0.1.0", 0, b"10.0.0.0/24\n", b""),
    ("255", "10.0.0.0/24", "10.0.1.0", 1, b"", lacking(255)),
    ("1,2,3,4,7,8", "2001:db8::/120", "::", 0,
        b"2001:db8::26/128\n2001:db8::24/127\n2001:db8::20/126\n2001:db8::10/125\n2001:db8::18/125\n2001:db8::/124\n", b""),
    ("4294967294", "0.0.0.0/0", "::1", 2, b"", NONE_USED),
    ("4294967294 --allow-empty", "0.0.0.0/0", "::1", 0, b"0.0.0.0/0\n", b""),
    ("4294967295", "0.0.0.0/0", "10.0.0.0", 2, b"", b"no network has 4,294,967,295 hosts\n"),
    ("1,4294967295", "0.0.0.0/0", "10.0.0.0", 2, b"", b"no network has 4,294,967,295 hosts\n"),
    ("18446744073709551615,18446744073709551616", "2001:db8::/48", "2001:db8::/62", 0, b"2001:db8:0:6::/64\n2001:db8:0:4::/63\n", b""),
    (f"{ALL_OF_IPV6 - 2} --allow-empty", "::/0", "", 0, b"::/0\n", b""),
    (f"{ALL_OF_IPV6 // 2},{ALL_OF_IPV6 // 2 - 1}", "::/0", "::", 1, b"", lacking(ALL_OF_IPV6 // 2)),
    # The first and the last address.
    ("1,1", "0.0.0.0/31", "10.0.0.0", 0, b"0.0.0.0/32\n0.0.0.1/32\n", b""),
    ("2", "255.255.255.252/30", "255.255.255.252", 0, b"255.255.255.254/31\n", b""),
    ("1,1,1", "255.255.255.252/30", "255.255.255.254", 0, b"255.255.255.252/32\n255.255.255.253/32\n255.255.255.255/32\n", b""),
    ("1", "ffff:ffff:ffff:ffff:ffff:ffff:ffff:fffe/127", "ffff:ffff:ffff:ffff:ffff:ffff:ffff:fffe", 0,
        b"ffff:ffff:ffff:ffff:ffff:ffff:ffff:ffff/128\n", b""),
    # Pools that are full, that are not there, and of both families.
    ("1", "10.0.0.0/24", "10.0.0.0/8", 1, b"", lacking(1)),
    ("1,2", "", "10.0.0.0/8\n::1\n", 1, b"", lacking(1, 2)),
    ("1", "10.0.0.0/24\n2001:db8::/32\n", "10.0.0.0\n::\n", 2, b"", BOTH),
    ("1 -4", "10.0.0.0/24\n2001:db8::/32\n", "10.0.0.0\n::\n", 0, b"10.0.0.1/32\n", b""),
    ("3 -6", "10.0.0.0/24\n2001:db8::/32\n", "10.0.0.0\n2001:db8::\n", 0, b"2001:db8::4/126\n", b""),
    ("1", "10.0.0.0/24", "", 2, b"", NONE_USED),
    ("1", "10.0.0.0/24", "10.0.0.0\nx\n", 2, b"", REFUSED),
    ("1,2 --skip-bad", "10.0.0.0/24", "10.0.0.0\nx\n", 3, b"10.0.0.1/32\n10.0.0.2/31\n", REFUSED),
    ("255 --skip-bad", "10.0.0.0/24", "10.0.0.0\nx\n", 1, b"", REFUSED + lacking(255)),
    ("5,05 --line-prefix net= --line-suffix ;", "10.0.0.0/24", "10.0.1.0", 0, b"net=10.0.0.0/29;\nnet=10.0.0.8/29;\n", b""),
]

SHARES = [
    ("", "10.0.0.0/24", "10.0.0.128/25", 0, b"10.0.0.0/24 128 128 50.0\n", b""),
    # Networks of the least list of the pools, and what is used outside of them.
    ("", "10.0.0.0/25\n10.0.0.128/25\n10.0.2.0/24\n", "10.0.0.1\n10.0.0.255 - 10.0.2.0\n", 0,
        b"10.0.0.0/24 2 254 0.7\n10.0.2.0/24 1 255 0.3\n", b""),
    # Rounded down: all is used only at 100.0.
    ("", "10.0.0.0/24", "10.0.0.0 - 10.0.0.254", 0, b"10.0.0.0/24 255 1 99.6\n", b""),
    ("", "10.0.0.0/8", "10.0.0.0 - 10.255.255.254", 0, b"10.0.0.0/8 16777215 1 99.9\n", b""),
    ("", "10.0.0.0/8", "10.0.0.0", 0, b"10.0.0.0/8 1 16777215 0.0\n", b""),
    ("", "10.0.0.0/24", "10.0.0.0/8", 0, b"10.0.0.0/24 256 0 100.0\n", b""),
    ("", "10.0.0.0/24", "10.0.1.0/24", 0, b"10.0.0.0/24 0 256 0.0\n", b""),
    ("", "10.0.0.7/32", "10.0.0.7", 0, b"10.0.0.7/32 1 0 100.0\n", b""),
    ("", "255.255.255.254/31", "255.255.255.255", 0, b"255.255.255.254/31 1 1 50.0\n", b""),
    ("", "0.0.0.0/0", "0.0.0.0\n255.255.255.255\n", 0, b"0.0.0.0/0 2 4294967294 0.0\n", b""),
    ("", "::/0", "::/0", 0, f"::/0 {ALL_OF_IPV6} 0 100.0\n".encode(), b""),
    ("", "::/0", "::", 0, f"::/0 1 {ALL_OF_IPV6 - 1} 0.0\n".encode(), b""),
    ("", "::/0", f":: - {ipaddress.IPv6Address(ALL_OF_IPV6 - 2)}", 0, f"::/0 {ALL_OF_IPV6 - 1} 1 99.9\n".encode(), b""),
    ("--allow-empty", "::/0", "", 0, f"::/0 0 {ALL_OF_IPV6} 0.0\n".encode(), b""),
    ("", "::/1", "::/3\n8000::/2", 0, f"::/1 {ALL_OF_IPV6 // 8} {ALL_OF_IPV6 // 8 * 3} 25.0\n".encode(), b""),
    # Both families, IPv4 first; and one of them.
    ("", "2001:db8::/127\n10.0.0.0/31", "10.0.0.1\n2001:db8::1", 0, b"10.0.0.0/31 1 1 50.0\n2001:db8::/127 1 1 50.0\n", b""),
    ("", "2001:db8::/127\n10.0.0.0/31", "10.0.0.1", 2, b"", LACKING),
    ("", "2001:db8::/127\n10.0.0.0/31", "2001:db8::1", 2, b"", LACKING),
    ("-4", "2001:db8::/127\n10.0.0.0/31", "10.0.0.1", 0, b"10.0.0.0/31 1 1 50.0\n", b""),
    ("-6", "2001:db8::/127\n10.0.0.0/31", "2001:db8::1", 0, b"2001:db8::/127 1 1 50.0\n", b""),
    # No pools, nothing used, and lines that are refused.
    ("", "", "10.0.0.1", 2, b"", LACKING),
    ("--allow-empty", "", "10.0.0.1", 0, b"", b""),
    ("", "10.0.0.0/24", "", 2, b"", LACKING),
    ("--allow-empty", "10.0.0.0/24", "", 0, b"10.0.0.0/24 0 256 0.0\n", b""),
    ("", "10.0.0.0/24", "10.0.0.0\nx\n", 2, b"", REFUSED),
    ("--skip-bad", "10.0.0.0/24", "10.0.0.0/25\nx\n", 3, b"10.0.0.0/24 128 128 50.0\n", REFUSED),
    ("--line-prefix net= --line-suffix ;", "10.0.0.0/24", "10.0.0.0/25", 0, b"net=10.0.0.0/24 128 128 50.0;\n", b""),
]

# Words that are refused, with what is reported of them.
NOT_NUMBERS = b": not numbers from 1 of hosts, with a comma between them"
WRONG = [
    ("free -e 10.0.0.0/8 -- used", b"free: no --prefix N, --hosts N,N,.. or --usage"),
    *((f"free --hosts={text} -e 10.0.0.0/8 -- used", b"--hosts: " + text.encode() + NOT_NUMBERS)
      for text in ("0", "1,0", "1,,2", ",1", "1,", ",", "x", "-1", "+1", "1;2", "1.5", str(ALL_OF_IPV6 - 1), str(ALL_OF_IPV6), "9" * 60)),
    ("free --hosts 1 --hosts 2 -e 10.0.0.0/8 -- used", b"--hosts: given twice"),
    ("free --hosts 1 --prefix 24 -e 10.0.0.0/8 -- used", b"--hosts: not together with --prefix"),
    ("free --hosts 1 --all -e 10.0.0.0/8 -- used", b"--hosts: not together with --all"),
    ("free --hosts 1 --usage -e 10.0.0.0/8 -- used", b"--hosts: not together with --usage"),
    ("free --usage --prefix 24 -e 10.0.0.0/8 -- used", b"--usage: not together with --prefix"),
    ("free --usage --all -e 10.0.0.0/8 -- used", b"--usage: not together with --all"),
    ("free --usage -e 10.0.0.0/8", b"free: no -- with a FILE after it"),
    ("split --prefix 24 --hosts 1 used", b"--hosts: not an option of split"),
    ("minus --usage used -- used", b"--usage: not an option of union, common, minus or list"),
]


def random_case(rng):
    """Pools and used networks of a family, close to each other, also at both ends of the family, and numbers of hosts."""
    kind, bits = rng.choice(((ipaddress.IPv4Network, 32), (ipaddress.IPv6Network, 128)))
    spread = rng.choice((3, 6, 9))
    low = rng.choice((0, 2**bits - 2**spread, rng.randrange(2**bits) >> spread << spread))
    sides = []
    for most, shortest in ((4, bits - spread), (12, bits - spread + 1)):
        sides.append([kind((low + rng.randrange(2**spread), rng.randrange(shortest, bits + 1)), strict=False) for _ in range(rng.randrange(1, most))])
    return *sides, [rng.randrange(1, 2 ** rng.randrange(1, spread + 1)) for _ in range(rng.randrange(1, 7))]


def seconds(program, folder, hosts):
    """What a run for these numbers of hosts gave, and its processor time."""
    before = resource.getrusage(resource.RUSAGE_CHILDREN)
    got = run(program, ["free", "--hosts", ",".join(hosts), "-e", "10.0.0.0/8", "--", "used"], folder)
    after = resource.getrusage(resource.RUSAGE_CHILDREN)
    return got, after.ru_utime + after.ru_stime - before.ru_utime - before.ru_stime


def many_at_once(program, folder):
    """A thousand numbers of one length, whose networks are free only after 100,000 used ones: they are found in one pass."""
    end = 10 << 24 | 64 * 100_000
    with open(os.path.join(folder, "used"), "w") as file:
        file.writelines(f"{ipaddress.IPv4Address(at)}/27\n" for at in range(10 << 24, end, 64))
    one, short = seconds(program, folder, ["60"])
    many, long = seconds(program, folder, ["60"] * 1000)
    wanted = "".join(f"{ipaddress.IPv4Address(end + 64 * at)}/26\n" for at in range(1000)).encode()
    yield "free --hosts 60 after 100,000 used networks", one, (0, wanted.splitlines(True)[0], b"")
    yield "free --hosts of 1,000 numbers after them", many, (0, wanted, b"")
    yield f"{long:.2f} seconds for 1,000 numbers, {short:.2f} for one", long < 10 * short + 0.1, True


def places(program, folder):
    """Free networks for numbers of hosts, and how much of each network is used."""
    def of_files(words, pools, used):
        for name, text in (("pools", pools), ("used", used)):
            with open(os.path.join(folder, name), "w") as file:
                file.write(text)
        return run(program, ["free", *words, "pools", "--", "used"], folder)

    for words, pools, used, *wanted in PLACES:
        yield f"free --hosts {words} {pools!r} -- {used!r}", of_files(["--hosts", *words.split()], pools, used), tuple(wanted)
    for words, pools, used, *wanted in SHARES:
        yield f"free --usage {words} {pools!r} -- {used!r}", of_files(["--usage", *words.split()], pools, used), tuple(wanted)
    for words, reported in WRONG:
        status, output, error = run(program, words.split(), folder)
        yield words, (status, output, error.startswith(b"cidr_merge: " + reported) and USAGE in error), (2, b"", True)
    yield from many_at_once(program, folder)
    for seed in range(300):
        pools, used, numbers = random_case(random.Random(seed))
        texts = lines(pools).decode(), lines(used).decode()
        wanted = places_of(pools, used, numbers)
        none = [number for number, place in zip(numbers, wanted) if place is None]
        end = (1, b"", lacking(*none)) if none else (0, lines(wanted), b"")
        asked = ",".join(map(str, numbers))
        yield f"free --hosts {asked}, seed {seed}", of_files(["--hosts", asked], *texts), end
        yield f"free --usage, seed {seed}", of_files(["--usage"], *texts), (0, "".join(usage_of(pools, used)).encode(), b"")
