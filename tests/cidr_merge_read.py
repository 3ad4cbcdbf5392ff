"""Rows of `tests/cidr_merge` for `--read`, compared with Python's `ipaddress`: a name, what a run gave and what is wanted,
which is the status, standard output and standard error."""

import ipaddress
import os
import random

from cidr_merge_splits import run

FORMS = ("csv", "ipset", "nft")
HEAD = "family,network,first,last\n"
TEN = "IPv4,10.0.0.0/8,10.0.0.0,10.255.255.255\n"
EMPTY = b"the result has no network: see --allow-empty and --at-least\n"
# What other programs and other forms write.
NFT_LIST = "table inet t {\n\tset s_ipv4 {\n\t\ttype ipv4_addr\n\t\tflags interval\n\t\telements = { 10.0.0.0/8,\n\t\t\t     10.1.0.0/16 }\n\t}\n}\n"
IPSET_SAVE = "create s hash:net family inet hashsize 1024 maxelem 65536 bucketsize 12 initval 0x5d4f1a2c\nadd s 10.0.0.0/8\nadd s 192.0.2.7\n"


def refused(*causes):
    """What is reported of the file f, whose lines are refused for these causes, from its first one on; of None nothing is."""
    return "".join(f"f:{at}: refused {cause}\n" for at, cause in enumerate(causes, 1) if cause).encode()


# The words, the file f, the status, standard output and standard error.
ROWS = [
    ("union --read csv f", HEAD + "IPv4,10.0.0.0/8,10.0.0.0,10.255.255.255\nIPv6,::/0,::,ffff:ffff:ffff:ffff:ffff:ffff:ffff:ffff\n", 0, b"10.0.0.0/8\n::/0\n", b""),
    ("union --read csv f", "IPv4,10.0.0.0/8,10.0.0.0,10.255.255.255\r\n" + HEAD, 0, b"10.0.0.0/8\n", b""),
    ("union --read csv f", "10.0.0.0/8\n", 2, b"", refused("format: 10.0.0.0/8")),
    ("union --read csv f", HEAD + "\nIPv6,10.0.0.0/8,10.0.0.0,10.255.255.255\n", 2, b"", refused(None, "format", "format: IPv6,10.0.0.0/8,10.0.0.0,10.255.255.255")),
    ("union --read csv --skip-bad f", "IPv4,10.0.0.0/8,10.0.0.0,10.0.0.255\nIPv4,::1,::1,::1\nIPv6,::1/128,::1,::1\n", 3, b"::1/128\n",
        refused("format: IPv4,10.0.0.0/8,10.0.0.0,10.0.0.255", "format: IPv4,::1,::1,::1")),
    ("union --read csv --strict f", "IPv4,10.0.0.5/8,10.0.0.0,10.255.255.255\n", 2, b"", refused("host bits: IPv4,10.0.0.5/8,10.0.0.0,10.255.255.255")),
    ("union --read csv --whole f", HEAD + "IPv4,10.0.0.0/8,10.0.0.0,10.255.255.255", 2, b"", b"f: no line feed at its end; it may have been cut off\n"),
    ("union --read csv -6 f", HEAD + "IPv4,10.0.0.0/8,10.0.0.0,10.255.255.255\nIPv6,::1/128,::1,::1\n", 0, b"::1/128\n", b""),
    ("union --read csv f", HEAD, 0, b"", b""),
    ("union --read csv f", "", 0, b"", b""),
    ("union --read csv --format nft f", HEAD, 2, b"", EMPTY),
    ("union --read=ipset f", IPSET_SAVE, 0, b"10.0.0.0/8\n192.0.2.7/32\n", b""),
    ("union --read ipset -4 f", "add s 10.0.0.0/9\nadd t_new 10.128.0.0/9\nadd u ::1\n", 0, b"10.0.0.0/8\n", b""),
    ("union --read ipset f", "add s 10.0.0.0/8 nomatch\nadd s 10.0.0.0/8 timeout 60\nadd s\n10.0.0.0/8\nCOMMIT\n\n", 2, b"",
        refused("prefix: add s 10.0.0.0/8 nomatch", "prefix: add s 10.0.0.0/8 timeout 60", "address: add s", "format: 10.0.0.0/8", "format: COMMIT", "format")),
    ("union --read ipset --strict f", "add s 10.0.0.5/8\n", 2, b"", refused("host bits: add s 10.0.0.5/8")),
    ("union --read ipset --format ipset f", "flush s\n", 2, b"", EMPTY),
    ("union --read nft f", "add element inet t s {\n\t10.0.0.0/8,\n\t10.1.0.1\n}\n", 0, b"10.0.0.0/8\n", b""),
    ("union --read nft f", "10.0.0.0/8\n", 2, b"", refused("format: 10.0.0.0/8")),
    ("union --read nft --skip-bad f", "\t10.0.0.0/33,\n\t10.0.0.0/8 }\n\t::1,,\n\t::1\n", 3, b"::1/128\n",
        refused("prefix: \t10.0.0.0/33,", "prefix: \t10.0.0.0/8 }", "address: \t::1,,")),
    ("union --read nft f", NFT_LIST, 2, b"", refused("format: table inet t {", "address: \tset s_ipv4 {", "address: \t\ttype ipv4_addr", "address: \t\tflags interval",
        "address: \t\telements = { 10.0.0.0/8,", "address: \t\t\t     10.1.0.0/16 }", "address: \t}")),
    ("union --read nft f", "add element inet t s { 10.0.0.0/8 }\n", 2, b"", refused("format: add element inet t s { 10.0.0.0/8 }")),
    ("union --read nft --strict f", "\t10.0.0.5/8,\n", 2, b"", refused("host bits: \t10.0.0.5/8,")),
    ("union --read nft --format nft f", "add table inet t\n", 2, b"", EMPTY),
    ("split --read nft --prefix 9 f", "\t10.0.0.0/8\n", 0, b"10.0.0.0/9\n10.128.0.0/9\n", b""),
    ("list --read nft f", "\t10.0.0.0/31\n", 0, b"10.0.0.0\n10.0.0.1\n", b""),
    ("reduce 1 --read nft f", "\t10.0.0.0/32,\n\t10.0.0.1/32\n", 0, b"10.0.0.0/31\n", b"0 other addresses of IPv4, 0 of IPv6\n"),
    ("free --read nft --prefix 9 f -- g", "\t10.0.0.0/8\n", 0, b"10.128.0.0/9\n", b""),
    ("differ --read nft f -- g", "\t10.0.0.0/8\n", 1, b"< 10.128.0.0/9\n", b""),
    ("common --read nft f -- g", "\t10.0.0.0/8\n", 0, b"10.0.0.0/9\n", b""),
    ("minus --read nft f -- g", "\t10.0.0.0/8\n", 0, b"10.128.0.0/9\n", b""),
    ("check --read csv f", HEAD + TEN + "10.0.0.0/8\n\nIPv6,::1/128,::1,::2\n", 1, refused(None, None, "format: 10.0.0.0/8", "format", "format: IPv6,::1/128,::1,::2"), b""),
    # A line of CSV that was cut is no line of CSV, and one that has its last address is not cut.
    ("check --read csv f", HEAD + "IPv6,::1/128,::1,::1", 0, b"", b""),
    ("check --read csv f", HEAD + "IPv6,::1/128,::1,::", 1, refused(None, "format: IPv6,::1/128,::1,::"), b""),
    ("check --read csv --whole f", HEAD + "IPv6,::1/128,::1,::1", 2, b"", b"f: no line feed at its end; it may have been cut off\n"),
    ("check --strict --read csv f", "IPv4,10.0.0.5/8,10.0.0.0,10.255.255.255\n" + TEN, 1,
        b"f:1: host bits: IPv4,10.0.0.5/8,10.0.0.0,10.255.255.255\nf:2: same as f:1\n", b""),
    ("check --read ipset f", IPSET_SAVE, 0, b"", b""),
    ("check --read ipset f", "add s 10.0.0.1 # old\n10.0.0.0/8\n# add s ::1\n", 1, refused("address: add s 10.0.0.1 # old", "format: 10.0.0.0/8", "format: # add s ::1"), b""),
    ("check --read ipset f", "add s 10.0.0.0/8\nadd s#1 10.0.0.1", 1, b"f:2: no line feed at the end: may be cut off: add s#1 10.0.0.1\n", b""),
    ("check --read ipset f", "add s 10.0.0.0/8\nadd s 10.0.0.1 ", 0, b"", b""),
    ("check --read ipset f", "add s 10.0.0.0/8\nadd s", 1, refused(None, "address: add s"), b""),
    ("check --read ipset f", "add s 10.0.0.0/8\nswap s t", 0, b"", b""),
    ("check --strict --read ipset f", "add s 10.0.0.5/8\nadd t 10.0.0.1", 1,
        b"f:1: host bits: add s 10.0.0.5/8\nf:2: no line feed at the end: may be cut off: add t 10.0.0.1\nf:2: in f:1\n", b""),
    ("check --read nft f", NFT_LIST, 1, refused("format: table inet t {", "address: \tset s_ipv4 {", "address: \t\ttype ipv4_addr", "address: \t\tflags interval",
        "address: \t\telements = { 10.0.0.0/8,", "address: \t\t\t     10.1.0.0/16 }", "address: \t}"), b""),
    ("check --read nft f", "add element inet t s {\n\t10.0.0.0/8,\n\t10.0.0.1", 1, b"f:3: no line feed at the end: may be cut off: \t10.0.0.1\n", b""),
    ("check --read nft f", "add element inet t s {\n\t10.0.0.0/8,\n\t10.0.0.1,", 0, b"", b""),
    ("check --read nft f", "add element inet t s {\n\t10.0.0.0/8,\n\t10.0.0.1\n}", 0, b"", b""),
    ("check --strict --read nft f g", "\t10.0.0.5/8,\n", 1, b"f:1: host bits: \t10.0.0.5/8,\ng:1: in f:1\n", b""),
    ("overlaps --read csv f", TEN + HEAD + TEN + "x\n", 1, refused(None, None, None, "format: x") + b"f:3: same as f:1\n", b""),
    ("overlaps --read ipset f", "add s 10.0.0.0-10.0.0.9\nadd t 10.0.0.9-10.0.0.20", 1, b"f:2: overlaps f:1\n", b""),
    ("overlaps --read nft f g", "\t10.0.0.0/8,\n\t::1\n", 1, b"g:1: in f:1\n", b""),
    ("find 10.0.0.0/9 --read csv -- f", HEAD + TEN, 0, b"f:2: has all of 10.0.0.0/9: " + TEN.encode(), b""),
    ("find ::1 --read csv -- f", HEAD + TEN, 1, b"", b""),
    ("find 10.1.2.3 --read ipset -- f", IPSET_SAVE, 0, b"f:2: has 10.1.2.3: add s 10.0.0.0/8\n", b""),
    ("find 10.1.2.3 --read nft -- f g", "\t10.0.0.0/8,\n10.0.0.0/8\n", 2, b"f:1: has 10.1.2.3: \t10.0.0.0/8,\ng:1: has 10.1.2.3: \t10.0.0.0/9\n", refused(None, "format: 10.0.0.0/8")),
    ("overlaps --read csv --strict f", "IPv4,10.0.0.5/8,10.0.0.0,10.255.255.255\n" + TEN + TEN, 1,
        refused("host bits: IPv4,10.0.0.5/8,10.0.0.0,10.255.255.255") + b"f:3: same as f:2\n", b""),
    ("find 10.1.2.3 --strict --read ipset -- f", "add s 10.0.0.5/8\nadd s 10.1.2.3\n", 2, b"f:2: has 10.1.2.3: add s 10.1.2.3\n", refused("host bits: add s 10.0.0.5/8")),
    # `--masks` is no option here, so that no line is said to be taken with it.
    ("union --read nft f", "\t10.0.0.0 255.0.0.0\n", 2, b"", refused("address: \t10.0.0.0 255.0.0.0 (write 10.0.0.0/8)")),
    ("split --prefix 9 --read nft f", "\t10.0.0.0 255.0.0.0\n", 2, b"", refused("address: \t10.0.0.0 255.0.0.0 (write 10.0.0.0/8)")),
    ("reduce 1 --read nft f", "\t10.0.0.0\t255.0.0.0\n", 2, b"", refused("address: \t10.0.0.0\t255.0.0.0")),
    ("free --prefix 9 --read nft f -- g", "\t10.0.0.0 0.255.255.255\n", 2, b"", refused("address: \t10.0.0.0 0.255.255.255 (write 10.0.0.0/8)")),
    # The lists of `--from` are plain.
    ("find --from g --read nft -- f", "\t10.0.0.0/8\n", 0, b"f:1: has all of 10.0.0.0/9: \t10.0.0.0/8\n", b""),
]

# Words that are refused, with what is reported of them.
WRONG = [
    ("union --read json f", b"--read: json: not a form that is read; these are csv, ipset and nft"),
    ("union --read plain f", b"--read: plain: not a form that is read; these are csv, ipset and nft"),
    ("union --read f", b"--read: f: not a form that is read; these are csv, ipset and nft"),
    ("union f --read", b"--read: no value after it"),
    ("union --read csv --read csv f", b"--read: given twice"),
    ("union --read csv --json f", b"--read: not together with --json"),
    ("union --json-field a --read csv f", b"--read: not together with --json-field"),
    ("union --masks --read csv f", b"--read: not together with --masks"),
    ("minus --read csv f -- -e ::1", b"--read: not together with -e"),
    ("check --read plain f", b"--read: plain: not a form that is read; these are csv, ipset and nft"),
    ("overlaps --read csv -e ::1", b"--read: not together with -e"),
    ("find ::1 --read csv -- f --read nft", b"--read: given twice"),
]


def random_nets(rng):
    """Networks of both families of which none lies in another, those of all addresses and the last ones too."""
    nets = []
    for kind, bits in ((ipaddress.IPv4Network, 32), (ipaddress.IPv6Network, 128)):
        some = []
        for _ in range(rng.choice((0, 1, 5, 200))):
            length = rng.choice((0, 1, bits, bits, rng.randrange(bits + 1)))
            some.append(kind((rng.choice((0, 2**bits - 1, rng.getrandbits(bits))), length), strict=False))
        nets += ipaddress.collapse_addresses(some)
    return nets


def read_back(program, folder):
    """Lists as they are printed in each form, which are read back, and are refused in each other one."""
    for words, text, *wanted in ROWS:
        for name, data in (("f", text), ("g", "\t10.0.0.0/9\n")):
            with open(os.path.join(folder, name), "w") as file:
                file.write(data)
        yield f"{words} {text!r}", run(program, words.split(), folder), tuple(wanted)
    for words, reported in WRONG:
        status, output, error = run(program, words.split(), folder)
        yield words, (status, output, error.startswith(b"cidr_merge: " + reported)), (2, b"", True)
    for seed in range(100):
        rng = random.Random(seed)
        lines = "".join(f"{net}\n" for net in random_nets(rng)).encode()
        names = rng.choice(([], ["--set", "a.B-9_z"]))
        for form in FORMS:
            own = [*names, *(["--table", "t-1"] if names and form == "nft" else [])] if form != "csv" else []
            asked = ["union", "--allow-empty", "--format", form, *own, "-"]
            printed = run(program, asked, folder, lines)
            yield f"{' '.join(asked)}, seed {seed}", (printed[0], printed[2]), (0, b"")
            for read in FORMS:
                asked = ["union", "--read", read, "--strict", "--whole", "-"]
                got = run(program, asked, folder, printed[1])
                looked = ["check", "--read", read, "--strict", "--whole", "-"]
                seen = run(program, looked, folder, printed[1])
                yield f"{' '.join(looked)} of {form}, seed {seed}", (seen[0], seen[2]), (read != form, b"")
                if read == form:
                    yield f"{' '.join(asked)}, seed {seed}", got, (0, lines, b"")
                else:
                    yield f"{' '.join(asked)} of {form}, seed {seed}", got[:2], (2, b"")
        for form in FORMS if lines else ():
            got = run(program, ["union", "--read", form, "-"], folder, lines)
            yield f"union --read {form} of plain lines, seed {seed}", got[:2], (2, b"")
