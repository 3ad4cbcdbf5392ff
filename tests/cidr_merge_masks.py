"""Rows of `tests/cidr_merge` for `--masks` of `check`, `overlaps` and `find`, compared with Python's `ipaddress`: a name, what a
run gave and what is wanted, which is the status, standard output and standard error."""

import ipaddress
import os
import random
import re

from cidr_merge_finds import KINDS, cause, reported, run, some_address, some_line, some_sought
from cidr_merge_overlaps import has_host_bits, one_each, pairs

# A comment that begins with an entry of two words, which is one only if masks are taken.
SECOND = " # 10.0.0.0 255.0.0.0"
BOTH = "0.0.0.0", "255.255.255.255"
CUT = "no line feed at the end: may be cut off"
ADVICE = " (--masks takes a mask or wildcard after an address)"


def refused(*causes):
    """What is printed of the file f, whose lines are refused for these causes, from its first one on; of None nothing is."""
    return "".join(f"f:{at}: refused {cause}\n" for at, cause in enumerate(causes, 1) if cause).encode()


# The words, the file f, the status, standard output and standard error. The file g has 10.0.0.0/9 and 2001:db8::/32.
ROWS = [
    ("check --masks f", "10.0.0.0 255.0.0.0\n11.0.0.0\t0.255.255.255 # x\n::1\n10.0.0.5 0.0.0.0\n", 0, b"", b""),
    ("check f", "10.0.0.0 255.0.0.0\n::1\n", 1, refused("address: 10.0.0.0 255.0.0.0"), b""),
    ("check --masks f", "10.0.0.0 255.0.255.0\n0.0.0.0 0.0.0.0\n0.0.0.0 255.255.255.255\n::1 ffff::\n::1 255.0.0.0\n10.0.0.0 255.0.0.0 x\n", 1,
        refused("address: 10.0.0.0 255.0.255.0", "mask or wildcard: 0.0.0.0 0.0.0.0", "mask or wildcard: 0.0.0.0 255.255.255.255", "address: ::1 ffff::",
        "address: ::1 255.0.0.0", "address: 10.0.0.0 255.0.0.0 x"), b""),
    # A comment with two words is an entry where masks are taken, and no other may be in the line.
    ("check --masks f", "::/8; 10.1.0.0 0.0.255.255\n10.0.0.0 255.0.0.0 # ::1\n::1 # 0.0.0.0 0.0.0.0\n", 1,
        refused("second entry: ::/8; 10.1.0.0 0.0.255.255", "second entry: 10.0.0.0 255.0.0.0 # ::1", "second entry: ::1 # 0.0.0.0 0.0.0.0"), b""),
    ("check f", "::/8; 10.1.0.0 0.0.255.255\n::1 # 0.0.0.0 0.0.0.0\n", 0, b"", b""),
    ("check --strict --masks f", "10.0.0.5 255.0.0.0\n2001:db8::1/32\n10.0.0.0/8\n2001:db8::/33\n", 1,
        b"f:1: host bits: 10.0.0.5 255.0.0.0\nf:2: host bits: 2001:db8::1/32\nf:3: same as f:1\nf:4: in f:2\n", b""),
    ("check --masks --whole f", "10.0.0.0 255.0.0.0", 2, b"", b"f: no line feed at its end; it may have been cut off\n"),
    ("overlaps --masks f g", "10.0.0.0 255.0.0.0\n2001:db8::/16\n10.5.0.0 0.0.255.255\n", 1, b"g:1: in f:1\nf:3: in f:1\nf:3: in g:1\ng:2: in f:2\n", b""),
    ("overlaps f g", "10.0.0.0 255.0.0.0\n2001:db8::/16\n", 1, refused("address: 10.0.0.0 255.0.0.0") + b"g:2: in f:2\n", b""),
    ("overlaps --masks f", "::1\n10.0.0.0 255.0.0.0", 0, b"", b""),
    ("find 10.0.0.9 ::1 --masks -- f", "10.0.0.0 0.0.0.255\n::/0\n10.0.0.9 255.255.255.255\n", 0,
        b"f:1: has 10.0.0.9: 10.0.0.0 0.0.0.255\nf:2: has ::1: ::/0\nf:3: has 10.0.0.9: 10.0.0.9 255.255.255.255\n", b""),
    ("find 10.0.0.9 ::1 -- f", "10.0.0.0 0.0.0.255\n::/0\n", 2, b"f:2: has ::1: ::/0\n", refused("address: 10.0.0.0 0.0.0.255 (write 10.0.0.0/24)")),
    ("find 10.0.0.0/9 --masks --whole -- f", "10.0.0.0 255.0.0.0", 2, b"", b"f: no line feed at its end; it may have been cut off\n"),
    ("find 10.0.0.0/9 --masks -- f", "0.0.0.0 0.0.0.0\n10.0.0.0 255.0.0.0", 2, b"f:2: has all of 10.0.0.0/9: 10.0.0.0 255.0.0.0\n",
        refused("mask or wildcard: 0.0.0.0 0.0.0.0")),
    ("overlaps --masks --strict f g", "10.0.0.5 255.0.0.0\n10.0.0.5 255.255.255.255\n10.0.0.0 255.0.0.0 # x\n", 1, refused("host bits: 10.0.0.5 255.0.0.0") + b"g:1: in f:3\nf:2: in f:3\nf:2: in g:1\n", b""),
    ("find 10.0.0.9 --masks --strict -- f", "10.0.0.5 255.0.0.0\n10.0.0.0 255.0.0.0\n", 2, b"f:2: has 10.0.0.9: 10.0.0.0 255.0.0.0\n", refused("host bits: 10.0.0.5 255.0.0.0")),
    # What takes `--masks`, and is read without it.
    ("split --prefix 9 f", "10.0.0.0 255.0.0.0\n", 2, b"", refused("address: 10.0.0.0 255.0.0.0 (write 10.0.0.0/8)" + ADVICE)),
    ("reduce 1 f", "10.0.0.0 255.0.0.0\n", 2, b"", refused("address: 10.0.0.0 255.0.0.0 (write 10.0.0.0/8)" + ADVICE)),
    ("free --prefix 9 f -- g", "10.0.0.0 255.0.0.0\n", 2, b"", refused("address: 10.0.0.0 255.0.0.0 (write 10.0.0.0/8)" + ADVICE)),
    # The lists of `--from` have no masks.
    ("find --from g --masks -- f", "10.0.0.0 255.0.0.0\n2001:db8::/16\n", 0, b"f:1: has all of 10.0.0.0/9: 10.0.0.0 255.0.0.0\nf:2: has all of 2001:db8::/32: 2001:db8::/16\n", b""),
    ("find --from f --masks -- g", "10.0.0.0 255.0.0.0\n2001:db8::\n", 2, b"g:2: has 2001:db8::: 2001:db8::/32\n", refused("address: 10.0.0.0 255.0.0.0 (write 10.0.0.0/8)")),
]

# Last lines that no line feed ends, and of each whether it may go on, with masks and without.
LAST = [
    ("10.0.0.0", True, True),
    (" 10.0.0.0", True, True),
    # After a blank an address may get its mask.
    ("10.0.0.0 ", True, False),
    ("10.0.0.0 \t", True, False),
    ("0.0.0.0 ", True, False),
    ("10.0.0.0/8 ", False, False),
    ("10.0.0.0/255.0.0.0 ", False, False),
    ("10.0.0.0-10.0.0.9 ", False, False),
    ("10.0.0.0 - 10.0.0.9 ", False, False),
    ("10.0.0.0 - 10.0.0.9", True, True),
    ("::1 ", False, False),
    ("::ffff:10.0.0.0 ", False, False),
    ("::1", True, True),
    ("10.0.0.0 #", False, False),
    ("10.0.0.0;", False, False),
    ("# 10.0.0.0 ", False, False),
    (" ", False, False),
]

# The same of entries of two words: a mask that was cut is none, or another one.
LAST_OF_TWO = [
    ("10.0.0.0 0.0.0.1", True),
    ("10.0.0.0 \t255.0.0.0", True),
    ("10.0.0.0 255.0.0.0 ", False),
    ("10.0.0.0 255.0.0.0#", False),
    ("10.0.0.0 255.0.0.0 # x", False),
]

# Words that are refused, with what is reported of them.
WRONG = [
    ("check --masks --read csv f", b"--read: not together with --masks"),
    ("overlaps --read ipset --masks f", b"--read: not together with --masks"),
    ("find ::1 --masks -- f --read nft", b"--read: not together with --masks"),
    ("check --masks --json f", b"--json: not an option of check; it takes -e TEXT, --strict, --whole, --masks and --read FORM"),
    ("overlaps --masks --json f", b"--json: not an option of overlaps; it takes -e TEXT, --strict, --whole, --masks and --read FORM"),
    ("find ::1 --masks --json -- f", b"--json: not an option of find; it takes -e TEXT, --from FILE, --strict, --whole, --masks and --read FORM"),
    ("check --masks=yes f", b"--masks=yes: not an option of check; it takes -e TEXT, --strict, --whole, --masks and --read FORM"),
    ("check --masks", b"check: no FILE; - is standard input"),
]


def masked(dice):
    """A line with an IPv4 address and a mask or wildcard, its network, and whether it has host bits; or `False` if it is
    wrong or may mean two."""
    address = some_address(dice)
    while address.version != 4:
        address = some_address(dice)
    net = ipaddress.ip_network(f"{address}/{dice.randrange(33)}", strict=False)
    number = str(dice.choice((net.netmask, net.hostmask)))
    if number in BOTH:
        net = ipaddress.ip_network(address) if int(address) else False
    elif dice.randrange(8) == 0:
        number, net = str(KINDS[4](int(net.netmask) ^ 5 << 8)), False
    line = dice.choice(("", "\t")) + f"{address}{dice.choice((' ', '  ', chr(9)))}{number}{dice.choice(('', ' ', ' # x', ';'))}"
    return line, net and (net[0], net[-1]), net and net[0] != address


def why(line):
    """Why a wrong line of `masked` is refused."""
    return "mask or wildcard" if line.split()[0] == "0.0.0.0" and line.split("#")[0].split(";")[0].split()[1] in BOTH else "address"


def some_lines(dice):
    """Lines, and of each its ends as `some_line` has them, its cause if it is wrong, and whether it has host bits."""
    for _ in range(dice.randrange(40)):
        if dice.randrange(2):
            line, ends, host_bits = masked(dice)
            yield line, ends, ends is False and why(line), host_bits
        else:
            line, ends = some_line(dice)
            # An address twice may be one and its wildcard.
            while re.fullmatch(r"([\d.]+) \1", line):
                line, ends = some_line(dice)
            if ends and dice.randrange(6) == 0 and "#" not in line and ";" not in line:
                yield line + SECOND, False, "second entry", False
            else:
                yield line, ends, ends is False and cause(line), bool(ends) and has_host_bits(line)


def random_lists(program, folder):
    """Random lists with masks and others, which are inspected and searched."""
    for seed in range(200):
        dice = random.Random(seed)
        names = ["one", "two", "three"][: dice.randrange(1, 4)]
        sought = [some_sought(dice) for _ in range(dice.randrange(1, 6))]
        entries, wrong, strictly, found = [], "", "", ""
        for name in names:
            lines = list(some_lines(dice))
            with open(os.path.join(folder, name), "w", newline="") as file:
                file.write("".join(line + dice.choice(("\n", "\r\n")) for line, *_ in lines))
            for number, (line, ends, fault, host_bits) in enumerate(lines, 1):
                place = f"{name}:{number}"
                if fault:
                    wrong += f"{place}: refused {fault}: {line}\n"
                    strictly += f"{place}: refused {fault}: {line}\n"
                elif ends:
                    strictly += f"{place}: host bits: {line}\n" if host_bits else ""
                    words = [reported(ends, *one) for one in sought]
                    found += "".join(f"{place}: {word}: {line}\n" for word in words if word)
                    entries.append((place, ends, len(entries)))
        for words, wanted in (
            (["check"], wrong),
            (["check", "--strict"], strictly + "".join(one_each(entries))),
            (["overlaps"], wrong + "".join(pairs(entries))),
        ):
            yield f"{' '.join(words)} --masks, seed {seed}", run(program, [*words, "--masks", *names], folder), (1 if wanted else 0, wanted.encode(), b"")
        words = ["find", *(text for text, _ in sought), "--masks", "--", *names]
        yield f"find --masks, seed {seed}", run(program, words, folder), (2 if wrong else 0 if found else 1, found.encode(), wrong.encode())


def masks(program, folder):
    """Lists whose entries may have a mask or wildcard as a second word."""
    with open(os.path.join(folder, "g"), "w") as file:
        file.write("10.0.0.0/9\n2001:db8::/32\n")
    for words, text, *wanted in ROWS:
        with open(os.path.join(folder, "f"), "w") as file:
            file.write(text)
        yield f"{words} {text!r}", run(program, words.split(), folder), tuple(wanted)
    for line, with_masks, without in [*LAST, *((line, may, None) for line, may in LAST_OF_TWO)]:
        with open(os.path.join(folder, "f"), "w") as file:
            file.write("::2\n" + line)
        told = f"f:2: {CUT}: {line}\n".encode()
        for option, may in (["--masks"], with_masks), ([], without):
            if may is not None:
                yield f"check {option} {line!r}", run(program, ["check", *option, "f"], folder), (int(may), told if may else b"", b"")
    with open(os.path.join(folder, "f"), "w") as file:
        file.write("10.0.0.0 255.0.0")
    yield "check --masks of a part of a mask", run(program, ["check", "--masks", "f"], folder), (1, b"f:1: refused address: 10.0.0.0 255.0.0\n", b"")
    two = ["-e", "10.0.0.0 255.0.0.0", "-e", "10.1.0.0 0.0.0.255 "]
    yield "texts with masks", run(program, ["check", "--masks", *two], folder), (0, b"", b"")
    yield "texts that overlap", run(program, ["overlaps", "--masks", *two], folder), (1, b"-e 10.1.0.0 0.0.0.255 :1: in -e 10.0.0.0 255.0.0.0:1\n", b"")
    for words, told in WRONG:
        status, output, error = run(program, words.split(), folder)
        yield words, (status, output, error.startswith(b"cidr_merge: " + told)), (2, b"", True)
    yield from random_lists(program, folder)
