"""Rows of `tests/cidr_merge` for `overlaps`, compared with Python's `ipaddress`: a name, what a run gave and what is wanted,
which is the status, standard output and standard error."""

import ipaddress
import os
import random

from cidr_merge_finds import cause, run, some_line


def relation(later, earlier):
    """What the later of two entries that overlap is to the earlier."""
    if later == earlier:
        return "same as"
    return "in" if later[1] <= earlier[1] else "overlaps"


def pairs(entries):
    """The lines of all pairs of these entries that overlap, found by comparing each with each."""
    order = sorted(entries, key=lambda it: (it[1][0].version, it[1][0], -int(it[1][1]), it[2]))
    for at, (place, ends, _) in enumerate(order):
        for other, wider, _ in order[:at]:
            if wider[0].version == ends[0].version and ends[0] <= wider[1]:
                yield f"{place}: {relation(ends, wider)} {other}\n"


def one_each(entries):
    """A line of each of these entries that overlaps an earlier one: the one before it, if the same, or the furthest."""
    order = sorted(entries, key=lambda it: (it[1][0].version, it[1][0], -int(it[1][1]), it[2]))
    for at, (place, ends, _) in enumerate(order):
        before = [it for it in order[:at] if it[1][0].version == ends[0].version]
        if not before:
            continue
        last = max(it[1][1] for it in before)
        other = before[-1] if before[-1][1] == ends else next(it for it in before if it[1][1] == last)
        if ends[0] <= other[1][1]:
            yield f"{place}: {relation(ends, other[1])} {other[0]}\n"


def has_host_bits(line):
    """Whether the entry of a line is a network that `ipaddress` refuses for its host bits."""
    text = line.split("#")[0].split(";")[0].strip()
    try:
        ipaddress.ip_network(text)
    except ValueError as error:
        return str(error).endswith("has host bits set")
    return False


def overlaps(program, folder):
    """Random lists, with many entries that overlap and with few."""
    for seed in range(200):
        dice = random.Random(seed)
        wanted = strictly = refusing = ""
        entries, allowed = [], []
        names = ["one", "two", "three"][: dice.randrange(1, 4)]
        for name in names:
            lines = [some_line(dice) for _ in range(dice.choice((0, 3, 30)))]
            with open(os.path.join(folder, name), "w", newline="") as file:
                file.write("".join(line + dice.choice(("\n", "\r\n")) for line, _ in lines))
            for number, (line, ends) in enumerate(lines, 1):
                if ends is False:
                    wanted += f"{name}:{number}: refused {cause(line)}: {line}\n"
                    strictly += f"{name}:{number}: refused {cause(line)}: {line}\n"
                    refusing += f"{name}:{number}: refused {cause(line)}: {line}\n"
                elif ends:
                    entries.append((f"{name}:{number}", ends, len(entries)))
                    if has_host_bits(line):
                        strictly += f"{name}:{number}: host bits: {line}\n"
                        refusing += f"{name}:{number}: refused host bits: {line}\n"
                    else:
                        allowed.append(entries[-1])
        reported = wanted + "".join(pairs(entries))
        yield f"overlaps, seed {seed}", run(program, ["overlaps", *names], folder), (1 if reported else 0, reported.encode(), b"")
        reported = refusing + "".join(pairs(allowed))
        words = ["overlaps", "--strict", *names]
        yield f"overlaps --strict, seed {seed}", run(program, words, folder), (1 if reported else 0, reported.encode(), b"")
        reported = strictly + "".join(one_each(entries))
        words = ["check", "--strict", *names]
        yield f"check --strict, seed {seed}", run(program, words, folder), (1 if reported else 0, reported.encode(), b"")
    lines = "".join(f"10.{n >> 16}.{n >> 8 & 255}.{n & 255}\n" for n in range(300000))
    with open(os.path.join(folder, "one"), "w") as file:
        file.write(lines + "10.0.0.0/32\n")
    wanted = (1, b"one:300001: same as one:1\n", b"")
    yield "overlaps of 300,000 addresses", run(program, ["overlaps", "one"], folder), wanted
    with open(os.path.join(folder, "one"), "w") as file:
        file.write("10.0.0.0/8\n" * 300000)
    lines = "".join(f"one:{n + 1}: same as one:{n}\n" for n in range(1, 300000))
    yield "300,000 times the same", run(program, ["check", "--strict", "one"], folder), (1, lines.encode(), b"")
