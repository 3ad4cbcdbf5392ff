"""Rows of `tests/cidr_merge` for `find`, compared with Python's `ipaddress`: a name, what a run gave and what is wanted, which
is the status, standard output and standard error."""

import ipaddress
import os
import random
import re
import subprocess

import limits

# A comment that begins with an entry, which is refused after another.
SECOND = " ;# 10.0.0.1"
KINDS = {4: ipaddress.IPv4Address, 6: ipaddress.IPv6Address}


def run(program, words, folder):
    pipes = {"stdout": subprocess.PIPE, "stderr": subprocess.PIPE}
    done = limits.run([program, *words], input=b"", cwd=folder, **pipes)
    return done.returncode, done.stdout, done.stderr


def some_address(dice):
    """An address of either family, close to others or at an end."""
    version = dice.choice((4, 6))
    bits = KINDS[version](0).max_prefixlen
    near = dice.choice((0, 2**bits - 256, 2 ** (bits - 1) - 128, 10 << (bits - 8)))
    return KINDS[version](near + dice.randrange(256))


def some_line(dice):
    """A line of a list, and the first and last address of its entry; nothing if it has none, `False` if it is wrong."""
    address = some_address(dice)
    kind = dice.randrange(8)
    if kind == 0:
        return dice.choice(("", " \t", "# 10.0.0.1", ";")), None
    if kind == 1:
        return dice.choice((f"{address}.", f"{address}/", f"{address}/1/2", "x", f"{address} {address}")), False
    ends = address, address
    text = str(address)
    if kind < 5:
        net = ipaddress.ip_network(f"{address}/{dice.randrange(address.max_prefixlen + 1)}", strict=False)
        ends = net[0], net[-1]
        text = f"{address}/{net.prefixlen}"
    elif kind < 7:
        last = KINDS[address.version](min(int(address) + dice.randrange(64), 2**address.max_prefixlen - 1))
        ends = address, last
        text = f"{address}{dice.choice(('-', ' - '))}{last}"
    after = dice.choice(("", "\t", " # was 10.0.0.1", ";x", SECOND))
    return dice.choice(("", " ")) + text + after, False if after == SECOND else ends


def some_sought(dice):
    """The text of an address or of a network without host bits, and its network."""
    address = some_address(dice)
    if dice.randrange(2):
        return str(address), ipaddress.ip_network(address)
    net = ipaddress.ip_network(f"{address}/{dice.randrange(address.max_prefixlen + 1)}", strict=False)
    return str(net), net


def reported(ends, text, net):
    """What is printed of an entry with these ends for the text of a network: nothing if they share no address."""
    if ends[0].version != net.version or ends[1] < net[0] or net[-1] < ends[0]:
        return None
    if ends[0] <= net[0] and net[-1] <= ends[1]:
        return f"has all of {text}" if "/" in text else f"has {text}"
    return f"{'lies in' if net[0] <= ends[0] and ends[1] <= net[-1] else 'meets'} {text}"


def cause(line):
    """Why a wrong line is refused."""
    if line.endswith(SECOND):
        return "second entry"
    address = line.split("/")[0]
    if line.count("/") > 1:
        return "format"
    return "prefix" if line.endswith("/") and address[-1] != " " else "address"


def finds(program, folder):
    """Random lists that are searched for random addresses and networks, of words and of a file."""
    for seed in range(200):
        dice = random.Random(seed)
        sought = [some_sought(dice) for _ in range(dice.choice((dice.randrange(1, 6), dice.randrange(1, 300))))]
        output = error = ""
        names = ["one", "two", "three"][: dice.randrange(1, 4)]
        for name in names:
            lines = [some_line(dice) for _ in range(dice.randrange(30))]
            with open(os.path.join(folder, name), "w", newline="") as file:
                file.write("".join(line + dice.choice(("\n", "\r\n")) for line, _ in lines))
            for number, (line, ends) in enumerate(lines, 1):
                if ends is False:
                    error += f"{name}:{number}: refused {cause(line)}: {line}\n"
                elif ends:
                    words = [reported(ends, *one) for one in sought]
                    output += "".join(f"{name}:{number}: {word}: {line}\n" for word in words if word)
        cut = dice.randrange(len(sought) + 1)
        with open(os.path.join(folder, "sought"), "w") as file:
            file.write("".join(f"{text}\n" for text, _ in sought[cut:]))
        words = ["find", *(text for text, _ in sought[:cut]), *(["--from", "sought"] if cut < len(sought) else []), "--", *names]
        status = 2 if error else 0 if output else 1
        got = run(program, words, folder)
        without_advice = re.sub(rb" \(write [^)\n]*\)$", b"", got[2], flags=re.M)
        yield f"find, seed {seed}", (*got[:2], without_advice), (status, output.encode(), error.encode())


def in_one_block(count):
    """So many networks of two addresses, and addresses, within one /64, of which no network has one."""
    nets = [f"{ipaddress.IPv6Address((0x20010DB8 << 96) + 2 * n)}/127" for n in range(count)]
    return nets, [str(ipaddress.IPv6Address((0x20010DB8 << 96) + (1 << 40) + n)) for n in range(count // 5)], 0


def with_many_each(count):
    """So many networks that have the same 65 of ten times as many addresses."""
    return ["10.0.0.0/25"] * count, [f"10.{n >> 16}.{n >> 8 & 255}.{n & 255}" for n in range(63, 63 + 10 * count)], 65


def nested(count):
    """So many addresses, each in 17 of networks of /1 to /32 that are nested, and as many others of these, many times, which
    begin before the addresses and end before them too."""
    chain = [str(ipaddress.ip_network((0xAAAAAAAA, length), strict=False)) for length in range(1, 33)]
    return [f"170.170.255.{n % 256}" for n in range(count)], chain[:17] + chain[17:] * (count // 15), 17


def growth(program, folder):
    """A search takes time in proportion to entries and networks and to what it prints, not to entries times networks."""
    for make, least in ((in_one_block, 3125), (with_many_each, 250), (nested, 3125)):
        for size in (least, limits.GROWTH * least):
            nets, addresses, each = make(size)
            for name, lines in (("nets", nets), ("addresses", addresses)):
                with open(os.path.join(folder, f"{name} {size}"), "w") as file:
                    file.write("".join(f"{line}\n" for line in lines))
            status, output, error = found(program, folder, size)
            got = (status, output.count(b"\n"), error)
            yield f"find, {make.__name__}, {size}", got, (0 if each else 1, each * size, b"")
        well, taken = limits.is_proportional(lambda size: found(program, folder, size), least)
        yield f"find, {make.__name__}, in proportion: {taken}", well, True


def found(program, folder, size):
    return run(program, ["find", "--from", f"addresses {size}", "--", f"nets {size}"], folder)
