"""Rows of `tests/cidr_filter` over inputs of every kind: each byte, each prefix length, short reads, a
log in parts. Each function yields a name, whether the row is as it should be, and what was got."""

import contextlib
import fcntl
import ipaddress
import itertools
import os
import random
import shutil
import subprocess

import limits
import unaddressed

# The size of a line, the smaller of two, by the bytes that a read of it gets.
SIZES = {64: 62500, 1: 30000}
# Of the interface of Linux; Python has this name from 3.10 on.
F_SETPIPE_SZ = 1031
HERE = os.path.dirname(os.path.dirname(os.path.abspath(__file__)))
IN_PARTS = os.path.join(HERE, "examples", "cidr_filter", "in_parts.sh")
PIPES = {"stdout": subprocess.PIPE, "stderr": subprocess.PIPE}


def lacking(place, count=""):
    """What is reported about standard input with lines of which none has an address there, or so many."""
    return f"cidr_filter: -: no line has {f'{count} addresses' if count.isdigit() else 'an address'} {place}\n".encode()


def run(words, given, folder, **others):
    got = unaddressed.run(words, input=given, cwd=folder, **PIPES, **others)
    return got.stdout, got.stderr, got.returncode


def of_a_line(program, folder, size, step):
    """Whether a run prints a line of `size` bytes without an end, of which each read gets `step` bytes:
    a read of a pipe in packet mode gets what one write wrote. The pipe holds as much as it may, so that
    the two take turns seldom, which takes long on a busy machine."""
    reader, writer = os.pipe2(os.O_DIRECT)
    with contextlib.suppress(OSError):
        fcntl.fcntl(writer, F_SETPIPE_SZ, 1 << 20)
    with limits.started([program, "-f", "list"], cwd=folder, stdin=reader, **PIPES) as running:
        os.close(reader)
        try:
            for at in range(0, size, step):
                os.write(writer, b"10.0.0.1 "[at : at + step].ljust(step, b"x"))
        except BrokenPipeError:
            pass
        os.close(writer)
        output = limits.finish(running)[0]
    return output == b"10.0.0.1 ".ljust(-(-size // step) * step, b"x") + b"\n"


def growth(program, folder):
    """A line that does not end takes time in proportion to its length, however short the reads are."""
    for step, size in SIZES.items():
        prints = []
        well, taken = limits.is_proportional(lambda of: prints.append(of_a_line(program, folder, of, step)), size)
        yield f"a line without an end, {step} bytes a read", well and all(prints), taken


def named(line):
    """What a line of a list names: a network, or None for no entry. A ValueError is a refusal."""
    text = line.removesuffix(b"\r").split(b"#")[0].split(b";")[0].strip(b" \t").decode("latin-1")
    return ipaddress.ip_network(text, strict=False) if text else None


def every_byte(program, folder):
    """Each byte value before, in and after an entry. Of those that are no part of an address only
    blanks, the bytes that begin a comment, and a line's end are taken."""
    texts = [f"{a}10.0.0.1{b}" for a in ("", "1", "2") for b in ("", *range(10))]
    asked = list(map(ipaddress.ip_address, texts))
    log = "".join(f"{address}\n" for address in asked).encode()
    for place, at in (("before", 0), ("in", 4), ("after", 8)):
        before, after = b"10.0.0.1"[:at], b"10.0.0.1"[at:]
        wrong = []
        for byte in range(256):
            content = before + bytes([byte]) + after + b"\n"
            with open(os.path.join(folder, "byte"), "wb") as f:
                f.write(content)
            refused, networks = 0, []
            for line in content.split(b"\n")[:-1]:
                try:
                    networks += [network for network in [named(line)] if network]
                except ValueError:
                    refused += 1
            inside = [f"{one}\n" for one in asked if any(one in network for network in networks)]
            wanted = (b"", 2) if refused else ("".join(inside).encode(), 0 if inside else 1)
            output, error, status = run([program, "-f", "byte"], log, folder)
            lines = error.splitlines()
            reported = [line for line in lines if line.startswith(b"cidr_filter: byte:") and b": refused " in line]
            reported = len(lines) == len(reported) == refused
            wrong += [] if (output, status) == wanted and reported else [(byte, output, error, status)]
        yield f"each byte {place} an entry", not wrong, wrong


def prefix_lengths(program, folder):
    """A network of each prefix length of both families: its first and last address are in it, and
    those next to it are not."""
    rng = random.Random(2)
    wrong = []
    for kind, width in ((ipaddress.IPv4Network, 32), (ipaddress.IPv6Network, 128)):
        for length in range(width + 1):
            network = kind((rng.getrandbits(width), length), strict=False)
            first, last = int(network.network_address), int(network.broadcast_address)
            make = type(network.network_address)
            inside = [str(make(n)) for n in sorted({first, last})]
            outside = [str(make(n)) for n in (first - 1, last + 1) if 0 <= n < 1 << width]
            log = "".join(f"{address}\n" for address in inside + outside).encode()
            for option in ([], ["--longest"]):
                mark = f"{network}\t" if option else ""
                wanted = ("".join(f"{mark}{address}\n" for address in inside).encode(), b"", 0)
                got = run([program, *option, "-e", str(network)], log, folder)
                wrong += [] if got == wanted else [(str(network), option, got)]
    yield "each prefix length", not wrong, wrong


def orders(program, folder):
    """Options say the same in each of their orders."""
    log = b"x,10.0.0.1\nx,11.0.0.1\n10.0.0.2,y\n"
    for last, output in (
        ("--longest", b"10.0.0.0/8\tx,10.0.0.1\n-\t10.0.0.2,y\n"),
        ("-v", b"x,11.0.0.1\n10.0.0.2,y\n"),
        ("-c", b"2\n"),
    ):
        options = (["-k", "2"], ["-d", ","], ["--bad", "keep"], ["-e", "10.0.0.0/8"], [last])
        wrong = []
        for order in itertools.permutations(options):
            got = run([program, *sum(order, [])], log, folder)
            wrong += [] if got == (output, b"", 0) else [(order, got)]
        yield f"orders of options, {last}", not wrong, wrong


def fields(program, folder):
    """An address in one field of 5,000: it is found by the number of that field, and by no other."""
    numbers = [*range(1, 300), 1000, 1001, 1024, 4096, 4999, 5000]
    wrong = []
    for number in numbers:
        log = (b"x " * (number - 1) + b"10.0.0.1" + b" x" * (5000 - number)) + b"\n"
        for asked in (number - 1 or 5001, number, number + 1):
            got = run([program, "-f", "list", "-k", str(asked)], log, folder)
            wanted = (log, b"", 0) if asked == number else (b"", lacking(f"in field {asked}"), 1)
            wrong += [] if got == wanted else [(number, asked)]
    yield "fields", not wrong, wrong


def numbers_of_lists(program, folder):
    """One to twenty LISTs, and as many TEXTs: an address of each is found."""
    for n in range(20):
        with open(os.path.join(folder, f"list {n}"), "w") as f:
            f.write(f"11.0.0.{n}\n")
    log = "".join(f"11.0.0.{n}\n" for n in range(21))
    for count in range(1, 21):
        wanted = ("".join(f"11.0.0.{n}\n" for n in range(count)).encode(), b"", 0)
        for name, option, value in (("lists", "-f", "list {}"), ("texts", "-e", "11.0.0.{}")):
            words = [word for n in range(count) for word in (option, value.format(n))]
            got = run([program, *words], log.encode(), folder)
            yield f"{count} {name}", got == wanted, got


def numbers_of_logs(program, folder):
    """No FILE, which is standard input, up to twenty, in their order."""
    names = [f"log {n}" for n in range(20)]
    for n, name in enumerate(names):
        with open(os.path.join(folder, name), "w") as f:
            f.write(f"10.0.0.{n} {name}\n11.0.0.1\n")
    for count in range(21):
        wanted = "".join(f"10.0.0.{n} log {n}\n" for n in range(count)) if count else "10.0.0.99\n"
        got = run([program, "-f", "list", *names[:count]], b"10.0.0.99\n", folder)
        yield f"{count} logs", got == (wanted.encode(), b"", 0), got


def not_blocking(program, folder):
    """Standard input that does not block, and has no byte yet: a failed read, and not its end."""
    of_log = (["-f", "list"], b"10.0.0.1 a\n10.0.0.2", b"10.0.0.1 a\n")
    of_list = (["-f", "-", "log"], b"10.0.0.0/8\n", b"")
    for words, given, output in (of_log, of_list):
        reader, writer = os.pipe()
        os.set_blocking(reader, False)
        os.write(writer, given)
        got = unaddressed.run([program, *words], cwd=folder, stdin=reader, **PIPES)
        got = (got.stdout, got.stderr, got.returncode)
        os.close(reader)
        os.close(writer)
        yield f"{words}, input that does not block", got == (output, b"cidr_filter: -: cannot read\n", 2), got


WHOLE = (
    "-f made",
    "-c -f made",
    "-v -k 2 -f made",
    "-vc --bad=drop -f made",
    "-e 0.0.0.0/32 --",
    "-k1 -c -f made",
    "-ac -f made",
    "-ao --mapped -f made",
    "--after -c -f made",
    "-f absent",
    "-f bad -c",
    "-ce10.0.0.0/8",
    "-cfmade",
    "-vf made",
    "-cvk 1 -fmade",
    "-hc -fmade",
    "-Hc -fmade",
    "-Hfmade",
)
REFUSED = ("--bad stop -f made", "--bad=stop -f made", "-f -", "-f-", "-vf -", "-f made made_log", "-f made -")
REFUSED += ("-m1 -f made", "-l -f made", "-vqf made", "-nf made")


def of_made_log(words, folder, **others):
    with open(os.path.join(folder, "made_log"), "rb") as log:
        got = unaddressed.run(words, stdin=log, cwd=folder, **PIPES, **others)
    return got.stdout, got.stderr, got.returncode


def without_parallel(folder):
    """A folder with the commands that the script needs, and no others."""
    commands = os.path.join(folder, "commands")
    os.mkdir(commands)
    for command in ("bash", "cat", "dirname", "mktemp", "rm", "split"):
        os.symlink(shutil.which(command), os.path.join(commands, command))
    return commands


def in_parts(program, folder):
    """What `in_parts.sh` prints of a log of several parts, what it reports, once or for each part, and
    its status are those of the whole log. Once it uses GNU parallel, if that is there."""
    for path in (os.environ["PATH"], without_parallel(folder)):
        # GNU parallel warns if there is no home.
        others = {"env": {**os.environ, "PATH": path, "HOME": folder}}
        for options in WHOLE:
            whole = of_made_log([program, *options.split()], folder)
            output, error, status = of_made_log([IN_PARTS, *options.split()], folder, **others)
            # Each part tells of its own lines without an address.
            error = unaddressed.REPORTED.sub(b"", error)
            parts = output, b"".join(dict.fromkeys(error.splitlines(True))), status
            yield f"{options}, in parts", parts == whole, parts[1:]
        got = run([IN_PARTS, "-c", "-f", "made"], b"", folder, **others)
        yield "an empty log, in parts", got == (b"0\n", b"", 1), got
    for options in REFUSED:
        output, error, status = run([IN_PARTS, *options.split()], b"", folder)
        well = (output, error.count(b"\n"), status) == (b"", 1, 2)
        yield f"{options}, in parts", well, error


def made_stretches(rng):
    """The lines of a log, each with the first number of its address, 0 if it has none and 12 if it is too long. Of some
    stretches none or all of those with an address begin with 10, of others a part by chance."""
    lines = []
    for part in (0, 1 / 2, 1, 1 / 64, 1 / 3, 0, 1):
        for number in range(rng.randrange(500, 1500)):
            first = 10 if rng.random() < part else 11
            address = f"{first}.{number & 255}.{rng.getrandbits(8)}.1"
            if rng.random() < 1 / 32:
                first, address = 0, rng.choice(("-", "10.0.0", "10.0.0.256"))
            lines.append((first, f"{address} {'x' * rng.randrange(200)}{rng.choice(('', chr(13)))}\n".encode()))
    lines.insert(len(lines) // 4, (12, b"10.0.0.1 ".ljust(1048577, b"x") + b"\n"))
    return [*lines, (10, b"10.0.0.9 last")]


def stretches(program, folder):
    """Whether lines are selected changes from stretch to stretch of a log."""
    lines = made_stretches(random.Random(49))
    given = b"".join(line for _, line in lines)
    short = b"".join(line for first, line in lines if first != 12)
    for options, kinds in (("", (10,)), ("-v", (11,)), ("--bad keep", (10, 0)), ("-v --bad keep", (11, 0))):
        log = [one for one in lines if one[0] != 12] if 0 in kinds else lines
        selected = [(at, line.rstrip(b"\n") + b"\n") for at, (first, line) in enumerate(log, 1) if first in kinds]
        shown = [line for _, line in selected]
        long = next((at for at, (first, _) in enumerate(log, 1) if first == 12), 0)
        rows = [("", b"".join(shown)), ("-n", b"".join(b"%d:%s" % one for one in selected)), ("-c", b"%d\n" % len(shown))]
        rows += [(f"-m {most}", b"".join(shown[:most])) for most in (1, 15, 16, 17, 63, 64, 65, len(shown) // 2)]
        for more, wanted in rows:
            words = f"-f list {options} {more}".split()
            got = run([program, *words], short if 0 in kinds else given, folder)
            last = selected[int(words[-1]) - 1][0] if "-m" in words else len(log)
            reported = (b"cidr_filter: -:%d: line too long\n" % long, 2) if 0 < long <= last else (b"", 0)
            yield f"{words} < stretches", got == (wanted, *reported), got[1:]
        words = [program, *f"-f list {options}".split()]
        with open(os.path.join(folder, "stretches"), "wb") as log:
            log.write(short if 0 in kinds else given)
        with limits.started([*words, "stretches"], cwd=folder, stdout=subprocess.PIPE) as running:
            got = running.stdout.read(100000)
            running.stdout.close()
        yield f"{words} stretches, of which not all is taken", got == b"".join(shown)[:100000], running.returncode
    for at in (800, 3000):
        ended = [one for one in lines if one[0] not in (0, 12)]
        log = b"".join(line for _, line in ended[:at]) + b"- refused\n" + b"".join(line for _, line in ended[at:])
        wanted = b"".join(line for first, line in ended[:at] if first == 10)
        got = run([program, *"-f list --bad stop".split()], log, folder)
        yield f"stretches, stopped after {at}", got == (wanted, b"cidr_filter: -:%d: refused address\n" % (at + 1), 2), got[1:]
