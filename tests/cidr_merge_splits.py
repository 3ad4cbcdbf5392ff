"""Rows of `tests/cidr_merge` for `split`, compared with Python's `ipaddress`: a name, what a run gave and what is wanted, which
is the status, standard output and standard error."""

import ipaddress
import itertools
import os
import random
import subprocess

import limits

# Of more networks than these only the first are read.
MANY = 2**21
FIRST = 1000


def run(program, words, folder, data=b""):
    pipes = {"stdout": subprocess.PIPE, "stderr": subprocess.PIPE}
    done = limits.run([program, *words], input=data, cwd=folder, **pipes)
    return done.returncode, done.stdout, done.stderr


def first_lines(program, words, folder, data=b""):
    """The first lines of a run that prints many, whose reader then goes, and its status."""
    pipes = {"stdin": subprocess.PIPE, "stdout": subprocess.PIPE, "stderr": subprocess.PIPE}
    with limits.started([program, *words], cwd=folder, **pipes) as running:
        running.stdin.write(data)
        running.stdin.close()
        lines = b"".join(itertools.islice(running.stdout, FIRST))
        running.stdout.close()
        return running.wait(), lines, running.stderr.read()


def random_nets(rng, shortest=(8, 24), longest=(32, 128)):
    """Networks of both families, close to each other."""
    nets = []
    for _ in range(rng.randrange(1, 30)):
        version = rng.choice((4, 6))
        bits = 32 if version == 4 else 128
        length = rng.randrange(shortest[version == 6], longest[version == 6] + 1)
        address = rng.randrange(16) << (bits - 8) | rng.randrange(2**8) << (bits - length)
        kind = ipaddress.IPv4Network if version == 4 else ipaddress.IPv6Network
        nets.append(kind((address % 2**bits, length), strict=False))
    return nets


def least(nets):
    """The shortest list with the addresses of these networks, IPv4 first."""
    return [net for version in (4, 6) for net in ipaddress.collapse_addresses(net for net in nets if net.version == version)]


def size(net, length):
    """How many networks of this prefix length a network is cut into."""
    return 2 ** (length - net.prefixlen) if net.prefixlen <= length <= net.max_prefixlen else 1


def cut(net, length):
    return net.subnets(new_prefix=length) if net.prefixlen <= length <= net.max_prefixlen else [net]


def splits(program, folder):
    """Lists that are split, and the first of more networks than anybody reads."""
    for seed in range(120):
        rng = random.Random(seed)
        nets = random_nets(rng)
        length = rng.choice((rng.randrange(129), rng.randrange(16, 30)))
        with open(os.path.join(folder, "random_nets"), "w") as file:
            file.write("".join(f"{net}\n" for net in nets))
        is_many = sum(size(net, length) for net in least(nets)) > MANY
        parts = itertools.islice((part for net in least(nets) for part in cut(net, length)), FIRST if is_many else None)
        wanted = (141 if is_many else 0, "".join(f"{part}\n" for part in parts).encode(), b"")
        got = (first_lines if is_many else run)(program, ["split", "--prefix", str(length), "random_nets"], folder)
        yield f"split --prefix {length}, seed {seed}", got, wanted
    for nets, length, count in [
        ("0.0.0.0/0", 19, 2**19),
        ("0.0.0.0/0\n::/0\n", 19, 2**20),
        ("0.0.0.0/0", 20, 2**20),
        ("0.0.0.0/12\n0.240.0.0/13\n", 32, 2**20 + 2**19),
        ("10.0.0.0-10.15.66.64", 32, 1000001),
    ]:
        with open(os.path.join(folder, "random_nets"), "w") as file:
            file.write(nets)
        status, output, error = run(program, ["split", "--prefix", str(length), "random_nets"], folder)
        got = status, len(output.splitlines()), error
        yield f"split --prefix {length} of {nets!r}", got, (0, count, b"")
    got = first_lines(program, ["split", "--prefix", "128", "-"], folder, b"::/0\n")
    yield "split of every address", got, (141, "".join(f"{ipaddress.ip_address('::') + n}/128\n" for n in range(FIRST)).encode(), b"")
    with open(os.path.join(folder, "random_nets"), "w") as file:
        file.write("10.0.0.0/8\nx\n")
    refused = b"random_nets:2: refused address: x\n"
    for words, wanted in [
        ("split --prefix 9 random_nets", (2, b"", refused)),
        ("split --prefix 9 --skip-bad random_nets", (3, b"10.0.0.0/9\n10.128.0.0/9\n", refused)),
        ("split --skip-bad --prefix 9 random_nets", (3, b"10.0.0.0/9\n10.128.0.0/9\n", refused)),
        ("split --skip-bad --prefix +009 random_nets", (3, b"10.0.0.0/9\n10.128.0.0/9\n", refused)),
        ("split --prefix 9 none", (2, b"", b"none: cannot open: no such file\n")),
        ("split --prefix 9 .", (2, b"", b".: cannot open: is a directory\n")),
    ]:
        yield words, run(program, words.split(), folder), wanted
    with open("/dev/full", "wb") as full:
        done = limits.run([program, *"split --prefix 9 --skip-bad random_nets".split()], cwd=folder, stdout=full, stderr=subprocess.PIPE)
    yield "split with a full device", (done.returncode, None, done.stderr), (2, None, refused + b"write error\nstandard output: no space left on device\n")
