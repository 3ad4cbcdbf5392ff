"""Runs of the programs with standard streams that are closed, and of programs that may open few files. A read or a write
of a closed stream fails, as POSIX has it (EBADF): a lost stream is no empty list and no output that was written."""

import itertools
import os
import resource
import tempfile

import limits

LIST = b"10.0.0.0/8\n"
LOG = b"10.0.0.1 a\n11.0.0.1 b\n"

# For each program the words, standard input, output and status of runs in which no stream is closed. None is output whose
# text is not of interest here. The file `list` has the line of LIST, for cidr_join with a value, and `log` those of LOG.
RUNS = {
    "cidr": [
        ("", b"has 10.0.0.0/8 10.9.9.9\n", b"yes\n", 0),
    ],
    "cidr_merge": [
        ("union list", b"", LIST, 0),
        ("union -", LIST, LIST, 0),
        ("union list -", b"11.0.0.0/8\n", b"10.0.0.0/7\n", 0),
        ("union --format nft -", LIST, None, 0),
        ("union --format ipset -", LIST, None, 0),
        ("minus - -- list", b"10.0.0.0/7\n", b"11.0.0.0/8\n", 0),
        ("minus list -- -", LIST, b"", 0),
        ("check -", LIST, b"", 0),
        ("find 10.0.0.1 -- -", LIST, b"-:1: has 10.0.0.1: 10.0.0.0/8\n", 0),
    ],
    "cidr_filter": [
        ("-v -f - log", LIST, b"11.0.0.1 b\n", 0),
        ("-f - log", LIST, b"10.0.0.1 a\n", 0),
        ("-f list -", LOG, b"10.0.0.1 a\n", 0),
        ("-v -f list -", LOG, b"11.0.0.1 b\n", 0),
        ("-c -f list -", LOG, b"1\n", 0),
        ("-q -f list -", LOG, b"", 0),
        ("--bad stop -f list -", LOG, b"10.0.0.1 a\n", 0),
        ("-f list log", b"", b"10.0.0.1 a\n", 0),
    ],
    "cidr_join": [
        ("-f - log", b"10.0.0.0/8 x\n", b"x\t10.0.0.1 a\n-\t11.0.0.1 b\n", 0),
        ("-f list -", LOG, b"x\t10.0.0.1 a\n-\t11.0.0.1 b\n", 0),
        ("--tally -f list -", LOG, b"1\t-\n1\tx\n", 0),
        ("-f list log", b"", b"x\t10.0.0.1 a\n-\t11.0.0.1 b\n", 0),
    ],
    "cidr_info": [
        ("--in 10.0.0.0/8 -", b"10.1.0.0/16\n", b"", 0),
        ("--in 10.0.0.0/8 10.1.0.0/16", b"", b"", 0),
        ("--json 10.0.0.0/8", b"", None, 0),
        ("--json -", LIST, None, 0),
    ],
}

CLOSED = [closed for count in range(4) for closed in itertools.combinations(range(3), count)]


def faults(name):
    """What this program reports of a read and of a write that fails, and its status."""
    if name == "cidr":
        return b"read error\n", b"write error\n", 1
    unread, unwritten = f"{name}: -: cannot read\n", f"{name}: write error\n{name}: standard output: cannot write\n"
    return unread.encode(), unwritten.encode(), 2


def wanted(name, words, closed, output, status):
    """What a run gives with these streams closed: output, what is reported, status."""
    unread, unwritten, failed = faults(name)
    if 0 in closed and (name == "cidr" or "-" in words.split()):
        output, error, status = b"", unread, failed
    elif 1 in closed and output != b"":
        output, error, status = b"", unwritten, failed
    else:
        error = b""
    return output, b"" if 2 in closed else error, status


def run(program, words, given, folder, closed=(), files=None):
    """Output, what is reported, status: of a run with these streams closed, or one that may open so many files."""

    def begin():
        for descriptor in closed:
            os.close(descriptor)
        if files:
            resource.setrlimit(resource.RLIMIT_NOFILE, (files, files))

    how = {"input": given, "cwd": folder, "capture_output": True, "preexec_fn": begin}
    got = limits.run([program, *words.split()], **how)
    return got.stdout, got.stderr, got.returncode


def is_also_output(words, closed, got):
    """Whether a log, opened first, got the number of the closed standard output, and so counts as the output: a program
    may report that instead. Rust's runtime opens the closed stream before, so that no file gets its number."""
    reported = b"log: input file is also the output\n"
    return words.endswith(" log") and closed == (1,) and got[0] == b"" and got[1].endswith(reported) and got[2] == 2


def tried(program):
    """Each run of a program: what it is, whether all is as wanted, and what came."""
    name = os.path.basename(program)
    with tempfile.TemporaryDirectory() as folder:
        for file, text in ("list", b"10.0.0.0/8 x\n" if name == "cidr_join" else LIST), ("log", LOG):
            with open(os.path.join(folder, file), "wb") as f:
                f.write(text)
        for words, given, output, status in RUNS[name]:
            whole = run(program, words, given, folder)
            output = whole[0] if output is None else output
            for closed in CLOSED:
                got = run(program, words, given, folder, closed)
                well = got == wanted(name, words, closed, output, status) or is_also_output(words, closed, got)
                yield f"{name} {words}, with {closed} closed", well, got
            # A script that starts a program under qemu needs more files.
            with open(program, "rb") as f:
                limits = [] if f.read(2) == b"#!" else [4, 3]
            for files in limits:
                got = run(program, words, given, folder, files=files)
                # In addition to the three streams there is one file at a time. The loader too needs one, to find libraries.
                is_unopened = files == 3 and got[0] == b"" and got[1] != b"" and got[2] in (faults(name)[2], 127)
                yield f"{name} {words}, with {files} files at most", is_unopened or got == (output, b"", status), got
