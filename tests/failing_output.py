"""Runs whose output cannot be written: on a full device, and into a pipe whose reader has gone, before the run or after some
bytes; with little to write, and with more than the 64 KiB that are written at once. A failed write comes before each status
that the run would have by itself."""

import os
import subprocess
import tempfile

import limits

MANY = b"".join(b"10.0.%d.%d\n" % divmod(2 * number, 256) for number in range(0, 12800))
FILES = {"many": MANY, "list": b"10.0.0.0/8\n", "values": b"10.0.0.0/8 v\n", "bad": b"10.0.0.0/8\nx\n", "log": b"10.0.0.1 a\n"}

# For each program the words, standard input, and the status of a run whose output is written.
RUNS = {
    "cidr": [("", b"read 10.0.0.1\n", 0), ("", 9000 * b"read 10.0.0.1\n", 0)],
    "cidr_merge": [
        ("union list", b"", 0),
        ("union many", b"", 0),
        ("union --skip-bad many bad", b"", 3),
        ("differ many -- list", b"", 1),
        ("check bad", b"", 1),
        ("check - bad", 9000 * b"x\n", 1),
        ("find 10.0.0.1 -- bad", b"", 2),
        ("--help", b"", 0),
    ],
    "cidr_filter": [
        ("-f list log", b"", 0),
        ("-f list many", b"", 0),
        ("-f list log absent", b"", 2),
        ("-f list many absent", b"", 2),
        ("-f list --bad stop log -", b"x\n", 2),
        ("-c -f list many", b"", 0),
        ("--help", b"", 0),
    ],
    "cidr_join": [
        ("-f values log", b"", 0),
        ("-f values many", b"", 0),
        ("-f values log absent", b"", 2),
        ("-f values many absent", b"", 2),
        ("--tally -f values many", b"", 0),
        ("--help", b"", 0),
    ],
    "cidr_info": [("10.0.0.1", b"", 0), ("--json -", MANY, 0), ("10.0.0.1 x", b"", 2), ("-", b"10.0.0.1\nx\n", 2), ("--help", b"", 0)],
}


def run(program, words, given, folder, output):
    """The status of a run with this output, and what is reported."""
    # Python ignores the signal of a closed pipe, and so does the program: its write gets an error.
    how = {"cwd": folder, "input": given, "stdout": output, "stderr": subprocess.PIPE, "restore_signals": False}
    got = limits.run([program, *words.split()], **how)
    return got.returncode, got.stderr


def without_reader(program, words, given, folder):
    """The same, into a pipe whose reader has gone."""
    reader, writer = os.pipe()
    os.close(reader)
    try:
        return run(program, words, given, folder, writer)
    finally:
        os.close(writer)


def left_by_reader(program, words, given, folder):
    """The same, into a pipe whose reader goes after ten bytes."""
    source = os.path.join(folder, "given")
    with open(source, "wb") as f:
        f.write(given)
    reader, writer = os.pipe()
    how = {"cwd": folder, "stdout": writer, "stderr": subprocess.PIPE, "restore_signals": False}
    with open(source, "rb") as f, limits.started([program, *words.split()], stdin=f, **how) as process:
        os.close(writer)
        os.read(reader, 10)
        os.close(reader)
        error = process.stderr.read()
    return process.returncode, error


def tried(program):
    """Each run of a program: what it is, whether all is as wanted, and what came."""
    name = os.path.basename(program)
    full = (1, b"write error\n") if name == "cidr" else (2, f"{name}: write error\n{name}: standard output: no space left on device\n".encode())
    gone = (1, b"write error\n") if name == "cidr" else (141, b"")
    with tempfile.TemporaryDirectory() as folder:
        for file, text in FILES.items():
            with open(os.path.join(folder, file), "wb") as f:
                f.write(text)
        for words, given, status in RUNS[name]:
            what = f"{name} {words} of {len(given)} bytes"
            with open(os.path.join(folder, "output"), "wb+") as output:
                got = run(program, words, given, folder, output)
                written = output.tell() or os.fstat(output.fileno()).st_size
            yield what, got[0] == status and written > 0, got
            with open("/dev/full", "wb") as device:
                failed = run(program, words, given, folder, device)
            yield f"{what} > /dev/full", failed[0] == full[0] and failed[1].endswith(full[1]), failed
            lost = without_reader(program, words, given, folder)
            yield f"{what} | (a reader that has gone)", lost == gone, lost
            # A pipe takes 64 KiB before its reader is missed.
            if written > 1 << 17:
                lost = left_by_reader(program, words, given, folder)
                yield f"{what} | (a reader that goes)", lost == gone, lost
