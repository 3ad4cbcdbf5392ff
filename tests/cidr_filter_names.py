"""Rows of `tests/cidr_filter` over names with characters that a terminal obeys: messages show them escaped, and what is
printed has them as they are. Each function yields a name, whether the row is as it should be, and what was got."""

import os
import shutil
import subprocess

import limits
import unaddressed

# A name, and what messages show: of U+009B, a control character, both bytes.
NAMES = [
    (b"a\nb", b"a\\x0ab"),
    (b"\x1b[31mred", b"\\x1b[31mred"),
    ("\x9b1m\u0142".encode(), b"\\xc2\\x9b1m\xc5\x82"),
    (b"tab\tbell\x07del\x7f", b"tab\\x09bell\\x07del\\x7f"),
    ("log\u202egol\u200b\u2019".encode(), b"log\\xe2\\x80\\xaegol\\xe2\\x80\\x8b\xe2\x80\x99"),
]
LONG = b"10.0.0.1\n" + b"x" * 1048577 + b"\n"
# What is at the name (bytes, a folder, nothing, or a file of which each read fails), the options before
# it, what is printed, what is reported after it, and the status.
ROWS = [
    (None, "-f list", b"", b": cannot open: no such file", 2),
    (None, "-f", b"", b": cannot open: no such file", 2),
    ("folder", "-f list", b"", b": cannot open: is a directory", 2),
    ("folder", "-f", b"", b": cannot open: is a directory", 2),
    ("/proc/self/mem", "-f list", b"", b": cannot read", 2),
    ("/proc/self/mem", "-f", b"", b": cannot read", 2),
    (b"x\n", "-f", b"", b":1: refused address: x", 2),
    (b"x\n", "-f list --bad stop", b"", b":1: refused address", 2),
    (b"x\n", "-f list", b"", b": no line has an address in field 1", 1),
    (b"x\n10.0.0.1\n", "-f list -c --bad report", b"1\n", b": lines without an address: 1, too long: 0", 0),
    (LONG, "-f list -H", b"NAME:10.0.0.1\n", b":2: line too long", 2),
    (LONG, "-f list -Hc", b"NAME:1\n", b":2: line too long", 2),
    (LONG, "-f list --bad stop", b"10.0.0.1\n", b":2: refused length", 2),
    (LONG, "-f list -l", b"NAME\n", b"", 0),
    (LONG, "-f list -lZ", b"NAME\0", b"", 0),
]


def put(path, what):
    """Puts a file with these bytes, a folder, or a link to this file at this path, in the place of what was there."""
    shutil.rmtree(path) if os.path.isdir(path) else os.path.lexists(path) and os.unlink(path)
    if what == "folder":
        os.mkdir(path)
    elif isinstance(what, str):
        os.symlink(what, path)
    elif what is not None:
        with open(path, "wb") as f:
            f.write(what)


def in_messages(program, folder):
    for name, shown in NAMES:
        path = os.path.join(os.fsencode(folder), name)
        for what, options, printed, cause, status in ROWS:
            put(path, what)
            words = [program, *options.split(), name] + (["log"] if options == "-f" else [])
            got = unaddressed.run(words, cwd=folder, capture_output=True)
            reported = b"cidr_filter: " + shown + cause + b"\n" if cause else b""
            got = (got.stdout, got.stderr, got.returncode)
            yield f"{options} {name}", got == (printed.replace(b"NAME", name), reported, status), got
        put(path, b"10.0.0.1\n")
        with open(path, "ab") as output:
            how = {"stdout": output, "stderr": subprocess.PIPE, "preexec_fn": limits.small_files}
            got = unaddressed.run([program, "-f", "list", name], cwd=folder, **how)
        reported = b"cidr_filter: " + shown + b": input file is also the output\n"
        yield f"-f list {name} >> {name}", (got.stderr, got.returncode) == (reported, 2), got
        os.unlink(path)
        got = unaddressed.run([program, "-f", "list", "--after", name, "log"], cwd=folder, capture_output=True)
        reported = b"cidr_filter: log: no line has an address after " + shown + b"\n"
        yield f"--after {name}", (got.stdout, got.stderr, got.returncode) == (b"", reported, 1), got


# Words of which one is not UTF-8, what is printed and reported, and the status: as a log it is reported, and the others
# are read; any other ends the program.
CANNOT = b": cannot open: name is not UTF-8\n"
NOT_UTF8 = [
    ([b"-flist", b"log-\xff", b"no_end"], b"10.0.0.1\n", b"cidr_filter: log-\\xff" + CANNOT, 2),
    ([b"-flist", b"-Hc", b"no_end", b"\t\xe2\x80\xae\xc3"], b"no_end:1\n", b"cidr_filter: \\x09\\xe2\\x80\\xae\\xc3" + CANNOT, 2),
    ([b"-flist", b"--", b"no_end", b"\xff"], b"10.0.0.1\n", b"cidr_filter: \\xff" + CANNOT, 2),
    ([b"-qflist", b"no_end", b"\xff"], b"", b"", 0),
    ([b"-f", b"\xff", b"no_end"], b"", b"cidr_filter: \\xff: not UTF-8\nUSAGE", 2),
    ([b"-flist", b"-f\xff", b"no_end"], b"", b"cidr_filter: -f\\xff: not UTF-8\nUSAGE", 2),
    ([b"-flist", b"-e", b"10.0.0.1\x80", b"\xff"], b"", b"cidr_filter: 10.0.0.1\\x80: not UTF-8\ncidr_filter: \\xff: not UTF-8\nUSAGE", 2),
    ([b"-flist", b"--", b"-v\xff", b"no_end"], b"", b"cidr_filter: -v\\xff: not UTF-8\nUSAGE", 2),
]


def not_utf8(program, folder, usage):
    for words, printed, reported, status in NOT_UTF8:
        got = limits.run([program, *words], cwd=folder, capture_output=True)
        wanted = printed, reported.replace(b"USAGE", usage), status
        yield f"{words}", (got.stdout, got.stderr, got.returncode) == wanted, got
