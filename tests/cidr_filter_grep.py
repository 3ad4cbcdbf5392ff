"""Rows of `tests/cidr_filter` compared with GNU grep, for the options that both have: what is printed, and the status, where
both select the same lines; and that nothing is read after the line that ends a log. Each function yields a name,
whether the row is as it should be, and what was got."""

import itertools
import os
import random
import subprocess
import threading

import limits
import unaddressed

PIPES = {"stdout": subprocess.PIPE, "stderr": subprocess.PIPE}
LOGS = ("one", "two", "none_of_ten", "three", "nothing")
# The options of a run, of each kind one or none.
KINDS = (("", "-v"), ("", "-m 1", "-m 2", "-m 7", "-m 0", "-m 1000"), ("", "-H", "-c", "-c -H", "-c -h"))
KINDS += (("", "-l", "-q", "-l -q"), ("", "-n", "-Z"))


def run(words, folder, given=b""):
    got = unaddressed.run(words, input=given, cwd=folder, **PIPES)
    return got.stdout, got.stderr, got.returncode


def write_logs(folder):
    """Logs whose lines begin with addresses, of which those of 10.0.0.0/8 are the lines that begin with `10.`."""
    rng = random.Random(5)
    for name in LOGS:
        first = [11, 100, 1] if name == "none_of_ten" else [10, 10, 11, 100, 1]
        lines = [f"{rng.choice(first)}.{rng.randrange(256)}.0.{n % 256} {n}\n" for n in range(0 if name == "nothing" else 300)]
        with open(os.path.join(folder, name), "w") as f:
            f.write("".join(lines))


def counted(options, logs):
    """What `-c` prints of logs of which no line may be selected, of which grep prints nothing."""
    named = "-H" in options or len(logs) > 1 and "-h" not in options
    names = ["(standard input)" if log == "-" else log for log in logs]
    after = "\0" if "-Z" in options else ":"
    return "".join(f"{name}{after}0\n" if named else "0\n" for name in names).encode()


def as_grep(program, folder):
    """What GNU grep prints of the lines that begin with `10.`, and its status."""
    write_logs(folder)
    version = subprocess.run(["grep", "--version"], stdout=subprocess.PIPE).stdout
    if b"GNU grep" not in version:
        return
    for options in itertools.product(*KINDS):
        options = " ".join(options).split()
        shows_numbers = "-c" in options and not {"-l", "-q"} & set(options)
        for logs in (["one"], ["-"], ["none_of_ten"], ["nothing"], ["one", "none_of_ten", "-", "three"], ["nothing", "two"]):
            given = b"11.0.0.1 x\n10.0.0.1 y\n10.0.0.2 z\n"
            name = [] if {"-H", "-c"} & set(options) else ["-h"]
            wanted, _, status = run(["grep", *name, *options, "-e", "^10\\.", *logs], folder, given)
            if shows_numbers and "0" in options:
                wanted = counted(options, logs)
            got = run([program, *options, "-e", "10.0.0.0/8", *logs], folder, given)
            yield f"{options} {logs}, as grep", (got[0], got[2]) == (wanted, status), got


# The words, what standard input gives before a read of it fails or waits, what is printed, and the status.
LEFT = (
    ("-m 1", b"11.0.0.1\n10.0.0.1 a\n10.0.0.2", b"10.0.0.1 a\n", 0),
    ("-m 2 -v", b"11.0.0.1\n10.0.0.1 a\n11.0.0.1\n", b"11.0.0.1\n11.0.0.1\n", 0),
    ("-cm1", b"10.0.0.1\n", b"1\n", 0),
    ("-m0", b"", b"", 1),
    ("-l", b"11.0.0.1\n10.0.0.1 a\n10.0.0.2", b"(standard input)\n", 0),
    ("-lv", b"10.0.0.1\n11.0.0.1\n", b"(standard input)\n", 0),
    ("-q", b"11.0.0.1\n10.0.0.1 a\n10.0.0.2", b"", 0),
    ("-qvc", b"10.0.0.1\n11.0.0.1\n", b"", 0),
    ("-q -m0", b"", b"", 1),
)


def left(program, folder):
    """No read is made after the line that ends a log: not one that would fail, nor one that would wait."""
    for words, given, output, status in LEFT:
        command = [program, *words.split(), "-e", "10.0.0.0/8"]
        for fails in (True, False):
            reader, writer = os.pipe()
            os.set_blocking(reader, not fails)
            os.write(writer, given)
            got = unaddressed.run(command, cwd=folder, stdin=reader, **PIPES)
            got = (got.stdout, got.stderr, got.returncode)
            os.close(reader)
            os.close(writer)
            yield f"{words}, a read that {'fails' if fails else 'waits'}", got == (output, b"", status), got
        yield f"{words}, a log without an end", *without_end(command, output, status)


def without_end(command, output, status):
    """Whether a run ends whose standard input goes on as long as it is read."""
    with limits.started(command, stdin=subprocess.PIPE, **PIPES) as running:

        def feed():
            try:
                while True:
                    running.stdin.write(b"11.0.0.1\n10.0.0.1 a\n" * 1000)
            except (BrokenPipeError, ValueError):
                pass

        feeder = threading.Thread(target=feed)
        feeder.start()
        got = running.stdout.read(), running.stderr.read(), running.wait()
        feeder.join()
        return got == (output, b"", status), got
