"""What standard input is in some rows of the programs' tests: a terminal that hangs up, and a list without an end."""

import ipaddress
import os
import pty
import resource
import subprocess
import tty

import limits


skipped = set()


def terminal(what):
    """Both ends of a new terminal, or None; then it says, once, what is skipped."""
    try:
        return pty.openpty()
    except OSError:
        if what not in skipped:
            print(f"{what}: skipped, since there is no terminal to be had here (/dev/pts)", flush=True)
        skipped.add(what)
        return None


def hung_up(program, folder, words, given):
    """The status, standard output and standard error of a run whose standard input is a terminal that hangs up after these
    bytes; None if there is no terminal here."""
    ends = terminal(f"{os.path.basename(program)} < (a terminal that hangs up)")
    if not ends:
        return None
    reader, writer = ends
    tty.setraw(writer)
    os.write(writer, given)
    os.close(writer)
    got = limits.run([program, *words], cwd=folder, stdin=reader, capture_output=True)
    os.close(reader)
    return got.returncode, got.stdout, got.stderr


def endless(program, words):
    """The same of a run that may have 8 MiB of data, on a list of networks without an end, and whether it ended before 64 MiB
    of them."""
    limit = lambda: resource.setrlimit(resource.RLIMIT_DATA, (1 << 23, 1 << 23))
    pipes = {"stdin": subprocess.PIPE, "stdout": subprocess.PIPE, "stderr": subprocess.PIPE}
    given = 0
    with limits.started([program, *words], preexec_fn=limit, **pipes) as run:
        try:
            while given < 1 << 26:
                lines = "".join(f"{ipaddress.IPv4Address(2 * (given + n) % 2**32)}\n" for n in range(4096)).encode()
                run.stdin.write(lines)
                given += len(lines)
        except BrokenPipeError:
            pass
        ended = given < 1 << 26
        try:
            run.stdin.close()
        except BrokenPipeError:
            pass
        output, error = run.stdout.read(), run.stderr.read()
    return run.returncode, output, error, ended
