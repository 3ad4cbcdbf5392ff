"""How long a program of the tests may run, and whether its time grows in proportion to its input.

A limit is there for a program that would never end. It is far more than any run takes, and grows with how long the program
takes to start, so that neither a slow machine nor an emulator reaches it. What reaches it is ended, with all that it started,
and its status is then a text that says so, which no row wants."""

import contextlib
import functools
import os
import resource
import signal
import subprocess
import sys
import threading
import time
import weakref

# The seconds that a program takes to start on a machine that is not busy, and that it may run there.
START, LIMIT = 0.005, 300
# After so many programs without an end a test ends too.
MOST_ENDED = 3
# How many times as large the larger of two inputs is.
GROWTH = 16
# The bytes that a program may write to a file of a test that it would read from and write to for ever.
FILE = 1 << 20

# A file that a test opens would take the place of a standard stream that is closed, and programs would get it.
for number in range(3):
    try:
        os.fstat(number)
    except OSError:
        os.set_inheritable(os.open(os.devnull, os.O_RDWR), True)

started_to_measure = ["sh", "-c", ":"]
ended_at_limit = []
programs = weakref.WeakSet()
is_starting, signals = False, []


def exit_by(number, _=None):
    """Ends the test by a signal, and its programs first, since they are in groups of their own."""
    signals.append(number)
    if not is_starting:
        for process in list(programs):
            kill(process)
        sys.exit(128 + number)


for name in (signal.SIGTERM, signal.SIGHUP):
    if signal.getsignal(name) == signal.SIG_DFL and threading.current_thread() is threading.main_thread():
        signal.signal(name, exit_by)


def measure_by(program):
    """From now on the limit grows with how long this program takes to start: with `--version`, and nothing to read."""
    global started_to_measure
    started_to_measure = [str(program), "--version"]
    slowness.cache_clear()


@functools.cache
def slowness():
    """How many times START a program takes to start here, at the longest of some; at least 1."""
    longest = 0
    how = {"stdin": subprocess.DEVNULL, "stdout": subprocess.DEVNULL, "stderr": subprocess.DEVNULL, "timeout": LIMIT}
    for _ in range(5):
        began = time.monotonic()
        try:
            subprocess.run(started_to_measure, **how)
        except OSError:
            pass
        except subprocess.TimeoutExpired:
            sys.exit(f"{started_to_measure}: no end within {LIMIT} seconds")
        longest = max(longest, time.monotonic() - began)
    return max(1, longest / START)


def seconds():
    """How long a program may run."""
    return LIMIT * slowness()


def kill(process):
    """Ends a program that runs in a group of its own, and what it started."""
    if process.poll() is None:
        with contextlib.suppress(ProcessLookupError):
            os.killpg(process.pid, signal.SIGKILL)


def end(process):
    """The same, of one that has reached its limit."""
    if process.poll() is None:
        kill(process)
        ended_at_limit.append(process)


def start(words, **how):
    """Starts a program as `subprocess.Popen` does, in a group of its own."""
    global is_starting
    is_starting = True
    try:
        process = subprocess.Popen(words, start_new_session=True, **how)
        programs.add(process)
    finally:
        is_starting = False
        if signals:
            exit_by(signals[0])
    return process


@contextlib.contextmanager
def started(words, **how):
    """A program that runs while the block does, as with `subprocess.Popen`: a read or write of the block that waits for it
    comes to an end with it, at the limit, and an error in the block ends it."""
    process = start(words, **how)
    timer = threading.Timer(seconds(), end, [process])
    timer.daemon = True
    timer.start()
    try:
        with process:
            try:
                yield process
            except BaseException:
                kill(process)
                raise
    finally:
        timer.cancel()


def finish(process, data=None):
    """What `communicate` returns of a program that is given these bytes, and its status, which is a text if it had no end."""
    try:
        output, error = process.communicate(data, timeout=seconds())
        return output, error, process.returncode
    except subprocess.TimeoutExpired:
        end(process)
        output, error = process.communicate()
    finally:
        kill(process)
    if len(ended_at_limit) >= MOST_ENDED:
        sys.exit(f"{process.args}: no end within {seconds():.0f} seconds, as of {MOST_ENDED - 1} runs before")
    return output, error, f"no end within {seconds():.0f} seconds"


def run(words, *, input=None, capture_output=False, **how):
    """Runs a program as `subprocess.run` does."""
    if capture_output:
        how |= {"stdout": subprocess.PIPE, "stderr": subprocess.PIPE}
    if input is not None:
        how["stdin"] = subprocess.PIPE
    process = start(words, **how)
    with process:
        output, error, status = finish(process, input)
    return subprocess.CompletedProcess(words, status, output, error)


def small_files():
    """In a program that is about to start: it may write FILE bytes to a file, and is ended by the next one."""
    resource.setrlimit(resource.RLIMIT_FSIZE, (FILE, FILE))


def processor_seconds(call):
    """What a call returns, and the processor time that the programs took that ended meanwhile, theirs and the system's."""
    before = resource.getrusage(resource.RUSAGE_CHILDREN)
    result = call()
    after = resource.getrusage(resource.RUSAGE_CHILDREN)
    return result, after.ru_utime + after.ru_stime - before.ru_utime - before.ru_stime


def is_proportional(run, size):
    """Whether the processor time of a run grows in proportion, from that of `run(size)` to that of sixteen times the size:
    to less than 64 times, so that neither a machine that is four times as slow meanwhile nor time that grows with the square,
    256 times, is taken for the other. Also the two times, each the least of three runs; if they grow more, of up to nine,
    since what else runs on the machine makes a run slower."""
    least = [float("inf")] * 2
    for number in range(9):
        least = [min(had, processor_seconds(lambda: run(of))[1]) for had, of in zip(least, (size, GROWTH * size))]
        well = least[1] < GROWTH**1.5 * least[0]
        if well and number >= 2:
            break
    return well, [round(taken, 4) for taken in least]
