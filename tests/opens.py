"""Which files of a folder a program opens and closes, in turn, as inotify of Linux reports them. `tests/cidr_merge`,
`tests/cidr_filter` and `tests/cidr_join` use it."""

import ctypes
import os
import struct

CLOSED, OPENED, DIRECTORY = 0x10, 0x20, 0x40000000
EVENT = struct.Struct("iIII")


def trace(folder, run):
    """What `run` returns, and a word for each file that was opened meanwhile (`+NAME`) or closed (`-NAME`)."""
    libc = ctypes.CDLL(None, use_errno=True)
    watch = libc.inotify_init1(os.O_NONBLOCK)
    if watch < 0 or libc.inotify_add_watch(watch, os.fsencode(folder), CLOSED | OPENED) < 0:
        raise OSError(ctypes.get_errno(), "inotify")
    try:
        result = run()
        events = b""
        while True:
            try:
                events += os.read(watch, 65536)
            except BlockingIOError:
                return result, " ".join(steps(events))
    finally:
        os.close(watch)


def steps(events):
    """A word for each event of a file."""
    at = 0
    while at < len(events):
        _, mask, _, size = EVENT.unpack_from(events, at)
        at += EVENT.size + size
        if not mask & DIRECTORY:
            yield ("+" if mask & OPENED else "-") + os.fsdecode(events[at - size : at].rstrip(b"\0"))
