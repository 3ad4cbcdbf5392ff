"""A lock for objects that several threads may change."""

from __future__ import annotations

from typing import TYPE_CHECKING

if TYPE_CHECKING:
    from threading import RLock
else:
    # An interpreter that has imported `threading` waits at its end for the threads that it knows,
    # and before Python 3.12 may wait forever if it runs on another thread of the process.
    from _thread import RLock

__all__ = ["RLock", "new_lock"]


def new_lock() -> RLock:
    """A lock; MemoryError if there is no memory for it, which Python itself reports in another way.

    It is held with ``acquire`` and ``release`` and not with ``with``, which needs memory at its
    end: if it gets none, the lock is never released.
    """
    try:
        return RLock()
    except RuntimeError:
        raise MemoryError("no memory for a lock") from None
