"""Chooses how the package calls the library: by its extension, or by ``ctypes``."""

from __future__ import annotations

import os
from importlib.util import find_spec
from typing import TYPE_CHECKING

#: Whether the environment names a library, which is then called by ctypes.
ASKED = "IPNETWORK_LIBRARY" in os.environ

if TYPE_CHECKING:
    from . import _native as core
elif ASKED or find_spec(f"{__package__}._native") is None:
    from . import _by_ctypes as core
else:
    from . import _native as core

__all__ = ["ASKED", "core"]
