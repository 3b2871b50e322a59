"""The functions of the library for C, as ctypes calls them."""

from __future__ import annotations

import ctypes
import os
import sys
from typing import Any

__all__ = ["Handle", "Pair", "ABSENT", "REMOVED", "NO_MEMORY", "ADDED", "REPLACED", "functions"]

# The results of calls that change a map, as the header numbers them.
ABSENT = 0
REMOVED = 1
NO_MEMORY = 2
ADDED = 3
REPLACED = 4


class Handle(ctypes.Structure):
    """A map, or none."""

    _fields_ = [("at", ctypes.c_void_p)]


class Pair(ctypes.Structure):
    """A key and its value."""

    _fields_ = [("key", ctypes.c_uint64), ("value", ctypes.c_uint64)]


def _path() -> str:
    here = os.path.dirname(os.path.abspath(__file__))
    return os.environ.get("SWEEP_BPTREE_LIBRARY") or os.path.join(here, "libsweep_bptree.so")


def functions() -> dict[str, Any]:
    """Loads the library, and returns its functions by their names without the prefix."""
    if not getattr(sys, "_is_gil_enabled", lambda: True)():
        raise ImportError("sweep_bptree needs an interpreter with a global lock")
    # A PyDLL keeps the interpreter's lock while a call runs, so that no call uses a map while another changes it.
    library = ctypes.PyDLL(_path())
    handle, word, size = ctypes.POINTER(Handle), ctypes.c_uint64, ctypes.c_size_t
    boolean, code, array = ctypes.c_bool, ctypes.c_uint32, ctypes.c_void_p
    pair, number = ctypes.POINTER(Pair), ctypes.POINTER(word)
    found: dict[str, Any] = {}
    for name, result, arguments in [
        ("new", boolean, [handle]),
        ("free", None, [handle]),
        ("clear", boolean, [handle]),
        ("load", boolean, [handle, array, size]),
        ("len", size, [handle]),
        ("contains", boolean, [handle, word]),
        ("get", boolean, [handle, word, number]),
        ("first", boolean, [handle, pair]),
        ("last", boolean, [handle, pair]),
        ("next", boolean, [handle, word, pair]),
        ("prev", boolean, [handle, word, pair]),
        ("at", boolean, [handle, size, pair]),
        ("rank", boolean, [handle, word, ctypes.POINTER(size)]),
        ("range_len", size, [handle, word, word]),
        ("put", code, [handle, word, word, number]),
        ("del", code, [handle, word, number]),
        ("del_at", code, [handle, size, pair]),
        ("pop_first", code, [handle, pair]),
        ("pop_last", code, [handle, pair]),
        ("range", size, [handle, word, array, size]),
        ("range_back", size, [handle, word, array, size]),
        ("page", size, [handle, size, array, size]),
        ("copy", size, [handle, size, array, size, array, size]),
        ("get_many", None, [handle, array, size, array, size, array, size]),
        ("rank_many", None, [handle, array, size, array, size]),
        ("at_many", None, [handle, array, size, array, size, array, size, array, size]),
        ("put_many", boolean, [handle, array, size, array, size]),
        ("del_many", None, [handle, array, size, array, size]),
    ]:
        function = getattr(library, "bptree_" + name)
        function.restype, function.argtypes = result, arguments
        found[name] = function
    return found
