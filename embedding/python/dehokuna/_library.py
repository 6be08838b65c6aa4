"""The functions of dehokuna.h, as ctypes calls them."""

from __future__ import annotations

import ctypes
import os
from ctypes import POINTER, c_bool, c_size_t, c_uint8, c_uint32, c_uint64, c_void_p
from pathlib import Path

VERSION = "0.2.0"
# The largest offset of a byte: a range to the end of the file ends there (fcntl: l_len = 0).
TO_THE_END = 2**63 - 1
SONAME = "libdehokuna.so.1"


class Server(ctypes.Structure):
    """struct dehokuna_server."""

    _fields_ = [("at", c_void_p)]


class BlockerOut(ctypes.Structure):
    """struct dehokuna_blocker."""

    _fields_ = [("owner", c_uint64), ("first", c_uint64), ("last", c_uint64), ("mode", c_uint32)]


class FlockOut(ctypes.Structure):
    """struct dehokuna_flock_lock."""

    _fields_ = [("owner", c_uint64), ("mode", c_uint32)]


class WaitingOut(ctypes.Structure):
    """struct dehokuna_waiting."""

    _fields_ = [
        ("ticket", c_uint64),
        ("owner", c_uint64),
        ("first", c_uint64),
        ("last", c_uint64),
        ("mode", c_uint32),
        ("family", c_uint32),
        ("detect", c_bool),
        ("obstacle", c_uint32),
        ("blocker", BlockerOut),
        ("behind", c_uint64),
    ]


class OwnerWaitOut(ctypes.Structure):
    """struct dehokuna_owner_wait."""

    _fields_ = [("owner", c_uint64), ("file", c_uint64), ("ticket", c_uint64)]


class CountsOut(ctypes.Structure):
    """struct dehokuna_counts."""

    _fields_ = [("runs", c_uint64), ("flock_locks", c_uint64), ("waits", c_uint64)]


class FaultOut(ctypes.Structure):
    """struct dehokuna_fault."""

    _fields_ = [("flaw", c_uint32), ("offset", c_size_t)]


# What each function answers, and what it takes behind the server.
NUMBER = c_uint64
FUNCTIONS = {
    "create": (c_bool, [c_uint32]),
    "destroy": (None, []),
    "get": (c_uint32, [NUMBER, NUMBER, NUMBER, NUMBER, c_uint32, POINTER(BlockerOut)]),
    "set": (c_uint32, [NUMBER, NUMBER, NUMBER, NUMBER, c_uint32]),
    "wait": (c_uint32, [NUMBER, NUMBER, NUMBER, NUMBER, NUMBER, c_uint32, c_bool]),
    "cancel": (c_bool, [NUMBER]),
    "note": (c_bool, [NUMBER, NUMBER, NUMBER]),
    "flush": (None, [NUMBER, NUMBER]),
    "forget": (None, [NUMBER]),
    "forget_owners": (None, [NUMBER, NUMBER]),
    "forget_file": (None, [NUMBER]),
    "has_locks": (c_bool, [NUMBER, NUMBER]),
    "counts": (None, [NUMBER, NUMBER, POINTER(CountsOut)]),
    "flock": (c_uint32, [NUMBER, NUMBER, c_uint32]),
    "flock_wait": (c_uint32, [NUMBER, NUMBER, NUMBER, c_uint32]),
    "flock_release": (None, [NUMBER, NUMBER]),
    "release": (None, [NUMBER, NUMBER, c_bool, NUMBER]),
    "next_grant": (c_bool, [POINTER(NUMBER)]),
    "export_size": (c_size_t, []),
    "export": (c_size_t, [POINTER(c_uint8), c_size_t]),
    "import": (c_uint32, [POINTER(c_uint8), c_size_t, POINTER(FaultOut)]),
    "next_file": (c_bool, [NUMBER, POINTER(NUMBER)]),
    "next_lock": (c_bool, [NUMBER, NUMBER, NUMBER, POINTER(BlockerOut)]),
    "next_flock": (c_bool, [NUMBER, NUMBER, POINTER(FlockOut)]),
    "wait_at": (c_bool, [NUMBER, NUMBER, POINTER(WaitingOut)]),
    "next_wait": (c_bool, [NUMBER, NUMBER, NUMBER, NUMBER, POINTER(OwnerWaitOut)]),
}


def load() -> ctypes.CDLL:
    """The library that DEHOKUNA_LIBRARY names, or that which lies beside this file, as in a wheel, or the system's. OSError: none is there."""
    beside = Path(__file__).with_name(SONAME)
    library = ctypes.CDLL(os.environ.get("DEHOKUNA_LIBRARY") or (str(beside) if beside.exists() else SONAME))
    for name, (answer, takes) in FUNCTIONS.items():
        function = getattr(library, f"dehokuna_{name}")
        function.restype, function.argtypes = answer, [POINTER(Server), *takes]
    return library
