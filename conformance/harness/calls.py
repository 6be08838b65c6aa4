"""The lock calls themselves: straight to the C library, so that a caught signal ends a wait instead of being tried again."""

from __future__ import annotations

import ctypes
import errno
import fcntl
import os

COMMANDS = {
    "getlk": fcntl.F_GETLK,
    "setlk": fcntl.F_SETLK,
    "setlkw": fcntl.F_SETLKW,
    # Linux's numbers, of which older Pythons have no names.
    "ogetlk": 36,
    "osetlk": 37,
    "osetlkw": 38,
}
KINDS = {"r": fcntl.F_RDLCK, "w": fcntl.F_WRLCK, "u": fcntl.F_UNLCK}
KIND_OF = {number: kind for kind, number in KINDS.items()}
WHENCES = {"set": os.SEEK_SET, "cur": os.SEEK_CUR, "end": os.SEEK_END}
OPERATIONS = {"sh": fcntl.LOCK_SH, "ex": fcntl.LOCK_EX, "un": fcntl.LOCK_UN}
ACCESS = {"r": os.O_RDONLY, "w": os.O_WRONLY, "rw": os.O_RDWR}

LIBRARY = ctypes.CDLL(None, use_errno=True)
PR_SET_CHILD_SUBREAPER = 36


class LockDescription(ctypes.Structure):
    """struct flock, with offsets of 64 bits."""

    _fields_ = [
        ("kind", ctypes.c_short),
        ("whence", ctypes.c_short),
        ("start", ctypes.c_int64),
        ("length", ctypes.c_int64),
        ("pid", ctypes.c_int),
    ]


def as_int(number: int) -> int:
    """A descriptor as C's int takes it: one from 2^31 on is negative there, and so is never open."""
    return number - 2**32 if number >= 2**31 else number


def error_name(number: int) -> str:
    """The error's name; of two names for one number, the one that POSIX has."""
    if number == errno.EDEADLK:
        return "EDEADLK"
    if number == errno.EAGAIN:
        return "EAGAIN"
    return errno.errorcode.get(number, f"error{number}")


def lock(command: str, descriptor: int, kind: str, whence: str, start: int, length: int, pid: int) -> str:
    """A fcntl lock command; its note, in which a process is named by the system's pid."""
    described = LockDescription(KINDS[kind], WHENCES[whence], start, length, pid)
    answer = LIBRARY.fcntl(ctypes.c_int(as_int(descriptor)), ctypes.c_int(COMMANDS[command]), ctypes.byref(described))
    if answer == -1:
        return error_name(ctypes.get_errno())
    if not command.endswith("getlk"):
        return "ok"
    if described.kind == fcntl.F_UNLCK:
        return "free"
    return f"held {KIND_OF.get(described.kind, '?')} {described.start} {described.length} {described.pid}"


def flock(descriptor: int, operation: str, at_once: bool) -> str:
    """flock(2); its note."""
    asked = OPERATIONS[operation] | (fcntl.LOCK_NB if at_once else 0)
    answer = LIBRARY.flock(ctypes.c_int(as_int(descriptor)), ctypes.c_int(asked))
    return "ok" if answer == 0 else error_name(ctypes.get_errno())


def become_subreaper() -> None:
    """Orphans of the agents become this process's children, where the system knows how; so it can see them end."""
    if hasattr(LIBRARY, "prctl"):
        LIBRARY.prctl(PR_SET_CHILD_SUBREAPER, 1, 0, 0, 0)
