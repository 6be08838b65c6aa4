"""Record locks: POSIX.1-2017 fcntl, and its close rule."""

from __future__ import annotations

import os
import threading
from pathlib import Path

from fusetest.observe import see, word_of
from harness.calls import lock

LARGEST = 2**63 - 1


def opened(path: Path, flags: int = os.O_RDWR | os.O_CREAT) -> int:
    """A new open file."""
    return os.open(path, flags, 0o644)


def ask(descriptor: int, command: str, kind: str, start: int, length: int, pid: int = 0) -> str:
    """A lock command on a range from the file's start."""
    return lock(command, descriptor, kind, "set", start, length, pid)


def by_another(path: Path, command: str, kind: str, start: int, length: int) -> str:
    """What another process is told that opens the file itself."""
    return word_of(lambda: ask(opened(path), command, kind, start, length))


def named(answer: str, pid: int) -> str:
    """The answer with a name in place of the process."""
    return answer.replace(f" {pid}", " holder") if answer.endswith(f" {pid}") else answer


def conflicts(path: Path) -> None:
    """Two processes: who is refused, and who is told to have the lock."""
    held = opened(path)
    see("set", ask(held, "setlk", "w", 10, 5), "ok")
    see("another is refused a byte of it", by_another(path, "setlk", "r", 14, 1), "EAGAIN")
    see("another has the byte behind it", by_another(path, "setlk", "w", 15, 1), "ok")
    see("another is told the holder", named(by_another(path, "getlk", "w", 0, 0), os.getpid()), "held w 10 5 holder")
    see("the holder's own lock doesn't block it", ask(held, "getlk", "w", 0, 0), "free")
    see("a part of it is made a read lock", ask(held, "setlk", "r", 12, 1), "ok")
    see("another reads that part", by_another(path, "setlk", "r", 12, 1), "ok")
    see("and is told the part before it", named(by_another(path, "getlk", "r", 0, 0), os.getpid()), "held w 10 2 holder")
    see("the middle is unlocked", ask(held, "setlk", "u", 11, 3), "ok")
    see("another has the middle", by_another(path, "setlk", "w", 11, 3), "ok")
    see("and not what is left on either side", by_another(path, "setlk", "w", 14, 1), "EAGAIN")
    os.close(held)


def closes(path: Path) -> None:
    """Any close by the process removes its record locks on the file; a child's close removes none."""
    held = opened(path)
    ask(held, "setlk", "w", 0, 10)
    see("a child inherits no lock", word_of(lambda: ask(held, "setlk", "r", 0, 1)), "EAGAIN")
    word_of(lambda: str(os.close(held)))
    see("a child's close removes none", by_another(path, "setlk", "r", 0, 1), "EAGAIN")
    os.close(opened(path))
    see("a close of another descriptor removes all", by_another(path, "setlk", "r", 0, 1), "ok")
    ask(held, "setlk", "w", 0, 10)
    os.close(os.dup(held))
    see("a close of a duplicate removes all", by_another(path, "setlk", "r", 0, 1), "ok")
    os.close(held)
    by_another(path, "setlk", "w", 0, 0)
    see("the end of a process removes its locks", by_another(path, "setlk", "w", 0, 0), "ok")


def threads(path: Path) -> None:
    """The threads of a process are one owner."""
    held = opened(path)
    ask(held, "setlk", "w", 0, 10)
    answers: list[str] = []
    other = threading.Thread(target=lambda: answers.append(ask(held, "setlk", "r", 0, 10)))
    other.start()
    other.join()
    see("another thread changes the lock", answers[0], "ok")
    see("as another process sees", by_another(path, "setlk", "r", 0, 10), "ok")
    os.close(held)


def ranges(path: Path) -> None:
    """Access and ranges, as fcntl(2) refuses them."""
    opened(path)
    readable = opened(path, os.O_RDONLY)
    see("a write lock wants write access", ask(readable, "setlk", "w", 0, 1), "EBADF")
    see("a range past the largest offset", ask(readable, "setlk", "r", LARGEST, 2), "EOVERFLOW")
    see("a range before the file", ask(readable, "setlk", "r", 3, -5), "EINVAL")
    see("a negative length", ask(readable, "setlk", "r", 10, -5), "ok")
    see("which is the bytes before", named(by_another(path, "getlk", "w", 0, 0), os.getpid()), "held r 5 5 holder")
    see("the byte at the largest offset", ask(readable, "setlk", "r", LARGEST, 1), "ok")
    see("is locked to the end", named(by_another(path, "getlk", "w", 100, 0), os.getpid()), f"held r {LARGEST} 0 holder")
    os.close(readable)
