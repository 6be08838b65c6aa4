"""Open file description locks (fcntl_locking(2)) and flock locks (flock(2))."""

from __future__ import annotations

import os
import signal
import time
from pathlib import Path
from typing import Callable

from fusetest.observe import Child, see
from fusetest.records import ask, by_another, named, opened
from harness.calls import flock

UNTOLD = "the kernel doesn't tell a FUSE server whether a lock is one of an open file description"
OVERWRITTEN = "of F_OFD_GETLK the kernel itself writes -1 over a FUSE server's pid"
PATIENCE_SECONDS = 5.0


def soon(act: Callable[[], str], wanted: str) -> str:
    """What is answered within a while: the last close of an open file reaches a FUSE server after close has returned."""
    late = time.monotonic() + PATIENCE_SECONDS
    answer = act()
    while answer != wanted and time.monotonic() < late:
        time.sleep(0.01)
        answer = act()
    return answer


def owners(path: Path) -> None:
    """An open file owns its lock, whichever process asks."""
    one, other = opened(path), opened(path)
    see("set", ask(one, "osetlk", "w", 0, 10), "ok")
    see("another open file of the process is refused", ask(other, "osetlk", "r", 5, 1), "EAGAIN")
    see("so is a record lock of the process", ask(one, "setlk", "r", 5, 1), "EAGAIN")
    got = named(ask(one, "getlk", "r", 5, 1), os.getpid())
    see("a record lock is told", got, "held w 0 10 -1", "held w 0 10 holder", UNTOLD)
    see("an open file description lock is told", ask(other, "ogetlk", "r", 5, 1), "held w 0 10 -1")
    see("a pid is refused", ask(other, "osetlk", "r", 50, 1, 7), "EINVAL")
    see("a close of another open file", str(os.close(opened(path))), "None")
    see("keeps it", ask(other, "osetlk", "r", 5, 1), "EAGAIN")
    duplicate = os.dup(one)
    os.close(one)
    see("a close of one of two descriptors keeps it", ask(other, "osetlk", "r", 5, 1), "EAGAIN")
    os.close(duplicate)
    see("the last close removes it", soon(lambda: ask(other, "osetlk", "r", 5, 1), "ok"), "ok")
    os.close(other)


def beside_records(path: Path) -> None:
    """A record lock and an open file description lock conflict."""
    held, other = opened(path), opened(path)
    ask(held, "setlk", "w", 3, 4)
    see("a record lock refuses", ask(other, "osetlk", "w", 0, 0), "EAGAIN")
    got = named(ask(other, "ogetlk", "w", 0, 0), os.getpid())
    see("and is told", got, "held w 3 4 holder", "held w 3 4 -1", OVERWRITTEN)
    os.close(held)
    os.close(other)


def inherited(path: Path) -> None:
    """A child has its parent's open file, and so its lock, until both have closed it."""
    held = opened(path)
    ask(held, "osetlk", "w", 0, 10)
    child = Child(lambda self: (self.tell(ask(held, "osetlk", "w", 5, 10)), signal.pause()))
    see("a child changes the lock", child.hear(), "ok")
    os.close(held)
    see("which stays as long as the child has it", by_another(path, "setlk", "r", 14, 1), "EAGAIN")
    child.signal(signal.SIGKILL)
    child.end()
    see("and goes with the child", soon(lambda: by_another(path, "setlk", "r", 14, 1), "ok"), "ok")


def flocks(path: Path) -> None:
    """flock: its owners are open files, and it never meets byte locks."""
    one, other = opened(path), opened(path)
    see("exclusive", flock(one, "ex", True), "ok")
    see("another open file is refused", flock(other, "sh", True), "EAGAIN")
    see("a record lock isn't", ask(other, "setlk", "w", 0, 0), "ok")
    duplicate = os.dup(one)
    os.close(one)
    see("a close of one of two descriptors keeps it", flock(other, "sh", True), "EAGAIN")
    child = Child(lambda self: (self.tell("there"), signal.pause()))
    child.hear()
    os.close(duplicate)
    see("a child keeps it", flock(other, "sh", True), "EAGAIN")
    child.signal(signal.SIGKILL)
    child.end()
    see("the last close removes it", soon(lambda: flock(other, "sh", True), "ok"), "ok")
    third = opened(path)
    see("shared", flock(third, "sh", True), "ok")
    see("a conversion that is refused", flock(third, "ex", True), "EAGAIN")
    see("has lost the old lock", flock(other, "ex", True), "ok")
    see("unlocked", flock(other, "un", False), "ok")
    see("and free", flock(third, "ex", True), "ok")
    os.close(third)
    os.close(other)
