"""Waits: who is granted, signals and kills while one waits, and deadlocks."""

from __future__ import annotations

import os
import signal
import threading
from pathlib import Path
from typing import Callable

from fusetest.descriptions import UNTOLD, soon
from fusetest.observe import Child, handle_signals, see
from fusetest.records import ask, by_another, named, opened
from harness.calls import flock


def waiter(path: Path, command: str, kind: str, start: int, length: int, restarts: bool = False) -> Child:
    """A child that waits for a lock by an open file of its own, tells what it is answered, and lives on."""

    def act(self: Child) -> None:
        handle_signals(restarts)
        descriptor = opened(path)
        self.tell(flock(descriptor, kind, False) if command == "flock" else ask(descriptor, command, kind, start, length))
        signal.pause()

    child = Child(act)
    child.falls_asleep()
    return child


def stop(*children: Child) -> None:
    """Kills the children."""
    for child in children:
        child.signal(signal.SIGKILL)
        child.end()


def grants(path: Path) -> None:
    """Waits are granted when nothing is in their way any more, two readers at once."""
    held = opened(path)
    ask(held, "setlk", "w", 0, 10)
    first, second = waiter(path, "setlkw", "r", 0, 5), waiter(path, "osetlkw", "r", 4, 1)
    behind = waiter(path, "setlkw", "w", 5, 5)
    ask(held, "setlk", "u", 0, 5)
    see("a reader is granted", first.hear(), "ok")
    see("and another on the same byte", second.hear(), "ok")
    see("both have it", by_another(path, "setlk", "w", 4, 1), "EAGAIN")
    os.close(held)
    see("the writer is granted by the close", behind.hear(), "ok")
    stop(first, second, behind)
    held = opened(path)
    flock(held, "ex", False)
    shared, other = waiter(path, "flock", "sh", 0, 0), waiter(path, "flock", "sh", 0, 0)
    flock(held, "un", False)
    see("a flock is granted", shared.hear(), "ok")
    see("and another", other.hear(), "ok")
    stop(shared, other)
    os.close(held)


def signals(path: Path) -> None:
    """A signal ends a wait by EINTR, and with SA_RESTART it goes on; a kill leaves nothing behind."""
    held = opened(path)
    ask(held, "setlk", "w", 0, 0)
    flock(held, "ex", False)
    for command, kind in (("setlkw", "w"), ("osetlkw", "r"), ("flock", "sh")):
        ended = waiter(path, command, kind, 0, 5)
        ended.signal()
        see(f"{command}: a signal", ended.hear(), "EINTR")
        goes_on = waiter(path, command, kind, 0, 5, True)
        goes_on.signal()
        goes_on.falls_asleep()
        killed = waiter(path, command, kind, 0, 5)
        stop(killed, ended)
        ask(held, "setlk", "u", 0, 0)
        flock(held, "un", False)
        see(f"{command}: with SA_RESTART it is granted", goes_on.hear(), "ok")
        stop(goes_on)
        see(f"{command}: the killed one's lock was never set", wait_for(held, command), "ok")
        ask(held, "setlkw", "w", 0, 0)
        flock(held, "ex", False)
    os.close(held)


def waiting_threads(path: Path, close: Callable[[list[int]], None]) -> Child:
    """A child of which two threads wait for a byte each, by open files of their own, and tell what they are answered; then a third one closes."""

    def act(self: Child) -> None:
        descriptors = [opened(path), opened(path)]

        def wait(byte: int) -> None:
            self.tell(f"{byte} {ask(descriptors[byte], 'setlkw', 'w', byte, 1)}")

        for byte in (0, 1):
            thread = threading.Thread(target=wait, args=(byte,))
            thread.start()
            self.tell(str(thread.native_id))
        self.stand_by()
        close(descriptors)
        self.tell("closed")
        signal.pause()

    child = Child(act)
    for thread in [int(child.hear()), int(child.hear())]:
        child.falls_asleep(thread)
    child.go_on()
    return child


def closed_meanwhile(path: Path) -> None:
    """Descriptors are closed while threads wait. A thread whose own one wasn't has its lock; the call of another fails, and leaves no lock."""
    held = opened(path)

    def close_another(_: list[int]) -> None:
        os.close(opened(path))

    def close_theirs(descriptors: list[int]) -> None:
        for descriptor in descriptors:
            os.close(descriptor)

    def close_and_lock(descriptors: list[int]) -> None:
        close_theirs(descriptors)
        ask(opened(path), "setlk", "w", 2, 1)

    ask(held, "setlk", "w", 0, 2)
    child = waiting_threads(path, close_another)
    see("another descriptor is closed", child.hear(), "closed")
    ask(held, "setlk", "u", 0, 1)
    see("the wait is granted", child.hear(), "0 ok")
    see("and the process has the lock", named(ask(held, "getlk", "w", 0, 1), child.pid), "held w 0 1 holder")
    stop(child)
    for close, order in ((close_theirs, (0, 1)), (close_theirs, (1, 0)), (close_and_lock, (0, 1))):
        ask(held, "setlkw", "w", 0, 2)
        child = waiting_threads(path, close)
        see("the threads' descriptors are closed", child.hear(), "closed")
        for byte in order:
            ask(held, "setlk", "u", byte, 1)
            see(f"the wait for byte {byte} fails", child.hear(), f"{byte} EBADF")
            see("and leaves no lock", soon(lambda: ask(held, "setlk", "w", byte, 1), "ok"), "ok")
        stop(child)
    os.close(held)


def wait_for(descriptor: int, command: str) -> str:
    """Waits for the whole file, since the end of a process may reach a FUSE server later; a lock that is left is a step that hangs."""
    return flock(descriptor, "ex", False) if command == "flock" else ask(descriptor, "setlkw", "w", 0, 0)


def ring(path: Path, command: str, size: int) -> list[Child]:
    """Children that each have a byte; all but the last then wait for the next one's, and the last asks for the first one's."""

    def act(self: Child, mine: int) -> None:
        descriptor = opened(path)
        self.tell(ask(descriptor, command, "w", mine, 1))
        self.stand_by()
        self.tell(ask(descriptor, command, "w", (mine + 1) % size, 1))
        signal.pause()

    children = [Child(lambda self, mine=number: act(self, mine)) for number in range(size)]
    for child in children:
        child.hear()
    for child in children[:-1]:
        child.go_on()
        child.falls_asleep()
    children[-1].go_on()
    return children


def deadlocks(path: Path) -> None:
    """The wait that would close a cycle of processes is refused (POSIX.1-2017 fcntl, EDEADLK), and no other."""
    for size in (2, 3):
        children = ring(path, "setlkw", size)
        see(f"the last of {size} is refused", children[-1].hear(), "EDEADLK")
        stop(children[-1])
        see(f"its end grants the one before, of {size}", children[-2].hear(), "ok")
        stop(*children[:-1])


def cycles_of_open_files(path: Path) -> None:
    """Waits for open file description locks aren't looked at for deadlocks (fcntl_locking(2))."""
    children = ring(path, "osetlkw", 2)
    got = "waits" if children[-1].stays_silent() else children[-1].hear()
    see("the last of two", got, "waits", "EDEADLK", UNTOLD)
    stop(*children)
