"""What a step saw, and what is right; and the processes that it sees by."""

from __future__ import annotations

import json
import os
import select
import signal
import sys
import time
from dataclasses import asdict, dataclass
from typing import Callable, Optional

from harness import watch

# How long a process must sleep in a lock call until its request counts as having reached the file system.
SETTLE_SECONDS = 0.1
# How long a step looks for a process to fall asleep.
PATIENCE_SECONDS = 20.0
# How long a child that waits is listened to.
SILENCE_SECONDS = 2.0


@dataclass(frozen=True)
class Seen:
    """An observation: what was seen, what the manuals say, and what a FUSE mount can't help saying instead, with the reason."""

    name: str
    got: str
    right: str
    on_fuse: Optional[str] = None
    reason: Optional[str] = None

    def is_right(self, on_mount: bool) -> bool:
        """Whether it is what is to be seen there."""
        return self.got == (self.on_fuse if on_mount and self.on_fuse is not None else self.right)


def see(name: str, got: str, right: str, on_fuse: Optional[str] = None, reason: Optional[str] = None) -> None:
    """Tells the runner an observation."""
    print(json.dumps(asdict(Seen(name, got, right, on_fuse, reason))), flush=True)


class Child:
    """A process that does something on the file system, and tells words of it."""

    def __init__(self, act: Callable[[Child], None]) -> None:
        self.reader, self.writer = os.pipe()
        self.starter, self.start = os.pipe()
        sys.stdout.flush()
        self.pid = os.fork()
        if self.pid == 0:
            status = 1
            try:
                act(self)
                status = 0
            finally:
                os._exit(status)

    def tell(self, word: str) -> None:
        """In the child: tells a word."""
        os.write(self.writer, f"{word}\n".encode())

    def stand_by(self) -> None:
        """In the child: waits until it is to go on."""
        os.read(self.starter, 1)

    def go_on(self) -> None:
        """Lets the child go on that stands by."""
        os.write(self.start, b".")

    def hear(self) -> str:
        """The next word of the child."""
        word = b""
        while not word.endswith(b"\n"):
            word += os.read(self.reader, 1)
        return word.decode().strip()

    def stays_silent(self) -> bool:
        """Whether the child tells nothing for a while."""
        return not select.select([self.reader], [], [], SILENCE_SECONDS)[0]

    def falls_asleep(self, thread: Optional[int] = None) -> None:
        """Waits until the child, or a thread of it, has slept in one lock call for a while."""
        watcher, late = watch.ProcWatcher(), time.monotonic() + PATIENCE_SECONDS
        before = None
        while time.monotonic() < late:
            now = watcher.look(thread or self.pid)
            if now and now == before:
                return
            before = now
            time.sleep(SETTLE_SECONDS)
        raise TimeoutError(f"process {self.pid} doesn't wait for a lock")

    def signal(self, number: int = signal.SIGUSR1) -> None:
        """Sends it a signal."""
        os.kill(self.pid, number)

    def end(self) -> None:
        """Waits until it has ended."""
        os.waitpid(self.pid, 0)
        for descriptor in (self.reader, self.writer, self.starter, self.start):
            os.close(descriptor)


def word_of(act: Callable[[], str]) -> str:
    """What a child says that does just this, after it has ended."""
    child = Child(lambda self: self.tell(act()))
    word = child.hear()
    child.end()
    return word


def handle_signals(restarts: bool) -> None:
    """Sets a handler of SIGUSR1 that does nothing, with SA_RESTART where `restarts`."""
    signal.signal(signal.SIGUSR1, lambda number, frame: None)
    signal.siginterrupt(signal.SIGUSR1, not restarts)
