"""Sees whether a process waits for a lock: by /proc where the system lets us, and by time elsewhere."""

from __future__ import annotations

import os
import platform
import signal
from pathlib import Path
from typing import Optional

from harness import calls

# The numbers of fcntl and flock on Linux.
LOCK_CALLS = {
    "x86_64": (72, 73),
    "aarch64": (25, 32),
    "riscv64": (25, 32),
    "loongarch64": (25, 32),
    "ppc64le": (55, 143),
    "s390x": (55, 143),
}
WAITING_COMMANDS = (calls.COMMANDS["setlkw"], calls.COMMANDS["osetlkw"])


def read_text(path: str) -> str:
    """A file of /proc, or nothing where its process is gone."""
    try:
        return Path(path).read_text()
    except OSError:
        return ""


def state_of(pid: int) -> str:
    """The state's letter as /proc has it: Z or X, and nothing at all, is a process that has ended and closed its descriptors."""
    return read_text(f"/proc/{pid}/stat").rpartition(")")[2].strip()[:1]


class ProcWatcher:
    """Sees a wait by /proc: the process sleeps in a lock call.

    A look gives the number of times that the process has given its processor up. Two looks with one number mean that it slept
    all the time between them. So where all processes slept so over one moment, none of them can wake another any more.
    """

    def __init__(self) -> None:
        self.fcntl, self.flock = LOCK_CALLS[platform.machine()]

    @staticmethod
    def works() -> bool:
        """Whether /proc tells of a child: a system may forbid that, or not have it."""
        child = os.fork()
        if child == 0:
            signal.pause()
        told = read_text(f"/proc/{child}/syscall") and read_text(f"/proc/{child}/status")
        os.kill(child, signal.SIGKILL)
        os.waitpid(child, 0)
        return bool(told) and platform.machine() in LOCK_CALLS

    def look(self, pid: int) -> Optional[str]:
        """What tells this sleep from the next one; None where the process doesn't sleep in a lock call."""
        words = read_text(f"/proc/{pid}/syscall").split()
        if len(words) < 3 or not words[0].isdigit():
            return None
        number, command = int(words[0]), int(words[2], 16)
        if number != self.flock and not (number == self.fcntl and command in WAITING_COMMANDS):
            return None
        lines = read_text(f"/proc/{pid}/status").splitlines()
        return " ".join(line for line in lines if line.startswith(("State", "voluntary_ctxt", "nonvoluntary_ctxt"))) or None


class TimeWatcher:
    """Sees nothing: whoever hasn't answered when the settling time is over counts as waiting."""

    def look(self, pid: int) -> Optional[str]:
        return "unanswered"
