"""Work on files of a file system that may hang: a child does it, so that only the child hangs."""

from __future__ import annotations

import os
import signal
import time
from typing import Callable

LOOK_AGAIN_SECONDS = 0.0003


class CouldNotRun(Exception):
    """The script couldn't be carried out to its end; why is the message."""


class Hangs(CouldNotRun):
    """The file system doesn't answer, and the child of this pid may be left behind."""

    def __init__(self, pid: int) -> None:
        super().__init__(f"the file system doesn't answer to pid {pid}")
        self.pid = pid


def guarded(work: Callable[[], object], limit: float) -> None:
    """Has a child do the work. Raises OSError where the work does, and Hangs where it isn't over after `limit` seconds."""
    pid = os.fork()
    if pid == 0:
        try:
            work()
            os._exit(0)
        except OSError as failed:
            os._exit(failed.errno or 255)
        finally:
            os._exit(255)
    deadline = time.monotonic() + limit
    while (ended := os.waitpid(pid, os.WNOHANG))[0] == 0:
        if time.monotonic() > deadline:
            os.kill(pid, signal.SIGKILL)
            raise Hangs(pid)
        time.sleep(LOOK_AGAIN_SECONDS)
    number = os.waitstatus_to_exitcode(ended[1])
    if number:
        raise OSError(number, os.strerror(number) if number > 0 else "killed")
