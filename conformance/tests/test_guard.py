"""Work that hangs, and work that fails."""

from __future__ import annotations

import errno
import os
import time
import unittest

from harness.guard import Hangs, guarded


class Guard(unittest.TestCase):
    """What a child does."""

    def test_work_is_done(self) -> None:
        guarded(lambda: os.getpid(), 5)

    def test_an_error_is_told(self) -> None:
        with self.assertRaises(OSError) as told:
            guarded(lambda: os.mkdir("/proc/none/none"), 5)
        self.assertEqual(told.exception.errno, errno.ENOENT)

    def test_a_hang_is_told(self) -> None:
        with self.assertRaises(Hangs) as told:
            guarded(lambda: time.sleep(60), 0.1)
        os.waitpid(told.exception.pid, 0)
