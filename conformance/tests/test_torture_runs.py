"""locktorture itself, on a temporary directory: what it prints, its status, and that nothing is left behind."""

from __future__ import annotations

import json
import os
import signal
import subprocess
import sys
import tempfile
import time
import unittest
from pathlib import Path

from harness.command import HERE
from tests.support import LIMIT_SECONDS

JUDGE = HERE / "tests" / "second_opinion.py"
MEMORY = Path("/dev/shm")


class Runs(unittest.TestCase):
    """Runs of the command, judged by the second opinion or by a judge that lies."""

    def setUp(self) -> None:
        folder = tempfile.TemporaryDirectory(prefix="locktorture-tests-")
        self.addCleanup(folder.cleanup)
        self.folder = Path(folder.name)
        self.place = self.folder / "place"
        self.place.mkdir()

    def command(self, *words: str, judge: Path = JUDGE) -> list[str]:
        small = ["--seconds", "0.5", "--requests", "200", "--keep", str(self.folder / "window"), "--lockreplay", str(judge)]
        return [sys.executable, str(HERE / "locktorture"), str(self.place), *words, *small]

    def run_it(self, *words: str, judge: Path = JUDGE) -> subprocess.CompletedProcess[str]:
        """Runs it to its end; nothing may be left."""
        ended = subprocess.run(self.command(*words, judge=judge), stdout=subprocess.PIPE, stderr=subprocess.PIPE, text=True, check=False)
        self.assertEqual(list(self.place.iterdir()), [])
        return ended

    def lying(self, status: int, says: str) -> Path:
        """A judge that says the same of all histories but the empty one."""
        path = self.folder / "judge"
        path.write_text(f'#!/bin/sh\n[ -n "$(cat)" ] || exit 0\necho "{says}"\nexit {status}\n')
        path.chmod(0o755)
        return path

    def test_the_machine_is_legal(self) -> None:
        ended = self.run_it()
        self.assertEqual((ended.returncode, ended.stderr), (0, ""))
        lines = ended.stdout.splitlines()
        self.assertEqual(lines[0], "TAP version 13")
        self.assertRegex(lines[-3], r"^ok \d+ - \d+ requests of \d+ processes$")
        self.assertRegex(lines[-1], r"^# (\d+) rounds: \1 legal; \d+ requests \(close \d+, flock \d+, ")

    def test_only_one_kind(self) -> None:
        for kind, other in (("fcntl", "flock"), ("flock", "set")):
            ended = self.run_it("--json", "--only", kind, "--clients", "3")
            totals = json.loads(ended.stdout.splitlines()[-1])
            self.assertEqual(ended.returncode, 0)
            self.assertEqual(totals["words"].get(other, 0), 0)
            self.assertGreater(totals["requests"], 100)

    def test_what_is_illegal_is_told_and_kept(self) -> None:
        ended = self.run_it("--json", judge=self.lying(3, "line 2: ok isn't possible"))
        told = [json.loads(line) for line in ended.stdout.splitlines()[1:-1]]
        self.assertEqual(ended.returncode, 1)
        self.assertEqual({(each["verdict"], each["says"]) for each in told}, {("illegal", "line 2: ok isn't possible")})
        # (those that ran while the first was judged are told too)
        self.assertEqual((self.folder / "window").read_text(), min((each["window"] for each in told), key=len))

    def test_what_is_not_judged_is_not_called_legal(self) -> None:
        ended = self.run_it(judge=self.lying(4, ""))
        self.assertEqual(ended.returncode, 2)
        self.assertIn("# SKIP not judged", ended.stdout)

    def test_a_round_whose_judging_takes_too_long_is_not_judged(self) -> None:
        slow = self.folder / "slow"
        slow.write_text('#!/bin/sh\n[ -n "$(cat)" ] || exit 0\nexec sleep 60\n')
        slow.chmod(0o755)
        begun = time.monotonic()
        ended = self.run_it("--judging", "0.2", judge=slow)
        self.assertEqual(ended.returncode, 2)
        self.assertIn("# SKIP not judged", ended.stdout)
        self.assertLess(time.monotonic() - begun, 60)

    def test_a_history_that_is_refused_stops_the_run(self) -> None:
        ended = self.run_it(judge=self.lying(2, "line 1: 2 Word"))
        self.assertEqual(ended.returncode, 2)
        self.assertIn("Bail out!", ended.stdout)

    def test_directories_have_to_be_of_one_folder(self) -> None:
        other = self.folder / "other"
        other.mkdir()
        ended = self.run_it(str(other))
        self.assertEqual(ended.returncode, 2)
        self.assertIn("aren't mounts of one folder", ended.stdout)

    def test_a_termination_leaves_nothing(self) -> None:
        before = set(MEMORY.glob("locktorture-*"))
        started = subprocess.Popen([*self.command(), "--seconds", "60"], stdout=subprocess.DEVNULL)
        deadline = time.monotonic() + LIMIT_SECONDS
        while not list(self.place.glob("*/file0")) and time.monotonic() < deadline:
            time.sleep(0.02)
        os.kill(started.pid, signal.SIGTERM)
        self.assertEqual(started.wait(LIMIT_SECONDS), 128 + signal.SIGTERM)
        self.assertEqual((list(self.place.iterdir()), set(MEMORY.glob("locktorture-*")) - before), ([], set()))
