"""Runs scripts in a folder and judges them."""

from __future__ import annotations

import itertools
import shutil
import subprocess
import sys
import tempfile
import time
from dataclasses import dataclass, field
from pathlib import Path

from harness.guard import LOOK_AGAIN_SECONDS, CouldNotRun, guarded
from harness.host import Host, Timing, Watcher, has_ended
from harness.judge import DIFFERS, NOT_RUN, SKIPPED, Judge, Verdict
from harness.replay import Faulty
from harness.script import Script


# How long the command may take that mounts anew, and what a kill didn't end may then take to end.
REMOUNT_SECONDS = 120.0
FOLDER_PREFIX = "locktest-"


@dataclass
class Runner:
    """A folder of its own on the file system that is asked, the judge, how waits are seen, and the names of scripts that are left out.
    `left` has pids that a kill doesn't end."""

    folder: Path
    judge: Judge
    watcher: Watcher
    timing: Timing
    skipped: frozenset[str] = frozenset()
    numbers: itertools.count[int] = field(default_factory=itertools.count)
    left: list[int] = field(default_factory=list)

    def run(self, script: Script) -> Verdict:
        """Carries a script out, and judges it."""
        try:
            self.judge.lockreplay.run(script)
        except Faulty as fault:
            return Verdict(NOT_RUN, reason=f"the script is refused: {fault}")
        if script.name in self.skipped:
            return Verdict(SKIPPED, reason="by --skip")
        if script.queues:
            return Verdict(SKIPPED, reason="policy queue: no system is known to queue")
        host = Host(self.folder / str(next(self.numbers)), script, self.watcher, self.timing)
        reason = ""
        try:
            host.run()
        except (CouldNotRun, OSError) as failed:
            reason = str(failed)
        finally:
            host.close()
        # The last event of a run that failed isn't over.
        verdict = self.judge.judge(script, host.journal[:-1] if reason else host.journal)
        verdict.journal = host.journal
        self.left += host.left
        if host.left:
            reason = f"{reason}; left behind, since a kill doesn't end them: pids {host.left}".lstrip("; ")
        if reason:
            verdict.stuck = True
            verdict.reason = reason
            verdict.kind = verdict.kind if verdict.kind == DIFFERS else NOT_RUN
        return verdict

    def remount(self, command: str) -> None:
        """Mounts the file system anew by a command of sh, and goes on in a new folder of the same directory. What didn't end by a kill
        must end by that. Raises CouldNotRun where it doesn't, or where the command fails."""
        try:
            ended = subprocess.run(["sh", "-c", command], stdout=sys.stderr, timeout=REMOUNT_SECONDS, check=False)
        except subprocess.TimeoutExpired as late:
            raise CouldNotRun(f"the command of --remount isn't over after {REMOUNT_SECONDS:.0f} s") from late
        if ended.returncode:
            raise CouldNotRun(f"the command of --remount ended by status {ended.returncode}")
        deadline = time.monotonic() + REMOUNT_SECONDS
        while not all(has_ended(pid) for pid in self.left):
            if time.monotonic() > deadline:
                raise CouldNotRun(f"mounting anew doesn't end the pids {self.left}")
            time.sleep(LOOK_AGAIN_SECONDS)
        old, self.left = self.folder, []
        guarded(lambda: shutil.rmtree(old, ignore_errors=True), self.timing.limit)
        self.folder = Path(tempfile.mkdtemp(prefix=FOLDER_PREFIX, dir=old.parent))
