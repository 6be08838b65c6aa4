"""Runs the steps on the mount and on a tmpfs, side by side, and judges what each saw."""

from __future__ import annotations

import argparse
import json
import os
import shlex
import shutil
import signal
import subprocess
import sys
import time
from dataclasses import dataclass, field
from pathlib import Path
from typing import Callable

from fusetest import corpus, descriptions, programs, records, special, waits
from fusetest.mount import CouldNotMount, Places, end_group
from fusetest.observe import Seen

# Each step with the seconds that it may take.
STEPS: dict[str, tuple[Callable[[Path], None], float]] = {
    "conflicts": (records.conflicts, 60),
    "closes": (records.closes, 60),
    "threads": (records.threads, 60),
    "ranges": (records.ranges, 60),
    "owners": (descriptions.owners, 60),
    "beside-records": (descriptions.beside_records, 60),
    "inherited": (descriptions.inherited, 60),
    "flocks": (descriptions.flocks, 60),
    "grants": (waits.grants, 120),
    "signals": (waits.signals, 180),
    "closed-meanwhile": (waits.closed_meanwhile, 120),
    "deadlocks": (waits.deadlocks, 120),
    "cycles-of-open-files": (waits.cycles_of_open_files, 120),
    "made-by-mknod": (special.made_by_mknod, 60),
    "another-user": (special.another_user, 60),
    "appends": (special.appends, 60),
    "refusals": (special.refusals, 120),
    "listing": (special.listing, 120),
    "package-tool": (programs.package_tool, 60),
    "mail-store": (programs.mail_store, 60),
    "counting": (programs.counting, 180),
    "sqlite-rollback": (programs.rollback, 300),
    "sqlite-wal": (programs.write_ahead, 300),
    "corpus": (corpus.scripts, 900),
    "random-scripts": (corpus.random_scripts, 900),
}
# What a tmpfs has nothing of.
ON_THE_MOUNT_ALONE = ("appends", "refusals", "listing")
# What lockreplay judges.
LOCKREPLAYS = ("corpus", "random-scripts")
# What only root can try: another user is to be let in.
ROOTS_ALONE = ("another-user",)
PACKAGES = {"fusermount3": "fuse3", "sqlite3": "sqlite3", "flock": "util-linux"}
SKIPPED = 0
# How long a process that was killed may take to end.
KILL_SECONDS = 5.0


@dataclass
class Tally:
    """How many observations were right, the others as lines, and the differences that FUSE makes."""

    passed: int = 0
    failures: list[str] = field(default_factory=list)
    by_fuse: dict[str, list[str]] = field(default_factory=dict)

    def judge(self, place: str, step: str, seen: Seen) -> None:
        """Counts an observation."""
        on_mount = place == "mount"
        if not seen.is_right(on_mount):
            right = seen.on_fuse if on_mount and seen.on_fuse is not None else seen.right
            self.failures.append(f"{step} on the {place}: {seen.name}: {seen.got}, and right is {right}")
            return
        self.passed += 1
        if on_mount and seen.on_fuse is not None:
            self.by_fuse.setdefault(seen.reason or "", []).append(f"{step}: {seen.name}: {seen.on_fuse}, and not {seen.right}")

    def fail(self, place: str, step: str, why: str) -> None:
        """Counts a step that didn't end as it should."""
        self.failures.append(f"{step} on the {place}: {why}")


def what_is_missing(lockfs: list[str]) -> str:
    """Why nothing can be run here, or nothing."""
    if not os.access("/dev/fuse", os.R_OK | os.W_OK):
        return "/dev/fuse isn't there, or not for this user"
    for program, package in PACKAGES.items():
        if not shutil.which(program):
            return f"{program} isn't there (package {package})"
    return "" if lockfs and shutil.which(lockfs[0]) else "no command of lockfs that is there"


def text_of(process: subprocess.Popen[str], limit: float, places: Places) -> str:
    """What the process prints. It is killed after a time, and then lockfs too, where even that doesn't end it: a process whose request
    isn't answered can't be killed."""
    for seconds, end in ((limit, lambda: end_group(process.pid)), (KILL_SECONDS, places.kill)):
        try:
            return process.communicate(timeout=seconds)[0]
        except subprocess.TimeoutExpired:
            end()
    return process.communicate()[0]


def run_step(step: str, place: str, folder: Path, places: Places, tally: Tally) -> None:
    """Runs a step in processes of its own, which don't outlive it."""
    command = [sys.executable, "-m", "fusetest", "--step", step, str(folder / step)]
    process = subprocess.Popen(command, stdout=subprocess.PIPE, stderr=subprocess.STDOUT, text=True, start_new_session=True)
    limit, began = STEPS[step][1], time.monotonic()
    try:
        text = text_of(process, limit, places)
    finally:
        end_group(process.pid)
    if time.monotonic() - began > limit:
        tally.fail(place, step, f"not over after {limit:.0f} s")
    count = 0
    for line in text.splitlines():
        if line.startswith("{"):
            tally.judge(place, step, Seen(**json.loads(line)))
            count += 1
        else:
            print(f"  {line}", flush=True)
    if process.returncode or not count:
        tally.fail(place, step, f"ended by status {process.returncode} after {count} observations")


def run_steps(names: list[str], places: Places, tally: Tally) -> None:
    """Runs each step on the mount, and then on the tmpfs."""
    for step in names:
        for place, folder in (("mount", places.mount), ("tmpfs", places.beside)):
            if place != "mount" and step in ON_THE_MOUNT_ALONE:
                continue
            failed, began = len(tally.failures), time.monotonic()
            run_step(step, place, folder, places, tally)
            verdict = "ok" if len(tally.failures) == failed else "FAILED"
            print(f"{verdict:6} {step} on the {place}, {time.monotonic() - began:.1f} s", flush=True)


def tell(tally: Tally) -> int:
    """Tells what came of it; the exit status."""
    for reason, differences in tally.by_fuse.items():
        print(f"by FUSE, since {reason}:")
        for difference in differences:
            print(f"  {difference}")
    for failure in tally.failures:
        print(f"FAILED {failure}")
    print(f"{tally.passed} passed, {len(tally.failures)} failed")
    return 1 if tally.failures else 0


def parser() -> argparse.ArgumentParser:
    """What the command line may say."""
    made = argparse.ArgumentParser(prog="fuse-test", description=__doc__)
    made.add_argument("--step", nargs=2, metavar=("STEP", "PATH"), help="run one step on a path; for the runner")
    made.add_argument("--only", action="append", choices=STEPS, help="run this step alone")
    made.add_argument("lockfs", nargs="*", help="the command of lockfs, as a valgrind before it")
    return made


def main() -> int:
    """Runs the tests; the exit status."""
    options = parser().parse_args()
    if options.step:
        STEPS[options.step[0]][0](Path(options.step[1]))
        return 0
    why = what_is_missing(options.lockfs)
    if why:
        print(f"fuse-test: skipped: {why}")
        return SKIPPED
    for number in (signal.SIGTERM, signal.SIGHUP):
        signal.signal(number, lambda signal_number, _: sys.exit(128 + signal_number))
    left_out = (() if "LOCKREPLAY" in os.environ else LOCKREPLAYS) + (() if os.geteuid() == 0 else ROOTS_ALONE)
    names = options.only or [name for name in STEPS if name not in left_out]
    # (for the step that has it print the list)
    os.environ["LOCKFS"] = shlex.join(options.lockfs)
    tally = Tally()
    try:
        with Places(options.lockfs) as places:
            run_steps(names, places, tally)
    except CouldNotMount as failed:
        print(f"fuse-test: {failed}", file=sys.stderr)
        return 1
    if places.status:
        tally.fail("mount", "lockfs", f"ended by status {places.status}")
    return tell(tally)
