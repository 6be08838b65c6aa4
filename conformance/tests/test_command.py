"""The command line: scripts that are left out, and a file system that is mounted anew."""

from __future__ import annotations

import contextlib
import io
import json
import time
from typing import Optional

from harness import command
from harness.guard import CouldNotRun
from harness.judge import AS_DEFINED, NOT_RUN, SKIPPED
from tests.support import HANG_SECONDS, LOCKREPLAY, RunnerTest

SCRIPTS = {"first": "1 open 0 rw\n1 setlk 0 w set 0 1\n", "hangs": "1 open 0 rw\n1 setlk 0 w set 7 1\n", "last": "1 open 0 r\n"}


class Commands(RunnerTest):
    """Runs of locktest on a directory of its own, of scripts the second of which may hang."""

    def run_locktest(self, *words: str) -> tuple[int, dict[str, str]]:
        """The exit status, and how each script that was told went."""
        paths = [self.folder / f"{name}.lock" for name in SCRIPTS]
        for path, text in zip(paths, SCRIPTS.values()):
            path.write_text(text)
        place = self.folder / "asked"
        place.mkdir()
        common = ["--json", "--lockreplay", str(LOCKREPLAY), "--limit", str(HANG_SECONDS)]
        options = command.parser().parse_args([*common, *words, str(place), *map(str, paths)])
        with contextlib.redirect_stdout(io.StringIO()) as told:
            status = command.run(options)
        self.assertEqual(list(place.iterdir()), [])
        lines = [json.loads(line) for line in told.getvalue().splitlines()]
        return status, {line["script"]: line["verdict"] for line in lines if "script" in line}

    def hanging(self) -> None:
        """Has a lock on byte 7 never be answered."""

        def lock(truth: object, *words: str) -> Optional[str]:
            if words[5] == "7":
                time.sleep(600)
            return truth(*words)  # type: ignore[operator]

        self.lying("do_lock", lock)

    def test_a_script_is_left_out(self) -> None:
        status, verdicts = self.run_locktest("--skip", "hangs")
        self.assertEqual((status, verdicts), (0, {"first": AS_DEFINED, "hangs": SKIPPED, "last": AS_DEFINED}))

    def test_what_is_left_out_must_be_there(self) -> None:
        with self.assertRaises(CouldNotRun):
            self.run_locktest("--skip", "hang")

    def test_the_first_that_hangs_ends_the_run(self) -> None:
        self.hanging()
        status, verdicts = self.run_locktest()
        self.assertEqual((status, verdicts), (2, {"first": AS_DEFINED, "hangs": NOT_RUN}))

    def test_the_rest_goes_on_behind_a_mount(self) -> None:
        self.hanging()
        told = self.folder / "mounted"
        status, verdicts = self.run_locktest("--remount", f"echo again >> '{told}'")
        self.assertEqual((status, verdicts), (2, {"first": AS_DEFINED, "hangs": NOT_RUN, "last": AS_DEFINED}))
        self.assertEqual(told.read_text(), "again\n")

    def test_a_mount_that_fails_ends_the_run(self) -> None:
        self.hanging()
        status, verdicts = self.run_locktest("--keep-going", "--remount", "exit 3")
        self.assertEqual((status, verdicts), (2, {"first": AS_DEFINED, "hangs": NOT_RUN}))
