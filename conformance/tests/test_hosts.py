"""Real processes: what they answer, that waits are seen, that a hang is told, and that nothing is left behind."""

from __future__ import annotations

import os
import signal
import subprocess
import sys
import tempfile
import time
from pathlib import Path

from harness import watch
from harness.command import HERE
from harness.host import has_ended
from harness.judge import AS_DEFINED, NOT_RUN, SKIPPED
from tests.support import HANG_SECONDS, LIMIT_SECONDS, LOCKREPLAY, RunnerTest

# On file systems of any kind, these show no known difference.
PLAIN = [
    "a-conversion-splits",
    "a-cycle-of-two",
    "close-of-a-dup-drops-locks",
    "deadlock-of-05",
    "dup2-onto-others",
    "eintr-setlkw",
    "exit-of-the-child",
    "flock-last-close",
    "mailbox-signal-and-kill",
    "mail-of-the-unborn",
    "ofd-through-dup-fork-and-exit",
    "the-33rd-descriptor",
    "the-257th-descriptor",
    "the-last-process-and-descriptor",
]


class Hosts(RunnerTest):
    """Scripts that are carried out."""

    def test_plain_scripts_go_as_defined(self) -> None:
        for name in PLAIN:
            with self.subTest(name):
                verdict = self.runner().run(self.corpus(name))
                self.assertEqual((verdict.kind, verdict.reason), (AS_DEFINED, ""))

    def test_waits_are_guessed_by_time(self) -> None:
        for name in ("a-cycle-of-two", "flock-waits"):
            verdict = self.runner(guesses=True).run(self.corpus(name))
            self.assertEqual((verdict.kind, verdict.reason), (AS_DEFINED, ""))

    def test_a_queue_script_is_skipped(self) -> None:
        self.assertEqual(self.runner().run(self.corpus("queue-an-upgrade")).kind, SKIPPED)

    def test_a_faulty_script_is_told(self) -> None:
        verdict = self.verdict("1 open 0 rw", "1 setlk 0 w set")
        self.assertEqual(verdict.kind, NOT_RUN)
        self.assertIn("line 2: 3 Count", verdict.reason)

    def test_a_channel_is_out_of_reach(self) -> None:
        verdict = self.verdict("1 open 0 rw", "1 close 256", "1 dup 257", "1 dup2 0 258", "1 setlk 0 w set 0 1")
        self.assertEqual(verdict.kind, AS_DEFINED)

    def test_who_was_refused_bails(self) -> None:
        """No system is asked about sections. A process ends at a bail behind an error, which drops its lock, and at no other."""
        verdict = self.verdict("1 open 0 rw", "1 fork 2", "1 setlk 0 w set 0 1", "1 enter 0", "1 bail", "2 setlk 0 w set 0 1", "2 enter 0 sh", "2 bail",
                               "2 setlk 0 w set 0 1", "2 bail", "2 enter 1", "1 enter 0 sh", "1 bail", "1 setlk 0 u set 0 0")
        self.assertEqual((verdict.kind, verdict.reason), (AS_DEFINED, ""))

    def test_who_was_told_ok_doesnt_bail(self) -> None:
        """The lock of process 1 is left, and process 2 is refused, wherever a visit was refused."""
        verdict = self.verdict("1 open 0 rw", "1 fork 2", "1 enter 0", "1 enter 0", "1 setlk 0 w set 0 1", "1 bail", "2 setlk 0 w set 0 1", "2 bail")
        self.assertEqual((verdict.kind, verdict.reason), (AS_DEFINED, ""))

    def test_a_hang_is_told_with_its_pid(self) -> None:
        self.lying("do_seek", lambda truth, *words: time.sleep(60))
        verdict = self.verdict("1 open 0 rw", "1 setlk 0 w set 0 1", "1 seek 0 5", limit=HANG_SECONDS)
        self.assertEqual(verdict.kind, NOT_RUN)
        self.assertRegex(verdict.reason, r"process 1 doesn't answer: pid \d+, state S.*'1 seek 0 5'")
        self.assert_nothing_left(verdict.reason)

    def test_a_death_is_told(self) -> None:
        self.lying("do_seek", lambda truth, *words: os._exit(3))
        verdict = self.verdict("1 open 0 rw", "1 seek 0 5")
        self.assertEqual(verdict.kind, NOT_RUN)
        self.assertIn("process 1 ended without an answer", verdict.reason)

    def assert_nothing_left(self, reason: str) -> None:
        """No file is left, and the process that is named has ended."""
        self.assertEqual(list(self.folder.iterdir()), [])
        self.assertTrue(has_ended(int(reason.split("pid ")[1].split(",")[0])))


class Interrupted(RunnerTest):
    """Runs that are ended from outside, in the middle of waits."""

    def start(self, text: str) -> subprocess.Popen[bytes]:
        """Starts locktest on a script that stays in its last wait for good, by agents who never settle."""
        script = self.folder / "script.lock"
        script.write_text(text)
        self.place = Path(tempfile.mkdtemp(dir=self.folder))
        command = [sys.executable, str(HERE / "locktest"), "--settle", "100", "--lockreplay", str(LOCKREPLAY), str(self.place), str(script)]
        started = subprocess.Popen(command, stdout=subprocess.DEVNULL)
        self.addCleanup(started.wait)
        deadline = time.monotonic() + LIMIT_SECONDS
        while len(self.agents(started.pid)) < 2 and time.monotonic() < deadline:
            time.sleep(0.02)
        time.sleep(0.1)
        return started

    def agents(self, host: int) -> list[int]:
        """The processes whose ancestor is the host."""
        parents = {}
        for entry in Path("/proc").iterdir():
            if entry.name.isdigit() and (fields := watch.read_text(f"/proc/{entry.name}/stat").rpartition(")")[2].split()):
                parents[int(entry.name)] = int(fields[1])
        return [pid for pid, parent in parents.items() if host in (parent, parents.get(parent))]

    def assert_all_end(self, pids: list[int]) -> None:
        deadline = time.monotonic() + LIMIT_SECONDS
        while not all(has_ended(pid) for pid in pids) and time.monotonic() < deadline:
            time.sleep(0.02)
        self.assertTrue(all(has_ended(pid) for pid in pids))

    def test_a_termination_leaves_nothing(self) -> None:
        host = self.start("1 open 0 rw\n1 fork 2\n1 setlk 0 w set 0 1\n2 setlkw 0 w set 0 1\n")
        pids = self.agents(host.pid)
        self.assertGreaterEqual(len(pids), 2)
        host.send_signal(signal.SIGTERM)
        self.assertEqual(host.wait(), 128 + signal.SIGTERM)
        self.assert_all_end(pids)
        self.assertEqual(list(self.place.iterdir()), [])

    def test_a_kill_leaves_no_process(self) -> None:
        host = self.start("1 open 0 rw\n1 fork 2\n1 setlk 0 w set 0 1\n2 setlkw 0 w set 0 1\n")
        pids = self.agents(host.pid)
        self.assertGreaterEqual(len(pids), 2)
        host.kill()
        self.assert_all_end(pids)
