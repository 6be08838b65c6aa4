"""What the tests share: a runner in a temporary directory, and agents that lie."""

from __future__ import annotations

import os
import tempfile
import unittest
from pathlib import Path
from typing import Callable, Optional
from unittest import mock

from harness import agent, calls, filesystem, watch
from harness.command import CORPUS, PROGRAM
from harness.host import Timing
from harness.judge import Judge, Verdict
from harness.replay import Lockreplay
from harness.runner import Runner
from harness.script import Script

LOCKREPLAY = Path(os.environ.get("LOCKREPLAY", PROGRAM))
# On a busy machine an answer may take long; where a hang is what is tested, there is none to come.
LIMIT_SECONDS = 30.0
HANG_SECONDS = 3.0
GUESS_SECONDS = 1.0
PROC_WORKS = watch.ProcWatcher.works()


class RunnerTest(unittest.TestCase):
    """A test that carries scripts out in a temporary directory."""

    def setUp(self) -> None:
        calls.become_subreaper()
        folder = tempfile.TemporaryDirectory(prefix="locktest-tests-")
        self.addCleanup(folder.cleanup)
        self.folder = Path(folder.name)
        self.lockreplay = Lockreplay(LOCKREPLAY)

    def runner(self, guesses: bool = not PROC_WORKS, limit: float = LIMIT_SECONDS) -> Runner:
        """A runner that sees waits in /proc where the system lets it, or guesses them by time."""
        judge = Judge(self.lockreplay, filesystem.look_at(self.folder))
        watcher = watch.TimeWatcher() if guesses else watch.ProcWatcher()
        return Runner(self.folder, judge, watcher, Timing(GUESS_SECONDS if guesses else 0.0, limit))

    def verdict(self, *lines: str, limit: float = LIMIT_SECONDS) -> Verdict:
        """The verdict on a script of these lines."""
        return self.runner(limit=limit).run(Script.parse("test", "".join(f"{line}\n" for line in lines)))

    def corpus(self, name: str) -> Script:
        """A script of the corpus."""
        return Script.parse(name, (CORPUS / f"{name}.lock").read_text())

    def lying(self, method: str, lie: Callable[..., Optional[str]]) -> None:
        """Has the agents of this test carry a request out by the lie instead. It is told the true method first."""
        truth = getattr(agent.Agent, method)
        patch = mock.patch.object(agent.Agent, method, lambda *words: lie(truth, *words))
        patch.start()
        self.addCleanup(patch.stop)
