"""A system that answers wrongly is found, and no lie is taken for a known difference."""

from __future__ import annotations

import time

from harness.chance import make_script, shrink
from harness.judge import AS_DEFINED, DIFFERS, NOT_RUN
from harness.script import Script
from tests.support import HANG_SECONDS, RunnerTest

TWO = ("1 open 0 rw", "1 fork 2")


class Lies(RunnerTest):
    """Each test has agents that lie in one way."""

    def test_a_truthful_agent_is_believed(self) -> None:
        self.assertEqual(self.verdict(*TWO, "1 setlk 0 w set 0 10", "2 setlk 0 w set 9 1").kind, AS_DEFINED)

    def test_a_conflicting_lock_is_set(self) -> None:
        self.lying("do_lock", lambda truth, *words: "ok" if (note := truth(*words)) == "EAGAIN" else note)
        verdict = self.verdict(*TWO, "1 setlk 0 w set 0 10", "2 setlk 0 w set 9 1", "2 getlk 0 w set 0 1")
        self.assertEqual(verdict.kind, DIFFERS)
        assert verdict.difference is not None
        self.assertEqual(verdict.journal[verdict.difference.moment].request.line, 4)
        self.assertEqual(verdict.difference.right, "2#1 setlk 0 w set 9 1 | 2#1 EAGAIN")

    def test_a_free_lock_is_refused(self) -> None:
        self.lying("do_lock", lambda truth, *words: "EAGAIN" if words[1] == "setlk" else truth(*words))
        self.assertEqual(self.verdict("1 open 0 rw", "1 setlk 0 w set 0 1").kind, DIFFERS)

    def test_another_error_is_told(self) -> None:
        self.lying("do_lock", lambda truth, *words: "EINVAL" if (note := truth(*words)) == "EBADF" else note)
        self.assertEqual(self.verdict("1 open 0 r", "1 setlk 0 w set 0 1").kind, DIFFERS)

    def test_a_close_keeps_locks(self) -> None:
        self.lying("do_close", lambda truth, *words: "ok")
        verdict = self.verdict(*TWO, "1 dup 0", "1 setlk 0 w set 0 1", "1 close 1", "2 setlk 0 w set 0 1")
        self.assertEqual(verdict.kind, DIFFERS)

    def test_a_lock_that_blocks_is_made_up(self) -> None:
        self.lying("do_lock", lambda truth, *words: "held w 3 1 -1" if words[1] == "getlk" else truth(*words))
        verdict = self.verdict(*TWO, "1 setlk 0 w set 0 10", "2 getlk 0 w set 0 10")
        self.assertEqual(verdict.kind, DIFFERS)

    def test_a_plain_cycle_is_not_found(self) -> None:
        self.lying("do_lock", lambda truth, *words: wait_for_good(truth, *words))
        verdict = self.runner(limit=HANG_SECONDS).run(self.corpus("a-cycle-of-two"))
        self.assertEqual(verdict.kind, NOT_RUN)

    def test_a_deadlock_is_made_up(self) -> None:
        self.lying("do_lock", lambda truth, *words: "EDEADLK" if words[1] == "setlkw" else truth(*words))
        self.assertEqual(self.verdict(*TWO, "1 setlk 0 w set 0 1", "2 setlkw 0 w set 0 1").kind, DIFFERS)

    def test_a_wait_ends_at_once(self) -> None:
        self.lying("do_lock", lambda truth, *words: "ok" if words[1] == "setlkw" else truth(*words))
        self.assertEqual(self.verdict(*TWO, "1 setlk 0 w set 0 1", "2 setlkw 0 w set 0 1").kind, DIFFERS)

    def test_a_signal_sets_the_lock(self) -> None:
        self.lying("do_lock", lambda truth, *words: "ok" if (note := truth(*words)) == "EINTR" else note)
        self.assertEqual(self.runner().run(self.corpus("eintr-setlkw")).kind, DIFFERS)

    def test_a_flock_lock_excludes_nobody(self) -> None:
        self.lying("do_flock", lambda truth, *words: "ok" if words[-1] == "nb" else truth(*words))
        self.assertEqual(self.runner().run(self.corpus("flock-exclusive")).kind, DIFFERS)

    def test_a_conversion_takes_what_another_holds(self) -> None:
        self.lying("do_flock", lambda truth, *words: "ok" if (note := truth(*words)) == "EAGAIN" else note)
        verdict = self.verdict("1 open 0 rw", "1 open 0 rw", "1 flock 0 sh", "1 flock 1 sh", "1 flock 0 ex nb")
        self.assertEqual(verdict.kind, DIFFERS)

    def test_a_random_script_is_shrunk(self) -> None:
        self.lying("do_lock", lambda truth, *words: "ok" if (note := truth(*words)) == "EAGAIN" else note)
        runner = self.runner()

        def differs(script: Script) -> bool:
            return runner.run(script).kind == DIFFERS

        script = next(script for number in range(50) if differs(script := make_script(self.lockreplay, 1, number)))
        shrunk = shrink(script, differs)
        self.assertTrue(differs(shrunk))
        # Two owners have to come by descriptors, one sets a lock, and one is refused another.
        self.assertLessEqual(len(shrunk.requests), 6)


def wait_for_good(truth, *words: str) -> str:  # type: ignore[no-untyped-def]
    """Hangs where a deadlock is told."""
    note: str = truth(*words)
    if note == "EDEADLK":
        time.sleep(60)
    return note
