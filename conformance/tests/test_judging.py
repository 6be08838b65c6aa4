"""Judging journals that are written here: what is taken for a known difference, and what isn't."""

from __future__ import annotations

import unittest

from harness.chance import make_script, shrink
from harness.filesystem import FileSystem
from harness.journal import read_event
from harness.judge import AS_DEFINED, DIFFERS, KNOWN, Judge, Verdict
from harness.known import OF_FUSE, OF_LINUX, Recogniser
from harness.replay import Lockreplay
from harness.script import LARGEST_OFFSET, Request, Script
from tests.support import LOCKREPLAY

CYCLE_OF_TWO = """1#1 open 0 rw | 1#1 fd 0
1#2 fork 2 | 1#2 ok
1#3 setlk 0 w set 0 1 | 1#3 ok
2#1 setlk 0 w set 1 1 | 2#1 ok
1#4 setlkw 0 w set 1 1 | 1#4 waits
2#2 setlkw 0 w set 0 1 | 2#2 """

ONE_RELEASE = """1#1 open 0 rw | 1#1 fd 0
1#2 fork 2 | 1#2 ok
1#3 fork 3 | 1#3 ok
1#4 setlk 0 w set 0 2 | 1#4 ok
2#1 setlkw 0 w set 0 1 | 2#1 waits
3#1 setlkw 0 w set 0 2 | 3#1 waits
1#5 setlk 0 u set 0 2 | 1#5 ok"""


def verdict_on(journal: str, recognisers: dict[str, Recogniser], largest_offset: int = LARGEST_OFFSET) -> Verdict:
    """The verdict on a journal; the script is what it has taken."""
    events = [read_event(line) for line in journal.splitlines()]
    script = Script("test", "", (), ()).of_requests(event.request for event in events)
    return Judge(Lockreplay(LOCKREPLAY), FileSystem("ext4", "/", "rw", largest_offset), recognisers).judge(script, events)


class Judging(unittest.TestCase):
    """Journals as a system might show them."""

    def judge(self, journal: str, largest_offset: int = LARGEST_OFFSET) -> Verdict:
        """The verdict where Linux's own known differences are accepted."""
        return verdict_on(journal, OF_LINUX, largest_offset)

    def test_what_is_right(self) -> None:
        self.assertEqual(self.judge(CYCLE_OF_TWO + "EDEADLK").kind, AS_DEFINED)

    def test_a_plain_cycle_must_be_found(self) -> None:
        self.assertEqual(self.judge(CYCLE_OF_TWO + "waits").kind, DIFFERS)

    def test_a_waiter_of_either_order_may_come_first(self) -> None:
        self.assertEqual(self.judge(ONE_RELEASE + " | 2#1 ok").kind, AS_DEFINED)
        verdict = self.judge(ONE_RELEASE + " | 3#1 ok\n3#2 setlk 0 u set 0 2 | 3#2 ok | 2#1 ok")
        self.assertEqual((verdict.kind, [finding.name for finding in verdict.findings]), (KNOWN, ["order-of-grants"]))

    def test_two_writers_never_come_together(self) -> None:
        self.assertEqual(self.judge(ONE_RELEASE + " | 2#1 ok | 3#1 ok").kind, DIFFERS)

    def test_a_release_must_wake(self) -> None:
        self.assertEqual(self.judge(ONE_RELEASE).kind, DIFFERS)

    def test_the_rest_is_compared_behind_another_order(self) -> None:
        self.assertEqual(self.judge(ONE_RELEASE + " | 3#1 ok\n3#2 setlk 0 u set 0 2 | 3#2 ok").kind, DIFFERS)

    def test_another_blocker_must_be_one(self) -> None:
        front = "1#1 open 0 rw | 1#1 fd 0\n1#2 fork 2 | 1#2 ok\n1#3 fork 3 | 1#3 ok\n2#1 setlk 0 r set 0 1 | 2#1 ok\n"
        front += "3#1 setlk 0 r set 5 1 | 3#1 ok\n1#4 getlk 0 w set 0 9 | 1#4 held "
        self.assertEqual(self.judge(front + "r 0 1 2").kind, AS_DEFINED)
        self.assertEqual(self.judge(front + "r 5 1 3").kind, KNOWN)
        for wrong in ("r 5 1 2", "w 5 1 3", "r 5 2 3", "r 5 1 -1"):
            self.assertEqual(self.judge(front + wrong).kind, DIFFERS)

    def test_an_overflow_must_be_one(self) -> None:
        front = f"1#1 open 0 rw | 1#1 fd 0\n1#2 seek 0 9 | 1#2 ok\n1#3 setlk 0 w cur {LARGEST_OFFSET - 8} "
        self.assertEqual(self.judge(front + "-5 | 1#3 EOVERFLOW").kind, KNOWN)
        front = front.replace("seek 0 9", "seek 0 8")
        self.assertEqual(self.judge(front + "-5 | 1#3 EOVERFLOW").kind, DIFFERS)

    def test_a_seek_must_be_past_the_largest_file(self) -> None:
        journal = "1#1 open 0 rw | 1#1 fd 0\n1#2 seek 0 1000 | 1#2 EINVAL\n1#3 setlk 0 w cur 0 1 | 1#3 ok"
        self.assertEqual(self.judge(journal, largest_offset=999).kind, KNOWN)
        self.assertEqual(self.judge(journal, largest_offset=1000).kind, DIFFERS)

    def test_a_conversion_is_either_way(self) -> None:
        front = "1#1 open 0 rw | 1#1 fd 0\n1#2 fork 2 | 1#2 ok\n2#1 open 0 rw | 2#1 fd 1\n1#3 flock 0 ex | 1#3 ok\n"
        front += "2#2 flock 1 ex | 2#2 waits\n1#4 flock 0 sh nb | 1#4 "
        self.assertEqual(self.judge(front + "EAGAIN | 2#2 ok").kind, AS_DEFINED)
        self.assertEqual(self.judge(front + "ok").kind, KNOWN)
        self.assertEqual(self.judge(front + "EAGAIN").kind, DIFFERS)
        self.assertEqual(self.judge(front + "ok | 2#2 ok").kind, DIFFERS)


TWO_DESCRIPTIONS = """1#1 open 0 rw | 1#1 fd 0
1#2 fork 2 | 1#2 ok
2#1 open 0 rw | 2#1 fd 1
1#3 osetlk 0 w set 0 1 | 1#3 ok
"""


class OnFuse(unittest.TestCase):
    """Journals as a FUSE mount shows them, whose server isn't told which locks are of open file descriptions."""

    def fuse_names(self, journal: str) -> list[str]:
        """The differences that are known on FUSE; without them the journal differs."""
        verdict = verdict_on(journal, OF_LINUX | OF_FUSE)
        self.assertEqual(verdict.kind, KNOWN)
        self.assertEqual(verdict_on(journal, OF_LINUX).kind, DIFFERS)
        return [finding.name for finding in verdict.findings]

    def differs(self, journal: str) -> None:
        self.assertEqual(verdict_on(journal, OF_LINUX | OF_FUSE).kind, DIFFERS)

    def test_an_open_file_description_lock_is_told_with_a_pid(self) -> None:
        self.assertEqual(self.fuse_names(TWO_DESCRIPTIONS + "2#2 getlk 1 r set 0 1 | 2#2 held w 0 1 1"), ["fuse-getlk-pid"])
        for wrong in ("w 0 1 2", "w 0 1 pid:4711", "w 0 1 pid:0", "r 0 1 1", "w 0 2 1"):
            self.differs(TWO_DESCRIPTIONS + f"2#2 getlk 1 r set 0 1 | 2#2 held {wrong}")

    def test_the_process_with_the_pid_may_have_ended(self) -> None:
        ended = "2#2 osetlk 0 w set 0 1 | 2#2 ok\n2#3 exit\n1#4 open 0 rw | 1#4 fd 1\n"
        journal = TWO_DESCRIPTIONS.replace("1#3 osetlk 0 w set 0 1", "1#3 seek 0 0") + ended
        for told in ("2", "pid:0"):
            self.assertEqual(self.fuse_names(journal + f"1#5 getlk 1 r set 0 1 | 1#5 held w 0 1 {told}"), ["fuse-getlk-pid"])
        self.differs(journal + "1#5 getlk 1 r set 0 1 | 1#5 held w 0 1 1")

    def test_of_several_locks_any_may_be_told(self) -> None:
        journal = TWO_DESCRIPTIONS.replace("1#3 osetlk 0 w", "1#3 osetlk 0 r") + "2#2 osetlk 1 r set 0 3 | 2#2 ok\n1#4 fork 3 | 1#4 ok\n"
        self.assertEqual(self.fuse_names(journal + "3#1 getlk 0 w set 0 9 | 3#1 held r 0 3 2"), ["fuse-getlk-pid"])
        self.differs(journal + "3#1 getlk 0 w set 0 9 | 3#1 held r 0 3 1")

    def test_a_record_lock_is_told_without_its_pid(self) -> None:
        journal = "1#1 open 0 rw | 1#1 fd 0\n1#2 setlk 0 w set 0 1 | 1#2 ok\n1#3 ogetlk 0 r set 0 4 | 1#3 held "
        self.assertEqual(self.fuse_names(journal + "w 0 1 -1"), ["fuse-ofd-getlk-pid"])
        for wrong in ("w 0 1 pid:0", "w 0 2 -1", "r 0 1 -1"):
            self.differs(journal + wrong)
        self.differs("1#1 open 0 rw | 1#1 fd 0\n1#2 fork 2 | 1#2 ok\n1#3 setlk 0 w set 0 1 | 1#3 ok\n2#1 getlk 0 r set 0 1 | 2#1 held w 0 1 -1")

    def test_a_cycle_of_open_file_descriptions_is_refused(self) -> None:
        journal = TWO_DESCRIPTIONS + "2#2 osetlk 1 w set 1 1 | 2#2 ok\n1#4 osetlkw 0 w set 1 1 | 1#4 waits\n"
        self.assertEqual(self.fuse_names(journal + "2#3 osetlkw 1 w set 0 1 | 2#3 EDEADLK"), ["fuse-ofd-deadlock"])
        behind = "2#3 osetlkw 1 w set 0 1 | 2#3 EDEADLK\n2#4 osetlk 1 u set 1 1 | 2#4 ok"
        self.assertEqual(self.fuse_names(journal + behind + " | 1#4 ok"), ["fuse-ofd-deadlock"])
        self.differs(journal + behind)

    def test_what_closes_no_cycle_waits(self) -> None:
        self.differs(TWO_DESCRIPTIONS + "2#2 osetlkw 1 w set 0 1 | 2#2 EDEADLK")
        self.differs(TWO_DESCRIPTIONS + "2#2 setlkw 1 w set 0 1 | 2#2 EDEADLK")


class Chance(unittest.TestCase):
    """Scripts made at random."""

    def test_a_seed_gives_its_scripts(self) -> None:
        lockreplay = Lockreplay(LOCKREPLAY)
        first, second = (make_script(lockreplay, 7, 3) for _ in range(2))
        self.assertEqual(first.text, second.text)
        self.assertNotEqual(first.text, make_script(lockreplay, 7, 4).text)
        self.assertNotEqual(first.text, make_script(lockreplay, 8, 3).text)

    def test_shrinking_keeps_what_differs(self) -> None:
        script = make_script(Lockreplay(LOCKREPLAY), 7, 3)
        needed = {script.requests[0], script.requests[-1]}
        kept = {str(request) for request in needed}
        shrunk = shrink(script, lambda shorter: kept <= {str(request) for request in shorter.requests})
        self.assertEqual({str(request) for request in shrunk.requests}, kept)
        self.assertTrue(all(isinstance(request, Request) for request in shrunk.requests))
