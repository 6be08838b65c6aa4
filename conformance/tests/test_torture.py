"""locktorture's histories: what is written of a round is what stands here, written by hand; what is legal, and what is left of what isn't."""

from __future__ import annotations

import errno
import random
import tempfile
import unittest
from collections import Counter
from pathlib import Path
from unittest import mock

from tests import planted, second_opinion
from torture.history import LARGEST_OFFSET, Manner, Writer
from torture.judging import OVER_LIMIT, HistoryJudge, Verdict, shorten
from torture.log import Call, Log, Process, Record
from torture.outages import Outage


def opened(start: int, end: int, descriptor: int, file: int = 0) -> Record:
    return Record(Call.OPEN, start, end, descriptor, number=file)


def closed(start: int, end: int | None, descriptor: int) -> Record:
    return Record(Call.CLOSE, start, end, 0, descriptor)


def bytes_of(call: Call, start: int, end: int | None, result: int = 0, is_ofd: bool = False, descriptor: int = 3, mode: str = "w") -> Record:
    return Record(call, start, end, result, descriptor, is_ofd=is_ofd, mode=mode, first=0, last=9)


def flocked(start: int, end: int | None, mode: str, result: int = 0, at_once: bool = False, descriptor: int = 3) -> Record:
    return Record(Call.FLOCK, start, end, result, descriptor, mode=mode, at_once=at_once)


def process(pid: int, *records: Record, **more: int) -> Process:
    return Process(pid, list(records), **more)  # type: ignore[arg-type]


class Histories(unittest.TestCase):
    """Histories of rounds that were written by hand. Processes are the owners 1, 2, ..; the first description 1000 and, by flock, 1001."""

    def assert_history(self, processes: list[Process], *lines: str, manner: Manner = Manner(), ended_at: int = 100) -> None:
        self.assertEqual(Writer(Log(ended_at, processes), manner).write().splitlines(), list(lines))

    def test_owners_are_processes_and_descriptions(self) -> None:
        calls = [
            opened(1, 2, 3),
            bytes_of(Call.SET, 3, 4),
            bytes_of(Call.SET, 5, 6, -errno.EAGAIN, is_ofd=True),
            bytes_of(Call.WAIT, 7, 8, -errno.EINTR, is_ofd=True, mode="r"),
            flocked(9, 10, "x", -errno.EAGAIN, at_once=True),
            bytes_of(Call.UNLOCK, 11, 12),
        ]
        self.assert_history(
            [process(7, *calls)],
            "> 0 set 0 1 w 0 9",
            "< 0 ok",
            "> 1 set 0 1000 w 0 9",
            "< 1 busy",
            "> 2 wait 0 1000 r 0 9",
            "< 2 EINTR",
            "> 3 flock 0 1001 ex nb",
            "< 3 busy",
            "> 4 unlock 0 1 0 9",
            "< 4 ok",
        )

    def test_of_equal_times_requests_come_first(self) -> None:
        one = process(7, opened(1, 2, 3), bytes_of(Call.SET, 3, 5), bytes_of(Call.UNLOCK, 5, 6))
        other = process(8, opened(1, 2, 3, file=1), bytes_of(Call.SET, 4, 6))
        lines = ["> 0 set 0 1 w 0 9", "> 2 set 1 2 w 0 9", "> 1 unlock 0 1 0 9", "< 0 ok", "< 1 ok", "< 2 ok"]
        self.assert_history([one, other], *lines)

    def test_a_close_takes_traditional_locks(self) -> None:
        calls = [opened(1, 2, 3), opened(3, 4, 4), bytes_of(Call.SET, 5, 6), closed(7, 8, 4), closed(9, 10, 3)]
        # The second close finds nothing, and isn't told.
        self.assert_history([process(7, *calls)], "> 0 set 0 1 w 0 9", "< 0 ok", "> 1 close 0 1", "< 1 ok")

    def test_a_last_close_takes_what_the_description_has(self) -> None:
        calls = [
            opened(1, 2, 3),
            Record(Call.DUP, 3, 4, 4, 3),
            bytes_of(Call.SET, 5, 6, is_ofd=True),
            flocked(7, 8, "s"),
            closed(9, 10, 4),
            closed(11, 12, 3),
        ]
        self.assert_history(
            [process(7, *calls)],
            "> 0 set 0 1000 w 0 9",
            "< 0 ok",
            "> 1 flock 0 1001 sh",
            "< 1 ok",
            "> 2 close 0 1000",
            "> 3 close 0 1001",
            "< 2 ok",
            "< 3 ok",
        )

    def test_a_last_close_with_nothing_left_is_not_told(self) -> None:
        calls = [opened(1, 2, 3), bytes_of(Call.SET, 3, 4, is_ofd=True), flocked(5, 6, "s")]
        calls += [bytes_of(Call.UNLOCK, 7, 8, is_ofd=True), flocked(9, 10, "u"), closed(11, 12, 3)]
        lines = ["> 0 set 0 1000 w 0 9", "< 0 ok", "> 1 flock 0 1001 sh", "< 1 ok", "> 2 unlock 0 1000 0 9", "< 2 ok", "> 3 flock 0 1001 un", "< 3 ok"]
        self.assert_history([process(7, *calls)], *lines)

    def test_an_unlock_that_began_before_may_have_come_before(self) -> None:
        parent = [opened(1, 2, 3), Record(Call.FORK, 3, 4, 8, number=1), bytes_of(Call.SET, 5, 7, is_ofd=True), closed(9, 10, 3)]
        child = process(8, bytes_of(Call.UNLOCK, 6, 8, is_ofd=True), closed(11, 12, 3), parent=0, forked_by=1)
        lines = ["> 0 set 0 1000 w 0 9", "> 1 unlock 0 1000 0 9", "< 0 ok", "< 1 ok", "> 2 close 0 1000", "< 2 ok"]
        self.assert_history([process(7, *parent), child], *lines)

    def test_a_last_close_may_be_either_of_two(self) -> None:
        parent = [opened(1, 2, 3), bytes_of(Call.SET, 3, 4, is_ofd=True), Record(Call.FORK, 5, 6, 8, number=1), closed(20, 40, 3)]
        child = process(8, closed(30, 35, 3), parent=0, forked_by=2)
        # Both closes have begun at 30, and both are over at 40.
        other = process(9, opened(1, 2, 3, file=1), flocked(25, 32, "s"), flocked(36, 38, "u"))
        self.assert_history(
            [process(7, *parent), child, other],
            "> 0 set 0 1000 w 0 9",
            "< 0 ok",
            "> 1 flock 1 1003 sh",
            "> 3 close 0 1000",
            "< 1 ok",
            "> 2 flock 1 1003 un",
            "< 2 ok",
            "< 3 ok",
        )

    def test_a_description_lives_while_a_child_has_it(self) -> None:
        parent = [opened(1, 2, 3), flocked(3, 4, "x"), Record(Call.FORK, 5, 6, 8, number=1), closed(7, 8, 3)]
        child = process(8, flocked(9, 10, "s"), parent=0, forked_by=2)
        self.assert_history([process(7, *parent), child], "> 0 flock 0 1001 ex", "< 0 ok", "> 1 flock 0 1001 sh", "< 1 ok")

    def test_a_fork_that_never_was_has_nothing(self) -> None:
        parent = [opened(1, 2, 3), flocked(3, 4, "x"), Record(Call.FORK, 5, None, number=1)]
        never = process(0, parent=0, forked_by=2)
        lines = ["> 0 flock 0 1001 ex", "< 0 ok", "> 1 gone 0 1001", "< 1 ok"]
        self.assert_history([process(7, *parent, killed_at=6, waited_at=9), never], *lines)

    def test_a_dup2_closes_its_target(self) -> None:
        calls = [opened(1, 2, 3), opened(3, 4, 4, file=1), bytes_of(Call.SET, 5, 6, descriptor=4), flocked(7, 8, "x", descriptor=4)]
        calls += [Record(Call.DUP2, 9, 10, 4, 3, number=4), flocked(11, 12, "s", descriptor=4)]
        self.assert_history(
            [process(7, *calls)],
            "> 0 set 1 1 w 0 9",
            "< 0 ok",
            "> 1 flock 1 1003 ex",
            "< 1 ok",
            "> 2 close 1 1",
            "> 4 close 1 1003",
            "< 2 ok",
            "< 4 ok",
            "> 3 flock 0 1001 sh",
            "< 3 ok",
        )

    def test_a_kill_ends_the_owners_that_die_with_it(self) -> None:
        calls = [opened(1, 2, 3), bytes_of(Call.SET, 3, 4), bytes_of(Call.SET, 5, 6, is_ofd=True), flocked(7, None, "x")]
        self.assert_history(
            [process(7, *calls, killed_at=8, waited_at=9)],
            "> 0 set 0 1 w 0 9",
            "< 0 ok",
            "> 1 set 0 1000 w 0 9",
            "< 1 ok",
            "> 2 flock 0 1001 ex",
            "> 3 gone 0 1",
            "> 4 gone 0 1000",
            "> 5 gone 0 1001",
            "< 2 error",
            "< 3 ok",
            "< 4 ok",
            "< 5 ok",
        )

    def test_a_kill_leaves_what_another_process_has(self) -> None:
        parent = [opened(1, 2, 3), flocked(3, 4, "x"), Record(Call.FORK, 5, 6, 8, number=1), bytes_of(Call.SET, 7, 8)]
        child = process(8, closed(30, 31, 3), parent=0, forked_by=2)
        self.assert_history(
            [process(7, *parent, killed_at=9, waited_at=12), child],
            "> 0 flock 0 1001 ex",
            "< 0 ok",
            "> 1 set 0 1 w 0 9",
            "< 1 ok",
            "> 2 gone 0 1",
            "< 2 ok",
            "> 3 close 0 1001",
            "< 3 ok",
        )

    def test_a_close_that_was_killed_lasts_until_the_end(self) -> None:
        calls = [opened(1, 2, 3), bytes_of(Call.SET, 3, 4), flocked(5, 6, "x"), closed(7, None, 3)]
        self.assert_history(
            [process(7, *calls, killed_at=8, waited_at=12)],
            "> 0 set 0 1 w 0 9",
            "< 0 ok",
            "> 1 flock 0 1001 ex",
            "< 1 ok",
            "> 2 close 0 1",
            "> 4 close 0 1001",
            "> 3 gone 0 1",
            "< 2 error",
            "< 3 ok",
            "< 4 ok",
        )

    def test_an_exit_begins_when_the_process_says_so(self) -> None:
        calls = [opened(1, 2, 3), bytes_of(Call.SET, 3, 4)]
        self.assert_history([process(7, *calls, exits_at=5, waited_at=9)], "> 0 set 0 1 w 0 9", "< 0 ok", "> 1 gone 0 1", "< 1 ok")

    def test_a_release_that_is_not_waited_for_ends_with_the_round(self) -> None:
        calls = [opened(1, 2, 3), bytes_of(Call.SET, 3, 4, is_ofd=True), closed(5, 6, 3), opened(7, 8, 3), flocked(9, 100, "x")]
        lines = ["> 0 set 0 1000 w 0 9", "< 0 ok", "> 2 close 0 1000", "> 1 flock 0 1003 ex", "< 1 ok", "< 2 ok"]
        self.assert_history([process(7, *calls)], *lines, manner=Manner(releases_late=True))

    def test_what_waits_at_the_end_stays_open(self) -> None:
        # (what ends it then isn't of the round: the log has that)
        self.assert_history([process(7, opened(1, 2, 3), bytes_of(Call.WAIT, 3, None))], "> 0 wait 0 1 w 0 9")

    def test_a_get_tells_whose_lock_it_is(self) -> None:
        def got(start: int, pid: int) -> Record:
            told = bytes_of(Call.GET, start, start + 1)
            told.told_mode, told.told_first, told.told_last, told.told_pid = "r", 5, LARGEST_OFFSET, pid
            return told

        free = bytes_of(Call.GET, 9, 10)
        free.told_mode = "u"
        calls = [opened(1, 2, 3), got(3, 8), got(5, -1), got(7, 99), free]
        asked = [f"> {number} get 0 1 w 0 9" for number in range(4)]
        told = ["< 0 held 2 r 5 9223372036854775807", "< 1 held - r 5 9223372036854775807", "< 2 held 1000000099 r 5 9223372036854775807", "< 3 free"]
        self.assert_history([process(7, *calls), process(8)], *[line for pair in zip(asked, told) for line in pair])

    def test_an_error_that_no_rule_has_is_counted(self) -> None:
        calls = [opened(1, 2, 3), bytes_of(Call.SET, 3, 4, -errno.ENOLCK), flocked(5, 6, "x", -errno.EIO)]
        writer = Writer(Log(100, [process(7, *calls)]), Manner())
        self.assertEqual(writer.write().splitlines(), ["> 0 set 0 1 w 0 9", "< 0 error", "> 1 flock 0 1001 ex", "< 1 error"])
        self.assertEqual(dict(writer.odd), {("set", "ENOLCK"): 1, ("flock", "EIO"): 1})


# Histories, and what is right of them: nothing of a legal one.
JUDGED = {
    "a request may come before one that was sent earlier": ("> 1 set 0 1 w 0 9\n> 2 set 0 2 w 0 9\n< 2 ok\n< 1 busy\n", []),
    "two have the same byte": ("> 1 set 0 1 w 0 9\n< 1 ok\n> 2 set 0 2 r 9 9\n< 2 ok\n", ["line 4: ok isn't possible"]),
    "nobody is in the way": ("> 1 set 0 1 w 0 9\n< 1 busy\n", ["line 2: busy isn't possible"]),
    "a lock is free behind the unlock that is open": (
        "> 1 set 0 1 w 0 9\n< 1 ok\n> 2 unlock 0 1 0 9\n> 3 set 0 2 w 0 9\n< 3 ok\n> 4 set 0 3 w 0 9\n< 4 busy\n",
        [],
    ),
    "a wait that was interrupted has no lock": (
        "> 1 wait 0 1 w 0 0\n< 1 EINTR\n> 2 get 0 2 r 0 0\n< 2 held 1 w 0 0\n",
        ["line 4: held 1 w 0 0 isn't possible"],
    ),
    "a death ends what was sent before": (
        "> 1 wait 0 1 w 0 0\n> 2 gone 0 1\n< 2 ok\n> 3 get 0 2 r 0 0\n< 3 held 1 w 0 0\n",
        ["line 5: held 1 w 0 0 isn't possible"],
    ),
    "what is sent behind a death isn't ended by it": (
        "> 1 gone 0 1\n> 2 set 0 1 w 0 0\n< 2 ok\n< 1 ok\n> 3 get 0 2 r 0 0\n< 3 held 1 w 0 0\n",
        [],
    ),
    "an error may have had its effect": ("> 1 set 0 1 w 0 0\n< 1 error\n> 2 get 0 2 r 0 0\n< 2 held - w 0 0\n", []),
    "a refused upgrade may lose the shared lock": (
        "> 1 flock 0 1 sh\n< 1 ok\n> 2 flock 0 2 sh\n< 2 ok\n> 3 flock 0 1 ex nb\n< 3 busy\n> 4 flock 0 2 ex nb\n< 4 ok\n",
        [],
    ),
    "an upgrade isn't granted beside a shared lock": (
        "> 1 flock 0 1 sh\n< 1 ok\n> 2 flock 0 2 sh\n< 2 ok\n> 3 flock 0 1 ex nb\n< 3 ok\n",
        ["line 6: ok isn't possible"],
    ),
    "a wait is blocked at the end": ("> 1 set 0 1 w 0 0\n< 1 ok\n> 2 wait 0 2 w 0 0\n", []),
    "a wait isn't blocked at the end": ("> 1 set 0 1 w 0 0\n< 1 ok\n> 2 wait 0 2 w 0 0\n> 3 unlock 0 1 0 0\n< 3 ok\n", ["2 waits since 3"]),
    # By the lines up to 6 request 3 may have been granted, and been what request 4 saw; its own answer says that it wasn't.
    "the line told is the first by which the lines before aren't possible": (
        "> 1 set 0 1 w 0 0\n< 1 ok\n> 3 set 0 3 w 5 5\n> 4 set 0 4 w 5 5\n> 2 get 0 1 r 5 5\n< 4 busy\n< 2 free\n< 3 busy\n",
        ["line 8: busy isn't possible"],
    ),
}


MODES = ("r", "w")
ANSWERS = {
    "set": ("ok", "ok", "busy", "error"),
    "wait": ("ok", "ok", "EINTR", "EDEADLK"),
    "get": ("free", "held - r 0 0", "held 1 w 0 1", "held 2 r 1 1"),
    "flock": ("ok", "ok", "busy", "error"),
}


def random_history(chance: random.Random) -> str:
    """A history of a few requests of three owners, with answers by chance."""
    lines: list[str] = []
    open_now: list[tuple[int, str]] = []
    for number in range(chance.randint(2, 6)):
        word = chance.choice(("set", "set", "wait", "get", "unlock", "flock", "flock", "close", "gone"))
        first = chance.randint(0, 1)
        ranged = f" {first} {chance.randint(first, 1)}"
        mode = chance.choice(("sh nb", "ex nb", "un")) if word == "flock" else chance.choice(MODES)
        more = {"unlock": ranged, "flock": f" {mode}", "close": "", "gone": ""}.get(word, f" {mode}{ranged}")
        lines.append(f"> {number} {word} 0 {chance.randint(1, 3)}{more}")
        open_now.append((number, "ok" if mode == "un" else chance.choice(ANSWERS.get(word, ("ok",)))))
        while open_now and chance.random() < 0.6:
            answered, answer = open_now.pop(chance.randrange(len(open_now)))
            lines.append(f"< {answered} {answer}")
    return "".join(f"{line}\n" for line in lines)


def is_legal(requests: list[second_opinion.Request], up_to: int) -> bool:
    """Whether some order of all effects goes with the lines up to one: each order is tried."""
    known = second_opinion.cut(requests, up_to)
    events = sorted([(it.line, it) for it in known] + [(it.end, it) for it in known if it.end], key=lambda event: event[0])

    def goes(place: int, state: second_opinion.State) -> bool:
        open_now = [it for it in known if any(it is sent for _, sent in events[:place]) and not (it.end and it.end <= events[place - 1][0])]
        if place == len(events):
            return True
        if any(goes(place, after) for request in open_now for after, _ in second_opinion.effects(state, request, open_now)):
            return True
        line, request = events[place]
        if line == request.line:
            return goes(place + 1, state)
        return (not request.needs_effect or state.done(request) in (1, 3)) and goes(place + 1, state.without(request))

    return goes(0, second_opinion.State())


class Outages(unittest.TestCase):
    """Histories of two mounts, of which the second one dies at 100, is known to be away at 110, purged from 190 to 200 and back at 210; from 90 to 300
    there is unrest. Processes are on the first one and the second one by turns."""

    OUTAGE = Outage(1, 100, 110, 190, 200, 210, ((90, 300),))

    def assert_history(self, processes: list[Process], *lines: str, ended_at: int = 400) -> None:
        written = Writer(Log(ended_at, processes), Manner(releases_late=True), 2, [self.OUTAGE]).write()
        self.assertEqual(written.splitlines(), list(lines))

    def test_locks_go_with_the_purge(self) -> None:
        dies = process(8, opened(1, 2, 3), bytes_of(Call.SET, 3, 4), waited_at=120)
        # Somebody on the other mount shows the times.
        sees = process(7, opened(1, 2, 3, file=1), *[bytes_of(Call.SET, time, time, -errno.EAGAIN) for time in (101, 189, 199, 201)])
        looks = [f"{sign} {number} {what}" for number in range(4) for sign, what in ((">", "set 1 1 w 0 9"), ("<", "busy"))]
        lines = ["> 4 set 0 2 w 0 9", "< 4 ok", *looks[:4], "> 5 gone 0 2", *looks[4:6], "< 5 ok", *looks[6:]]
        self.assert_history([sees, dies], *lines)

    def test_locks_of_descriptions_go_with_it_too(self) -> None:
        dies = process(8, opened(1, 2, 3), flocked(3, 4, "x"), waited_at=120)
        self.assert_history([process(7), dies], "> 0 flock 0 1001 ex", "< 0 ok", "> 1 gone 0 1001", "< 1 ok")

    def test_a_process_that_ended_before_may_have_let_go(self) -> None:
        ends = process(8, opened(1, 2, 3), bytes_of(Call.SET, 3, 4), exits_at=105, waited_at=120)
        sees = process(7, opened(1, 2, 3, file=1), bytes_of(Call.SET, 107, 108))
        self.assert_history([sees, ends], "> 1 set 0 2 w 0 9", "< 1 ok", "> 2 gone 0 2", "> 0 set 1 1 w 0 9", "< 0 ok", "< 2 ok")

    def test_a_purge_that_is_under_way_at_the_end_leaves_the_death_open(self) -> None:
        dies = process(8, opened(1, 2, 3), bytes_of(Call.SET, 3, 4), waited_at=120)
        self.assert_history([process(7), dies], "> 0 set 0 2 w 0 9", "< 0 ok", "> 1 gone 0 2", ended_at=195)

    def test_a_request_in_which_the_mount_dies_may_have_its_effect_until_the_purge(self) -> None:
        dies = process(8, opened(1, 2, 3), bytes_of(Call.SET, 95, 105, -errno.ENOTCONN), waited_at=120)
        self.assert_history([process(7), dies], "> 0 set 0 2 w 0 9", "> 1 gone 0 2", "< 0 error", "< 1 ok")

    def test_who_ends_behind_the_purge_has_let_go_by_then(self) -> None:
        ends = process(8, opened(1, 2, 3), bytes_of(Call.SET, 3, 4), flocked(5, 6, "x"), closed(250, 251, 3), exits_at=252, waited_at=253)
        sees = process(7, opened(1, 2, 3), bytes_of(Call.SET, 205, 206), closed(207, 208, 3))
        lines = ["> 2 set 0 2 w 0 9", "< 2 ok", "> 3 flock 0 1003 ex", "< 3 ok", "> 4 close 0 2", "> 5 close 0 1003", "< 4 ok", "< 5 ok"]
        lines += ["> 0 set 0 1 w 0 9", "< 0 ok", "> 1 close 0 1", "< 1 ok"]
        self.assert_history([sees, ends], *lines)

    def test_a_wait_that_was_cut_off_waits_no_more(self) -> None:
        dies = process(8, opened(1, 2, 3), bytes_of(Call.WAIT, 95, None), waited_at=120)
        self.assert_history([process(7), dies], "> 0 wait 0 2 w 0 9", "< 0 error", ended_at=150)

    def test_a_request_behind_the_death_has_none(self) -> None:
        dies = process(8, opened(1, 2, 3), bytes_of(Call.SET, 111, 112, -errno.ENOTCONN), waited_at=120)
        self.assert_history([process(7), dies], "> 0 gone 0 2", "< 0 ok")

    def test_a_forked_process_is_on_its_parents_mount(self) -> None:
        parent = process(8, opened(1, 2, 3), Record(Call.FORK, 3, 4, 9, number=2), waited_at=5, exits_at=5)
        child = process(9, bytes_of(Call.SET, 6, 7), parent=1, forked_by=1, waited_at=120)
        self.assert_history([process(7), parent, child], "> 0 set 0 3 w 0 9", "< 0 ok", "> 1 gone 0 3", "< 1 ok")

    def test_a_release_near_the_death_may_be_told_late(self) -> None:
        held = [opened(1, 2, 3), bytes_of(Call.SET, 3, 4), bytes_of(Call.UNLOCK, 92, 93), bytes_of(Call.SET, 94, 96)]
        other = process(10, opened(1, 2, 3, file=1), bytes_of(Call.SET, 94, 95))
        # What the same mount was told behind it shows that it was told; what another mount was doesn't.
        lines = ["> 0 set 0 1 w 0 9", "< 0 ok", "> 1 unlock 0 1 0 9", "> 2 set 0 1 w 0 9", "> 3 set 1 4 w 0 9", "< 3 ok", "< 1 ok", "< 2 ok"]
        lines += ["> 4 gone 1 4", "< 4 ok"]
        self.assert_history([process(7, *held), process(8), process(9), other], *lines)

    def test_a_release_with_nothing_told_behind_it_lasts_until_all_is_at_rest(self) -> None:
        held = [opened(1, 2, 3), bytes_of(Call.SET, 3, 4), bytes_of(Call.UNLOCK, 92, 93)]
        late = process(9, opened(1, 2, 3, file=1), bytes_of(Call.SET, 299, 301, -errno.EAGAIN), bytes_of(Call.SET, 302, 303))
        lines = ["> 0 set 0 1 w 0 9", "< 0 ok", "> 1 unlock 0 1 0 9", "> 2 set 1 3 w 0 9", "< 1 ok", "< 2 busy", "> 3 set 1 3 w 0 9", "< 3 ok"]
        self.assert_history([process(7, *held), process(8), late], *lines)

    def test_a_release_long_before_is_as_it_was_answered(self) -> None:
        held = [opened(1, 2, 3), bytes_of(Call.SET, 3, 4), bytes_of(Call.UNLOCK, 50, 51)]
        self.assert_history([process(7, *held)], "> 0 set 0 1 w 0 9", "< 0 ok", "> 1 unlock 0 1 0 9", "< 1 ok")


class SecondOpinion(unittest.TestCase):
    """The small judge that the tests have beside lockreplay."""

    def test_a_search_over_all_orders_says_the_same(self) -> None:
        chance = random.Random(1)
        lines: Counter[bool] = Counter()
        for _ in range(400):
            text = random_history(chance)
            requests = second_opinion.read(text)
            ends = sorted(request.end for request in requests if request.end)
            right = next((line for line in ends if not is_legal(requests, line)), None)
            told = second_opinion.judge(text)
            self.assertEqual([line.partition(":")[0] for line in told], [f"line {right}"] if right else [], text)
            lines[right is None] += 1
        self.assertGreater(min(lines.values()), 50)

    def test_judged_by_hand(self) -> None:
        for name, (text, right) in JUDGED.items():
            with self.subTest(name):
                self.assertEqual(second_opinion.judge(text, may_stay_open=False), right)


class Time(unittest.TestCase):
    """How long a history is judged."""

    def test_a_history_that_takes_too_long_is_over_the_limit(self) -> None:
        with tempfile.TemporaryDirectory() as folder:
            slow = Path(folder, "slow")
            slow.write_text("#!/bin/sh\nexec sleep 30\n")
            slow.chmod(0o755)
            self.assertEqual(HistoryJudge(slow, seconds=0.1).judge(""), Verdict(OVER_LIMIT, "not judged in 0.1 s"))


class ByHand(HistoryJudge):
    """The second opinion, as a judge."""

    def judge(self, text: str) -> Verdict:
        told = second_opinion.judge(text, may_stay_open=False)
        words = told[0].split() if told else []
        return Verdict(3 if told else 0, told[0] if told else "", int(words[1].rstrip(":")) if words[:1] == ["line"] else None)


class Windows(unittest.TestCase):
    """What is left of histories that are illegal."""

    def shortened(self, text: str) -> list[str]:
        judge = ByHand(Path())
        return shorten(judge, text, judge.judge(text)).splitlines()

    def test_only_what_is_in_the_way_is_left(self) -> None:
        noise = "> 1 set 0 3 w 0 0\n< 1 ok\n> 2 flock 0 4 ex\n< 2 ok\n> 3 set 1 1 w 0 9\n< 3 ok\n> 4 get 0 2 r 20 29\n< 4 free\n"
        shown = "> 5 set 0 1 w 4 5\n< 5 ok\n> 6 wait 0 2 w 5 9\n< 6 ok\n> 7 unlock 0 1 0 9\n< 7 ok\n"
        self.assertEqual(self.shortened(noise + shown), ["> 5 set 0 1 w 5 5", "< 5 ok", "> 6 wait 0 2 w 5 9", "< 6 ok"])

    def test_a_quiet_moment_is_a_beginning(self) -> None:
        before = "> 1 set 0 1 w 0 9\n< 1 ok\n> 2 unlock 0 1 0 9\n< 2 ok\n"
        self.assertEqual(self.shortened(before + "> 3 set 0 2 r 3 4\n< 3 busy\n"), ["> 3 set 0 2 r 3 4", "< 3 busy"])

    def test_an_unlock_beside_a_set_leaves_no_quiet(self) -> None:
        # The unlock may have come first, so the other's lock may be there: what is refused is only illegal with all of this.
        before = "> 1 set 0 1 r 0 9\n> 2 unlock 0 1 0 9\n< 1 ok\n< 2 ok\n"
        shown = "> 3 set 0 2 r 3 4\n< 3 busy\n"
        self.assertEqual(self.shortened(before + shown)[:2], ["> 1 set 0 1 r 3 4", "> 2 unlock 0 1 3 4"])

    def test_a_lost_wake_up_is_shown_with_its_unlock(self) -> None:
        text = "> 1 set 1 7 w 0 0\n< 1 ok\n> 2 set 0 1 w 0 3\n< 2 ok\n> 3 wait 0 2 w 2 2\n> 4 unlock 0 1 0 9\n< 4 ok\n"
        right = ["> 2 set 0 1 w 2 2", "< 2 ok", "> 3 wait 0 2 w 2 2", "> 4 unlock 0 1 2 2", "< 4 ok"]
        self.assertEqual(self.shortened(text), right)
        # (a wait that is blocked doesn't show it, though it came first)
        self.assertEqual(self.shortened("> 8 set 1 7 w 0 0\n< 8 ok\n> 9 wait 1 8 w 0 0\n" + text.replace("set 1 7 w 0 0", "set 2 7 w 0 0")), right)


class Planted(unittest.TestCase):
    """The planted faults, whose list has to go with lockfs.c."""

    def test_each_fault_can_be_planted(self) -> None:
        source = planted.SOURCE.read_text()
        self.assertEqual(len(planted.FAULTS), 10)
        for fault in planted.FAULTS:
            with self.subTest(fault.name):
                self.assertNotEqual(fault.plant(source), source)

    def test_an_edit_that_does_not_fit_is_told(self) -> None:
        with mock.patch.object(planted, "SOURCE", Path("lockfs.c")), self.assertRaises(ValueError):
            planted.FAULTS[0].plant("int main(void) { return 0; }\n")
