"""What lockreplay-trace makes of logs of strace: made ones of each form, with what happened derived by hand, and ten recorded ones."""

from __future__ import annotations

import contextlib
import io
import json
import lzma
import random
import tempfile
import unittest
from pathlib import Path

from tests.support import LOCKREPLAY
from tracing.assume import UNANSWERED
from tracing.command import main

RECORDED = Path(__file__).resolve().parent / "traces"
SAMPLES = Path(__file__).resolve().parent.parent.parent / "samples"
SHORTEST = ("alarm-ends-a-wait", "killed-waiter", "sqlite-wal", "flock-timeout")
WRITE = "{l_type=F_WRLCK, l_whence=SEEK_SET, l_start=0, l_len=0}"
READ = "{l_type=F_RDLCK, l_whence=SEEK_SET, l_start=0, l_len=0}"
UNLOCK = "{l_type=F_UNLCK, l_whence=SEEK_SET, l_start=0, l_len=0}"
AGAIN = "-1 EAGAIN (Resource temporarily unavailable)"
STOPPED = "? ERESTARTSYS (To be restarted if SA_RESTART is set)"
ENDED = "+++ exited with 0 +++"


class TraceTest(unittest.TestCase):
    """A test that has a log told."""

    def setUp(self) -> None:
        folder = tempfile.TemporaryDirectory(prefix="trace-tests-")
        self.addCleanup(folder.cleanup)
        self.folder = Path(folder.name)

    def told(self, text: str, *flags: str) -> tuple[int, str]:
        """The status, and all that is printed of a log of this text."""
        (self.folder / "log").write_text(text)
        return self.told_of(self.folder / "log", *flags)

    def told_of(self, path: Path, *flags: str) -> tuple[int, str]:
        """The status, and all that is printed of a log."""
        printed = io.StringIO()
        with contextlib.redirect_stdout(printed), contextlib.redirect_stderr(printed):
            status = main([str(path), "--lockreplay", str(LOCKREPLAY), *flags])
        return status, printed.getvalue()

    def told_of_parts(self, text: str) -> tuple[int, str]:
        """The same of what strace writes with `-ff`: a file for each task of this text."""
        for part in self.folder.glob("parts.*"):
            part.unlink()
        for line in text.splitlines(keepends=True):
            task, rest = line.split(" ", 1)
            with open(self.folder / f"parts.{task}", "a", encoding="utf-8") as part:
                part.write(rest)
        return self.told_of(self.folder / "parts")

    def assert_run(self, text: str, expected: list[str], last: str, *flags: str) -> str:
        """The run of a log has these events, and ends with this line."""
        status, printed = self.told(text, *flags)
        lines = printed.splitlines()
        self.assertEqual([line for line in lines[:-1] if not line.startswith((" ", "#"))], expected, printed)
        self.assertEqual((status, lines[-1]), (0, last), printed)
        return printed


    def assert_cut(self, name: str, text: str) -> None:
        """What is left of a log is explained with no assumption but that a request had its effect whose answer was cut off, or has no lock call yet."""
        with self.subTest(name, bytes=len(text)):
            status, printed = self.told(text, "--no-lint")
            last = printed.splitlines()[-1]
            is_explained = status == 0 and last.split(", if ")[1:] in ([], [UNANSWERED])
            self.assertTrue(is_explained or status == 2 and "no lock call" in last, printed)


def lines_of_recorded(name: str) -> list[str]:
    """The lines of a recorded log."""
    return lzma.decompress((RECORDED / f"{name}.log.xz").read_bytes()).decode().splitlines(keepends=True)


def log(*calls: str) -> str:
    """A log of these calls, each `TASK CALL`, with times a tenth of a second apart."""
    lines = []
    for number, call in enumerate(calls):
        task, rest = call.split(" ", 1)
        lines.append(f"{task} 1795740970.{number:02d}0000 {rest}\n")
    return "".join(lines)


class Forms(TraceTest):
    """Logs of each form in which strace writes."""

    CALLS = (
        'openat(AT_FDCWD, "/d/a", O_RDWR) = 3',
        f"fcntl(3, F_SETLK, {WRITE}) = 0",
        f"fcntl(3, F_SETLK, {UNLOCK}) = 0",
        "exit_group(0) = ?",
        ENDED,
    )
    RUN = ["1#1 set /d/a w 0 end | ok", "1#2 unlock /d/a 0 end | ok"]
    LAST = "all 2 answers as in the log"

    def test_bare_calls(self) -> None:
        self.assert_run("".join(f"{call}\n" for call in self.CALLS), self.RUN, self.LAST)

    def test_times_of_the_epoch_and_durations(self) -> None:
        text = "".join(f"1795740970.{at:06d} {call} <0.000010>\n" for at, call in enumerate(self.CALLS[:3]))
        self.assertIn("line 2, 0.000 s", self.assert_run(text, self.RUN, self.LAST))

    def test_times_of_the_day(self) -> None:
        text = "".join(f"23:59:59.{at}00000 {call}\n" for at, call in enumerate(self.CALLS))
        self.assertIn("line 2, 0.100 s", self.assert_run(text, self.RUN, self.LAST))

    def test_times_since_the_line_before(self) -> None:
        text = "".join(f"     0.250000 {call}\n" for call in self.CALLS)
        self.assertIn("line 3, 0.500 s", self.assert_run(text, self.RUN, self.LAST))

    def test_a_column_of_tasks(self) -> None:
        self.assert_run("".join(f"77 {call}\n" for call in self.CALLS), self.RUN, self.LAST)

    def test_tasks_in_brackets(self) -> None:
        self.assert_run("".join(f"[pid    77] {call}\n" for call in self.CALLS), self.RUN, self.LAST)

    def test_a_file_for_each_task(self) -> None:
        calls = ('openat(AT_FDCWD, "/d/a", O_RDWR) = 3', f"fcntl(3, F_SETLK, {WRITE}) = 0", "fork() = 11", f"fcntl(3, F_SETLK, {UNLOCK}) = 0", ENDED)
        (self.folder / "log.10").write_text("".join(f"1795740970.{at}00000 {call}\n" for at, call in enumerate(calls)))
        (self.folder / "log.11").write_text(f"1795740970.210000 fcntl(3, F_SETLKW, {WRITE}) = 0\n1795740970.700000 {ENDED}\n")
        status, printed = self.told_of(self.folder / "log")
        self.assertEqual(status, 0, printed)
        self.assertEqual(printed.splitlines()[-1], "all 3 answers as in the log")
        events = [line for line in printed.splitlines() if line.startswith(("1#", "2#"))]
        self.assertEqual(events, ["1#1 set /d/a w 0 end | ok", "1#2 unlock /d/a 0 end | ok", "2#1 wait /d/a w 0 end | ok"])

    def assert_same_of_parts(self, text: str, last: str, last_of_parts: str) -> str:
        """A log is explained and ends with this line, and so is the same by a file for each task; what is printed of these."""
        self.assertEqual(self.told(text)[1].splitlines()[-1], last)
        status, printed = self.told_of_parts(text)
        self.assertEqual((status, printed.splitlines()[-1]), (0, last_of_parts), printed)
        return printed

    def test_lines_that_files_for_each_task_have_in_common(self) -> None:
        text = log(
            '10 openat(AT_FDCWD</d>, "a", O_RDWR) = 3</d/a>',
            f"10 fcntl(3</d/a>, F_SETLK, {WRITE}) = {AGAIN}",
            f"10 {ENDED}",
            '11 openat(AT_FDCWD</d>, "b", O_RDWR) = 3</d/b>',
            f"11 fcntl(3</d/b>, F_SETLK, {WRITE}) = 0",
        )
        last = "all 2 answers as in the log, if somebody outside the log holds bytes 0 to the end of /d/a"
        self.assertIn("# line 2 of parts.10: assumed", self.assert_same_of_parts(text, last, last))

    def test_the_open_that_files_for_each_task_have_anew(self) -> None:
        text = log(
            '10 openat(AT_FDCWD</d>, "a", O_RDWR) = 3</d/a>',
            f"10 fcntl(3</d/a>, F_SETLK, {WRITE}) = 0",
            "10 getpid() = 10",
            *["11 getpid() = 11"] * 3,
            '11 openat(AT_FDCWD</d>, "a", O_RDWR) = 3</d/a>',
            f"11 fcntl(3</d/a>, F_SETLK, {WRITE}) = 0",
            '10 openat(AT_FDCWD</d>, "a", O_RDWR) = 4</d/a>',
            f"10 fcntl(4</d/a>, F_SETLK, {WRITE}) = {AGAIN}",
        )
        last = "all 3 answers as in the log, if /d/a was unlinked before line "
        self.assert_same_of_parts(text, last + "7", last + "4 of parts.11")

    def test_a_lock_that_is_free_before_its_holder_s_file_says_so(self) -> None:
        for before, last in ((["10 exit_group(0)   = ?"], "10 +++ exited with 0 +++"), ([], "10 +++ killed by SIGKILL +++")):
            with self.subTest(last):
                opens = [f'{task} openat(AT_FDCWD</d>, "a", O_RDWR) = 3</d/a>' for task in (10, 11)]
                locks = [f"{task} flock(3</d/a>, LOCK_EX) = 0" for task in (10, 11)]
                status, printed = self.told_of_parts(log(*opens, *locks, *before, "11 getpid() = 11", last))
                self.assertEqual((status, printed.splitlines()[-1]), (0, "all 2 answers as in the log"), printed)

    def test_files_for_each_task_want_times(self) -> None:
        (self.folder / "log.10").write_text("     0.100000 flock(3, LOCK_EX) = 0\n")
        status, printed = self.told_of(self.folder / "log")
        self.assertEqual(status, 2)
        self.assertIn("-ttt", printed)

    def test_a_program_that_ran_before(self) -> None:
        text = log(f"10 fcntl(4</d/a>, F_SETLK, {WRITE}) = 0", f"11 fcntl(7</d/a>, F_SETLK, {WRITE}) = {AGAIN}")
        printed = self.assert_run(text, ["1#1 set /d/a w 0 end | ok", "2#1 set /d/a w 0 end | EAGAIN"], self.LAST)
        self.assertIn("descriptor 7 of pid 11 was open before the log began: /d/a", printed)


class Refused(TraceTest):
    """What isn't a log of lock calls."""

    def assert_refused(self, path: Path, words: str) -> None:
        status, printed = self.told_of(path)
        self.assertEqual(status, 2, printed)
        self.assertIn(words, printed)

    def test_what_is_no_log(self) -> None:
        (self.folder / "text").write_text("Dear all,\nmy lock is gone.\n")
        self.assert_refused(self.folder / "text", "no line of strace")
        (self.folder / "binary").write_bytes(b"\x7fELF\0\0")
        self.assert_refused(self.folder / "binary", "binary")
        self.assert_refused(self.folder / "missing", "missing")
        (self.folder / "other").write_text(log("1 close(3) = 0"))
        self.assert_refused(self.folder / "other", "no lock call")
        (self.folder / "empty").write_text("")
        self.assert_refused(self.folder / "empty", "no line of strace")

    def test_what_strace_wrote_on_standard_error(self) -> None:
        calls = (
            'openat(AT_FDCWD</d>, "a", O_RDWR) = 3</d/a>',
            "flock(3</d/a>, LOCK_EX) = 0",
            "clone(child_stack=NULL, flags=CLONE_CHILD_CLEARTID|CLONE_CHILD_SETTID|SIGCHLDstrace: Process 11 attached",
            ", child_tidptr=0x7f4be8938a10) = 11",
            "[pid    11] exit_group(0) = ?",
            "[pid    11] +++ exited with 0 +++",
            "flock(3</d/a>, LOCK_UN) = 0",
        )
        (self.folder / "error").write_text("".join(f"{call}\n" for call in calls))
        self.assert_refused(self.folder / "error", "with -o")

    def test_a_finding_that_there_is_none_of(self) -> None:
        self.assertEqual(self.told(log(f"1 fcntl(3</d/a>, F_SETLK, {WRITE}) = 0"), "--fail-on", "dropt")[0], 2)


class Answers(TraceTest):
    """What the calls of a log show."""

    OPEN = '10 openat(AT_FDCWD</d>, "a", O_RDWR) = 3</d/a>'

    def test_a_wait_is_granted_by_the_unlock(self) -> None:
        text = log(
            self.OPEN,
            f"10 fcntl(3</d/a>, F_SETLK, {WRITE}) = 0",
            "10 fork() = 11",
            f"11 fcntl(3</d/a>, F_SETLKW, {WRITE} <unfinished ...>",
            f"10 fcntl(3</d/a>, F_SETLK, {UNLOCK}) = 0",
            "11 <... fcntl resumed>) = 0",
        )
        printed = self.assert_run(text, ["1#1 set /d/a w 0 end | ok", "1#2 unlock /d/a 0 end | ok", "2#1 wait /d/a w 0 end | ok"], "all 3 answers as in the log")
        self.assertIn("waited 0.020 s", printed)

    def test_a_wait_that_a_signal_ended_and_that_began_again(self) -> None:
        text = log(
            self.OPEN,
            f"10 fcntl(3</d/a>, F_SETLK, {WRITE}) = 0",
            "10 fork() = 11",
            f"11 fcntl(3</d/a>, F_SETLKW, {WRITE}) = {STOPPED}",
            "11 --- SIGALRM {si_signo=SIGALRM, si_code=SI_KERNEL} ---",
            f"11 fcntl(3</d/a>, F_SETLKW, {WRITE} <unfinished ...>",
            "10 exit_group(0) = ?",
            f"10 {ENDED}",
            "11 <... fcntl resumed>) = 0",
        )
        run = ["1#1 set /d/a w 0 end | ok", "2#1 wait /d/a w 0 end | ERESTARTSYS", "1 end of pid 10 (exited with 0)", "2#2 wait /d/a w 0 end | ok"]
        self.assert_run(text, run, "all 3 answers as in the log")

    def test_a_waiter_that_is_killed_never_has_the_lock(self) -> None:
        text = log(
            self.OPEN,
            f"10 fcntl(3</d/a>, F_SETLK, {WRITE}) = 0",
            "10 fork() = 11",
            f"11 fcntl(3</d/a>, F_SETLKW, {WRITE} <unfinished ...>",
            "11 +++ killed by SIGKILL +++",
            f"10 fcntl(3</d/a>, F_SETLK, {UNLOCK}) = 0",
            f"10 fcntl(3</d/a>, F_SETLK, {READ}) = 0",
        )
        self.assertIn("2#1 wait /d/a w 0 end | no answer", self.told(text)[1])
        self.assertEqual(self.told(text)[1].splitlines()[-1], "all 3 answers as in the log")

    def test_threads_are_one_owner_and_wait_apart(self) -> None:
        text = log(
            self.OPEN,
            "10 clone3({flags=CLONE_VM|CLONE_FS|CLONE_FILES|CLONE_SIGHAND|CLONE_THREAD, ...}) = 11",
            "10 fork() = 12",
            f"12 fcntl(3</d/a>, F_SETLK, {WRITE}) = 0",
            f"10 fcntl(3</d/a>, F_SETLKW, {WRITE} <unfinished ...>",
            f"11 fcntl(3</d/a>, F_SETLK, {READ}) = {AGAIN}",
            f"12 fcntl(3</d/a>, F_SETLK, {UNLOCK}) = 0",
            "10 <... fcntl resumed>) = 0",
            f"11 fcntl(3</d/a>, F_SETLK, {READ}) = 0",
        )
        self.assertEqual(self.told(text)[1].splitlines()[-1], "all 5 answers as in the log")

    def test_a_close_of_any_descriptor_drops_the_locks(self) -> None:
        text = log(
            self.OPEN,
            "10 fcntl(3</d/a>, F_DUPFD, 10) = 10</d/a>",
            f"10 fcntl(3</d/a>, F_SETLK, {WRITE}) = 0",
            "10 close_range(5, 4294967295, 0) = 0",
            "10 fork() = 11",
            f"11 fcntl(3</d/a>, F_SETLK, {WRITE}) = 0",
        )
        status, printed = self.told(text, "--fail-on", "dropped")
        self.assertEqual(status, 3)
        self.assertIn("dropped the write lock on bytes 0 to the end, set by line 3 through descriptor 3; descriptor 3 of the file is still open", printed)
        self.assertEqual(printed.splitlines()[-1], "all 2 answers as in the log")

    def test_flock_locks_are_the_description_s(self) -> None:
        text = log(
            self.OPEN,
            "10 flock(3</d/a>, LOCK_EX) = 0",
            "10 fork() = 11",
            "10 close(3</d/a>) = 0",
            '12 openat2(AT_FDCWD</d>, "a", {flags=O_RDWR, resolve=0}, 24) = 4</d/a>',
            f"12 flock(4</d/a>, LOCK_EX|LOCK_NB) = {AGAIN}",
            "11 close(3</d/a>) = 0",
            "12 flock(4</d/a>, LOCK_EX|LOCK_NB) = 0",
        )
        self.assertEqual(self.told(text)[1].splitlines()[-1], "all 3 answers as in the log")

    def test_a_mapping_keeps_a_description_open(self) -> None:
        calls = [
            self.OPEN,
            "10 flock(3</d/a>, LOCK_EX) = 0",
            "10 mmap(NULL, 4096, PROT_READ, MAP_SHARED, 3</d/a>, 0) = 0x7f00",
            "10 close(3</d/a>) = 0",
            '12 openat(AT_FDCWD</d>, "a", O_RDWR) = 4</d/a>',
            f"12 flock(4</d/a>, LOCK_EX|LOCK_NB) = {AGAIN}",
        ]
        self.assertEqual(self.told(log(*calls))[1].splitlines()[-1], "all 2 answers as in the log")
        del calls[2]
        self.assertIn("if somebody outside the log holds", self.told(log(*calls))[1].splitlines()[-1])

    def test_gets_are_taken_by_their_answers(self) -> None:
        held = "{l_type=F_WRLCK, l_whence=SEEK_SET, l_start=5, l_len=5, l_pid=10}"
        text = log(
            self.OPEN,
            "10 fork() = 11",
            "10 fcntl(3</d/a>, F_SETLK, {l_type=F_WRLCK, l_whence=SEEK_SET, l_start=5, l_len=5}) = 0",
            f"11 fcntl(3</d/a>, F_GETLK, {held}) = 0",
            "11 fcntl(3</d/a>, F_GETLK, {l_type=F_UNLCK, l_whence=SEEK_SET, l_start=0, l_len=5, l_pid=0}) = 0",
        )
        run = ["1#1 set /d/a w 5 9 | ok", "2#1 get /d/a w 5 9 | held", "2#2 get /d/a r 0 4 | free"]
        self.assert_run(text, run, "all 3 answers as in the log")
        status, printed = self.told(text.replace("l_start=0, l_len=5, l_pid=0", "l_start=0, l_len=6, l_pid=0"))
        self.assertEqual(status, 3)
        self.assertIn("line 5", printed.splitlines()[0])

    def test_offsets_that_the_log_doesnt_show_arent_judged(self) -> None:
        current = "{l_type=F_WRLCK, l_whence=SEEK_CUR, l_start=0, l_len=5}"
        text = log(self.OPEN, f"10 fcntl(3</d/a>, F_SETLK, {current}) = 0", f"10 fcntl(3</d/a>, F_SETLK, {UNLOCK}) = 0")
        self.assertEqual(self.told(text)[1].splitlines()[-1], "all 2 answers as in the log, 2 not judged")
        text = log(self.OPEN, '10 read(3</d/a>, "abc", 3) = 3', f"10 fcntl(3</d/a>, F_SETLK, {current}) = 0")
        self.assert_run(text, ["1#1 set /d/a w 3 7 | ok"], "all 1 answers as in the log")

    def test_the_offset_behind_a_write_to_the_end(self) -> None:
        """POSIX.1-2017 write: with O_APPEND the offset is set to the end of the file before each write."""

        def printed(flag: str, *between: str) -> str:
            opened = f'openat(AT_FDCWD</d>, "a", O_RDWR{flag}) = 3</d/a>'
            calls = (opened, *between, "fcntl(3</d/a>, F_SETLK, {l_type=F_WRLCK, l_whence=SEEK_CUR, l_start=0, l_len=5}) = 0")
            return self.told(log(*(f"10 {call}" for call in calls)))[1]

        written = 'write(3</d/a>, "0123456789", 10) = 10'
        self.assertIn("all 1 answers as in the log, 1 not judged", printed("|O_APPEND", written))
        self.assertIn("all 1 answers as in the log, 1 not judged", printed("", "fcntl(3</d/a>, F_SETFL, O_RDWR|O_APPEND) = 0", written))
        self.assertIn("1#1 set /d/a w 1010 1014 | ok", printed("|O_APPEND", written, "lseek(3</d/a>, 0, SEEK_CUR) = 1010"))
        self.assertIn("1#1 set /d/a w 3 7 | ok", printed("|O_APPEND", 'read(3</d/a>, "abc", 3) = 3'))
        self.assertIn("1#1 set /d/a w 10 14 | ok", printed("|O_APPEND", "fcntl(3</d/a>, F_SETFL, O_RDWR) = 0", written))

    def test_calls_without_effect_count_as_answered(self) -> None:
        text = log(self.OPEN, f"10 fcntl(9, F_SETLK, {WRITE}) = -1 EBADF (Bad file descriptor)", f"10 fcntl(3</d/a>, F_SETLK, {WRITE}) = 0")
        self.assertEqual(self.told(text)[1].splitlines()[-1], "all 2 answers as in the log")

    def test_an_upgrade_by_flock_lets_go(self) -> None:
        text = log(
            self.OPEN,
            "10 flock(3</d/a>, LOCK_SH) = 0",
            '12 openat(AT_FDCWD</d>, "a", O_RDWR) = 4</d/a>',
            "12 flock(4</d/a>, LOCK_SH) = 0",
            f"10 flock(3</d/a>, LOCK_EX|LOCK_NB) = {AGAIN}",
            "12 flock(4</d/a>, LOCK_EX) = 0",
        )
        status, printed = self.told(text, "--fail-on", "lost")
        self.assertEqual(status, 3, printed)
        self.assertIn("1#2 lets go of its old lock", printed)


class Execs(TraceTest):
    """What an exec keeps: the process, its record locks, and the descriptors that aren't to be closed on exec (POSIX.1-2017 exec)."""

    # Of a log of strace 6.1: thread 12 of process 10 calls execve, while its child 11 waits for a lock of /d/a, which that closes, and not of /d/b.
    THREAD = "clone3({flags=CLONE_VM|CLONE_FS|CLONE_FILES|CLONE_SIGHAND|CLONE_THREAD, stack_size=0x7fff80} => {parent_tid=[12]}, 88) = 12"
    BEFORE = (
        '10 openat(AT_FDCWD</d>, "a", O_RDWR|O_CREAT|O_CLOEXEC, 0600) = 3</d/a>',
        '10 openat(AT_FDCWD</d>, "b", O_RDWR|O_CREAT, 0600) = 4</d/b>',
        f"10 fcntl(3</d/a>, F_SETLK, {WRITE}) = 0",
        f"10 fcntl(4</d/b>, F_SETLK, {WRITE}) = 0",
        "10 clone(child_stack=NULL, flags=CLONE_CHILD_CLEARTID|CLONE_CHILD_SETTID|SIGCHLD, child_tidptr=0x7f56bd72ca10) = 11",
        '11 openat(AT_FDCWD</d>, "a", O_RDWR) = 5</d/a>',
        '11 openat(AT_FDCWD</d>, "b", O_RDWR) = 6</d/b>',
        f"10 {THREAD}",
        "10 futex(0x7f9160dbb990, FUTEX_WAIT_BITSET|FUTEX_CLOCK_REALTIME, 12, NULL, FUTEX_BITSET_MATCH_ANY <unfinished ...>",
        f"11 fcntl(5</d/a>, F_SETLKW, {WRITE} <unfinished ...>",
    )
    BEHIND = (
        "10 +++ superseded by execve in pid 12 +++",
        "10 <... execve resumed>) = 0",
        "11 <... fcntl resumed>) = 0",
        f"11 fcntl(6</d/b>, F_SETLK, {WRITE}) = {AGAIN}",
        "10 exit_group(0)   = ?",
        f"10 {ENDED}",
        f"11 fcntl(6</d/b>, F_SETLK, {WRITE}) = 0",
    )
    EXEC = '12 execve("/bin/sleep", ["sleep", "0.1"], 0x7fff252fa4b8 /* 35 vars */'

    def last_of(self, *calls: str) -> str:
        """The last line for an exec behind these calls of a process that has a lock, where another is refused the lock then."""
        other = ('11 openat(AT_FDCWD</d>, "a", O_RDWR|O_CLOEXEC) = 3</d/a>', f"11 fcntl(3</d/a>, F_SETLK, {WRITE}) = {AGAIN}")
        execed = '10 execve("/bin/sleep", ["sleep", "0.1"], 0x7ffd0700abd0 /* 38 vars */) = 0'
        return self.told(log(*calls, f"10 fcntl(3</d/a>, F_SETLKW, {WRITE}) = 0", execed, *other))[1].splitlines()[-1]

    def test_descriptors_that_an_exec_keeps(self) -> None:
        kept, closed = "all 2 answers as in the log", "all 2 answers as in the log, if somebody outside the log holds bytes 0 to the end of /d/a"
        cloexec, plain = (f'10 openat(AT_FDCWD</d>, "a", O_RDWR|O_CREAT{flag}, 0777) = 3</d/a>' for flag in ("|O_CLOEXEC", ""))
        self.assertEqual(self.last_of(cloexec, "10 ioctl(3</d/a>, FIONCLEX) = 0"), kept)
        self.assertEqual(self.last_of(cloexec, "10 fcntl(3</d/a>, F_SETFD, 0) = 0"), kept)
        self.assertEqual(self.last_of(plain, "10 ioctl(3</d/a>, FIOCLEX) = 0"), closed)
        self.assertEqual(self.last_of(cloexec, "10 ioctl(3</d/a>, FIONCLEX) = -1 EBADF (Bad file descriptor)"), closed)

    def test_an_exec_by_a_thread(self) -> None:
        for cut in ("<unfinished ...>", "<pid changed to 10 ...>"):
            with self.subTest(cut):
                status, printed = self.told(log(*self.BEFORE, f"{self.EXEC} {cut}", *self.BEHIND))
                self.assertEqual((status, printed.splitlines()[-1]), (0, "all 5 answers as in the log"), printed)
                self.assertIn("1 execve(), close-on-exec descriptor 3\n", printed)

    def test_an_exec_by_a_thread_in_a_file_of_its_own(self) -> None:
        calls = [call.replace(" <unfinished ...>", ") = 0") for call in self.BEFORE if "futex" not in call]
        behind = [call.replace("<... fcntl resumed>) = 0", "getpid() = 11") for call in self.BEHIND]
        status, printed = self.told_of_parts(log(*calls, f"{self.EXEC} <pid changed to 10 ...>", *behind))
        self.assertEqual((status, printed.splitlines()[-1]), (0, "all 5 answers as in the log"), printed)

    def test_an_exec_by_a_thread_of_a_program_that_ran_before(self) -> None:
        one, other = f"12 fcntl(4</d/b>, F_SETLK, {WRITE}) = 0", f"10 fcntl(4</d/b>, F_SETLK, {UNLOCK}) = 0"
        text = log(one, f"{self.EXEC} <pid changed to 10 ...>", *self.BEHIND[:2], other)
        printed = self.assert_run(text, ["1#1 set /d/b w 0 end | ok", "1#2 unlock /d/b 0 end | ok"], "all 2 answers as in the log")
        self.assertIn("sleep[10] fcntl", printed)


class Quiet(TraceTest):
    """Logs of strace -qq, which shows no end but those by a signal; as strace 6.1 writes them."""

    OPEN = '10 openat(AT_FDCWD</d>, "a", O_RDWR) = 3</d/a>'
    FORK = "10 clone(child_stack=NULL, flags=CLONE_CHILD_CLEARTID|CLONE_CHILD_SETTID|SIGCHLD, child_tidptr=0x7fa82f2eca10) = 11"
    LOCK = f"10 fcntl(3</d/a>, F_SETLK, {WRITE}) = 0"
    THREAD = "10 clone3({flags=CLONE_VM|CLONE_FS|CLONE_FILES|CLONE_SIGHAND|CLONE_THREAD, stack_size=0x7fff80} => {parent_tid=[12]}, 88) = 12"

    def last(self, *calls: str) -> str:
        """The last line for these calls of process 10, whose child is 11, and of its thread 12."""
        return self.told(log(self.OPEN, self.FORK, self.THREAD, self.LOCK, *calls))[1].splitlines()[-1]

    def test_an_exit_ends_all_threads(self) -> None:
        calls = (
            f"11 fcntl(3</d/a>, F_SETLKW, {WRITE} <unfinished ...>",
            f"12 fcntl(3</d/a>, F_SETLK, {READ} <unfinished ...>",
            "10 exit_group(0 <unfinished ...>",
            "12 <... fcntl resumed>) = 0",
            "10 <... exit_group resumed>) = ?",
            "11 <... fcntl resumed>) = 0",
            "11 exit_group(0)   = ?",
        )
        self.assertEqual(self.last(*calls), "all 3 answers as in the log")
        calls = ("12 pause( <unfinished ...>", "10 exit_group(0)   = ?", "12 <... pause resumed>) = ?", calls[0], calls[5])
        self.assertEqual(self.last(*calls), "all 2 answers as in the log")

    def test_an_exit_of_a_thread_ends_it_alone(self) -> None:
        calls = (f"11 fcntl(3</d/a>, F_SETLK, {WRITE}) = {AGAIN}", "10 exit_group(0)   = ?", f"11 fcntl(3</d/a>, F_SETLK, {WRITE}) = 0")
        self.assertEqual(self.last("12 exit(0)   = ?", *calls), "all 3 answers as in the log")
        self.assertEqual(self.last("10 exit(0)   = ?", "12 exit(0)   = ?", calls[2]), "all 2 answers as in the log")
        self.assertIn("no order", self.told(log(self.OPEN, self.FORK, self.THREAD, self.LOCK, "10 exit(0)   = ?", calls[2]))[1])

    def test_an_exec_ends_the_other_threads(self) -> None:
        calls = ('10 execve("/bin/b", ["b"], 0x7ff) = 0', f"10 fcntl(3</d/a>, F_SETLK, {UNLOCK}) = 0", f"11 fcntl(3</d/a>, F_SETLK, {WRITE}) = 0")
        self.assertEqual(self.last("12 pause( <unfinished ...>", *calls), "all 3 answers as in the log")

    def test_who_ended_does_not_wait(self) -> None:
        for waits in (f"fcntl(3</d/a>, F_OFD_SETLKW, {WRITE}", "flock(3</d/a>, LOCK_EX"):
            held = ('11 openat(AT_FDCWD</d>, "a", O_RDWR) = 4</d/a>', f"11 {waits.replace('SETLKW', 'SETLK').replace('3<', '4<')}) = 0")
            calls = (self.OPEN, self.FORK, self.THREAD, *held, f"12 {waits} <unfinished ...>")
            for end, status in (("10 getpid() = 10", 3), ('10 execve("/bin/b", ["b"], 0x7ff) = 0', 0), (f"12 {ENDED}", 0), ("10 exit_group(0)   = ?", 0)):
                with self.subTest(waits, end=end):
                    told = self.told(log(*calls, end), "--fail-on", "stuck")
                    self.assertEqual((told[0], told[1].splitlines()[-1]), (status, "all 1 answers as in the log"), told[1])


class Names(TraceTest):
    """Files and their names."""

    FIRST = ('10 openat(AT_FDCWD</d>, "a", O_RDWR|O_CREAT, 0600) = 3</d/a>', f"10 fcntl(3</d/a>, F_SETLK, {WRITE}) = 0")

    def second(self, name: str, answer: str) -> tuple[str, str]:
        return (f'11 openat(AT_FDCWD</d>, "{name}", O_RDWR|O_CREAT, 0600) = 4</d/{name}>', f"11 fcntl(4</d/{name}>, F_SETLK, {WRITE}) = {answer}")

    def last(self, *calls: str) -> str:
        return self.told(log(*calls))[1].splitlines()[-1]

    def test_an_unlinked_file_is_another(self) -> None:
        self.assertEqual(self.last(*self.FIRST, '10 unlink("/d/a") = 0', *self.second("a", "0")), "all 2 answers as in the log")
        self.assertEqual(self.last(*self.FIRST, "10 close(3</d/a>(deleted)) = 0", *self.second("a", "0")), "all 2 answers as in the log")
        self.assertIn("unlinked: line 3: /d/a", self.told(log(*self.FIRST, '10 unlink("/d/a") = 0', *self.second("a", "0")))[1])

    def test_a_file_that_was_unlinked_before_is_another(self) -> None:
        both = [f"10 fcntl(3</d/a>(deleted), F_SETLK, {WRITE}) = 0", f"11 fcntl(4</d/a>, F_SETLK, {WRITE}) = 0"]
        self.assertEqual(self.last(*both), "all 2 answers as in the log")
        self.assertEqual(self.last(*reversed(both)), "all 2 answers as in the log")
        self.assertEqual(self.last(*(it.replace("4<", "3<") for it in both)), "all 2 answers as in the log")
        workers = ("10 flock(3</d/a>, LOCK_EX) = 0", '12 unlink("/d/a") = 0', "11 flock(3</d/a>(deleted), LOCK_EX|LOCK_NB) = 0")
        self.assertEqual(self.last(*workers), "all 2 answers as in the log")

    def test_names_within_the_folder_that_another_call_shows(self) -> None:
        text = log(*self.FIRST, '10 unlink("a") = 0', *self.second("a", "0"))
        self.assertEqual(self.told(text)[1].splitlines()[-1], "all 2 answers as in the log")
        self.assertIn("unlinked: line 3: /d/a", self.told(text)[1])
        self.assertEqual(self.last(*self.FIRST, '10 rename("a", "b") = 0', *self.second("b", AGAIN)), "all 2 answers as in the log")

    def test_a_renamed_file_is_the_same(self) -> None:
        self.assertEqual(self.last(*self.FIRST, '10 rename("/d/a", "/d/b") = 0', *self.second("b", AGAIN)), "all 2 answers as in the log")

    def test_a_linked_file_is_the_same(self) -> None:
        self.assertEqual(self.last(*self.FIRST, '10 link("/d/a", "/d/b") = 0', *self.second("b", AGAIN)), "all 2 answers as in the log")

    def test_two_names_that_must_be_one_file(self) -> None:
        self.assertEqual(self.last(*self.FIRST, *self.second("b", AGAIN)), "all 1 answers as in the log".replace("1", "2") + ", if /d/b is /d/a")

    def test_one_name_that_must_be_two_files(self) -> None:
        self.assertEqual(self.last(*self.FIRST, *self.second("a", "0")), "all 2 answers as in the log, if /d/a was unlinked before line 3")

    def test_tasks_that_must_be_threads(self) -> None:
        text = (f"10 fcntl(3</d/a>, F_SETLK, {WRITE}) = 0", f"11 fcntl(3</d/a>, F_SETLK, {WRITE}) = 0")
        self.assertEqual(self.last(*text), "all 2 answers as in the log, if tasks 10, 11 are threads of one process")

    def test_somebody_outside_the_log(self) -> None:
        text = ('10 openat(AT_FDCWD</d>, "a", O_RDWR) = 3</d/a>', f"10 fcntl(3</d/a>, F_SETLK, {WRITE}) = {AGAIN}", f"10 fcntl(3</d/a>, F_SETLK, {WRITE}) = 0")
        self.assertEqual(self.last(*text), "all 2 answers as in the log, if somebody outside the log holds bytes 0 to the end of /d/a")

    def test_a_request_whose_answer_the_log_lacks(self) -> None:
        text = log(
            '10 openat(AT_FDCWD</d>, "a", O_RDWR) = 3</d/a>',
            "10 fork() = 11",
            f"11 fcntl(3</d/a>, F_SETLKW, {WRITE} <unfinished ...>",
            f"10 fcntl(3</d/a>, F_SETLK, {WRITE}) = {AGAIN}",
        )
        status, printed = self.told(text, "--fail-on", "stuck")
        self.assertEqual((status, printed.splitlines()[-1]), (0, "all 1 answers as in the log, if a request without an answer had its effect"), printed)
        self.assertIn("# line 4: assumed: a request without an answer had its effect", printed)

    def test_an_answer_that_nothing_gives(self) -> None:
        text = ('10 openat(AT_FDCWD</d>, "a", O_RDWR) = 3</d/a>', f"10 fcntl(3</d/a>, F_SETLK, {WRITE}) = 0", "10 fork() = 11", f"11 fcntl(3</d/a>, F_SETLK, {READ}) = 0")
        status, printed = self.told(log(*text))
        self.assertEqual(status, 3, printed)
        self.assertIn("line 4", printed.splitlines()[0])
        status, printed = self.told(log(*text), "--json")
        objects = [json.loads(line) for line in printed.splitlines()]
        self.assertEqual((status, [it["line"] for it in objects]), (3, [4]))
        self.assertIn("no order", objects[0]["end"])


class Findings(TraceTest):
    """What went wrong, and what only looks as if it did."""

    def status_of(self, finding: str, *calls: str) -> int:
        """The exit status where this finding is asked for: 3 just where it is there."""
        status, printed = self.told(log(*calls), "--fail-on", finding)
        self.assertTrue(printed.splitlines()[-1].startswith("all "), printed)
        return status

    def both(self, task: int, first: str, second: str, *between: str, command: str = "F_SETLKW") -> list[str]:
        """A process that opens and locks two files, with calls between, and ends."""
        opens = [f'openat(AT_FDCWD</d>, "{it}", O_RDWR) = {fd}</d/{it}>' for fd, it in ((3, first), (4, second))]
        locks = [f"fcntl({fd}</d/{it}>, {command}, {WRITE}) = 0" for fd, it in ((3, first), (4, second))]
        return [f"{task} {call}" for call in (opens[0], locks[0], *between, opens[1], locks[1], "exit_group(0) = ?", ENDED)]

    def test_opposite_orders_of_two_locks(self) -> None:
        def status(*between: str) -> int:
            return self.status_of("orders", *self.both(10, "a", "b", *between), *self.both(11, "b", "a"))

        self.assertEqual(status(), 3)
        # (a request that is refused in place of waiting isn't in a cycle of waits)
        self.assertEqual(self.status_of("orders", *self.both(10, "a", "b"), *self.both(11, "b", "a", command="F_SETLK")), 0)
        self.assertEqual(status(f"fcntl(3</d/a>, F_SETLK, {UNLOCK.replace('l_len=0', 'l_len=5')}) = 0"), 3)
        self.assertEqual(status(f"fcntl(3</d/a>, F_SETLK, {UNLOCK}) = 0"), 0)
        self.assertEqual(status("close(3</d/a>) = 0"), 0)
        self.assertEqual(status("fcntl(3</d/a>, F_SETFD, FD_CLOEXEC) = 0", 'execve("/bin/b", ["b"], 0x7ff) = 0'), 0)

    def test_a_file_that_one_call_closes_whole(self) -> None:
        locked = ('10 openat(AT_FDCWD</d>, "a", O_RDWR|O_CLOEXEC) = 3</d/a>', f"10 fcntl(3</d/a>, F_SETLK, {WRITE}) = 0")
        other = '10 openat(AT_FDCWD</d>, "a", O_RDWR|O_CLOEXEC) = 4</d/a>'
        execs, closes = '10 execve("/bin/b", ["b"], 0x7ff) = 0', "10 close_range(3, %d, 0) = 0"
        self.assertEqual(self.status_of("executed", *locked, other, execs), 0)
        self.assertEqual(self.status_of("executed", *locked, other.replace("|O_CLOEXEC", ""), execs), 3)
        self.assertEqual(self.status_of("dropped", *locked, other, closes % 4), 0)
        self.assertEqual(self.status_of("dropped", *locked, other, closes % 3), 3)

    def deadlocks(self, *locks: str) -> list[str]:
        """The processes that are told to wait in a cycle, where thread 15 of 10 and others, by `TASK FILE DESCRIPTOR OPERATION`, open and lock files."""
        calls = ["10 clone3({flags=CLONE_VM|CLONE_FS|CLONE_FILES|CLONE_SIGHAND|CLONE_THREAD}) = 15"]
        for task, file, fd, operation in (lock.split() for lock in locks):
            answer = " <unfinished ...>" if operation.endswith("..") else ") = 0"
            calls += [f'{task} openat(AT_FDCWD</d>, "{file}", O_RDWR) = {fd}</d/{file}>', f"{task} flock({fd}</d/{file}>, {operation.rstrip('.')}{answer}"]
        lines = self.told(log(*calls))[1].splitlines()
        return sorted(line.split(" pid ")[1].split()[0] for line in lines if line.startswith("# stuck") and "deadlock" in line)

    def test_a_deadlock_through_any_holder(self) -> None:
        for one, other in ((12, 13), (13, 12)):
            locks = (f"{one} a 3 LOCK_SH", f"{other} a 3 LOCK_SH", "11 b 3 LOCK_EX", "13 b 4 LOCK_EX..", "11 a 4 LOCK_EX..")
            self.assertEqual(self.deadlocks(*locks), ["11", "13"], one)

    def test_a_deadlock_beside_another_thread_that_waits(self) -> None:
        locks = ("10 a 3 LOCK_EX", "11 b 3 LOCK_EX", "12 c 3 LOCK_EX", "10 b 4 LOCK_EX..", "11 a 4 LOCK_EX..", "15 c 5 LOCK_EX..")
        self.assertEqual(self.deadlocks(*locks), ["10", "11"])

    def test_who_waits_for_a_deadlock_is_in_none(self) -> None:
        locks = ("12 a 3 LOCK_EX", "11 b 3 LOCK_EX", "12 b 4 LOCK_EX..", "11 a 4 LOCK_EX..", "14 a 4 LOCK_EX..")
        self.assertEqual(self.deadlocks(*locks), ["11", "12"])


class Objects(TraceTest):
    """What `--json` prints."""

    def test_each_line_is_an_object(self) -> None:
        text = log(
            '10 openat(AT_FDCWD</d>, "a", O_RDWR) = 3</d/a>',
            f"10 fcntl(3</d/a>, F_SETLK, {WRITE}) = 0",
            "10 dup(3</d/a>) = 4</d/a>",
            "10 close(4</d/a>) = 0",
        )
        objects = [json.loads(line) for line in self.told(text, "--json")[1].splitlines()]
        self.assertEqual([it.get("finding") for it in objects], [None, None, "dropped", None])
        self.assertEqual([it.get("line") for it in objects], [2, 4, 4, None])
        self.assertEqual(objects[-1], {"end": "all 1 answers as in the log"})


class Scripts(TraceTest):
    """What goes wrong in the runs of the samples, as the comments at their heads say."""

    SHOWN = {
        "close-drops-all": ["dropped"],
        "daemon-loses-its-lock": ["forked"],
        "deadlock-of-three": ["deadlock"],
        "dup-and-fork-with-ofd": [],
        "lost-flock-upgrade": ["lost"],
        "mail-store-flock-and-fcntl": ["stuck", "stuck"],
    }

    def test_samples(self) -> None:
        for name, kinds in self.SHOWN.items():
            with self.subTest(name):
                status, printed = self.told_of(SAMPLES / f"{name}.lock", "--script")
                found = [line.split()[1].rstrip(":") for line in printed.splitlines() if not line.startswith("#  ")]
                self.assertEqual((status, found), (0, kinds), printed)


class Recorded(TraceTest):
    """Logs of real programs, with the answers that each has."""

    ANSWERS = {
        "alarm-ends-a-wait": 3,
        "cargo-twice": 54,
        "flock-timeout": 5,
        "four-sqlite-writers": 450,
        "four-workers-trylock": 219,
        "killed-waiter": 1,
        "library-closes": 2,
        "pid-daemon": 2,
        "six-busy-workers": 630,
        "sqlite-wal": 150,
    }
    # At how many places a log is cut here; `test_cut_traces` cuts each log at many more.
    CUTS = 20

    def test_each_answer_is_as_in_the_log(self) -> None:
        for name, answers in self.ANSWERS.items():
            with self.subTest(name):
                status, printed = self.told_of(RECORDED / f"{name}.log.xz", "--no-lint")
                self.assertEqual((status, printed.splitlines()[-1]), (0, f"all {answers} answers as in the log"))

    def test_cut_logs(self) -> None:
        draw = random.Random(1)
        for name in SHORTEST:
            lines = lines_of_recorded(name)
            for at in sorted(draw.sample(range(1, len(lines)), min(self.CUTS, len(lines) - 1))):
                self.assert_cut(name, "".join(lines[:at]) + lines[at][: draw.randrange(len(lines[at]))])


if __name__ == "__main__":
    unittest.main()
