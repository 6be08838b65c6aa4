"""Reads logs of strace: the calls of each task, with where each begins and ends.

A log has a column of tasks or none (`-f`), and of times or none (`-ttt`, `-tt`, `-t`, `-r`). A call that another task's line interrupted is in
two lines; any other begins and ends in one. `-ff` writes a file for each task, which are merged by their times.
"""

from __future__ import annotations

import lzma
import re
from dataclasses import dataclass, field
from pathlib import Path
from typing import IO, Iterable, Iterator, Optional

TASK = r"(?:\[pid\s+(?P<bracketed>\d+)\]\s+|(?P<bare>\d+)\s+(?=[\d<+(]|-{3}|\w+\())?"
TIME = r"(?:(?P<clock>\d\d:\d\d:\d\d(?:\.\d+)?)\s+|(?P<seconds>\d+\.\d+)\s+)?(?:\(\+\s*\d+\.\d+\)\s+)?"
LINE = re.compile(rf"^\s*{TASK}\s*{TIME}(?P<rest>(?:[a-z_]\w*\(|<\.\.\. |--- |\+\+\+ ).*)$")
RESUMED = re.compile(r"^<\.\.\. (?P<name>\w+) resumed>\s?(?P<more>.*)$")
CALL = re.compile(r"^(?P<name>\w+)\((?P<arguments>.*)$")
RESULT = re.compile(r"^(?P<arguments>.*)\)\s+= (?P<value>-?\d+|0x[0-9a-f]+|\?)(?P<rest>.*)$")
CUT = re.compile(r"\s*<(?:unfinished \.\.\.|detached \.\.\.|pid changed to \d+ \.\.\.|ptrace\(SYSCALL\):[^>]*)>\s*")
# A leader's line where another thread's exec ended it: that thread goes on with the leader's number (ptrace(2)).
SUPERSEDED = re.compile(r"superseded by execve in pid (\d+)")
LASTED = re.compile(r"\s*<(?P<seconds>\d+\.\d+)>$")
# What stands behind the path of a file that was unlinked.
DELETED = " (deleted)"
# From here on a count of seconds is a moment of the epoch, and below it the time since the line before.
EPOCH = 100_000_000.0


class NotALog(Exception):
    """Says why the file isn't a log that can be read."""


@dataclass
class Call:
    """A call of a task, or another line of it: a signal (`name` is `signal`), its end (`ended`).

    `begin` and `end` are places in the log's order; `end` is None where the call never returned. `time` is in seconds since the log began."""

    task: int
    line: int
    time: Optional[float]
    name: str
    arguments: str
    begin: int = 0
    end: Optional[int] = None
    value: Optional[int] = None
    error: str = ""
    shown: str = ""
    # When it ended, where the log tells.
    until: Optional[float] = None
    # The number that its task has as it ends, where an exec changed that.
    ends_as: Optional[int] = None
    # The file of `-ff` that it is in.
    part: str = ""

    @property
    def succeeded(self) -> bool:
        return self.value is not None and self.value >= 0

    @property
    def returned(self) -> bool:
        """Whether the log has the call's answer; a wait that a signal ended has one."""
        return self.value is not None or bool(self.error)

    @property
    def lasted(self) -> Optional[float]:
        """How many seconds it took, where the log tells."""
        return None if self.until is None or self.time is None else self.until - self.time

    @property
    def said_line(self) -> str:
        """Where it stands: the files of `-ff` count their lines apart."""
        return f"line {self.line}" + (f" of {self.part}" if self.part else "")

    def field(self, name: str) -> str:
        """A field of a struct among the arguments, as `l_type`."""
        found = re.search(rf"\b{name}=([^,}}]*)", self.arguments)
        return found[1].strip() if found else ""

    def words(self) -> list[str]:
        """The arguments, parted at the commas that stand in no bracket and no string."""
        return list(parted(self.arguments))


@dataclass
class Log:
    """The calls of a log in the order in which they begin, and how many places its order has."""

    name: str
    calls: list[Call] = field(default_factory=list)
    places: int = 0
    epoch: Optional[float] = None


def parted(text: str) -> Iterator[str]:
    """The parts of a list of arguments."""
    depth, start, quoted, at = 0, 0, False, 0
    while at < len(text):
        letter = text[at]
        if quoted:
            at += letter == "\\"
            quoted = letter != '"'
        elif letter == '"':
            quoted = True
        elif letter in "([{<":
            depth += 1
        elif letter in ")]}>" and text[at - 1 : at + 1] not in ("=>", "->"):
            depth -= 1
        elif letter == "," and not depth:
            yield text[start:at].strip()
            start = at + 1
        at += 1
    yield text[start:].strip()


class TaskReader:
    """Reads the lines of one file into calls. Of a file of `-ff` `alone` is the task that it is of, and the open calls are those of all files."""

    def __init__(self, log: Log, alone: Optional[int], open_calls: dict[int, Call]) -> None:
        self.log, self.alone, self.open_calls = log, alone, open_calls
        self.clock: Optional[float] = None
        self.days = 0.0
        self.understood = 0
        # Which columns of tasks its lines have.
        self.columns: set[str] = set()

    def read(self, lines: Iterable[str]) -> None:
        """Takes in all lines. A place of the log's order is a line."""
        for number, line in enumerate(lines, 1):
            found = LINE.match(line.rstrip("\n"))
            if not found:
                continue
            self.understood += 1
            self.columns.add("[pid N]" if found["bracketed"] else "N" if found["bare"] else "")
            task = self.alone or int(found["bracketed"] or found["bare"] or 0)
            self.log.places = number + 1
            self.read_rest(task, number, self.moment(found), found["rest"])

    def moment(self, found: re.Match[str]) -> Optional[float]:
        """The time of a line in seconds: of the epoch, of a day, or since the first line."""
        if found["clock"]:
            hours, minutes, seconds = found["clock"].split(":")
            moment = int(hours) * 3600 + int(minutes) * 60 + float(seconds) + self.days
            if self.clock is not None and moment < self.clock - 43_200:
                self.days += 86_400
                moment += 86_400
            self.clock = moment
        elif found["seconds"]:
            moment = float(found["seconds"])
            self.clock = moment if moment >= EPOCH else (self.clock or 0.0) + moment
        return self.clock

    def read_rest(self, task: int, number: int, time: Optional[float], rest: str) -> None:
        """Takes in what stands behind the time."""
        if rest.startswith("+++"):
            self.open_calls.pop(task, None)
            self.supersede(task, rest)
            self.add(Call(task, number, time, "ended", rest.strip("+ "), value=0), number, True)
        elif rest.startswith("---"):
            self.add(Call(task, number, time, "signal", rest.strip("- "), value=0), number, True)
        elif resumed := RESUMED.match(rest):
            call = self.open_calls.pop(task, None)
            if call is not None and call.name == resumed["name"]:
                self.finish(call, call.arguments + resumed["more"], number, time)
        elif found := CALL.match(rest):
            call = Call(task, number, time, found["name"], found["arguments"])
            self.add(call, number, False)
            if RESULT.match(CUT.sub("", rest)):
                self.finish(call, CUT.sub("", found["arguments"]), number, None)
            else:
                call.arguments = CUT.sub("", found["arguments"])
                self.open_calls[task] = call

    def supersede(self, task: int, rest: str) -> None:
        """Gives a leader the exec that another thread began."""
        found = SUPERSEDED.search(rest)
        call = self.open_calls.pop(int(found[1]), None) if found else None
        if call is not None:
            call.ends_as = task
            self.open_calls[task] = call

    def add(self, call: Call, number: int, ends: bool) -> None:
        call.begin = number
        call.end = number if ends else None
        call.part = self.log.name if self.alone else ""
        self.log.calls.append(call)

    def finish(self, call: Call, text: str, number: int, until: Optional[float]) -> None:
        """Takes in the value of a call, and how long it lasted (`-T`), or else when it was resumed."""
        call.until = until
        if lasted := LASTED.search(text):
            call.until = None if call.time is None else call.time + float(lasted["seconds"])
            text = text[: lasted.start()]
        found = RESULT.match(text)
        if not found:
            call.arguments = text
            return
        call.arguments, rest = found["arguments"].strip(), found["rest"].strip()
        call.value = None if found["value"] == "?" else int(found["value"], 0)
        call.shown = shown_path(rest)
        call.error = rest.split("(")[0].split()[0] if found["value"] in ("-1", "?") and rest else ""
        call.end = number if call.returned or call.name in ("exit", "exit_group") else None


def shown_path(text: str) -> str:
    """The path in angle brackets at the beginning of a text, as `-y` shows it behind a descriptor."""
    if not text.startswith("<"):
        return ""
    depth = 0
    for at, letter in enumerate(text):
        depth += (letter == "<") - (letter == ">" and text[at - 1] not in "-=")
        if depth == 0:
            return text[1:at] + (DELETED if text.startswith("(deleted)", at + 1) else "")
    return ""


def opened(path: Path) -> IO[bytes]:
    """The bytes of a log, also of one that is compressed by xz."""
    return lzma.open(path) if path.suffix == ".xz" else open(path, "rb")


def lines_of(path: Path) -> Iterator[str]:
    """The lines of a log. Raises NotALog where it is binary."""
    with opened(path) as file:
        for line in file:
            if b"\0" in line:
                raise NotALog(f"{path} is binary")
            yield line.decode(errors="replace")


def read_log(path: Path) -> Log:
    """The log of this name, or the files `NAME.TASK` that `-ff` wrote. Raises NotALog, and OSError where nothing can be read."""
    parts = sorted(it for it in path.parent.glob(f"{path.name}.*") if it.suffix[1:].isdigit()) if not path.exists() else []
    if parts:
        return merged(path, parts)
    log = Log(path.name)
    reader = TaskReader(log, None, {})
    reader.read(lines_of(path))
    if not reader.understood:
        raise NotALog(f"{path} has no line of strace")
    # (there strace leaves the task out while there is one, and the line of a fork may be broken in two)
    if {"", "[pid N]"} <= reader.columns:
        raise NotALog(f"{path} is what strace wrote on standard error, where not every line has its task: write it with -o")
    set_beginning(log)
    return log


def set_beginning(log: Log) -> None:
    """Counts times from the first one."""
    times = [call.time for call in log.calls if call.time is not None]
    log.epoch = times[0] if times else None
    for call in log.calls:
        if call.time is not None and log.epoch is not None:
            call.time -= log.epoch
            call.until = None if call.until is None else call.until - log.epoch


def merged(path: Path, parts: list[Path]) -> Log:
    """One log of files of single tasks, by the times of their lines: a call ends when it had lasted (`-T`), or else at the latest at its task's
    next line."""
    log = Log(path.name)
    ends: list[tuple[float, int, Call]] = []
    for call, follower in read_parts(parts):
        ends.append((call.time or 0.0, 0, call))
        if call.end is not None:
            ends.append((end_of(call, follower), 1, call))
    if not ends:
        raise NotALog(f"{path}.* have no line of strace")
    for place, (_, is_end, call) in enumerate(sorted(ends, key=lambda it: it[:2]), 1):
        if is_end:
            call.end = place
        else:
            call.begin = place
            log.calls.append(call)
    log.places = len(ends) + 1
    set_beginning(log)
    return log


def read_parts(parts: list[Path]) -> list[tuple[Call, Optional[Call]]]:
    """The calls of files of single tasks, each with its task's next one. A file whose task ends as another is read before that one's."""
    open_calls: dict[int, Call] = {}
    found: list[tuple[Call, Optional[Call]]] = []
    for part in sorted(parts, key=lambda it: not changes_pid(it)):
        own = Log(part.name)
        TaskReader(own, int(part.suffix[1:]), open_calls).read(lines_of(part))
        if any(call.time is None or call.time < EPOCH and not has_clock(part) for call in own.calls):
            raise NotALog(f"{part} has no times by which the files of -ff can be merged: run strace with -ttt")
        found += zip(own.calls, [*own.calls[1:], None])
    return found


def end_of(call: Call, follower: Optional[Call]) -> float:
    """When a call was over: before its task's next line at the latest, and times are told by the microsecond."""
    if call.until is None and follower is not None and follower.time is not None:
        return max(follower.time - 0.5e-6, call.time or 0.0)
    return call.until or call.time or 0.0


def changes_pid(part: Path) -> bool:
    """Whether the file's task goes on with another number, in that number's file."""
    return any("<pid changed to " in line for line in lines_of(part))


def has_clock(part: Path) -> bool:
    """Whether the lines of a file have the time of the day."""
    return any(re.match(r"^\d\d:\d\d:\d\d", line) for line in lines_of(part))
