"""Writes the history of a round: who owned which locks, and from when to when each request was open.

A process is the owner of its traditional locks, and a description is two owners, of its OFD locks and of its flock lock: the system takes the
two kinds off at moments of their own.
"""

from __future__ import annotations

import errno
from collections import Counter
from dataclasses import dataclass, field
from typing import Optional, Sequence

from torture.log import Call, Log, Process, Record
from torture.outages import Outage, put_off

LARGEST_OFFSET = 2**63 - 1
# Owners: a process is its slot and 1, the descriptions are counted from here, and a pid that is nobody's of ours comes behind.
FIRST_DESCRIPTION = 1000
FIRST_STRANGER = 10**9
FLOCK_MODES = {"s": "sh", "x": "ex", "u": "un"}
REFUSED = (errno.EAGAIN, errno.EACCES)


@dataclass
class Manner:
    """What is known of the file system: whether a description's release is waited for by the close, and whether a get tells whose lock it is."""

    releases_late: bool = False
    tells_owners: bool = True


@dataclass
class Request:
    """A request of the history. Without an end it is open to the end; `is_last` puts its answer behind all others. `mount` is the number of the mount
    that it was asked on."""

    text: str
    start: int
    end: Optional[int] = None
    answer: str = ""
    is_last: bool = False
    mount: int = 0


@dataclass
class Drop:
    """A reference to a description goes: the times between which it does (no end: it may not have gone yet), whether by a process's death, and
    whether its mount dies with it."""

    start: int
    end: Optional[int]
    by_death: bool
    by_outage: bool = False


@dataclass
class Holding:
    """What an owner may hold on a file: the bytes that it may have been given, and when that was over (None: never), and those that it let go,
    and when that began. Of a flock lock all bytes."""

    given: list[tuple[Optional[int], int, int]] = field(default_factory=list)
    let_go: list[tuple[int, int, int]] = field(default_factory=list)

    def note(self, record: Record, answer: str, first: int = 0, last: int = LARGEST_OFFSET, releases: bool = False) -> None:
        """Notes a request and its answer."""
        if releases and answer == "ok":
            self.let_go.append((record.start, first, last))
        elif not releases and answer in ("ok", "error", ""):
            self.given.append((record.end, first, last))

    def may_hold(self) -> bool:
        """Whether some byte may be held still: one that no request let go which began when it had been given."""
        return any(self.is_left(end, first, last) for end, first, last in self.given)

    def is_left(self, end: Optional[int], first: int, last: int) -> bool:
        """Whether a byte of these is left that were given until then."""
        for start, low, high in sorted(self.let_go, key=lambda gone: gone[1:]):
            if end is not None and start >= end and low <= first <= high:
                first = high + 1
        return first <= last


@dataclass
class Description:
    """An open file description: its number, its file and the mount's, the references that are left, those that went, and what it may hold by flock
    (True) and of OFD locks (False)."""

    number: int
    file: int
    mount: int
    references: int = 0
    drops: list[Drop] = field(default_factory=list)
    holding: dict[bool, Holding] = field(default_factory=lambda: {True: Holding(), False: Holding()})

    def owner(self, is_flock: bool) -> int:
        return FIRST_DESCRIPTION + 2 * self.number + is_flock


Table = dict[int, Description]


class Writer:
    """Writes the history of one round, on so many mounts, some of which die. `odd` counts the answers that are `error`, by call and error number."""

    def __init__(self, log: Log, manner: Manner, mounts: int = 1, outages: Sequence[Outage] = ()) -> None:
        self.log = log
        self.manner = manner
        self.mounts = mounts
        self.outages = outages
        self.requests: list[Request] = []
        self.descriptions: list[Description] = []
        self.tables_at_fork: dict[int, Table] = {}
        self.owners = {process.pid: slot + 1 for slot, process in enumerate(log.processes)}
        self.odd: Counter[tuple[str, str]] = Counter()

    def write(self) -> str:
        """The history."""
        for slot, process in enumerate(self.log.processes):
            if process.pid:
                ProcessWriter(self, slot, process).write()
        for description in self.descriptions:
            self.write_release(description)
        if self.outages:
            self.requests = put_off(self.requests, self.outages, self.log.ended_at)
        return text_of(self.requests)

    def write_release(self, description: Description) -> None:
        """The last reference goes where all others have begun to, and takes the locks along."""
        if description.references:
            return
        last = max(description.drops, key=lambda drop: drop.start)
        ends = [drop.end for drop in description.drops]
        is_late = self.manner.releases_late and not last.by_outage
        end = None if None in ends else self.log.ended_at if is_late else max(filter(None, ends))
        for is_flock in (False, True):
            if description.holding[is_flock].may_hold():
                word = "gone" if last.by_death else "close"
                text = f"{word} {description.file} {description.owner(is_flock)}"
                self.requests.append(Request(text, last.start, end, "ok", is_late, description.mount))

    def owner_of_pid(self, pid: int) -> str:
        """Whose lock a get tells by a pid: none is told of a description, nor by a file system whose pids aren't the machine's."""
        if pid <= 0 or not self.manner.tells_owners:
            return "-"
        return str(self.owners.get(pid, FIRST_STRANGER + pid))


class ProcessWriter:
    """Writes what one process did."""

    def __init__(self, writer: Writer, slot: int, process: Process) -> None:
        self.writer = writer
        self.slot = slot
        self.process = process
        self.owner = slot + 1
        self.mount = writer.log.mount_of(slot, writer.mounts)
        self.outage = next((each for each in writer.outages if each.ends(self.mount, process)), None)
        self.table: Table = {}
        self.holding: dict[int, Holding] = {}

    def write(self) -> None:
        """Writes the process's requests, and what goes with its end."""
        for descriptor, description in self.writer.tables_at_fork.get(self.slot, {}).items():
            self.refer(descriptor, description)
        for record in self.process.records:
            self.write_call(record)
        times = [time for time in (self.process.exits_at, self.process.killed_at, self.process.waited_at) if time]
        if times or self.outage:
            self.write_death(*self.going(min(times, default=self.writer.log.ended_at), self.process.waited_at))

    def write_call(self, record: Record) -> None:
        """Writes one call."""
        done = record.end is not None and record.result >= 0
        if record.call == Call.OPEN and done:
            self.writer.descriptions.append(Description(len(self.writer.descriptions), record.number, self.mount))
            self.refer(record.result, self.writer.descriptions[-1])
        elif record.call == Call.DUP and done:
            self.refer(record.result, self.table[record.descriptor])
        elif record.call == Call.DUP2 and record.descriptor != record.number:
            self.write_dup2(record)
        elif record.call == Call.CLOSE:
            self.write_close(record, record.descriptor)
        elif record.call == Call.FORK:
            self.writer.tables_at_fork[record.number] = dict(self.table)
        elif record.call == Call.FLOCK:
            self.write_flock(record)
        elif record.call in (Call.SET, Call.WAIT, Call.GET, Call.UNLOCK):
            self.write_bytes(record)

    def refer(self, descriptor: int, description: Description) -> None:
        """A descriptor of this process is one of the description from now on."""
        self.table[descriptor] = description
        description.references += 1

    def going(self, start: int, end: Optional[int]) -> tuple[int, Optional[int], bool]:
        """The times between which others see something go that goes between these here, and whether that is by the mount's death."""
        if self.outage is None or (end is not None and end <= self.outage.began):
            return start, end, False
        begins = start if start <= self.outage.died else self.outage.purging
        return begins, self.outage.purged if self.outage.purged <= self.writer.log.ended_at else None, True

    def write_dup2(self, record: Record) -> None:
        """The target is closed, and is a descriptor of the other description. (Where the process died in the call, the other is dropped
        then anyhow.)"""
        description = self.table[record.descriptor]
        self.write_close(record, record.number)
        self.refer(record.number, description)

    def write_close(self, record: Record, descriptor: int) -> None:
        """A descriptor is closed: the process's locks on the file go, and a reference to the description."""
        description = self.table.pop(descriptor)
        description.references -= 1
        start, end, by_outage = self.going(record.start, self.process.waited_at if record.end is None else record.end)
        description.drops.append(Drop(start, end, False, by_outage))
        holding = self.holding_on(description.file)
        if not holding.may_hold():
            return
        text, answer = f"close {description.file} {self.owner}", "ok"
        if by_outage:
            # (its locks go with the purge, however late it closes)
            self.writer.requests.append(Request(text, start, end, answer, mount=self.mount))
        else:
            answer = self.add(record, text, answer)
        holding.note(record, answer, releases=True)

    def holding_on(self, file: int) -> Holding:
        """What the process may hold on a file by traditional locks."""
        return self.holding.setdefault(file, Holding())

    def write_flock(self, record: Record) -> None:
        """A request by flock."""
        description = self.table[record.descriptor]
        at_once = " nb" if record.at_once else ""
        text = f"flock {description.file} {description.owner(True)} {FLOCK_MODES[record.mode]}{at_once}"
        refusals = {number: "busy" for number in REFUSED} if record.at_once else {errno.EINTR: "EINTR"}
        answer = self.add(record, text, self.told(record, {} if record.mode == "u" else refusals))
        description.holding[True].note(record, answer, releases=record.mode == "u")

    def write_bytes(self, record: Record) -> None:
        """A request for a byte lock."""
        description = self.table[record.descriptor]
        owner = description.owner(False) if record.is_ofd else self.owner
        word = record.call.name.lower()
        mode = "" if record.call == Call.UNLOCK else f" {record.mode}"
        text = f"{word} {description.file} {owner}{mode} {record.first} {record.last}"
        refusals: dict[int, str] = {}
        if record.call == Call.SET:
            refusals = {number: "busy" for number in REFUSED}
        elif record.call == Call.WAIT:
            refusals = {errno.EINTR: "EINTR", errno.EDEADLK: "EDEADLK"}
        answer = self.add(record, text, self.told(record, refusals))
        if record.call != Call.GET:
            holding = description.holding[False] if record.is_ofd else self.holding_on(description.file)
            holding.note(record, answer, record.first, record.last, record.call == Call.UNLOCK)

    def told(self, record: Record, refusals: dict[int, str]) -> str:
        """The word for what was answered, where the call has these refusals."""
        if record.end is None:
            return "error"
        if record.result < 0 and -record.result not in refusals:
            self.writer.odd[record.call.name.lower(), errno.errorcode.get(-record.result, str(-record.result))] += 1
        if record.result < 0:
            return refusals.get(-record.result, "error")
        if record.call != Call.GET:
            return "ok"
        if record.told_mode == "u":
            return "free"
        return f"held {self.writer.owner_of_pid(record.told_pid)} {record.told_mode} {record.told_first} {record.told_last}"

    def add(self, record: Record, text: str, answer: str) -> str:
        """Adds a request. One that the process died in ends there, by `error`: it may have had its effect. The answer, empty if none came."""
        end = record.end
        if end is None and self.process.waited_at is None:
            answer = ""
        elif end is None:
            answer, end = "error", self.process.waited_at
        self.writer.requests.append(Request(text, record.start, end, answer, mount=self.mount))
        return answer

    def write_death(self, start: int, end: Optional[int], by_outage: bool) -> None:
        """The process dies: its locks go on each file, and its references to descriptions."""
        for file in sorted(file for file, holding in self.holding.items() if holding.may_hold()):
            self.writer.requests.append(Request(f"gone {file} {self.owner}", start, end, "ok", mount=self.mount))
        for description in self.table.values():
            description.references -= 1
            description.drops.append(Drop(start, end, True, by_outage))


def text_of(requests: list[Request]) -> str:
    """The lines in the order of time; of equal times the requests come before the answers."""
    events: list[tuple[bool, int, int, int, str]] = []
    for number, request in enumerate(requests):
        events.append((False, request.start, 0, number, f"> {number} {request.text}\n"))
        if request.end is not None:
            events.append((request.is_last, request.end, 1, number, f"< {number} {request.answer}\n"))
    return "".join(line for *_, line in sorted(events))
