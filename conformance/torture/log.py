"""The clients' log: what each process asked, when, and what it was answered. The layouts and numbers are those of client.c."""

from __future__ import annotations

import struct
from dataclasses import dataclass, field
from enum import IntEnum
from typing import Optional, Union

HEADER = struct.Struct("<QIIIi")
HEADER_SIZE = 4096
PROCESS = struct.Struct("<IiiI3QiI")
RECORD = struct.Struct("<6Q4i5B3x")


class Call(IntEnum):
    """What was called."""

    OPEN = 1
    DUP = 2
    DUP2 = 3
    CLOSE = 4
    FORK = 5
    SET = 6
    WAIT = 7
    GET = 8
    UNLOCK = 9
    FLOCK = 10




@dataclass
class Record:
    """A call. `end` is None where it wasn't answered; `result` is below 0 for an error number. `number` is the file of an open, the
    target of a dup2, the slot of a fork; `is_ofd` says that the lock is the description's. Times are nanoseconds."""

    call: Call
    start: int
    end: Optional[int]
    result: int = 0
    descriptor: int = -1
    number: int = -1
    is_ofd: bool = False
    mode: str = ""
    at_once: bool = False
    first: int = 0
    last: int = 0
    told_mode: str = ""
    told_first: int = 0
    told_last: int = 0
    told_pid: int = 0


@dataclass
class Process:
    """A process: the slot of its parent and the record there that forked it (None: the keeper did), when it began to exit, when it was
    sent a kill, when it was waited for, and the status then."""

    pid: int
    records: list[Record] = field(default_factory=list)
    parent: Optional[int] = None
    forked_by: int = 0
    exits_at: Optional[int] = None
    killed_at: Optional[int] = None
    waited_at: Optional[int] = None
    status: int = 0


@dataclass
class Log:
    """A round: when it ended, and its processes by slot; one that never came to be has the pid 0."""

    ended_at: int
    processes: list[Process]

    def mount_of(self, slot: int, mounts: int) -> int:
        """On which of so many mounts a process runs: the first of its ancestors was begun there, in the order of slots."""
        parent = self.processes[slot].parent
        return slot % mounts if parent is None else self.mount_of(parent, mounts)


Bytes = Union[bytes, memoryview]


def size_of(slots: int, records: int) -> int:
    """How many bytes a log takes with room for so many processes, and so many records of each."""
    return HEADER_SIZE + slots * (PROCESS.size + records * RECORD.size)


def read_record(numbers: tuple[int, ...], ended_at: int) -> Record:
    """Reads a record; what was answered behind the end of the round wasn't answered."""
    start, end, first, last, told_first, told_last, result, descriptor, number, told_pid, call, family, mode, at_once, told_mode = numbers
    return Record(
        Call(call),
        start,
        end if 0 < end <= ended_at else None,
        result,
        descriptor,
        number,
        bool(family),
        chr(mode) if mode else "",
        bool(at_once),
        first,
        last,
        chr(told_mode) if told_mode else "",
        told_first,
        told_last,
        told_pid,
    )


def read_process(log: Bytes, at: int, ended_at: int) -> Process:
    """Reads a process and its records up to the end of the round."""
    count, pid, parent, forked_by, exits_at, killed_at, waited_at, status, _ = PROCESS.unpack_from(log, at)
    first = at + PROCESS.size
    read = (read_record(numbers, ended_at) for numbers in RECORD.iter_unpack(log[first : first + count * RECORD.size]))
    times = [time if 0 < time <= ended_at else None for time in (exits_at, killed_at, waited_at)]
    records = [record for record in read if record.start <= ended_at]
    return Process(pid, records, parent if parent >= 0 else None, forked_by, *times, status)


def read_log(log: Bytes, now: int = 0) -> Log:
    """Reads a round that is over, or one that runs, as far as it has come."""
    ended_at, slots_there, records_there, slots, _ = HEADER.unpack_from(log, 0)
    ended_at = ended_at or now
    size = PROCESS.size + records_there * RECORD.size
    return Log(ended_at, [read_process(log, HEADER_SIZE + slot * size, ended_at) for slot in range(min(slots, slots_there))])
