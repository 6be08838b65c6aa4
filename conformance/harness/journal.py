"""Journals: what each request was answered, and which waits ended with it; read from lockreplay, or seen on the system."""

from __future__ import annotations

from dataclasses import dataclass, field
from typing import Optional

from harness.script import Request

# A request among those of its process: the process, and its number there, from 1.
Ticket = tuple[int, int]


@dataclass
class Event:
    """One request that was taken, its note (None where it is never answered), and the notes on waits that ended with it."""

    ticket: Ticket
    request: Request
    note: Optional[str] = None
    grants: dict[Ticket, str] = field(default_factory=dict)

    @property
    def ends(self) -> Optional[int]:
        """The process that the event ended, if it did: its own, which isn't answered, or the one that it killed."""
        if self.request.command in ("exit", "bail") and self.note is None:
            return self.request.process
        if self.request.command == "kill" and self.note in (None, "ok"):
            return int(self.request.words[1])
        return None

    def __str__(self) -> str:
        head = f"{self.ticket[0]}#{self.ticket[1]} {' '.join(self.request.words)}"
        notes = [(self.ticket, self.note)] if self.note is not None else []
        notes += list(self.grants.items())
        return head + "".join(f" | {process}#{number} {note}" for (process, number), note in notes)


@dataclass(frozen=True)
class Held:
    """A lock of the report: on bytes from `first` to `last`, or by flock, where these are None. The owner is as it is written."""

    file: int
    owner: str
    mode: str
    first: Optional[int] = None
    last: Optional[int] = None

    @property
    def by_flock(self) -> bool:
        return self.first is None


@dataclass(frozen=True)
class Wait:
    """A wait of the report: the request that waits, and the lock that it waits for."""

    ticket: Ticket
    lock: Held


@dataclass
class Run:
    """What lockreplay prints for a script: the events, then the locks that are held, the waits in order of arrival, and who lives."""

    events: list[Event]
    held: list[Held]
    waits: list[Wait]
    live: list[int]


def read_ticket(word: str) -> Ticket:
    """Reads `P#N`."""
    process, number = word.split("#")
    return int(process), int(number)


def read_event(line: str) -> Event:
    """Reads an entry line."""
    head, *notes = line.split(" | ")
    mark, _, request = head.partition(" ")
    ticket = read_ticket(mark)
    event = Event(ticket, Request.parse(f"{ticket[0]} {request}"))
    for written in notes:
        told, _, note = written.partition(" ")
        if read_ticket(told) == ticket:
            event.note = note
        else:
            event.grants[read_ticket(told)] = note
    return event


def read_lock(words: list[str]) -> Held:
    """Reads the words behind the file's number in a `lock` or a byte `wait` line: owner, mode and bytes."""
    file, kind, number, mode, first, last = words
    return Held(int(file), f"{kind} {number}", mode, int(first), int(last))


def read_wait(words: list[str]) -> Wait:
    """Reads the words behind `wait`."""
    ticket = read_ticket(words[0])
    if words[2] == "flock":
        return Wait(ticket, Held(int(words[1]), f"{words[3]} {words[4]}", words[5]))
    return Wait(ticket, read_lock(words[1:]))


def read_run(output: str) -> Run:
    """Reads what lockreplay prints."""
    run = Run([], [], [], [])
    for line in output.splitlines():
        words = line.split()
        if words[0] == "lock":
            run.held.append(read_lock(words[1:]))
        elif words[0] == "flock":
            run.held.append(Held(int(words[1]), f"{words[2]} {words[3]}", words[4]))
        elif words[0] == "wait":
            run.waits.append(read_wait(words[1:]))
        elif words[0] == "proc":
            run.live += [int(words[1])] if words[-1] == "live" else []
        else:
            run.events.append(read_event(line))
    return run
