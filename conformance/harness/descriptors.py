"""What the descriptors of a script refer to, followed along a journal as the system showed it."""

from __future__ import annotations

from dataclasses import dataclass, field
from typing import Optional

from harness.journal import Event
from harness.script import LockCall, Request


@dataclass
class Description:
    """An open file description: its number in order of opens (as lockreplay counts), file, access mode and offset."""

    number: int
    file: int
    access: str
    offset: int = 0

    @property
    def owner(self) -> str:
        return f"description {self.number}"


@dataclass
class Descriptors:
    """The descriptors of each process, and the sizes of the files."""

    tables: dict[int, dict[int, Description]] = field(default_factory=dict)
    sizes: dict[int, int] = field(default_factory=dict)
    opened: int = 0

    def follow(self, event: Event) -> None:
        """Takes in what an event changed; a refused one changed nothing."""
        table = self.tables.setdefault(event.request.process, {})
        arguments = event.request.words[1:]
        if event.request.command == "open" and str(event.note).startswith("fd"):
            self.opened += 1
            table[self.given(event)] = Description(self.opened, int(arguments[0]), arguments[1])
        elif event.request.command in ("dup", "dup2") and str(event.note).startswith("fd"):
            table[self.given(event)] = table[int(arguments[0])]
        elif event.note == "ok" and event.request.command == "close":
            del table[int(arguments[0])]
        elif event.note == "ok" and event.request.command == "fork":
            self.tables[int(arguments[0])] = dict(table)
        elif event.note == "ok" and event.request.command == "seek":
            table[int(arguments[0])].offset = int(arguments[1])
        elif event.note == "ok" and event.request.command == "resize":
            self.sizes[table[int(arguments[0])].file] = int(arguments[1])

    @staticmethod
    def given(event: Event) -> int:
        """The descriptor of a note `fd N`."""
        return int(str(event.note).split()[1])

    def of(self, request: Request) -> Optional[Description]:
        """The description that a request's descriptor refers to; None where it isn't open."""
        return self.tables.get(request.process, {}).get(-1 if request.descriptor is None else request.descriptor)

    def base(self, call: LockCall, description: Description) -> int:
        """The offset from which a lock call counts."""
        return {"set": 0, "cur": description.offset, "end": self.sizes.get(description.file, 0)}[call.whence]


def followed(journal: list[Event]) -> Descriptors:
    """The descriptors after these events."""
    descriptors = Descriptors()
    for event in journal:
        descriptors.follow(event)
    return descriptors
