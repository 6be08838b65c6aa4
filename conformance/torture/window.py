"""Illegal histories made shorter, by steps that can only make more possible: what is still illegal then shows that the whole was.

Byte locks and flock locks never meet, nor do two files, nor two bytes. To see locks, or to be refused, changes nothing (but a flock, which may
lose the old lock). At a quiet moment no request is open, and nobody can have a lock, so a history may begin there.
"""

from __future__ import annotations

from collections import Counter
from dataclasses import dataclass, replace
from typing import Callable, Iterable, Optional

ON_BYTES = ("set", "wait", "get", "unlock")
OF_BOTH = ("close", "gone")
RELEASING = ("unlock", "close", "gone")


@dataclass(frozen=True)
class Entry:
    """A request of a history: the places of its lines, its ID, its words, and those of its answer."""

    start: int
    identity: str
    words: tuple[str, ...]
    end: Optional[int] = None
    answer: tuple[str, ...] = ()

    @property
    def word(self) -> str:
        return self.words[0]

    @property
    def file(self) -> str:
        return self.words[1]

    @property
    def owner(self) -> str:
        return self.words[2]

    @property
    def range(self) -> tuple[int, int]:
        return int(self.words[-2]), int(self.words[-1])

    @property
    def releases(self) -> bool:
        """Whether it can but take locks away."""
        return self.word in RELEASING or (self.word == "flock" and self.words[3] == "un")

    @property
    def changes_nothing(self) -> bool:
        return self.word == "get" or (self.word in ("set", "wait") and self.answer[:1] in (("busy",), ("EINTR",), ("EDEADLK",)))

    def waits_still(self) -> bool:
        """Whether it may wait, and isn't answered."""
        return self.end is None and (self.word == "wait" or (self.word == "flock" and self.words[3:] in (("sh",), ("ex",))))

    def clipped(self, first: int, last: int) -> Optional[Entry]:
        """The request for these bytes alone; None where it asks for none of them."""
        if self.word not in ON_BYTES:
            return self
        low, high = max(first, self.range[0]), min(last, self.range[1])
        return replace(self, words=(*self.words[:-2], str(low), str(high))) if low <= high else None


def read(text: str, lines: Optional[int]) -> list[Entry]:
    """The requests of a history's first lines."""
    open_now: dict[str, Entry] = {}
    entries: list[Entry] = []
    for place, line in enumerate(text.splitlines()[:lines]):
        sign, identity, *words = line.split()
        if sign == ">":
            open_now[identity] = Entry(place, identity, tuple(words))
        else:
            entries.append(replace(open_now.pop(identity), end=place, answer=tuple(words)))
    return sorted([*entries, *open_now.values()], key=lambda entry: entry.start)


@dataclass(frozen=True)
class Window:
    """The requests of a history, and the place in it of the one that shows that it is illegal: by its answer, the last line, or as it waits."""

    entries: list[Entry]
    shown_at: int

    @staticmethod
    def of_history(text: str, line: Optional[int]) -> Window:
        """The whole history, up to the line that isn't possible where there is one."""
        entries = read(text, line)
        if line is not None:
            return Window(entries, next(entry.start for entry in entries if entry.end == line - 1))
        return Window(entries, next(entry.start for entry in filter(Entry.waits_still, entries)))

    @property
    def shown(self) -> Entry:
        return next(entry for entry in self.entries if entry.start == self.shown_at)

    @property
    def text(self) -> str:
        lines = [(entry.start, f"> {entry.identity} {' '.join(entry.words)}\n") for entry in self.entries]
        lines += [(entry.end, f"< {entry.identity} {' '.join(entry.answer)}\n") for entry in self.entries if entry.end is not None]
        return "".join(line for _, line in sorted(lines))

    @property
    def last_line(self) -> Optional[int]:
        """The line that isn't possible."""
        return None if self.shown.end is None else self.text.count("\n")

    def keeping(self, keeps: Callable[[Entry], bool]) -> Window:
        """The window of those requests alone, and the one that is shown."""
        return replace(self, entries=[entry for entry in self.entries if entry.start == self.shown_at or keeps(entry)])

    def of_its_kind(self) -> Iterable[Window]:
        """Its file and its kind of lock alone."""
        shown = self.shown
        words = (*OF_BOTH, *(ON_BYTES if shown.word in ON_BYTES else ("flock",)))
        yield self.keeping(lambda entry: entry.file == shown.file and (shown.word in OF_BOTH or entry.word in words))

    def with_one_wait(self) -> Iterable[Window]:
        """With one of the waits that are open alone, where a wait is what is shown."""
        if self.shown.end is None:
            for wait in filter(Entry.waits_still, self.entries):
                yield replace(self, shown_at=wait.start).keeping(lambda entry: not entry.waits_still())

    def without_sights(self) -> Iterable[Window]:
        """Without what only saw locks."""
        yield self.keeping(lambda entry: not entry.changes_nothing)

    def of_its_bytes(self) -> Iterable[Window]:
        """The bytes alone that it asks for, or is told."""
        if self.shown.word not in ON_BYTES:
            return
        first, last = self.shown.range
        if self.shown.answer[:1] == ("held",):
            first, last = min(first, int(self.shown.answer[3])), max(last, int(self.shown.answer[4]))
        clipped = [entry if entry.start == self.shown_at else entry.clipped(first, last) for entry in self.entries]
        if not any(entry.changes_nothing for entry in self.entries if entry.start != self.shown_at):
            yield replace(self, entries=[entry for entry in clipped if entry])

    def without_idle_owners(self) -> Iterable[Window]:
        """Without those who never asked for a lock."""
        busy = {entry.owner for entry in self.entries if not entry.releases}
        yield self.keeping(lambda entry: entry.owner in busy)

    def from_quiet(self) -> Iterable[Window]:
        """From a quiet moment on, the latest first."""
        for place in reversed(quiet_places(self.entries)):
            yield self.keeping(lambda entry, place=place: entry.start >= place)  # type: ignore[misc]

    def without_an_owner(self) -> Iterable[Window]:
        """Without an owner, whose locks are in nobody's way then: so nobody else may be told that there is one."""
        shown = self.shown
        told = [entry for entry in self.entries if entry.answer[:1] in (("busy",), ("held",)) or entry.end is None]
        if not told:
            for owner in sorted({entry.owner for entry in self.entries} - {shown.owner}):
                yield self.keeping(lambda entry, owner=owner: entry.owner != owner)  # type: ignore[misc]
        elif told == [shown] and shown.word != "flock":
            # (what was set for its own owner isn't in its way)
            yield self.keeping(lambda entry: entry.owner != shown.owner)


# What is tried in turn: each gives windows that it may be, the shortest first.
STEPS: tuple[Callable[[Window], Iterable[Window]], ...] = (
    Window.with_one_wait,
    Window.of_its_kind,
    Window.without_sights,
    Window.of_its_bytes,
    Window.without_idle_owners,
    Window.from_quiet,
    *[Window.without_an_owner] * 8,
    Window.without_idle_owners,
)


def quiet_places(entries: list[Entry]) -> list[int]:
    """The places of lines before which no request is open and nobody can have a lock."""
    found: list[int] = []
    open_now: Counter[str] = Counter()
    begun_last: dict[str, int] = {}
    begun_alone: set[int] = set()
    holders: set[str] = set()
    lines = [(entry.start, entry) for entry in entries] + [(entry.end, entry) for entry in entries if entry.end is not None]
    for place, entry in sorted(lines, key=lambda line: line[0]):
        if place == entry.start:
            if not holders and not open_now.total():
                found.append(place)
            if not open_now[entry.owner]:
                begun_alone.add(place)
            open_now[entry.owner] += 1
            begun_last[entry.owner] = place
            continue
        open_now[entry.owner] -= 1
        was_alone = entry.start in begun_alone and begun_last[entry.owner] == entry.start
        if not entry.releases and not entry.changes_nothing and entry.answer[:1] not in (("EINTR",), ("busy",)):
            holders.add(entry.owner)
        elif was_alone and entry.answer == ("ok",) and lets_all_go(entry, entries):
            holders.discard(entry.owner)
    return found


def lets_all_go(entry: Entry, entries: list[Entry]) -> bool:
    """Whether a release takes all from its owner that these requests can have given."""
    own = [each for each in entries if each.owner == entry.owner and not each.releases]
    if entry.word in OF_BOTH:
        return True
    if entry.word == "flock":
        return all(each.word == "flock" for each in own)
    first, last = entry.range
    return all(each.word in ON_BYTES and first <= each.range[0] and each.range[1] <= last for each in own)
