"""Tells the run that explains a log: its events in an order that gives every answer, each with where it stands in the log, and what explains it."""

from __future__ import annotations

import json
from dataclasses import asdict, dataclass, field
from typing import Any, Iterator, Optional

from tracing.assume import Explained, said_last
from tracing.follow import REFUSED, Release, Request
from tracing.history import Effect, Event, Judged

MODES = {"r": "read", "w": "write", "sh": "shared", "ex": "exclusive"}


@dataclass(frozen=True)
class Held:
    """A lock of a state: of bytes, or of a whole file by flock."""

    file: int
    owner: int
    mode: str
    span: Optional[tuple[int, int]]

    def __str__(self) -> str:
        if self.span is None:
            return f"the {MODES[self.mode]} flock lock"
        first, last = self.span
        where = f"byte {first}" if first == last else f"bytes {first} to {said_last(last)}"
        return f"the {MODES[self.mode]} lock on {where}"


def held_in(lines: list[str]) -> list[Held]:
    """The locks of a state, as the program tells them."""
    found = []
    for line in lines:
        words = line.split()
        span = (int(words[4]), int(words[5])) if words[0] == "lock" else None
        found.append(Held(int(words[1]), int(words[2]), words[3], span))
    return found


@dataclass
class Line:
    """An event of the run, with what explains it."""

    event: Event
    name: str
    request: str
    answer: str
    where: str
    notes: list[str] = field(default_factory=list)
    time: Optional[float] = None
    # The locks behind it.
    behind: list[Held] = field(default_factory=list)

    def text(self) -> str:
        """The event as it is printed."""
        bar = f" | {self.answer}" if self.answer else ""
        return f"{self.name} {self.request}{bar}\n    {self.where}\n" + "".join(f"    {note}\n" for note in self.notes)

    def as_json(self) -> str:
        """The event as an object."""
        told: dict[str, Any] = asdict(self)
        del told["event"], told["behind"]
        told["line"], told["process"] = self.event.call.line, str(self.event.process)
        return json.dumps(told)


class Teller:
    """Makes the lines of an explained log."""

    def __init__(self, explained: Explained) -> None:
        self.explained = explained
        asking = dict.fromkeys(it.process for it in explained.found.requests)
        self.numbers = {process.number: number for number, process in enumerate(asking, 1)}
        self.names = {id(it): f"{self.numbers[it.process.number]}#{it.number}" for it in explained.found.requests}
        # By owner and file, the requests that set its locks, the latest first.
        self.setters: dict[tuple[int, int], list[Request]] = {}

    def where(self, event: Event) -> str:
        """Where an event stands in the log."""
        call = event.call
        time = "" if call.time is None else f"{call.time:.3f} s, "
        return f"{call.said_line}, {time}{event.process} {said_call(event)}"

    def name(self, event: Event) -> str:
        """The number of an event: its process, and which of its requests it is."""
        if isinstance(event, Request):
            return self.names[id(event)]
        return str(self.numbers.get(event.process.number, f"({event.process})"))

    def lines(self) -> list[Line]:
        """The run. What has no effect, as a wait that a signal ended, stands where it was answered."""
        judged, told = self.explained.judged, []
        shown: set[int] = set()
        before: list[Held] = []
        rest = sorted(self.explained.found.requests, key=lambda it: it.end or it.begin)
        in_order = {id(effect.event) for effect in judged.effects if not effect.is_loss}
        rest = [it for it in rest if id(it) not in in_order]
        for number, effect in enumerate(judged.effects, 1):
            behind = held_in(judged.states.get(number, []))
            if effect.event is None:
                before = behind
                continue
            while rest and (rest[0].end or rest[0].begin) < effect.event.begin:
                told.append(self.line(rest.pop(0), before, before, None))
            told += [it for it in [self.effect(effect, before, behind)] if it is not None]
            shown.add(id(effect.event))
            before = behind
        return told + [self.line(it, before, before, None) for it in rest]

    def effect(self, effect: Effect, before: list[Held], behind: list[Held]) -> Optional[Line]:
        """The line of an effect. A close that releases nothing isn't shown."""
        event = effect.event
        if event is None or (isinstance(event, Release) and before == behind):
            return None
        return self.line(event, before, behind, effect)

    def line(self, event: Event, before: list[Held], behind: list[Held], effect: Optional[Effect]) -> Line:
        is_loss = effect is not None and effect.is_loss
        answer = "" if is_loss or isinstance(event, Release) else said_answer(event)
        request = "lets go of its old lock" if is_loss else said_request(event)
        line = Line(event, self.name(event), request, answer, self.where(event), time=event.call.time, behind=behind)
        if isinstance(event, Request) and not is_loss:
            self.explain_request(event, line, before)
        if isinstance(event, Release) or is_loss:
            line.notes += [f"dropped {lock}{self.set_by(lock)}{self.still_open(event)}" for lock in before if lock not in behind and lock.owner == event.owner]
        return line

    def explain_request(self, event: Request, line: Line, before: list[Held]) -> None:
        """What was in the way of a request; and who set the bytes, for later."""
        if event.why_not:
            line.notes.append(f"not judged: {event.why_not}")
        elif event.answer == "busy" or (event.answer or "").startswith("held"):
            line.notes += [f"blocked by {lock} of {self.owner(lock.owner)}{self.set_by(lock)}" for lock in before if self.is_in_the_way(event, lock)]
        elif event.answer == "ok" and event.file is not None and not event.text.startswith("unlock"):
            self.setters.setdefault((event.owner, event.file.number), []).insert(0, event)
        if event.text and event.waits and (event.call.lasted or 0.0) > 0.001:
            line.notes.append(f"waited {event.call.lasted:.3f} s")

    def is_in_the_way(self, event: Request, lock: Held) -> bool:
        """Whether a lock blocks a request."""
        if event.file is None or lock.file != event.file.number or lock.owner == event.owner or (lock.span is None) != event.is_whole_file:
            return False
        if event.mode == "r" and lock.mode in ("r", "sh"):
            return False
        return lock.span is None or event.span is None or (lock.span[0] <= event.span[1] and event.span[0] <= lock.span[1])

    def owner(self, owner: int) -> str:
        """Whose an owner is."""
        requests = [it for it in self.explained.found.requests if it.owner == owner]
        if not requests:
            return "somebody outside the log"
        return f"process {self.numbers[requests[0].process.number]} ({requests[0].process})"

    def set_by(self, lock: Held) -> str:
        """Which request set a lock."""
        for request in self.setters.get((lock.owner, lock.file), []):
            if lock.span is None or request.span is None or (request.span[0] <= lock.span[1] and lock.span[0] <= request.span[1]):
                return f", set by {request.call.said_line} through descriptor {request.call.arguments.split(',')[0].split('<')[0]}"
        return ""

    def still_open(self, event: Event) -> str:
        """Through which descriptor of the same file the process could go on, behind a close that dropped its locks."""
        is_open = isinstance(event, Release) and not event.is_end and event.others
        return f"; descriptor {event.others[0]} of the file is still open" if is_open and isinstance(event, Release) else ""


def said_request(event: Event) -> str:
    """A request in the words of a script, with the path in place of a file's number."""
    if isinstance(event, Release):
        return event.what
    path = event.file.path if event.file else "?"
    words = event.text.split()
    if not words:
        return f"{event.call.name} {path}"
    if event.is_whole_file:
        return f"flock {path} {' '.join(words[3:])}"
    first, last = event.span or (0, 0)
    mode = "" if words[0] == "unlock" else f"{words[3]} "
    return f"{words[0]} {path} {mode}{first} {said_last(last).replace('the ', '')}"


def said_answer(event: Request) -> str:
    """An answer as the log has it."""
    call = event.call
    if call.error:
        return call.error
    if event.answer is None:
        return "no answer"
    return "ok" if event.answer.split()[0] not in ("free", "held") else event.answer.split()[0]


def said_call(event: Event) -> str:
    """The call as strace shows it, without the words behind its value."""
    call = event.call
    if call.name in ("ended", "signal"):
        return call.arguments
    value = "" if call.value is None and not call.error else f" = {call.error or call.value}"
    return f"{call.name}({call.arguments}){value}"


def ending(explained: Explained) -> str:
    """The last line: how many answers the log has, how many weren't judged, and what had to be assumed."""
    requests = explained.found.requests
    answered = sum(1 for it in requests if it.call.returned)
    left = sum(1 for it in requests if it.why_not and it.why_not != REFUSED and it.call.returned)
    assumed = " and ".join(dict.fromkeys(it.text for it in explained.told))
    return f"all {answered} answers as in the log" + (f", {left} not judged" if left else "") + (f", if {assumed}" if assumed else "")


def overlapping(judged: Judged) -> Iterator[tuple[Request, Request]]:
    """Pairs of requests of one file that overlap in the log, in the order in which their effects were found, one of which changes a lock that the
    other meets."""
    recent: list[Request] = []
    for effect in judged.effects:
        event = effect.event
        if not isinstance(event, Request) or effect.is_loss:
            continue
        recent = [it for it in recent if it.end is None or it.end > event.begin]
        for other in recent:
            if meets(other, event) and event.end is not None and other.end is not None and other.begin < event.end:
                yield other, event
        recent.append(event)


def meets(one: Request, other: Request) -> bool:
    """Whether two requests are about common bytes, or one file's flock locks, of different owners, and one changes a lock."""
    if one.file is not other.file or one.is_whole_file != other.is_whole_file or one.owner == other.owner:
        return False
    changes = any(it.answer == "ok" for it in (one, other))
    common = one.span is None or other.span is None or (one.span[0] <= other.span[1] and other.span[0] <= one.span[1])
    return changes and common
