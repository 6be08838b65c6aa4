"""Explains a log: an order that gives every answer, if need be by an assumption about what the log doesn't show."""

from __future__ import annotations

from dataclasses import dataclass, field
from typing import Iterator, Optional

from tracing.follow import Assumptions, Followed, Follower, Request
from tracing.history import Event, Judged, Outside, Places, Program, Written, left_unjudged, write
from tracing.log import Call, Log

# The owners of outsiders stand behind those of the log.
FIRST_OUTSIDER = 2**32
UNANSWERED = "a request without an answer had its effect"


@dataclass
class Told:
    """An assumption that was needed, and the call at which it was."""

    call: Call
    text: str


@dataclass
class Explained:
    """What the log says, an order of it, and the assumptions behind it; or the event whose answer no order gives."""

    found: Followed
    written: Written
    judged: Judged
    told: list[Told] = field(default_factory=list)
    impossible: Optional[Event] = None
    with_unanswered: bool = False
    outsiders: list[Outside] = field(default_factory=list)

    def again(self, program: Program, places: Places) -> Judged:
        """What comes of the same with some calls at other places."""
        return program.judge(write(self.found, self.with_unanswered, self.outsiders, places))


@dataclass
class State:
    """What is assumed so far."""

    assumed: Assumptions = field(default_factory=Assumptions)
    with_unanswered: bool = False
    outsiders: list[tuple[int, str, tuple[int, int]]] = field(default_factory=list)
    told: list[Told] = field(default_factory=list)

    def with_more(self, told: Told, **changed: object) -> "State":
        """The same with one assumption more."""
        values: dict[str, object] = {"assumed": self.assumed, "with_unanswered": self.with_unanswered, "outsiders": self.outsiders}
        values.update(changed)
        return State(**values, told=[*self.told, told])  # type: ignore[arg-type]


class Explainer:
    """Looks for an order that gives every answer of a log."""

    def __init__(self, log: Log, program: Program) -> None:
        self.log, self.program = log, program

    def explain(self) -> Explained:
        """The log explained, with an order of its effects as the program tells it. Raises CannotJudge where it tells nothing."""
        explained = self.assumed()
        if explained.impossible is None:
            explained.judged = self.program.order(explained.written)
        return explained

    def assumed(self) -> Explained:
        """What comes of the log, with the first assumption at each place that helps there."""
        state = State()
        explained = self.tried(state)
        while explained.impossible is not None:
            better = next(((more, it) for more, it in self.tries(state, explained) if helps(it, explained)), None)
            if better is None:
                return explained
            state, explained = better
        return explained

    def tried(self, state: State) -> Explained:
        """What comes of a state."""
        found = Follower(self.log, state.assumed).follow()
        left_unjudged(found)
        by_place = {request.call.begin: request for request in found.requests}
        outsiders = [Outside(by_place[place], FIRST_OUTSIDER + at, mode, span) for at, (place, mode, span) in enumerate(state.outsiders)]
        written = write(found, state.with_unanswered, outsiders)
        judged = self.program.judge(written)
        impossible = event_at(written, judged.illegal) if judged.illegal is not None else None
        return Explained(found, written, judged, state.told, impossible, state.with_unanswered, outsiders)

    def tries(self, state: State, explained: Explained) -> Iterator[tuple[State, Explained]]:
        """Each further assumption, with what comes of it: who has no answer in the log, one file or two, threads, somebody else."""
        for more in (*self.unanswered(state, explained), *self.names(state, explained), *self.threads(state, explained), *self.outside(state, explained)):
            yield more, self.tried(more)

    def unanswered(self, state: State, explained: Explained) -> Iterator[State]:
        """Requests without an answer may have had their effect."""
        at = explained.impossible
        if at is not None and not state.with_unanswered and any(it.text and it.answer is None for it in explained.found.requests):
            yield state.with_more(Told(at.call, UNANSWERED), with_unanswered=True)

    def names(self, state: State, explained: Explained) -> Iterator[State]:
        """Two names are one file (a link), or one name is two files (unlinked)."""
        at = explained.impossible
        if at is None or at.file is None:
            return
        path, assumed = at.file.path, state.assumed
        others = dict.fromkeys(it.file.path for it in explained.found.requests if it.file and it.file.path != path and it.begin <= at.begin)
        for other in others:
            same = {**assumed.same, max(path, other): min(path, other)}
            told = Told(at.call, f"{path} is {other}")
            yield state.with_more(told, assumed=Assumptions(same, assumed.parted, assumed.threads))
        opens = [call for call in self.log.calls if call.begin in explained.found.opened and call.begin < at.call.begin]
        named = [call for call in reversed(opens) if explained.found.opened[call.begin].path == path]
        for call in named[: len(named) - 1]:
            told = Told(at.call, f"{path} was unlinked before {call.said_line}")
            yield state.with_more(told, assumed=Assumptions(assumed.same, {*assumed.parted, call.begin}, assumed.threads))

    def threads(self, state: State, explained: Explained) -> Iterator[State]:
        """Tasks whose start the log lacks are threads of one process."""
        at, starts, assumed = explained.impossible, explained.found.unknown_starts, state.assumed
        if at is not None and len(starts) > 1 and not assumed.threads:
            told = Told(at.call, f"tasks {', '.join(map(str, starts))} are threads of one process")
            yield state.with_more(told, assumed=Assumptions(assumed.same, assumed.parted, True))

    def outside(self, state: State, explained: Explained) -> Iterator[State]:
        """Somebody outside the log holds these bytes."""
        at = explained.impossible
        if not isinstance(at, Request) or at.file is None or at.answer is None or not (at.answer == "busy" or at.answer.startswith("held")):
            return
        is_get = at.answer.startswith("held")
        mode = at.mode if is_get else "r" if at.mode == "w" else "w"
        first, last = at.span or (0, 0)
        where = f"bytes {first} to {said_last(last)} of {at.file.path}" if not at.is_whole_file else f"a flock lock of {at.file.path}"
        told = Told(at.call, f"somebody outside the log holds {where}")
        for span in dict.fromkeys([(first, last)] if is_get else [(first, last), (first, first), (last, last)]):
            yield state.with_more(told, outsiders=[*state.outsiders, (at.call.begin, mode, span)])


def event_at(written: Written, line: int) -> Optional[Event]:
    """The event of a line of a history, or of the first one behind it that has one, where it is an outsider's."""
    return next((event for event in written.events[line - 1 :] if event is not None), None)


def helps(new: Explained, old: Explained) -> bool:
    """Whether the answer that was impossible is possible now."""
    return new.impossible is None or place_of(new) > place_of(old)


def place_of(explained: Explained) -> tuple[int, int]:
    """Where the impossible answer stands in the log."""
    at = explained.impossible
    return (at.end or 0, at.call.begin) if at is not None else (0, 0)


def said_last(last: int) -> str:
    return "the end" if last == 2**63 - 1 else str(last)
