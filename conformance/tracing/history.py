"""Writes what a log says of locks as a history, and has `lockreplay --history` judge it."""

from __future__ import annotations

import re
import subprocess
from dataclasses import dataclass, field
from pathlib import Path
from typing import Optional, Union

from tracing.follow import Followed, Release, Request

Event = Union[Request, Release]
# Other places of the begin and the end of an event, by its identity.
Places = dict[int, tuple[float, Optional[float]]]
IMPOSSIBLE = re.compile(r"^line (\d+): (.*) isn't possible$")
EFFECT = re.compile(r"^(\d+) (lets go )?behind (\d+)$")
ILLEGAL = 3
LIMIT = 2**63 - 1


class CannotJudge(Exception):
    """Says why the program gave no verdict."""


@dataclass
class Outside:
    """Somebody outside the log who holds bytes, or a whole file, while a request is answered."""

    request: Request
    owner: int
    mode: str
    span: tuple[int, int]


@dataclass
class Written:
    """A history's text, and the event of each of its lines; an outsider's lines have none."""

    lines: list[str] = field(default_factory=list)
    events: list[Optional[Event]] = field(default_factory=list)
    by_number: dict[int, Event] = field(default_factory=dict)


@dataclass
class Effect:
    """An effect in the order that was found: the event's, or the loss of a conversion's old lock; and the locks behind it, by their lines."""

    event: Optional[Event]
    is_loss: bool
    behind: int


@dataclass
class Judged:
    """What the program says: the effects in an order that gives every answer; or the line of the first answer that none gives."""

    effects: list[Effect] = field(default_factory=list)
    states: dict[int, list[str]] = field(default_factory=dict)
    illegal: Optional[int] = None
    open_there: list[str] = field(default_factory=list)


def asked_for(found: Followed) -> set[tuple[int, int]]:
    """The owners that asked for a lock, each with the file."""
    return {(it.owner, it.file.number) for it in found.requests if it.text and it.file is not None}


def is_judged(request: Request, with_unanswered: bool) -> bool:
    """Whether the history has the request. One without an answer is left out at first."""
    return bool(request.text) and (request.answer is not None or with_unanswered)


def left_unjudged(found: Followed) -> None:
    """A record lock that was set somewhere on a file leaves open what any other answer on its bytes says: they aren't judged either."""
    unknown = {it.file.number for it in found.requests if it.why_not.startswith("its range") and it.call.succeeded and it.file is not None}
    for request in found.requests:
        if request.file is not None and request.file.number in unknown and request.text and not request.is_whole_file:
            request.text, request.why_not = "", "a lock of the file is at an offset that the log doesn't show"


class Writer:
    """Writes the history of what was found: each `>` where its call begins, each `<` where it ends, of one place the `>` first."""

    def __init__(self, found: Followed, with_unanswered: bool, outsiders: list[Outside], forced: Places) -> None:
        self.outsiders, self.forced = {id(it.request): it for it in outsiders}, forced
        self.marks: list[tuple[float, int, int, list[tuple[str, Optional[Event]]]]] = []
        self.written = Written()
        self.number = 0
        asked = asked_for(found)
        for request in found.requests:
            if is_judged(request, with_unanswered):
                self.add(request, request.text, request.answer)
        for release in found.releases:
            if (release.owner, release.file.number) in asked:
                word = "gone" if release.is_end else "close"
                self.add(release, f"{word} {release.file.number} {release.owner}", "ok" if release.is_answered else None)

    def add(self, event: Event, text: str, answer: Optional[str]) -> None:
        """The lines of an event."""
        self.number += 1
        number = self.number
        self.written.by_number[number] = event
        begin, end = self.forced.get(id(event), (event.begin, event.end))
        self.mark(begin, 0, [(f"> {number} {text}", event)])
        if answer is not None and end is not None:
            last: list[tuple[str, Optional[Event]]] = [(f"< {number} {answer}", event)]
            outside = self.outsiders.get(id(event))
            self.mark(end, 1, self.around(outside, last) if outside else last)

    def around(self, outside: Outside, last: list[tuple[str, Optional[Event]]]) -> list[tuple[str, Optional[Event]]]:
        """The lines by which somebody outside the log has a lock while the request is answered."""
        request = outside.request
        where = f"{request.file.number if request.file else 0} {outside.owner}"
        if request.is_whole_file:
            take, free = f"flock {where} {'sh' if request.mode == 'w' else 'ex'} nb", f"flock {where} un"
        else:
            first, final = outside.span
            take, free = f"set {where} {outside.mode} {first} {final}", f"unlock {where} {first} {final}"
        self.number += 2
        one, other = self.number - 1, self.number
        return [(f"> {one} {take}", None), (f"< {one} ok", None), *last, (f"> {other} {free}", None), (f"< {other} ok", None)]

    def mark(self, place: float, is_answer: int, lines: list[tuple[str, Optional[Event]]]) -> None:
        self.marks.append((place, is_answer, len(self.marks), lines))

    def write(self) -> Written:
        """The lines in order."""
        for _, _, _, lines in sorted(self.marks, key=lambda it: it[:3]):
            for text, event in lines:
                self.written.lines.append(text)
                self.written.events.append(event)
        return self.written


def write(found: Followed, with_unanswered: bool, outsiders: list[Outside], forced: Optional[Places] = None) -> Written:
    """The history of what was found. `forced` gives other places of the begin and end of some events."""
    return Writer(found, with_unanswered, outsiders, forced or {}).write()


class Program:
    """The program `lockreplay`."""

    def __init__(self, path: Path) -> None:
        self.path = path

    def judge(self, written: Written) -> Judged:
        """Whether the program finds a history legal. Raises CannotJudge."""
        return self.told(written)

    def order(self, written: Written) -> Judged:
        """The same with an order of a legal history's effects, and the locks behind each. Raises CannotJudge."""
        return self.told(written, "--order", "--state", "all")

    def told(self, written: Written, *flags: str) -> Judged:
        """What the program says of a history. Raises CannotJudge."""
        text = "".join(f"{line}\n" for line in written.lines)
        command = [str(self.path), "--history", "--limit", str(LIMIT), *flags]
        try:
            ended = subprocess.run(command, input=text.encode(), stdout=subprocess.PIPE, stderr=subprocess.PIPE, check=False)
        except OSError as failed:
            raise CannotJudge(f"{self.path}: {failed.strerror or failed}") from failed
        if ended.returncode == ILLEGAL:
            return refused(ended.stdout.decode())
        if ended.returncode != 0:
            raise CannotJudge(ended.stderr.decode(errors="replace").strip() or f"{self.path} ended with status {ended.returncode}")
        return ordered(written, ended.stdout.decode())


def refused(text: str) -> Judged:
    """The answer that no order gives."""
    lines = text.splitlines()
    found = IMPOSSIBLE.match(lines[0]) if lines else None
    if not found:
        raise CannotJudge(f"lockreplay says: {lines[0] if lines else 'nothing'}")
    return Judged(illegal=int(found[1]), open_there=[line for line in lines[1:] if line.startswith("#")])


def ordered(written: Written, text: str) -> Judged:
    """A legal history with the order of its effects that is told, and the locks behind each."""
    judged = Judged()
    for line in text.splitlines():
        if line.startswith("# "):
            judged.states.setdefault(len(judged.effects), []).append(line[2:])
            continue
        found = EFFECT.match(line)
        if not found:
            raise CannotJudge(f"lockreplay says: {line}")
        judged.effects.append(Effect(written.by_number.get(int(found[1])), found[2] is not None, int(found[3])))
    return judged
