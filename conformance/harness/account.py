"""Leads lockreplay along what a system showed: an account is a script, changed where the system is known to go its own way.

Where a system's answer isn't the right one, the rest of its journal can still be judged if lockreplay can be brought to the same
state: by a request left out, or by waits that are ended and asked for again in another order. Each such change is a recogniser's
(`known.py`). All that an account's script gives must be what the system showed.
"""

from __future__ import annotations

from dataclasses import dataclass, field, replace
from typing import Optional

from harness.journal import Event, Run, Ticket
from harness.replay import Lockreplay
from harness.script import Request, Script

# A descriptor that is never open: to close it changes nothing.
HARMLESS = ("close", "4294967295")


@dataclass(frozen=True)
class Step:
    """A request for lockreplay, and the event of the journal at whose moment it is made.

    `stands_for` is the request of the journal that it stands for: the event's own, or a wait that is asked for again. It is None
    where the request was put in: what it is answered is nothing to compare, nor is the wait that it ends.
    """

    request: Request
    moment: int
    stands_for: Optional[Ticket]


@dataclass
class Moment:
    """What is right at an event: its own note, and the notes on waits that end with it."""

    note: Optional[str] = None
    grants: dict[Ticket, str] = field(default_factory=dict)


@dataclass(frozen=True)
class Finding:
    """A known difference: its name, the event, and what was right there."""

    name: str
    moment: int
    right: str


@dataclass(frozen=True)
class Account:
    """The steps; the events whose own note needn't agree; the late refusals; where comparing ends; and what was recognised."""

    steps: tuple[Step, ...]
    accepted: frozenset[int] = frozenset()
    refusals: tuple[tuple[int, Ticket, str], ...] = ()
    stop: Optional[int] = None
    findings: tuple[Finding, ...] = ()

    @staticmethod
    def of_journal(journal: list[Event]) -> Account:
        """The account that changes nothing."""
        return Account(tuple(Step(event.request, moment, event.ticket) for moment, event in enumerate(journal)))

    def own(self, moment: int) -> int:
        """The place of an event's own step."""
        places = (place for place, step in enumerate(self.steps) if step.moment == moment and not self.asks_again(step, place))
        return next(place for place in places if self.steps[place].stands_for is not None)

    def asks_again(self, step: Step, place: int) -> bool:
        """Whether the step asks again for a wait that an earlier step asked for."""
        return any(earlier.stands_for == step.stands_for for earlier in self.steps[:place])

    def accepting(self, moment: int) -> Account:
        """The account in which an event's own note needn't agree."""
        return replace(self, accepted=self.accepted | {moment})

    def asking_instead(self, moment: int, request: Request) -> Account:
        """The account in which lockreplay is asked something else at an event."""
        steps = list(self.steps)
        place = self.own(moment)
        steps[place] = replace(steps[place], request=request)
        return replace(self, steps=tuple(steps))

    def leaving_out(self, moment: int) -> Account:
        """The account in which an event changes nothing, whatever its note."""
        process = self.steps[self.own(moment)].request.process
        return self.asking_instead(moment, Request(process, HARMLESS)).accepting(moment)

    def putting_in(self, moment: int, before: list[Step], after: list[Step]) -> Account:
        """The account with steps before and behind an event's own."""
        place = self.own(moment)
        steps = self.steps[:place] + tuple(before) + self.steps[place : place + 1] + tuple(after) + self.steps[place + 1 :]
        return replace(self, steps=steps)

    def until(self, moment: int) -> tuple[Step, ...]:
        """The steps before an event."""
        return tuple(step for step in self.steps if step.moment < moment)


def replay(lockreplay: Lockreplay, script: Script, steps: tuple[Step, ...]) -> Run:
    """What lockreplay gives for the steps."""
    return lockreplay.run(script.of_requests(step.request for step in steps))


def names_of(steps: tuple[Step, ...], run: Run) -> dict[Ticket, Optional[Ticket]]:
    """For each of lockreplay's tickets the one of the journal."""
    return {event.ticket: step.stands_for for step, event in zip(steps, run.events)}


def moments_of(account: Account, run: Run) -> list[Moment]:
    """What is right at each event, as far as lockreplay's run takes the account's steps in their order."""
    names = names_of(account.steps, run)
    moments: list[Moment] = []
    seen: set[Ticket] = set()
    for step, event in zip(account.steps, run.events):
        if (step.request.process, step.request.words) != (event.request.process, event.request.words):
            break
        while len(moments) <= step.moment:
            moments.append(Moment())
        moment = moments[step.moment]
        put_in = step.stands_for is None
        if step.stands_for is not None and step.stands_for not in seen:
            moment.note = event.note
            seen.add(step.stands_for)
        elif step.stands_for is not None and event.note not in ("waits", None):
            moment.grants[step.stands_for] = event.note
        for ticket, note in event.grants.items():
            named = names.get(ticket)
            if named is not None and not (put_in and note == "EINTR"):
                moment.grants[named] = note
    for place, ticket, note in account.refusals:
        if place < len(moments):
            moments[place].grants[ticket] = note
    return moments


def first_difference(account: Account, journal: list[Event], moments: list[Moment]) -> Optional[int]:
    """The first event at which the journal shows other than what is right; None where there is none before comparing ends."""
    for place, event in enumerate(journal[: account.stop]):
        if place >= len(moments):
            return place
        agrees = place in account.accepted or event.note == moments[place].note
        if not agrees or event.grants != moments[place].grants:
            return place
    return None
