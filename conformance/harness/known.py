"""Known differences from what lockreplay says: those of Linux's own kernel, and those that FUSE's protocol makes. KERNEL.md has the
table, by the names that stand here.

A recogniser looks at the first event that isn't as it should be, and offers accounts under which it would be. An offer counts only
where all that the account then gives is what the system showed, so a recogniser takes nothing else for its difference.
"""

from __future__ import annotations

from dataclasses import dataclass, replace
from functools import cached_property
from itertools import islice, permutations
from typing import Callable, Iterator, Optional

from harness import deadlock
from harness.account import Account, Finding, Moment, Step, names_of, replay
from harness.descriptors import Description, Descriptors, followed
from harness.filesystem import FileSystem
from harness.journal import Event, Held, Run, Ticket, Wait
from harness.replay import Lockreplay
from harness.script import LARGEST_OFFSET, Request, Script

MOST_ORDERS = 120
MOST_EVENTS_BACK = 12


@dataclass
class Situation:
    """An event that isn't as it should be, and what is known of the state before it."""

    lockreplay: Lockreplay
    script: Script
    journal: list[Event]
    account: Account
    at: int
    right: Moment
    file_system: FileSystem

    @property
    def event(self) -> Event:
        return self.journal[self.at]

    @property
    def request(self) -> Request:
        return self.event.request

    @property
    def same_grants(self) -> bool:
        return self.event.grants == self.right.grants

    def finding(self, name: str) -> Finding:
        """The event as a known difference."""
        return Finding(name, self.at, str(Event(self.event.ticket, self.request, self.right.note, self.right.grants)))

    @cached_property
    def before(self) -> Run:
        """The state before the event."""
        return self.state_before(self.at)

    @cached_property
    def descriptors(self) -> Descriptors:
        return followed(self.journal[: self.at])

    @property
    def description(self) -> Optional[Description]:
        return self.descriptors.of(self.request)

    def state_before(self, moment: int) -> Run:
        """What lockreplay has before an event."""
        return replay(self.lockreplay, self.script, self.account.until(moment))

    def waits_before(self, moment: int) -> list[tuple[Ticket, Wait]]:
        """The waits before an event, by the journal's tickets."""
        run = self.state_before(moment)
        names = names_of(self.account.until(moment), run)
        return [(named, wait) for wait in run.waits if (named := names.get(wait.ticket)) is not None]

    def request_of(self, ticket: Ticket) -> Request:
        """The request of a ticket."""
        return next(event.request for event in self.journal if event.ticket == ticket)


Recogniser = Callable[[Situation], Iterator[Account]]


def start_past_largest(situation: Situation) -> Iterator[Account]:
    """EOVERFLOW where the start alone is past the largest offset."""
    call, description = situation.request.lock_call, situation.description
    if call is None or description is None or situation.event.note != "EOVERFLOW" or not situation.same_grants:
        return
    if situation.descriptors.base(call, description) + call.start > LARGEST_OFFSET:
        yield situation.account.leaving_out(situation.at)


def open_file_order(situation: Situation) -> Iterator[Account]:
    """An OFD command with a pid, and the refusal that it gets without one."""
    request, call = situation.request, situation.request.lock_call
    if request.is_open_file_lock and call is not None and call.pid != 0 and situation.right.note == "EINVAL":
        if situation.event.note in ("EOVERFLOW", "EBADF"):
            # What the command asks about isn't looked at before the range.
            kind = "r" if request.command == "ogetlk" else call.kind
            words = (*request.words[:2], kind, *request.words[3:6])
            yield situation.account.asking_instead(situation.at, replace(request, words=words))


def open_file_unlock_asked(situation: Situation) -> Iterator[Account]:
    """An OFD get command that asks about an unlock, and is told of its own locks."""
    call, description = situation.request.lock_call, situation.description
    if situation.request.command != "ogetlk" or call is None or call.kind != "u" or description is None:
        return
    asked = span_of(situation, description)
    own = [held for held in situation.before.held if held.owner == description.owner and held.file == description.file]
    told = [told_as(held) for held in own if not held.by_flock and asked and overlap(held, asked)]
    if asked and situation.event.note in (told or ["free"]):
        yield situation.account.accepting(situation.at)
    elif situation.event.note in ("EINVAL", "EOVERFLOW"):
        # The range may still be refused, as that of any lock.
        words = situation.request.words
        yield situation.account.asking_instead(situation.at, replace(situation.request, words=(*words[:2], "r", *words[3:])))


def other_blocker(situation: Situation) -> Iterator[Account]:
    """A get command that tells another lock that blocks."""
    if situation.event.note in [told_as(held) for held in told_of(situation)]:
        yield situation.account.accepting(situation.at)


def read_only_resize(situation: Situation) -> Iterator[Account]:
    """A resize that is refused by the access mode."""
    description = situation.description
    if situation.request.command == "resize" and description is not None and description.access == "r":
        if situation.event.note == "EINVAL" and situation.same_grants:
            yield situation.account.leaving_out(situation.at)


def past_largest_file(situation: Situation) -> Iterator[Account]:
    """A seek or a resize past the largest file."""
    if situation.request.command in ("seek", "resize") and situation.event.note in ("EINVAL", "EFBIG") and situation.same_grants:
        largest = {"seek": situation.file_system.largest_offset, "resize": situation.file_system.largest_size}
        if int(situation.request.words[2]) > largest[situation.request.command]:
            yield situation.account.leaving_out(situation.at)


def eacces(situation: Situation) -> Iterator[Account]:
    """EACCES, which POSIX allows beside EAGAIN."""
    if situation.request.command in ("setlk", "osetlk") and situation.event.note == "EACCES" and situation.right.note == "EAGAIN":
        yield situation.account.accepting(situation.at)


def deadlock_missed(situation: Situation) -> Iterator[Account]:
    """A cycle that a search by one blocker of each wait may miss. lockreplay has no such state, so comparing ends."""
    if situation.right.note != "EDEADLK" or situation.event.note != "waits" or situation.description is None:
        return
    asked = asked_lock(situation, "setlkw")
    search = deadlock.Search(situation.before)
    if asked and not all(search.must_find(asked.owner, held.owner) for held in deadlock.blockers(situation.before, asked)):
        yield replace(situation.account, stop=situation.at)


def deadlock_through_description(situation: Situation) -> Iterator[Account]:
    """A cycle that leads through OFD waits, at the request."""
    asked = asked_lock(situation, "setlkw")
    if situation.event.note != "EDEADLK" or situation.right.note != "waits" or asked is None:
        return
    places = {held.owner for held in deadlock.blockers(situation.before, asked)}
    if deadlock.Search(situation.before).can_find(asked.owner, places):
        yield situation.account.leaving_out(situation.at)


def deadlock_told_late(situation: Situation) -> Iterator[Account]:
    """A cycle that leads through OFD waits, at a later test of a wait."""
    late = [ticket for ticket, note in situation.event.grants.items() if note == "EDEADLK"]
    after = replay(situation.lockreplay, situation.script, situation.account.until(situation.at + 1))
    waits = {ticket: wait for ticket, wait in situation.waits_before(situation.at + 1)}
    search = deadlock.Search(after)
    for ticket in late:
        if ticket in waits and after.live and search.can_find(waits[ticket].lock.owner, {waits[ticket].lock.owner}):
            signal = Step(Request(after.live[0], ("signal", str(ticket[0]))), situation.at, None)
            account = situation.account.putting_in(situation.at, [], [signal])
            yield replace(account, refusals=account.refusals + ((situation.at, ticket, "EDEADLK"),))


def order_of_grants(situation: Situation) -> Iterator[Account]:
    """Another order of waits that are in each other's way."""
    waits = situation.waits_before(situation.at)
    if len(waits) < 2 or situation.same_grants:
        return
    ends = end_waits(situation, situation.at, waits)
    for order in orders(situation.event, waits):
        again = [ask_again(situation, situation.at, ticket, wait) for ticket, wait in order]
        yield situation.account.putting_in(situation.at, ends + again, [])


def flock_conversion(situation: Situation) -> Iterator[Account]:
    """A conversion by flock between whose halves no wait comes."""
    description = situation.description
    if situation.request.command != "flock" or description is None:
        return
    held = [lock for lock in situation.before.held if lock.by_flock and lock.owner == description.owner]
    if held and situation.request.words[2] not in ("un", held[0].mode):
        yield from flocks_asked_again(situation, situation.at, ())


def flock_lost(situation: Situation) -> Iterator[Account]:
    """A flock lock that was lost by a wait through its own description, at this event or an earlier one."""
    for moment in range(situation.at, max(-1, situation.at - MOST_EVENTS_BACK), -1):
        held = {lock.owner for lock in situation.state_before(moment).held if lock.by_flock}
        losing = [ticket for ticket, wait in situation.waits_before(moment) if wait.lock.by_flock and wait.lock.owner in held]
        for account in (account for lost in losing for account in flocks_asked_again(situation, moment, (lost,))):
            yield account
            # The loss may show first in a conversion, which goes its own way too.
            for converted in flock_conversion(replace(situation, account=account)) if moment < situation.at else ():
                yield replace(converted, findings=account.findings + (situation.finding("flock-conversion"),))


def fuse_pid_of_description(situation: Situation) -> Iterator[Account]:
    """F_GETLK on FUSE, which tells an OFD lock with a process that asked for locks through its description, not with -1."""
    for held in told_of(situation) if situation.request.command == "getlk" else ():
        if held.owner.startswith("description") and situation.event.note in [told_as(held, pid) for pid in askers(situation, held.owner)]:
            yield situation.account.accepting(situation.at)


def fuse_no_pid(situation: Situation) -> Iterator[Account]:
    """F_OFD_GETLK on FUSE, which tells a record lock with -1, not with its process."""
    for held in told_of(situation) if situation.request.command == "ogetlk" else ():
        if situation.event.note == told_as(held, "-1"):
            yield situation.account.accepting(situation.at)


def fuse_deadlock(situation: Situation) -> Iterator[Account]:
    """EDEADLK on FUSE for a wait that closes a cycle by OFD waits, its own or others."""
    asked = asked_lock(situation, "setlkw", "osetlkw")
    if situation.event.note == "EDEADLK" and situation.right.note == "waits" and asked is not None:
        if deadlock.closes_a_cycle(situation.before, asked):
            yield situation.account.leaving_out(situation.at)


def flocks_asked_again(situation: Situation, moment: int, lost: tuple[Ticket, ...]) -> Iterator[Account]:
    """Accounts in which all waits for flock locks are tested anew behind an event, and those that are `lost` lose what is held."""
    waits = [(ticket, wait) for ticket, wait in situation.waits_before(moment) if wait.lock.by_flock]
    ends = end_waits(situation, moment, waits)
    unlocks = []
    for ticket in lost:
        request = situation.request_of(ticket)
        unlocks.append(Step(Request(request.process, ("flock", request.words[1], "un")), moment, None))
    for order in orders(situation.journal[moment], waits):
        again = [ask_again(situation, moment, ticket, wait) for ticket, wait in order]
        yield situation.account.putting_in(moment, ends, unlocks + again)


def end_waits(situation: Situation, moment: int, waits: list[tuple[Ticket, Wait]]) -> list[Step]:
    """Steps that end the waits, by signals of the event's process."""
    sender = situation.journal[moment].request.process
    return [Step(Request(sender, ("signal", str(ticket[0]))), moment, None) for ticket, _ in waits]


def ask_again(situation: Situation, moment: int, ticket: Ticket, wait: Wait) -> Step:
    """The step that asks again for what is waited for: for the bytes that were found when the request was taken."""
    request = situation.request_of(ticket)
    lock = wait.lock
    if lock.first is not None and lock.last is not None:
        length = 0 if lock.last == LARGEST_OFFSET else lock.last - lock.first + 1
        words = (request.command, request.words[1], lock.mode, "set", str(lock.first), str(length))
        request = Request(request.process, words)
    return Step(request, moment, ticket)


def orders(event: Event, waits: list[tuple[Ticket, Wait]]) -> Iterator[list[tuple[Ticket, Wait]]]:
    """Orders of the waits in which those that ended with the event come first, the others behind them as they stand."""
    first = [waiting for waiting in waits if waiting[0] in event.grants]
    rest = [waiting for waiting in waits if waiting[0] not in event.grants]
    for order in islice(permutations(first), MOST_ORDERS):
        yield list(order) + rest


def span_of(situation: Situation, description: Description) -> Optional[tuple[int, int]]:
    """The bytes that a lock call names; None where there are none."""
    call = situation.request.lock_call
    if call is None:
        return None
    place = situation.descriptors.base(call, description) + call.start
    first = place + min(call.length, 0)
    last = LARGEST_OFFSET if call.length == 0 else place + max(call.length, 0) - 1
    return (first, last) if 0 <= first <= last <= LARGEST_OFFSET else None


def asked_lock(situation: Situation, *commands: str) -> Optional[Held]:
    """The byte lock that a request asks for, or asks about; None where it is none of these commands, or has no such bytes."""
    call, description = situation.request.lock_call, situation.description
    span = span_of(situation, description) if description else None
    if call is None or description is None or span is None or situation.request.command not in commands:
        return None
    owner = description.owner if situation.request.is_open_file_lock else f"process {situation.request.process}"
    return Held(description.file, owner, call.kind, *span)


def told_of(situation: Situation) -> list[Held]:
    """The locks that a get command may tell, each of which blocks; none where it isn't to tell one."""
    asked = asked_lock(situation, "getlk", "ogetlk")
    if asked is None or not str(situation.right.note).startswith("held"):
        return []
    return deadlock.blockers(situation.before, asked)


def askers(situation: Situation, owner: str) -> set[str]:
    """The pids by which a process may be told that asked for OFD locks of the owner: its number; once it has ended, perhaps 0."""
    descriptors, found, ended = Descriptors(), set(), set()
    for event in situation.journal[: situation.at]:
        description = descriptors.of(event.request)
        if event.request.command in ("osetlk", "osetlkw") and description is not None and description.owner == owner:
            found.add(str(event.request.process))
        if event.ends is not None:
            ended.add(str(event.ends))
        descriptors.follow(event)
    return found | ({"pid:0"} if found & ended else set())


def told_as(held: Held, pid: Optional[str] = None) -> str:
    """The note in which a get command tells a lock: with its own pid, or with another."""
    kind, number = held.owner.split()
    length = 0 if held.last == LARGEST_OFFSET else (held.last or 0) - (held.first or 0) + 1
    return f"held {held.mode} {held.first} {length} {pid or (number if kind == 'process' else -1)}"


def overlap(held: Held, span: tuple[int, int]) -> bool:
    """Whether a lock of bytes and a span meet."""
    return held.first is not None and held.last is not None and held.first <= span[1] and span[0] <= held.last


# Of Linux's own kernel, in the order in which they are tried: those of one request's answer first, and those of waits behind them.
OF_LINUX: dict[str, Recogniser] = {
    "start-past-largest-offset": start_past_largest,
    "ofd-order-of-refusals": open_file_order,
    "ofd-getlk-unlock": open_file_unlock_asked,
    "getlk-other-blocker": other_blocker,
    "resize-read-only": read_only_resize,
    "past-largest-file": past_largest_file,
    "eacces": eacces,
    "deadlock-missed": deadlock_missed,
    "deadlock-through-description": deadlock_through_description,
    "deadlock-told-late": deadlock_told_late,
    "order-of-grants": order_of_grants,
    "flock-conversion": flock_conversion,
    "flock-lost": flock_lost,
}
# Of any FUSE server, since the protocol doesn't tell which locks and waits are of open file descriptions.
OF_FUSE: dict[str, Recogniser] = {
    "fuse-getlk-pid": fuse_pid_of_description,
    "fuse-ofd-getlk-pid": fuse_no_pid,
    "fuse-ofd-deadlock": fuse_deadlock,
}


def recognised(situation: Situation, recognisers: dict[str, Recogniser]) -> Iterator[Account]:
    """The accounts that the recognisers offer, each with its finding."""
    for name, recogniser in recognisers.items():
        for account in recogniser(situation):
            yield replace(account, findings=account.findings + (situation.finding(name),))
