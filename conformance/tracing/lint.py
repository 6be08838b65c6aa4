"""What went wrong with a program's locks: the traps of fcntl and flock that a log shows, in the words of `lockreplay --explore` where it has them."""

from __future__ import annotations

from dataclasses import dataclass
from typing import Iterator, Optional

from tracing.assume import Explained
from tracing.follow import Release, Request
from tracing.log import Call
from tracing.tell import Held, Line, Teller, held_in

# By finding, the sentence of the manual that it is an instance of.
WHY = {
    "dropped": 'POSIX.1-2017 close: "All outstanding record locks owned by the process on the file associated with the file descriptor shall be removed."',
    "forked": 'POSIX.1-2017 fork: "Record locks are not inherited by the child process."',
    "executed": "POSIX.1-2017 exec: a descriptor with FD_CLOEXEC is closed, and a close drops the process' record locks on the file.",
    "lost": 'flock(2): "Converting a lock is not guaranteed to be atomic: the existing lock is first removed, and then a new lock is established."',
    "families": "fcntl_locking(2): locks of flock(2) and of fcntl(2) on one file don't see each other on a local file system of Linux.",
    "unlinked": "POSIX.1-2017 unlink: a file stays until it is closed; who opens its name anew locks another file.",
    "orders": "Two processes that take two locks in opposite orders can wait for each other for ever.",
    "deadlock": 'POSIX.1-2017 fcntl, EDEADLK: "putting the calling process to sleep would cause a deadlock".',
    "stuck": "Somebody waited at the end of the log.",
    "slow": "A wait was longer than asked for.",
    "busy": 'POSIX.1-2017 fcntl, EAGAIN: "the lock is blocked by another lock".',
    "interrupted": 'POSIX.1-2017 fcntl, EINTR: "the function was interrupted by a signal".',
}
QUIET = ("busy", "interrupted")


@dataclass
class Finding:
    """A finding, with the call of the log where it shows."""

    kind: str
    call: Call
    text: str

    def __str__(self) -> str:
        return f"{self.kind}: {self.call.said_line}: {self.text}"


class Linter:
    """Looks through an explained log for what went wrong."""

    def __init__(self, explained: Explained, teller: Teller, lines: list[Line], limit: Optional[float]) -> None:
        self.explained, self.teller, self.lines, self.limit = explained, teller, lines, limit
        self.requests = explained.found.requests

    def findings(self) -> list[Finding]:
        """All findings, in the log's order."""
        found = [*self.released(), *self.answered(), *self.families(), *self.orders(), *self.stuck(), *self.slow(), *self.unlinked()]
        return sorted(found, key=lambda it: it.call.begin)

    def released(self) -> Iterator[Finding]:
        """Locks that a close dropped while the file was still open, or that a fork or an exec lost."""
        for line in self.lines:
            event = line.event
            if isinstance(event, Release):
                for note in line.notes:
                    if note.startswith("dropped") and "still open" in note:
                        kind = "executed" if event.what.startswith("execve") else "dropped"
                        yield Finding(kind, event.call, f"{event.process} {event.what} {note}")
                if event.is_end and line.notes and event.inherited_by:
                    heirs = ", ".join(str(it) for it in event.inherited_by)
                    yield Finding("forked", event.call, f"{line.notes[0]}, and {heirs} has the file open without it")

    def answered(self) -> Iterator[Finding]:
        """What single answers show."""
        for line in self.lines:
            event = line.event
            if line.request.startswith("lets go") and isinstance(event, Request) and (event.answer != "ok" or event.begin != event.end):
                yield Finding("lost", event.call, f"{event.process} lost {', '.join(line.notes).replace('dropped ', '')} as it asked for another mode")
            elif isinstance(event, Request) and event.answer == "EDEADLK":
                yield Finding("deadlock", event.call, f"{event.process} was told EDEADLK")
            elif isinstance(event, Request) and event.answer in ("busy", "EINTR"):
                kind = "busy" if event.answer == "busy" else "interrupted"
                yield Finding(kind, event.call, f"{event.process} {line.request} was told {line.answer}" + "".join(f"; {it}" for it in line.notes))

    def families(self) -> Iterator[Finding]:
        """One file locked by flock and by fcntl, by different programs."""
        by_file: dict[int, dict[bool, Request]] = {}
        for request in self.requests:
            if request.file is not None and request.answer == "ok":
                by_file.setdefault(request.file.number, {}).setdefault(request.is_whole_file, request)
        for both in by_file.values():
            if len(both) == 2 and both[True].process.program != both[False].process.program:
                one, other = both[True], both[False]
                path = one.file.path if one.file else "?"
                later = max(one.call, other.call, key=lambda it: it.begin)
                yield Finding("families", later, f"{path} is locked by flock ({one.process}) and by fcntl ({other.process})")

    def orders(self) -> Iterator[Finding]:
        """Two locks that two processes took in opposite orders, each while it had the first one, and by a request that could wait for the second."""
        taken: dict[tuple[str, str], Request] = {}
        told: set[tuple[str, str]] = set()
        for request, other, name in (it for it in self.taken_behind() if it[0].waits):
            reverse = taken.get((name, other))
            if reverse is not None and reverse.process is not request.process and (name, other) not in told:
                told |= {(name, other), (other, name)}
                text = f"{request.process} took {other} and then {name}, {reverse.process} the other way round ({reverse.call.said_line})"
                yield Finding("orders", request.call, text)
            taken.setdefault((other, name), request)

    def taken_behind(self) -> Iterator[tuple[Request, str, str]]:
        """Each request that took a lock, with the name of each other lock that its process had taken and still had, and of its own."""
        took: set[tuple[int, int, int]] = set()
        for line in self.lines:
            request = line.event
            if isinstance(request, Request) and request.file is not None and took_lock(request) and not line.request.startswith("lets go"):
                names = [self.lock_name(it.file, it.span is None) for it in line.behind if (request.process.number, it.owner, it.file) in took]
                took.add((request.process.number, request.owner, request.file.number))
                own = self.lock_name(request.file.number, request.is_whole_file)
                yield from ((request, other, own) for other in dict.fromkeys(names) if other != own)

    def lock_name(self, file: int, is_whole_file: bool) -> str:
        """What a lock of a file is called."""
        return f"{self.explained.found.files[file].path}{' by flock' if is_whole_file else ''}"

    def stuck(self) -> Iterator[Finding]:
        """Who waited at the end, for whom, and whether in a cycle."""
        judged = self.explained.judged
        last = held_in(judged.states.get(len(judged.effects), []))
        # (a request without an answer has an effect where that was assumed)
        over = {id(effect.event) for effect in judged.effects if not effect.is_loss}
        waiting = [it for it in self.requests if it.waits and it.answer is None and not it.is_cut_off and id(it) not in over]
        blocked = [(it, [lock for lock in last if self.teller.is_in_the_way(it, lock)]) for it in waiting]
        for request, locks in blocked:
            ways = "; ".join(f"{lock} of {self.teller.owner(lock.owner)}{self.teller.set_by(lock)}" for lock in locks)
            cycle = self.cycle(request, blocked)
            text = f"{request.process} waited at the end of the log" + (f" for {ways}" if ways else "") + (f"; deadlock: {cycle}" if cycle else "")
            yield Finding("stuck", request.call, text)

    def cycle(self, request: Request, blocked: list[tuple[Request, list[Held]]]) -> str:
        """The processes of a shortest cycle of waits that the request is in, if there is one."""
        owners = {it.owner: it.process.number for it in self.requests}
        waits = [(it, owners[lock.owner]) for it, locks in blocked for lock in locks if lock.owner in owners]
        own = request.process.number
        paths = [[own, holder] for it, holder in waits if it is request]
        seen: set[int] = set()
        for path in paths:
            if path[-1] == own:
                return " -> ".join(str(self.teller.numbers.get(number, number)) for number in path)
            further = {holder: None for it, holder in waits if it.process.number == path[-1] and holder not in seen}
            seen.update(further)
            paths += [[*path, holder] for holder in further]
        return ""

    def slow(self) -> Iterator[Finding]:
        """Who waited longer than asked for."""
        for request in self.requests:
            lasted = request.call.lasted
            if self.limit is not None and lasted is not None and lasted > self.limit and request.waits:
                yield Finding("slow", request.call, f"{request.process} waited {lasted:.3f} s")

    def unlinked(self) -> Iterator[Finding]:
        """A lock file that was unlinked while it was locked."""
        for call, path, owners in self.explained.found.unlinked:
            if owners:
                yield Finding("unlinked", call, f"{path} was unlinked while {' and '.join(map(str, owners))} had it open and locked")


def took_lock(request: Request) -> bool:
    """Whether a request that was judged was granted a lock."""
    return request.answer == "ok" and bool(request.text) and not request.text.startswith("unlock") and not request.text.endswith(" un")
