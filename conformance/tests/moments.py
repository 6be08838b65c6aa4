"""What the open requests of a history may do next: the rules of a file's locks, small and slow, beside those of lockreplay.

An answer is known beforehand, so only effects that go with it are followed. Who judges by these is a second opinion.
"""

from __future__ import annotations

from dataclasses import dataclass, replace
from typing import Iterator, Optional

# What an open request has done; nothing isn't noted. CANCELLED: its owner has died, so it does nothing any more.
DONE, CANCELLED, DONE_AND_CANCELLED = 1, 2, 3
WITHOUT_EFFECT = ("EINTR", "EDEADLK", "error")
STRONG = ("w", "ex")

ByteLock = tuple[int, int, int, str]  # owner, first, last, mode; largest runs, sorted
FlockLock = tuple[int, str]  # owner, mode; sorted
Progress = tuple[tuple[int, int], ...]  # the request's first line, and what it has done; sorted


@dataclass
class Request:
    """A request: its lines, its words, and its answer, empty where none came. `alone`: no other of its owner was open beside it."""

    identity: str
    line: int
    file: str
    word: str
    owner: int
    words: list[str]
    end: Optional[int] = None
    answer: tuple[str, ...] = ()
    alone: bool = True

    @property
    def is_wait(self) -> bool:
        return self.word == "wait" or (self.word == "flock" and self.words in (["sh"], ["ex"]))

    @property
    def mode(self) -> str:
        return self.words[0]

    @property
    def bytes(self) -> tuple[int, int]:
        return int(self.words[-2]), int(self.words[-1])

    @property
    def needs_effect(self) -> bool:
        return bool(self.answer) and self.answer[0] not in WITHOUT_EFFECT


@dataclass(frozen=True)
class State:
    """A possibility."""

    locks: tuple[ByteLock, ...] = ()
    flocks: tuple[FlockLock, ...] = ()
    progress: Progress = ()

    def done(self, request: Request) -> int:
        return dict(self.progress).get(request.line, 0)

    def marked(self, request: Request, mark: int) -> State:
        progress = {**dict(self.progress), request.line: mark}
        return replace(self, progress=tuple(sorted(progress.items())))

    def without(self, request: Request) -> State:
        return replace(self, progress=tuple(pair for pair in self.progress if pair[0] != request.line))

    def with_bytes(self, owner: int, first: int, last: int, mode: str) -> State:
        """The state in which these bytes have the mode of this owner, or none where it is empty."""
        others = [lock for lock in self.locks if lock[0] != owner]
        own: list[ByteLock] = []
        for lock in self.locks:
            if lock[0] == owner:
                own += [(owner, low, high, lock[3]) for low, high in ((lock[1], min(lock[2], first - 1)), (max(lock[1], last + 1), lock[2])) if low <= high]
        own += [(owner, first, last, mode)] if mode else []
        merged: list[ByteLock] = []
        for lock in sorted(own):
            if merged and merged[-1][2] + 1 == lock[1] and merged[-1][3] == lock[3]:
                merged[-1] = (owner, merged[-1][1], lock[2], lock[3])
            else:
                merged.append(lock)
        return replace(self, locks=tuple(sorted(others + merged)))

    def with_flock(self, owner: int, mode: str) -> State:
        """The state in which the owner has this flock lock, or none where it is empty."""
        flocks = [flock for flock in self.flocks if flock[0] != owner] + ([(owner, mode)] if mode else [])
        return replace(self, flocks=tuple(sorted(flocks)))

    def flock_of(self, owner: int) -> str:
        return dict(self.flocks).get(owner, "")

    def is_blocked(self, request: Request) -> bool:
        """Whether a lock of another owner is in the way of what is asked for."""
        if request.word == "flock":
            return request.mode != "un" and any(owner != request.owner and meet(mode, request.mode) for owner, mode in self.flocks)
        first, last = request.bytes
        return any(
            owner != request.owner and low <= last and first <= high and meet(mode, request.mode) for owner, low, high, mode in self.locks
        )


def meet(one: str, other: str) -> bool:
    """Whether two modes conflict."""
    return one in STRONG or other in STRONG


def effects(state: State, request: Request, open_requests: list[Request]) -> Iterator[tuple[State, bool]]:
    """What the request may do next; and whether that is never worse than to do it later, or not."""
    done = state.done(request)
    if done in (CANCELLED, DONE_AND_CANCELLED):
        return
    if request.word == "flock" and request.mode != "un":
        yield from flock_effects(state, request, done)
    elif done or request.answer[:1] in (("EINTR",), ("EDEADLK",)):
        return
    elif request.word in ("set", "wait"):
        if request.answer == ("busy",):
            if state.is_blocked(request):
                yield state.marked(request, DONE), True
        elif not state.is_blocked(request):
            yield state.with_bytes(request.owner, *request.bytes, request.mode).marked(request, DONE), False
    elif request.word == "get":
        if request.answer and request.answer != ("error",) and is_told(state, request):
            yield state.marked(request, DONE), True
    else:
        yield removed(state, request, open_requests)


def flock_effects(state: State, request: Request, done: int) -> Iterator[tuple[State, bool]]:
    """The same of a flock that asks for a lock. One that is done by `busy` may still take the old lock away."""
    held = state.flock_of(request.owner)
    is_busy = request.answer == ("busy",)
    if held not in ("", request.mode) and (not done or is_busy):
        yield state.with_flock(request.owner, ""), False
    if done or request.answer == ("EINTR",):
        return
    if is_busy and held != request.mode and state.is_blocked(request):
        yield state.marked(request, DONE), True
    elif not is_busy and (held == request.mode or not state.is_blocked(request)):
        yield state.with_flock(request.owner, request.mode).marked(request, DONE), False


def removed(state: State, request: Request, open_requests: list[Request]) -> tuple[State, bool]:
    """What an unlock, a flock un, a close or a gone makes of the state."""
    after = state
    if request.word != "flock":
        first, last = request.bytes if request.word == "unlock" else (0, 2**64)
        after = after.with_bytes(request.owner, first, last, "")
    if request.word != "unlock":
        after = after.with_flock(request.owner, "")
    is_best = after == state and request.alone and bool(request.answer)
    if request.word == "gone":
        for other in open_requests:
            if other.owner == request.owner and other.word != "gone":
                after = after.marked(other, DONE_AND_CANCELLED if after.done(other) in (DONE, DONE_AND_CANCELLED) else CANCELLED)
    return after.marked(request, DONE), is_best


def is_told(state: State, request: Request) -> bool:
    """Whether the answer of a get is true."""
    if request.answer[0] == "free":
        return not state.is_blocked(request)
    _, owner, mode, low, high = request.answer
    first, last = request.bytes
    if not (meet(mode, request.mode) and int(low) <= last and first <= int(high)):
        return False
    return any(
        whose != request.owner and owner in ("-", str(whose)) and kind == mode and start <= int(low) and int(high) <= stop
        for whose, start, stop, kind in state.locks
    )


def read(text: str) -> list[Request]:
    """Reads a history."""
    requests: list[Request] = []
    open_now: dict[str, Request] = {}
    for number, line in enumerate(text.splitlines(), 1):
        words = line.split()
        if not words or words[0].startswith("#"):
            continue
        if words[0] == ">":
            request = Request(words[1], number, words[3], words[2], int(words[4]), words[5:])
            requests.append(request)
            for other in open_now.values():
                if (other.file, other.owner) == (request.file, request.owner):
                    request.alone = other.alone = False
            open_now[words[1]] = request
        else:
            ended = open_now.pop(words[1])
            ended.end, ended.answer = number, tuple(words[2:])
    return requests
