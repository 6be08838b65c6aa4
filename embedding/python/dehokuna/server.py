"""The lock server."""

from __future__ import annotations

import ctypes
import enum
import operator
import threading
from dataclasses import dataclass
from types import TracebackType
from typing import Callable, Dict, Iterator, NamedTuple, Optional, Tuple, Type, Union

from . import _library
from ._library import TO_THE_END, BlockerOut, CountsOut, FaultOut, FlockOut, OwnerWaitOut, Server, WaitingOut
from .errors import Blocked, Deadlock, Invalid, NoLocks, NoState, TicketTaken


class Policy(enum.IntEnum):
    """Who goes first."""

    HELD = 0
    """A request, and a wait, is given its lock where no lock of another owner conflicts with it, whoever waits (Linux; writers may starve)."""
    QUEUE = 1
    """A request that may wait goes behind the earlier waits that conflict with it, but where its owner has already what it is for. For more
    bytes or a stronger mode an owner goes behind them like anyone, and may be told Deadlock."""


class Mode(enum.IntEnum):
    """What a lock allows."""

    UNLOCK = 0
    """No lock: what is held is removed (F_UNLCK, LOCK_UN)."""
    READ = 1
    """Shared (F_RDLCK, LOCK_SH)."""
    WRITE = 2
    """Exclusive (F_WRLCK, LOCK_EX)."""


_ATOMIC = 256


class _Status(enum.IntEnum):
    DONE = 0
    BLOCKED = 1
    WAITS = 2
    DEADLOCK = 3
    TICKET_TAKEN = 4
    NO_MEMORY = 5
    INVALID = 6


_REFUSALS: Dict[int, Callable[[], OSError]] = {
    _Status.BLOCKED: Blocked,
    _Status.DEADLOCK: Deadlock,
    _Status.TICKET_TAKEN: TicketTaken,
    _Status.NO_MEMORY: NoLocks,
    _Status.INVALID: Invalid,
}


@dataclass(frozen=True)
class Blocker:
    """A byte lock that is in the way, or listed: its owner, and one largest range of one mode, from its first to its last byte."""

    owner: int
    first: int
    last: int
    mode: Mode


@dataclass(frozen=True)
class Counts:
    """How many locks and waits a client has: byte locks, of each owner and file the largest ranges of one mode, flock locks, and waits."""

    runs: int
    flock_locks: int
    waits: int


@dataclass(frozen=True)
class FlockLock:
    """A flock lock (flock(2)): its owner and its mode."""

    owner: int
    mode: Mode


class OwnerWait(NamedTuple):
    """A wait by its owner, its file and its ticket, by which waits of owners are ordered."""

    owner: int
    file: int
    ticket: int


@dataclass(frozen=True)
class Waiting:
    """A wait: its ticket, its owner, the range that it asks for (None: a flock lock), the mode, whether it takes part in the search for
    deadlocks, and what is in its way: a lock, or no lock but the earlier wait with this ticket."""

    ticket: int
    owner: int
    span: Optional[Tuple[int, int]]
    mode: Mode
    detect: bool
    behind: Union[Blocker, FlockLock, int]


class _Obstacle(enum.IntEnum):
    LOCK = 0
    FLOCK = 1
    WAIT = 2


_WHOLE = 1

# What is wrong with bytes that no server exports (enum dehokuna_flaw).
_FLAWS = (
    "the bytes are not of the format",
    "a list is not in its order",
    "two locks conflict",
    "a ticket is there twice",
    "nothing blocks a wait",
    "owners wait for each other",
    "a crossed owner doesn't wait",
)


def _waiting(told: WaitingOut) -> Waiting:
    lock = told.blocker
    behind: Union[Blocker, FlockLock, int] = told.behind
    if told.obstacle == _Obstacle.LOCK:
        behind = Blocker(lock.owner, lock.first, lock.last, Mode(lock.mode))
    elif told.obstacle == _Obstacle.FLOCK:
        behind = FlockLock(lock.owner, Mode(lock.mode))
    span = None if told.family == _WHOLE else (told.first, told.last)
    return Waiting(told.ticket, told.owner, span, Mode(told.mode), told.detect, behind)


def _behind(wait: OwnerWait) -> Optional[OwnerWait]:
    """The least wait that can come behind this one."""
    most = 2**64 - 1
    if wait.ticket < most:
        return wait._replace(ticket=wait.ticket + 1)
    if wait.file < most:
        return OwnerWait(wait.owner, wait.file + 1, 0)
    return OwnerWait(wait.owner + 1, 0, 0) if wait.owner < most else None


def _number(value: int) -> int:
    """The value where it fits 64 bits: ctypes would cut it off."""
    number = operator.index(value)
    if not 0 <= number < 2**64:
        raise OverflowError(f"{number} is no number of 64 bits without a sign")
    return number


def _word(value: int) -> int:
    """The value where it fits 32 bits; what it means, the library judges."""
    return operator.index(value) if 0 <= operator.index(value) < 2**32 else 2**32 - 1


class LockServer:
    """The locks of any number of files, without a lock and a wait at first.

    Files, owners, open files and tickets are numbers of 64 bits of the caller's choice. A range is its first and its last byte, and reaches
    to the end where the last is TO_THE_END or above. Byte locks and flock locks of a file never meet.

    After each call but note, forget_file and those that only read, whatever came of it, ask grants() for the tickets whose requests are granted now.

    Any thread may call: one lock is held during each call. A server is of no use in a forked child of a process with threads.
    """

    def __init__(self, policy: Policy = Policy.HELD, *, atomic: bool = False) -> None:
        """Makes a server. With `atomic` a flock that converts a lock is tested before any wait is granted (Linux), and else the waits that the
        old lock held back are granted first. NoLocks: there was no memory."""
        self._server: Optional[Server] = None
        self._mutex = threading.Lock()
        self._library = _library.load()
        made = Server()
        if not self._library.dehokuna_create(made, Policy(policy) | (_ATOMIC if atomic else 0)):
            raise NoLocks()
        self._server = made

    @classmethod
    def from_bytes(cls, state: bytes) -> "LockServer":
        """Makes the server whose export is these bytes: it is in the same state as the one that wrote them, whatever its class's arguments were.
        NoState: they are no server's export. NoLocks: there was no memory."""
        server = cls()
        made, fault = Server(), FaultOut()
        room = (ctypes.c_uint8 * max(1, len(state))).from_buffer_copy(state or b"\0")
        status = server._library.dehokuna_import(made, room, len(state), fault)
        if status != _Status.DONE:
            server.close()
            raise NoLocks() if status == _Status.NO_MEMORY else NoState(_FLAWS[fault.flaw], fault.offset)
        with server._mutex:
            empty, server._server = server._server, made
            server._library.dehokuna_destroy(empty)
        return server

    def close(self) -> None:
        """Frees the server with all its locks and waits. A closed one may be closed again, and all else is a ValueError."""
        with self._mutex:
            server, self._server = self._server, None
            if server is not None:
                self._library.dehokuna_destroy(server)

    def __enter__(self) -> "LockServer":
        return self

    def __exit__(self, kind: Optional[Type[BaseException]], fault: Optional[BaseException], trace: Optional[TracebackType]) -> None:
        self.close()

    def __del__(self) -> None:
        if getattr(self, "_server", None) is not None:
            self.close()

    def get(self, file: int, owner: int, first: int = 0, last: int = TO_THE_END, mode: Mode = Mode.WRITE) -> Optional[Blocker]:
        """The first lock that would block the owner's lock of this mode on the range: at the least byte that is blocked, of the least owner
        there (F_GETLK). Invalid."""
        told = BlockerOut()
        if self._ask("get", _number(file), _number(owner), _number(first), _number(last), _word(mode), told) == _Status.BLOCKED:
            return Blocker(told.owner, told.first, told.last, Mode(told.mode))
        return None

    def blockers(self, file: int, owner: int, first: int = 0, last: int = TO_THE_END, mode: Mode = Mode.WRITE) -> Iterator[Blocker]:
        """All bytes of the range that are blocked, range by range: of each byte the lock of one owner there. It asks get behind each."""
        while True:
            blocker = self.get(file, owner, first, last, mode)
            if blocker is None:
                return
            yield blocker
            if blocker.last >= min(last, TO_THE_END):
                return
            first = blocker.last + 1

    def set(self, file: int, owner: int, first: int = 0, last: int = TO_THE_END, mode: Mode = Mode.WRITE) -> None:
        """Sets the owner's mode on just the bytes of the range, or removes it (F_SETLK, F_OFD_SETLK). Blocked, NoLocks, Invalid: all is as it
        was. An unlock is never Blocked."""
        self._must("set", _number(file), _number(owner), _number(first), _number(last), _word(mode))

    def wait(
        self, ticket: int, file: int, owner: int, first: int = 0, last: int = TO_THE_END, mode: Mode = Mode.WRITE, detect: bool = True
    ) -> bool:
        """The same for a lock that may be waited for (F_SETLKW, F_OFD_SETLKW): True where it is set, and False where the request waits, whose
        ticket comes from grants. detect: the wait takes part in the search for deadlocks. Deadlock, TicketTaken, NoLocks, Invalid: all is as
        it was."""
        return self._must("wait", _number(ticket), _number(file), _number(owner), _number(first), _number(last), _word(mode), bool(detect))

    def cancel(self, ticket: int) -> bool:
        """Ends the wait with the ticket, of either kind (a signal: EINTR). False: none has it, be it granted or unknown."""
        return bool(self._call("cancel", _number(ticket)))

    def note(self, file: int, owner: int, open_file: int) -> None:
        """Notes that the owner is seen through the open file, for release. NoLocks: nothing has changed."""
        if not self._call("note", _number(file), _number(owner), _number(open_file)):
            raise NoLocks()

    def flush(self, file: int, owner: int) -> None:
        """Removes the owner's byte locks on the file; its waits stay (the close rule of POSIX)."""
        self._call("flush", _number(file), _number(owner))

    def forget(self, owner: int) -> None:
        """Removes the owner's byte locks and its waits for them, on all files."""
        self._call("forget", _number(owner))

    def forget_owners(self, first: int, last: int) -> None:
        """A client is gone, whose owners are those from the first number to the last, both among them: their byte locks, flock locks and waits
        leave all files, and only then waits are granted. A wait that leaves is told no more. Grants that weren't fetched stay, so a ticket
        may be of a lock that is gone."""
        self._call("forget_owners", _number(first), _number(last))

    def forget_file(self, file: int) -> None:
        """A file is gone: all its locks and waits go, and nothing is granted. Grants that weren't fetched stay."""
        self._call("forget_file", _number(file))

    def has_locks(self, first: int, last: int) -> bool:
        """Whether an owner from the first number to the last has a byte lock or a flock lock on some file; a wait is none."""
        return bool(self._call("has_locks", _number(first), _number(last)))

    def counts(self, first: int, last: int) -> Counts:
        """How many locks and waits the owners from the first number to the last have, on all files."""
        told = CountsOut()
        self._call("counts", _number(first), _number(last), told)
        return Counts(told.runs, told.flock_locks, told.waits)

    def flock(self, file: int, owner: int, mode: Mode = Mode.WRITE) -> None:
        """Sets, converts or removes the owner's flock lock (LOCK_NB, LOCK_UN). Blocked: a lock that it had is lost. NoLocks, Invalid: all is
        as it was."""
        self._must("flock", _number(file), _number(owner), _word(mode))

    def flock_wait(self, ticket: int, file: int, owner: int, mode: Mode = Mode.WRITE) -> bool:
        """The same for a flock lock that may be waited for: True where it is set, and False where the request waits, and a lock that it had
        is lost. TicketTaken, NoLocks, Invalid: all is as it was."""
        return self._must("flock_wait", _number(ticket), _number(file), _number(owner), _word(mode))

    def flock_release(self, file: int, owner: int) -> None:
        """Removes the owner's flock lock; its waits stay."""
        self._call("flock_release", _number(file), _number(owner))

    def release(self, file: int, open_file: int, flock_owner: Optional[int] = None) -> None:
        """The last close of an open file: removes the byte locks of the owners that were last seen through it, and the flock lock of the
        flock owner, if one is given."""
        self._call("release", _number(file), _number(open_file), flock_owner is not None, _number(flock_owner or 0))

    def next_grant(self) -> Optional[int]:
        """The ticket of the oldest grant that wasn't told yet."""
        ticket = ctypes.c_uint64()
        return ticket.value if self._call("next_grant", ticket) else None

    def grants(self) -> Iterator[int]:
        """The tickets of all grants that weren't told yet, oldest first."""
        return iter(self.next_grant, None)

    def export(self) -> bytes:
        """The state as bytes: servers in the same state have the same ones, whatever each was told before, and others have others."""
        with self._mutex:
            size = self._call_alone("export_size")
            room = (ctypes.c_uint8 * size)()
            self._call_alone("export", room, size)
        return bytes(room)

    def files(self, first: int = 0) -> Iterator[int]:
        """The files that have a lock or a wait, rising, from this number on. Each is asked for when its turn comes, as in all lists here."""
        file, most = ctypes.c_uint64(), 2**64 - 1
        while first <= most and self._call("next_file", _number(first), file):
            yield file.value
            first = file.value + 1

    def locks(self, file: int) -> Iterator[Blocker]:
        """The byte locks on the file, by owner and then by first byte: each the largest range on which its owner has the one mode."""
        told, owner, first = BlockerOut(), 0, 0
        while self._call("next_lock", _number(file), owner, first, told):
            owner, first = told.owner, told.last + 1
            yield Blocker(told.owner, told.first, told.last, Mode(told.mode))

    def flocks(self, file: int) -> Iterator[FlockLock]:
        """The flock locks on the file, by owner."""
        told, owner = FlockOut(), 0
        while owner < 2**64 and self._call("next_flock", _number(file), owner, told):
            owner = told.owner + 1
            yield FlockLock(told.owner, Mode(told.mode))

    def waits(self, file: int) -> Iterator[Waiting]:
        """The waits on the file in order of arrival, each with what is in its way."""
        told, place = WaitingOut(), 0
        while self._call("wait_at", _number(file), place, told):
            place += 1
            yield _waiting(told)

    def waits_of(self, first: int = 0, last: int = 2**64 - 1) -> Iterator[OwnerWait]:
        """The waits of these owners on all files, by owner, file and ticket. Each looks at each wait on each file."""
        told = OwnerWaitOut()
        place: Optional[OwnerWait] = OwnerWait(_number(first), 0, 0)
        while place is not None and self._call("next_wait", *place, _number(last), told):
            wait = OwnerWait(told.owner, told.file, told.ticket)
            place = _behind(wait)
            yield wait

    def _call(self, name: str, *words: object) -> int:
        with self._mutex:
            return self._call_alone(name, *words)

    def _call_alone(self, name: str, *words: object) -> int:
        """The call, while the lock is held."""
        if self._server is None:
            raise ValueError("the lock server is closed")
        return getattr(self._library, f"dehokuna_{name}")(self._server, *words)

    def _ask(self, name: str, *words: object) -> int:
        """A call that answers a status; what was wrong with the words alone is raised."""
        status = self._call(name, *words)
        if status == _Status.INVALID:
            raise Invalid()
        return status

    def _must(self, name: str, *words: object) -> bool:
        """A request: whether it is done, and not waiting; a refusal is raised."""
        status = self._call(name, *words)
        if status in _REFUSALS:
            raise _REFUSALS[status]()
        return status == _Status.DONE
