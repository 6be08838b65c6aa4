"""The rules of docs/RULES.md in plain Python, written anew from its words for tests/explored: one request at a time, small and slow.

An owner is ('process', P) or ('description', D). A place is (FILE, 'bytes') or (FILE, 'flock'); a lock by flock is one of byte 0 there,
so that both families conflict by one rule and never meet.
"""

from __future__ import annotations

from dataclasses import dataclass
from typing import Iterator, NamedTuple, Optional

LARGEST = 2**63 - 1
# A process, the number of one of its requests, and what that one is told.
Note = tuple[int, int, str]
LOCK_COMMANDS = ("getlk", "setlk", "setlkw", "ogetlk", "osetlk", "osetlkw")
MODES = {"sh": "r", "ex": "w", "r": "r", "w": "w"}
TOLD_ERRORS = ("EBADF", "EINVAL", "EOVERFLOW", "EAGAIN", "EDEADLK", "EINTR", "EMFILE", "ESRCH")


class Refusal(Exception):
    """The error that a request is told; it changed nothing."""


class Lock(NamedTuple):
    """A lock that somebody has or asks for."""

    place: tuple[int, str]
    owner: tuple[str, int]
    first: int
    last: int
    mode: str

    def meets(self, other: Lock) -> bool:
        """Whether the two conflict."""
        return (
            self.place == other.place
            and self.owner != other.owner
            and self.first <= other.last
            and other.first <= self.last
            and "w" in (self.mode, other.mode)
        )


class Wait(NamedTuple):
    """A request that waits: its process and number, and the lock that it asks for."""

    process: int
    number: int
    lock: Lock


@dataclass
class Description:
    """An open file description; its offset is the only thing that changes."""

    file: int
    access: str
    offset: int = 0


@dataclass
class Script:
    """A script: its header lines, and of each process the words of its requests in order."""

    headers: list[str]
    arrivals: list[tuple[int, tuple[str, ...]]]

    def __init__(self, text: str) -> None:
        self.headers, self.arrivals = [], []
        for line in text.splitlines():
            words = line.split()
            if not words or words[0].startswith("#"):
                continue
            if words[0] in ("policy", "limits"):
                self.headers.append(" ".join(words))
            else:
                has_no_pid = words[1] in LOCK_COMMANDS and words[7:] == ["0"]
                self.arrivals.append((int(words[0]), tuple(words[1:7] if has_no_pid else words[1:])))
        self.processes = sorted({process for process, _ in self.arrivals})
        self.requests = {process: [words for other, words in self.arrivals if other == process] for process in self.processes}


def span(start: int, length: int) -> tuple[int, int]:
    """First and last byte of a range whose start was counted from the first byte of the file."""
    if length > 0:
        first, last = start, start + length - 1
    elif length < 0:
        first, last = start + length, start - 1
    else:
        first, last = start, LARGEST
    if first < 0:
        raise Refusal("EINVAL")
    if first > LARGEST or last > LARGEST:
        raise Refusal("EOVERFLOW")
    return first, last


def replaced(runs: tuple[tuple[int, int, str], ...], first: int, last: int, mode: str) -> tuple[tuple[int, int, str], ...]:
    """One owner's runs, rising and each as large as can be, after these bytes got a mode (none: '')."""
    cut = [(a, min(b, first - 1), m) for a, b, m in runs if a < first] + [(max(a, last + 1), b, m) for a, b, m in runs if b > last]
    whole: list[tuple[int, int, str]] = []
    for run in sorted(cut + ([(first, last, mode)] if mode else [])):
        if whole and whole[-1][1] + 1 == run[0] and whole[-1][2] == run[2]:
            run = (whole.pop()[0], run[1], run[2])
        whole.append(run)
    return tuple(whole)


class Manager:
    """The state of all locks, and what each request does to it."""

    def __init__(self, script: Script) -> None:
        self.queues = "policy queue" in script.headers
        self.most = 256 if "limits wide" in script.headers else 32
        self.states = {1: "live"}
        self.tables: dict[int, dict[int, int]] = {1: {}}
        self.descriptions: dict[int, Description] = {}
        self.opened = 0
        self.sizes: dict[int, int] = {}
        self.runs: dict[tuple[tuple[int, str], tuple[str, int]], tuple[tuple[int, int, str], ...]] = {}
        self.waits: list[Wait] = []
        self.taken: dict[int, int] = {}
        # Who is in which section, and whether by a shared visit; and whose last answer was an error.
        self.visits: dict[tuple[int, str], bool] = {}
        self.refused: set[int] = set()

    def copy(self) -> Manager:
        other = Manager.__new__(Manager)
        other.__dict__.update(self.__dict__)
        other.tables = {process: dict(table) for process, table in self.tables.items()}
        other.descriptions = {number: Description(**vars(it)) for number, it in self.descriptions.items()}
        for name in "states", "sizes", "runs", "waits", "taken", "visits", "refused":
            setattr(other, name, getattr(self, name).copy())
        return other

    # What there is.

    def description_of(self, process: int, fd: str) -> tuple[int, Description]:
        number = self.tables[process].get(int(fd))
        if number is None:
            raise Refusal("EBADF")
        return number, self.descriptions[number]

    def locks(self) -> Iterator[Lock]:
        """All locks that are held."""
        for (place, owner), runs in self.runs.items():
            for first, last, mode in runs:
                yield Lock(place, owner, first, last, mode)

    def mode_by_flock(self, number: int, file: int) -> Optional[str]:
        """The mode in which the description has the file by flock."""
        runs = self.runs.get(((file, "flock"), ("description", number)))
        return runs[0][2] if runs else None

    def is_locked_by(self, process: int) -> bool:
        """Whether the process has a traditional lock, or a description open that has a lock."""
        owners = {("process", process)} | {("description", number) for number in self.tables.get(process, {}).values()}
        return any(lock.owner in owners for lock in self.locks())

    def in_the_way(self, asked: Lock, earlier: list[Wait]) -> list[Lock]:
        """What blocks a request that would wait: locks, and under the queue policy the waits before it."""
        return [it for it in [*self.locks(), *(wait.lock for wait in earlier if self.queues)] if it.meets(asked)]

    def closes_cycle(self, asked: Lock) -> bool:
        """Whether the request's process is reached from the processes that block it, by traditional locks and waits for such."""

        def blockers(lock: Lock, earlier: list[Wait]) -> set[tuple[str, int]]:
            return {it.owner for it in self.in_the_way(lock, earlier) if it.owner[0] == "process"}

        reached: set[tuple[str, int]] = set()
        ahead = blockers(asked, self.waits)
        while ahead - reached:
            reached |= ahead
            ahead = {
                owner
                for i, wait in enumerate(self.waits)
                if wait.lock.owner in reached
                for owner in blockers(wait.lock, self.waits[:i])
            }
        return asked.owner in reached

    # What changes.

    def put(self, lock: Lock, mode: str) -> None:
        """The owner gets the mode on these bytes, or none."""
        runs = replaced(self.runs.pop(lock[:2], ()), lock.first, lock.last, mode)
        if runs:
            self.runs[lock[:2]] = runs

    def settle(self) -> list[Note]:
        """Grants the earliest wait that nothing blocks, again and again; the notes."""
        notes: list[Note] = []
        while True:
            ready = next((wait for i, wait in enumerate(self.waits) if not self.in_the_way(wait.lock, self.waits[:i])), None)
            if ready is None:
                return notes
            self.waits.remove(ready)
            self.put(ready.lock, ready.lock.mode)
            self.states[ready.process] = "live"
            notes.append((ready.process, ready.number, "ok"))

    def end_wait(self, process: int) -> Optional[Wait]:
        """Takes the process' wait from the list."""
        wait = next((wait for wait in self.waits if wait.process == process), None)
        if wait:
            self.waits.remove(wait)
        return wait

    def drop(self, process: int, fd: int, becomes: Optional[int] = None) -> None:
        """Closes a descriptor, which may refer to another description at once (dup2)."""
        number = self.tables[process].pop(fd)
        file = self.descriptions[number].file
        if becomes is not None:
            self.tables[process][fd] = becomes
        self.runs.pop(((file, "bytes"), ("process", process)), None)
        if not any(number in table.values() for table in self.tables.values()):
            for family in "bytes", "flock":
                self.runs.pop(((file, family), ("description", number)), None)
            del self.descriptions[number]

    def end(self, process: int) -> None:
        """Ends a process: its wait is gone, and its descriptors are closed."""
        self.end_wait(process)
        for fd in list(self.tables[process]):
            self.drop(process, fd)
        self.visits = {(of, section): is_shared for (of, section), is_shared in self.visits.items() if of != process}
        self.states[process] = "ended"

    # What each request does: what its caller is told, None where that is nothing. `behind` is what others are told at once.

    def take(self, process: int, words: tuple[str, ...]) -> list[Note]:
        """Takes a request of a live process; the notes of the event."""
        number = self.taken[process] = self.taken.get(process, 0) + 1
        self.behind: list[Note] = []
        try:
            if words[0] in LOCK_COMMANDS:
                told = self.lock(process, number, *words)
            else:
                told = getattr(self, words[0])(process, number, *words[1:])
        except Refusal as refusal:
            told = str(refusal)
        notes = ([(process, number, told)] if told else []) + self.behind + self.settle()
        for of, _, answer in notes:
            if answer != "waits":
                (self.refused.add if answer in TOLD_ERRORS else self.refused.discard)(of)
        return notes

    def lowest(self, process: int) -> int:
        free = next(fd for fd in range(self.most + 1) if fd not in self.tables[process])
        if free == self.most:
            raise Refusal("EMFILE")
        return free

    def open(self, process: int, _: int, file: str, access: str) -> str:
        fd = self.lowest(process)
        self.opened += 1
        self.descriptions[self.opened] = Description(int(file), access)
        self.tables[process][fd] = self.opened
        return f"fd {fd}"

    def dup(self, process: int, _: int, fd: str) -> str:
        description, _it = self.description_of(process, fd)
        lowest = self.lowest(process)
        self.tables[process][lowest] = description
        return f"fd {lowest}"

    def dup2(self, process: int, _: int, fd: str, to: str) -> str:
        description, _it = self.description_of(process, fd)
        if int(to) >= self.most:
            raise Refusal("EBADF")
        if to != fd and int(to) in self.tables[process]:
            self.drop(process, int(to), becomes=description)
        self.tables[process][int(to)] = description
        return f"fd {to}"

    def close(self, process: int, _: int, fd: str) -> str:
        self.description_of(process, fd)
        self.drop(process, int(fd))
        return "ok"

    def seek(self, process: int, _: int, fd: str, offset: str) -> str:
        _number, description = self.description_of(process, fd)
        if int(offset) < 0:
            raise Refusal("EINVAL")
        description.offset = int(offset)
        return "ok"

    def resize(self, process: int, _: int, fd: str, size: str) -> str:
        _number, description = self.description_of(process, fd)
        if int(size) < 0:
            raise Refusal("EINVAL")
        self.sizes[description.file] = int(size)
        return "ok"

    def fork(self, process: int, _: int, child: str) -> str:
        if int(child) in self.states:
            raise Refusal("EAGAIN")
        self.states[int(child)] = "live"
        self.tables[int(child)] = dict(self.tables[process])
        return "ok"

    def exit(self, process: int, _: int) -> None:
        self.end(process)

    def signal(self, _process: int, _: int, target: str) -> str:
        if self.states.get(int(target)) not in ("live", "waiting"):
            raise Refusal("ESRCH")
        wait = self.end_wait(int(target))
        self.states[int(target)] = "live"
        if wait:
            self.behind.append((wait.process, wait.number, "EINTR"))
        return "ok"

    def kill(self, process: int, _: int, target: str) -> Optional[str]:
        if self.states.get(int(target)) not in ("live", "waiting"):
            raise Refusal("ESRCH")
        self.end(int(target))
        return None if int(target) == process else "ok"

    def enter(self, process: int, _: int, section: str, shared: str = "") -> str:
        if (process, section) in self.visits:
            raise Refusal("EINVAL")
        self.visits[process, section] = shared == "sh"
        return "ok"

    def leave(self, process: int, _: int, section: str) -> str:
        if (process, section) not in self.visits:
            raise Refusal("EINVAL")
        del self.visits[process, section]
        return "ok"

    def bail(self, process: int, _: int) -> Optional[str]:
        if process not in self.refused:
            return "ok"
        self.end(process)
        return None

    def flock(self, process: int, number: int, fd: str, operation: str, nb: str = "") -> str:
        description, it = self.description_of(process, fd)
        asked = Lock((it.file, "flock"), ("description", description), 0, 0, MODES.get(operation, ""))
        had = self.mode_by_flock(description, it.file)
        if operation == "un" or had == asked.mode:
            self.put(asked, asked.mode)
            return "ok"
        if had:
            self.put(asked, "")
            self.behind = self.settle()
        return self.set_or_wait(process, number, asked, "EAGAIN" if nb else "waits")

    def lock(self, process: int, number: int, command: str, fd: str, kind: str, whence: str, start: str, length: str, pid: str = "0") -> str:
        description, it = self.description_of(process, fd)
        is_ofd, is_get = command[0] == "o", command.endswith("getlk")
        if (is_ofd and int(pid)) or (is_get and kind == "u"):
            raise Refusal("EINVAL")
        base = {"set": 0, "cur": it.offset, "end": self.sizes.get(it.file, 0)}[whence]
        first, last = span(base + int(start), int(length))
        owner = ("description", description) if is_ofd else ("process", process)
        asked = Lock((it.file, "bytes"), owner, first, last, MODES.get(kind, ""))
        if is_get:
            return self.tell_blocker(asked)
        if kind == "u":
            self.put(asked, "")
            return "ok"
        if kind not in it.access:
            raise Refusal("EBADF")
        return self.set_or_wait(process, number, asked, "waits" if command.endswith("w") else "EAGAIN")

    def set_or_wait(self, process: int, number: int, asked: Lock, otherwise: str) -> str:
        """Sets the lock if nothing is in its way; else what the caller is told, who then waits if that is so."""
        if not self.in_the_way(asked, self.waits if otherwise == "waits" else []):
            self.put(asked, asked.mode)
            return "ok"
        if otherwise == "waits" and asked.owner[0] == "process" and self.closes_cycle(asked):
            return "EDEADLK"
        if otherwise == "waits":
            self.waits.append(Wait(process, number, asked))
            self.states[process] = "waiting"
        return otherwise

    def tell_blocker(self, asked: Lock) -> str:
        """What a get command is told: at the least blocked byte the least owner's lock."""
        found = [lock for lock in self.locks() if lock.meets(asked)]
        if not found:
            return "free"
        lock = min(found, key=lambda it: (max(it.first, asked.first), it.owner[0] == "description", it.owner))
        length = 0 if lock.last == LARGEST else lock.last - lock.first + 1
        return f"held {lock.mode} {lock.first} {length} {lock.owner[1] if lock.owner[0] == 'process' else -1}"
