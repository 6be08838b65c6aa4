"""Scripts of lockreplay's language, as far as carrying one out needs them; whether a script is well-formed lockreplay judges."""

from __future__ import annotations

from dataclasses import dataclass
from typing import Iterable, Optional

LARGEST_OFFSET = 2**63 - 1
LOCK_COMMANDS = ("getlk", "setlk", "setlkw", "ogetlk", "osetlk", "osetlkw")
# What no system is asked.
SECTION_COMMANDS = ("enter", "leave", "bail")
HEADERS = ("policy", "limits")


@dataclass(frozen=True)
class Limits:
    """How many processes a script may name, and how many descriptors each has."""

    processes: int
    descriptors: int


SMALL = Limits(16, 32)
WIDE = Limits(64, 256)


@dataclass(frozen=True)
class LockCall:
    """The arguments of a fcntl lock command: bytes are counted from `whence` by `start` and `length`, as struct flock has it."""

    descriptor: int
    kind: str
    whence: str
    start: int
    length: int
    pid: int


@dataclass(frozen=True)
class Request:
    """One request: the process that sends it, the command with its arguments, and its line (from 1; 0 for one that was made up)."""

    process: int
    words: tuple[str, ...]
    line: int = 0

    @property
    def command(self) -> str:
        return self.words[0]

    @property
    def descriptor(self) -> Optional[int]:
        """The descriptor that is asked about, where the command takes one."""
        named = self.command in LOCK_COMMANDS + ("dup", "dup2", "close", "seek", "resize", "flock")
        return int(self.words[1]) if named else None

    @property
    def lock_call(self) -> Optional[LockCall]:
        """The arguments of a fcntl lock command; None for any other."""
        if self.command not in LOCK_COMMANDS:
            return None
        descriptor, kind, whence, start, length = self.words[1:6]
        pid = int(self.words[6]) if len(self.words) > 6 else 0
        return LockCall(int(descriptor), kind, whence, int(start), int(length), pid)

    @property
    def is_open_file_lock(self) -> bool:
        """Whether it is a lock command of the open file description's family (F_OFD_..)."""
        return self.command in ("ogetlk", "osetlk", "osetlkw")

    @property
    def may_wait(self) -> bool:
        return self.command in ("setlkw", "osetlkw") or (self.command == "flock" and self.words[-1] not in ("nb", "un"))

    def __str__(self) -> str:
        return f"{self.process} {' '.join(self.words)}"

    @staticmethod
    def parse(text: str, line: int = 0) -> Request:
        """Reads a request's line; a pid of 0 is left out, as the journal leaves it out."""
        process, *words = text.split()
        if words[0] in LOCK_COMMANDS and len(words) == 7 and words[6] == "0":
            words.pop()
        return Request(int(process), tuple(words), line)


@dataclass(frozen=True)
class Script:
    """A script: its name, its text, and its requests in order of arrival."""

    name: str
    text: str
    headers: tuple[str, ...]
    requests: tuple[Request, ...]

    @property
    def limits(self) -> Limits:
        return WIDE if "limits wide" in self.headers else SMALL

    @property
    def queues(self) -> bool:
        """Whether requests wait behind earlier waits, which only a manager of that policy shows."""
        return "policy queue" in self.headers

    @property
    def head(self) -> str:
        """The comment at the head, in one line."""
        said = []
        for line in self.text.splitlines():
            if not line.startswith("#"):
                break
            said.append(line.lstrip("# ").rstrip())
        return " ".join(said)

    def of_requests(self, requests: Iterable[Request]) -> Script:
        """The script with the same header lines and these requests."""
        listed = tuple(requests)
        text = "".join(f"{line}\n" for line in self.headers + tuple(str(request) for request in listed))
        return Script(self.name, text, self.headers, listed)

    @staticmethod
    def parse(name: str, text: str) -> Script:
        """Reads a script that lockreplay accepts."""
        headers, requests = [], []
        for number, line in enumerate(text.split("\n"), 1):
            words = line.split()
            if not words or line.lstrip(" ").startswith("#"):
                continue
            if words[0] in HEADERS:
                headers.append(" ".join(words))
            else:
                requests.append(Request.parse(line, number))
        return Script(name, text, tuple(headers), tuple(requests))
