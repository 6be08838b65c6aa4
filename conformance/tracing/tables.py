"""The tables of descriptors, the open file descriptions and the files of a log: who refers to what."""

from __future__ import annotations

import os
from dataclasses import dataclass, field
from typing import Optional

from tracing.log import DELETED, Call


@dataclass
class File:
    """A file of the log: an inode, as far as the log tells, with the path under which it was opened first."""

    number: int
    path: str


@dataclass(eq=False)
class Description:
    """An open file description: the owner of OFD locks and of flock locks (fcntl_locking(2), flock(2))."""

    owner: int
    file: File
    line: int
    offset: Optional[int] = 0
    # Whether a write may go to the end of the file: O_APPEND.
    may_append: bool = False
    holders: set[tuple[int, int]] = field(default_factory=set)
    # Where its closes began and ended, and whether something that the log doesn't follow may keep it open.
    closes: list[tuple[int, Optional[int]]] = field(default_factory=list)
    is_kept: bool = False


@dataclass
class Descriptor:
    """A descriptor of a table: the description that it refers to, whether an exec closes it, and the line at which it came to be."""

    description: Description
    closes_on_exec: bool
    line: int


@dataclass(eq=False)
class Table:
    """A table of descriptors, which the tasks of a process share (CLONE_FILES): the owner of traditional locks (POSIX.1-2017 fcntl)."""

    owner: int
    process: "Process"
    descriptors: dict[int, Descriptor] = field(default_factory=dict)
    tasks: set[int] = field(default_factory=set)
    # Which descriptors the log opened or closed here or in a table that this is a copy of; any other was open before it began.
    known: set[int] = field(default_factory=set)
    # The place of the last line of a task before its end, of those that ended.
    last: int = 0

    def numbers_of(self, file: File) -> list[int]:
        """The descriptors of a file."""
        return sorted(fd for fd, one in self.descriptors.items() if one.description.file is file)


@dataclass(eq=False)
class Process:
    """A process of the log: its number in what is printed, its pid, and the program that it runs."""

    number: int
    pid: int
    program: str = ""
    requests: int = 0
    parent: Optional["Process"] = None
    is_known_from_its_start: bool = True

    def __str__(self) -> str:
        return f"{self.program}[{self.pid}]" if self.program else f"pid {self.pid}"


@dataclass(eq=False)
class Task:
    """A thread of a process, or its only one."""

    number: int
    process: Process
    table: Table
    folder: str = ""


class Files:
    """The files of the log, by the names that they have at a place of it.

    `same` says which paths are names of one file though the log doesn't show why, and `parted` at which places an open of a path
    makes a file anew though the log shows no unlink."""

    def __init__(self, same: dict[str, str], parted: set[int]) -> None:
        self.same, self.parted = same, parted
        self.by_path: dict[str, File] = {}
        self.all: list[File] = []

    def named(self, path: str) -> File:
        """The file of that name, made where there is none."""
        path = self.same.get(path, path)
        if path not in self.by_path:
            self.all.append(File(len(self.all), path))
            self.by_path[path] = self.all[-1]
        return self.by_path[path]

    def opened(self, path: str, place: int) -> File:
        """The file that an open of this name at this place opens."""
        if place in self.parted:
            self.unlinked(path)
        return self.named(path)

    def has(self, file: File, path: str) -> bool:
        """Whether this is a name of the file."""
        return self.by_path.get(self.same.get(path, path)) is file

    def linked(self, old: str, new: str) -> None:
        self.by_path[self.same.get(new, new)] = self.named(old)

    def unlinked(self, path: str) -> None:
        self.by_path.pop(self.same.get(path, path), None)

    def renamed(self, old: str, new: str) -> None:
        self.linked(old, new)
        self.unlinked(old)

    def seen(self, file: File, path: str) -> None:
        """Takes in the path that `-y` shows for a descriptor of the file: it may have been renamed, or unlinked."""
        if path.endswith(DELETED):
            gone = path[: -len(DELETED)]
            if self.has(file, gone):
                self.unlinked(gone)
        elif not self.has(file, path) and path.startswith("/"):
            for name in [name for name, it in self.by_path.items() if it is file]:
                del self.by_path[name]
            self.by_path[self.same.get(path, path)] = file


def made_whole(path: str, folder: str) -> str:
    """A path, seen from the folder."""
    return os.path.normpath(path if path.startswith("/") else f"{folder}/{path}" if folder else path)


def is_lock_call(call: Call) -> bool:
    """Whether the call sets, removes or asks about a lock."""
    return call.name == "flock" or call.name in ("fcntl", "fcntl64") and any(f"F_{word}LK" in call.arguments for word in ("GET", "SET", "OFD_GET", "OFD_SET"))
