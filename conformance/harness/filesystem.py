"""What is known of the file system that a folder is on."""

from __future__ import annotations

import os
import platform
import tempfile
from dataclasses import dataclass
from pathlib import Path
from typing import Callable

from harness.script import LARGEST_OFFSET

# File systems whose locks are the kernel's own, so that a process that sleeps in a lock call waits for a lock, and nothing else
# is on its way.
LOCAL_KINDS = frozenset("ext2 ext3 ext4 tmpfs ramfs xfs btrfs f2fs overlay zfs bcachefs jfs vfat exfat".split())


@dataclass(frozen=True)
class FileSystem:
    """The kind of file system, where and how it is mounted, and the largest offset and size that it lets a file have."""

    kind: str
    mounted_on: str
    options: str
    largest_offset: int = LARGEST_OFFSET
    largest_size: int = LARGEST_OFFSET

    @property
    def is_local(self) -> bool:
        return self.kind in LOCAL_KINDS

    def __str__(self) -> str:
        machine = os.uname()
        named = f"{self.kind} on {self.mounted_on} ({self.options})" if self.kind else "of a kind that isn't known"
        return f"{named}, {machine.sysname} {machine.release} {machine.machine}, Python {platform.python_version()}"


def find_mount(folder: Path) -> tuple[str, str, str]:
    """The kind, the place and the options of the mount that the folder is on; empty where the system doesn't tell."""
    try:
        lines = Path("/proc/self/mountinfo").read_text().splitlines()
    except OSError:
        return "", "", ""
    device = os.stat(folder).st_dev
    numbered = f"{os.major(device)}:{os.minor(device)}"
    best = ("", "", "")
    for line in lines:
        mount, _, source = line.partition(" - ")
        fields, (kind, _, options) = mount.split(), source.split(" ", 2)
        place = fields[4].replace("\\040", " ")
        above = folder == Path(place) or Path(place) in folder.parents
        # Later lines hide earlier ones; btrfs and overlay show other device numbers than stat does.
        if above and (fields[2] == numbered or len(place) >= len(best[1])) and len(place) >= len(best[1]):
            best = (kind, place, f"{fields[5]},{options}")
    return best


def find_largest(takes: Callable[[int], object]) -> int:
    """The largest number that a call takes, found by halving."""
    low, high = 0, LARGEST_OFFSET
    while low < high:
        middle = low + (high - low + 1) // 2
        try:
            takes(middle)
            low = middle
        except OSError:
            high = middle - 1
    return low


def look_at(folder: Path) -> FileSystem:
    """What is known of the folder's file system."""
    kind, place, options = find_mount(folder.resolve())
    with tempfile.TemporaryFile(dir=folder) as file:
        offset = find_largest(lambda number: os.lseek(file.fileno(), number, os.SEEK_SET))
        size = find_largest(lambda number: os.ftruncate(file.fileno(), number))
    return FileSystem(kind, place, options, offset, size)
