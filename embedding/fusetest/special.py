"""Files that are made by mknod, what another user makes, the log of what was refused, and the list of locks."""

from __future__ import annotations

import os
import shlex
import stat
import subprocess
from pathlib import Path

from fusetest.observe import Child, see, word_of
from fusetest.records import ask, by_another, opened
from fusetest.waits import ring, stop, waiter
from harness.calls import flock

NOBODY = 65534
GROUPS = [65533, 65532]


def made_by_mknod(path: Path) -> None:
    """A file, and a FIFO, which mkfifo makes."""
    os.mknod(path, 0o600 | stat.S_IFREG)
    see("mknod makes a file", stat.filemode(os.stat(path).st_mode), "-rw-------")
    held = opened(path)
    see("which is locked", ask(held, "setlk", "w", 0, 0), "ok")
    see("as any", by_another(path, "setlk", "r", 0, 1), "EAGAIN")
    os.close(held)
    queue = path.with_suffix(".fifo")
    os.mkfifo(queue, 0o640)
    see("mkfifo makes a FIFO", stat.filemode(os.lstat(queue).st_mode), "prw-r-----")
    child = Child(lambda self: self.tell(f"{queue.write_text('through it')} bytes are written"))
    see("what is written to it is read", queue.read_text(), "through it")
    child.end()
    try:
        os.mkfifo(queue)
        see("another of its name", "is made", "is refused")
    except FileExistsError:
        see("another of its name", "is refused", "is refused")


def another_user(path: Path) -> None:
    """A user who isn't root makes files, which are his, and locks them."""
    path.mkdir()
    path.chmod(0o777)
    ours = path / "ours"
    held = opened(ours)
    ours.chmod(0o666)
    ask(held, "setlk", "w", 0, 10)

    def become_nobody() -> None:
        os.setgroups(GROUPS)
        os.setgid(NOBODY)
        os.setuid(NOBODY)

    def make() -> str:
        become_nobody()
        his = path / "his"
        opened(his)
        (path / "folder").mkdir()
        (path / "link").symlink_to("his")
        os.mkfifo(path / "fifo")
        return ask(opened(his, os.O_RDWR), "setlk", "w", 0, 0)

    see("he has a lock on a file that he made", word_of(make), "ok")
    for name in ("his", "folder", "link", "fifo"):
        made = os.lstat(path / name)
        see(f"{name} is his", f"{made.st_uid} {made.st_gid}", f"{NOBODY} {NOBODY}")

    def ask_for_ours() -> str:
        become_nobody()
        return ask(opened(ours, os.O_RDWR), "setlk", "r", 9, 1)

    see("he is refused what root has locked", word_of(ask_for_ours), "EAGAIN")
    by_group = path / "by-group"
    by_group.mkdir()
    os.chown(by_group, 0, GROUPS[1])
    by_group.chmod(0o2770)

    def make_by_group() -> str:
        become_nobody()
        opened(by_group / "his")
        return "ok"

    see("one of his groups lets him make a file", word_of(make_by_group), "ok")
    made = os.stat(by_group / "his")
    see("of the folder's group", f"{made.st_uid} {made.st_gid}", f"{NOBODY} {GROUPS[1]}")
    os.close(held)


def refusals(path: Path) -> None:
    """The mount's log has a line for each lock request that was refused, and for no other."""
    held = opened(path)
    ask(held, "setlk", "w", 3, 4)
    flock(held, "ex", True)
    refused = Child(lambda self: self.tell(ask(opened(path), "setlk", "r", 0, 0)))
    see("a request is refused", refused.hear(), "EAGAIN")
    due = [f"{refused.pid} setlk r 0 0: EAGAIN"]
    refused.end()
    other = Child(lambda self: self.tell(flock(opened(path), "sh", True)))
    see("so is one by flock", other.hear(), "EAGAIN")
    due += [f"{other.pid} flock sh nb: EAGAIN"]
    other.end()
    see("a lock is granted", by_another(path, "setlk", "w", 7, 0), "ok")
    ended = waiter(path, "setlkw", "r", 6, 1)
    ended.signal()
    see("a wait ends by a signal", ended.hear(), "EINTR")
    due += [f"{ended.pid} setlkw r 6 1: EINTR"]
    stop(ended)
    granted = waiter(path, "flock", "sh", 0, 0)
    flock(held, "un", True)
    see("another by a grant", granted.hear(), "ok")
    stop(granted)
    os.close(held)
    children = ring(path, "setlkw", 2)
    see("a wait would close a cycle", children[-1].hear(), "EDEADLK")
    due += [f"{children[-1].pid} setlkw w 0 1: EDEADLK"]
    stop(children[-1])
    stop(*children[:-1])
    below = path.parent.parent / "beneath" / path.name
    lines = [line.partition(" ")[2] for line in (path.parent.parent / "log").read_text().splitlines() if line.endswith(f" {below}")]
    see("the log", "; ".join(lines), "; ".join(f"{line} {below}" for line in due))


def appends(path: Path) -> None:
    """What is appended goes behind what another has written to the folder itself."""
    below = path.parent.parent / "beneath" / path.name
    held = opened(path, os.O_WRONLY | os.O_CREAT | os.O_APPEND)
    os.write(held, b"one ")
    with below.open("ab") as other:
        other.write(b"two ")
    os.write(held, b"three")
    see("all three are there", below.read_text(), "one two three")
    os.close(held)


def listing(path: Path) -> None:
    """lockfs --list tells who holds what and who waits for whom, as the file does that it reads."""

    def listed() -> str:
        told = subprocess.run([*shlex.split(os.environ["LOCKFS"]), "--list", str(path.parent)], stdout=subprocess.PIPE, text=True, check=True)
        lines = told.stdout.splitlines()
        see("the first line names the columns", lines[0], "KIND PID MODE FIRST LAST BLOCKER FILE")
        return "; ".join(line[: -len(path.name) - 1] for line in lines if line.endswith(f" {path.name}"))

    us = os.getpid()
    held = opened(path)
    see("nothing is locked", listed(), "")
    ask(held, "setlk", "w", 0, 10)
    ask(held, "setlk", "u", 4, 2)
    flock(held, "sh", True)
    locks = [f"FCNTL {us} WRITE 0 3 -", f"FCNTL {us} WRITE 6 9 -", f"FLOCK {us} READ 0 - -"]
    see("the locks", listed(), "; ".join(locks))
    reader, writer = waiter(path, "setlkw", "r", 5, 0), waiter(path, "flock", "ex", 0, 0)
    waits = [f"FCNTL {reader.pid} READ* 5 - {us}", f"FLOCK {writer.pid} WRITE* 0 - {us}"]
    see("and the waits", listed(), "; ".join(locks + waits))
    ask(held, "setlk", "u", 0, 0)
    see("the reader is granted", reader.hear(), "ok")
    see("and is told", listed(), "; ".join([f"FCNTL {reader.pid} READ 5 - -", locks[2], waits[1]]))
    # The children have the description too, so a close would not be its last one.
    flock(held, "un", True)
    see("the writer is granted", writer.hear(), "ok")
    stop(reader, writer)
    os.close(held)
    name = ".lockfs-locks"
    see("no folder lists the file", str(name in os.listdir(path.parent)), "False")
    see("and it is there to be read", stat.filemode(os.stat(path.parent / name).st_mode), "-r--r--r--")
