"""Runs rounds: compiles the clients, has their keeper run them on the mounts, and reads their log."""

from __future__ import annotations

import mmap
import os
import select
import shutil
import signal
import subprocess
import tempfile
from dataclasses import dataclass
from pathlib import Path
from typing import Optional

from harness.guard import CouldNotRun, guarded
from torture import log

SOURCE = Path(__file__).resolve().parent / "client.c"
FOLDER_PREFIX = "locktorture-"
# A log has to outlive its process, and to be written without a disk.
MEMORY = Path("/dev/shm")
# How long beyond the patience nothing may come of a round until the file system counts as one that hangs.
HANG_SECONDS = 30.0
# How long the keeper may take to end by a kill, and its folder to be removed.
END_SECONDS = 10.0
# Memory for more processes than there are at a time, since those that have ended keep theirs; and for how many calls a process makes at most
# until it ends by itself.
SLOTS_FOR_EACH_CLIENT, MORE_SLOTS, REQUESTS_FOR_A_SLOT = 4, 16, 100
MOST_CALLS = 2000


@dataclass(frozen=True)
class Plan:
    """What a round is: how many clients at a time, how many requests in all, of which kinds (`fcntl`, `flock` or `both`), after how many seconds
    without a move it is stuck, and how many of a hundred closes let go of the locks before."""

    clients: int
    requests: int
    kinds: str
    patience: float
    tidy: int = 0

    @property
    def slots(self) -> int:
        return self.clients * SLOTS_FOR_EACH_CLIENT + MORE_SLOTS + self.requests // REQUESTS_FOR_A_SLOT

    @property
    def records(self) -> int:
        """Of one process, with room for the closes at its end."""
        return min(self.requests, MOST_CALLS) + 64


def compile_clients(to: Path) -> None:
    """Compiles client.c. Raises CouldNotRun where it can't be."""
    command = [os.environ.get("CC", "cc"), "-std=gnu11", "-O2", "-o", str(to), str(SOURCE)]
    try:
        ended = subprocess.run(command, stderr=subprocess.PIPE, check=False)
    except FileNotFoundError as missing:
        raise CouldNotRun(f"no C compiler: {missing}") from missing
    if ended.returncode:
        raise CouldNotRun(f"client.c doesn't compile: {ended.stderr.decode(errors='replace')}")


class Keeper:
    """The keeper and its clients, in a folder of its own on the file system, which each directory shows. As a `with`. The files are made by way of
    `made_in`, a directory as they are, or else of the first of them."""

    def __init__(self, directories: list[Path], plan: Plan, made_in: Optional[Path] = None) -> None:
        self.directories = directories
        self.made_in = made_in or directories[0]
        self.plan = plan
        self.hangs = False
        self.work = Path(tempfile.mkdtemp(prefix=FOLDER_PREFIX, dir=MEMORY if MEMORY.is_dir() else None))
        self.folder: Optional[Path] = None
        self.process: Optional[subprocess.Popen[bytes]] = None
        self.memory: Optional[mmap.mmap] = None

    def __enter__(self) -> Keeper:
        try:
            self.start()
        except BaseException:
            self.close()
            raise
        return self

    def __exit__(self, *_: object) -> None:
        self.close()

    def start(self) -> None:
        """Makes the folder and the log, and starts the keeper."""
        compile_clients(self.work / "client")
        self.folder = Path(tempfile.mkdtemp(prefix=FOLDER_PREFIX, dir=self.made_in))
        folders = [directory / self.folder.name for directory in self.directories]
        if hidden := [str(folder) for folder in folders if not folder.is_dir()]:
            raise CouldNotRun(f"the directories aren't mounts of one folder: {hidden[0]} isn't there")
        size = log.size_of(self.plan.slots, self.plan.records)
        with open(self.work / "log", "w+b") as file:
            file.truncate(size)
            self.memory = mmap.mmap(file.fileno(), size)
        numbers = [self.plan.slots, self.plan.records, self.plan.clients, round(self.plan.patience * 1000)]
        words = [str(self.work / "client"), str(self.work / "log"), *map(str, numbers), self.plan.kinds, str(self.plan.tidy)]
        words += [str(self.folder), *map(str, folders)]
        self.process = subprocess.Popen(words, stdin=subprocess.PIPE, stdout=subprocess.PIPE, stderr=subprocess.PIPE, start_new_session=True)

    def run(self, seed: int) -> log.Log:
        """Runs a round. Raises CouldNotRun where it doesn't end, or a client ends as none should."""
        assert self.process and self.process.stdin and self.process.stdout and self.memory
        self.process.stdin.write(f"{seed} {self.plan.requests}\n".encode())
        self.process.stdin.flush()
        if not select.select([self.process.stdout], [], [], self.plan.patience + HANG_SECONDS)[0]:
            self.hangs = True
            raise CouldNotRun(f"the file system hangs: clients aren't ended by a kill; left behind: {self.folder}")
        if not self.process.stdout.readline():
            raise CouldNotRun(f"the keeper ended: {self.why_it_ended()}")
        with memoryview(self.memory) as noted:
            read = log.read_log(noted)
        for process in read.processes:
            if process.pid and not self.may_end_so(process):
                raise CouldNotRun(f"client {process.pid} ended by status {process.status}: {failed_call(process)}")
        return read

    def may_end_so(self, process: log.Process) -> bool:
        """Whether a client may end by the status by which it did."""
        return process.status in (0, signal.SIGKILL)

    def why_it_ended(self) -> str:
        """What the keeper says on standard error, and by which status it ended."""
        assert self.process and self.process.stderr
        said = self.process.stderr.read().decode(errors="replace").strip()
        return f"{said} (status {self.process.wait()})"

    def close(self) -> None:
        """Ends the keeper and its clients, and removes what was made; a file system that hangs keeps its folder."""
        if self.process:
            self.end(self.process)
        shutil.rmtree(self.work, ignore_errors=True)
        if self.folder and not self.hangs:
            folder = self.folder
            guarded(lambda: shutil.rmtree(folder), END_SECONDS)

    def end(self, process: subprocess.Popen[bytes]) -> None:
        """Kills the keeper and its clients."""
        try:
            os.killpg(process.pid, signal.SIGKILL)
        except ProcessLookupError:
            # All have ended.
            pass
        for stream in (process.stdin, process.stdout, process.stderr):
            if stream:
                stream.close()
        try:
            process.wait(END_SECONDS)
        except subprocess.TimeoutExpired:
            self.hangs = True


def failed_call(process: log.Process) -> str:
    """The last call of a process that gave up, and its error."""
    if not process.records:
        return "it made no call"
    last = process.records[-1]
    return f"{last.call.name.lower()} {os.strerror(-last.result) if last.result < 0 else 'without an error'}"
