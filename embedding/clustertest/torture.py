"""Workers on all mounts lock one of eight records, write their name into it, wait, and read it again, while nodes are cut off, lose their lockfs or
their corosync, hang, and come back. Wrong is a record that changed under a lock, as long as whoever holds the lock may still read. A worker
that is told EIO or whose mount is gone has lost its lock and begins anew."""

from __future__ import annotations

import contextlib
import errno
import fcntl
import json
import os
import random
import signal
import struct
import subprocess
import sys
import time
from pathlib import Path
from typing import Iterator

from clustertest.faults import comes_back
from clustertest.nodes import Nodes, require

SECONDS = 90
RECORDS, SIZE = 8, 8
WORKERS = 9
# What the logs say of views.
SAID = {"views": ": view ", "takes": "takes the state", "follows": "the rest of the state", "begins": "begins with no locks"}
LOST = (errno.EIO, errno.ENOTCONN, errno.ECONNABORTED, errno.ENOENT, errno.ENODEV, errno.ESTALE)
REFUSED = (errno.EAGAIN, errno.EDEADLK, errno.EINTR)


class Worker:
    """Critical sections without end."""

    def __init__(self, me: int, mount: Path, seed: int) -> None:
        self.me, self.mount, self.random, self.file, self.sequence = me, mount, random.Random(seed), -1, 0
        self.tally = {"sections": 0, "lost": 0, "wrong": 0, "refused": 0}
        signal.signal(signal.SIGALRM, lambda *_: None)
        signal.siginterrupt(signal.SIGALRM, True)

    def lock(self, at: int) -> None:
        """Locks a record, in one of several ways."""
        if self.random.random() < 0.2:
            fcntl.lockf(self.file, fcntl.LOCK_EX | fcntl.LOCK_NB, SIZE, at)
            return
        signal.setitimer(signal.ITIMER_REAL, self.random.choice((0.02, 1, 1, 1)), 0.5)
        try:
            fcntl.lockf(self.file, fcntl.LOCK_EX, SIZE, at)
        finally:
            signal.setitimer(signal.ITIMER_REAL, 0)

    def section(self) -> None:
        """One critical section."""
        at = SIZE * self.random.randrange(RECORDS)
        self.sequence += 1
        mine = struct.pack("<II", self.me, self.sequence)
        self.lock(at)
        os.pwrite(self.file, mine, at)
        time.sleep(self.random.random() * 0.004)
        seen = os.pread(self.file, SIZE, at)
        if seen != mine:
            self.tally["wrong"] += 1
            print(f"# worker {self.me}, record {at // SIZE}: wrote {mine.hex()}, read {seen.hex()} at {time.time():.3f}", flush=True)
        self.tally["sections"] += 1
        fcntl.lockf(self.file, fcntl.LOCK_UN, SIZE, at)

    def begin_anew(self) -> None:
        """Closes the file, whose lock is lost."""
        self.tally["lost"] += 1
        try:
            if self.file >= 0:
                os.close(self.file)
        except OSError:
            pass
        self.file = -1
        time.sleep(0.02)

    def run(self, until: float) -> None:
        """Critical sections until a time."""
        while time.time() < until:
            try:
                if self.file < 0 and not os.path.ismount(self.mount):
                    time.sleep(0.05)
                    continue
                if self.file < 0:
                    self.file = os.open(self.mount / "records", os.O_RDWR)
                self.section()
            except OSError as error:
                if error.errno in REFUSED:
                    self.tally["refused"] += 1
                elif error.errno in LOST:
                    self.begin_anew()
                else:
                    raise


class Faults:
    """What is done to the nodes, at random."""

    def __init__(self, nodes: Nodes, seed: int) -> None:
        self.nodes, self.random = nodes, random.Random(seed)

    def cut(self, node: int) -> None:
        """Longer than it takes to be seen."""
        self.nodes.cut(node)
        time.sleep(3 + 4 * self.random.random())
        self.nodes.join(node)

    def blink(self, node: int) -> None:
        """Perhaps too short to be seen."""
        self.nodes.cut(node)
        time.sleep(1.5 * self.random.random())
        self.nodes.join(node)

    def lockfs(self, node: int) -> None:
        """lockfs dies."""
        if node in self.nodes.servers:
            self.nodes.kill(node)
        time.sleep(self.random.random())
        comes_back(self.nodes, node)

    def corosync(self, node: int) -> None:
        """Corosync dies, and its lockfs withdraws."""
        if node in self.nodes.corosyncs:
            self.nodes.kill_corosync(node)
        time.sleep(0.5 + 4 * self.random.random())
        comes_back(self.nodes, node)

    def hang(self, node: int) -> None:
        """lockfs hangs for a while."""
        server = self.nodes.servers[node]
        server.send_signal(signal.SIGSTOP)
        time.sleep(3 * self.random.random())
        server.send_signal(signal.SIGCONT)

    def happen(self, seconds: float) -> int:
        """Faults for a time; how many."""
        begun, count = time.monotonic(), 0
        while time.monotonic() - begun < seconds:
            time.sleep(2 * self.random.random())
            node, fault = self.random.choice(list(self.nodes.all())), self.random.choice((self.cut, self.blink, self.lockfs, self.corosync, self.hang))
            print(f"# {time.time():.3f} {fault.__name__} {node}", flush=True)
            fault(node)
            count += 1
        return count


def start_worker(nodes: Nodes, me: int, seconds: float, seed: int) -> subprocess.Popen[str]:
    """A process with a worker."""
    node = 1 + me % nodes.count
    words = [sys.executable, "-m", "clustertest.torture", str(me), str(nodes.mount(node)), str(seconds), str(seed)]
    return subprocess.Popen(words, stdout=subprocess.PIPE, text=True)


@contextlib.contextmanager
def at_work(nodes: Nodes, seed: int) -> Iterator[list[subprocess.Popen[str]]]:
    """Workers on all mounts, none of which outlives the test."""
    workers = [start_worker(nodes, me, SECONDS, 100 * seed + me) for me in range(WORKERS)]
    try:
        yield workers
    finally:
        for worker in workers:
            worker.kill()


def tally_of(workers: list[subprocess.Popen[str]]) -> dict[str, int]:
    """What the workers did in all, when they end."""
    total = {"sections": 0, "lost": 0, "wrong": 0, "refused": 0}
    for worker in workers:
        lines = worker.communicate(timeout=60)[0].splitlines()
        print("\n".join(lines[:-1]), end="\n" if lines[:-1] else "", flush=True)
        require(worker.returncode == 0 and bool(lines), "a worker failed")
        for name, number in json.loads(lines[-1]).items():
            total[name] += number
    return total


def torture(nodes: Nodes) -> str:
    """Critical sections under faults; then all nodes have one table."""
    seed = int(os.environ.get("SEED", "1"))
    (nodes.folder / "records").write_bytes(bytes(RECORDS * SIZE))
    print(f"# seed {seed}", flush=True)
    with at_work(nodes, seed) as workers:
        count = Faults(nodes, seed).happen(SECONDS - 20)
        for node in nodes.all():
            comes_back(nodes, node)
        total = tally_of(workers)
    nodes.wait_for_agreement(list(nodes.all()))
    views = "".join(nodes.told(node) for node in nodes.all())
    total.update({name: views.count(said) for name, said in SAID.items()})
    require("Sanitizer" not in views and "runtime error" not in views, "a lockfs that looks after its memory found something")
    require(total["wrong"] == 0 and total["sections"] > 1000, f"{total}")
    return f"{count} faults, {total}"


def main() -> None:
    """A worker: its number, its mount, seconds, and a seed."""
    worker = Worker(int(sys.argv[1]), Path(sys.argv[2]), int(sys.argv[4]))
    worker.run(time.time() + float(sys.argv[3]))
    print(json.dumps(worker.tally))


if __name__ == "__main__":
    main()
