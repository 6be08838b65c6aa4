"""Processes race for locks on all mounts, by conformance/locktorture, and lockreplay finds a legal order of what they were told; also while nodes die."""

from __future__ import annotations

import contextlib
import errno
import fcntl
import os
import random
import re
import signal
import struct
import subprocess
import sys
import threading
import time
from collections import Counter
from dataclasses import dataclass
from pathlib import Path
from typing import Callable, Iterator, Optional

from clustertest.faults import comes_back
from clustertest.nodes import GRACE_MS, Nodes, require, wait_until
from torture.history import LARGEST_OFFSET, Manner, Request, Writer
from torture.judging import ILLEGAL, OVER_LIMIT, HistoryJudge, shorten
from torture.log import Call, Log, Process, read_log
from torture.outages import Outage
from torture.rounds import Keeper, Plan

CLIENTS = 9
# Where nodes die. As locktorture has them on FUSE; but nobody moves while a node is away, so the patience is longer, and what a node leaves is open for
# long, so rounds are shorter.
FEWER_CLIENTS, REQUESTS, TIDY, PATIENCE_S = 6, 60, 90, 20.0
# Beside rounds in which a node died this many others are judged.
OTHERS = 50
# A round that isn't judged in so long is told as not judged: one in many needs minutes.
JUDGING_S = 30.0
MILLISECOND = 1_000_000
# How long a look at both clocks may take.
LOOK = MILLISECOND // 10
# How long before a death a release may have been answered that nobody else was told of.
UNTOLD = 200 * MILLISECOND
VIEW_OF_TWO = "of 2 members: goes on"
# What a node says that loses its locks, and as it goes over to another view.
LOST = ("loses its locks", "begins with no locks", "gives EIO")
OTHER_VIEW = re.compile(r": (no )?view\b")
# The files of a round, and who asks for them behind it: an owner of each mount, behind all others.
FILES, LAST_OWNERS = 2, 3 * 10**9
NO_MOUNT = (errno.ENOENT, errno.ENOTCONN, errno.ECONNABORTED, errno.EIO, errno.ENODEV)


def race(nodes: Nodes, seconds: int = 20) -> str:
    """All nodes live."""
    if "LOCKREPLAY" not in os.environ:
        return "# skip no LOCKREPLAY"
    program = Path(__file__).resolve().parent.parent.parent / "conformance" / "locktorture"
    places = [nodes.mount(node) / "torture" for node in nodes.all()]
    places[0].mkdir()
    words = [sys.executable, program, "--seconds", seconds, "--clients", CLIENTS, "--judging", JUDGING_S, *places]
    ran = subprocess.run([str(word) for word in words], capture_output=True, text=True, check=False, timeout=300)
    require(ran.returncode == 0, f"status {ran.returncode}: {ran.stdout[-1500:]}{ran.stderr[-500:]}")
    count, skipped = ran.stdout.count("ok "), ran.stdout.count("# SKIP")
    require(2 * skipped < count, f"{count} rounds, {skipped} are not judged")
    return f"{count} rounds, {skipped} over the limit"


class Rounds(Keeper):
    """Rounds on the nodes' mounts, which may be away; files are made in the folder below."""

    def __init__(self, nodes: Nodes) -> None:
        plan = Plan(FEWER_CLIENTS, REQUESTS, "both", PATIENCE_S, TIDY)
        super().__init__([nodes.mount(node) for node in nodes.all()], plan, nodes.folder)

    def may_end_so(self, process: Process) -> bool:
        """Also a client that can open nothing, since its mount is away, ends."""
        last = process.records[-1] if process.records else None
        return super().may_end_so(process) or (last is not None and last.call == Call.OPEN and -last.result in NO_MOUNT)

    def ask_last(self) -> tuple[Log, list[Request]]:
        """Behind a round all its processes have ended, so that each lock on a whole file is granted, unless somebody's is left that is gone. The round
        ends only then."""
        assert self.folder and self.memory
        paths = [(mount, file, directory / self.folder.name / f"file{file}") for mount, directory in enumerate(self.directories) for file in range(FILES)]
        asked = [request for mount, file, path in paths for request in ask_for_all_of(path, mount, file)]
        self.memory[:8] = struct.pack("<Q", time.monotonic_ns())
        with memoryview(self.memory) as noted:
            return read_log(noted), asked

    def kill_on(self, mount: int) -> None:
        """Kills the clients that run on a mount."""
        assert self.memory
        with memoryview(self.memory) as noted:
            log = read_log(noted, time.monotonic_ns())
        for slot, process in enumerate(log.processes):
            if process.pid and process.waited_at is None and log.mount_of(slot, len(self.directories)) == mount:
                with contextlib.suppress(ProcessLookupError):
                    os.kill(process.pid, signal.SIGKILL)


def ask_for_all_of(path: Path, mount: int, file: int) -> list[Request]:
    """Asks for the locks of either kind on a whole file, and lets them go; as requests. None where the mount is away."""
    try:
        descriptor = os.open(path, os.O_RDWR)
    except OSError:
        return []
    requests: list[Request] = []

    def ask(text: str, call: Callable[[int, int], None], operation: int) -> bool:
        start, answer = time.monotonic_ns(), "ok"
        try:
            call(descriptor, operation)
        except BlockingIOError:
            answer = "busy"
        requests.append(Request(text, start, time.monotonic_ns(), answer, mount=mount))
        return answer == "ok"

    owner = LAST_OWNERS + 2 * mount
    if ask(f"set {file} {owner} w 0 {LARGEST_OFFSET}", fcntl.lockf, fcntl.LOCK_EX | fcntl.LOCK_NB):
        ask(f"unlock {file} {owner} 0 {LARGEST_OFFSET}", fcntl.lockf, fcntl.LOCK_UN)
    if ask(f"flock {file} {owner + 1} ex nb", fcntl.flock, fcntl.LOCK_EX | fcntl.LOCK_NB):
        ask(f"flock {file} {owner + 1} un", fcntl.flock, fcntl.LOCK_UN)
    os.close(descriptor)
    return requests


class Deaths(threading.Thread):
    """Nodes die, one at a time, each with its processes, and come back, until `is_over` is set."""

    def __init__(self, nodes: Nodes, rounds: Rounds, seed: int) -> None:
        super().__init__(daemon=True)
        self.nodes, self.rounds, self.random = nodes, rounds, random.Random(seed)
        self.outages: list[Outage] = []
        # How much of each node's log was looked at.
        self.looked_at = self.lengths()
        self.begun = 0
        # Held from a death until the others are told to purge the node.
        self.in_death = threading.Lock()
        self.is_over = threading.Event()
        self.failure: Optional[Exception] = None

    def run(self) -> None:
        """Deaths, until they are over or one shows a failure."""
        try:
            while not self.is_over.wait(0.5 + self.random.random()):
                self.outages.append(self.outage(self.random.choice(list(self.nodes.all())), self.random.random() < 0.5))
        except Exception as failure:  # pylint: disable=broad-except
            self.failure = failure

    def lengths(self) -> dict[int, int]:
        """How long each node's log is."""
        return {node: len(self.nodes.told(node)) for node in self.nodes.all()}

    def look_at_all(self) -> None:
        """Since the last outage nobody went over to another view: where a busy machine has corosync break its ring, what was told isn't judged."""
        for node, looked_at in self.looked_at.items():
            told = self.nodes.told(node)[looked_at:]
            require(not OTHER_VIEW.search(told), f"node {node} went over to another view while none died: {told}")

    def outage(self, node: int, with_corosync: bool) -> Outage:
        """A node's lockfs dies, or lockfs and corosync at once, and comes back once the others have purged its locks."""
        others = [other for other in self.nodes.all() if other != node]
        self.look_at_all()
        before = self.lengths()
        with self.in_death:
            self.begun += 1
            began, died = self.die(node, with_corosync)
            # (a node that is dead while its corosync lives is purged as the view begins)
            words = f"node {node} is purged" if with_corosync else VIEW_OF_TWO
            with self.killing(node):
                for other in others:
                    wait_until(lambda: words in self.nodes.told(other)[before[other]:], 30, f"node {other} doesn't purge {node}")
                self.wait_for_all(others)
        purges = [self.time_of(words, self.nodes.told(other)[before[other]:]) for other in others]
        require(not with_corosync or min(purges) - began > GRACE_MS * MILLISECOND, f"node {node} is purged within the grace")
        views = [self.time_of(VIEW_OF_TWO, self.nodes.told(other)[before[other]:]) for other in others]
        back = time.monotonic_ns()
        comes_back(self.nodes, node)
        self.wait_for_all(list(self.nodes.all()))
        for other in others:
            told = self.nodes.told(other)[before[other]:]
            require(not any(lost in told for lost in LOST), f"node {other} lost its locks, which lives: {told}")
        self.looked_at = self.lengths()
        # (where the ring changes, what was told last is told anew)
        unrest = ((began - UNTOLD, max(views) + MILLISECOND + LOOK), (back, time.monotonic_ns())) if with_corosync else ()
        return Outage(node - 1, began, min(died, *purges), min(purges), max(purges) + MILLISECOND + LOOK, back, unrest)

    def die(self, node: int, with_corosync: bool) -> tuple[int, int]:
        """Kills the node's lockfs, or corosync and then lockfs: when that began, and when nothing of it could be sent any more."""
        began = died = time.monotonic_ns()
        if with_corosync:
            self.nodes.kill_corosync(node)
            died = time.monotonic_ns()
        self.nodes.kill(node)
        return began, died if with_corosync else time.monotonic_ns()

    @staticmethod
    def time_of(words: str, told: str) -> int:
        """When a log said this first, as the clients' clock has it, or a little before; a log's times have whole milliseconds."""
        line = next(line for line in told.splitlines() if words in line)
        return MILLISECOND * round(1000 * float(line.split()[0])) - clocks_apart()

    def wait_for_all(self, nodes: list[int]) -> None:
        """Each node has what was asked for before, since it grants what is asked for now."""
        for node in nodes:
            self.nodes.wait_for_grants(node)

    @contextlib.contextmanager
    def killing(self, node: int) -> Iterator[None]:
        """Meanwhile no process that was on the node, or was forked by one, lives on."""
        is_over = threading.Event()

        def kill() -> None:
            while not is_over.wait(0.005):
                self.rounds.kill_on(node - 1)

        killer = threading.Thread(target=kill, daemon=True)
        killer.start()
        try:
            yield
        finally:
            is_over.set()
            killer.join()


def is_touched(log: Log, outage: Outage) -> bool:
    """Whether the node died in the round."""
    return any(process.records and process.records[0].start < outage.began < log.ended_at for process in log.processes)


def clocks_apart() -> int:
    """How far the logs' clock is ahead of the clients', or a little more: where this thread wasn't held up between its looks."""
    while True:
        before, of_logs, behind = time.monotonic_ns(), time.time_ns(), time.monotonic_ns()
        if behind - before < LOOK:
            return of_logs - before


@dataclass
class Round:
    """What is noted of a round: the clients' log, and what was asked for behind it, where a node died in it."""

    log: Log
    asked_last: list[Request]

    def history(self, manner: Manner, nodes: int, outages: list[Outage]) -> str:
        """As text."""
        writer = Writer(self.log, manner, nodes, outages)
        writer.requests += self.asked_last
        return writer.write()


def run_round(rounds: Rounds, deaths: Deaths, seed: int) -> Round:
    """A round; where a node died, all locks are asked for behind it, once the others were told to purge the node."""
    before = deaths.begun
    log = rounds.run(seed)
    if deaths.begun == before:
        return Round(log, [])
    with deaths.in_death:
        return Round(*rounds.ask_last())


def run_rounds(nodes: Nodes, seconds: float, seed: int) -> tuple[list[Round], list[Outage]]:
    """The rounds of a time in which nodes die, and the deaths."""
    ran: list[Round] = []
    with Rounds(nodes) as rounds:
        deaths = Deaths(nodes, rounds, seed)
        deaths.start()
        try:
            until = time.monotonic() + seconds
            while time.monotonic() < until and deaths.is_alive():
                ran.append(run_round(rounds, deaths, 1_000_000 * seed + len(ran)))
        finally:
            deaths.is_over.set()
            deaths.join(120)
    if deaths.failure:
        raise deaths.failure
    deaths.look_at_all()
    return ran, deaths.outages


def race_while_nodes_die(nodes: Nodes, seconds: float = 60, shortens: bool = True) -> str:
    """Nodes die in the middle of rounds: their processes' locks stand until the others are told to purge them, and then go. An illegal history is made
    shorter, which may take a minute."""
    if "LOCKREPLAY" not in os.environ:
        return "# skip no LOCKREPLAY"
    seed = int(os.environ.get("SEED", "1"))
    ran, outages = run_rounds(nodes, seconds, seed)
    touched, others = [], []
    for each in ran:
        (touched if any(is_touched(each.log, outage) for outage in outages) else others).append(each)
    chosen = touched + others[:: max(1, len(others) // OTHERS)]
    judge = HistoryJudge(Path(os.environ["LOCKREPLAY"]), seconds=JUDGING_S)
    manner = Manner(releases_late=True, tells_owners=False)
    texts = [each.history(manner, nodes.count, outages) for each in chosen]
    verdicts = []
    for text in texts:
        verdicts.append(judge.judge(text))
        is_illegal = verdicts[-1].status == ILLEGAL
        require(not is_illegal, f"{verdicts[-1].says}: {shorten(judge, text, verdicts[-1]) if is_illegal and shortens else ''}")
    kinds = Counter(verdict.status for verdict in verdicts)
    require(2 * kinds[OVER_LIMIT] < len(touched), f"{len(touched)} rounds with a death, {kinds[OVER_LIMIT]} are not judged")
    nodes.wait_for_agreement(list(nodes.all()))
    return f"{len(outages)} deaths, {len(touched)} rounds with one, {len(chosen)} of {len(ran)} judged, {kinds[OVER_LIMIT]} over the limit"
