"""Runs the tests on three nodes, and prints what came of them as TAP."""

from __future__ import annotations

import argparse
import os
import shutil
import signal
import subprocess
import sys
import time
import traceback
from pathlib import Path
from typing import Callable, Iterator

from clustertest import faults, judged, locks, planted, refusals, schedules, torture
from clustertest.nodes import GRACE_MS, MEMORY, Failed, Nodes, require
from harness.guard import CouldNotRun

# In the order in which they run on the same three nodes.
STEPS: dict[str, Callable[[Nodes], str]] = {
    "order": locks.order,
    "counter": locks.counter,
    "deadlock": locks.deadlock,
    "signals": locks.signals,
    "closes": locks.close_releases,
    "list": locks.lists,
    "sqlite": locks.sqlite,
    "latency": locks.latency,
    "locktorture": judged.race,
    "fuse-test": locks.fuse_test,
    "join-under-load": locks.join_under_load,
    "death-of-lockfs": faults.death_of_lockfs,
    "lockfs-leaves": faults.lockfs_leaves,
    "death-of-corosync": faults.death_of_corosync,
    "death-of-node": faults.death_of_node,
    "partition": faults.partition,
    "unlocks-without-a-view": faults.unlocks_without_a_view,
    "split": faults.split,
    "stale": faults.stale,
    "all-restart": faults.all_restart,
    "waits-for-the-absent": faults.waits_for_the_absent,
    "giver-dies": faults.giver_dies,
    "hangs": faults.hangs,
    "holder-hangs": faults.holder_hangs,
    "corosync-hangs": faults.corosync_hangs,
    "fence": faults.fence,
    "lone": faults.lone,
    "locktorture-while-nodes-die": judged.race_while_nodes_die,
    "torture": torture.torture,
}
# On nodes of their own.
ALONE: dict[str, Callable[[str], str]] = {
    "refusals": refusals.refusals,
    "votes-differ": refusals.votes_differ,
    "two-node": refusals.two_node,
    "witness": refusals.witness,
    "generations": refusals.generations,
    "withdrawals": planted.withdrawals,
    "five-nodes": schedules.on_five_nodes,
    **{f"planted-{name}": lambda _, fault=fault: planted.is_told(fault) for name, fault in planted.FAULTS.items()},
}
PACKAGES = {"corosync": "corosync", "corosync-quorumtool": "corosync", "ip": "iproute2", "nsenter": "util-linux", "unshare": "util-linux",
            "flock": "util-linux", "sqlite3": "sqlite3", "fusermount3": "fuse3"}


def what_is_missing(lockfs: str) -> str:
    """Why nothing can be run here, or nothing."""
    if os.geteuid() != 0:
        return "only root makes network namespaces"
    if not os.access("/dev/fuse", os.R_OK | os.W_OK):
        return "/dev/fuse isn't there"
    for program, package in PACKAGES.items():
        if not shutil.which(program):
            return f"{program} isn't there (package {package})"
    name = f"dk{os.getpid()}try"
    if subprocess.run(["ip", "netns", "add", name], capture_output=True, check=False).returncode:
        return "network namespaces can't be made here"
    subprocess.run(["ip", "netns", "del", name], check=False)
    return "" if os.access(lockfs, os.X_OK) else f"{lockfs} isn't there"


def run_step(number: int, name: str, run: Callable[[], str]) -> bool:
    """Runs a step, and prints its line."""
    begun = time.monotonic()
    try:
        told = run()
        separator = "" if not told else " " if told.startswith("#") else ": "
        print(f"ok {number} - {name}, {time.monotonic() - begun:.1f} s{separator}{told}", flush=True)
        return True
    except (Failed, CouldNotRun, OSError, subprocess.SubprocessError, AssertionError) as failed:
        print(f"not ok {number} - {name}: {failed}", flush=True)
        for line in traceback.format_exc().splitlines():
            print(f"# {line}", flush=True)
        return False


def told_by_all(nodes: Nodes) -> None:
    """Prints the end of what each lockfs said."""
    for node in nodes.all():
        for line in nodes.told(node).splitlines()[-25:]:
            print(f"# node {node}: {line}", flush=True)


def run_on_three(names: list[str], lockfs: str, begun: Iterator[int]) -> list[bool]:
    """Runs steps on the same three nodes; where one fails the next has new ones."""
    results: list[bool] = []
    while names:
        with Nodes(lockfs) as nodes:
            nodes.start_all()
            while names:
                name = names.pop(0)
                results.append(run_step(next(begun), name, lambda: STEPS[name](nodes)))
                if not results[-1]:
                    told_by_all(nodes)
                    break
    return results


def nothing_left() -> str:
    """Whether the nodes' files in memory, namespaces and mounts are gone."""
    files = [str(path) for process in Nodes.ended for pattern in (f"qb-{process}-*", f"qb-corosync-{process}-*") for path in MEMORY.glob(pattern)]
    folders = [str(work) for work in Nodes.works if work.exists()]
    mounts = [line.split()[4] for line in Path("/proc/self/mountinfo").read_text().splitlines()]
    namespaces = subprocess.run(["ip", "netns", "list"], capture_output=True, text=True, check=True).stdout.splitlines()
    own = [name for name in mounts + namespaces if Nodes.prefix in name or any(name.startswith(str(work)) for work in Nodes.works)]
    require(not files + folders + own, f"left behind: {', '.join(files + folders + own)}")
    return ""


def end(number: int, _: object) -> None:
    """Ends at a signal, and is ended by no second one before all is removed."""
    signal.signal(number, signal.SIG_IGN)
    sys.exit(128 + number)


def main() -> int:
    """Runs the tests; the exit status."""
    parser = argparse.ArgumentParser(prog="cluster-test", description=__doc__)
    parser.add_argument("--only", action="append", choices=[*STEPS, *ALONE], help="run this step alone")
    parser.add_argument("programs", type=Path, help="the folder of lockfs-cluster, loop and latency")
    options = parser.parse_args()
    programs = options.programs.resolve()
    lockfs = str(programs / "lockfs-cluster")
    os.environ.update({name.upper(): str(programs / name) for name in ("loop", "latency")})
    why = what_is_missing(lockfs)
    if why:
        print(f"1..0 # skip {why}")
        return 0
    signal.signal(signal.SIGTERM, end)
    names = options.only or [*ALONE, *STEPS]
    print(f"1..{len(names) + 1}\n# grace {GRACE_MS} ms", flush=True)
    numbers = iter(range(1, len(names) + 2))
    results = [run_step(next(numbers), name, lambda: ALONE[name](lockfs)) for name in names if name in ALONE]
    results += run_on_three([name for name in names if name in STEPS], lockfs, numbers)
    results.append(run_step(next(numbers), "nothing-left", nothing_left))
    return 0 if all(results) else 1
