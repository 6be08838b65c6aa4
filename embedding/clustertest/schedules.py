"""What rules of the protocol were found by, in harsh.py, on five nodes: each time a majority has forgotten what another node was told."""

from __future__ import annotations

import time

from clustertest.client import Client, open_client
from clustertest.nodes import DETECTION_S, GRACE_MS, Nodes, require, wait_until

ALL = (1, 2, 3, 4, 5)


def goes_over(nodes: Nodes, holder: Client, node: int, name: str) -> float:
    """A lock that is held on a node that is cut off goes over to this node, once its holder can't write any more; how long before."""
    with open_client(nodes.mount(node) / name) as other:
        other.tell("lock", 0, "ex", 0, 1)
        wrote = time.time()
        while not other.is_answered():
            if holder.ask("write", 0, "x", seconds=60) == "ok":
                wrote = holder.at
        require(other.answer() == "ok", "the lock doesn't go over")
        require(wrote < other.at, f"the holder wrote {wrote - other.at:.3f} s after its lock had gone over")
        require(holder.ask("write", 0, "x") == "EIO", "the holder whose lock went over may write")
        return other.at - wrote


def start_anew(nodes: Nodes, *numbers: int) -> None:
    """Has lockfs die on these nodes, and start."""
    for node in numbers:
        nodes.kill(node)
    for node in numbers:
        nodes.start(node)


def rejoin(nodes: Nodes) -> None:
    """All nodes are joined, and grant."""
    for node in ALL:
        nodes.join(node)
    for node in ALL:
        nodes.wait_for_grants(node, 60)
    nodes.wait_for_agreement(list(ALL), 60)


def purged_and_back(nodes: Nodes) -> float:
    """Node 5 is purged, comes back and is told a lock, which node 1 doesn't know; all others forget: node 1's purge of node 5 is an old one."""
    nodes.cut(5)
    wait_until(lambda: "node 5 is purged" in nodes.told(1), 30, "node 5 isn't purged")
    nodes.cut(1)
    nodes.join(5)
    nodes.wait_for_grants(5, 60)
    with open_client(nodes.mount(5) / "back") as holder:
        holder.do("lock", 0, "ex", 0, 1)
        nodes.cut(5)
        nodes.join(1)
        start_anew(nodes, 2, 3, 4)
        took = goes_over(nodes, holder, 2, "back")
    rejoin(nodes)
    return took


def state_of_a_broken_ring(nodes: Nodes) -> float:
    """Nodes 1, 2 and 3 have a view, by which node 3 is told a lock; then node 1 forgets, and 4 and 5 know of none of it: a majority without node 3."""
    nodes.cut(4)
    nodes.cut(5)
    time.sleep(DETECTION_S)
    nodes.wait_for_grants(3, 60)
    with open_client(nodes.mount(3) / "broken") as holder:
        holder.do("lock", 0, "ex", 0, 1)
        nodes.kill(1)
        nodes.cut(2)
        nodes.cut(3)
        nodes.join(4)
        nodes.join(5)
        nodes.start(1)
        # (before nodes 2 and 3 are purged)
        time.sleep(GRACE_MS / 2000)
        nodes.join(2)
        took = goes_over(nodes, holder, 4, "broken")
    rejoin(nodes)
    return took


def on_five_nodes(lockfs: str) -> str:
    """Both, one behind the other."""
    with Nodes(lockfs, 5) as nodes:
        nodes.start_all()
        told = [f"{run.__name__} {run(nodes):.2f} s" for run in (purged_and_back, state_of_a_broken_ring)]
    return f"the last write before the lock went over: {', '.join(told)}"
