"""What locks come to as processes and nodes die, are cut off, hang and come back."""

from __future__ import annotations

import contextlib
import os
import signal
import subprocess
import time
from typing import Iterator

from clustertest.client import Client, open_client
from clustertest.nodes import DETECTION_S, GRACE_MS, Nodes, require, wait_until

GRACE_S = GRACE_MS / 1000


def death(nodes: Nodes, what: str) -> str:
    """Node 1 dies with a lock that node 2 waits for; node 3's lock stands."""
    with open_client(nodes.mount(1) / "held") as holder, open_client(nodes.mount(3) / "other") as stays, open_client(nodes.mount(2) / "held") as waiter, \
            open_client(nodes.mount(2) / "other") as looks:
        holder.do("lock", 0, "ex", 0, 1)
        stays.do("lock", 0, "ex", 0, 1)
        require(waiter.ask("try", 0, "ex", 0, 1) == "EAGAIN", "node 2 has the lock of node 1")
        waiter.tell("lock", 0, "ex", 0, 1)
        time.sleep(0.5)
        require(not waiter.is_answered(), "node 2 has the lock of node 1")
        killed = time.time()
        if what in ("corosync", "both"):
            nodes.kill_corosync(1)
        if what in ("lockfs", "both"):
            nodes.kill(1)
        elif what == "leaves":
            require(nodes.stop(1) == 0, "lockfs doesn't end cleanly")
        require(waiter.answer(30) == "ok", "the waiter isn't granted")
        took = waiter.at - killed
        if what in ("corosync", "both"):
            require(took > GRACE_S, f"granted {took:.3f} s after the death, within the grace")
        require(looks.ask("try", 0, "ex", 0, 1) == "EAGAIN", "node 3's lock is gone")
        if what == "corosync":
            require(holder.ask("write", 0, "x") == "EIO", "who held a lock on the dead node may write")
    comes_back(nodes, 1)
    return f"granted after {took:.3f} s"


def comes_back(nodes: Nodes, node: int) -> None:
    """Starts what of the node doesn't run."""
    if node in nodes.servers and (nodes.servers[node].poll() is not None or "withdraws" in nodes.told(node)[-2000:]):
        nodes.kill(node)
    if node in nodes.corosyncs and nodes.corosyncs[node].poll() is not None:
        nodes.kill_corosync(node)
    if node not in nodes.corosyncs:
        nodes.start_corosync(node)
        wait_until(lambda: nodes.is_quorate(node), 30, f"corosync of node {node} has no quorum")
    if node not in nodes.servers:
        nodes.start(node)
    nodes.wait_for_grants(node)


def death_of_lockfs(nodes: Nodes) -> str:
    """The locks of a lockfs that dies go at once."""
    return death(nodes, "lockfs")


def lockfs_leaves(nodes: Nodes) -> str:
    """The locks of a lockfs that is ended by a SIGTERM go at once."""
    return death(nodes, "leaves")


def death_of_corosync(nodes: Nodes) -> str:
    """Where corosync dies, lockfs withdraws, and its locks go after the grace."""
    return death(nodes, "corosync")


def death_of_node(nodes: Nodes) -> str:
    """The locks of a node that dies go after the grace."""
    return death(nodes, "both")


def is_told_eio(client: Client) -> bool:
    """Whether who holds a lock is told that it is lost."""
    return client.ask("write", 0, "x") == "EIO"


def partition(nodes: Nodes) -> str:
    """A node that holds a lock is cut off: EIO to its holder, then the lock goes over, and joined again it grants, but not to who lost its lock."""
    with open_client(nodes.mount(3) / "parted") as holder, open_client(nodes.mount(1) / "parted") as waiter, open_client(nodes.mount(3) / "asked") as asks:
        holder.do("lock", 0, "ex", 0, 1)
        holder.do("write", 0, "x")
        waiter.tell("lock", 0, "ex", 0, 1)
        nodes.cut(3)
        wait_until(lambda: is_told_eio(holder), DETECTION_S + 3, "the holder on the node that is cut off may write")
        lost = time.time()
        require(not waiter.is_answered(), "the lock went over before its holder was told EIO")
        asks.tell("lock", 0, "ex", 0, 1)
        require(waiter.answer(30) == "ok", "the lock doesn't go over")
        over = waiter.at
        require(not asks.is_answered(), "the node that is cut off grants")
        nodes.join(3)
        require(asks.answer(30) == "ok", "the node that is back doesn't grant what was asked for meanwhile")
        require(holder.ask("write", 0, "x") == "EIO", "who lost its lock may write")
        require(holder.ask("try", 0, "ex", 5, 1) == "EIO", "who lost its lock may lock")
    nodes.wait_for_agreement(list(nodes.all()))
    return f"EIO {over - lost:.3f} s before the lock went over"


def unlocks_without_a_view(nodes: Nodes) -> str:
    """On a node that is cut off a close is answered, and an unlock waits for the next view, or for a signal."""
    mount = nodes.mount(3)
    with open_client(mount / "killed") as killed, open_client(mount / "closed") as closes, open_client(mount / "unlocked") as holder:
        for client in (killed, closes, holder):
            client.do("lock", 0, "ex", 0, 1)
        nodes.cut(3)
        wait_until(lambda: is_told_eio(holder), DETECTION_S + 3, "the holder on the node that is cut off may write")
        for client in (killed, holder):
            client.tell("lock", 0, "un", 0, 1)
        closes.do("close", 0)
        time.sleep(0.5)
        require(not killed.is_answered() and not holder.is_answered(), "an unlock is answered without a view")
        killed.end()
        wait_until(lambda: killed.process.poll() is not None, 5, "who unlocks isn't ended by a kill")
        nodes.join(3)
        require(holder.answer(30) == "ok", "an unlock isn't answered in the next view")
    nodes.wait_for_grants(3)
    with open_client(nodes.mount(1) / "killed") as one, open_client(nodes.mount(1) / "closed") as other:
        require(one.ask("try", 0, "ex", 0, 1) == other.ask("try", 0, "ex", 0, 1) == "ok", "what was let go is still held")
    nodes.wait_for_agreement(list(nodes.all()))
    return ""


@contextlib.contextmanager
def busy(nodes: Nodes, node: int) -> Iterator[None]:
    """Meanwhile a process of the node locks and unlocks without a pause, as long as it isn't told EIO."""
    with subprocess.Popen([os.environ["LOOP"], nodes.mount(node) / "busy"], stdout=subprocess.DEVNULL) as loop:
        try:
            yield
        finally:
            loop.kill()


def split(nodes: Nodes) -> str:
    """All nodes are cut off from each other, one of them busy, nobody grants; joined again at once, locks and waits stand. Where two of them find each
    other before the third one does, that one has lost its locks, and is told."""
    with open_client(nodes.mount(1) / "split") as holder, open_client(nodes.mount(2) / "split") as waiter, busy(nodes, 3):
        holder.do("lock", 0, "ex", 0, 1)
        waiter.tell("lock", 0, "ex", 0, 1)
        time.sleep(0.5)
        for node in nodes.all():
            nodes.cut(node)
        time.sleep(DETECTION_S + 1)
        require(not any(nodes.grants(node) for node in nodes.all()), "a node grants that has no majority")
        require(is_told_eio(holder), "a holder without a view may write")
        for node in nodes.all():
            nodes.join(node)
        for node in nodes.all():
            nodes.wait_for_grants(node)
        stands = not is_told_eio(holder)
        if stands:
            require(not waiter.is_answered(), "the lock went over, and its holder may write")
            holder.do("lock", 0, "un", 0, 1)
        require(waiter.answer() in (("ok",) if stands else ("ok", "EIO")), "the wait isn't granted")
    nodes.wait_for_agreement(list(nodes.all()))
    return "the lock stands" if stands else "the lock is lost, and told so"


def stale(nodes: Nodes) -> str:
    """A state that a majority has left behind doesn't come back: lockfs 1 dies, its corosync stays; node 3 holds a lock and is cut off; nodes 1 and
    2 have no majority of members then, so node 2 gets no lock; lockfs 2 dies; node 3 comes back alone."""
    nodes.kill(1)
    nodes.wait_for_grants(2)
    with open_client(nodes.mount(3) / "stale") as holder, open_client(nodes.mount(2) / "stale") as other:
        holder.do("lock", 0, "ex", 0, 1)
        nodes.cut(3)
        wait_until(lambda: is_told_eio(holder), DETECTION_S + 3, "the holder on the node that is cut off may write")
        other.tell("lock", 0, "ex", 0, 1)
        time.sleep(GRACE_S + 2)
        went_over = other.is_answered()
        nodes.kill(2)
        nodes.join(3)
        time.sleep(DETECTION_S + 2)
        wrote = holder.ask("write", 0, "x") == "ok"
        require(not (wrote and went_over), "node 3 wrote under a lock that went over to node 2")
        require(not wrote, "node 3 wrote without a majority of members")
    comes_back(nodes, 1)
    comes_back(nodes, 2)
    return "node 2 got the lock" if went_over else "without a majority of members nobody gets the lock"


def lone(nodes: Nodes, tries: int = 20) -> str:
    """A lock that only its node was delivered before it was cut off: node 3 locks and unlocks without a pause, and is cut off. Where it was told that
    it has the lock, node 1 doesn't get it before node 3 is told EIO."""
    held = 0
    for _ in range(tries):
        seen = nodes.work / "loop"
        with open(seen, "wb") as out:
            loop = subprocess.Popen([os.environ["LOOP"], nodes.mount(3) / "lone"], stdout=out)
        time.sleep(0.5)
        nodes.cut(3)
        cut = time.time()
        time.sleep(0.3)
        with open_client(nodes.mount(1) / "lone") as other:
            require(other.ask("lock", 0, "ex", 0, 1, seconds=30) == "ok", "node 1 doesn't get the lock")
            got = other.at
        loop.terminate()
        last = seen.read_text().splitlines()[-1]
        if " got " in last:
            held += 1
            require(got - cut > GRACE_S, f"node 1 got the lock {got - cut:.3f} s after the cut, and node 3 has it: {last}")
        nodes.join(3)
        wait_until(lambda: loop.poll() is not None, 30, "what node 3 asked for is never answered")
        nodes.wait_for_grants(3)
    nodes.wait_for_agreement(list(nodes.all()))
    return f"node 3 held the lock in {held} of {tries} cuts"


def giver_dies(nodes: Nodes) -> str:
    """The giver of the state dies as it gives it: nobody has a majority that has the state, or another one gives it."""
    nodes.kill(1)
    nodes.kill(2)
    nodes.start(2, environment={"LOCKFS_DIES_GIVING": "1"})
    nodes.wait_for_grants(2)
    nodes.wait_for_agreement([2, 3])
    with open_client(nodes.mount(3) / "given") as holder:
        holder.do("locks", 0, 20000, seconds=120)
        nodes.start(1)
        took = nodes.wait_for_grants(1, 60)
        with open_client(nodes.mount(1) / "given") as other:
            told, wrote = other.ask("try", 0, "ex", 2 * 19999, 1), holder.ask("write", 0, "x")
        require((told == "EAGAIN") == (wrote == "ok"), f"node 1's lock: {told}, and node 3's holder: {wrote}")
    comes_back(nodes, 2)
    nodes.wait_for_agreement(list(nodes.all()))
    return f"granted {took:.2f} s after its start; the lock of before {'stands' if wrote == 'ok' else 'is lost, and told so'}"


def hangs(nodes: Nodes) -> str:
    """A lockfs that hangs holds nobody up, and at the next change of members its node is thrown out."""
    nodes.servers[3].send_signal(signal.SIGSTOP)
    try:
        require(nodes.grants(1) and nodes.grants(2), "a lockfs that hangs holds up others")
        nodes.kill(1)
        nodes.start(1)
        took = nodes.wait_for_grants(1, 30)
    finally:
        nodes.servers[3].send_signal(signal.SIGCONT)
    wait_until(lambda: "withdraws" in nodes.told(3)[-2000:], 10, "the lockfs that hung doesn't withdraw")
    nodes.kill(3)
    comes_back(nodes, 3)
    return f"the others go on after {took:.1f} s"


def holder_hangs(nodes: Nodes) -> str:
    """A lockfs that hung until its locks had gone over doesn't write for their holder."""
    with open_client(nodes.mount(3) / "hung") as holder, open_client(nodes.mount(1) / "hung") as other:
        holder.do("lock", 0, "ex", 0, 1)
        nodes.servers[3].send_signal(signal.SIGSTOP)
        holder.tell("write", 0, "old")
        nodes.kill_corosync(3)
        require(other.ask("lock", 0, "ex", 0, 1, seconds=30) == "ok", "the lock doesn't go over")
        other.do("write", 0, "new")
        nodes.servers[3].send_signal(signal.SIGCONT)
        require(holder.answer() == "EIO", "the write of a holder that lost its lock is done")
        require(other.ask("read", 0) == "new", "the write of a holder that lost its lock is seen")
    nodes.kill(3)
    comes_back(nodes, 3)
    return ""


def corosync_hangs(nodes: Nodes) -> str:
    """A corosync that hangs tells its lockfs nothing; a holder there neither reads nor writes once the lock has gone over."""
    with open_client(nodes.mount(3) / "dumb") as holder, open_client(nodes.mount(1) / "dumb") as other:
        holder.do("lock", 0, "ex", 0, 1)
        holder.do("write", 0, "old")
        nodes.corosyncs[3].send_signal(signal.SIGSTOP)
        try:
            require(other.ask("lock", 0, "ex", 0, 1, seconds=30) == "ok", "the lock doesn't go over")
            other.do("write", 0, "new")
            holder.tell("write", 0, "old")
            time.sleep(1)
            require(not holder.is_answered() or holder.answer() == "EIO", "a holder writes whose node hears nothing")
        finally:
            nodes.corosyncs[3].send_signal(signal.SIGCONT)
        wait_until(lambda: is_told_eio(holder), 20, "who lost its lock may write")
        require(other.ask("read", 0) == "new", "the write of a holder that lost its lock is seen")
    comes_back(nodes, 3)
    nodes.wait_for_agreement(list(nodes.all()))
    return ""


def fence(nodes: Nodes) -> str:
    """A node that fell silent is purged only once the fence has done its work."""
    mark, calls = nodes.work / "fenced", nodes.work / "fences"
    script = nodes.work / "fence"
    script.write_text(f"#!/bin/sh\necho $1 >> {calls}\ntest -e {mark}\n")
    script.chmod(0o755)
    for node in (1, 2):
        nodes.kill(node)
        nodes.start(node, "--fence", script)
        nodes.wait_for_grants(node)
    with open_client(nodes.mount(3) / "fenced") as holder, open_client(nodes.mount(1) / "fenced") as waiter:
        holder.do("lock", 0, "ex", 0, 1)
        waiter.tell("lock", 0, "ex", 0, 1)
        nodes.cut(3)
        time.sleep(DETECTION_S + GRACE_S + 3)
        require(calls.exists() and set(calls.read_text().split()) == {"3"}, "the fence isn't called with node 3")
        require(not waiter.is_answered(), "the lock went over though the fence failed")
        mark.touch()
        require(waiter.answer(30) == "ok", "the lock doesn't go over behind the fence")
        nodes.join(3)
    nodes.wait_for_grants(3)
    for node in (1, 2):
        nodes.kill(node)
        comes_back(nodes, node)
    return f"{len(calls.read_text().split())} calls"


def all_restart(nodes: Nodes) -> str:
    """Two of three lockfs die at once: no majority has the state, so the third one loses its locks, and is told."""
    with open_client(nodes.mount(3) / "restart") as holder:
        holder.do("lock", 0, "ex", 0, 1)
        for node in (1, 2):
            nodes.kill(node)
        wait_until(lambda: is_told_eio(holder), 5, "a holder without a view may write")
        nodes.start(1)
        nodes.wait_for_grants(1)
        with open_client(nodes.mount(1) / "restart") as other:
            require(other.ask("try", 0, "ex", 0, 1) == "ok", "the lock that is lost stands")
        require(is_told_eio(holder), "who lost its lock may write")
    comes_back(nodes, 2)
    nodes.wait_for_agreement(list(nodes.all()))
    return ""


def waits_for_the_absent(nodes: Nodes) -> str:
    """A view that begins with none waits for the nodes that are away: node 3, with a lock, is cut off, and all others start again."""
    with open_client(nodes.mount(3) / "absent") as holder:
        holder.do("lock", 0, "ex", 0, 1)
        nodes.cut(3)
        for node in (1, 2):
            nodes.kill(node)
        begun = time.time()
        for node in (1, 2):
            nodes.start(node)
        with open_client(nodes.mount(1) / "absent") as other:
            require(other.ask("lock", 0, "ex", 0, 1, seconds=30) == "ok", "the lock is never granted")
            took = other.at - begun
        require(took > GRACE_S, f"granted after {took:.3f} s, within the grace")
        require(any("waits for the purge of node 3" in nodes.told(node) for node in (1, 2)), "no log tells for whom the view waits")
        require(is_told_eio(holder), "who is cut off may write")
        nodes.join(3)
    nodes.wait_for_grants(3)
    nodes.wait_for_agreement(list(nodes.all()))
    return f"granted after {took:.2f} s"
