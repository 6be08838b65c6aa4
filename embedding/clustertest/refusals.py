"""What lockfs refuses to begin with, and clusters of other shapes."""

from __future__ import annotations

import subprocess
import tempfile
from pathlib import Path
from typing import Optional

from clustertest.client import open_client
from clustertest.nodes import GROUP, Nodes, require, wait_until


def said(nodes: Nodes, node: int, *options: object) -> str:
    """What a lockfs says that doesn't begin."""
    words = nodes.inside(node, nodes.lockfs, "-f", "--cluster", *options, nodes.folder, nodes.mount(node))
    ran = subprocess.run(words, capture_output=True, text=True, check=False, timeout=30)
    require(ran.returncode == 1, f"it ended by {ran.returncode}: {ran.stderr}")
    return ran.stderr


def refusals(lockfs: str) -> str:
    """A grace that is too short, a node above 65,535, no corosync."""
    with Nodes(lockfs, 1) as nodes:
        require("isn't longer than a node needs" in said(nodes, 1, GROUP, "--grace", 500), "a grace that is too short is taken")
        nodes.kill_corosync(1)
        require("no corosync" in said(nodes, 1, GROUP), "there is no corosync, and it isn't told")
    with Nodes(lockfs, 1, "udpu", numbers={1: 65536}) as nodes:
        require("above 65535" in said(nodes, 1, GROUP), "a node above 65535 is taken")
    for words in (["--cluster"], ["--witness", "a", "b"], ["--grace", "100", "a", "b"], ["--cluster", "n", "--grace", "x", "a", "b"],
                  ["--cluster", "n", "--witness", "a", "b"], ["--cluster", "n", "--kernel-locks", "a", "b"]):
        require(subprocess.run([lockfs, *words], capture_output=True, check=False).returncode == 2, f"{words} is taken")
    return ""


class Divided(Nodes):
    """Nodes of which the last one is configured with two votes of its own, which the others don't know of."""

    def configuration(self, node: int) -> str:
        """The node's corosync.conf."""
        last = f"nodeid: {self.count}\n"
        return super().configuration(node).replace(last, f"{last}    quorum_votes: 2\n" if node == self.count else last)

    def is_quorate(self, node: int) -> bool:
        """Whether the node's corosync sees all nodes."""
        ran = subprocess.run(self.inside(node, "timeout", "5", "corosync-quorumtool", "-s"), capture_output=True, text=True, check=False)
        return f"Nodes:            {self.count}" in ran.stdout


def votes_differ(lockfs: str) -> str:
    """Members whose configurations have other votes come to no view, and the log says why."""
    with Divided(lockfs) as nodes:
        for node in nodes.all():
            nodes.start(node)
        for node in nodes.all():
            wait_until(lambda: "no view: votes" in nodes.told(node), 20, f"the log of node {node} doesn't tell that votes differ")
        require(not any(nodes.grants(node) for node in nodes.all()), "a node grants that has no view")
    return ""


class TwoNodes(Nodes):
    """Nodes of which corosync takes one for a quorum."""

    def configuration(self, node: int) -> str:
        """The node's corosync.conf."""
        provider = "provider: corosync_votequorum\n"
        return super().configuration(node).replace(provider, f"{provider}  two_node: 1\n")


def two_node(lockfs: str) -> str:
    """One of two nodes is quorate by corosync's `two_node` where the other dies, and has no view all the same."""
    with TwoNodes(lockfs, 2) as nodes:
        nodes.start_all()
        with open_client(nodes.mount(1) / "held") as holder:
            holder.do("lock", 0, "ex", 0, 1)
            nodes.kill_corosync(2)
            nodes.kill(2)
            wait_until(lambda: holder.ask("write", 0, "x") == "EIO", 10, "who has no majority may write")
            told = subprocess.run(nodes.inside(1, "corosync-quorumtool", "-s"), capture_output=True, text=True, check=False).stdout
            require("Quorate:          Yes" in told, f"corosync isn't quorate, so nothing is shown: {told}")
            require(not nodes.grants(1), "a node grants without a majority")
    return ""


def witness(lockfs: str) -> str:
    """Two nodes and a witness: one node goes, and the other one still grants; a second lockfs of a node is refused."""
    with Nodes(lockfs) as nodes:
        nodes.start_witness(3)
        for node in (1, 2):
            nodes.start(node)
            nodes.wait_for_grants(node)
        with open_client(nodes.mount(1) / "witnessed") as holder, open_client(nodes.mount(2) / "witnessed") as waiter:
            holder.do("lock", 0, "ex", 0, 1)
            words = nodes.inside(1, lockfs, "--cluster", GROUP, "--witness")
            second = subprocess.run(["timeout", "20", *words], capture_output=True, text=True, check=False)
            require(second.returncode == 1 and "another lockfs of this node" in second.stderr, f"a second lockfs of a node: {second}")
            holder.do("write", 0, "x")
            waiter.tell("lock", 0, "ex", 0, 1)
            nodes.kill_corosync(1)
            require(waiter.answer(30) == "ok", "the lock of the node that died doesn't go over")
            nodes.servers[3].terminate()
            require(nodes.servers.pop(3).wait(10) == 0, "the witness doesn't end cleanly")
            wait_until(lambda: waiter.ask("write", 0, "x") == "EIO", 10, "who has no majority may write")
    return ""


def file_with_inode(folder: Path, inode: int, tries: int = 200) -> Optional[Path]:
    """A new file that has this inode number, where the file system gives it again."""
    for number in range(tries):
        path = folder / f"after.{number}"
        path.touch()
        if path.stat().st_ino == inode:
            return path
    return None


def generations(lockfs: str) -> str:
    """A file is locked by a node that dies, and is removed; a new one with its inode number isn't locked, though that node isn't purged yet."""
    with tempfile.TemporaryDirectory(prefix="cluster-test-", dir="/var/tmp") as folder, Nodes(lockfs, folder=Path(folder)) as nodes:
        nodes.start_all()
        with open_client(nodes.mount(1) / "before") as holder, open_client(nodes.mount(1) / "stays") as stays:
            for client in (holder, stays):
                client.do("lock", 0, "ex", 0, 1)
            inode = (nodes.folder / "before").stat().st_ino
            nodes.kill_corosync(1)
            nodes.kill(1)
        (nodes.folder / "before").unlink()
        after = file_with_inode(nodes.folder, inode)
        if not after:
            return "# skip the file system of /var/tmp gives no inode number again"
        with open_client(nodes.mount(2) / after.name) as other, open_client(nodes.mount(2) / "stays") as blocked:
            told = other.ask("try", 0, "ex", 0, 1), blocked.ask("try", 0, "ex", 0, 1)
        require("node 1 is purged" not in nodes.told(2), "node 1 is purged before anything could be seen")
        require(told[1] == "EAGAIN", f"the lock of a node that isn't purged yet is gone: {told[1]}")
        require(told[0] == "ok", f"a new file has the lock of one that had its inode number: {told[0]}")
    return ""
