"""Faults that are planted in copies of lockfs. One at a time: the step that is to tell it does, on nodes of its own. And on one node of several, which
withdraws."""

from __future__ import annotations

import os
import shutil
import subprocess
import tempfile
from dataclasses import dataclass
from pathlib import Path
from typing import Callable

from clustertest import faults, judged
from clustertest.client import open_client
from clustertest.nodes import Failed, Nodes, require, wait_until

Edits = tuple[tuple[str, str, str], ...]
TOP = Path(__file__).resolve().parent.parent.parent
IMPOSSIBLE = ("isn't possible",)


@dataclass(frozen=True)
class Fault:
    """A fault: what it does, what of the files of embedding/cluster is replaced by what, the step, and what this may say of it."""

    says: str
    edits: Edits
    step: Callable[[Nodes], str]
    tells: tuple[str, ...]


def race(nodes: Nodes) -> str:
    """locktorture while all nodes live, in short."""
    return judged.race(nodes, 10)


def race_while_nodes_die(nodes: Nodes) -> str:
    """The same while nodes die, at most four times: not each process that dies holds a lock."""
    return [judged.race_while_nodes_die(nodes, 20, shortens=False) for _ in range(4)][-1]


PURGE = "    dehokuna_forget_owners(&server, number_of(node, 0), number_of(node, LARGEST_COUNT));\n"
DELIVERED = "    if (request && lets_go(&request->call)) decide_answer(request, 0);\n"
INTERRUPTED = "    if (request->who != who || request->is_decided || request->is_interrupted) return false;\n"
SENT = "    request->sent_at = milliseconds_now();\n"
FAULTS = {
    "purge-leaves": Fault(
        "a purge leaves the node's locks",
        (("state.c", PURGE, "    (void)node;\n"),),
        race_while_nodes_die, IMPOSSIBLE),
    "told-at-once": Fault(
        "a lock is told as it is delivered, where nothing that was applied is in the way: before a majority has it, and what came before it",
        (("own.c", DELIVERED, DELIVERED + """    struct dehokuna_blocker blocker;
    const struct call *call = request ? &request->call : NULL;
    if (call && call->op == OP_SET && asks_for_lock(call) &&
        dehokuna_get(state_table(), call->file, call->owner, call->first, call->last, call->mode, &blocker) == DEHOKUNA_DONE)
        decide_answer(request, 0);
"""),),
        race, IMPOSSIBLE),
    "look-without-order": Fault(
        "a look for a lock is answered by what this node has applied, and not ordered",
        (("own.c", SENT, SENT + "    if (request->call.op == OP_GET) {\n        own_applied(&request->call, DEHOKUNA_DONE);\n        return;\n    }\n"),),
        race, IMPOSSIBLE),
    "applied-as-delivered": Fault(
        "what is delivered is applied and told at once, before a majority has it",
        (("log.c", "    uint64_t committed = 0;\n", "    uint64_t committed = log_length();\n"),
         ("replica.c", "    if (!is_for_nobody(&call)) urgent", "    copy_apply();\n    if (!is_for_nobody(&call)) urgent")),
        faults.lone, ("and node 3 has it", "what node 3 asked for is never answered")),
    "loss-is-not-told": Fault(
        "who loses a lock isn't told",
        (("askers.c", "    if (!asker->holds) return;\n    asker->holds = false;\n", "    asker->holds = false;\n    return;\n"),),
        faults.partition, ("who lost its lock may write",)),
    "unlock-waits": Fault(
        "who unlocks without a view can't be interrupted",
        (("own.c", INTERRUPTED, INTERRUPTED.replace(")", " || lets_go(&request->call))")),),
        faults.unlocks_without_a_view, ("isn't ended by a kill",)),
    "never-stale": Fault(
        "a node that hears nothing takes itself to be in the view",
        (("file_calls.c", "    return age < most;\n", "    return true;\n"),),
        faults.corosync_hangs, ("a holder writes whose node hears nothing",)),
}


def plant(edits: Edits, sources: Path) -> None:
    """Replaces what stands in these sources just once."""
    for name, old, new in edits:
        text = (sources / name).read_text()
        require(text.count(old) == 1, f"stands {text.count(old)} times in {name}: {old}")
        (sources / name).write_text(text.replace(old, new))


def build(edits: Edits, to: Path) -> str:
    """Compiles lockfs with a fault, as the Makefile does; the program."""
    sources = to / "embedding"
    for name in ("lockfs", "cluster"):
        shutil.copytree(TOP / "embedding" / name, sources / name)
    shutil.copy(TOP / "embedding" / "dehokuna.h", sources)
    (sources / "out").symlink_to(TOP / "embedding" / "out")
    (to / "crates").symlink_to(TOP / "crates")
    plant(edits, sources / "cluster")
    program = to / "lockfs-cluster"
    subprocess.run(f"{os.environ['BUILD_CLUSTER']} -w -o {program}", shell=True, cwd=to, check=True)
    return str(program)


def is_told(fault: Fault) -> str:
    """Has the step run with the fault, and looks what it says."""
    if "BUILD_CLUSTER" not in os.environ or "LOCKREPLAY" not in os.environ:
        return "# skip no BUILD_CLUSTER, or no LOCKREPLAY"
    with tempfile.TemporaryDirectory(prefix="planted-") as folder, Nodes(build(fault.edits, Path(folder))) as nodes:
        nodes.start_all()
        try:
            told = fault.step(nodes)
        except Failed as failed:
            require(any(words in str(failed) for words in fault.tells), f"the step tells something else: {failed}")
            return f"{fault.says}: {fault.step.__name__} tells"
    raise Failed(f"{fault.says}, and {fault.step.__name__} doesn't tell: {told}")


# A write lock up to the first of these bytes reaches a byte farther; for one up to the other there is no memory.
DIFFERS_AT, NO_MEMORY_AT = 4711, 4712
SET = "        return dehokuna_set(&server, call->file, call->owner, call->first, call->last, call->mode);\n"
ON_ONE_NODE: Edits = (
    ("state.c", SET, SET.replace("call->last,", f"call->last + (call->last == {DIFFERS_AT}),")),
    ("state.c", "    if (status == DEHOKUNA_NO_MEMORY) return false;\n",
     f"    if (status == DEHOKUNA_NO_MEMORY || call.last == {NO_MEMORY_AT}) return false;\n"))


def withdraws_alone(nodes: Nodes, cause: Callable[[], None], why: str) -> None:
    """Something makes node 3 withdraw: who holds a lock there is told EIO, the lock goes at once, and the others' locks stand."""
    with open_client(nodes.mount(3) / "lost") as loser, open_client(nodes.mount(2) / "stands") as stays, open_client(nodes.mount(1) / "stands") as other, \
            open_client(nodes.mount(1) / "lost") as waiter:
        for client in (loser, stays):
            client.do("lock", 0, "ex", 0, 1)
        waiter.tell("lock", 0, "ex", 0, 1)
        cause()
        wait_until(lambda: f"withdraws: {why}" in nodes.told(3), 20, f"node 3 doesn't withdraw: {nodes.told(3)[-400:]}")
        require(faults.is_told_eio(loser), "a holder on a node that has withdrawn may write")
        require(waiter.answer() == "ok", "the lock of a node that has withdrawn doesn't go over")
        stays.do("write", 0, "x")
        require(other.ask("try", 0, "ex", 0, 1) == "EAGAIN", "a lock of a node that has not withdrawn is gone")
    nodes.kill(3)


def withdrawals(lockfs: str) -> str:
    """A node whose table differs withdraws as the view changes, and one that wants memory at once."""
    if "BUILD_CLUSTER" not in os.environ:
        return "# skip no BUILD_CLUSTER"
    with tempfile.TemporaryDirectory(prefix="planted-") as folder, Nodes(lockfs, 5) as nodes:
        planted = build(ON_ONE_NODE, Path(folder))

        def start_planted() -> None:
            nodes.lockfs = planted
            nodes.start(3)
            nodes.lockfs = lockfs
            for node in (1, 2, 3):
                nodes.wait_for_grants(node)

        for node in (1, 2):
            nodes.start(node)
        nodes.start_witness(4)
        start_planted()
        with open_client(nodes.mount(1) / "causes") as causes:
            causes.do("try", 0, "ex", 0, DIFFERS_AT + 1)
            withdraws_alone(nodes, lambda: nodes.start_witness(5), "its table differs from the others'")
            start_planted()
            withdraws_alone(nodes, lambda: causes.do("try", 0, "ex", 0, NO_MEMORY_AT + 1), "no memory")
    return ""
