"""What locks come to on several nodes that all live."""

from __future__ import annotations

import os
import subprocess
import sys
from pathlib import Path

from clustertest.client import Client, open_client
from clustertest.nodes import Nodes, require, wait_until
from fusetest.run import LOCKREPLAYS, STEPS

COUNT = "import os, sys\nfor _ in range(int(sys.argv[3])):\n" \
        "    os.system(\"flock %s sh -c 'echo $(($(cat %s) + 1)) > %s'\" % (sys.argv[1], sys.argv[2], sys.argv[2]))\n"


def counter(nodes: Nodes) -> str:
    """300 increments of a number in a file, under flock(1), by three nodes at once."""
    (nodes.folder / "counter").write_text("0\n")
    (nodes.folder / "counter.lock").touch()
    lines = [[sys.executable, "-c", COUNT, nodes.mount(node) / "counter.lock", nodes.mount(node) / "counter", "100"] for node in nodes.all()]
    workers = [subprocess.Popen(line) for line in lines]
    require(all(worker.wait(300) == 0 for worker in workers), "a worker failed")
    told = (nodes.folder / "counter").read_text().strip()
    require(told == str(100 * nodes.count), f"the counter is {told}")
    return ""


def sqlite(nodes: Nodes, transactions: int = 100) -> str:
    """Transactions of three nodes at once in one database with a rollback journal."""
    database = "database"
    made = "pragma journal_mode=delete; create table t(node int, n int); create table c(n int); insert into c values(0);"
    subprocess.run(["sqlite3", nodes.mount(1) / database, made], check=True, stdout=subprocess.DEVNULL)
    workers = []
    for node in nodes.all():
        script = "".join(f"begin immediate; insert into t values({node},{n}); update c set n=n+1; commit;\n" for n in range(transactions))
        worker = subprocess.Popen(["sqlite3", "-bail", "-cmd", ".timeout 60000", nodes.mount(node) / database], stdin=subprocess.PIPE, text=True)
        assert worker.stdin
        worker.stdin.write(script)
        worker.stdin.close()
        workers.append(worker)
    require(all(worker.wait(300) == 0 for worker in workers), "a worker failed")
    asked = "pragma integrity_check; select count(*), count(distinct node*100000+n) from t; select n from c;"
    whole = transactions * nodes.count
    for node in nodes.all():
        seen = subprocess.run(["sqlite3", nodes.mount(node) / database, asked], capture_output=True, text=True, check=True).stdout.split()
        require(seen == ["ok", f"{whole}|{whole}", str(whole)], f"node {node} sees {seen}")
    return ""


def deadlock(nodes: Nodes) -> str:
    """A cycle of waits on two nodes: one is told EDEADLK, the other gets its lock."""
    with open_client(nodes.mount(1) / "cycle") as one, open_client(nodes.mount(2) / "cycle") as other:
        one.do("lock", 0, "ex", 0, 1)
        other.do("lock", 0, "ex", 1, 1)
        one.tell("lock", 0, "ex", 1, 1)
        wait_until(lambda: "*" in listing(nodes, 3), 5, "the first wait isn't on node 3's list")
        require(other.ask("lock", 0, "ex", 0, 1) == "EDEADLK", "the wait that closes the cycle isn't refused")
        require(not one.is_answered(), "the other wait is answered")
        other.do("lock", 0, "un", 1, 1)
        require(one.answer() == "ok", "the other wait isn't granted")
    return ""


def listing(nodes: Nodes, node: int) -> str:
    """The list of locks that the node prints."""
    ran = subprocess.run([nodes.lockfs, "--list", nodes.mount(node)], capture_output=True, text=True, check=True, timeout=20)
    return ran.stdout


def lists(nodes: Nodes) -> str:
    """lockfs --list has the locks and waits of all nodes, with the nodes, on each node."""
    name = "listed"
    with open_client(nodes.mount(1) / name) as holder, open_client(nodes.mount(2) / name) as reader, open_client(nodes.mount(3) / name) as waiter:
        holder.do("lock", 0, "ex", 0, 10)
        reader.do("lock", 0, "sh", 20, 5)
        reader.do("flock", 0, "sh")
        waiter.tell("lock", 0, "ex", 5, 1)
        wait_until(lambda: "*" in listing(nodes, 1), 5, "the wait isn't on node 1's list")
        require(os.path.exists(nodes.mount(1) / name) and os.path.exists(nodes.mount(2) / name), "the file isn't there")
        lines = sorted(line for line in listing(nodes, 2).splitlines() if line.endswith(name))
        wanted = sorted([f"FCNTL 1:- WRITE 0 9 - {name}", f"FCNTL 2:{reader.process.pid} READ 20 24 - {name}",
                         f"FLOCK 2:{reader.process.pid} READ 0 - - {name}", f"FCNTL 3:- WRITE* 5 5 1:- {name}"])
        require(lines == wanted, f"node 2 lists {lines}")
    return ""


def order(nodes: Nodes) -> str:
    """Waits of three nodes for one lock are granted in the order in which they came."""
    name, granted = "order", []
    clients = [open_client(nodes.mount(1 + at % 3) / name) for at in range(9)]
    try:
        clients[0].do("lock", 0, "ex", 0, 1)
        for at, client in enumerate(clients[1:], 1):
            client.tell("lock", 0, "ex", 0, 1)
            wait_until(lambda: listing(nodes, 1).count("*") == at, 5, f"wait {at} isn't on the list")
        for at, client in enumerate(clients[:-1]):
            client.do("lock", 0, "un", 0, 1)
            require(clients[at + 1].answer() == "ok", f"wait {at + 1} isn't granted")
            require(not any(other.is_answered() for other in clients[at + 2:]), f"a wait behind {at + 1} is granted too")
            granted.append(at + 1)
    finally:
        for client in clients:
            client.end()
    return f"{len(granted)} waits"


def signals(nodes: Nodes) -> str:
    """A wait that a signal ends isn't granted later, and doesn't hold up others."""
    with open_client(nodes.mount(1) / "signal") as holder, open_client(nodes.mount(3) / "signal") as other:
        holder.do("lock", 0, "ex", 0, 1)
        program = f"import fcntl; fcntl.lockf(open('{nodes.mount(2) / 'signal'}', 'r+'), fcntl.LOCK_EX, 1)"
        waiter = subprocess.run(["timeout", "-s", "INT", "1", sys.executable, "-c", program], stderr=subprocess.DEVNULL, check=False)
        require(waiter.returncode == 124, f"the wait ended by {waiter.returncode}")
        holder.do("lock", 0, "un", 0, 1)
        other.do("try", 0, "ex", 0, 1)
        require("*" not in listing(nodes, 1), "the wait is still on the list")
    return ""


def close_releases(nodes: Nodes) -> str:
    """A close lets the process' locks on the file go on all nodes, and its end all."""
    with open_client(nodes.mount(1) / "closed") as holder, open_client(nodes.mount(2) / "closed") as other:
        holder.do("open", nodes.mount(1) / "closed")
        holder.do("lock", 0, "ex", 0, 1)
        require(other.ask("try", 0, "ex", 0, 1) == "EAGAIN", "node 2 has the lock of node 1")
        holder.do("close", 1)
        other.do("try", 0, "ex", 0, 1)
        other.do("lock", 0, "un", 0, 1)
        holder.do("lock", 0, "ex", 0, 1)
        holder.end()
        wait_until(lambda: other.ask("try", 0, "ex", 0, 1) == "ok", 5, "the lock of a process that ended stands")
    return ""


def join_under_load(nodes: Nodes) -> str:
    """A node joins while others hold locks and wait: it knows them, and waits behind who waited before."""
    nodes.kill(1)
    with open_client(nodes.mount(2) / "joined") as holder, open_client(nodes.mount(3) / "joined") as first, Client() as late:
        holder.do("locks", 0, 50)
        holder.do("flock", 0, "ex")
        first.tell("flock", 0, "ex")
        wait_until(lambda: "*" in listing(nodes, 2), 5, "the wait isn't on the list")
        nodes.start(1)
        took = nodes.wait_for_grants(1)
        require(listing(nodes, 1).count("FCNTL 2:") == 50, "node 1 doesn't know the locks of node 2")
        late.do("open", nodes.mount(1) / "joined")
        require(late.ask("try", 0, "ex", 98, 1) == "EAGAIN", "node 1 has a lock of node 2")
        late.tell("flock", 0, "ex")
        wait_until(lambda: listing(nodes, 3).count("*") == 2, 5, "node 1's wait isn't on the list")
        holder.do("flock", 0, "un")
        require(first.answer() == "ok" and not late.is_answered(), "the waits are granted in another order")
        first.do("flock", 0, "un")
        require(late.answer() == "ok", "node 1's wait isn't granted")
    nodes.wait_for_agreement(list(nodes.all()))
    return f"granted {took:.2f} s after its start"


def latency(nodes: Nodes) -> str:
    """How long a lock and its unlock take."""
    program = Path(os.environ["LATENCY"])
    told = []
    for node in nodes.all():
        ran = subprocess.run([program, nodes.mount(node) / "latency", "1000", "fcntl"], capture_output=True, text=True, check=True, timeout=120)
        told.append(f"node {node}: {ran.stdout.strip()}")
    return "; ".join(told)


# What several nodes have otherwise: shared memory of files isn't theirs, and their list tells nodes.
LEFT_OUT = ("sqlite-wal", "listing", *LOCKREPLAYS)
FUSE_GROUP = "dehokuna-fuse-test"


def fuse_test(nodes: Nodes) -> str:
    """What is tried of lockfs on one machine, on node 1 of three, whose others are witnesses."""
    witnesses = [subprocess.Popen(nodes.inside(node, nodes.lockfs, "--cluster", FUSE_GROUP, "--witness"), stderr=subprocess.DEVNULL) for node in (2, 3)]
    try:
        steps = [word for name in STEPS if name not in LEFT_OUT for word in ("--only", name)]
        words = [sys.executable, "-m", "fusetest", *steps, "--", *nodes.inside(1, nodes.lockfs, "--cluster", FUSE_GROUP)]
        ran = subprocess.run(words, capture_output=True, text=True, check=False, timeout=900)
    finally:
        for witness in witnesses:
            witness.terminate()
            witness.wait(20)
    lines = ran.stdout.splitlines()
    require(ran.returncode == 0, "\n".join(line for line in lines + ran.stderr.splitlines() if not line.startswith("ok")))
    return lines[-1]
