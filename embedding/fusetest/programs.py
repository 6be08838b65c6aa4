"""Programs that lock: sqlite3, flock(1), and the patterns of a package tool and of a mail store."""

from __future__ import annotations

import os
import subprocess
import time
from pathlib import Path

from fusetest.observe import Child, see
from fusetest.records import ask, by_another, opened
from harness.calls import flock

# Of each shell; more of them for measurements.
TRANSACTIONS = int(os.environ.get("TRANSACTIONS", "200"))
COUNTS = 25
COUNTERS = 4


def sqlite(database: Path, text: str) -> str:
    """What sqlite3 prints of the statements, errors too."""
    ran = subprocess.run(["sqlite3", str(database)], input=text, text=True, stdout=subprocess.PIPE, stderr=subprocess.STDOUT, check=False)
    return " ".join(ran.stdout.split())


def open_shell(database: Path) -> subprocess.Popen[str]:
    """A shell that has the database open."""
    shell = subprocess.Popen(["sqlite3", str(database)], stdin=subprocess.PIPE, stdout=subprocess.PIPE, text=True)
    assert shell.stdin and shell.stdout
    print(".timeout 30000\nselect count(*) from t;", file=shell.stdin, flush=True)
    shell.stdout.readline()
    return shell


def add_rows(shell: subprocess.Popen[str], name: str) -> None:
    """Has the shell add a row in each of its transactions, and end."""
    assert shell.stdin
    for number in range(1, TRANSACTIONS + 1):
        print(f"begin immediate; insert into t values('{name}', {number}); commit;", file=shell.stdin)
    shell.stdin.close()


def share(database: Path, mode: str) -> None:
    """Two shells with a database, and a third beside an open writer."""
    see("the journal's mode", sqlite(database, f"pragma journal_mode={mode}; create table t(who text, n integer);"), mode)
    shells = {name: open_shell(database) for name in ("a", "b")}
    began = time.monotonic()
    for name, shell in shells.items():
        add_rows(shell, name)
    for name, shell in shells.items():
        see(f"shell {name} ends", str(shell.wait()), "0")
    print(f"{mode}: {2 * TRANSACTIONS} transactions of two shells: {time.monotonic() - began:.3f} s", flush=True)
    total = sum(range(1, TRANSACTIONS + 1))
    see("no page is damaged", sqlite(database, "pragma integrity_check;"), "ok")
    counted = sqlite(database, "select who, count(*), sum(n) from t group by who;")
    see("each transaction is there", counted, f"a|{TRANSACTIONS}|{total} b|{TRANSACTIONS}|{total}")
    writer = subprocess.Popen(["sqlite3", str(database)], stdin=subprocess.PIPE, stdout=subprocess.PIPE, text=True)
    assert writer.stdin and writer.stdout
    print("begin immediate; insert into t values('w', 0); select 'writes';", file=writer.stdin, flush=True)
    see("a writer is open", writer.stdout.readline().strip(), "writes")
    see("a reader sees what was there", sqlite(database, "select count(*) from t;"), str(2 * TRANSACTIONS))
    busy = sqlite(database, "begin immediate;")
    see("a second writer is refused", "database is locked" if "database is locked" in busy else busy, "database is locked")
    print("rollback;", file=writer.stdin, flush=True)
    writer.stdin.close()
    see("the writer ends", str(writer.wait()), "0")
    see("an exclusive one", sqlite(database, "begin exclusive; select count(*) from t; commit;"), str(2 * TRANSACTIONS))


def rollback(path: Path) -> None:
    """SQLite with a rollback journal: byte locks on the database file."""
    share(path, "delete")


def write_ahead(path: Path) -> None:
    """SQLite with a write-ahead log: byte locks on the file of shared memory."""
    share(path, "wal")


def status_of(text: str, path: Path) -> str:
    """The exit status of a line of shell, which names the path "$1"."""
    return str(subprocess.run(["sh", "-c", text, "sh", str(path)], check=False).returncode)


def counting(path: Path) -> None:
    """flock(1): increments of a number in a file under a lock, and what -n, -w and -s answer."""
    counter = path.with_suffix(".count")
    counter.write_text("0\n")
    opened(path)
    step = 'flock "$1" sh -c \'n=$(cat "$1.count"); echo $((n + 1)) > "$1.count"\' sh "$1" || exit 1'
    text = f'for i in $(seq {COUNTS}); do {step}; done'
    shells = [subprocess.Popen(["sh", "-c", text, "sh", str(path)]) for _ in range(COUNTERS)]
    see("the shells end", " ".join(str(shell.wait()) for shell in shells), " ".join(["0"] * COUNTERS))
    see("no increment is lost", counter.read_text().strip(), str(COUNTS * COUNTERS))
    held = opened(path)
    flock(held, "ex", False)
    see("-n beside a lock", status_of('flock -n "$1" true', path), "1")
    see("-w beside a lock", status_of('flock -w 0.2 "$1" true', path), "1")
    see("-s -n beside a lock", status_of('flock -s -n "$1" true', path), "1")
    flock(held, "sh", False)
    see("-s beside a shared lock", status_of('flock -s -n "$1" true', path), "0")
    see("-n beside a shared lock", status_of('flock -n "$1" true', path), "1")
    os.close(held)
    see("-w when it is free", status_of('flock -w 5 "$1" true', path), "0")


def package_tool(path: Path) -> None:
    """dpkg's way: a record lock on the whole of a lock file, by F_SETLK, held by a front end over its children."""
    held = opened(path)
    see("the front end has the lock", ask(held, "setlk", "w", 0, 0), "ok")
    see("a second one is refused", by_another(path, "setlk", "w", 0, 0), "EAGAIN")
    child = Child(lambda self: self.tell(ask(held, "setlk", "w", 0, 0)))
    see("so is a child, which has the descriptor but not the lock", child.hear(), "EAGAIN")
    child.end()
    see("a child's end keeps the front end's", by_another(path, "setlk", "w", 0, 0), "EAGAIN")
    os.close(held)
    see("its end lets the next one in", by_another(path, "setlk", "w", 0, 0), "ok")


def mail_store(path: Path) -> None:
    """A mail store's way: flock and a record lock on one file. On Linux the two never meet, so each excludes its own kind alone."""
    delivers, reads = opened(path), opened(path)
    see("the delivery has the flock", flock(delivers, "ex", True), "ok")
    see("and the record lock", ask(delivers, "setlk", "w", 0, 0), "ok")
    see("a reader by flock is refused", flock(reads, "sh", True), "EAGAIN")
    see("a reader by record lock is refused", by_another(path, "setlk", "r", 0, 0), "EAGAIN")
    see("the flock is unlocked", flock(delivers, "un", True), "ok")
    see("which lets a reader by flock in", flock(reads, "sh", True), "ok")
    see("and keeps the record lock", by_another(path, "setlk", "r", 0, 0), "EAGAIN")
    os.close(reads)
    see("a close of another descriptor removes it", by_another(path, "setlk", "r", 0, 0), "ok")
    os.close(delivers)
