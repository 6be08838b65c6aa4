#!/usr/bin/env python3
"""Plants faults in copies of lockfs, one at a time, and looks how soon locktorture finds each.

    tests/planted.py [NAME..]

It wants libfuse3, a C compiler, embedding/out/libdehokuna.a (or another by the environment's LIBRARY), and lockreplay (LOCKREPLAY). A line is
printed for each fault, and for lockfs without one; the status is 1 where a fault isn't found, or one is found where there is none.
"""

from __future__ import annotations

import json
import os
import subprocess
import sys
import tempfile
import time
from dataclasses import dataclass
from pathlib import Path

CONFORMANCE = Path(__file__).resolve().parent.parent
EMBEDDING = CONFORMANCE.parent / "embedding"
SOURCE = EMBEDDING / "lockfs" / "lockfs.c"
LIBRARY = Path(os.environ.get("LIBRARY", EMBEDDING / "out" / "libdehokuna.a"))
CLIENTS, SECONDS, PATIENCE_SECONDS = 8, 60, 2

Edit = tuple[str, str]


@dataclass(frozen=True)
class Fault:
    """A fault: its name, what it does, and what of lockfs.c is replaced by what."""

    name: str
    says: str
    edits: tuple[Edit, ...]

    def plant(self, source: str) -> str:
        """The source with the fault. Raises ValueError where an old text doesn't stand there just once."""
        for old, new in self.edits:
            if source.count(old) != 1:
                raise ValueError(f"{self.name}: stands {source.count(old)} times in {SOURCE}: {old}")
            source = source.replace(old, new)
        return source


RANGE = ", last = last_of(lock);\n"
FLUSH = "    dehokuna_flush(&server, file, info->lock_owner);\n"
FLUSHES = "static void lockfs_flush("
CANCELLED = "    if (dehokuna_cancel(&server, ticket_of(waiting))) end_wait(waiting, EINTR);\n"
GRANTS = "    for (uint64_t ticket; dehokuna_next_grant(&server, &ticket);) grant(waiting_of(ticket));\n"
SET = "        answer(request, &asked, dehokuna_set(&server, file, owner, first, last, mode));\n"
SETLK = "static void lockfs_setlk("
END_EARLIER = "    end_earlier(file, info);\n"
FIELDS = "    uint64_t owner, open_file;\n    uint32_t family;\n    pid_t pid;\n};\n"
NOT_ANSWERED = "            fuse_reply_none(waiting_of(wait.ticket)->request);\n"
KEEP = "        struct waiting *kept = keep(request, &asked, info, DEHOKUNA_BYTES, lock->l_pid);\n"

# What a wait for bytes asks for is kept with it.
RANGE_IS_KEPT = (
    (FIELDS, FIELDS.replace("};\n", "    uint64_t first, last;\n    uint32_t mode;\n    bool is_plain, is_lost;\n};\n")),
    (KEEP, KEEP + "        if (kept) kept->first = first, kept->last = last, kept->mode = mode;\n"),
)

FAULTS = (
    Fault(
        "grant-a-byte-less",
        "a grant sets one byte less",
        ((RANGE, RANGE.replace("last_of(lock)", "last_of(lock) - (mode != DEHOKUNA_UNLOCK && lock->l_len != 1)")),),
    ),
    Fault(
        "unlock-a-byte-less",
        "an unlock leaves its last byte",
        ((RANGE, RANGE.replace("last_of(lock)", "last_of(lock) - (mode == DEHOKUNA_UNLOCK && lock->l_len != 1)")),),
    ),
    Fault(
        "flush-of-another",
        "a flush takes another owner's locks too",
        (
            (
                FLUSH,
                FLUSH
                + "    struct dehokuna_blocker other;\n"
                + "    if (dehokuna_next_lock(&server, file, 0, 0, &other)) dehokuna_flush(&server, file, other.owner);\n",
            ),
        ),
    ),
    Fault("flush-leaves", "a flush leaves its own locks", ((FLUSH, ""),)),
    Fault(
        "interrupted-and-granted",
        "an interrupted wait is granted all the same",
        (
            *RANGE_IS_KEPT,
            (GRANTS, GRANTS.replace(" grant(", "\n        if (!waiting_of(ticket)->request) free(waiting_of(ticket));\n        else grant(")),
            (NOT_ANSWERED, NOT_ANSWERED.replace("fuse_reply", "if (waiting_of(wait.ticket)->request) fuse_reply")),
            (
                CANCELLED,
                """    struct waiting *kept = waiting;
    if (kept->family == DEHOKUNA_BYTES && dehokuna_cancel(&server, ticket_of(kept))) {
        fuse_reply_err(kept->request, EINTR);
        kept->request = NULL;
        dehokuna_wait(&server, ticket_of(kept), kept->asked.file, kept->owner, kept->first, kept->last, kept->mode, false);
        return;
    }
"""
                + CANCELLED,
            ),
        ),
    ),
    Fault(
        "get-before",
        "a get tells the lock of the get before",
        (
            (
                "    fuse_reply_lock(request, &told);\n",
                "    static struct flock before = {.l_type = F_UNLCK};\n"
                "    const struct flock told_now = before;\n"
                "    before = told;\n"
                "    fuse_reply_lock(request, &told_now);\n",
            ),
        ),
    ),
    Fault(
        "two-steps",
        "test and set are two steps with a gap, in which another request is answered",
        (
            ("#include <limits.h>\n", "#include <limits.h>\n#include <poll.h>\n"),
            (
                SETLK,
                """static struct fuse_session *all_requests;

static uint32_t set_in_two_steps(uint64_t file, uint64_t owner, uint64_t first, uint64_t last, uint32_t mode) {
    struct dehokuna_blocker blocker;
    if (mode != DEHOKUNA_UNLOCK && dehokuna_get(&server, file, owner, first, last, mode, &blocker)) return DEHOKUNA_BLOCKED;
    static int depth;
    struct fuse_buf buffer = {0};
    struct pollfd ready = {.fd = fuse_session_fd(all_requests), .events = POLLIN};
    if (depth++ == 0 && poll(&ready, 1, 1) > 0 && fuse_session_receive_buf(all_requests, &buffer) > 0)
        fuse_session_process_buf(all_requests, &buffer);
    free(buffer.mem);
    depth--;
    dehokuna_set(&server, file, owner, first, last, mode);
    return DEHOKUNA_DONE;
}

"""
                + SETLK,
            ),
            (SET, SET.replace("dehokuna_set(&server, ", "set_in_two_steps(")),
            ("    bool served = session && serve(session, command);\n", "    all_requests = session;\n    bool served = session && serve(session, command);\n"),
        ),
    ),
    Fault(
        "upgrade-beside-shared",
        "an upgrade by flock is granted beside another's shared lock",
        (
            (
                END_EARLIER,
                END_EARLIER
                + """    struct dehokuna_flock_lock held;
    if (mode == DEHOKUNA_WRITE && dehokuna_next_flock(&server, file, owner, &held) && held.owner == owner) {
        fuse_reply_err(request, 0);
        return;
    }
""",
            ),
        ),
    ),
    Fault(
        "unlock-wakes-nobody",
        "an unlock wakes nobody",
        (
            *RANGE_IS_KEPT,
            (CANCELLED, CANCELLED.replace("if (", "if (((struct waiting *)waiting)->is_lost || ")),
            (
                SETLK,
                """/* Whether the owner has nothing on the file. Its waits there are no more its only request. */
static bool asks_first(fuse_ino_t file, uint64_t owner) {
    struct dehokuna_owner_wait wait;
    for (uint64_t from = 0; dehokuna_next_wait(&server, owner, file, from, owner, &wait) && wait.file == file; from = wait.ticket + 1)
        waiting_of(wait.ticket)->is_plain = false;
    struct dehokuna_blocker own;
    return !dehokuna_next_lock(&server, file, owner, 0, &own) || own.owner != owner;
}

/* A grant can be taken back where the owner asked for nothing else. */
static uint32_t set_and_wake_nobody(uint64_t file, uint64_t owner, uint64_t first, uint64_t last, uint32_t mode) {
    const uint32_t status = dehokuna_set(&server, file, owner, first, last, mode);
    for (uint64_t ticket; mode == DEHOKUNA_UNLOCK && dehokuna_next_grant(&server, &ticket);) {
        struct waiting *lost = waiting_of(ticket);
        lost->is_lost = lost->is_plain;
        if (lost->is_lost) dehokuna_set(&server, lost->asked.file, lost->owner, lost->first, lost->last, DEHOKUNA_UNLOCK);
        else grant(lost);
    }
    return status;
}

"""
                + SETLK,
            ),
            (RANGE, RANGE + "    const bool is_plain = mode != DEHOKUNA_UNLOCK && asks_first(file, owner);\n"),
            (KEEP, KEEP + "        if (kept) kept->is_plain = is_plain;\n"),
            (SET, SET.replace("dehokuna_set(&server, ", "set_and_wake_nobody(")),
        ),
    ),
    Fault(
        "killed-locks-stay",
        "a killed client's locks stay",
        (
            (
                FLUSHES,
                """/* By the flag PF_SIGNALED of the kernel. */
static bool was_killed(pid_t pid) {
    char path[32], text[512] = "";
    snprintf(path, sizeof path, "/proc/%d/stat", (int)pid);
    FILE *file = fopen(path, "re");
    if (!file) return false;
    text[fread(text, 1, sizeof text - 1, file)] = 0;
    fclose(file);
    unsigned flags = 0;
    const char *behind = strrchr(text, ')');
    return behind && sscanf(behind + 2, "%*c %*d %*d %*d %*d %*d %u", &flags) == 1 && flags & 0x400;
}

"""
                + FLUSHES,
            ),
            (
                FLUSH,
                """    if (was_killed(fuse_req_ctx(request)->pid)) {
        /* (seen through an open file that isn't, so that no release takes them either) */
        dehokuna_note(&server, file, info->lock_owner, UINT64_MAX);
        answer_close(request);
        return;
    }
"""
                + FLUSH,
            ),
        ),
    ),
)
SOUND = Fault("none", "lockfs as it is", ())


def build(fault: Fault, to: Path) -> Path:
    """Compiles lockfs with a fault into a folder."""
    source, program = to / f"{fault.name}.c", to / fault.name
    source.write_text(fault.plant(SOURCE.read_text()))
    flags = subprocess.run(["pkg-config", "--cflags", "--libs", "fuse3"], stdout=subprocess.PIPE, check=True, text=True).stdout.split()
    command = [os.environ.get("CC", "cc"), "-std=gnu11", "-O2", "-g", f"-I{EMBEDDING}", f"-I{SOURCE.parent}", str(source), str(LIBRARY), *flags]
    subprocess.run([*command, "-o", str(program)], check=True)
    return program


def torture(mount: Path, folder: Path) -> tuple[int, list[dict[str, object]]]:
    """Runs locktorture on a mount; its status, and the objects that it told."""
    words = ["--json", "--clients", CLIENTS, "--seconds", SECONDS, "--patience", PATIENCE_SECONDS, "--keep", folder / "window"]
    command = [sys.executable, str(CONFORMANCE / "locktorture"), str(mount), *map(str, words)]
    ended = subprocess.run(command, stdout=subprocess.PIPE, check=False, text=True)
    return ended.returncode, [json.loads(line) for line in ended.stdout.splitlines()]


def try_fault(fault: Fault, folder: Path) -> bool:
    """Mounts lockfs with the fault, tells whether it is found, and says whether that is right."""
    # (the mounts are made as fuse-test makes them)
    sys.path.insert(0, str(EMBEDDING))
    from fusetest.mount import Places

    program = build(fault, folder)
    with Places([str(program)]) as places:
        began = time.monotonic()
        status, told = torture(places.mount, folder)
    seconds = time.monotonic() - began
    illegal = [each for each in told if each.get("verdict") == "illegal"]
    requests = sum(int(str(each["requests"])) for each in told if "round" in each)
    what = f"found: {illegal[0]['says']}, {len(str(illegal[0]['window']).splitlines())} lines" if illegal else f"not found, status {status}"
    print(f"{fault.name}: {fault.says}: {what}; {seconds:.1f} s, {requests} requests", flush=True)
    if illegal and "--windows" in sys.argv:
        print("".join(f"    {line}\n" for line in str(illegal[0]["window"]).splitlines()), end="", flush=True)
    return bool(illegal) == (fault is not SOUND) and status in (0, 1)


def main() -> int:
    """Tries the faults that the command line names, or all; the exit status."""
    named = [word for word in sys.argv[1:] if not word.startswith("--")]
    chosen = [fault for fault in (*FAULTS, SOUND) if not named or fault.name in named]
    with tempfile.TemporaryDirectory(prefix="planted-") as folder:
        right = [try_fault(fault, Path(folder)) for fault in chosen]
    return 0 if chosen and all(right) else 1


if __name__ == "__main__":
    sys.exit(main())
