"""Follows the tasks of a log: the lock requests that they made, with their answers, and the closes and ends that released their locks."""

from __future__ import annotations

import re
from collections import defaultdict
from dataclasses import dataclass, field, replace
from typing import Iterator, Optional

from tracing.log import DELETED, SUPERSEDED, Call, Log, shown_path
from tracing.tables import Description, Descriptor, File, Files, Process, Table, Task, is_lock_call, made_whole

OPENS = ("open", "openat", "openat2", "creat")
FORKS = ("fork", "vfork", "clone", "clone3")
COMMANDS = re.compile(r"\bF_(?P<ofd>OFD_)?(?P<what>GETLK|SETLKW|SETLK)(?:64)?\b")
# Calls that are followed as another one is.
SAME = {
    "dup3": "dup2",
    "fcntl64": "fcntl",
    "execveat": "execve",
    "unlinkat": "unlink",
    "renameat": "rename",
    "renameat2": "rename",
    "linkat": "link",
    "_llseek": "lseek",
    "exit_group": "exit",
}
LARGEST_OFFSET = 2**63 - 1
WITHOUT_EFFECT = ("EBADF", "EINVAL", "EOVERFLOW")
REFUSED = "refused for its arguments"


@dataclass
class Request:
    """A lock request as a history has it: `text` without its ID, and `answer`, None where the log has none. `begin` and `end` are places of the
    log. A request that isn't judged has no text."""

    call: Call
    process: Process
    owner: int
    file: Optional[File]
    text: str
    answer: Optional[str]
    begin: int
    end: Optional[int]
    said: str = ""
    why_not: str = ""
    is_whole_file: bool = False
    number: int = 0
    # The bytes that a request is about, for an assumption about who else may hold them.
    span: Optional[tuple[int, int]] = None
    mode: str = "w"
    # Whether its task ended before it was answered.
    is_cut_off: bool = False

    @property
    def waits(self) -> bool:
        """Whether it is of the kind that waits for what is in its way."""
        return self.text.startswith("wait") or self.is_whole_file and not self.text.endswith((" nb", " un"))


@dataclass
class Release:
    """A close of an owner on a file, or its end there (`gone`)."""

    call: Call
    process: Process
    owner: int
    file: File
    is_end: bool
    begin: int
    end: Optional[int]
    is_answered: bool = True
    what: str = ""
    # The process' descriptors of the file that stay open, and the processes that stem from it and have the file open.
    others: list[int] = field(default_factory=list)
    inherited_by: list[Process] = field(default_factory=list)


@dataclass
class MadeUp:
    """A descriptor that was open before the log began, as its path says."""

    call: Call
    descriptor: int
    process: Process
    file: File


@dataclass
class Followed:
    """What a log says of locks."""

    requests: list[Request] = field(default_factory=list)
    releases: list[Release] = field(default_factory=list)
    processes: list[Process] = field(default_factory=list)
    files: list[File] = field(default_factory=list)
    owners: dict[int, str] = field(default_factory=dict)
    # What the open that begins at a place of the log opened.
    opened: dict[int, File] = field(default_factory=dict)
    # By unlink or rename onto a name: the call, the name, and who had the file open and a lock on it.
    unlinked: list[tuple[Call, str, list[Process]]] = field(default_factory=list)
    made_up: list["MadeUp"] = field(default_factory=list)
    unknown_starts: list[int] = field(default_factory=list)


@dataclass
class Assumptions:
    """What is taken for true though the log doesn't show it."""

    same: dict[str, str] = field(default_factory=dict)
    parted: set[int] = field(default_factory=set)
    threads: bool = False


class Follower:
    """Follows a log's tasks, call by call."""

    def __init__(self, log: Log, assumed: Assumptions) -> None:
        self.log, self.assumed = log, assumed
        self.files = Files(assumed.same, assumed.parted)
        self.found = Followed(files=self.files.all)
        self.tasks: dict[int, Task] = {}
        self.owners = 0
        self.children = self.children_told()
        self.reads_traced = any(call.name in ("read", "write", "pread64", "pwrite64", "readv", "writev") for call in log.calls)
        self.ends = self.table_ends()
        # By task, the place of the last line that says that a task of this number ended.
        self.last_ends = {call.task: call.begin for call in log.calls if call.name == "ended"}
        self.open_calls: dict[int, Call] = {}
        # By task, its last lock request.
        self.asked: dict[int, Request] = {}
        self.inherited: dict[tuple[int, str], Description] = {}

    def children_told(self) -> dict[int, list[Call]]:
        """The calls that made each task, by its number, in order."""
        told: dict[int, list[Call]] = defaultdict(list)
        for call in self.log.calls:
            if call.name in FORKS and call.value:
                told[call.value].append(call)
        return told

    def table_ends(self) -> dict[int, int]:
        """By task, the place of the last line before its end, for the ends that the log has; as several tasks may have one number in turn, by the
        place of the end."""
        last: dict[int, int] = {}
        ends: dict[int, int] = {}
        for call in self.log.calls:
            if call.name == "ended":
                ends[call.begin] = last.pop(call.task, call.begin)
            else:
                # (with -ff a call may have been over long before its end here, which is the latest)
                last[call.task] = call.begin if call.part else max(call.begin, call.end or 0)
        return ends

    def follow(self) -> Followed:
        """All that the log says."""
        for call, is_end in marks(self.log):
            number = call.task if call.ends_as is None else call.ends_as
            if not is_end:
                self.begins(self.task_of(call), call)
            elif number in self.tasks:
                self.ended(self.tasks[number], call)
        return self.found

    # Tasks

    def new_owner(self, name: str) -> int:
        self.owners += 1
        self.found.owners[self.owners] = name
        return self.owners

    def new_process(self, pid: int, parent: Optional[Process], is_known: bool) -> Process:
        process = Process(len(self.found.processes) + 1, pid, parent.program if parent else "", parent=parent, is_known_from_its_start=is_known)
        self.found.processes.append(process)
        return process

    def task_of(self, call: Call) -> Task:
        """The task of a call: a new one where the log had no line of it."""
        if call.task not in self.tasks:
            origin = next((it for it in self.children[call.task] if it.begin <= call.begin), None)
            if origin is not None and origin.task in self.tasks:
                self.children[call.task].remove(origin)
                self.begin_child(self.tasks[origin.task], call.task, origin)
            else:
                self.begin_unknown(call.task)
        return self.tasks[call.task]

    def begin_unknown(self, number: int) -> None:
        """A task whose start the log lacks: a process of its own, or by assumption a thread of the first one."""
        others = [task for task in self.tasks.values() if not task.process.is_known_from_its_start]
        if self.assumed.threads and others:
            self.tasks[number] = Task(number, others[0].process, others[0].table, others[0].folder)
            others[0].table.tasks.add(number)
            return
        process = self.new_process(number, None, False)
        self.found.unknown_starts.append(number)
        table = Table(self.new_owner(f"process {process.number}"), process, tasks={number})
        self.tasks[number] = Task(number, process, table)

    def begin_child(self, parent: Task, number: int, call: Call) -> None:
        """A child, with the parent's table (CLONE_FILES) or a copy of it, and in its process (CLONE_THREAD) or one of its own."""
        process = parent.process if "CLONE_THREAD" in call.arguments else self.new_process(number, parent.process, True)
        if "CLONE_FILES" in call.arguments:
            table = parent.table
        else:
            table = self.copied(parent.table, process)
        table.tasks.add(number)
        self.tasks[number] = Task(number, process, table, parent.folder)

    def copied(self, table: Table, process: Process) -> Table:
        """A table of the process' own with what this one has."""
        copy = Table(self.new_owner(f"process {process.number}"), process, known=set(table.known))
        for fd, one in table.descriptors.items():
            self.refer(copy, fd, one.description, one.closes_on_exec, one.line)
        return copy

    # Descriptors

    def refer(self, table: Table, fd: int, description: Description, closes_on_exec: bool, line: int) -> None:
        table.descriptors[fd] = Descriptor(description, closes_on_exec, line)
        table.known.add(fd)
        description.holders.add((table.owner, fd))

    def descriptor(self, task: Task, call: Call, number: Optional[int] = None, shown: str = "") -> Optional[Descriptor]:
        """The descriptor that a call names first, made up from the path that is shown where it was open before the log began."""
        fd, path = first_descriptor(call) if number is None else (number, shown)
        if fd is None:
            return None
        one = task.table.descriptors.get(fd)
        if one is None and path.startswith("/"):
            return self.made_up(task, fd, path, call)
        if one is not None and path:
            self.files.seen(one.description.file, path)
        return one

    def made_up(self, task: Task, fd: int, path: str, call: Call) -> Descriptor:
        """A descriptor that was open before the log began. Where the log didn't open or close this number in the process or in those that it
        stems from, it is the one that they all have, if that one's file still has the name, or has it no more where it is shown as deleted."""
        name = path.replace(DELETED, "")
        found = [self.inherited.get((fd, it)) for it in (path, name) if fd not in task.table.known]
        description = next((it for it in found if it and self.files.has(it.file, name) == (path == name)), None)
        if description is None:
            description = Description(self.new_owner(f"descriptor {fd} of {task.process}"), self.files.named(path), call.line, None, True)
            if fd not in task.table.known:
                self.inherited[(fd, path)] = description
            self.found.made_up.append(MadeUp(call, fd, task.process, description.file))
        self.refer(task.table, fd, description, False, call.line)
        return task.table.descriptors[fd]

    def drop(self, table: Table, fd: int, call: Call, process: Process, what: str) -> Optional[Release]:
        """A close of a descriptor: of the process' locks on the file, and of the description's where it may be the last."""
        one = table.descriptors.pop(fd, None)
        table.known.add(fd)
        if one is None:
            return None
        description = one.description
        description.holders.discard((table.owner, fd))
        closed = self.release(call, process, table.owner, description.file, False, call.begin, call.end, True, what)
        closed.others = table.numbers_of(description.file)
        description.closes.append((call.begin, call.end))
        if not description.holders:
            self.release_last(call, process, description, False, what)
        return closed

    def drop_all(self, table: Table, fds: list[int], call: Call, process: Process, what: str) -> None:
        """Closes by one call: a file is still open that is behind all of them."""
        closed = [self.drop(table, fd, call, process, f"{what} {fd}") for fd in fds]
        for release in (it for it in closed if it):
            release.others = table.numbers_of(release.file)

    def release_last(self, call: Call, process: Process, description: Description, is_end: bool, what: str) -> None:
        """The last close of a description, from the latest begin of its closes to the latest end: another may be the last. What the log doesn't
        follow may keep it open."""
        begin = max(it[0] for it in description.closes)
        ends = [it[1] for it in description.closes if it[1] is None or it[1] >= begin]
        end = None if None in ends else max(it for it in ends if it is not None)
        is_busy = any(
            other is not call and other.task != call.task and first_descriptor(other)[0] is not None and self.describes(other) is description
            for other in self.open_calls.values()
        )
        alone = len([it for it in description.closes if it[1] is None or it[1] >= begin]) == 1
        self.release(call, process, description.owner, description.file, is_end and alone, begin, end, not (description.is_kept or is_busy), what)

    def describes(self, call: Call) -> Optional[Description]:
        """The description that a call of a known task works on."""
        task, fd = self.tasks.get(call.task), first_descriptor(call)[0]
        one = task.table.descriptors.get(fd) if task and fd is not None else None
        return one.description if one else None

    def release(
        self, call: Call, process: Process, owner: int, file: File, is_end: bool, begin: int, end: Optional[int], is_answered: bool, what: str
    ) -> Release:
        release = Release(call, process, owner, file, is_end, begin, end, is_answered and end is not None, what)
        self.found.releases.append(release)
        return release

    def having_open(self, file: File) -> list[Process]:
        """The processes that have the file open, each once."""
        tables = {task.table.owner: task.table for task in self.tasks.values()}
        return [it.process for it in tables.values() if any(one.description.file is file for one in it.descriptors.values())]

    # Calls, as they begin

    def begins(self, task: Task, call: Call) -> None:
        self.open_calls[call.task] = call
        if call.arguments.startswith("AT_FDCWD<"):
            task.folder = shown_path(call.arguments[len("AT_FDCWD") :]) or task.folder
        if call.name == "ended":
            self.end_task(task, call, self.ends[call.begin])
        elif is_lock_call(call):
            self.lock(task, call)
        elif call.error not in ("EBADF", "EINVAL"):
            if call.name == "close":
                self.close(task, call, first_descriptor(call)[0])
            elif call.name == "close_range":
                self.close_range(task, call)

    def close(self, task: Task, call: Call, fd: Optional[int]) -> None:
        if fd is not None:
            if fd not in task.table.descriptors:
                self.descriptor(task, call)
            self.drop(task.table, fd, call, task.process, f"close({said_descriptor(call)})")

    def close_range(self, task: Task, call: Call) -> None:
        """close_range(2): closes, or marks for the next exec, all descriptors from one to another."""
        words = call.words()
        numbers = [int(re.match(r"~?\d+", it)[0].lstrip("~")) if re.match(r"~?\d+", it) else 2**32 for it in words[:2]]
        last = 2**32 if words[1].startswith("~") or "MAX" in words[1] else numbers[1]
        if "CLOSE_RANGE_UNSHARE" in call.arguments:
            self.unshare(task)
        fds = [it for it in sorted(task.table.descriptors) if numbers[0] <= it <= last]
        if "CLOSE_RANGE_CLOEXEC" not in call.arguments:
            self.drop_all(task.table, fds, call, task.process, "close_range(), descriptor")
            return
        for fd in fds:
            task.table.descriptors[fd].closes_on_exec = True

    def unshare(self, task: Task) -> None:
        """A table of the task's own, a copy of the one that it shared."""
        if len(task.table.tasks) < 2:
            return
        old = task.table
        old.tasks.discard(task.number)
        task.table = self.copied(old, task.process)
        task.table.tasks.add(task.number)

    def end_task(self, task: Task, call: Call, last: int) -> None:
        """A task ends, and with the last one of its table all that the table refers to."""
        table = task.table
        table.tasks.discard(task.number)
        del self.tasks[task.number]
        asked = self.asked.pop(task.number, None)
        if asked and asked.end is None:
            asked.is_cut_off = True
        table.last = max(table.last, last)
        if superseded := SUPERSEDED.match(call.arguments):
            self.take_over(int(superseded[1]), task)
        elif not table.tasks:
            self.end_table(task, call, table.last)

    def end_unsaid(self, tasks: list[Task], call: Call, how: str) -> None:
        """Ends tasks that a call ended, where the log has no line of that: strace -qq leaves it out. Each is over at some moment behind the call."""
        for task in tasks:
            if self.last_ends.get(task.number, 0) < call.begin:
                self.end_task(task, replace(call, name="ended", arguments=how, end=None), call.end or call.begin)

    def take_over(self, number: int, leader: Task) -> None:
        """A thread goes on with the number of the leader, which its exec ended."""
        thread = self.tasks.pop(number, leader)
        thread.table.tasks.discard(number)
        thread.table.tasks.add(leader.number)
        thread.number = thread.process.pid = leader.number
        self.tasks[leader.number] = thread

    def end_table(self, task: Task, call: Call, begin: int) -> None:
        what = f"end of {task.process} ({call.arguments})"
        for file in {one.description.file.number: one.description.file for one in task.table.descriptors.values()}.values():
            ended = self.release(call, task.process, task.table.owner, file, True, begin, call.end, True, what)
            ended.inherited_by = [it for it in self.having_open(file) if stems_from(it, task.process)]
        for fd, one in list(task.table.descriptors.items()):
            del task.table.descriptors[fd]
            one.description.holders.discard((task.table.owner, fd))
            if not any(holder[0] == task.table.owner for holder in one.description.holders):
                one.description.closes.append((begin, call.end))
                if not one.description.holders:
                    self.release_last(call, task.process, one.description, True, what)

    # Calls, as they end

    def ended(self, task: Task, call: Call) -> None:
        self.open_calls.pop(call.task, None)
        kind = kind_of(call)
        handler = getattr(self, f"on_{kind}", None)
        # (an exit has no value)
        if handler and (call.succeeded or kind == "exit"):
            handler(task, call)

    def on_exit(self, task: Task, call: Call) -> None:
        also = self.threads_beside(task) if call.name == "exit_group" else []
        self.end_unsaid([*also, task], call, f"exited with {call.arguments}")

    def threads_beside(self, task: Task) -> list[Task]:
        """The other threads of a task's process."""
        return [it for it in self.tasks.values() if it.process is task.process and it is not task]

    def on_fork(self, task: Task, call: Call) -> None:
        if call.value and call.value not in self.tasks and call in self.children[call.value]:
            self.children[call.value].remove(call)
            self.begin_child(task, call.value, call)

    def on_open(self, task: Task, call: Call) -> None:
        path = call.shown if call.shown.startswith("/") else "" if call.shown else self.named_path(task, call)
        if path:
            file = self.files.opened(path.replace("(deleted)", "").strip(), call.begin)
            self.found.opened[call.begin] = file
            name = f"descriptor {call.value} of {task.process}"
            description = Description(self.new_owner(name), file, call.line, may_append="O_APPEND" in call.arguments)
            self.refer(task.table, call.value or 0, description, "O_CLOEXEC" in call.arguments, call.line)

    def named_path(self, task: Task, call: Call, first: int = 0) -> str:
        """The path that a call names, made whole by the folder that it names or that its task is in."""
        words = call.words()
        quoted = [at for at, word in enumerate(words) if word.startswith('"')]
        if len(quoted) <= first:
            return ""
        at = quoted[first]
        folder = shown_path(words[at - 1][words[at - 1].find("<") :]) if at and "<" in words[at - 1] else task.folder
        return made_whole(words[at].split('"')[1], folder)

    def on_dup(self, task: Task, call: Call) -> None:
        one = self.descriptor(task, call)
        if one and call.value is not None:
            self.refer(task.table, call.value, one.description, "CLOEXEC" in call.arguments, call.line)

    def on_dup2(self, task: Task, call: Call) -> None:
        one, to = self.descriptor(task, call), call.value
        if to is None or to == first_descriptor(call)[0]:
            return
        self.drop(task.table, to, call, task.process, f"{call.name}() onto descriptor {to}")
        if one:
            self.refer(task.table, to, one.description, "CLOEXEC" in call.arguments, call.line)

    def on_execve(self, task: Task, call: Call) -> None:
        self.end_unsaid(self.threads_beside(task), call, "ended by an exec")
        self.unshare(task)
        named = re.search(r'"((?:[^"\\]|\\.)*)"', call.arguments)
        task.process.program = named[1].rsplit("/", 1)[-1] if named else task.process.program
        fds = sorted(fd for fd, one in task.table.descriptors.items() if one.closes_on_exec)
        self.drop_all(task.table, fds, call, task.process, "execve(), close-on-exec descriptor")

    def on_fcntl(self, task: Task, call: Call) -> None:
        if "F_SETFD" in call.arguments:
            one = self.descriptor(task, call)
            if one:
                one.closes_on_exec = "FD_CLOEXEC" in call.arguments
        elif "F_SETFL" in call.arguments:
            one = self.descriptor(task, call)
            if one:
                one.description.may_append = "O_APPEND" in call.arguments

    def on_ioctl(self, task: Task, call: Call) -> None:
        """What CPython does in place of F_SETFD."""
        request = call.words()[-1]
        one = self.descriptor(task, call) if request in ("FIOCLEX", "FIONCLEX") else None
        if one:
            one.closes_on_exec = request == "FIOCLEX"

    def on_lseek(self, task: Task, call: Call) -> None:
        one = self.descriptor(task, call)
        if one:
            one.description.offset = call.value

    def on_moves(self, task: Task, call: Call) -> None:
        """A read or a write moves the offset; a write with O_APPEND behind the end of the file, which the log doesn't show."""
        one = self.descriptor(task, call)
        if one and one.description.may_append and call.name.startswith("write"):
            one.description.offset = None
        elif one and one.description.offset is not None:
            one.description.offset += call.value or 0

    def on_keeps(self, task: Task, call: Call) -> None:
        """A mapping, or a descriptor sent to another process, keeps the description open unseen."""
        words = call.words()
        named = [words[4]] if call.name == "mmap" and len(words) > 4 else re.findall(r"SCM_RIGHTS, cmsg_data=\[([^\]]*)\]", call.arguments)
        for text in ",".join(named).split(","):
            fd = re.match(r"\s*(\d+)", text)
            one = task.table.descriptors.get(int(fd[1])) if fd else None
            if one:
                one.description.is_kept = True

    def on_chdir(self, task: Task, call: Call) -> None:
        folder = self.named_path(task, call)
        task.folder = folder or task.folder

    def on_unlink(self, task: Task, call: Call) -> None:
        path = self.named_path(task, call)
        self.note_unlink(call, path)
        self.files.unlinked(path)

    def on_rename(self, task: Task, call: Call) -> None:
        old, new = self.named_path(task, call), self.named_path(task, call, 1)
        self.note_unlink(call, new)
        self.files.renamed(old, new)

    def note_unlink(self, call: Call, path: str) -> None:
        """Takes down who has the file of a name open, and had a lock on it, as the name goes."""
        file = self.files.by_path.get(path)
        locked = {it.process.number for it in self.found.requests if it.file is file and it.answer == "ok"}
        if file is not None:
            holders = [it for it in self.having_open(file) if it.number in locked]
            self.found.unlinked.append((call, path, holders))

    def on_link(self, task: Task, call: Call) -> None:
        self.files.linked(self.named_path(task, call), self.named_path(task, call, 1))

    # Locks

    def lock(self, task: Task, call: Call) -> None:
        """A lock request, as a history has it."""
        one = self.descriptor(task, call)
        task.process.requests += 1
        request = Request(call, task.process, 0, one.description.file if one else None, "", None, call.begin, call.end)
        request.number = task.process.requests
        self.found.requests.append(request)
        self.asked[task.number] = request
        if call.error in WITHOUT_EFFECT:
            request.why_not = REFUSED
        elif one is None:
            request.why_not = "a descriptor of unknown origin"
        elif call.name == "flock":
            self.flock(request, one)
        else:
            self.record_lock(task, request, one)

    def flock(self, request: Request, one: Descriptor) -> None:
        call = request.call
        request.owner, request.is_whole_file = one.description.owner, True
        words = call.arguments.rsplit(", ", 1)[-1]
        what = "un" if "LOCK_UN" in words else "sh" if "LOCK_SH" in words else "ex" if "LOCK_EX" in words else ""
        if not what:
            request.why_not = "strace doesn't show the operation"
            return
        request.mode = "r" if what == "sh" else "w"
        is_at_once = "LOCK_NB" in words and what != "un"
        request.text = f"flock {one.description.file.number} {request.owner} {what}{' nb' if is_at_once else ''}"
        request.answer = answer_of(call, is_at_once)

    def record_lock(self, task: Task, request: Request, one: Descriptor) -> None:
        call = request.call
        command = COMMANDS.search(call.arguments)
        kind, span = call.field("l_type"), self.span_of(call, one.description)
        request.owner = one.description.owner if command and command["ofd"] else task.table.owner
        if command is None or kind not in ("F_RDLCK", "F_WRLCK", "F_UNLCK"):
            request.why_not = "strace doesn't show the lock"
        elif span is None:
            request.why_not = "its range counts from an offset or a size that the log doesn't show"
        else:
            request.span, request.mode = span, "r" if kind == "F_RDLCK" else "w"
            where = f"{one.description.file.number} {request.owner}"
            if command["what"] == "GETLK":
                self.get(request, where, kind, span)
            elif kind == "F_UNLCK":
                request.text, request.answer = f"unlock {where} {span[0]} {span[1]}", answer_of(call, False)
            else:
                is_at_once = command["what"] == "SETLK"
                request.text = f"{'set' if is_at_once else 'wait'} {where} {request.mode} {span[0]} {span[1]}"
                request.answer = answer_of(call, is_at_once)

    def get(self, request: Request, where: str, kind: str, span: tuple[int, int]) -> None:
        """strace shows the answer of a get alone: the weakest question is taken that it implies."""
        call = request.call
        if kind == "F_UNLCK":
            request.text, request.mode = f"get {where} r {span[0]} {span[1]}", "r"
            request.answer = "free" if call.succeeded else answer_of(call, False)
            return
        request.text = f"get {where} w {span[0]} {span[1]}"
        if call.succeeded:
            holder = self.table_of_pid(call.field("l_pid"))
            request.answer = f"held {holder} {request.mode} {span[0]} {span[1]}"
        else:
            request.answer = answer_of(call, False)

    def table_of_pid(self, pid: str) -> str:
        """The owner that a get tells, `-` where the log doesn't know it."""
        for task in self.tasks.values():
            if str(task.process.pid) == pid:
                return str(task.table.owner)
        return "-"

    def span_of(self, call: Call, description: Description) -> Optional[tuple[int, int]]:
        """The bytes of a lock, from the first to the last; None where the log doesn't show them."""
        try:
            start, length = int(call.field("l_start"), 0), int(call.field("l_len"), 0)
        except ValueError:
            return None
        whence = call.field("l_whence")
        if whence == "SEEK_CUR" and self.reads_traced and description.offset is not None:
            start += description.offset
        elif whence != "SEEK_SET":
            return None
        if length < 0:
            start, length = start + length, -length
        return (start, LARGEST_OFFSET if length == 0 else start + length - 1)


def marks(log: Log) -> Iterator[tuple[Call, bool]]:
    """The beginnings and ends of calls, in the log's order; of one place the beginning first."""
    found = [(call.begin, 0, number, call) for number, call in enumerate(log.calls)]
    found += [(call.end, 1, number, call) for number, call in enumerate(log.calls) if call.end is not None]
    for _, is_end, _, call in sorted(found, key=lambda it: it[:3]):
        yield call, bool(is_end)


def stems_from(process: Process, other: Process) -> bool:
    """Whether a process is a child of the other, or stems from one."""
    parent = process.parent
    while parent is not None and parent is not other:
        parent = parent.parent
    return parent is other


def kind_of(call: Call) -> str:
    """Which method takes a call as it ends."""
    if call.name in OPENS:
        return "open"
    if call.name in FORKS:
        return "fork"
    if call.name.startswith("fcntl") and "F_DUPFD" in call.arguments:
        return "dup"
    if call.name in ("read", "write", "readv", "writev"):
        return "moves"
    if call.name in ("mmap", "sendmsg"):
        return "keeps"
    return SAME.get(call.name, call.name)


def first_descriptor(call: Call) -> tuple[Optional[int], str]:
    """The descriptor that is a call's first argument, and the path that is shown for it."""
    found = re.match(r"(\d+)", call.arguments)
    return (int(found[1]), shown_path(call.arguments[found.end() :])) if found else (None, "")


def said_descriptor(call: Call) -> str:
    return call.words()[0] if call.arguments else ""


def answer_of(call: Call, is_at_once: bool) -> Optional[str]:
    """What a history says that the request was answered; None where the log has no answer."""
    if call.succeeded:
        return "ok"
    if call.error.startswith("ERESTART") or call.error == "EINTR":
        return "EINTR"
    if call.error in ("EAGAIN", "EACCES", "EWOULDBLOCK") and is_at_once:
        return "busy"
    if call.error == "EDEADLK":
        return "EDEADLK"
    return "error" if call.error else None
