"""The host: carries a script out by agents, one request at a time, and keeps the journal of what the system showed."""

from __future__ import annotations

import fcntl
import os
import select
import shutil
import signal
import socket
import time
from collections import deque
from dataclasses import dataclass, field
from pathlib import Path
from typing import Optional, Union

from harness import agent, watch
from harness.guard import LOOK_AGAIN_SECONDS, CouldNotRun, Hangs, guarded
from harness.journal import Event, Ticket
from harness.script import Request, Script

Watcher = Union[watch.ProcWatcher, watch.TimeWatcher]
# Descriptors of a script stand below.
FIRST_CHANNEL = 256


@dataclass
class Timing:
    """Seconds: how long nothing may change until waits count as waits, and how long a request may take that can't wait."""

    settle: float
    limit: float


@dataclass
class Process:
    """A process of the script: its channel at the host and at the agent, its mail, what it hasn't answered yet, in which sections it is, and whether
    its last answer was an error."""

    number: int
    channel: socket.socket
    remote: int
    pid: Optional[int] = None
    ended: bool = False
    mail: deque[Request] = field(default_factory=deque)
    taken: int = 0
    unanswered: Optional[Request] = None
    sections: set[str] = field(default_factory=set)
    refused: bool = False

    @property
    def able(self) -> bool:
        return self.pid is not None and not self.ended and self.unanswered is None

    @property
    def ticket(self) -> Ticket:
        return self.number, self.taken

    def visit(self, section: str, enters: bool) -> str:
        """Enters a section, or leaves it; the answer."""
        if (section in self.sections) == enters:
            return "EINVAL"
        self.sections ^= {section}
        return "ok"

    def heed(self, note: Optional[str]) -> None:
        """Heeds an answer that it was given, if it is one."""
        if note not in (None, "waits"):
            self.refused = str(note).startswith("E")


def has_ended(pid: int) -> bool:
    """Whether the process has ended and closed its descriptors, be it still a zombie or not."""
    if Path("/proc/self/stat").exists():
        return watch.state_of(pid) in ("", "Z", "X", "x")
    try:
        os.kill(pid, 0)
        return os.waitid(os.P_PID, pid, os.WEXITED | os.WNOHANG | os.WNOWAIT) is not None
    except ProcessLookupError:
        return True
    except ChildProcessError:
        return False


def choose_channels(script: Script, count: int) -> list[int]:
    """Numbers for the agents' channels, above all descriptors and none of them named in the script: a script can't close them."""
    named = {int(word) for request in script.requests for word in request.words[1:3] if word.isdigit()}
    first = FIRST_CHANNEL
    while any(first <= number < first + count for number in named):
        first += count
    return list(range(first, first + count))


class Host:
    """Carries one script out in a folder of its own. `close` leaves no process and no file behind."""

    def __init__(self, folder: Path, script: Script, watcher: Watcher, timing: Timing) -> None:
        self.folder = folder
        self.script = script
        self.watcher = watcher
        self.timing = timing
        self.processes: dict[int, Process] = {}
        self.journal: list[Event] = []
        self.answers: dict[int, str] = {}
        self.left: list[int] = []

    def run(self) -> None:
        """Carries the script out; the journal has what was seen, also where this raises CouldNotRun."""
        guarded(self.make_files, self.timing.limit)
        self.make_processes()
        for request in self.script.requests:
            self.processes[request.process].mail.append(request)
            while ready := [process for process in self.processes.values() if process.able and process.mail]:
                self.take(min(ready, key=lambda process: process.number))

    def make_files(self) -> None:
        """Makes the files that the script opens, of size 0."""
        self.folder.mkdir()
        for request in self.script.requests:
            if request.command == "open":
                self.path_of(request.words[1]).touch()

    def path_of(self, file: str) -> Path:
        return self.folder / f"file{file}"

    def make_processes(self) -> None:
        """Makes a channel for each process that the script names, and the agent of process 1."""
        named = {1} | {request.process for request in self.script.requests}
        named |= {int(request.words[1]) for request in self.script.requests if request.command == "fork"}
        numbers = sorted(named & set(range(1, self.script.limits.processes + 1)))
        for number, remote in zip(numbers, choose_channels(self.script, len(numbers))):
            ours, theirs = socket.socketpair(socket.AF_UNIX, socket.SOCK_SEQPACKET)
            self.processes[number] = Process(number, ours, remote)
            moved = fcntl.fcntl(theirs.fileno(), fcntl.F_DUPFD, remote)
            theirs.close()
            if moved != remote:
                raise CouldNotRun(f"descriptor {remote}, which a channel needs, isn't free")
        self.start_first()

    def start_first(self) -> None:
        """Starts the agent of process 1, and gives up the agents' ends of the channels."""
        channels = [process.remote for process in self.processes.values()]
        first = self.processes[1]
        first.pid = agent.start(self.script.limits.descriptors, channels, first.remote, round(self.timing.limit * 12) + 1)
        try:
            os.setpgid(first.pid, first.pid)
        except OSError:
            # The agent did it before.
            pass
        for channel in channels:
            os.close(channel)

    def take(self, process: Process) -> None:
        """Carries a process's next request out, and waits until all that comes of it has come."""
        request = process.mail.popleft()
        process.taken += 1
        event = Event(process.ticket, request)
        self.journal.append(event)
        event.note = self.answer_of_language(process, request)
        if event.note is None:
            process.unanswered = request
            process.channel.send("\0".join(self.message(request)).encode())
            self.await_effects(process, request)
            self.tell(event, process)
        process.heed(event.note)

    def answer_of_language(self, process: Process, request: Request) -> Optional[str]:
        """The answer where no system is asked: sections and the numbers of processes are the language's. A pid that has ended may be anyone's."""
        if request.command in ("enter", "leave"):
            return process.visit(request.words[1], request.command == "enter")
        if request.command == "bail":
            return None if process.refused else "ok"
        if request.command == "fork":
            child = self.processes.get(int(request.words[1]))
            return "EAGAIN" if child is None or child.pid is not None else None
        if request.command in ("signal", "kill"):
            target = self.processes.get(int(request.words[1]))
            return "ESRCH" if target is None or target.pid is None or target.ended else None
        return None

    def message(self, request: Request) -> list[str]:
        """What the agent is told."""
        command, *arguments = request.words
        if command == "open":
            return ["open", str(self.path_of(arguments[0])), arguments[1]]
        if command == "fork":
            return ["fork", str(self.processes[int(arguments[0])].remote)]
        if command in ("signal", "kill"):
            number = agent.SIGNAL if command == "signal" else signal.SIGKILL
            return ["kill", str(self.processes[int(arguments[0])].pid), str(int(number))]
        if request.lock_call:
            return ["lock", command, *arguments[:5], str(request.lock_call.pid)]
        return ["exit"] if command == "bail" else [command, *arguments]

    def await_effects(self, process: Process, request: Request) -> None:
        """Waits until the request is answered or waits, whom it ends has ended, and no wait is about to end."""
        ends = process.number if request.command in ("exit", "bail") else None
        if request.command == "kill":
            ends = int(request.words[1])
        if request.command == "kill" and ends != process.number:
            self.await_answer(process)
        if ends is not None and self.answers.get(process.number, "ok") == "ok":
            self.await_end(self.processes[ends])
        self.await_quiet()

    def await_answer(self, process: Process) -> None:
        """Waits until the process has answered."""
        deadline = time.monotonic() + self.timing.limit
        while process.unanswered:
            self.collect([process])
            if time.monotonic() > deadline:
                raise CouldNotRun(self.describe_hang({process.number: None}))

    def await_end(self, process: Process) -> None:
        """Waits until the process has ended."""
        deadline = time.monotonic() + self.timing.limit
        while not has_ended(process.pid or 0):
            if time.monotonic() > deadline:
                raise CouldNotRun(f"process {process.number} doesn't end: {self.describe(process)}")
            time.sleep(LOOK_AGAIN_SECONDS)
        process.ended = True
        process.unanswered = None

    def await_quiet(self) -> None:
        """Waits until each process has answered or is seen to wait, and this has stayed so for the settling time."""
        deadline = time.monotonic() + self.timing.limit + self.timing.settle
        looks: dict[int, Optional[str]] = {}
        since = time.monotonic()
        while open_requests := [process for process in self.processes.values() if process.unanswered]:
            came = self.collect(open_requests)
            latest = {process.number: self.look(process) for process in open_requests if process.unanswered}
            now = time.monotonic()
            if came or latest != looks or None in latest.values():
                looks, since = latest, now
            elif now - since >= self.timing.settle:
                return
            if now > deadline:
                raise CouldNotRun(self.describe_hang(latest))

    def look(self, process: Process) -> Optional[str]:
        """What the watcher sees of a process; None where it does anything else than wait."""
        if process.unanswered is None or not process.unanswered.may_wait:
            return None
        return self.watcher.look(process.pid or 0)

    def collect(self, open_requests: list[Process]) -> bool:
        """Takes the answers that have come, after a short wait for the first; whether there was one."""
        channels = {process.channel.fileno(): process for process in open_requests}
        ready = select.select(list(channels), [], [], LOOK_AGAIN_SECONDS)[0]
        for number in ready:
            process = channels[number]
            answer = process.channel.recv(agent.LONGEST_MESSAGE).decode()
            if not answer:
                raise CouldNotRun(f"process {process.number} ended without an answer: {self.describe(process)}")
            self.answers[process.number] = self.note_of(process, answer)
            process.unanswered = None
        return bool(ready)

    def note_of(self, process: Process, answer: str) -> str:
        """The note for an agent's answer, which names processes by the system's pids."""
        words = answer.split()
        if words[0] == "pid" and process.unanswered:
            self.processes[int(process.unanswered.words[1])].pid = int(words[1])
            return "ok"
        if words[0] == "held":
            words[4] = self.number_of(int(words[4]))
        return " ".join(words)

    def number_of(self, pid: int) -> str:
        """The number of the process that has a pid: of none of ours, the pid with a word before it."""
        numbers = [str(process.number) for process in self.processes.values() if process.pid == pid]
        return "-1" if pid == -1 else (numbers or [f"pid:{pid}"])[0]

    def tell(self, event: Event, process: Process) -> None:
        """Writes the notes of an event down: its own, and those of the waits that ended with it, in order of processes."""
        event.note = self.answers.pop(process.number, None)
        if event.note is None and process.unanswered:
            event.note = "waits"
        for number, note in sorted(self.answers.items()):
            event.grants[self.processes[number].ticket] = note
            self.processes[number].heed(note)
        self.answers.clear()

    def describe_hang(self, looks: dict[int, Optional[str]]) -> str:
        """Which processes neither answer nor wait."""
        hung = [self.processes[number] for number, look in looks.items() if look is None] or list(self.processes.values())
        return "; ".join(f"process {process.number} doesn't answer: {self.describe(process)}" for process in hung)

    def describe(self, process: Process) -> str:
        """The process as the system has it."""
        call = watch.read_text(f"/proc/{process.pid}/syscall").split()
        place = f", system call {call[0]}" if call and call[0].isdigit() else ""
        return f"pid {process.pid}, state {watch.state_of(process.pid or 0) or 'gone'}{place}, at '{process.unanswered}'"

    def close(self) -> None:
        """Ends all agents, and removes the files where they end. `left` then has the pids that don't, as in an uninterruptible wait."""
        first = self.processes[1].pid if 1 in self.processes else None
        pids = [process.pid for process in self.processes.values() if process.pid is not None]
        if first is not None:
            # Agent 1 hasn't been asked for its status yet, so its group's number is still its own.
            os.killpg(first, signal.SIGKILL)
        deadline = time.monotonic() + self.timing.limit
        while (running := [pid for pid in pids if not has_ended(pid)]) and time.monotonic() < deadline:
            time.sleep(LOOK_AGAIN_SECONDS)
        self.left = running
        for pid in pids:
            try:
                os.waitpid(pid, os.WNOHANG)
            except ChildProcessError:
                pass
        for process in self.processes.values():
            process.channel.close()
        try:
            if not self.left:
                guarded(lambda: shutil.rmtree(self.folder), self.timing.limit)
        except Hangs as hangs:
            self.left.append(hangs.pid)
        except FileNotFoundError:
            # The folder wasn't made.
            pass
