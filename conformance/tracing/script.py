"""A script's run as a log, so that what went wrong in it is told in the same words."""

from __future__ import annotations

from pathlib import Path
from typing import Optional

from harness.descriptors import Descriptors
from harness.journal import Event, Ticket
from harness.replay import Lockreplay
from harness.script import SECTION_COMMANDS, Request, Script
from tracing.log import Call, Log

COMMANDS = {"getlk": "F_GETLK", "setlk": "F_SETLK", "setlkw": "F_SETLKW", "ogetlk": "F_OFD_GETLK", "osetlk": "F_OFD_SETLK", "osetlkw": "F_OFD_SETLKW"}
KINDS = {"r": "F_RDLCK", "w": "F_WRLCK", "u": "F_UNLCK"}
OPERATIONS = {"sh": "LOCK_SH", "ex": "LOCK_EX", "un": "LOCK_UN", "nb": "LOCK_NB"}
FLAGS = {"r": "O_RDONLY", "w": "O_WRONLY", "rw": "O_RDWR"}


class ScriptLog:
    """Makes a log of the events of a script's run. The place of an event is its number, and its line that of the script's request."""

    def __init__(self, script: Script) -> None:
        self.log = Log(script.name)
        self.descriptors = Descriptors()
        self.waiting: dict[Ticket, Call] = {}
        counts: dict[int, int] = {}
        self.lines: dict[Ticket, int] = {}
        for request in script.requests:
            counts[request.process] = counts.get(request.process, 0) + 1
            self.lines[(request.process, counts[request.process])] = request.line

    def add(self, place: int, event: Event) -> None:
        """Takes in an event: its call, the ends of processes, and the waits that ended with it."""
        request = event.request
        call = Call(request.process, self.lines[event.ticket], None, *self.words(event), begin=place)
        if event.ends is not None:
            what = f"killed by process {request.process}" if request.command == "kill" else "exited"
            self.log.calls.append(Call(event.ends, call.line, None, "ended", what, begin=place, end=place, value=0))
        elif request.command not in SECTION_COMMANDS:
            self.log.calls.append(call)
        if event.note == "waits":
            self.waiting[event.ticket] = call
        else:
            finish(call, place, event.note)
        for ticket, note in event.grants.items():
            if ticket in self.waiting:
                finish(self.waiting.pop(ticket), place, note)
        self.descriptors.follow(event)

    def words(self, event: Event) -> tuple[str, str]:
        """The name of a call, and its arguments as strace writes them."""
        request = event.request
        if request.command == "open":
            return "openat", f'AT_FDCWD, "/file/{request.words[1]}", {FLAGS[request.words[2]]}'
        if request.command == "flock":
            return "flock", f"{request.words[1]}, {'|'.join(OPERATIONS[word] for word in request.words[2:])}"
        if request.lock_call is not None:
            return "fcntl", f"{request.descriptor}, {COMMANDS[request.command]}, {{{self.lock(event, request)}}}"
        return request.command, ", ".join(request.words[1:])

    def lock(self, event: Event, request: Request) -> str:
        """The struct flock of a lock command, counted from the beginning of the file; of a get that was told a lock it is that lock."""
        call = request.lock_call
        told = str(event.note).split()
        if call is None:
            return ""
        if told[0] == "held":
            return f"l_type={KINDS[told[1]]}, l_whence=SEEK_SET, l_start={told[2]}, l_len={told[3]}, l_pid={told[4]}"
        description = self.descriptors.of(request)
        start = call.start + (self.descriptors.base(call, description) if description else 0)
        kind = "F_UNLCK" if told[0] == "free" else KINDS[call.kind]
        return f"l_type={kind}, l_whence=SEEK_SET, l_start={start}, l_len={call.length}"


def finish(call: Call, place: int, note: Optional[str]) -> None:
    """Gives a call its answer."""
    words = (note or "ok").split()
    call.end = place
    if words[0].startswith("E"):
        call.value, call.error = -1, words[0]
    else:
        call.value = int(words[1]) if words[0] == "fd" else int(call.arguments) if call.name == "fork" else 0
        call.shown = call.arguments.split('"')[1] if call.name == "openat" else ""


def log_of_script(path: Path, lockreplay: Lockreplay) -> Log:
    """The log of a script's run. Raises harness.replay.Faulty where the script is refused."""
    script = Script.parse(path.name, path.read_text())
    made = ScriptLog(script)
    for place, event in enumerate(lockreplay.run(script).events, 1):
        made.add(place, event)
    made.log.places = len(made.log.calls) + 1
    return made.log
