"""An agent: a real process that carries out the requests of one process of a script, one at a time, as it is told by the host.

It has no descriptors but those that its requests made, and its channels to the host, which stand above all that a script can
reach. It is made by fork from the host or, for a script's `fork`, from another agent, so that descriptors are shared as the system
shares them. A child finds its own channel among those that its parent has.
"""

from __future__ import annotations

import os
import resource
import signal
import sys
from typing import Optional

from harness import calls

LONGEST_MESSAGE = 4096
# The host has few descriptors: none of them stands so far above the channels.
ABOVE_CHANNELS = 4096
# What ends a wait with EINTR: Python's handlers are set without SA_RESTART.
SIGNAL = signal.SIGUSR1


class Agent:
    """What one agent knows: its channel, and after how many seconds it ends by itself, should the host have died before."""

    def __init__(self, channel: int, lifetime: int) -> None:
        self.channel = channel
        self.lifetime = lifetime

    def serve(self) -> None:
        """Carries out what comes through the channel, until the host closes it. Never returns."""
        try:
            signal.alarm(self.lifetime)
            while message := os.read(self.channel, LONGEST_MESSAGE):
                note = self.carry_out(message.decode().split("\0"))
                if note is not None:
                    os.write(self.channel, note.encode())
        finally:
            # No trace may be written: descriptor 2 may be a file of the script's.
            os._exit(0)

    def carry_out(self, words: list[str]) -> Optional[str]:
        """Carries one request out; its note, or None in a child that was just made."""
        try:
            return getattr(self, f"do_{words[0]}")(*words[1:])
        except OSError as refused:
            return calls.error_name(refused.errno or 0)

    def do_open(self, path: str, access: str) -> str:
        # Python would set O_CLOEXEC alone, which no lock looks at.
        return f"fd {os.open(path, calls.ACCESS[access])}"

    def do_dup(self, descriptor: str) -> str:
        return f"fd {os.dup(calls.as_int(int(descriptor)))}"

    def do_dup2(self, descriptor: str, to: str) -> str:
        return f"fd {os.dup2(calls.as_int(int(descriptor)), calls.as_int(int(to)))}"

    def do_close(self, descriptor: str) -> str:
        os.close(calls.as_int(int(descriptor)))
        return "ok"

    def do_seek(self, descriptor: str, offset: str) -> str:
        os.lseek(calls.as_int(int(descriptor)), int(offset), os.SEEK_SET)
        return "ok"

    def do_resize(self, descriptor: str, size: str) -> str:
        os.ftruncate(calls.as_int(int(descriptor)), int(size))
        return "ok"

    def do_lock(self, command: str, descriptor: str, kind: str, whence: str, start: str, length: str, pid: str) -> str:
        return calls.lock(command, int(descriptor), kind, whence, int(start), int(length), int(pid))

    def do_flock(self, descriptor: str, operation: str, at_once: str = "") -> str:
        return calls.flock(int(descriptor), operation, at_once == "nb")

    def do_fork(self, channel: str) -> Optional[str]:
        child = os.fork()
        if child:
            return f"pid {child}"
        self.channel = int(channel)
        signal.alarm(self.lifetime)
        return None

    def do_kill(self, pid: str, number: str) -> str:
        os.kill(int(pid), int(number))
        return "ok"

    def do_exit(self) -> str:
        os._exit(0)


def ready_process(descriptors: int, channels: list[int]) -> None:
    """Makes this process one in which a script's process 1 can begin: no descriptor below the channels, and as many as the limits say."""
    last = 0
    for channel in sorted(channels):
        os.closerange(last, channel)
        last = channel + 1
    os.closerange(last, last + ABOVE_CHANNELS)
    hard = resource.getrlimit(resource.RLIMIT_NOFILE)[1]
    resource.setrlimit(resource.RLIMIT_NOFILE, (descriptors, hard))
    # A child that has ended must be gone, as a script's process is: so it isn't kept for a parent that never asks.
    signal.signal(signal.SIGCHLD, signal.SIG_IGN)
    signal.signal(SIGNAL, lambda *_: None)
    for number in (signal.SIGTERM, signal.SIGHUP, signal.SIGINT):
        signal.signal(number, signal.SIG_DFL)


def start(descriptors: int, channels: list[int], channel: int, lifetime: int) -> int:
    """Makes the agent of a script's process 1, in a process group of its own; its pid."""
    sys.stdout.flush()
    sys.stderr.flush()
    pid = os.fork()
    if pid:
        return pid
    try:
        os.setpgid(0, 0)
        ready_process(descriptors, channels)
        Agent(channel, lifetime).serve()
    finally:
        os._exit(1)
