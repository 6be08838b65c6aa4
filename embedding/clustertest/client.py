"""A process that locks, reads and writes on a mount as it is told, line by line, and prints what came of each: `python3 -m clustertest.client`."""

from __future__ import annotations

import errno
import fcntl
import os
import queue
import subprocess
import sys
import threading
import time
from pathlib import Path
from typing import Optional

from clustertest.nodes import Failed, require


class Client:
    """Such a process, by whom a file is open as numbers from 0 on."""

    def __init__(self) -> None:
        self.process = subprocess.Popen([sys.executable, "-m", "clustertest.client"], stdin=subprocess.PIPE, stdout=subprocess.PIPE, text=True, bufsize=1)
        self.answers: queue.Queue[tuple[str, float]] = queue.Queue()
        threading.Thread(target=self.read, daemon=True).start()
        self.at = 0.0

    def __enter__(self) -> Client:
        return self

    def __exit__(self, *_: object) -> None:
        self.end()

    def read(self) -> None:
        """Takes the answers up, each with the time."""
        assert self.process.stdout
        for line in self.process.stdout:
            self.answers.put((line.strip(), time.time()))

    def tell(self, *words: object) -> None:
        """Has it do something."""
        assert self.process.stdin
        self.process.stdin.write(" ".join(str(word) for word in words) + "\n")
        self.process.stdin.flush()

    def answer(self, seconds: float = 20) -> str:
        """What came of the last one: "ok", what was read, or the name of the error; when that was is `at`."""
        try:
            text, self.at = self.answers.get(timeout=seconds)
            return text
        except queue.Empty:
            raise Failed(f"no answer within {seconds:.0f} s") from None

    def is_answered(self) -> bool:
        """Whether there is an answer to be taken."""
        return not self.answers.empty()

    def ask(self, *words: object, seconds: float = 20) -> str:
        """Has it do something, and waits for what comes of it."""
        self.tell(*words)
        return self.answer(seconds)

    def do(self, *words: object, seconds: float = 20) -> None:
        """The same, where nothing else than success will do."""
        told = self.ask(*words, seconds=seconds)
        require(told == "ok", f"{' '.join(str(word) for word in words)}: {told}")

    def end(self) -> None:
        """Kills it; it ends once what it waits for is answered."""
        self.process.kill()


def open_client(path: Path) -> Client:
    """A process that has the file open, as number 0."""
    client = Client()
    client.do("open", path)
    return client


KINDS = {"ex": fcntl.LOCK_EX, "sh": fcntl.LOCK_SH, "un": fcntl.LOCK_UN}


def act(files: list[int], words: list[str]) -> Optional[str]:
    """Does one thing."""
    what = words[0]
    if what == "open":
        files.append(os.open(words[1], os.O_RDWR | os.O_CREAT, 0o666))
    elif what == "close":
        os.close(files[int(words[1])])
    elif what in ("lock", "try"):
        number, kind, start, length = words[1:]
        flags = KINDS[kind] | (fcntl.LOCK_NB if what == "try" else 0)
        fcntl.lockf(files[int(number)], flags, int(length), int(start))
    elif what == "locks":
        number, count = int(words[1]), int(words[2])
        for place in range(count):
            fcntl.lockf(files[number], fcntl.LOCK_EX, 1, 2 * place)
    elif what in ("flock", "flocknb"):
        fcntl.flock(files[int(words[1])], KINDS[words[2]] | (fcntl.LOCK_NB if what == "flocknb" else 0))
    elif what == "write":
        os.pwrite(files[int(words[1])], words[2].encode(), 0)
    elif what == "read":
        return os.pread(files[int(words[1])], 100, 0).decode()
    elif what == "unlink":
        os.unlink(words[1])
    return None


def main() -> None:
    """Reads lines until there are none."""
    files: list[int] = []
    for line in sys.stdin:
        try:
            told = act(files, line.split()) or "ok"
        except OSError as error:
            told = "EDEADLK" if error.errno == errno.EDEADLK else errno.errorcode.get(error.errno or 0, str(error.errno))
        print(told, flush=True)


if __name__ == "__main__":
    main()
