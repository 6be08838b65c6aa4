"""A folder on a tmpfs with lockfs over it, and nothing left of it afterwards."""

from __future__ import annotations

import os
import shutil
import signal
import subprocess
import tempfile
import time
from pathlib import Path
from typing import Optional

MEMORY = Path("/dev/shm")
PATIENCE_SECONDS = 60.0
# How long lockfs may outlive its unmount until it is looked whether others have the mount, and then until it is killed: under valgrind, on a
# busy machine, it was once seen to end 37 s behind.
UNMOUNT_SECONDS = 10.0
END_SECONDS = 240.0


class CouldNotMount(Exception):
    """lockfs ended, or didn't mount in time."""


class Places:
    """The mount, and beside it a folder of the same tmpfs: as a `with`, which unmounts, ends lockfs and removes all."""

    def __init__(self, lockfs: list[str]) -> None:
        self.lockfs = lockfs
        self.folder = Path(tempfile.mkdtemp(prefix="fuse-test-", dir=MEMORY))
        # (another user passes through it)
        self.folder.chmod(0o711)
        self.mount, self.beneath, self.beside = (self.folder / name for name in ("mount", "beneath", "beside"))
        self.server: Optional[subprocess.Popen[bytes]] = None
        self.status: Optional[int] = None

    def __enter__(self) -> Places:
        for place in (self.mount, self.beneath, self.beside):
            place.mkdir()
        words = ["-f", "--log", str(self.folder / "log"), *(["-o", "allow_other"] if os.geteuid() == 0 else [])]
        self.server = subprocess.Popen([*self.lockfs, *words, str(self.beneath), str(self.mount)], start_new_session=True)
        late = time.monotonic() + PATIENCE_SECONDS
        while not self.is_mounted():
            if self.server.poll() is not None or time.monotonic() > late:
                self.clear()
                raise CouldNotMount(f"lockfs doesn't mount (status {self.server.returncode})")
            time.sleep(0.05)
        return self

    def __exit__(self, *_: object) -> None:
        self.clear()

    def is_mounted(self, process: str = "self") -> bool:
        """Whether something is mounted for a process, by the list of mounts: a look at the folder would hang where lockfs does."""
        return any(line.split()[4] == str(self.mount) for line in text_of(Path(f"/proc/{process}/mountinfo")).splitlines())

    def clear(self) -> None:
        """Unmounts as a user would; where that fails, kills lockfs and unmounts by force. Then removes the folders."""
        assert self.server
        if self.is_mounted() and not self.unmount("-u"):
            self.kill()
            self.unmount("-uz")
        for seconds, end in ((UNMOUNT_SECONDS, self.end_for_others), (END_SECONDS, self.kill_and_tell), (None, self.kill)):
            try:
                self.status = self.server.wait(seconds)
                break
            except subprocess.TimeoutExpired:
                end()
        if not self.is_mounted():
            shutil.rmtree(self.folder, ignore_errors=True)

    def end_for_others(self) -> None:
        """Ends lockfs where it outlives its unmount, since the mount is also in another mount namespace, as one that a process made
        itself in the meantime (unshare, a container): the kernel ends a mount with the last of these."""
        assert self.server
        others = [number for number in numbers_of_processes() if self.is_mounted(number)]
        if others:
            print(f"lockfs outlives its unmount: it is mounted for the processes {others} too, and is sent a SIGTERM", flush=True)
            self.server.terminate()

    def kill_and_tell(self) -> None:
        """Kills lockfs where it outlives its unmount, and tells what it was doing."""
        assert self.server
        process = Path(f"/proc/{self.server.pid}")
        told = {name: text_of(process / name) for name in ("wchan", "syscall", "stack", "status", "schedstat")}
        print(f"lockfs outlives its unmount: {told}", flush=True)
        self.kill()

    def kill(self) -> None:
        """Kills lockfs, and what it is run by: its requests then end, and with them whoever is stuck in one."""
        assert self.server
        end_group(self.server.pid)

    def unmount(self, *flags: str) -> bool:
        """Whether fusermount3 could; a mount is busy for a moment behind the end of a process that used it."""
        for _ in range(20):
            ran = subprocess.run(["timeout", "10", "fusermount3", *flags, str(self.mount)], stderr=subprocess.DEVNULL, check=False)
            if ran.returncode == 0:
                return True
            time.sleep(0.25)
        return False


def numbers_of_processes() -> list[str]:
    """The processes that there are."""
    return [path.name for path in Path("/proc").iterdir() if path.name.isdigit()]


def text_of(path: Path) -> str:
    """What stands in a file of /proc; nothing where it can't be read."""
    try:
        return path.read_text()
    except OSError:
        return ""


def end_group(leader: int) -> None:
    """Kills what is left of a step's processes."""
    try:
        os.killpg(leader, signal.SIGKILL)
    except ProcessLookupError:
        pass
