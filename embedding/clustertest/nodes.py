"""Corosync nodes on this machine, each in a network namespace of its own, joined by a bridge in one more; and lockfs on each of them over one folder."""

from __future__ import annotations

import os
import re
import shutil
import signal
import subprocess
import tempfile
import time
from pathlib import Path
from typing import Callable, Optional

MEMORY = Path("/dev/shm")
GROUP = "dehokuna-test"
# Totem's token; by `token_coefficient: 0` it is the same however many nodes there are. A node then sees that it is cut off within DETECTION.
TOKEN_MS = 1000
DETECTION_S = 2.2
GRACE_MS = 2500
CONFIGURATION = """totem {{
  version: 2
  cluster_name: dehokuna
  transport: {transport}
  token: {token}
  token_coefficient: 0
  keyfile: {keyfile}
  crypto_cipher: none
  crypto_hash: none
}}
quorum {{
  provider: corosync_votequorum
}}
system {{
  state_dir: {state}
  sched_rr: {realtime}
  move_to_root_cgroup: no
}}
logging {{
  to_stderr: yes
  to_syslog: no
  timestamp: hires
}}
nodelist {{
{nodes}}}
"""
NODE = "  node {{\n    ring0_addr: 10.77.0.{number}\n    nodeid: {node}\n    name: node{number}\n  }}\n"


DESCRIPTION = re.compile(r"node \d+, view (?P<view>[\d.]+), (?P<standing>[a-z ()]+), members(?P<members>[ \d]*), applied (?P<applied>\d+) of "
                         r"(?P<length>\d+), log (?P<log>[0-9a-f]+), table (?P<table>[0-9a-f]+)")


class Failed(Exception):
    """A test saw what mustn't be, or didn't see in time what must."""


def require(is_so: bool, otherwise: str) -> None:
    """Fails where it isn't so."""
    if not is_so:
        raise Failed(otherwise)


def wait_until(is_so: Callable[[], bool], seconds: float, otherwise: str) -> float:
    """Waits until it is so; how long that took."""
    begun = time.monotonic()
    while not is_so():
        require(time.monotonic() - begun < seconds, f"{otherwise}, within {seconds:.0f} s")
        time.sleep(0.01)
    return time.monotonic() - begun


def call(*words: object) -> None:
    """Runs a command that doesn't fail."""
    subprocess.run([str(word) for word in words], check=True, stdout=subprocess.DEVNULL)


class Nodes:
    """The nodes from 1 on; as a `with`, behind which nothing is left."""

    # Of all nodes: what their namespaces' names begin with, their folders, and corosyncs that have ended.
    prefix = f"dk{os.getpid() % 100000}n"
    works: list[Path] = []
    ended: list[int] = []

    def __init__(self, lockfs: str, count: int = 3, transport: str = "knet", numbers: Optional[dict[int, int]] = None, realtime: bool = True,
                 folder: Optional[Path] = None) -> None:
        self.lockfs, self.count, self.transport, self.realtime = lockfs, count, transport, realtime
        self.numbers = numbers or {}
        self.work = Path(tempfile.mkdtemp(prefix="cluster-test-", dir=MEMORY))
        self.folder = folder or self.work / "folder"
        self.corosyncs: dict[int, subprocess.Popen[bytes]] = {}
        self.servers: dict[int, subprocess.Popen[bytes]] = {}
        self.works.append(self.work)

    def __enter__(self) -> Nodes:
        self.folder.mkdir(exist_ok=True)
        self.work.chmod(0o711)
        (self.work / "key").write_bytes(os.urandom(256))
        try:
            self.make_networks()
            for node in self.all():
                self.start_corosync(node)
            for node in self.all():
                wait_until(lambda: self.is_quorate(node), 30, f"corosync of node {node} has no quorum")
        except BaseException:
            self.clear()
            raise
        return self

    def __exit__(self, *_: object) -> None:
        self.clear()

    def all(self) -> range:
        """The nodes."""
        return range(1, self.count + 1)

    # -- networks and corosync

    def make_networks(self) -> None:
        """A bridge, and a namespace for each node with one end of a cable to it."""
        switch = self.prefix + "s"
        call("ip", "netns", "add", switch)
        call("ip", "-n", switch, "link", "add", "name", "br0", "type", "bridge")
        call("ip", "-n", switch, "link", "set", "br0", "up")
        for node in self.all():
            name = f"{self.prefix}{node}"
            call("ip", "netns", "add", name)
            call("ip", "-n", name, "link", "set", "lo", "up")
            call("ip", "-n", switch, "link", "add", f"p{node}", "type", "veth", "peer", "name", "eth0", "netns", name)
            call("ip", "-n", switch, "link", "set", f"p{node}", "master", "br0", "up")
            call("ip", "-n", name, "addr", "add", f"10.77.0.{node}/24", "dev", "eth0")
            call("ip", "-n", name, "link", "set", "eth0", "up")

    def inside(self, node: int, *words: object) -> list[str]:
        """The command line of a program in the node's network."""
        return ["nsenter", f"--net=/run/netns/{self.prefix}{node}", *(str(word) for word in words)]

    def configuration(self, node: int) -> str:
        """The node's corosync.conf."""
        listed = "".join(NODE.format(number=number, node=self.numbers.get(number, number)) for number in self.all())
        return CONFIGURATION.format(transport=self.transport, token=TOKEN_MS, keyfile=self.work / "key", state=self.work / str(node) / "state",
                                    realtime="yes" if self.realtime else "no", nodes=listed)

    def start_corosync(self, node: int) -> None:
        """Starts corosync on the node, which has a /run of its own."""
        place = self.work / str(node)
        for name in ("state", "run", "mount"):
            (place / name).mkdir(parents=True, exist_ok=True)
        (place / "corosync.conf").write_text(self.configuration(node))
        line = f"mount --bind {place}/run /run && exec corosync -f -c {place}/corosync.conf"
        with open(place / "corosync.log", "ab") as log:
            self.corosyncs[node] = subprocess.Popen(self.inside(node, "unshare", "-m", "sh", "-c", line), stdin=subprocess.DEVNULL, stdout=log, stderr=log,
                                                    start_new_session=True)

    def kill_corosync(self, node: int) -> None:
        """Kills corosync on the node."""
        process = self.corosyncs.pop(node)
        self.ended.append(process.pid)
        process.kill()
        process.wait()

    def is_quorate(self, node: int) -> bool:
        """Whether the node's corosync has all votes."""
        ran = subprocess.run(self.inside(node, "timeout", "5", "corosync-quorumtool", "-s"), capture_output=True, text=True, check=False)
        return f"Total votes:      {self.count}" in ran.stdout

    def cut(self, node: int) -> None:
        """Pulls the node's cable."""
        call("ip", "-n", self.prefix + "s", "link", "set", f"p{node}", "down")

    def join(self, node: int) -> None:
        """Plugs it in again."""
        call("ip", "-n", self.prefix + "s", "link", "set", f"p{node}", "up")

    # -- lockfs

    def mount(self, node: int) -> Path:
        """Where the node's lockfs is mounted."""
        return self.work / str(node) / "mount"

    def log_of(self, node: int) -> Path:
        """What the node's lockfs says."""
        return self.work / str(node) / "lockfs.log"

    def start(self, node: int, *options: object, environment: Optional[dict[str, str]] = None) -> None:
        """Starts lockfs on the node."""
        words = [self.lockfs, "-f", "--cluster", GROUP, "--grace", GRACE_MS, "-o", "allow_other", *options, self.folder, self.mount(node)]
        self.spawn(node, words, environment)
        wait_until(lambda: self.is_mounted(node) or self.servers[node].poll() is not None, 20, f"lockfs of node {node} isn't mounted")
        require(self.is_mounted(node), f"lockfs of node {node} ended: {self.told(node)[-300:]}")

    def start_witness(self, node: int) -> None:
        """Starts a witness on the node."""
        self.spawn(node, [self.lockfs, "--cluster", GROUP, "--witness", "--grace", GRACE_MS], None)

    def spawn(self, node: int, words: list[object], environment: Optional[dict[str, str]]) -> None:
        """Runs a lockfs of the node."""
        with open(self.log_of(node), "ab") as log:
            self.servers[node] = subprocess.Popen(self.inside(node, *words), stdin=subprocess.DEVNULL, stdout=log, stderr=log, start_new_session=True,
                                                  env={**os.environ, **(environment or {})})

    def start_all(self) -> None:
        """Starts lockfs on all nodes, and waits until each grants."""
        for node in self.all():
            self.start(node)
        for node in self.all():
            self.wait_for_grants(node)

    def is_mounted(self, node: int) -> bool:
        """Whether lockfs is mounted there."""
        return any(line.split()[4] == str(self.mount(node)) for line in Path("/proc/self/mountinfo").read_text().splitlines())

    def grants(self, node: int) -> bool:
        """Whether the node grants a lock that nobody else wants."""
        name = self.mount(node) / f"grants.{node}"
        return subprocess.run(["timeout", "-s", "INT", "-k", "1", "1", "flock", "-n", name, "true"], stderr=subprocess.DEVNULL, check=False).returncode == 0

    def wait_for_grants(self, node: int, seconds: float = 30) -> float:
        """Waits until the node grants."""
        return wait_until(lambda: self.grants(node), seconds, f"node {node} grants nothing: {self.told(node)[-400:]}")

    def kill(self, node: int) -> None:
        """Kills the node's lockfs, and takes its mount away."""
        process = self.servers.pop(node)
        process.kill()
        process.wait()
        subprocess.run(["umount", "-l", self.mount(node)], stderr=subprocess.DEVNULL, check=False)

    def stop(self, node: int) -> int:
        """Ends the node's lockfs by a SIGTERM; its status."""
        process = self.servers.pop(node)
        process.terminate()
        return process.wait(20)

    def told(self, node: int) -> str:
        """What the node's lockfs said."""
        return self.log_of(node).read_text(errors="replace") if self.log_of(node).exists() else ""

    def describe(self, node: int) -> dict[str, str]:
        """What the node's lockfs says of itself."""
        before = len(self.told(node))
        self.servers[node].send_signal(signal.SIGUSR1)
        wait_until(lambda: bool(DESCRIPTION.search(self.told(node), before)), 5, f"lockfs of node {node} describes nothing")
        found = DESCRIPTION.search(self.told(node), before)
        assert found
        return found.groupdict()

    def wait_for_agreement(self, nodes: list[int], seconds: float = 30) -> None:
        """Waits until these nodes have one table, with nothing under way."""
        def agree() -> bool:
            seen = [self.describe(node) for node in nodes]
            is_still = all(one["standing"] == "in view" and one["applied"] == one["length"] for one in seen)
            return is_still and len({(one["view"], one["log"], one["table"]) for one in seen}) == 1
        wait_until(agree, seconds, f"nodes {nodes} have no table in common")

    # -- the end

    def clear(self) -> None:
        """Ends all, and removes what corosync leaves."""
        for node in list(self.servers):
            self.servers[node].send_signal(signal.SIGCONT)
            self.kill(node)
        for node in list(self.corosyncs):
            self.kill_corosync(node)
        for node in self.all():
            subprocess.run(["umount", "-l", self.mount(node)], stderr=subprocess.DEVNULL, check=False)
        for name in [f"{self.prefix}{node}" for node in self.all()] + [self.prefix + "s"]:
            subprocess.run(["ip", "netns", "del", name], stderr=subprocess.DEVNULL, check=False)
        for process in self.ended:
            for left in [*MEMORY.glob(f"qb-{process}-*"), *MEMORY.glob(f"qb-corosync-{process}-*")]:
                shutil.rmtree(left) if left.is_dir() else left.unlink(missing_ok=True)
        shutil.rmtree(self.work, ignore_errors=True)
