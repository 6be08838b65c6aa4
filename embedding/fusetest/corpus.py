"""The corpus of conformance/, and scripts made at random, by `locktest`, whose verdicts are those of lockreplay."""

from __future__ import annotations

import json
import os
import subprocess
from pathlib import Path

from fusetest.observe import see
from harness import filesystem

LOCKTEST = Path(__file__).resolve().parent.parent.parent / "conformance" / "locktest"
RANDOM = 20


def scripts(path: Path) -> None:
    """Runs each script in the folder; one that isn't as defined, known or skipped differs."""
    run_locktest(path)


def random_scripts(path: Path) -> None:
    """Runs scripts made at random."""
    run_locktest(path, "--random", str(RANDOM))


def run_locktest(path: Path, *words: str) -> None:
    """Sees how each script went. What no FUSE server can help is known on a mount alone."""
    on_fuse = filesystem.find_mount(path.parent)[0].startswith("fuse")
    common = ["--json", "--keep-going", "--lockreplay", os.environ["LOCKREPLAY"], *(["--known", "fuse"] if on_fuse else [])]
    ran = subprocess.run([str(LOCKTEST), *common, *words, str(path.parent)], stdout=subprocess.PIPE, text=True, check=False)
    for line in ran.stdout.splitlines():
        told = json.loads(line)
        if "script" in told:
            see(told["script"], "differs" if told["verdict"] in ("differs", "not run") else "obeys", "obeys")
