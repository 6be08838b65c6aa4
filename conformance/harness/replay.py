"""Runs lockreplay, which says what is right."""

from __future__ import annotations

import subprocess
from pathlib import Path

from harness.journal import Run, read_run
from harness.script import Script


class Faulty(Exception):
    """lockreplay refuses the script; what it says is the message."""


class Lockreplay:
    """The program, and what it printed for the last scripts that it was asked about."""

    REMEMBERED = 512

    def __init__(self, program: Path) -> None:
        self.program = program
        self.printed: dict[str, str] = {}

    def run(self, script: Script) -> Run:
        """What is right for the script. Raises Faulty where it is refused, and OSError where the program can't be run."""
        if script.text not in self.printed:
            if len(self.printed) >= self.REMEMBERED:
                self.printed.clear()
            self.printed[script.text] = self.ask(script.text)
        return read_run(self.printed[script.text])

    def ask(self, text: str) -> str:
        """What the program prints for a script of this text."""
        ended = subprocess.run([str(self.program)], input=text.encode(), stdout=subprocess.PIPE, stderr=subprocess.PIPE, check=False)
        if ended.returncode != 0:
            raise Faulty(ended.stderr.decode(errors="replace").strip())
        return ended.stdout.decode()
