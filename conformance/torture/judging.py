"""Has histories judged by lockreplay, and makes of an illegal one the shortest that still shows it."""

from __future__ import annotations

import subprocess
from dataclasses import dataclass
from pathlib import Path
from typing import Optional

from harness.guard import CouldNotRun
from torture.window import STEPS, Window

LEGAL, ILLEGAL, OVER_LIMIT = 0, 3, 4


@dataclass(frozen=True)
class Verdict:
    """What the program said of a history: its status, its first line, and the number of the line that isn't possible."""

    status: int
    says: str = ""
    line: Optional[int] = None


@dataclass(frozen=True)
class HistoryJudge:
    """lockreplay, with the limit on possibilities that it gets, or its own, and for so long at most, where that is said."""

    program: Path
    limit: Optional[int] = None
    seconds: Optional[float] = None

    def judge(self, text: str) -> Verdict:
        """Judges a history; one that takes too long is over the limit. Raises CouldNotRun where the program refuses it."""
        command = [str(self.program), "--history", "--open", *(["--limit", str(self.limit)] if self.limit else [])]
        how = {"stdout": subprocess.PIPE, "stderr": subprocess.PIPE, "check": False, "timeout": self.seconds}
        try:
            ended = subprocess.run(command, input=text.encode(), **how)
        except subprocess.TimeoutExpired:
            return Verdict(OVER_LIMIT, f"not judged in {self.seconds:g} s")
        if ended.returncode not in (LEGAL, ILLEGAL, OVER_LIMIT):
            raise CouldNotRun(f"{self.program} --history ended by status {ended.returncode}: {ended.stderr.decode(errors='replace').strip()}")
        says = ended.stdout.decode().partition("\n")[0]
        words = says.split()
        line = int(words[1].rstrip(":")) if words[:1] == ["line"] else None
        return Verdict(ended.returncode, says, line)


def shorten(judge: HistoryJudge, text: str, verdict: Verdict) -> str:
    """A shorter history that isn't possible, or may not end so, as this one: each step of a window is taken where it still shows that."""
    window = Window.of_history(text, verdict.line)
    for step in STEPS:
        for shorter in step(window):
            told = judge.judge(shorter.text)
            if told.status == ILLEGAL and told.line == shorter.last_line and told.says.partition(": ")[2] == verdict.says.partition(": ")[2]:
                window = shorter
                break
    return window.text
