"""Tells rounds: as TAP, or as JSON, one object a line."""

from __future__ import annotations

import json
from collections import Counter
from dataclasses import dataclass, field
from pathlib import Path
from typing import Any, Optional

from harness import report
from torture.judging import ILLEGAL, LEGAL, Verdict

KINDS = {LEGAL: "legal", ILLEGAL: "illegal"}


@dataclass
class Round:
    """A round that was judged: its number and seed, how many processes and requests it had, the verdict, and the shortest window where it is
    illegal."""

    number: int
    seed: int
    processes: int
    requests: int
    verdict: Verdict
    window: Optional[str] = None

    @property
    def kind(self) -> str:
        return KINDS.get(self.verdict.status, "not judged: over the limit")


@dataclass
class Totals:
    """How many rounds ended how, how many requests there were, which answers were taken for errors, where the shortest window is, and why the
    run was stopped, if it was."""

    kinds: Counter[str] = field(default_factory=Counter)
    stopped: str = ""
    requests: int = 0
    words: Counter[str] = field(default_factory=Counter)
    odd: Counter[tuple[str, str]] = field(default_factory=Counter)
    window: Optional[Path] = None

    def count(self, told: Round) -> None:
        self.kinds[told.kind] += 1
        self.requests += told.requests

    @property
    def status(self) -> int:
        """The exit status: 1 where a round is illegal, 2 where something could not be run or nothing was judged, else 0."""
        return 1 if self.kinds["illegal"] else 2 if self.stopped or not self.kinds["legal"] else 0

    def __str__(self) -> str:
        kinds = ", ".join(f"{count} {kind}" for kind, count in sorted(self.kinds.items()))
        words = ", ".join(f"{word} {count}" for word, count in sorted(self.words.items()))
        odd = "".join(f"; {call} was told {error} {count} times" for (call, error), count in sorted(self.odd.items()))
        kept = f"; the shortest illegal window is in {self.window}" if self.window else ""
        return f"{sum(self.kinds.values())} rounds: {kinds or 'none'}; {self.requests} requests ({words}){odd}{kept}"


class TapReport:
    """Tells as TAP, version 13, a test for each round."""

    def begin(self, places: list[str]) -> None:
        print("TAP version 13")
        print("".join(f"# {place}\n" for place in places), end="", flush=True)

    def tell(self, told: Round) -> None:
        """Tells a round."""
        fine = told.kind != "illegal"
        directive = "" if told.kind in KINDS.values() else f" # SKIP {told.kind}"
        print(f"{'ok' if fine else 'not ok'} {told.number} - {told.requests} requests of {told.processes} processes{directive}")
        if not fine:
            print(f"  ---\n  says: {json.dumps(told.verdict.says)}\n  seed: {told.seed}\n  window: |")
            print("".join(f"    {line}\n" for line in (told.window or "").splitlines()), end="")
            print("  ...")
        print(end="", flush=True)

    def end(self, totals: Totals) -> None:
        print(f"1..{sum(totals.kinds.values())}\n# {totals}", flush=True)

    def stop(self, why: str) -> None:
        """Tells that no more rounds are run."""
        print(f"Bail out! {why}", flush=True)


class JsonReport(report.JsonReport):
    """Tells as JSON: an object for the directories, one for each round, and one for the totals."""

    def begin(self, places: list[str]) -> None:  # type: ignore[override]
        self.write({"directories": places})

    def tell(self, told: Round) -> None:  # type: ignore[override]
        """Tells a round."""
        found: dict[str, Any] = {"round": told.number, "seed": told.seed, "processes": told.processes, "requests": told.requests}
        self.write({**found, "verdict": told.kind, "says": told.verdict.says or None, "window": told.window})

    def end(self, totals: Totals) -> None:  # type: ignore[override]
        odd = {f"{call} {error}": count for (call, error), count in sorted(totals.odd.items())}
        kept = str(totals.window) if totals.window else None
        self.write({"totals": dict(totals.kinds), "requests": totals.requests, "words": dict(totals.words), "errors": odd, "window": kept})
