"""Tells verdicts: as TAP, which `prove` and CI systems read, or as JSON, one object a line."""

from __future__ import annotations

import json
from collections import Counter
from dataclasses import dataclass, field
from typing import Any, Optional

from harness.account import Finding
from harness.judge import AS_DEFINED, DIFFERS, KNOWN, NOT_RUN, SKIPPED, Verdict
from harness.script import Script


@dataclass
class Totals:
    """How many scripts went how, how often each known difference was found, and how many requests weren't compared."""

    kinds: Counter[str] = field(default_factory=Counter)
    names: Counter[str] = field(default_factory=Counter)
    left_out: int = 0

    def count(self, verdict: Verdict) -> None:
        self.kinds[verdict.kind] += 1
        self.names.update(finding.name for finding in verdict.findings)
        self.left_out += verdict.left_out

    @property
    def status(self) -> int:
        """The exit status: 1 where something differs, 2 where something couldn't be run, else 0."""
        return 1 if self.kinds[DIFFERS] else 2 if self.kinds[NOT_RUN] else 0

    def __str__(self) -> str:
        known = ", ".join(f"{name} {count}" for name, count in sorted(self.names.items()))
        parts = [f"{sum(self.kinds.values())} scripts: {self.kinds[AS_DEFINED]} as defined"]
        parts.append(f"{self.kinds[KNOWN]} with known differences only" + (f" ({known})" if known else ""))
        parts += [f"{self.kinds[kind]} {kind}" for kind in (SKIPPED, DIFFERS, NOT_RUN)]
        return ", ".join(parts) + f"; {self.left_out} requests not compared"


def told(verdict: Verdict, finding: Finding) -> dict[str, Any]:
    """A difference: the script's line, what was asked, what the system answered, and what is right."""
    event = verdict.journal[finding.moment]
    shown = {"line": event.request.line, "request": str(event.request), "answered": str(event), "right": finding.right}
    return {"known": finding.name, **shown} if finding.name else shown


class TapReport:
    """Tells as TAP, version 13. `journals` says whether each journal is told, or only those that show a difference."""

    def __init__(self, journals: bool) -> None:
        self.journals = journals
        self.number = 0

    def begin(self, place: str, count: int) -> None:
        print(f"TAP version 13\n1..{count}\n# {place}", flush=True)

    def tell(self, script: Script, verdict: Verdict, shrunk: Optional[Script] = None) -> None:
        """Tells a script's verdict."""
        self.number += 1
        fine = verdict.kind in (AS_DEFINED, KNOWN, SKIPPED)
        if self.journals or not fine:
            self.tell_journal(script, verdict)
        print(f"{'ok' if fine else 'not ok'} {self.number} - {script.name}{self.directive(verdict)}")
        if not fine:
            self.tell_block(script, verdict, shrunk)
        print(end="", flush=True)

    def tell_journal(self, script: Script, verdict: Verdict) -> None:
        print(f"# {script.name}: {script.head}")
        for event in verdict.journal:
            print(f"#   {event}")

    def directive(self, verdict: Verdict) -> str:
        """What stands behind the name: which known differences there are, or why the script was skipped."""
        if verdict.kind == SKIPPED:
            return f" # SKIP {verdict.reason}"
        if verdict.kind != KNOWN:
            return ""
        names = ", ".join(dict.fromkeys(finding.name for finding in verdict.findings))
        return f" # SKIP known: {names}" + (f" ({verdict.left_out} requests not compared)" if verdict.left_out else "")

    def tell_block(self, script: Script, verdict: Verdict, shrunk: Optional[Script]) -> None:
        """Tells what is wrong, as a YAML block."""
        print("  ---")
        if script.head:
            print(f"  shows: {json.dumps(script.head)}")
        if verdict.difference:
            for name, value in told(verdict, verdict.difference).items():
                print(f"  {name}: {json.dumps(value)}")
        if verdict.reason:
            print(f"  could not run: {json.dumps(verdict.reason)}")
        if shrunk:
            print("  shortest script found that differs: |")
            for line in shrunk.text.splitlines():
                print(f"    {line}")
        print("  ...")

    def end(self, totals: Totals) -> None:
        print(f"# {totals}", flush=True)

    def stop(self, why: str) -> None:
        """Tells that no more scripts are run."""
        print(f"Bail out! {why}", flush=True)


class JsonReport:
    """Tells as JSON: an object for the folder, one for each script, and one for the totals, each on a line."""

    def begin(self, place: str, count: int) -> None:
        self.write({"directory": place, "scripts": count})

    def tell(self, script: Script, verdict: Verdict, shrunk: Optional[Script] = None) -> None:
        """Tells a script's verdict."""
        self.write(
            {
                "script": script.name,
                "shows": script.head,
                "verdict": verdict.kind,
                "journal": [str(event) for event in verdict.journal],
                "known": [told(verdict, finding) for finding in verdict.findings],
                "difference": told(verdict, verdict.difference) if verdict.difference else None,
                "not_compared": verdict.left_out,
                "reason": verdict.reason,
                "shrunk": shrunk.text if shrunk else None,
            }
        )

    def end(self, totals: Totals) -> None:
        self.write({"totals": dict(totals.kinds), "known": dict(totals.names), "not_compared": totals.left_out})

    def stop(self, why: str) -> None:
        """Tells that no more scripts are run."""
        self.write({"stopped": why})

    def write(self, value: dict[str, Any]) -> None:
        print(json.dumps(value), flush=True)
