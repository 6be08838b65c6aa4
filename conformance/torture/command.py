"""The command line of locktorture."""

from __future__ import annotations

import argparse
import itertools
import signal
import sys
import time
from concurrent.futures import Future, ThreadPoolExecutor
from dataclasses import dataclass, field
from pathlib import Path
from typing import Optional, Union

from harness import filesystem
from harness.command import PROGRAM, program_of, stop, why
from harness.guard import CouldNotRun
from torture.history import Manner, Writer
from torture.judging import ILLEGAL, HistoryJudge, Verdict, shorten
from torture.report import JsonReport, Round, TapReport, Totals
from torture.rounds import Keeper, Plan

# A round, its history, and what will be said of it.
Judged = tuple[Round, str, "Future[Verdict]"]

DESCRIPTION = """Has processes race for locks on files of a directory, or of several mounts of one folder, and judges by lockreplay whether there
was a legal order. Prints TAP; the status is 0, 1 where a round is illegal, and 2 where something could not be run."""
# Of one client in a round. On FUSE a description's release is open to the end of the round, and each that is open doubles what may be: so rounds
# are short there, and most closes come behind unlocks.
REQUESTS, REQUESTS_ON_FUSE = 100, 15
TIDY_ON_FUSE = 90
# Rounds whose judging isn't over.
AHEAD = 4


def parser() -> argparse.ArgumentParser:
    """What the command line may say."""
    made = argparse.ArgumentParser(prog="locktorture", description=DESCRIPTION)
    made.add_argument("directories", metavar="DIR", type=Path, nargs="+", help="a directory of the file system; several are mounts of one folder")
    made.add_argument("--clients", metavar="N", type=int, default=8, help="how many processes there are at a time, at most (8)")
    made.add_argument("--seconds", metavar="S", type=float, default=10.0, help="for how long new rounds are begun (10)")
    made.add_argument("--seed", metavar="K", type=int, default=1, help="by which the processes choose what they ask (1)")
    made.add_argument("--requests", metavar="R", type=int, help="how many a round has, for all its processes")
    made.add_argument("--only", choices=("fcntl", "flock"), help="ask for byte locks alone, or for flock locks alone: where the two meet, as on NFS")
    made.add_argument("--patience", metavar="SECONDS", type=float, default=3.0, help="how long nothing may move until a round is over (3)")
    made.add_argument("--limit", metavar="N", type=int, help="how many possibilities lockreplay may keep")
    made.add_argument("--judging", metavar="SECONDS", type=float, help="how long a round may be judged (as long as it takes)")
    made.add_argument("--keep-going", action="store_true", help="go on behind a round that is illegal")
    made.add_argument("--keep", metavar="FILE", type=Path, default=Path("locktorture-window"), help="where the shortest illegal window goes")
    made.add_argument("--save", metavar="FOLDER", type=Path, help="keep all histories there, by the numbers of their rounds")
    made.add_argument("--json", action="store_true", help="print JSON, one object a line, instead of TAP")
    made.add_argument("--lockreplay", metavar="PATH", type=Path, help="the program; also by the environment's LOCKREPLAY")
    return made


@dataclass
class Torture:
    """A run: what a round is, how its history is written and judged, and what came of it."""

    plan: Plan
    manner: Manner
    judge: HistoryJudge
    seed: int
    keep: Path
    save: Optional[Path]
    keeps_going: bool
    report: Union[TapReport, JsonReport]
    totals: Totals = field(default_factory=Totals)
    shortest: Optional[int] = None

    def run(self, keeper: Keeper, seconds: float) -> None:
        """Runs rounds until the time is over or, but where it keeps going, one is illegal; each is judged while others run."""
        until = time.monotonic() + seconds
        judged: list[Judged] = []
        numbers = itertools.count(1)
        with ThreadPoolExecutor(2) as pool:
            try:
                while time.monotonic() < until and (self.keeps_going or not self.totals.kinds["illegal"]):
                    told, text = self.run_one(keeper, next(numbers))
                    judged.append((told, text, pool.submit(self.judge.judge, text)))
                    while judged and (len(judged) > AHEAD or judged[0][2].done()):
                        self.tell(*judged.pop(0))
            finally:
                # (also where a round hangs, as it may by what those before it show)
                for each in judged:
                    self.tell(*each)

    def run_one(self, keeper: Keeper, number: int) -> tuple[Round, str]:
        """Runs a round, and writes its history."""
        seed = self.seed * 1_000_000 + number
        log = keeper.run(seed)
        writer = Writer(log, self.manner)
        text = writer.write()
        if self.save:
            (self.save / f"{number}").write_text(text)
        self.totals.odd += writer.odd
        self.totals.words.update(request.text.split()[0] for request in writer.requests)
        return Round(number, seed, sum(process.pid > 0 for process in log.processes), len(writer.requests), Verdict(0)), text

    def tell(self, told: Round, text: str, verdict: Future[Verdict]) -> None:
        """Tells a round, and of an illegal one the shortest window."""
        told.verdict = verdict.result()
        if told.verdict.status == ILLEGAL:
            told.window = shorten(self.judge, text, told.verdict)
            if self.shortest is None or len(told.window) < self.shortest:
                self.shortest = len(told.window)
                self.totals.window = self.keep
                self.keep.write_text(told.window)
        self.totals.count(told)
        self.report.tell(told)


def run(options: argparse.Namespace) -> int:
    """Runs what the command line says; the exit status."""
    judge = HistoryJudge(program_of(options), options.limit, options.judging)
    judge.judge("")
    if options.save:
        options.save.mkdir(parents=True, exist_ok=True)
    systems = [filesystem.look_at(directory) for directory in options.directories]
    manner = Manner(any(system.kind.startswith("fuse") for system in systems), all(system.is_local for system in systems))
    requests = options.requests or options.clients * (REQUESTS_ON_FUSE if manner.releases_late else REQUESTS)
    plan = Plan(options.clients, requests, options.only or "both", options.patience, TIDY_ON_FUSE if manner.releases_late else 0)
    report = JsonReport() if options.json else TapReport()
    torture = Torture(plan, manner, judge, options.seed, options.keep, options.save, options.keep_going, report)
    report.begin([f"{directory}: {system}" for directory, system in zip(options.directories, systems)])
    try:
        with Keeper(options.directories, plan) as keeper:
            torture.run(keeper, options.seconds)
    except CouldNotRun as failed:
        torture.totals.stopped = str(failed)
        report.stop(str(failed))
    finally:
        report.end(torture.totals)
    return torture.totals.status


def main() -> int:
    """Runs locktorture; the exit status."""
    options = parser().parse_args()
    for number in (signal.SIGTERM, signal.SIGHUP):
        signal.signal(number, stop)
    try:
        return run(options)
    except CouldNotRun as failed:
        print(f"locktorture: {failed}", file=sys.stderr)
    except OSError as failed:
        print(f"locktorture: {why(failed)}{'' if program_of(options).exists() else f'; make build makes {PROGRAM.name}'}", file=sys.stderr)
    except KeyboardInterrupt:
        return 130
    return 2
