"""The command line of locktest."""

from __future__ import annotations

import argparse
import os
import signal
import sys
import tempfile
from pathlib import Path
from typing import Iterator, Union

from harness import calls, chance, filesystem, known, watch
from harness.guard import CouldNotRun, guarded
from harness.host import Timing
from harness.judge import DIFFERS, NOT_RUN, Judge, Verdict
from harness.replay import Faulty, Lockreplay
from harness.report import JsonReport, TapReport, Totals
from harness.runner import FOLDER_PREFIX, Runner
from harness.script import Script

HERE = Path(__file__).resolve().parent.parent
CORPUS = HERE / "scripts"
PROGRAM = HERE.parent / "crates" / "lockreplay" / "out" / "lockreplay"
# On other file systems than the kernel's own an answer may still be on its way where a process sleeps.
REMOTE_SETTLE_SECONDS = 0.3

# The known differences that are looked for where they are asked for.
KINDS = {"fuse": known.OF_FUSE}

DESCRIPTION = """Carries scripts of lock requests out by real processes in a directory, and judges what the system answers by
lockreplay. Without SCRIPT it runs the corpus, conformance/scripts. Prints TAP; the status is 0, 1 where something differs, and 2 where
something could not be run."""


def parser() -> argparse.ArgumentParser:
    """What the command line may say."""
    made = argparse.ArgumentParser(prog="locktest", description=DESCRIPTION)
    made.add_argument("directory", metavar="DIR", type=Path, help="a directory of the file system that is asked")
    made.add_argument("scripts", metavar="SCRIPT", type=Path, nargs="*", help="a script of lockreplay's language")
    made.add_argument("--json", action="store_true", help="print JSON, one object a line, instead of TAP")
    made.add_argument("--keep-going", action="store_true", help="go on behind a script that differs or can't be run")
    made.add_argument("--journal", action="store_true", help="print each journal; without it, those of named scripts, and of what differs")
    made.add_argument("--strict", action="store_true", help="count the known differences of Linux's kernel as differences")
    made.add_argument("--known", choices=KINDS, action="append", default=[], help="take what FUSE's protocol makes differ as known as well")
    made.add_argument("--skip", metavar="NAME", action="append", default=[], help="leave this script out, as one in which the file system hangs")
    made.add_argument("--remount", metavar="COMMAND", help="where a process hangs, mount anew by this command of sh, and go on with the rest")
    made.add_argument("--random", metavar="N", type=int, default=0, help="run N scripts made at random instead of the corpus")
    made.add_argument("--seed", metavar="S", type=int, default=1, help="make them by this seed (1)")
    made.add_argument("--settle", metavar="SECONDS", type=float, help="how long nothing may change until a wait counts as one")
    made.add_argument("--limit", metavar="SECONDS", type=float, default=10.0, help="how long a request may take that can't wait (10)")
    made.add_argument("--lockreplay", metavar="PATH", type=Path, help="the program; also by the environment's LOCKREPLAY")
    return made


def program_of(options: argparse.Namespace) -> Path:
    """Where lockreplay is."""
    return options.lockreplay or Path(os.environ.get("LOCKREPLAY", PROGRAM))


def why(failed: Exception) -> str:
    """What failed: of a file its name and the system's message."""
    if isinstance(failed, OSError) and failed.filename and failed.strerror:
        return f"{failed.filename}: {failed.strerror}"
    return str(failed)


def chosen_scripts(options: argparse.Namespace, lockreplay: Lockreplay) -> tuple[int, Iterator[Script]]:
    """How many scripts there are to run, and the scripts. Raises OSError where one can't be read, and CouldNotRun where one that is to be
    skipped isn't among them."""
    numbers = range(1, options.random + 1)
    paths = [] if options.random else options.scripts or sorted(CORPUS.glob("*.lock"))
    names = [chance.name_of(options.seed, number) for number in numbers] + [path.stem for path in paths]
    if unknown := set(options.skip) - set(names):
        raise CouldNotRun(f"none of the scripts has the name {min(unknown)}, which is to be skipped")
    if options.random:
        return len(numbers), (chance.make_script(lockreplay, options.seed, number) for number in numbers)
    return len(paths), iter([Script.parse(path.stem, path.read_text()) for path in paths])


def chosen_watcher(options: argparse.Namespace, file_system: filesystem.FileSystem) -> tuple[watch.ProcWatcher | watch.TimeWatcher, float]:
    """How waits are seen, and how long nothing may change until they are believed."""
    seen = watch.ProcWatcher.works()
    settle = options.settle
    if settle is None:
        settle = 0.0 if seen and file_system.is_local else REMOTE_SETTLE_SECONDS
    return (watch.ProcWatcher() if seen else watch.TimeWatcher()), settle


def known_by(options: argparse.Namespace) -> dict[str, known.Recogniser]:
    """The recognisers of the differences that are to be taken as known."""
    found = {} if options.strict else dict(known.OF_LINUX)
    for kind in options.known:
        found |= KINDS[kind]
    return found


def why_to_stop(runner: Runner, verdict: Verdict, options: argparse.Namespace) -> str:
    """Why no more scripts are run behind this one; nothing where they are."""
    if verdict.stuck and options.remount:
        try:
            runner.remount(options.remount)
        except CouldNotRun as failed:
            return f"{failed}; left behind: pids {runner.left}, and {runner.folder}"
    elif runner.left:
        return f"the file system hangs; left behind: pids {runner.left}, and {runner.folder}"
    may_go_on = options.keep_going or (verdict.stuck and options.remount and verdict.kind == NOT_RUN)
    if verdict.kind in (DIFFERS, NOT_RUN) and not may_go_on:
        return "this script differs or can't be run; --keep-going runs the rest"
    return ""


def run_all(runner: Runner, scripts: Iterator[Script], report: Union[TapReport, JsonReport], options: argparse.Namespace) -> int:
    """Runs and tells the scripts; the exit status."""
    totals = Totals()
    for script in scripts:
        verdict = runner.run(script)
        shrunk = None
        if verdict.kind == DIFFERS and not runner.left and script.name.startswith("random "):
            shrunk = chance.shrink(script, lambda shorter: runner.run(shorter).kind == DIFFERS)
        totals.count(verdict)
        report.tell(script, verdict, shrunk)
        if why := why_to_stop(runner, verdict, options):
            report.stop(why)
            break
    report.end(totals)
    return totals.status


def stop(number: int, _: object) -> None:
    """Ends the run where a signal asks for it, by way of what cleans up."""
    raise SystemExit(128 + number)


def run(options: argparse.Namespace) -> int:
    """Runs what the command line says; the exit status."""
    lockreplay = Lockreplay(program_of(options))
    lockreplay.run(Script.parse("empty", ""))
    count, scripts = chosen_scripts(options, lockreplay)
    file_system = filesystem.look_at(options.directory)
    watcher, settle = chosen_watcher(options, file_system)
    report = JsonReport() if options.json else TapReport(options.journal or bool(options.scripts))
    calls.become_subreaper()
    seen = "seen in /proc" if isinstance(watcher, watch.ProcWatcher) else "guessed by time"
    folder = Path(tempfile.mkdtemp(prefix=FOLDER_PREFIX, dir=options.directory))
    judge = Judge(lockreplay, file_system, known_by(options))
    runner = Runner(folder, judge, watcher, Timing(settle, options.limit), frozenset(options.skip))
    try:
        report.begin(f"{options.directory}: {file_system}; waits are {seen}, after {settle} s without a change", count)
        return run_all(runner, scripts, report, options)
    finally:
        if not runner.left:
            guarded(runner.folder.rmdir, options.limit)


def main() -> int:
    """Runs locktest; the exit status."""
    options = parser().parse_args()
    for number in (signal.SIGTERM, signal.SIGHUP):
        signal.signal(number, stop)
    try:
        return run(options)
    except CouldNotRun as failed:
        print(f"locktest: {failed}", file=sys.stderr)
    except Faulty as fault:
        print(f"locktest: lockreplay fails: {fault}", file=sys.stderr)
    except OSError as failed:
        print(f"locktest: {why(failed)}{'' if program_of(options).exists() else '; make build makes lockreplay'}", file=sys.stderr)
    except KeyboardInterrupt:
        return 130
    return 2
