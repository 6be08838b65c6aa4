"""The command line of `lockreplay-trace`."""

from __future__ import annotations

import argparse
import json
import lzma
import sys
from pathlib import Path
from typing import Optional, Sequence

from harness.command import program_of, why
from harness.replay import Faulty, Lockreplay
from tracing.assume import Explained, Explainer
from tracing.follow import Assumptions, Follower, Request
from tracing.history import CannotJudge, Event, Places, Program, write
from tracing.lint import QUIET, WHY, Finding, Linter
from tracing.log import NotALog, read_log
from tracing.script import log_of_script
from tracing.tell import Line, Teller, ending, overlapping
from tracing.timeline import Timeline

ALL_AS_IN_THE_LOG, FAULTY, FOUND, GAVE_UP = 0, 2, 3, 4
# How many pairs of overlapping calls are tried the other way round.
MOST_PAIRS = 40


def parser() -> argparse.ArgumentParser:
    """What the command line may say."""
    made = argparse.ArgumentParser(
        prog="lockreplay-trace",
        description="Says what happened to a program's locks, from a log of strace: an order of its lock calls that gives every answer in the log.",
    )
    made.add_argument("log", metavar="LOG", type=Path, help="what strace -f -y -ttt -o LOG wrote; or, with -ff, the name before .PID")
    made.add_argument("--lockreplay", metavar="PATH", type=Path, help="the program that judges; else LOCKREPLAY, or the one that was built")
    made.add_argument("--file", metavar="PATH", action="append", default=[], help="prints the events of this file alone")
    made.add_argument("--pid", metavar="PID", type=int, action="append", default=[], help="prints the events of this process alone")
    made.add_argument("--from", metavar="SECONDS", dest="since", type=float, help="prints the events from this time of the log on")
    made.add_argument("--to", metavar="SECONDS", dest="until", type=float, help="prints the events up to this time of the log")
    made.add_argument("--no-lint", action="store_true", help="leaves out what went wrong, and which calls may stand in either order")
    made.add_argument("--fail-on", metavar="LIST", default="", help=f"ends with status 3 where one of these is found: {', '.join(WHY)}")
    made.add_argument("--slow", metavar="SECONDS", type=float, help="tells waits that lasted longer (a log of strace -T)")
    made.add_argument("--history", action="store_true", help="prints the history that is judged, and judges nothing")
    made.add_argument("--script", action="store_true", help="LOG is a script of lockreplay's language: says what goes wrong in its run, and no more")
    made.add_argument("--timeline", action="store_true", help="prints a picture by time in place of the events: a column a process, a row an event")
    made.add_argument("--json", action="store_true", help="prints a JSON object on a line for each event, finding and the end")
    return made


def is_asked(options: argparse.Namespace, line: Line) -> bool:
    """Whether an event is to be printed."""
    event = line.event
    time = line.time or 0.0
    return (
        (not options.file or (event.file is not None and event.file.path in options.file))
        and (not options.pid or event.process.pid in options.pid)
        and (options.since is None or time >= options.since)
        and (options.until is None or time <= options.until)
    )


def note_either_order(explained: Explained, lines: list[Line], teller: Teller, program: Program) -> None:
    """Says of two overlapping calls that the other order is legal, too."""
    by_event = {id(line.event): line for line in lines if not line.request.startswith("lets go")}
    for one, other in list(overlapping(explained.judged))[:MOST_PAIRS]:
        if explained.again(program, turned_round(one, other)).illegal is None:
            by_event[id(other)].notes.append(f"{teller.name(one)} and {teller.name(other)} in either order")


def turned_round(one: Request, other: Request) -> Places:
    """The places of two calls that overlap by which the other is over before the one begins."""
    if one.begin >= other.begin:
        return {id(other): (other.begin, one.begin - 0.5)}
    return {id(other): (other.begin, other.begin + 0.25), id(one): (other.begin + 0.5, one.end)}


def print_run(options: argparse.Namespace, explained: Explained, teller: Teller, lines: list[Line], findings: list[Finding]) -> None:
    """The run, the assumptions, what went wrong, and the last line."""
    shown = [] if options.script else [line for line in lines if is_asked(options, line)]
    if options.json:
        for line in shown:
            print(line.as_json())
        for finding in findings:
            where = {"line": finding.call.line, "where": finding.call.said_line}
            print(json.dumps({"finding": finding.kind, **where, "text": finding.text, "why": WHY[finding.kind]}))
        print(json.dumps({"end": ending(explained)}))
        return
    if options.timeline:
        print(Timeline(teller, shown).draw(), end="")
    else:
        print("".join(line.text() for line in shown), end="")
    for made_up in explained.found.made_up:
        if any(it.file is made_up.file for it in explained.found.requests):
            print(f"# {made_up.call.said_line}: descriptor {made_up.descriptor} of {made_up.process} was open before the log began: {made_up.file.path}")
    for told in explained.told:
        print(f"# {told.call.said_line}: assumed: {told.text}")
    for finding in findings:
        if finding.kind not in QUIET:
            print(f"# {finding}\n#   {WHY[finding.kind]}")
    if not options.script:
        print(ending(explained))


def print_impossible(options: argparse.Namespace, explained: Explained, teller: Teller) -> None:
    """The first answer that no order gives, with the calls that are open there."""
    at = explained.impossible
    if at is None:
        return
    end = f"{teller.where(at)}: no order of the log's calls gives this answer"
    is_there = [teller.where(it) for it in explained.found.requests if is_open_at(it, at)]
    if options.json:
        print(json.dumps({"end": end, "line": at.call.line, "open": is_there, "lockreplay": explained.judged.open_there}))
    else:
        print("\n".join([end, *(f"# open there: {it}" for it in is_there), *explained.judged.open_there]))


def is_open_at(request: Request, at: Event) -> bool:
    """Whether a request of the same file is open as another event is answered."""
    overlaps = request.begin < (at.end or 0) and (request.end is None or request.end > at.begin)
    return request is not at and bool(request.text) and request.file is at.file and overlaps


def explained_of(options: argparse.Namespace, program: Program) -> Explained:
    """The log explained. Raises NotALog where it has no lock call."""
    log = log_of_script(options.log, Lockreplay(program.path)) if options.script else read_log(options.log)
    explained = Explainer(log, program).explain()
    if not explained.found.requests:
        raise NotALog(f"{options.log} has no lock call: was strace told to trace fcntl and flock?")
    return explained


def main(words: Optional[Sequence[str]] = None) -> int:
    """Does what the command line says; the exit status."""
    options = parser().parse_args(words)
    wanted = [word for word in options.fail_on.split(",") if word]
    unknown = [word for word in wanted if word not in WHY]
    if unknown:
        print(f"lockreplay-trace: --fail-on knows no finding {unknown[0]}", file=sys.stderr)
        return FAULTY
    try:
        program = Program(program_of(options))
        if options.history:
            print("\n".join(write(Follower(read_log(options.log), Assumptions()).follow(), False, []).lines))
            return ALL_AS_IN_THE_LOG
        explained = explained_of(options, program)
    except (NotALog, Faulty, OSError, lzma.LZMAError) as failed:
        print(f"lockreplay-trace: {why(failed)}", file=sys.stderr)
        return FAULTY
    except CannotJudge as failed:
        print(f"lockreplay-trace: {failed}", file=sys.stderr)
        return GAVE_UP
    teller = Teller(explained)
    if explained.impossible is not None:
        print_impossible(options, explained, teller)
        return FOUND
    lines = teller.lines()
    if not options.no_lint:
        note_either_order(explained, lines, teller, program)
    findings = [] if options.no_lint else Linter(explained, teller, lines, options.slow).findings()
    print_run(options, explained, teller, lines, findings)
    return FOUND if any(it.kind in wanted for it in findings) else ALL_AS_IN_THE_LOG
