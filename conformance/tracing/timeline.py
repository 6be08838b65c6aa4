"""A picture of a run by time: a column a process, a row an event."""

from __future__ import annotations

from tracing.follow import Request
from tracing.tell import Held, Line, Teller

WIDTH = 80
GUTTER = 7
LEAST_CELL = 14
# What a process has: a write or exclusive lock, a read or shared one, or no lock.
HOLDS = {"w": "W", "ex": "W", "r": "R", "sh": "R"}


class Timeline:
    """Draws a run. A row has the event in its process' column, and in each other column what that process has: `W` a write or exclusive lock,
    `R` a read or shared one, `:` a request that waits, `|` neither. Processes beyond those that fit have their number at the left alone."""

    def __init__(self, teller: Teller, lines: list[Line]) -> None:
        self.teller, self.lines = teller, lines
        numbers = sorted(teller.numbers.values())
        self.shown = numbers[: max(1, (WIDTH - GUTTER) // LEAST_CELL)]
        self.cell = (WIDTH - GUTTER) // max(1, len(self.shown))
        owners = {it.owner: teller.numbers[it.process.number] for it in teller.explained.found.requests}
        self.process_of = owners

    def draw(self) -> str:
        """The rows."""
        rows = [" " * GUTTER + "".join(f"{number:<{self.cell}}" for number in self.shown)]
        waiting: dict[int, int] = {}
        for line in self.lines:
            rows.append(self.row(line, waiting))
        return "".join(f"{row.rstrip()}\n" for row in rows)

    def row(self, line: Line, waiting: dict[int, int]) -> str:
        """The row of an event."""
        own = self.teller.numbers.get(line.event.process.number)
        cells = []
        for number in self.shown:
            text = self.text(line) if number == own else self.sign(number, line)
            cells.append(f"{text[: self.cell - 1]:<{self.cell}}")
        return f"{line.name[: GUTTER - 1]:<{GUTTER}}" + "".join(cells)

    def text(self, line: Line) -> str:
        """An event in few words: what is asked of which bytes, and the answer where it isn't ok."""
        event = line.event
        answer = "" if line.answer in ("ok", "") else f" {line.answer}"
        if not isinstance(event, Request):
            return line.request.split("(")[0].split(" of ")[0]
        words = line.request.split()
        if line.request.startswith("lets go"):
            return "lets go"
        if event.is_whole_file:
            return " ".join(["flock", *words[2:]]) + answer
        return f"{words[0]} {' '.join(words[2:-2])} {words[-2]}-{words[-1]}".replace("  ", " ") + answer if len(words) > 3 else line.request + answer

    def sign(self, number: int, line: Line) -> str:
        """What a process has as the event happens."""
        has = [HOLDS[lock.mode] for lock in line.behind if self.process_of.get(lock.owner) == number]
        waits = any(self.is_waiting(it, number, line) for it in self.teller.explained.found.requests)
        return ":" if waits else "W" if "W" in has else "R" if has else "|"

    def is_waiting(self, request: Request, number: int, line: Line) -> bool:
        """Whether a request of the process waits as the event happens."""
        at = line.event
        is_there = request.waits and request.begin < at.begin and (request.end is None or request.end > at.begin)
        return is_there and self.teller.numbers[request.process.number] == number and not self.has_it(request, line.behind)

    def has_it(self, request: Request, locks: list[Held]) -> bool:
        """Whether the owner has what the request asks for."""
        return any(it.owner == request.owner and it.mode in (request.mode, {"r": "sh", "w": "ex"}[request.mode]) and it.span in (None, request.span) for it in locks)
