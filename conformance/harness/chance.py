"""Scripts made at random, and the shortest script that still differs."""

from __future__ import annotations

import random
from typing import Callable

from harness.descriptors import Descriptors, followed
from harness.replay import Lockreplay
from harness.script import Request, Script

BYTES = 8
MOST_PROCESSES = 6
LEAST_REQUESTS, MOST_REQUESTS = 8, 36
# How often each command comes, by what a script is about.
CALLS = {"open": 5, "close": 4, "dup": 2, "dup2": 2, "seek": 1, "resize": 1, "signal": 3, "kill": 1, "exit": 1, "getlk": 5}
FLAVOURS = [
    {"setlk": 30, "setlkw": 40, **CALLS},
    {"osetlk": 25, "osetlkw": 30, "ogetlk": 5, "setlk": 10, "setlkw": 25, **CALLS},
    {"flock": 70, **CALLS},
    {"setlk": 18, "setlkw": 22, "osetlk": 8, "osetlkw": 10, "flock": 20, "ogetlk": 3, **CALLS},
]
RELEASES = ("close", "setlk", "osetlk", "flock", "exit", "signal", "signal")


class Maker:
    """Makes one script. It asks lockreplay who lives and what is open, so that most of what it makes isn't refused."""

    def __init__(self, lockreplay: Lockreplay, seed: str) -> None:
        self.lockreplay = lockreplay
        self.chance = random.Random(seed)
        self.processes = self.chance.randint(2, MOST_PROCESSES)
        self.files = self.chance.choice([1, 1, 2])
        self.weights = self.chance.choice(FLAVOURS)

    def make(self) -> list[str]:
        """The lines: opens and forks, then what chance says, and at the end questions that show who holds what."""
        chance = self.chance
        lines = [f"1 open {file} {chance.choice(['rw', 'rw', 'rw', 'r'])}" for file in range(self.files)]
        lines += [f"1 fork {number}" for number in range(2, self.processes + 1)]
        lines += [f"{number} open 0 rw" for number in range(1, self.processes + 1) if chance.random() < 0.6]
        for _ in range(chance.randint(LEAST_REQUESTS, MOST_REQUESTS)):
            lines.append(self.next_line(lines))
        for number in range(1, self.processes + 1):
            lines += [f"{number} getlk 0 w set {place} 1" for place in range(0, BYTES, 2)]
            lines += [f"{number} flock 0 ex nb"]
        return lines

    def next_line(self, lines: list[str]) -> str:
        """A further line; where most processes wait, one that may let some go on."""
        chance = self.chance
        run = self.lockreplay.run(Script.parse("", "".join(f"{line}\n" for line in lines)))
        anyone = list(range(1, self.processes + 1))
        process = chance.choice(run.live or anyone) if chance.random() < 0.97 else chance.choice(anyone)
        if len(run.live) * 3 < self.processes or (len(run.waits) > 1 and chance.random() < 0.2):
            return self.release(process, followed(run.events))
        command = chance.choices(list(self.weights), list(self.weights.values()))[0]
        return f"{process} {command}{self.arguments(command, self.descriptor(process, followed(run.events)))}"

    def release(self, process: int, descriptors: Descriptors) -> str:
        """A line by which waits may end."""
        command = self.chance.choice(RELEASES)
        descriptor = self.descriptor(process, descriptors)
        if command in ("setlk", "osetlk"):
            return f"{process} {command} {descriptor} u set {self.chance.randrange(3)} 0"
        if command == "flock":
            return f"{process} flock {descriptor} un"
        return f"{process} {command}{self.arguments(command, descriptor)}"

    def descriptor(self, process: int, descriptors: Descriptors) -> int:
        """A descriptor of the process, mostly one that is open."""
        opened = list(descriptors.tables.get(process, {}))
        return self.chance.choice(opened) if opened and self.chance.random() < 0.97 else self.chance.randrange(5)

    def arguments(self, command: str, descriptor: int) -> str:
        """The arguments of a command, each with a space before it."""
        chance = self.chance
        if command == "open":
            return f" {chance.randrange(self.files)} {chance.choice(['rw', 'rw', 'rw', 'r', 'w'])}"
        if command in ("close", "dup"):
            return f" {descriptor}"
        if command == "dup2":
            return f" {descriptor} {chance.randrange(4)}"
        if command in ("seek", "resize"):
            return f" {descriptor} {chance.randrange(BYTES)}"
        if command == "flock":
            return f" {descriptor} {chance.choice(['sh', 'sh', 'ex', 'ex', 'un'])}{chance.choice(['', '', ' nb'])}"
        if command in ("signal", "kill"):
            return f" {chance.randint(1, self.processes)}"
        return "" if command == "exit" else f" {descriptor}{self.lock_arguments()}"

    def lock_arguments(self) -> str:
        """Kind, whence, start, length and sometimes a pid; a few are out of the ordinary."""
        chance = self.chance
        kind = chance.choice("rrrwwwu")
        whence = chance.choice(["set"] * 10 + ["cur", "end"])
        length = chance.choice([1, 1, 1, 2, 3, 0, -1])
        start = chance.randrange(BYTES) if chance.random() < 0.98 else chance.choice([-1, 2**63 - 1, 2**63 - 3])
        pid = " 5" if chance.random() < 0.02 else ""
        return f" {kind} {whence} {start} {length}{pid}"


def name_of(seed: int, number: int) -> str:
    """The name of the script of a number under a seed."""
    return f"random {number} of seed {seed}"


def make_script(lockreplay: Lockreplay, seed: int, number: int) -> Script:
    """The script of a number under a seed."""
    text = "".join(f"{line}\n" for line in Maker(lockreplay, f"{seed}/{number}").make())
    return Script.parse(name_of(seed, number), text)


def shrink(script: Script, differs: Callable[[Script], bool]) -> Script:
    """The shortest script that still differs, which taking requests out leads to: first many at once, then one by one."""
    size = max(1, len(script.requests) // 2)
    while size:
        place = 0
        while place < len(script.requests):
            shorter = without(script, place, size)
            if differs(shorter):
                script = shorter
            else:
                place += size
        size //= 2
    return script


def without(script: Script, place: int, size: int) -> Script:
    """The script without some requests."""
    requests: tuple[Request, ...] = script.requests[:place] + script.requests[place + size :]
    return Script.parse(script.name, script.of_requests(requests).text)
