#!/usr/bin/env python3
"""The reference for logs, their replay and their charts.

A log is the schedule of a run, written down: lines of an activity and how many steps it takes one after the other. A
text is read as one here by patterns, line by line; a replay takes the steps one by one, as tests/reference/modules.py
has them; a chart has a line for each clock that advances.

    python3 -m tests.reference.logs FILE [ORDER [SEED]] [--arg=N]..      ORDER is first, last, round or random

FILE is a module, or with a name that ends in `.x10` a source text. What other commands print of a log is in
tests/reference/runs.py.
"""

from __future__ import annotations

import pathlib
import re
import sys
from collections.abc import Callable, Iterable, Iterator
from dataclasses import dataclass, field
from typing import NamedTuple

from tests.reference import modules, source
from tests.reference.modules import Arguments, Way

GREATEST = 4_294_967_295
MOST_ENTRIES = 1_000_000_000
# The longest line is an entry of twice the greatest number.
LONGEST_LINE = 21
FIRST_LINE = b"x10log 1"

NUMBER = rb"(0|[1-9][0-9]*)"
ENTRY = re.compile(NUMBER + b" " + NUMBER)
END = re.compile(b"end " + NUMBER)


class Fault(Exception):
    """A log that is refused; the message is the line that says so."""


class Entry(NamedTuple):
    activity: int
    steps: int


Log = list[Entry]


# Texts of logs.


def text_of(log: Log) -> bytes:
    lines = [FIRST_LINE.decode(), *(f"{entry.activity} {entry.steps}" for entry in log), f"end {len(log)}"]
    return "".join(f"{line}\n" for line in lines).encode()


def misfit(number: int) -> Fault:
    return Fault(f"L1 Grammar line {number}")


def read(data: bytes) -> Log:
    """The log that a text is; raises Fault."""
    *lines, rest = data.split(b"\n")
    log: Log = []
    ended = False
    for number, line in enumerate(lines, start=1):
        end = END.fullmatch(line)
        if ended or (number == 1 and line != FIRST_LINE):
            raise misfit(number)
        if number == 1:
            continue
        if end:
            if end[1] != str(len(log)).encode():
                raise misfit(number)
            ended = True
            continue
        log.append(entry_of(line, number))
    if ended and not rest:
        return log
    if ended or len(rest) > LONGEST_LINE:
        raise misfit(len(lines) + 1)
    raise Fault("L2 Truncated")


def entry_of(line: bytes, number: int) -> Entry:
    found = ENTRY.fullmatch(line)
    if not found or len(line) > LONGEST_LINE or number - 1 > MOST_ENTRIES:
        raise misfit(number)
    activity, steps = int(found[1]), int(found[2])
    if activity > GREATEST or not 1 <= steps <= GREATEST:
        raise misfit(number)
    return Entry(activity, steps)


# Runs.


class Advance(NamedTuple):
    """A clock went on: in which step, which clock, to which phase, and who is registered on it then."""

    step: int
    clock: int
    phase: int
    registered: tuple[int, ...]

    def line(self) -> str:
        return f"step {self.step} clock {self.clock} phase {self.phase} acts {' '.join(map(str, self.registered))}\n"


class Taken(NamedTuple):
    """A step that was taken: its number, whose it was, the world before it, what it came to, and the clocks that
    advanced with it."""

    number: int
    who: int
    before: modules.World
    step: modules.Step
    advances: list[Advance]


@dataclass
class Played:
    """What a run has come to: the world, the steps that it took, what it printed, the phases of clocks, and their
    advances."""

    module: modules.Module
    world: modules.World
    taken: list[Taken] = field(default_factory=list)
    printed: list[int] = field(default_factory=list)
    phases: dict[int, int] = field(default_factory=dict)

    @staticmethod
    def opening(module: modules.Module, arguments: Arguments) -> Played:
        return Played(module, modules.opening(module, arguments))

    @property
    def steps(self) -> int:
        return len(self.taken)

    @property
    def advances(self) -> list[Advance]:
        return [advance for taken in self.taken for advance in taken.advances]

    def step(self, who: int) -> bool:
        """A step of an activity, if it can take one."""
        taken = modules.step(self.module, self.world, who)
        if taken is None:
            return False
        number, before, self.world, advances = self.steps + 1, self.world, taken.world, []
        self.printed += [] if taken.printed is None else [taken.printed]
        for clock in taken.advanced:
            self.phases[clock] = self.phases.get(clock, 0) + 1
            registered = tuple(sorted(self.world.clocks[clock].registered))
            advances.append(Advance(number, clock, self.phases[clock], registered))
        self.taken.append(Taken(number, who, before, taken, advances))
        return True

    def output(self) -> str:
        return modules.Ran(self.printed, self.steps, True).text()

    def chart(self) -> str:
        return "".join(advance.line() for advance in self.advances)

    def ending(self) -> str:
        """What is told behind the last step where not all have ended."""
        left = sum(act.status is not modules.Status.ENDED for act in self.world.activities)
        words = f"the log ends after step {self.steps}, before the run does; activities not ended: {left}"
        return words if left else ""


def carry_out(module: modules.Module, log: Iterable[Entry], arguments: Arguments = ()) -> Played:
    """The run of a log, with these numbers given, as far as the log goes; raises Fault."""
    played = Played.opening(module, arguments)
    for number, entry in enumerate(log):
        for _ in range(entry.steps):
            if not played.step(entry.activity):
                raise Fault(f"L4 NotEnabled entry {number}")
    return played


def replay(module: modules.Module, log: Iterable[Entry], arguments: Arguments = ()) -> Played:
    """The same, which has to come to the end of all activities."""
    played = carry_out(module, log, arguments)
    if not played.world.has_ended:
        raise Fault("L5 NotEnded")
    return played


def driven(module: modules.Module, way: Way, arguments: Arguments = ()) -> Iterator[int]:
    """The activities that take the steps of a run in this order, with these numbers given."""
    world, chooser = modules.opening(module, arguments), modules.Chooser(way)
    while (taken := chooser.step(module, world)) is not None:
        world = taken.world
        yield chooser.before


def log_of(module: modules.Module, way: Way, arguments: Arguments = ()) -> Log:
    """The log of a run in this order: an entry for each step."""
    return [Entry(who, 1) for who in driven(module, way, arguments)]


# Answers: the status, standard output and standard error of the program.

Answer = tuple[int, str, str]
# What is told of a run, and whether that is all; where nothing is said of that, it is.
Teller = Callable[[Played], "str | tuple[str, bool]"]


def answer(
    judged: modules.Accepted | modules.Refused,
    data: bytes,
    tell: Teller,
    arguments: Arguments = (),
    played_by: Callable[[modules.Module, Log, Arguments], Played] = replay,
) -> Answer:
    """Of a command on a log: the program is judged, and the numbers that are given are counted, before the log is
    read. It is that of a whole run, or of one that goes so far."""
    line = modules.refusal("replay", judged, arguments)
    if line:
        return 1, "", f"x10clock: {line}\n"
    try:
        played = played_by(judged.module, read(data), arguments)
    except Fault as fault:
        return 3, "", f"x10clock: {fault}\n"
    told = tell(played)
    text, is_whole = told if isinstance(told, tuple) else (told, True)
    return (0 if is_whole else 6), text, ""


def judge(path: pathlib.Path) -> modules.Accepted | modules.Refused:
    data = path.read_bytes()
    return source.judge(data) if path.suffix == ".x10" else modules.judge(data)


def main(words: list[str]) -> int:
    (file, *more), arguments = modules.parted(words)
    judged = judge(pathlib.Path(file))
    line = modules.refusal("run", judged, arguments)
    if line:
        print(f"x10clock: {line}", file=sys.stderr)
        return 1
    sys.stdout.buffer.write(text_of(log_of(judged.module, modules.way_named(more), arguments)))
    return 0


if __name__ == "__main__":
    sys.exit(main(sys.argv[1:]))
