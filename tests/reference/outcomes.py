#!/usr/bin/env python3
"""The reference for `outcomes`: all that a program can print, and what may be answered of that.

All schedules are walked, step by step; a world that was met before is known again, and neither phases nor numbers of
steps are part of one (tests/reference/modules.py). Which order outcomes are printed in, which of them where there may
be more, and by which runs they are shown, is the program's own: so an answer is judged here, and one that may be given
is made.

Where sets are asked for, lists of the same numbers, each as often, in whatever order, are one, and it is printed
rising.

Outcomes may be held against a list, a text of such lines: then one is printed that isn't in it, or how many they are.
They may be counted: then it is printed how many they are.

    python3 -m tests.reference.outcomes [--module] [--sets] [--count] [--expect=LIST] FILE [LIMIT] [--arg=N]..
"""

from __future__ import annotations

import pathlib
import re
import sys
from collections.abc import Iterator
from functools import cached_property
from typing import NamedTuple

from tests.reference import logs, modules, source
from tests.reference.logs import Entry, Log
from tests.reference.modules import Arguments, Module, World

# No more worlds are walked through, and no more lists of numbers kept with one of them, than this.
MOST_WORLDS, MOST_LISTS = 100_000, 100_000
# The program leaves off at so many worlds or outcomes where nothing is said.
USUAL_LIMIT = 100_000
# It keeps apart worlds that are the same here, as by what an activity held that has ended: so many times as many are
# granted.
SPARE = 4
# Before any search it makes a run in each order, and by chance from these seeds: what they print is told whatever the
# limit is.
SEEDS = range(1, 17)
PLAIN = [*modules.Order, *map(modules.ByChance, SEEDS)]
WHOLE, NOT_WHOLE, REFUTED, NO_LIST = 0, 6, 7, 3
# What is behind these bytes of a list isn't looked at.
LONGEST_LIST = 100_000_000

Numbers = tuple[int, ...]
LINE = re.compile(r"outcome (\d+) prints((?: -?\d+)*)")
LAST = re.compile(r"outcomes (\d+) (complete|and perhaps more)")
# A line of a list: what stands behind `prints` has to be what is told of an outcome; lines of the other sort are passed
# over.
LISTED, PASSED = re.compile(rb"outcome [0-9]+ prints((?: -?[0-9]+)*)"), re.compile(rb"|outcomes .*", re.DOTALL)


class TooMany(Exception):
    """There are too many worlds, or too many lists of numbers."""


class Stray(Exception):
    """A line of a list is none; the message is what is said of it."""


# The walk.


class Edge(NamedTuple):
    """A step: whose it is, what it prints, and where it leads."""

    who: int
    printed: Numbers
    world: World


def edges(module: Module, world: World) -> list[Edge]:
    """The steps that can be taken in a world."""
    steps = ((who, modules.step(module, world, who)) for who in range(len(world.activities)))
    return [Edge(who, () if step.printed is None else (step.printed,), step.world) for who, step in steps if step]


class Walk:
    """All schedules of a program that is accepted and given these numbers; raises TooMany."""

    def __init__(self, module: Module, arguments: Arguments = (), worlds: int = MOST_WORLDS) -> None:
        self.module, self.arguments, self.worlds = module, arguments, worlds
        self.start = modules.opening(module, arguments)
        self.edges: dict[World, list[Edge]] = {}
        # What can be printed from a world on until all have ended; a world stands behind those that its steps lead to.
        self.rest: dict[World, frozenset[Numbers]] = {}
        self.go()

    @property
    def outcomes(self) -> frozenset[Numbers]:
        return self.rest[self.start]

    def go(self) -> None:
        path = [self.start]
        while path:
            unknown = next((edge.world for edge in self.known(path[-1]) if edge.world not in self.rest), None)
            if unknown is not None:
                path.append(unknown)
            else:
                world = path.pop()
                self.rest[world] = self.printed_from(world)

    def known(self, world: World) -> list[Edge]:
        """The steps of a world, which is known from now on."""
        if world not in self.edges:
            if len(self.edges) == self.worlds:
                raise TooMany
            self.edges[world] = edges(self.module, world)
        return self.edges[world]

    def printed_from(self, world: World) -> frozenset[Numbers]:
        """By what can be printed from where the steps lead."""
        if not self.edges[world]:
            return frozenset({()} if world.has_ended else ())
        found = frozenset(edge.printed + rest for edge in self.edges[world] for rest in self.rest[edge.world])
        if len(found) > MOST_LISTS:
            raise TooMany
        return found

    def log_of(self, numbers: Numbers) -> Log:
        """The log of a run that prints these numbers."""
        world, log = self.start, []
        while self.edges[world]:
            who, printed, world = next(
                edge for edge in self.edges[world] if numbers in {edge.printed + rest for rest in self.rest[edge.world]}
            )
            numbers = numbers[len(printed) :]
            log.append(Entry(who, 1))
        return log

    @cached_property
    def entries(self) -> int:
        """How many worlds there are, each counted once for each set of numbers that may be printed by then."""
        before: dict[World, set[Numbers]] = {world: set() for world in self.rest}
        before[self.start].add(())
        for world in reversed(self.rest):
            for edge in self.edges[world]:
                before[edge.world] |= {tuple(sorted(begin + edge.printed)) for begin in before[world]}
        return sum(map(len, before.values()))


def walked(module: Module, arguments: Arguments = (), worlds: int = MOST_WORLDS) -> Walk | None:
    """The walk, or None where it is too long."""
    try:
        return Walk(module, arguments, worlds)
    except TooMany:
        return None


# Answers.


class Asked(NamedTuple):
    """What is asked for: how many worlds and outcomes at most, the outcome whose log is written, if one is, and whether
    the order of numbers counts."""

    limit: int = USUAL_LIMIT
    pick: int | None = None
    sets: bool = False

    def told(self, numbers: Numbers) -> Numbers:
        """The numbers as they are told."""
        return tuple(sorted(numbers)) if self.sets else numbers

    def outcomes(self, walk: Walk) -> set[Numbers]:
        """All that is to be told."""
        return {self.told(numbers) for numbers in walk.outcomes}

    def plain(self, module: Module, arguments: Arguments) -> list[Numbers]:
        """What is told of the runs before any search, each list once, in their order."""
        runs = [modules.run(module, way, arguments) for way in PLAIN]
        return [*dict.fromkeys(self.told(tuple(run.printed)) for run in runs)]

    def worlds(self, walk: Walk) -> int:
        """How many worlds have to be told apart: for sets by what was printed, too."""
        return walk.entries if self.sets else len(walk.rest)

    @property
    def most(self) -> int:
        """How many lists are told at most."""
        return max(self.limit, len(PLAIN))


class Answer(NamedTuple):
    """The status, standard output, and the log."""

    status: int
    out: str
    log: bytes = b""


def text_of(lists: list[Numbers], is_complete: bool) -> str:
    lines = [
        " ".join(["outcome", str(number), "prints", *map(str, numbers)])
        for number, numbers in enumerate(lists, start=1)
    ]
    last = f"outcomes {len(lists)} {'complete' if is_complete else 'and perhaps more'}"
    return "".join(f"{line}\n" for line in [*lines, last])


def status_of(asked: Asked, count: int, is_complete: bool) -> int:
    """An answer is whole where it has all outcomes, and the log that was asked for."""
    return WHOLE if is_complete and (asked.pick is None or asked.pick <= count) else NOT_WHOLE


def log_of(walk: Walk, asked: Asked, told: Numbers) -> Log:
    """The log of a run that prints what is told so."""
    return walk.log_of(next(numbers for numbers in sorted(walk.outcomes) if asked.told(numbers) == told))


def listed(walk: Walk, asked: Asked) -> tuple[list[Numbers], bool]:
    """What is told, those of the plain runs first and the others in their order as lists, and whether that is all."""
    outcomes, plain = asked.outcomes(walk), asked.plain(walk.module, walk.arguments)
    others = sorted(outcomes.difference(plain))[: max(0, asked.limit - len(plain))]
    return [*plain, *others], len(plain) + len(others) == len(outcomes)


def answer(walk: Walk, asked: Asked) -> Answer:
    """An answer that may be given."""
    lists, is_complete = listed(walk, asked)
    has_log = asked.pick is not None and asked.pick <= len(lists)
    log = logs.text_of(log_of(walk, asked, lists[asked.pick - 1])) if has_log else b""
    return Answer(status_of(asked, len(lists), is_complete), text_of(lists, is_complete), log)


def counted(walk: Walk, asked: Asked) -> Answer:
    """An answer that may be given where outcomes are counted."""
    return Answer(WHOLE, f"outcomes {len(asked.outcomes(walk))} complete\n")


def count_faults(walk: Walk | None, module: Module, arguments: Arguments, asked: Asked, given: Answer) -> Iterator[str]:
    """What is wrong with a count; where the walk is too long, by the runs before any search alone."""
    last = LAST.fullmatch(given.out.removesuffix("\n"))
    if not last or given.out != f"{last[0]}\n":
        yield "no count is told"
        return
    count, is_complete = int(last[1]), last[2] == "complete"
    if given.status != (WHOLE if is_complete else NOT_WHOLE):
        yield f"the status is {given.status}"
    if count < len(asked.plain(module, arguments)):
        yield "runs before any search print more"
    if walk:
        there = len(asked.outcomes(walk))
        if count > there or is_complete and count < there:
            yield f"there are {there} outcomes"
        if not is_complete and count < asked.limit and SPARE * asked.worlds(walk) <= asked.limit:
            yield f"not complete, and there are {asked.worlds(walk)} worlds"


def read(out: str) -> tuple[list[Numbers], bool] | None:
    """The outcomes that a text tells, and whether it says that they are all; None where it is no such text."""
    *lines, last = out.splitlines() or [""]
    found, end = [LINE.fullmatch(line) for line in lines], LAST.fullmatch(last)
    if not end or not all(found):
        return None
    lists = [tuple(map(int, line[2].split())) for line in found]
    is_complete = end[2] == "complete"
    return (lists, is_complete) if text_of(lists, is_complete) == out else None


def expected(data: bytes) -> set[bytes]:
    """What a list tells, a text for each outcome; raises Stray."""
    told = set()
    for number, line in enumerate(data[:LONGEST_LIST].split(b"\n"), start=1):
        found = LISTED.fullmatch(line)
        if not found and not PASSED.fullmatch(line):
            raise Stray(f"L6 NoOutcome line {number}")
        told |= {found[1]} if found else set()
    return told


def is_told(told: set[bytes], numbers: Numbers) -> bool:
    return "".join(f" {number}" for number in numbers).encode() in told


def held_faults(walk: Walk | None, asked: Asked, told: set[bytes], given: Answer) -> Iterator[str]:
    """What is wrong with what is said of outcomes that are held against a list."""
    line, last = LINE.fullmatch(given.out.removesuffix("\n")), LAST.fullmatch(given.out.removesuffix("\n"))
    if not line and not last or not given.out.endswith("\n"):
        yield "neither an outcome nor a last line is told"
        return
    is_whole = bool(last) and last[2] == "complete"
    if given.status != (REFUTED if line else WHOLE if is_whole else NOT_WHOLE):
        yield f"the status is {given.status}"
    outcomes = asked.outcomes(walk) if walk else None
    if line:
        numbers = tuple(map(int, line[2].split()))
        if is_told(told, numbers):
            yield "what is told is in the list"
        if outcomes is not None and numbers not in outcomes:
            yield "no run prints what is told"
        if not 1 <= int(line[1]) <= asked.most:
            yield "the outcome has a number beyond the limit"
    elif outcomes is not None:
        untold = [numbers for numbers in outcomes if not is_told(told, numbers)]
        if is_whole and untold:
            yield f"not in the list: {sorted(untold)}"
        if int(last[1]) > min(asked.most, len(outcomes)) or is_whole and int(last[1]) != len(outcomes):
            yield f"there are {len(outcomes)} outcomes"
        if not is_whole and int(last[1]) < asked.limit and SPARE * asked.worlds(walk) <= asked.limit:
            yield f"not complete, and there are {asked.worlds(walk)} worlds"


def held(walk: Walk, asked: Asked, told: set[bytes]) -> Answer:
    """What may be said of outcomes that are held against a list: the first that isn't in it, and else the last line."""
    lists, is_complete = listed(walk, asked)
    untold = next((number for number, numbers in enumerate(lists) if not is_told(told, numbers)), None)
    lines = text_of(lists, is_complete).splitlines(keepends=True)
    return (
        Answer(REFUTED, lines[untold])
        if untold is not None
        else Answer(WHOLE if is_complete else NOT_WHOLE, lines[-1])
    )


def faults(walk: Walk | None, module: Module, arguments: Arguments, asked: Asked, given: Answer) -> Iterator[str]:
    """What is wrong with an answer; where the walk is too long, by the answer alone."""
    told = read(given.out)
    if told is None:
        yield "no outcomes are told"
        return
    lists, is_complete = told
    if len(set(lists)) != len(lists):
        yield "an outcome is told twice"
    if any(asked.told(numbers) != numbers for numbers in lists):
        yield "numbers of a set don't rise"
    if given.status != status_of(asked, len(lists), is_complete):
        yield f"the status is {given.status}"
    if len(lists) > asked.most:
        yield "more are told than the limit says"
    plain = asked.plain(module, arguments)
    if not asked.sets and lists != [*plain, *sorted({*lists}.difference(plain))]:
        yield "the runs before any search aren't first, or what is told behind them doesn't rise"
    lacking = set() if is_complete else {*plain} - {*lists}
    if lacking:
        yield f"a run before any search prints {sorted(lacking)}"
    if walk:
        yield from against_walk(walk, asked, set(lists), is_complete)
    elif is_complete and not lists:
        yield "none is told"
    if asked.pick is not None:
        yield from log_faults(module, arguments, asked, lists[asked.pick - 1 : asked.pick], given.log)


def against_walk(walk: Walk, asked: Asked, told: set[Numbers], is_complete: bool) -> Iterator[str]:
    """What the walk says against outcomes that are told."""
    outcomes = asked.outcomes(walk)
    if told - outcomes:
        yield f"no run prints {sorted(told - outcomes)}"
    if is_complete and outcomes - told:
        yield f"left out: {sorted(outcomes - told)}"
    are_few = SPARE * asked.worlds(walk) <= asked.limit
    if not is_complete and len(told) < asked.limit and are_few:
        yield f"not complete, and there are {asked.worlds(walk)} worlds"
    rest = sorted(told.difference(asked.plain(walk.module, walk.arguments)))
    if not asked.sets and are_few and rest != sorted(outcomes - told | {*rest})[: len(rest)]:
        yield "one that isn't told comes before one that is, behind the runs before any search"


def log_faults(module: Module, arguments: Arguments, asked: Asked, picked: list[Numbers], log: bytes) -> Iterator[str]:
    """What is wrong with the log of the outcome that was picked, if there is such an outcome."""
    if not picked:
        if log:
            yield f"there is a log of no outcome: {log!r}"
        return
    try:
        printed = tuple(logs.replay(module, logs.read(log), arguments).printed)
    except logs.Fault as fault:
        yield f"the log is refused: {fault}: {log!r}"
        return
    if asked.told(printed) != picked[0]:
        yield f"the log prints {printed}, and not {picked[0]}: {log!r}"


def main(words: list[str]) -> int:
    more, arguments = modules.parted(words)
    is_module, are_sets, are_counted = (f"--{flag}" in more for flag in ("module", "sets", "count"))
    path, *limit = [word for word in more if not word.startswith("--")]
    lists = [word.removeprefix("--expect=") for word in more if word.startswith("--expect=")]
    data = pathlib.Path(path).read_bytes()
    judged = modules.judge(data) if is_module else source.judge(data)
    line = modules.refusal("outcomes", judged, arguments)
    if line:
        print(f"x10clock: {line}", file=sys.stderr)
        return 1
    asked = Asked(*map(int, limit[:1] or [USUAL_LIMIT]), sets=are_sets)
    try:
        texts = [expected(pathlib.Path(name).read_bytes()) for name in lists[:1]]
    except Stray as fault:
        print(f"x10clock: {fault}", file=sys.stderr)
        return NO_LIST
    walk = Walk(judged.module, arguments)
    told = held(walk, asked, texts[0]) if texts else counted(walk, asked) if are_counted else answer(walk, asked)
    print(told.out, end="")
    return told.status


if __name__ == "__main__":
    sys.exit(main(sys.argv[1:]))
