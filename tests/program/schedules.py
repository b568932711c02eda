#!/usr/bin/env python3
"""Schedules of small modules: whether the reference (tests/reference/modules.py, logs.py) says of them what the rows of
tests/program/schedules.rows want, and whether the program says the same of their logs.

    python3 -m tests.program.schedules [--program PATH]

The reference knows no phases and no numbers of steps: they are counted here. Where all schedules of a module are known,
the program has to tell of all that they print by `outcomes`, and replays and charts the log of each, or, where there
are more than 100, of 60 that are spread evenly among them; of one in five it tells the events and draws the lanes, too.
The rows of tests/program/texts.rows are of programs as texts, which are carried out by tests/reference/meaning.py and
by their modules.
"""
from __future__ import annotations

import argparse
import re
import sys
import tempfile
from collections import Counter
from dataclasses import dataclass, field

from tests import harness
from tests.generated.logs import Program, Text, Told, wanted
from tests.harness import TOP
from tests.reference import logs, meaning, modules, outcomes, runs, source
from tests.reference.modules import World, Wrong

MOST, SOME, TOLD = 100, 60, 5

PRINTED = re.compile(r"(\d+) print((?: -?\d+)*)")
KNOWN = re.compile(r"(?:halted at (\d+): |.*)clocks.* since(.*?) (?:able(.*)|over)")


@dataclass
class Asked:
    """How much was asked, and how much of it was told otherwise."""

    count: int = 0
    wrong: int = 0

    def said(self, question: str, row: object, got: object) -> None:
        self.count += 1
        if got != row:
            self.wrong += 1
            print(f"{question}\n    row:  {row}\n    told: {got}", file=sys.stderr)


# One schedule.


@dataclass
class Known:
    """What is known of a run, as a row has it."""

    module: modules.Module
    world: World
    seen: list[str] = field(default_factory=list)
    phases: list[int] = field(default_factory=list)
    last: list[int] = field(default_factory=list)
    since: list[int] = field(default_factory=lambda: [0])

    def step(self, who: int, number: int) -> bool:
        """The step of this number is one of this activity, if it can step."""
        taken = modules.step(self.module, self.world, who)
        if taken is None:
            return False
        if taken.event:
            self.seen.append(taken.event)
        match taken.event:
            case "Passed":
                self.since[who] = number
            case "Spawned":
                self.since.append(self.since[who])
            case "Made":
                self.phases.append(0)
                self.last.append(0)
        for clock in taken.advanced:
            self.phases[clock] += 1
            self.last[clock] = number
        self.world = taken.world
        return True

    def text(self, begin: str) -> str:
        able = [who for who in range(len(self.world.activities)) if modules.step(self.module, self.world, who)]
        clocks = "".join(f" {phase}@{last}" for phase, last in zip(self.phases, self.last))
        since = "".join(f" {step}" for step in self.since)
        end = " over" if self.world.has_ended else " able" + "".join(f" {who}" for who in able)
        return f"{begin}clocks{clocks} since{since}{end}"


def known_of(text: Text, schedule: list[int]) -> str:
    module = text.judged().module
    known = Known(module, modules.opening(module, text.arguments))
    for at, who in enumerate(schedule):
        if not known.step(who, at + 1):
            return known.text(f"halted at {at}: ")
    return known.text("".join(f"{event} " for event in known.seen))


def log_of(schedule: list[int]) -> bytes:
    """The log with an entry for each step."""
    return logs.text_of([logs.Entry(who, 1) for who in schedule])


def ask_able(asked: Asked, program: Program, text: Text, schedule: list[int], known: str) -> None:
    """Whether those can step behind a schedule, or where it is halted, of whom a row says so: by the log with a step of
    each."""
    at, since, able = KNOWN.fullmatch(known).groups()
    done = schedule if at is None else schedule[: int(at)]
    for who in range(len(since.split())):
        can_step = str(who) in (able or "").split()
        line = "x10clock: L5 NotEnded" if can_step else f"x10clock: L4 NotEnabled entry {len(done)}"
        given = log_of([*done, who])
        asked.said(f"{text}\n    replay {given!r}", wanted(line, "replay"), program.answer(text, given, "replay"))


# All schedules.


@dataclass
class Every:
    """All schedules of a module that come to the end, in the order of the numbers that they have, and the world in
    which they begin."""

    module: modules.Module
    start: World
    known: dict[World, Counter[str]] = field(default_factory=dict)

    def steps(self, world: World) -> list[tuple[int, modules.Step]]:
        """The steps that can be taken, and who takes them."""
        return [
            (who, taken) for who in range(len(world.activities)) if (taken := modules.step(self.module, world, who))
        ]

    def printed(self, world: World) -> Counter[str]:
        """What the schedules from here print, and how many of them do."""
        if world not in self.known:
            steps = self.steps(world)
            printed: Counter[str] = Counter() if steps else Counter({"": 1})
            for _, taken in steps:
                begin = "" if taken.printed is None else f" {taken.printed}"
                printed.update({begin + rest: count for rest, count in self.printed(taken.world).items()})
            self.known[world] = printed
        return self.known[world]

    def schedule(self, place: int) -> list[int]:
        """The one in this place."""
        world, schedule = self.start, []
        while steps := self.steps(world):
            for who, taken in steps:
                count = self.printed(taken.world).total()
                if place < count:
                    break
                place -= count
            schedule.append(who)
            world = taken.world
        return schedule


def ask_outcomes(asked: Asked, program: Program, text: Text, printed: list[str]) -> None:
    """Whether the program tells of all that the schedules print."""
    file = program.folder / "text"
    file.write_bytes(text.data)
    status, out, err = program.call("outcomes", *text.words(), file)
    lists, is_complete = outcomes.read(out) or ([], False)
    told = sorted("".join(f" {number}" for number in numbers) for numbers in lists)
    wanted = 0, sorted(printed), True, ""
    asked.said(f"{text}\n    outcomes", wanted, (status, told, is_complete, err))


def ask_every(asked: Asked, program: Program, text: Text, row: str) -> None:
    """How many schedules print what; and some of them, or all, are replayed and charted."""
    module = text.judged().module
    every = Every(module, modules.opening(module, text.arguments))
    printed, known = every.printed(every.start), {numbers: int(count) for count, numbers in PRINTED.findall(row)}
    asked.said(f"{text}\n    every", known, dict(printed))
    ask_outcomes(asked, program, text, [*known])
    total = printed.total()
    count = total if total <= MOST else SOME
    for at in range(count):
        given = log_of(every.schedule(at * total // count))
        for command in ("replay", "chart") if at % TOLD else runs.COMMANDS:
            asked.said(
                f"{text}\n    {command} {given!r}",
                Told().answer(text, given, command),
                program.answer(text, given, command),
            )


# The rows.


def ask_rows(asked: Asked, program: Program) -> None:
    """The rows of modules."""
    text, schedule = Text(b""), []
    for line in (TOP / "tests/program/schedules.rows").read_text().splitlines():
        if line.startswith("{"):
            text = Text(line.encode(), is_module=True)
        if not line or line[0] in "{#":
            continue
        name, row = line.split(":", 1)
        row = row.strip()
        match name:
            case "every":
                ask_every(asked, program, text, row)
            case "args":
                text = text.given(*map(int, row.split()))
            case "by":
                schedule = [int(who) for who in row.split()]
            case "known":
                asked.said(f"{text}\n    by {schedule}", row, known_of(text, schedule))
                ask_able(asked, program, text, schedule, row)
            case _:
                for command in ("replay", "chart") if name == "refused" else (name,):
                    for who in (Told(), program):
                        question = f"{text}\n    {command} of {schedule}, {type(who).__name__}"
                        asked.said(question, wanted(row, command), who.answer(text, log_of(schedule), command))


def seen_of(world: meaning.World, schedule: str) -> str:
    """What others see of a schedule, as a row of a text has it."""
    seen, places = [], [int(place) for place in schedule.split()]
    for at, who in enumerate(places):
        try:
            event = world.take(who) if who < world.count() else None
        except Wrong:
            event = "wrong"
        if event:
            seen.append(event)
        if event in (None, "wrong"):
            seen += ["halted"] if event is None else []
            return " ".join(seen) + ("" if at == len(places) - 1 else f" at {at}")
    return " ".join(seen + ["over"] if world.shown()[2] else seen)


def texts() -> list[tuple[str, str, str, str, str]]:
    """The rows of texts: the text, the numbers that it is given, its schedule, its module's schedule, what is seen."""
    row = r"^(.+)\n(?:args: (.*)\n)?text: (.*)\nmodule: (.*)\nseen: (.*)$"
    return re.findall(row, (TOP / "tests/program/texts.rows").read_text(), re.MULTILINE)


def ask_texts(asked: Asked) -> None:
    """The rows of texts, of the reference alone."""
    for text, args, own, compiled, seen in texts():
        tree, arguments = source.parse(text.encode()), tuple(map(int, args.split()))
        module = modules.read_module(source.module_text(text.encode()).encode())
        asked.said(f"{text}\n    text: {own}", seen, seen_of(meaning.Program(tree, arguments), own))
        asked.said(f"{text}\n    module: {compiled}", seen, seen_of(meaning.Machine(module, arguments), compiled))


def words() -> argparse.Namespace:
    parser = argparse.ArgumentParser(
        description="Compares what is known of schedules with the reference, and asks the program."
    )
    harness.add_program(parser)
    return parser.parse_args()


def main() -> int:
    program, asked = words().program, Asked()
    ask_texts(asked)
    with tempfile.TemporaryDirectory() as folder:
        ask_rows(asked, Program(program, folder))
    print(f"schedules: {asked.count} rows, {asked.wrong} told otherwise")
    return 1 if asked.wrong or not asked.count else 0


if __name__ == "__main__":
    sys.exit(main())
