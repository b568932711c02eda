"""What is asked about a program: whether it is accepted, what it prints, and what of its runs can be shown."""

from __future__ import annotations

import json
from collections.abc import Sequence
from dataclasses import dataclass
from typing import Any

from x10clock import faults
from x10clock.faults import known
from x10clock.library import Answer, Program, call, diagnosis, name_of, verdict


@dataclass(frozen=True)
class Bounds:
    """The most that a run takes, starts and makes."""

    steps: int
    activities: int
    clocks: int


@dataclass(frozen=True)
class Broken:
    """The rule that a source text breaks, as `V11`, and where: line and column are counted from 1, and None where it
    has no place in the text."""

    rule: str
    line: int | None
    column: int | None


@dataclass(frozen=True)
class Run:
    """A run: the numbers that it printed, its steps, its log where one was written, and its rounds where it ran by
    rounds. `whole` is false where it was stopped before all had ended."""

    printed: tuple[int, ...]
    steps: int
    log: bytes = b""
    rounds: int | None = None
    whole: bool = True


@dataclass(frozen=True)
class Outcome:
    """A list of numbers that a run can print, and its number among all outcomes, from 1."""

    number: int
    printed: tuple[int, ...]


@dataclass(frozen=True)
class Outcomes:
    """What a program can print. Where it isn't `complete` there may be more. `log` is a run with the one that was
    picked."""

    all: tuple[Outcome, ...]
    complete: bool
    log: bytes = b""


@dataclass(frozen=True)
class Count:
    """How many outcomes a program has. Where it isn't `complete` there may be more."""

    number: int
    complete: bool


@dataclass(frozen=True)
class Races:
    """How many races are told of a run, as lines, and as an object (docs/FORMATS.md, "As JSON"); and whether these are
    all, else there are more (`whole`). Where there is none, every schedule prints the numbers of this run
    (`every_schedule`); and in this order, if each of its prints comes before the next one (`prints_in_order`)."""

    count: int
    text: str
    told: dict[str, Any]
    whole: bool
    every_schedule: bool
    prints_in_order: bool


@dataclass(frozen=True)
class Standings:
    """How things stand behind so many steps of a log: who can take a step, the shared numbers by their names (of a
    module by their numbers), and the same as an object (docs/FORMATS.md, "As JSON"). It isn't `whole` where a step of
    the log can't be taken, or the log ends before the step that was asked for."""

    steps: int
    able: tuple[int, ...]
    shared: dict[str | int, int]
    whole: bool
    told: dict[str, Any]


@dataclass(frozen=True)
class Span:
    """How long a run had to take: its steps, how many of them had to come one after another, how many its widest round
    has, whether every run has these numbers, and all that is told as an object (docs/FORMATS.md, "As JSON")."""

    work: int
    span: int
    widest: int
    every_schedule: bool
    told: dict[str, Any]

    @property
    def parallelism(self) -> float:
        return self.work / self.span


def _words(command: str, program: Program, arguments: Sequence[int], *options: object, beside: str = "") -> list[str]:
    """The words of a command line: FILE comes behind the options, and then what is read beside it."""
    given = [f"--arg={number}" for number in arguments]
    behind = [beside] if beside else []
    return [command, *(str(option) for option in options), *given, "--", name_of(program), *behind]


def _option(name: str, value: object) -> tuple[object, ...]:
    """An option with its value, where there is one."""
    return () if value is None or value is False else (name,) if value is True else (name, value)


def _asked(words: Sequence[str], program: Program, beside: Program = b"") -> Answer:
    return known(call(words, program, beside))


def _lines(answer: Answer) -> list[str]:
    return answer.out.decode().splitlines()


def _value(answer: Answer) -> dict[str, Any]:
    """The JSON object that an answer tells."""
    found: dict[str, Any] = json.loads(answer.out)
    return found


def _run_in(answer: Answer) -> Run:
    """The run that an answer tells: its numbers, and then `ended steps 19`, or `stopped steps 3`."""
    *numbers, last = _lines(answer)
    words = last.split()
    rounds = int(words[4]) if len(words) > 4 else None
    return Run(tuple(map(int, numbers)), int(words[2]), answer.log, rounds, words[0] == "ended")


def check(program: Program) -> Bounds:
    """The bounds on the runs of a program. Raises `Refused` where it isn't accepted."""
    status, told = verdict(program)
    if status != faults.DONE:
        known(call(_words("check", program, ()), program))
    return Bounds(told.steps, told.activities, told.clocks)


def diagnose(program: Program) -> Broken | None:
    """The rule that a source text breaks, and in which line and column; None where it is accepted. Faster than
    `explain`, which says more."""
    status, told = diagnosis(program)
    if status == faults.DONE:
        return None
    if status != faults.PROGRAM:
        raise faults.OutOfMemory(Answer(status, b"", b"", b""))
    return Broken(f"{' FV'[told.family]}{told.number}", told.line or None, told.column or None)


def explain(program: Program) -> dict[str, Any]:
    """Where and why a program is refused, or what is known of one that is accepted (docs/EXPLAIN.md, "As JSON")."""
    answer = call(_words("explain", program, (), "--json"), program)
    if answer.status not in (faults.DONE, faults.PROGRAM):
        known(answer)
    return _value(answer)


def run(
    program: Program, *arguments: int, order: str = "first", seed: int | None = None, processors: int | None = None
) -> Run:
    """The run in an order (`first`, `last`, `round`, `random`, `greedy`), with its log."""
    options = ("--order", order, *_option("--seed", seed), *_option("--processors", processors), "--log", "log")
    answer = _asked(_words("run", program, arguments, "--json", *options), program)
    told = _value(answer)
    return Run(tuple(told["printed"]), told["steps"], answer.log, told.get("rounds"))


def replay(program: Program, log: Program, *arguments: int) -> Run:
    """The run again that a log has. Raises `BadLog` where that is none of the program's."""
    return _run_in(_asked(_words("replay", program, arguments, beside="log"), program, log))


def outcomes(
    program: Program, *arguments: int, limit: int | None = None, pick: int = 1, sets: bool = False
) -> Outcomes:
    """All that a program can print, and the log of a run with the outcome that is picked."""
    options = (*_option("--limit", limit), "--pick", pick, "--log", "log", *_option("--sets", sets))
    answer = _asked(_words("outcomes", program, arguments, "--json", *options), program)
    told = _value(answer)
    found = (Outcome(number, tuple(printed)) for number, printed in enumerate(told["outcomes"], start=1))
    return Outcomes(tuple(found), told["complete"], answer.log)


def count(program: Program, *arguments: int, limit: int | None = None, sets: bool = False) -> Count:
    """How many outcomes there are, which aren't listed: so there may be millions of them."""
    options = ("--count", *_option("--limit", limit), *_option("--sets", sets))
    answer = _asked(_words("outcomes", program, arguments, *options), program)
    return Count(int(_lines(answer)[0].split()[1]), answer.status == faults.DONE)


def _outcome(line: str) -> Outcome:
    """`outcome 2 prints 1 2`."""
    words = line.split()
    return Outcome(int(words[1]), tuple(map(int, words[3:])))


def held_against(
    program: Program, expected: Program, *arguments: int, limit: int | None = None, sets: bool = False
) -> Outcome | bool:
    """The first outcome that isn't in a list of those that may be; or whether it is certain that there is none."""
    options = ("--expect", "list", *_option("--limit", limit), *_option("--sets", sets))
    answer = _asked(_words("outcomes", program, arguments, *options), program, expected)
    if answer.status == faults.REFUTED:
        return _outcome(_lines(answer)[0])
    return answer.status == faults.DONE


def events(program: Program, log: Program, *arguments: int) -> list[dict[str, Any]]:
    """What others see of each step of the run that a log has (docs/FORMATS.md, "As JSON"). Where the log ends before
    the run does, a last one says so."""
    answer = _asked(_words("events", program, arguments, "--json", beside="log"), program, log)
    return [json.loads(line) for line in _lines(answer)]


def races(program: Program, *arguments: int, log: Program | None = None) -> Races:
    """The races of the run in the order `first`, or of the one that a log has."""
    beside, read = ("", b"") if log is None else ("log", log)
    text = _asked(_words("races", program, arguments, beside=beside), program, read).out.decode()
    told = _value(_asked(_words("races", program, arguments, "--json", beside=beside), program, read))
    facts = (told["whole"], told["every_schedule"], told["prints_in_order"])
    return Races(len(told["races"]), text, told, *facts)


def where(program: Program, log: Program, *arguments: int, at: int | None = None) -> str:
    """Where each activity stands behind the steps that a log has, or behind one of them."""
    words = _words("where", program, arguments, *_option("--at", at), beside="log")
    return _asked(words, program, log).out.decode()


def standings(program: Program, log: Program, *arguments: int, at: int | None = None) -> Standings:
    """The same as an object: where each activity stands, what its names hold, whom it awaits; clocks; shared
    numbers."""
    words = _words("where", program, arguments, "--json", *_option("--at", at), beside="log")
    answer = _asked(words, program, log)
    told = _value(answer)
    able = tuple(one["act"] for one in told["activities"] if one["does"] == "can step")
    shared = {one.get("name", one["shared"]): one["value"] for one in told["shared"]}
    return Standings(told["steps"], able, shared, answer.status == faults.DONE, told)


def span(program: Program, log: Program, *arguments: int) -> Span:
    """How parallel the run is that a log has: a critical path, who came last at each phase, where activities waited."""
    told = _value(_asked(_words("span", program, arguments, "--json", beside="log"), program, log))
    return Span(told["work"], told["span"], told["widest"], told["every_schedule"], told)


def page(program: Program, log: Program, *arguments: int, path: bool = False) -> bytes:
    """An HTML page of the run that a log has, with its critical path on demand."""
    return _asked(_words("page", program, arguments, *_option("--path", path), beside="log"), program, log).out


def page_of_outcome(program: Program, number: int, *arguments: int, limit: int | None = None) -> bytes:
    """An HTML page of a run with this outcome, by its number among all."""
    options = ("--outcome", number, *_option("--limit", limit))
    return _asked(_words("page", program, arguments, *options), program).out
