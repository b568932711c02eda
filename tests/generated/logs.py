#!/usr/bin/env python3
"""Logs and what is told of them: whether the reference (tests/reference/logs.py, runs.py) says what the rows of
tests/program/logs.rows want, and, with `--program`, whether the program says the same of these rows, and of logs that
nobody wrote.

    python3 -m tests.generated.logs [CASES] [SEED] [--program PATH | --alone] [--jobs N] [--tally]

2,000 cases, seed 1 and 2 jobs where nothing else is said. A case is a program, as a source text or a module, and the
log of a run by an order or by chance, which may be changed: an entry, a line, or a byte. Five cases in a row have the
same program, which is run with `--log` in some order; the program is asked of each log for what runs.py names
(`COMMANDS`). The reference is held against itself, too: what is written is read back, no beginning of a text is a text,
and entries that are joined give the same run. The rows are asked of the program twice: as they are, and of the modules
that their programs are compiled to; and so are runs with about as many activities as have lanes. `--tally` tells how
often the program gave each answer.
"""

from __future__ import annotations

import argparse
import collections
import concurrent.futures
import functools
import itertools
import pathlib
import random
import re
import sys
import tempfile
import zlib
from collections.abc import Callable, Iterator
from dataclasses import dataclass, replace

from tests import harness
from tests.generated import generated, generated_source, tally
from tests.harness import TOP
from tests.reference import events, logs, modules, runs, source
from tests.reference.logs import Answer, Entry, Fault, Log
from tests.reference.modules import Accepted, Arguments, ByChance, Greedy, Order, Refused, Way

ROWS = TOP / "tests/program/logs.rows"
IN_STEP = TOP / "tests/program/rows/in-step.x10"
NEW_LINE = b"\n"
MOST_STEPS = 600
# Of the edges of a log all but the replay and the chart is asked for at one in so many.
SPARED = 10
CHUNK = 100
LOGS_OF_A_PROGRAM = 5
SHOWN = 5

ASKED = re.compile(r"(log|chart)(?: (last|round))?:(?: (.*))?|(replay|chart) (.*?): ?(.*)")
ORDERS: dict[str | None, Way] = {None: Order.FIRST, "last": Order.LAST, "round": Order.ROUND}
# The numbers that a program is given in the rows behind this one.
GIVEN = "args:"
# So many activities beside main have no lanes, or one each.
WIDE = (
    b"def main(n: Long) { val c = Clock.make(); "
    b"for (i in 1..Math.min(n, 66)) async clocked(c) Clock.advanceAll(); Clock.advanceAll(); }"
)
WIDTHS = (63, 64, 66)


# Programs.


@dataclass(frozen=True)
class Text:
    """The text of a program, and the numbers that it is given."""

    data: bytes
    is_module: bool = False
    arguments: Arguments = ()

    @functools.lru_cache(maxsize=4)
    def judged(self) -> Accepted | Refused:
        return modules.judge(self.data) if self.is_module else source.judge(self.data)

    def read(self) -> events.Program:
        """It as it is read from standard input."""
        return events.Program(self.data, self.is_module)

    def words(self) -> list[str]:
        return [*(["--module"] if self.is_module else []), *(f"--arg={number}" for number in self.arguments)]

    def given(self, *arguments: int) -> Text:
        """The same program with these numbers."""
        return replace(self, arguments=arguments)

    def compiled(self) -> Text:
        return Text(source.module_text(self.data).encode(), True, self.arguments)


# Who answers.


def step_asked(log: bytes) -> int:
    """The step that `why` is asked of: one of the run, which others see or not, or the one behind its last."""
    ends = logs.END.search(log)
    return 1 + zlib.crc32(log) % (min(int(ends[1]), MOST_STEPS) + 1 if ends else MOST_STEPS)


class Told:
    """The reference."""

    def run(self, text: Text, way: Way) -> tuple[Answer, bytes]:
        """What a run prints, and its log."""
        module = text.judged().module
        log = logs.log_of(module, way, text.arguments)
        return (0, modules.run(module, way, text.arguments).text(), ""), logs.text_of(log)

    def answer(self, text: Text, log: bytes, command: str) -> Answer:
        return runs.answer(command, text.judged(), text.read(), log, text.arguments, step=step_asked(log))


class Program:
    """The built program, with files in a folder of its own."""

    def __init__(self, program: pathlib.Path, folder: str) -> None:
        self.program, self.folder = program, pathlib.Path(folder)
        self.answers: collections.Counter[str] = collections.Counter()

    def call(self, *words: object, given: bytes = b"") -> Answer:
        answer = harness.call([self.program, *words], given).texts()
        self.answers[tally.label(answer[0], answer[2])] += 1
        return answer

    def form(self, text: Text) -> Text:
        """What it is asked about for a text."""
        return text

    def run(self, text: Text, way: Way) -> tuple[Answer, bytes]:
        file, log, text = self.folder / "text", self.folder / "made", self.form(text)
        file.write_bytes(text.data)
        log.write_bytes(b"something that was there before")
        answer = self.call("run", *text.words(), *way.words(), "--log", log, file)
        return answer, log.read_bytes()

    def answer(self, text: Text, log: bytes, command: str) -> Answer:
        given, text = self.folder / "log", self.form(text)
        given.write_bytes(log)
        steps = [step_asked(log)] if command == "why" else []
        return self.call(command, *text.words(), "-", given, *steps, given=text.data)


class ProgramOnModules(Program):
    """The same, asked about the module that a source text is compiled to."""

    def form(self, text: Text) -> Text:
        return text if text.is_module else text.compiled()


# Rows.


def wanted(line: str, command: str) -> Answer:
    """The answer that a row has."""
    if line.startswith("x10clock: "):
        return 3 if line.startswith("x10clock: L") else 1, "", line + "\n"
    return 0, "".join(f"{part}\n" for part in line.split(",")) if line or command != "chart" else "", ""


def row_differences(who: Told | Program) -> tuple[int, list[str]]:
    """How many questions the rows have, and which are answered otherwise."""
    count, differing, text = 0, [], Text(b"")

    def said(question: str, row: object, got: object) -> None:
        nonlocal count
        count += 1
        if row != got:
            differing.append(f"{text.data.decode()}\n    {question}\n    row: {row}\n    {type(who).__name__}: {got}")

    for line in ROWS.read_text().split("\n"):
        if not line or line.startswith("#"):
            continue
        if line.startswith(GIVEN):
            text = text.given(*map(int, line.removeprefix(GIVEN).split()))
            continue
        asked = ASKED.fullmatch(line)
        if not asked:
            text = Text(line.encode())
            continue
        made, order, line_wanted, command, log, answer = asked.groups()
        if made == "log":
            entries = [Entry(int(activity), 1) for activity in line_wanted.split()]
            said(line, logs.text_of(entries), who.run(text, ORDERS[order])[1])
        elif made:
            said(line, wanted(line_wanted or "", "chart"), who.answer(text, who.run(text, ORDERS[order])[1], "chart"))
        else:
            said(line, wanted(answer, command), who.answer(text, log.replace("|", "\n").encode(), command))
    return count, differing


def edge_differences(who: Told | Program) -> tuple[int, list[str]]:
    """The same of each beginning of a log, and of a log with one byte more, whichever it is."""
    text = Text(IN_STEP.read_bytes())
    log = who.run(text, Order.FIRST)[1]
    asked = [(log[:end], "x10clock: L2 Truncated") for end in range(len(log))]
    behind = f"x10clock: L1 Grammar line {log.count(NEW_LINE) + 1}"
    asked += [(log + bytes([more]), behind) for more in range(256)]
    spared = [command for command in runs.COMMANDS if command not in ("replay", "chart")]
    questions = [*itertools.product(asked, ("replay", "chart")), *itertools.product(asked[::SPARED], spared)]
    differing = []
    for (given, line), command in questions:
        got = who.answer(text, given, command)
        if got != wanted(line, command):
            differing.append(f"{command} {given!r}\n    wanted: {line}\n    {type(who).__name__}: {got}")
    return len(questions), differing


def wide_differences(program: Program) -> tuple[int, list[str]]:
    """The same of runs with many activities, as the reference has them."""
    texts = [program.form(Text(WIDE).given(width)) for width in WIDTHS]
    differing = [what for text in texts for what in log_differences(text, Told().run(text, Order.ROUND)[1], program)]
    return len(runs.COMMANDS) * len(texts), differing


# Logs that nobody wrote.


def any_text(rng: random.Random) -> Text:
    """A program, as a source text or as a module."""
    if rng.random() < 0.3:
        return Text(generated.text_of(rng, generated.program(rng)), is_module=True)
    return Text(generated_source.text_of(rng, generated_source.program(rng)))


def any_way(rng: random.Random) -> Way:
    """An order, or one by chance from a seed, or by rounds on some processors."""
    seed = rng.choice([0, 1, rng.randrange(2**64), 2**64 - 1])
    return rng.choice([*Order, ByChance(seed), ByChance(seed), Greedy(), Greedy(rng.choice([1, 2, 3, 2**64 - 1]))])


def accepted_text(rng: random.Random) -> tuple[Text, Accepted]:
    """A program that is accepted, and isn't long, with as many numbers as it wants."""
    while True:
        text = any_text(rng)
        judged = text.judged()
        if isinstance(judged, Accepted) and judged.bounds.steps <= MOST_STEPS:
            return text.given(*generated.arguments(rng, judged.module.wants)), judged


def by_chance(rng: random.Random, module: modules.Module, arguments: Arguments) -> Log:
    """The log of a run in which whoever can step may be next, and stays so for a while."""
    played, log = logs.Played.opening(module, arguments), []
    stay = rng.choice([0.0, 0.5, 0.9])
    while not played.world.has_ended:
        everybody = range(len(played.world.activities))
        before = log[-1:] if rng.random() < stay else []
        who = next(
            who
            for who in [*(entry.activity for entry in before), *rng.sample(everybody, len(everybody))]
            if played.step(who)
        )
        log.append(Entry(who, 1))
    return log


def joined(rng: random.Random, log: Log) -> Log:
    """The same schedule, with some entries made one."""
    made: Log = []
    for entry in log:
        if made and made[-1].activity == entry.activity and rng.random() < 0.8:
            made[-1] = Entry(entry.activity, made[-1].steps + entry.steps)
        else:
            made.append(entry)
    return made


EDGES = (0, 1, 2, 3, logs.GREATEST - 1, logs.GREATEST, logs.GREATEST + 1)


def changed_entries(rng: random.Random, log: Log) -> Log:
    """An entry dropped, doubled, put in, of more steps or another one; two in another order; or the rest gone."""
    log, at = list(log), rng.randrange(len(log))
    entry = log[at]
    other = Entry(
        rng.choice([entry.activity, rng.randrange(4), rng.choice(EDGES)]),
        rng.choice([1, entry.steps + 1, rng.choice(EDGES)]),
    )
    match rng.randrange(7):
        case 0:
            del log[at]
        case 1:
            log.insert(at, entry)
        case 2:
            log.insert(at, other)
        case 3:
            log[at] = Entry(entry.activity, entry.steps + rng.choice([1, 1, 2, 100, logs.GREATEST - entry.steps]))
        case 4:
            log[at] = other
        case 5:
            to = rng.randrange(len(log))
            log[at], log[to] = log[to], log[at]
        case _:
            del log[at:]
    return log


def changed_lines(rng: random.Random, text: bytes) -> bytes:
    lines = text.splitlines(keepends=True)
    at = rng.randrange(len(lines))
    match rng.randrange(6):
        case 0:
            del lines[at]
        case 1:
            lines.insert(at, rng.choice(lines))
        case 2:
            lines[at] = rng.choice(
                [b"\n", b" \n", b"end 0\n", b"0 1", b"x10log 1\n", b"end\n", b"0 1\r\n", b"1" * 21 + b"\n", b"1" * 22]
            )
        case 3:
            lines[at] = lines[at].replace(b" ", rng.choice([b"  ", b"\t", b" 0", b" +", b" -", b""]), 1)
        case 4:
            lines[-1] = b"end %d\n" % (len(lines) - 2 + rng.choice([-1, 0, 1, 10]))
        case _:
            return text[: rng.randrange(len(text))]
    return b"".join(lines)


def changed_byte(rng: random.Random, text: bytes) -> bytes:
    """Another byte in one place: mostly one that logs have."""
    at = rng.randrange(len(text))
    return (
        text[:at] + bytes([rng.choice(b"0123456789 \n") if rng.random() < 0.8 else rng.randrange(256)]) + text[at + 1 :]
    )


SPOILS = [bytes([sign]) for sign in b"0123456789 endx\n\r\t+-.\x00\xff"] + [b"end ", b"00", b"\n\n"]


def log_of_case(rng: random.Random, module: modules.Module, arguments: Arguments) -> bytes:
    """The log of a run, as it is or changed."""
    in_order = rng.random() < 0.4
    log = logs.log_of(module, any_way(rng), arguments) if in_order else by_chance(rng, module, arguments)
    log = joined(rng, log) if rng.random() < 0.6 else log
    way = rng.random()
    if way < 0.3:
        log = changed_entries(rng, log)
    text = logs.text_of(log)
    changes: list[Callable[[], bytes]] = [
        lambda: changed_lines(rng, text),
        lambda: changed_byte(rng, text),
        lambda: generated.changed_bytes(rng, text, SPOILS),
    ]
    return text if way < 0.6 else rng.choice(changes)()


def differences(rng: random.Random, program: Program | None, cases: int) -> Iterator[str]:
    """What differs in a run of a program, and in so many cases of it."""
    text, judged = accepted_text(rng)
    way = any_way(rng)
    right = Told().run(text, way)
    yield from against_itself(rng, text, right[1], way)
    if program and (got := program.run(text, way)) != right:
        yield shown(text, f"run {' '.join(way.words())} --log", right, got)
    for _ in range(cases):
        # Now and then with other numbers than those of the run, or another count of them.
        other = text.given(*generated.arguments(rng, judged.module.wants + rng.choice([0, 0, 0, 1])))
        yield from log_differences(
            other if rng.random() < 0.1 else text, log_of_case(rng, judged.module, text.arguments), program
        )


def log_differences(text: Text, given: bytes, program: Program | None) -> Iterator[str]:
    """What the program says otherwise of a log."""
    for command in runs.COMMANDS:
        right = Told().answer(text, given, command)
        if program and (got := program.answer(text, given, command)) != right:
            yield shown(text, f"{command} {given!r}", right, got)


def shown(text: Text, question: str, right: object, got: object) -> str:
    return f"{text}\n    {question}\n    reference: {right}\n    program:   {got}"


def against_itself(rng: random.Random, text: Text, written: bytes, way: Way) -> Iterator[str]:
    """What has to hold of the reference alone, of the log that was written of a run."""
    module, log = text.judged().module, logs.read(written)
    played = logs.replay(module, log, text.arguments)
    ran = modules.run(module, way, text.arguments)
    if (played.printed, played.steps) != (ran.printed, ran.steps):
        yield f"another run: {written!r}"
    again = logs.replay(module, joined(rng, log), text.arguments)
    for command in runs.OF_RUNS:
        tell = runs.teller(command, text.read())
        if tell(again) != tell(played):
            yield f"joined entries give another run, by {command}: {written!r}"
    yield from where_against_itself(rng, text, log)
    for end in (0, 1, len(written) - 1, *(rng.randrange(len(written)) for _ in range(3))):
        yield from refused_so(written[:end], "L2 Truncated")
    yield from refused_so(written + bytes([rng.randrange(256)]), f"L1 Grammar line {len(log) + 3}")


def where_against_itself(rng: random.Random, text: Text, log: Log) -> Iterator[str]:
    """Of the beginning of a log each step can be taken; joined entries lead to the same place; and behind all of it
    nobody can step."""
    begun = log[: rng.randrange(len(log))]
    status, told, _ = answer = Told().answer(text, logs.text_of(begun), runs.WHERE)
    if status or not told.startswith(f"steps {sum(entry.steps for entry in begun)}\n"):
        yield f"not the place behind these steps: {begun} {told}"
    if Told().answer(text, logs.text_of(joined(rng, begun)), runs.WHERE) != answer:
        yield f"joined entries lead elsewhere: {begun}"
    more = Entry(rng.choice(log).activity, 2)
    status, told, _ = Told().answer(text, logs.text_of([*log, more]), runs.WHERE)
    if not status or not told.endswith(f"entry {len(log)} step 1 of 2: act {more.activity} has ended\n"):
        yield f"a step behind the end: {log} {told}"


def refused_so(text: bytes, line: str) -> Iterator[str]:
    try:
        logs.read(text)
        yield f"not refused: {text!r}"
    except Fault as fault:
        if str(fault) != line:
            yield f"{fault}, and not {line}: {text!r}"


@dataclass(frozen=True)
class Job:
    seed: int
    program: pathlib.Path | None

    def of_cases(self, cases: range) -> tuple[collections.Counter[str], list[tuple[int, str]]]:
        with tempfile.TemporaryDirectory() as folder:
            program = self.program and Program(self.program, folder)
            firsts = range(cases.start, cases.stop, LOGS_OF_A_PROGRAM)
            found = [
                (first, what)
                for first in firsts
                for what in differences(
                    random.Random(f"{self.seed} {first}"), program, min(LOGS_OF_A_PROGRAM, cases.stop - first)
                )
            ]
            return program.answers if program else collections.Counter(), found


def words() -> argparse.Namespace:
    parser = argparse.ArgumentParser(description="Compares what is said of logs with the reference.")
    parser.add_argument("cases", nargs="?", type=int, default=2_000)
    parser.add_argument("seed", nargs="?", type=int, default=1)
    parser.add_argument("--jobs", type=int, default=2)
    harness.add_program_or_none(parser)
    parser.add_argument("--tally", action="store_true")
    return parser.parse_args()


def asked_of(who: Told | Program) -> tuple[int, list[str]]:
    found = [
        row_differences(who),
        edge_differences(who),
        *([wide_differences(who)] if isinstance(who, Program) else []),
    ]
    return sum(count for count, _ in found), [what for _, differing in found for what in differing]


def main() -> int:
    given = words()
    program = given.program
    answers: collections.Counter[str] = collections.Counter()
    count, differing = asked_of(Told())
    for form in (Program, ProgramOnModules) if program else ():
        with tempfile.TemporaryDirectory() as folder:
            asked = form(program, folder)
            more, others = asked_of(asked)
        answers += asked.answers
        count, differing = count + more, differing + others
    chunks = [range(start, min(start + CHUNK, given.cases)) for start in range(0, given.cases, CHUNK)]
    with concurrent.futures.ProcessPoolExecutor(given.jobs) as pool:
        for counted, found in pool.map(Job(given.seed, program).of_cases, chunks):
            answers += counted
            differing += [f"case {case}: {what}" for case, what in found]
    if given.tally:
        tally.show(answers)
    print(*differing[:SHOWN], sep="\n", end="\n" if differing else "", file=sys.stderr)
    print(f"logs: {count} rows, {given.cases} cases, {len(differing)} told otherwise")
    return 1 if differing or not count else 0


if __name__ == "__main__":
    sys.exit(main())
