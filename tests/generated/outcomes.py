#!/usr/bin/env python3
"""Small programs that nobody wrote: whether `outcomes` tells all that they print, and nothing else, as a walk through
all schedules finds it (tests/reference/outcomes.py), each outcome with a log that prints it.

    python3 -m tests.generated.outcomes [CASES] [SEED] [--sets] [--program PATH] [--jobs N] [--worlds N] [--tally]
                                        [--only CASE]

The first cases are those of the folder closed-sets: written by hand, for none that is made by chance shows where one
premise of the laws on closed sets is left out. 300 cases, seed 1, 2 jobs, crates/x10clock/out/x10clock and 3,000 worlds
at most where nothing else is said. A program has 2 to 4 activities that print, and mostly shared numbers, clocks and
finishes; some are asked about as their modules, some take numbers. The program is asked with no limit, for the log of
each outcome, or of 8 that are spread evenly, for that of one which there isn't, and with a limit; with `--sets` the
same where the order of numbers doesn't count. Each log is played again by the program, and by the reference. The page
of an outcome has to be that of its log, as `page` makes it of FILE and LOG, and where there is no such outcome a line
says so. All outcomes are held against lists, too: against what the program told, in another order, against that without
one line or with another, and with a limit.
`--tally` tells how often each answer was given; `--only` prints one program alone.
"""

from __future__ import annotations

import argparse
import collections
import concurrent.futures
import pathlib
import random
import sys
import tempfile
from collections.abc import Callable, Iterator
from dataclasses import dataclass, field

from tests import harness
from tests.generated import generated, generated_source, tally
from tests.generated.generated_source import Tokens, Writer
from tests.generated.logs import Program, Text
from tests.reference import command_line, outcomes
from tests.reference.modules import Accepted
from tests.reference.outcomes import Answer, Asked, Walk

CHUNK = 10
SHOWN = 5
ORDERS = ("first", "last", "round")
# What `races` says at its end.
THIS_RUN, THESE_NUMBERS, THIS_ORDER = (
    "of this run alone", "every schedule prints these numbers", "every schedule prints these numbers in this order"
)
# Logs of so many outcomes of a program are looked at.
LOGS = 8
ACTIVITIES = range(2, 5)
WRITTEN = sorted((pathlib.Path(__file__).parent / "closed-sets").glob("*.x10"))
MOST_STEPS = 70


# Programs.


class SmallWriter(Writer):
    """Writes small programs in which much depends on who goes first."""

    def __init__(self, rng: random.Random) -> None:
        super().__init__(rng)
        self.most_steps, self.most_activities = rng.choice([25, 35, 45, 60]), rng.choice([1, 2, 2, 3, 3])
        self.length, self.slip, self.risk, self.forget = rng.choice([2, 3, 4, 5]), 0, 0, 0

    def expr(self, depth: int = 0) -> Tokens:
        """Mostly a number that a name stands for."""
        numbers = self.numbers()
        if depth or self.rng.random() < 0.2:
            return super().expr(depth + 2)
        self.spend(1)
        return [self.rng.choice(numbers).name] if numbers else [str(self.rng.randrange(10))]

    def ways(self, alone: bool) -> list[Callable[[], bool]]:
        ways: list[Callable[[], bool]] = (
            [self.show] * 4 + [self.share] * 3 + [self.advance, self.call, self.resume, self.drop, self.branch]
        )
        ways += [] if alone else [self.number] * 3 + [self.make] * 2
        return ways + ([self.start] * 6 + [self.finish, self.loop] if self.depth < 4 else [])


@dataclass(frozen=True)
class Case:
    """A program that is accepted, with all its schedules."""

    text: Text
    judged: Accepted
    walk: Walk


def case(rng: random.Random, worlds: int) -> Case:
    """A program with several activities that is accepted, and has no more than so many worlds, counted once for each
    list that is printed by then."""
    while True:
        text = Text(generated_source.text_of(rng, SmallWriter(rng).program()))
        judged = text.judged()
        if (
            not isinstance(judged, Accepted)
            or judged.bounds.activities not in ACTIVITIES
            or judged.bounds.steps > MOST_STEPS
        ):
            continue
        if not any(instr.name == "print" for unit in judged.module.units for instr in unit.code):
            continue
        text = (text.compiled() if rng.random() < 0.2 else text).given(*generated.arguments(rng, judged.module.wants))
        walk = outcomes.walked(judged.module, text.arguments, worlds)
        # Programs with one outcome are many, and one in ten is enough.
        if walk and walk.entries <= worlds and (len(walk.outcomes) > 1 or rng.random() < 0.1):
            return Case(text, judged, walk)


def written(path: pathlib.Path, worlds: int) -> Case:
    """A program that was written by hand."""
    text = Text(path.read_bytes())
    judged = text.judged()
    assert isinstance(judged, Accepted), path
    walk = outcomes.walked(judged.module, (), worlds)
    assert walk, path
    return Case(text, judged, walk)


# Questions.


@dataclass
class Asker:
    """Asks the program, and compares with the walk."""

    program: Program
    case: Case
    counts: collections.Counter[str]
    sets: bool

    def asked(self, limit: int | None, pick: int | None) -> Iterator[str]:
        """What is wrong with an answer with this limit, and for the log of this outcome."""
        file, log = self.program.folder / "text", self.program.folder / "made"
        file.write_bytes(self.case.text.data)
        log.write_bytes(b"something that was there before")
        options = [
            *(["--sets"] if self.sets else []),
            *(["--limit", limit] if limit else []),
            *(["--pick", pick, "--log", log] if pick else []),
        ]
        status, out, err = self.program.call("outcomes", *self.case.text.words(), *options, file)
        self.counts["answers that are whole" if status == outcomes.WHOLE else "answers that aren't whole"] += 1
        question = f"outcomes {' '.join(map(str, options))}"
        given, asked = Answer(status, out, log.read_bytes() if pick else b""), Asked(
            limit or outcomes.USUAL_LIMIT, pick, self.sets
        )
        wrong = [*outcomes.faults(self.case.walk, self.case.judged.module, self.case.text.arguments, asked, given)]
        wrong += [f"on standard error: {err}"] if err else []
        wrong += self.replayed(out, pick, asked, given.log) if pick else []
        yield from (f"{question}: {what}" for what in wrong)

    def replayed(self, out: str, pick: int, asked: Asked, log: bytes) -> Iterator[str]:
        """What is wrong with what the program prints by a log, if there is one."""
        lists, _ = outcomes.read(out) or ([], True)
        if pick > len(lists):
            self.counts["logs of no outcome"] += 1
            return
        self.counts["logs played again"] += 1
        answer = self.program.answer(self.case.text, log, "replay")
        printed = answer[1].rpartition("ended")[0].split()
        if answer[0] != 0 or asked.told(tuple(map(int, printed))) != lists[pick - 1]:
            yield f"its log is played again: {answer}"

    def counted(self, limit: int | None) -> Iterator[str]:
        """What is wrong with the count of outcomes, with this limit."""
        file = self.program.folder / "text"
        file.write_bytes(self.case.text.data)
        options = [*(["--sets"] if self.sets else []), *(["--limit", limit] if limit else [])]
        status, out, err = self.program.call("outcomes", *self.case.text.words(), *options, "--count", file)
        listed = self.program.call("outcomes", *self.case.text.words(), *options, file)
        self.counts["counts that are whole" if status == outcomes.WHOLE else "counts that aren't whole"] += 1
        asked, given = Asked(limit or outcomes.USUAL_LIMIT, None, self.sets), Answer(status, out)
        module, arguments = self.case.judged.module, self.case.text.arguments
        wrong = [*outcomes.count_faults(self.case.walk, module, arguments, asked, given)]
        wrong += [f"on standard error: {err}"] if err else []
        if not wrong and listed[1] and int(out.split()[1]) < len(outcomes.read(listed[1])[0]):
            wrong.append("more are listed than are counted")
        if not wrong and listed[0] == outcomes.WHOLE != status:
            wrong.append("the list is whole")
        yield from (f"outcomes --count {' '.join(map(str, options))}: {what}: {(status, out)}" for what in wrong)

    def paged(self, limit: int | None, pick: int) -> Iterator[str]:
        """What is wrong with the page of this outcome: it is that of its log, with the same limit."""
        file, log = self.program.folder / "text", self.program.folder / "made"
        file.write_bytes(self.case.text.data)
        given, limits = self.case.text.words(), ["--limit", limit] if limit else []
        _, out, _ = self.program.call("outcomes", *given, *limits, "--pick", pick, "--log", log, file)
        lists, _ = outcomes.read(out) or ([], True)
        told = self.program.call("page", *given, *limits, "--outcome", pick, file)
        if pick <= len(lists):
            self.counts["pages of outcomes"] += 1
            wanted = self.program.call("page", *given, file, log)
        else:
            self.counts["pages of no outcome"] += 1
            wanted = (outcomes.NOT_WHOLE, command_line.no_outcome(pick, out), "")
        if told != wanted:
            yield f"page --outcome {pick}, limit {limit}: {told}, and not {wanted}"

    def held(self, lines: list[str], limit: int | None, all_lines: frozenset[str] = frozenset()) -> Iterator[str]:
        """What is wrong with an answer where outcomes are held against a list of these lines; the line of an outcome
        that isn't in it is one of all lines, if these are known."""
        file, listed = self.program.folder / "text", self.program.folder / "list"
        file.write_bytes(self.case.text.data)
        listed.write_text("".join(lines))
        options = [*(["--sets"] if self.sets else []), *(["--limit", limit] if limit else []), "--expect", listed]
        status, out, err = self.program.call("outcomes", *self.case.text.words(), *options, file)
        self.counts["lists"] += 1
        try:
            told = outcomes.expected(listed.read_bytes())
        except outcomes.Stray as fault:
            wrong = (
                []
                if (status, out, err) == (outcomes.NO_LIST, "", f"x10clock: {fault}\n")
                else [f"the list is none: {fault}"]
            )
        else:
            asked = Asked(limit or outcomes.USUAL_LIMIT, None, self.sets)
            wrong = [*outcomes.held_faults(self.case.walk, asked, told, Answer(status, out))] + (
                [f"on standard error: {err}"] if err else []
            )
            if all_lines and status == outcomes.REFUTED and out not in all_lines:
                wrong.append("the outcome has another number than without a list")
        yield from (
            f"outcomes {' '.join(map(str, options))} of {lines}: {what}: {(status, out, err)}" for what in wrong
        )

    def raced(self, order: str) -> Iterator[str]:
        """What is wrong with what the races of the run in this order say of all runs."""
        file, log = self.program.folder / "text", self.program.folder / "run"
        file.write_bytes(self.case.text.data)
        _, printed, _ = self.program.call("run", *self.case.text.words(), "--order", order, "--log", log, file)
        status, out, err = self.program.call("races", *self.case.text.words(), file, log)
        said, numbers = out.splitlines()[-1], tuple(map(int, printed.rpartition("ended")[0].split()))
        self.counts[f"races: {said}"] += 1
        printable = self.case.walk.outcomes
        is_right = {
            THIS_RUN: status == 6,
            THESE_NUMBERS: status == 0 and {tuple(sorted(each)) for each in printable} == {tuple(sorted(numbers))},
            THIS_ORDER: status == 0 and printable == {numbers},
        }
        if err or not is_right.get(said, False):
            yield f"races of the run in the order {order}, which prints {numbers}: {(status, out, err)}"
        if order == "first" and (said == THIS_ORDER or self.sets and said == THESE_NUMBERS):
            yield from self.alone()

    def alone(self) -> Iterator[str]:
        """What is wrong with the answer of a program of which one run speaks for all, with the least limit."""
        file, sets = self.program.folder / "text", ["--sets"] if self.sets else []
        status, out, err = self.program.call("outcomes", *self.case.text.words(), *sets, "--limit", 1, file)
        self.counts["answers by one run"] += 1
        if status != outcomes.WHOLE or not out.endswith("outcomes 1 complete\n") or err:
            yield f"one run speaks for all: {(status, out, err)}"

    def lists(self, rng: random.Random) -> Iterator[str]:
        """What is wrong with answers where outcomes are held against what the program told, and against what it
        didn't."""
        file = self.program.folder / "text"
        file.write_bytes(self.case.text.data)
        _, out, _ = self.program.call("outcomes", *self.case.text.words(), *(["--sets"] if self.sets else []), file)
        lines = out.splitlines(keepends=True)
        all_lines = frozenset(lines)
        rng.shuffle(lines)
        yield from self.held(lines, None)
        yield from self.held(lines, rng.choice([1, 2, 3, 10]))
        missing, place = rng.randrange(len(lines)), rng.randrange(len(lines) + 1)
        yield from self.held(lines[:missing] + lines[missing + 1 :], None, all_lines)
        yield from self.held([], None, all_lines)
        other = rng.choice(
            [
                "outcome 1 prints 987654321\n",
                "outcome 0 prints -1 -1 -1 -1 -1 -1\n",
                "\n",
                "outcomes\n",
                "outcome 5 prints \n",
                " outcome 5 prints 1\n",
            ]
        )
        yield from self.held([*lines[:place], other, *lines[place:]], None)

    def differences(self, rng: random.Random) -> Iterator[str]:
        asked = Asked(sets=self.sets)
        count = len(asked.outcomes(self.case.walk))
        yield from self.asked(None, None)
        spread = (
            range(1, count + 1) if count <= LOGS else [1 + place * (count - 1) // (LOGS - 1) for place in range(LOGS)]
        )
        for pick in spread:
            yield from self.asked(None, pick)
        yield from self.asked(None, rng.choice([count + 1, 2 * count + 1, 2**64 - 1]))
        limit = rng.choice(
            [1, 2, 3, 10, max(1, count - 1), count, count + 1, outcomes.SPARE * asked.worlds(self.case.walk) + 1]
        )
        yield from self.asked(limit, rng.choice([None, 1, 2, count]))
        yield from self.counted(None)
        yield from self.counted(limit)
        if not self.sets:
            pick = rng.choice([1, count, rng.randrange(count) + 1, count + 1])
            yield from self.paged(rng.choice([None, limit]), pick)
        yield from self.lists(rng)
        for order in ORDERS:
            yield from self.raced(order)


def count_case(counts: collections.Counter[str], case: Case) -> None:
    module, found = case.judged.module, len(case.walk.outcomes)
    counts["outcomes"] += found
    counts["programs with more than one"] += found > 1
    counts["programs with shared numbers"] += bool(module.shared)
    counts["programs with clocks"] += case.judged.bounds.clocks > 0
    counts["programs that are given numbers"] += bool(case.text.arguments)
    counts["programs as modules"] += case.text.is_module


@dataclass
class Summary:
    """What was counted, how often each answer was given, and what differs."""

    counts: collections.Counter[str] = field(default_factory=collections.Counter)
    answers: collections.Counter[str] = field(default_factory=collections.Counter)
    differing: list[str] = field(default_factory=list)


@dataclass(frozen=True)
class Cases:
    """The cases of a seed."""

    seed: int
    worlds: int
    program: pathlib.Path
    sets: bool

    def compared(self, cases: range) -> Summary:
        summary = Summary()
        with tempfile.TemporaryDirectory() as folder:
            program = Program(self.program, folder)
            for number in cases:
                rng = random.Random(f"{self.seed} {number}")
                made = written(WRITTEN[number], self.worlds) if number < len(WRITTEN) else case(rng, self.worlds)
                count_case(summary.counts, made)
                differing = [*Asker(program, made, summary.counts, self.sets).differences(rng)]
                summary.counts["programs"] += 1
                if differing:
                    summary.differing.append("\n    ".join([f"case {number}: {made.text}", *differing[:SHOWN]]))
            summary.answers += program.answers
        return summary


def words() -> argparse.Namespace:
    parser = argparse.ArgumentParser(
        description="Compares what x10clock says that small programs can print with a walk through all their schedules."
    )
    parser.add_argument("cases", nargs="?", type=int, default=300)
    parser.add_argument("seed", nargs="?", type=int, default=1)
    parser.add_argument("--sets", action="store_true")
    harness.add_program(parser)
    parser.add_argument("--jobs", type=int, default=2)
    parser.add_argument("--worlds", type=int, default=3_000)
    parser.add_argument("--tally", action="store_true")
    parser.add_argument("--only", type=int)
    return parser.parse_args()


def main() -> int:
    given, total = words(), Summary()
    if given.only is not None:
        sys.stdout.buffer.write(case(random.Random(f"{given.seed} {given.only}"), given.worlds).text.data + b"\n")
        return 0
    chunks = [range(start, min(start + CHUNK, given.cases)) for start in range(0, given.cases, CHUNK)]
    with concurrent.futures.ProcessPoolExecutor(given.jobs) as pool:
        for part in pool.map(Cases(given.seed, given.worlds, given.program, given.sets).compared, chunks):
            total.counts += part.counts
            total.answers += part.answers
            total.differing += part.differing
    for name, count in sorted(total.counts.items()):
        print(f"{count:8} {name}")
    if given.tally:
        tally.show(total.answers)
    print(*total.differing[:SHOWN], sep="\n", end="\n" if total.differing else "", file=sys.stderr)
    print(f"outcomes: {total.counts['programs']} programs, {len(total.differing)} with a difference")
    return (
        1 if total.differing or total.counts["programs"] != given.cases or not total.counts["logs played again"] else 0
    )


if __name__ == "__main__":
    sys.exit(main())
