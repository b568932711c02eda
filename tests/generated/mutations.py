#!/usr/bin/env python3
"""Feeds the built program modules that nobody wrote, and compares each answer with the reference
(tests/reference/modules.py).

The modules are those of tests/program/rows and whole programs that are made up here, as they are, with a rule broken,
or changed operand by operand and byte by byte (tests/generated/generated.py). `check` and `run`, the latter in each
order, also by chance, and with numbers by chance where main takes some, and `explain`, have to answer what the
reference answers, byte for byte, and so have `explain --json` and `listing` of one text in ten, and `events`, `lanes`
and `page` of a run of one accepted program in five; where there are several walks to what is refused, another shortest
one is taken too, and counted. Of an accepted module with few worlds the reference goes through all schedules, and looks
whether the promises hold; of one such module in ten `outcomes` has to print what these schedules print. With `--source`
the texts are programs in the language (tests/generated/generated_source.py) and those of
tests/program/programs/sources*.rows and of examples, and `compile` is compared too, with what tests/reference/source.py
makes of them. Some runs of the module are compared with what the text means (tests/reference/meaning.py). Needs the
built program and python3. The gate runs it with 2,000 cases.

    python3 -m tests.generated.mutations [CASES] [SEED] [--source [--changed]] [--jobs N] [--program PATH]
                                         [--worlds N] [--tally] [--only CASE]

20,000 cases, seed 1, 2 jobs, crates/x10clock/out/x10clock and 1,000 worlds where nothing else is said. With `--changed`
all texts but the first ones are changed byte by byte. `--tally` tells how often the program gave each answer; `--only`
prints one case alone. It fails where something differs, and where of 1,000 cases or more something wasn't asked at all.
"""

from __future__ import annotations

import argparse
import collections
import concurrent.futures
import itertools
import json
import pathlib
import random
import re
import sys
import tempfile
import zlib
from collections.abc import Iterable, Iterator
from dataclasses import dataclass, field, replace
from functools import cached_property

from tests import harness
from tests.generated import generated, generated_source, tally
from tests.harness import TOP
from tests.reference import events, explain, explain_json, listing, logs, meaning, modules, outcomes, runs, source
from tests.reference.events import Program
from tests.reference.modules import Accepted, Arguments, ByChance, Greedy, Order, Refused, Way
from tests.reference.outcomes import Asked

# Runs of more steps than this are not made at all; those of more steps, or of more steps times activities and clocks,
# than these are looked at for their form alone; and schedules are followed where there are no more activities than
# this.
LONGEST_RUN, LONGEST_COMPARED, MOST_WORK, MOST_ACTIVITIES = 2_000_000, 20_000, 2_000_000, 64
# Runs that may be longer, by loops with a limit, are compared where they aren't longer than this.
SHORT = 500
# One text in so many is listed, and explained as JSON; of one accepted text in so many a run's events and lanes are
# told; and of one in so many its outcomes, no more than so many worlds being kept.
LISTED, DRAWN, FOUND_OUT, LIMIT = 10, 5, 10, 2_000
# Lanes are drawn of no more steps times activities than this.
MOST_DRAWN = 100_000
# What has to be counted in so many cases.
MANY = 1_000
ASKED = [
    "accepted modules explained as JSON",
    "modules listed",
    "modules taken through all schedules",
    "programs whose outcomes are told",
    "refusals explained as JSON",
    "runs compared",
    "runs drawn",
]
# So many runs of each text are compared with what it means.
RUNS_MEANT = 3
CHUNK = 100
SHOWN = 5

ENDED = re.compile(r"((?:-?\d+\n)*)ended steps (?P<steps>\d+)(?: rounds (?P<rounds>\d+))?\n")
WALK = re.compile(r"x10clock: (?P<refused>.* walk )(?P<places>\d+(?: \d+)*)\n")

# Modules with shared numbers, each of which is accepted: their numbers, and their units with kind, parameters, slots
# and code.
SHARING = [
    (
        [0],
        (
            "main",
            "",
            2,
            [
                ["finish", 4],
                ["for", 0, 1, 3, 3],
                ["spawn", 1, [0]],
                ["next", 1],
                ["endfinish", 0],
                ["get", 1, 0],
                ["print", 1],
                ["ret"],
            ],
        ),
        ("body", "n", 1, [["addto", 0, 0], ["ret"]]),
    ),
    (
        [0],
        (
            "main",
            "",
            1,
            [["finish", 3], ["spawn", 1, []], ["spawn", 1, []], ["endfinish", 0], ["get", 0, 0], ["print", 0], ["ret"]],
        ),
        ("body", "", 2, [["get", 0, 0], ["lit", 1, 1], ["add", 0, 0, 1], ["put", 0, 0], ["ret"]]),
    ),
    (
        [2**63 - 1, -5, 0],
        (
            "main",
            "",
            3,
            [
                ["make", 0],
                ["spawn", 1, [0]],
                ["get", 1, 0],
                ["put", 2, 1],
                ["advance"],
                ["call", 2, [1]],
                ["advance"],
                ["get", 2, 1],
                ["print", 2],
                ["ret"],
            ],
        ),
        ("body", "c", 2, [["advance"], ["get", 1, 2], ["addto", 0, 1], ["print", 1], ["advance"], ["ret"]]),
        ("method", "n", 1, [["addto", 1, 0], ["ret"]]),
    ),
]


def sharing(numbers: list[int], *units: tuple) -> bytes:
    """The text of a module with these shared numbers."""
    forms = [generated.unit_form(*form) for form in units]
    return json.dumps(generated.module_form(*forms, shared=tuple(numbers)), separators=(",", ":")).encode()


def row_text(row: str) -> bytes:
    """What a row's text stands for, with its escapes."""
    if row == "\\c":
        return b""
    byte = (
        lambda found: bytes([int(found[1], 8)])
        if found[1]
        else {b"n": b"\n", b"t": b"\t", b"r": b"\r", b"\\": b"\\"}[found[2]]
    )
    return re.sub(rb"\\(?:0([0-7]{3})|([ntr\\]))", byte, row.encode())


def row_texts(path: pathlib.Path) -> list[bytes]:
    """The texts of a file of rows: each stands above the line that `check` answers, and that above what runs print."""
    rows = [
        line
        for line in path.read_text().split("\n")
        if line and not re.match(r"#|(run|last|rounds?|on \d+|every|not run|compile): |args:", line)
    ]
    return [row_text(row) for row in rows[::2]]


def source_texts() -> list[bytes]:
    """The texts of the rows of sources, and of the examples."""
    found = [
        text for path in sorted((TOP / "tests/program/programs").glob("sources*.rows")) for text in row_texts(path)
    ]
    return found + [path.read_bytes() for path in sorted((TOP / "examples").glob("*.x10"))]


def seed_texts(is_source: bool) -> list[bytes]:
    if is_source:
        return source_texts()
    return [path.read_bytes() for path in sorted((TOP / "tests/program/rows").glob("*.json"))] + [
        sharing(*form) for form in SHARING
    ]


@dataclass(frozen=True)
class Answer:
    status: int
    out: str
    err: str


def refused(line: str) -> Answer:
    return Answer(1, "", f"x10clock: {line}\n")


def done(text: str) -> Answer:
    return Answer(0, text, "")


@dataclass
class Outcome:
    """What became of one text: its label, what was counted, and what differs, if anything does."""

    label: str
    counts: collections.Counter = field(default_factory=collections.Counter)
    differences: list[str] = field(default_factory=list)

    def differ(self, words: str, wanted: object, got: Answer) -> None:
        if got.status == harness.LATE:
            self.counts["answers that didn't come in time"] += 1
        self.differences.append(f"{words}\n      reference: {wanted}\n      program:   {got}")


def words_of(arguments: Arguments) -> list[str]:
    """The words by which a program is given these numbers: one of a negative number stands in one with it."""
    return [f"--arg={number}" for number in arguments]


def ways(text: bytes, judged: Accepted) -> list[tuple[Way, Arguments]]:
    """The orders in which a program is run, and the numbers that it is given in each, by its text alone."""
    rng = random.Random(text)
    given = [generated.arguments(rng, judged.module.wants) for _ in modules.ORDERS]
    by_chance, by_rounds = ByChance(rng.choice([0, 1, rng.randrange(2**64)])), Greedy(rng.choice([None, None, 1, 2, 3]))
    return list(zip([*Order, by_chance, by_rounds], given, strict=True))


def is_short(text: bytes, judged: Accepted) -> bool:
    """Whether the runs of a program are compared: by its bounds, or as it goes where loops may end sooner than they
    could."""
    bounds = judged.bounds
    if bounds.steps <= LONGEST_COMPARED:
        return bounds.steps * (bounds.activities + bounds.clocks) <= MOST_WORK
    if not any(instr.name == "forto" for unit in judged.module.units for instr in unit.code):
        return False
    driven = (logs.driven(judged.module, *how) for how in ways(text, judged))
    return all(next(itertools.islice(run, SHORT, None), None) is None for run in driven)


def is_of_form(out: str, way: Way, steps: int) -> bool:
    """Whether a run in this order ends so, in as many steps at most: rounds are counted where it runs by rounds."""
    ended = ENDED.fullmatch(out)
    if not ended or int(ended["steps"]) > steps or (ended["rounds"] is None) == isinstance(way, Greedy):
        return False
    return ended["rounds"] is None or int(ended["rounds"]) <= int(ended["steps"])


def is_sampled(text: bytes, one_in: int = 4) -> bool:
    """One text in so many; in four, where `run` is tried too that has to say what is known already."""
    return zlib.crc32(text) % one_in == 0


@dataclass(frozen=True)
class Comparer:
    """Asks the program and the reference, and compares."""

    program: pathlib.Path
    worlds: int
    source: bool
    answers: collections.Counter = field(default_factory=collections.Counter)

    def ask(self, text: bytes, command: str, *more: str, behind: tuple[str, ...] = ()) -> Answer:
        form = [] if self.source else ["--module"]
        words = [self.program, command, *more, *form, "-", *behind]
        answer = Answer(*harness.call(words, text).texts())
        self.answers[tally.label(answer.status, answer.err)] += 1
        return answer

    def outcome(self, text: bytes) -> Outcome:
        judged = source.judge(text) if self.source else modules.judge(text)
        outcome = self.of_refused(text, judged) if isinstance(judged, Refused) else self.of_accepted(text, judged)
        if self.source:
            self.compiles(text, outcome)
        if is_sampled(text, LISTED):
            self.lists(text, outcome)
        return outcome

    def lists(self, text: bytes, outcome: Outcome) -> None:
        """`listing` tells of each text that gives a module, and answers of another one as `check` does."""
        try:
            told = done(listing.listed(text, not self.source))
            outcome.counts["modules listed"] += 1
        except (modules.Unread, source.Fault) as fault:
            told = refused(str(fault))
        answer = self.ask(text, "listing")
        if answer != told:
            outcome.differ("listing", told, answer)

    def compiles(self, text: bytes, outcome: Outcome) -> None:
        try:
            module = source.module_text(text)
            self.means(text, module, outcome)
            told = done(module + "\n")
            outcome.counts["texts that are compiled"] += 1
        except source.Fault as fault:
            told = refused(str(fault))
        answer = self.ask(text, "compile")
        if answer != told:
            outcome.differ("compile", told, answer)

    def means(self, text: bytes, module: str, outcome: Outcome) -> None:
        """Whether some runs of the module are runs of the text, and the reverse."""
        try:
            counts = meaning.compare_runs(text, modules.read_module(module.encode()), RUNS_MEANT)
            outcome.counts["runs compared with what the text means"] += counts["runs"]
        except meaning.Differs as differs:
            outcome.differences.append(f"the module isn't the text's: {differs}")

    def of_accepted(self, text: bytes, judged: Accepted) -> Outcome:
        outcome = Outcome("accepted")
        told = done(judged.bounds.line() + "\n")
        answer = self.ask(text, "check")
        if answer != told:
            outcome.differ("check", told, answer)
        elif is_short(text, judged):
            self.runs(text, judged, True, outcome)
        elif judged.bounds.steps <= LONGEST_RUN:
            self.runs(text, judged, False, outcome)
        else:
            outcome.counts["accepted modules that were not run"] += 1
        if is_sampled(text):
            self.misgiven(text, judged, outcome)
        self.explains_accepted(text, told, outcome)
        if self.schedules(text, judged, outcome) and is_sampled(text, FOUND_OUT):
            self.finds_out(text, judged, outcome)
        return outcome

    def of_refused(self, text: bytes, judged: Refused) -> Outcome:
        """`check` and `run` have to give the same line."""
        outcome = Outcome(judged.label)
        told = refused(judged.line)
        answer = self.ask(text, "check")
        if answer != told:
            if self.is_other_walk(judged, told, answer):
                outcome.counts["refusals with another shortest walk"] += 1
            else:
                outcome.differ("check", told, answer)
        self.explains(text, judged, answer, outcome)
        if is_sampled(text):
            rng = random.Random(text)
            again = self.ask(text, "run", *words_of(generated.arguments(rng, rng.choice([0, 0, 1, 2]))))
            if again != answer:
                outcome.differ("run after check", answer, again)
        return outcome

    def explains(self, text: bytes, judged: Refused, checked: Answer, outcome: Outcome) -> None:
        """`explain` has to give the line of `check`, and beside it what the reference says of that, where the line is
        the reference's."""
        kinds = [kind.name.lower() for kind in judged.by_kind.kinds] if judged.by_kind else []
        said = ("-", text, judged.line, kinds, not self.source)
        is_told = checked == refused(judged.line)
        outcome.counts["refusals explained"] += 1
        self.explained(text, [], checked, explain.explained(*said) if is_told else None, outcome)
        if is_sampled(text, LISTED):
            outcome.counts["refusals explained as JSON"] += 1
            self.explained(text, ["--json"], checked, explain_json.explained(*said) if is_told else None, outcome)

    def explains_accepted(self, text: bytes, checked: Answer, outcome: Outcome) -> None:
        """`explain` has to give the line of `check`, and what its numbers come from."""
        said = (text, checked.out, not self.source)
        outcome.counts["accepted modules explained"] += 1
        self.explained(text, [], checked, explain.accepted(*said), outcome)
        if is_sampled(text, LISTED):
            outcome.counts["accepted modules explained as JSON"] += 1
            self.explained(text, ["--json"], checked, explain_json.accepted("-", *said), outcome)

    def explained(self, text: bytes, flags: list[str], checked: Answer, said: str | None, outcome: Outcome) -> None:
        """`explain` has to answer as `check` did, but for standard output, which has to be this, if it is told."""
        answer = self.ask(text, "explain", *flags)
        told = replace(checked, out=answer.out if said is None else said)
        if answer != told:
            outcome.differ(" ".join(["explain", *flags]), told, answer)

    def is_other_walk(self, judged: Refused, told: Answer, answer: Answer) -> bool:
        """Whether the answer is the reference's, but for the walk, which is another shortest one."""
        found = WALK.fullmatch(answer.err)
        if not judged.by_kind or not found or answer != Answer(told.status, told.out, answer.err):
            return False
        fault = judged.by_kind
        places = [int(place) for place in found["places"].split()]
        walks = judged.kinds.slots[fault.unit][fault.slot]
        same = f"x10clock: {fault.line(places)}\n" == answer.err
        return same and len(places) == len(fault.walk) and walks.is_walk(places, (fault.place, fault.kind))

    def misgiven(self, text: bytes, judged: Accepted, outcome: Outcome) -> None:
        """A program that is given another count of numbers than it wants isn't run."""
        rng = random.Random(text)
        given = generated.arguments(rng, rng.choice([count for count in range(5) if count != judged.module.wants]))
        answer = self.ask(text, "run", *words_of(given))
        told = refused(modules.misgiven(judged.module, given))
        outcome.counts["runs that aren't given what they want"] += 1
        if answer != told:
            outcome.differ(f"run {' '.join(words_of(given))}", told, answer)

    def runs(self, text: bytes, judged: Accepted, exact: bool, outcome: Outcome) -> None:
        for way, given in ways(text, judged):
            question = ["run", *way.words(), *words_of(given)]
            answer = self.ask(text, *question)
            if way is Order.FIRST and is_sampled(text):
                usual = self.ask(text, "run", *words_of(given))
                if answer != usual:
                    outcome.differ("run, with --order first and without", answer, usual)
            if exact:
                self.compare_run(" ".join(question), judged, (way, given), answer, outcome)
                continue
            outcome.counts["runs looked at for their form"] += 1
            if answer != done(answer.out) or not is_of_form(answer.out, way, judged.bounds.steps):
                outcome.differ(" ".join(question), f"ended within {judged.bounds.steps} steps", answer)
        if exact and is_sampled(text, DRAWN):
            self.draws(text, judged, outcome)

    def draws(self, text: bytes, judged: Accepted, outcome: Outcome) -> None:
        """`events`, `lanes`, its picture, `page`, `races`, `span`, `where` and `why` tell of a run by its log, unless
        it is a large one."""
        way, given = random.Random(text).choice(ways(text, judged))
        log = logs.log_of(judged.module, way, given)
        if len(log) * judged.bounds.activities > MOST_DRAWN:
            outcome.counts["runs too large to be drawn"] += 1
            return
        outcome.counts["runs drawn"] += 1
        with tempfile.NamedTemporaryFile() as file:
            pathlib.Path(file.name).write_bytes(logs.text_of(log))
            step = random.Random(text).randrange(sum(entry.steps for entry in log) + 2)
            seen = [taken.number for taken in events.seen(logs.replay(judged.module, log, given))]
            of = random.Random(text).choice([*seen, max(step, 1)])
            for command, *flags in (
                ["events"],
                ["lanes"],
                ["lanes", "--svg"],
                ["lanes", "--path"],
                ["lanes", "--svg", "--path"],
                ["lanes", "--rounds"],
                ["page"],
                ["page", "--path"],
                ["races"],
                ["races", "--json"],
                ["span"],
                ["span", "--json"],
                ["where"],
                ["where", "--json"],
                ["where", f"--at={step}"],
                ["where", "--json", f"--at={step}"],
                ["why"],
            ):
                told = Answer(
                    *runs.answer(
                        command,
                        judged,
                        Program(text, not self.source),
                        logs.text_of(log),
                        given,
                        is_picture="--svg" in flags,
                        at=step if f"--at={step}" in flags else None,
                        step=of,
                        is_json="--json" in flags,
                        has_path="--path" in flags,
                        by_rounds="--rounds" in flags,
                    )
                )
                behind = (file.name, str(of)) if command == "why" else (file.name,)
                answer = self.ask(text, command, *flags, *words_of(given), behind=behind)
                if answer != told:
                    outcome.differ(f"{' '.join([command, *flags])}, run {' '.join(way.words())}", told, answer)

    def finds_out(self, text: bytes, judged: Accepted, outcome: Outcome) -> None:
        """`outcomes` prints what the reference finds, and the log of one of them."""
        given, asked = ways(text, judged)[0][1], Asked(LIMIT, random.Random(text).choice([1, 1, 1, 2]))
        with tempfile.NamedTemporaryFile() as file:
            question = [
                "outcomes",
                "--limit",
                str(LIMIT),
                "--pick",
                str(asked.pick),
                "--log",
                file.name,
                *words_of(given),
            ]
            answer = self.ask(text, *question)
            told = outcomes.Answer(answer.status, answer.out, pathlib.Path(file.name).read_bytes())
        outcome.counts[f"programs whose outcomes are told{'' if answer.status == 0 else ', not whole'}"] += 1
        walk = outcomes.walked(judged.module, given)
        wrong = [*outcomes.faults(walk, judged.module, given, asked, told)]
        if wrong or answer.err:
            outcome.differ(" ".join(question), wrong, answer)

    def compare_run(
        self, question: str, judged: Accepted, how: tuple[Way, Arguments], answer: Answer, outcome: Outcome
    ) -> None:
        outcome.counts["runs compared"] += 1
        outcome.counts["of them with numbers given"] += 1 if how[1] else 0
        try:
            ran = modules.run(judged.module, *how)
        except modules.Wrong as wrong:
            outcome.differ(question, f"a wrong step: {wrong}", answer)
            return
        told = done(ran.text())
        if answer != told or not ran.ended or ran.steps > judged.bounds.steps:
            outcome.differ(question, told if ran.ended else "nobody can step", answer)

    def schedules(self, text: bytes, judged: Accepted, outcome: Outcome) -> bool:
        """Whether all schedules were walked through."""
        few = judged.bounds.activities <= MOST_ACTIVITIES and judged.bounds.steps <= LONGEST_COMPARED
        try:
            worlds = modules.Schedules(judged, self.worlds, ways(text, judged)[0][1]).walk() if few else None
        except modules.Broken as broken:
            outcome.differences.append(f"a promise is broken: {broken}")
            return False
        if worlds is None:
            outcome.counts["accepted modules with too many worlds"] += 1
            return False
        outcome.counts["modules taken through all schedules"] += 1
        outcome.counts["worlds in them"] += worlds
        if judged.bounds.activities > 1:
            outcome.counts["of them with several activities"] += 1
        return True


# Smaller texts with the same fault.


def shorter(text: bytes) -> Iterator[bytes]:
    """A source text without a piece of it, large ones first."""
    size = len(text) // 2
    while size:
        for at in range(0, len(text), size):
            yield text[:at] + text[at + size :]
        size //= 2


def smaller(text: bytes, is_source: bool) -> Iterable[bytes]:
    """Texts that have a little less than this one."""
    if is_source:
        return itertools.islice(shorter(text), 400)
    try:
        value = json.loads(text)
        units = [unit["code"] for unit in value["units"]]
        found = []
        if len(units) > 1:
            found.append({**value, "units": value["units"][:-1]})
        for number, code in enumerate(units):
            for place in range(len(code)):
                changed = json.loads(text)
                changed["units"][number]["code"] = generated.without(code, place)
                found.append(changed)
        return [json.dumps(value, separators=(",", ":")).encode() for value in found]
    except (ValueError, TypeError, KeyError, IndexError, AttributeError):
        return [text[:at] + text[at + 1 :] for at in range(min(len(text), 400))]


def shrunk(comparer: Comparer, text: bytes) -> bytes:
    """A smaller text that is answered differently too, if one is found soon."""
    for _ in range(100):
        better = next((one for one in smaller(text, comparer.source) if comparer.outcome(one).differences), None)
        if better is None:
            return text
        text = better
    return text


# Cases.


@dataclass
class Summary:
    cases: int = 0
    labels: collections.Counter = field(default_factory=collections.Counter)
    counts: collections.Counter = field(default_factory=collections.Counter)
    answers: collections.Counter = field(default_factory=collections.Counter)
    differing: list[tuple[int, bytes, list[str]]] = field(default_factory=list)

    def add(self, case: int, text: bytes, outcome: Outcome) -> None:
        self.cases += 1
        self.labels[outcome.label] += 1
        self.counts += outcome.counts
        if outcome.differences:
            self.differing.append((case, text, outcome.differences))

    def join(self, other: Summary) -> None:
        self.cases += other.cases
        self.labels += other.labels
        self.counts += other.counts
        self.answers += other.answers
        self.differing += other.differing


@dataclass(frozen=True)
class Maker:
    """Makes cases by their numbers alone; the first ones are texts that somebody wrote."""

    seed: int
    source: bool
    changed: bool

    @cached_property
    def seeds(self) -> list[bytes]:
        return seed_texts(self.source)

    def text_of(self, case: int) -> bytes:
        made = generated_source.changed if self.changed else generated_source.case if self.source else generated.case
        return self.seeds[case] if case < len(self.seeds) else made(random.Random(f"{self.seed} {case}"), self.seeds)


def compared(comparer: Comparer, maker: Maker, cases: range) -> Summary:
    summary = Summary()
    for case in cases:
        text = maker.text_of(case)
        try:
            outcome = comparer.outcome(text)
        except Exception as fault:  # A fault of the reference is a difference like any other.
            outcome = Outcome("?", differences=[f"the reference failed: {fault!r}"])
        summary.add(case, text, outcome)
    summary.answers += comparer.answers
    return summary


def in_order(label: str) -> tuple[str, int]:
    return (label[0], int(label[1:])) if label[1:].isdigit() else ("~", 0)


def words() -> argparse.Namespace:
    parser = argparse.ArgumentParser(description="Compares what x10clock answers with the reference.")
    parser.add_argument("cases", nargs="?", type=int, default=20_000)
    parser.add_argument("seed", nargs="?", type=int, default=1)
    parser.add_argument("--source", action="store_true")
    parser.add_argument("--changed", action="store_true")
    parser.add_argument("--jobs", type=int, default=2)
    harness.add_program(parser)
    parser.add_argument("--worlds", type=int, default=1_000)
    parser.add_argument("--tally", action="store_true")
    parser.add_argument("--only", type=int)
    given = parser.parse_args()
    if given.changed and not given.source:
        parser.error("--changed is for --source")
    return given


def main() -> int:
    given = words()
    comparer = Comparer(given.program, given.worlds, given.source)
    maker = Maker(given.seed, given.source, given.changed)
    if given.only is not None:
        sys.stdout.buffer.write(maker.text_of(given.only) + b"\n")
        return 0
    summary = Summary()
    chunks = [range(start, min(start + CHUNK, given.cases)) for start in range(0, given.cases, CHUNK)]
    with concurrent.futures.ProcessPoolExecutor(given.jobs) as pool:
        for part in concurrent.futures.as_completed(
            [pool.submit(compared, comparer, maker, chunk) for chunk in chunks]
        ):
            summary.join(part.result())
    for label in sorted(summary.labels, key=in_order):
        print(f"{summary.labels[label]:8} {label}")
    for name, count in sorted(summary.counts.items()):
        print(f"{count:8} {name}")
    if given.tally:
        tally.show(summary.answers)
    for case, text, differences in sorted(summary.differing)[:SHOWN]:
        print(
            f"case {case}: {text!r}",
            *differences,
            f"smaller: {shrunk(comparer, text)!r}",
            sep="\n    ",
            file=sys.stderr,
        )
    unasked = [name for name in ASKED if summary.cases >= MANY and not summary.counts[name]]
    print(*[f"none: {name}" for name in unasked], sep="\n", end="\n" if unasked else "", file=sys.stderr)
    print(f"{summary.cases} cases, {len(summary.differing)} with a difference")
    return 1 if summary.differing or unasked else 0


if __name__ == "__main__":
    sys.exit(main())
