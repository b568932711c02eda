#!/usr/bin/env python3
"""Command lines that nobody wrote: whether the built program says of them what the reference says
(tests/reference/command_line.py).

    python3 -m tests.generated.words [CASES] [SEED] [--program PATH] [--jobs N] [--tally] [--only CASE]

2,000 cases, seed 1, 2 jobs and crates/x10clock/out/x10clock where nothing else is said. The words are the program's own
commands and options, such as it doesn't know, numbers at the ends of what may be given, and names of small files, of
which some are texts, modules or logs, one is a folder, and some aren't there; mostly they make a call that could be
meant, with a word left out, doubled, put in or replaced. Each call is made in a folder of its own, and told in another:
the status, standard output, the first line of standard error and what is in the folder then have to be the same. What a
run by workers prints is compared in any order, and its log is played again; outcomes, which the program tells in an
order of its own, have to be right (tests/reference/outcomes.py), and so has their log, and what is said of them where
they are held against a list; the page of an outcome has to be that of the log which the program writes of it. `--tally`
tells how often each answer was given; `--only` prints the words of one case. It fails where something is answered
otherwise, and where of 500 calls or more none told outcomes, events, lanes, a page or what a step rests on.
"""

from __future__ import annotations

import argparse
import collections
import concurrent.futures
import contextlib
import os
import pathlib
import random
import sys
import tempfile
from collections.abc import Iterator
from dataclasses import dataclass

from tests import harness
from tests.generated import tally
from tests.harness import TOP
from tests.reference import command_line, logs, outcomes, runs, source, values
from tests.reference.command_line import Job, Told
from tests.reference.modules import Order
from tests.reference.outcomes import Answer

# Of so many calls some have to tell what each of these commands tells.
MANY, ANSWERED = 500, ("outcomes", "events", "lanes", "page", "why")
CHUNK = 50
SHOWN = 5
IN_STEP, AS_MANY = ((TOP / f"tests/program/rows/{name}.x10").read_bytes() for name in ("in-step", "as-many"))
LOG = b"x10log 1\n" + b"".join(b"%d 1\n" % who for who in (0, 0, 0, 1, 0, 0, 0, 0, 1, 1, 1, 1)) + b"end 12\n"
# Of a run with three activities beside main, as with each number from 3 on.
LOG_OF_MANY = logs.text_of(logs.log_of(source.judge(AS_MANY).module, Order.LAST, (3,)))
FILES = {
    "step.x10": IN_STEP,
    "many.x10": AS_MANY,
    "bad.x10": b"main",
    "void": b"",
    "step.json": source.module_text(IN_STEP).encode(),
    "many.json": source.module_text(AS_MANY).encode(),
    "step.log": LOG,
    "many.log": LOG_OF_MANY,
    "cut.log": LOG[:40],
    "waits.log": b"x10log 1\n1 1\nend 1\n",
    "step.list": b"outcome 1 prints 1 2\noutcome 2 prints 2 1\noutcomes 2 complete\n",
    "many.list": b"outcome 1 prints\noutcome 2 prints 1\n\noutcome 7 prints 1 2",
    "part.list": b"outcome 1 prints 2 1\noutcomes 1 and perhaps more\n",
    "stray.list": b"outcome 1 prints 1 2\noutcome 2 prints  2 1\n",
}
FOLDER, LINK = "folder", "link"

# Words.

NAMES = [*FILES, FOLDER, LINK, "-", "no-such-file", "folder/made", "made", "", "."]
NUMBERS = [
    "0", "1", "2", "3", "64", "65", "-1", "+2", "007", "9223372036854775807", "9223372036854775808",
    "-9223372036854775808", "-9223372036854775809", "18446744073709551615", "18446744073709551616",
    "+18446744073709551615", "99999999999999999999x", "x", "", "-", "+", "1.5", " 1", "٣", "1e3",
]  # fmt: skip
ORDERS = ["first", "last", "round", "random", "ask", "greedy", "least", "First", "", "firs", "-", "first "]
STRANGE = [
    "--", "-h", "--help", "help", "-", "", "-x", "-5", "-hx", "--module=x", "--help=x", "--modul", "--Module",
    "--orders", "--=", "---", "--version", "-V", "walk", "chek", "run", "check", "--no-module", "--log", "--order",
    "--workers", "--arg", "--seed", "--runs", "--limit", "--pick", "--sets", "--expect", "--from", "--to", "--at",
    "--svg", "--path", "--rounds", "--outcome", "--processors", "outcome", "V9", "\udcff", "--log=\udcfe", "ü", "--ü",
    "a b", "=", "@step.x10",
]  # fmt: skip


# For some commands options that are a number each.
COUNTED = {"outcomes": ("limit", "pick"), "lanes": ("from", "to"), "page": ("from", "to"), "where": ("at",)}


def option(rng: random.Random, name: str, value: str) -> list[str]:
    """An option with its value, in one word or in two."""
    return [f"--{name}={value}"] if rng.random() < 0.5 else [f"--{name}", value]


def small(rng: random.Random) -> str:
    """A number, mostly a small one."""
    return rng.choice(["1", "2", "3", "64"] if rng.random() < 0.7 else NUMBERS)


def options(rng: random.Random, command: str, text: str) -> Iterator[list[str]]:
    """Some options of a command, mostly such as could be meant with this text."""
    if command != "compile" and text.endswith(".json") != (rng.random() < 0.1):
        yield ["--module"]
    tells_json = command in ("check", "explain", "run", "outcomes", "events", "races", "where", "span")
    if tells_json and rng.random() < (0.5 if command == "explain" else 0.3) or rng.random() < 0.02:
        yield ["--json"]
    if command == "run" and rng.random() < 0.4:
        order = rng.choice(["random", "random", "greedy", *ORDERS[:6]] if rng.random() < 0.8 else ORDERS)
        yield option(rng, "order", order)
        seed = rng.choice(["0", "1", "7", "18446744073709551615"] if rng.random() < 0.6 else NUMBERS)
        yield from [option(rng, "seed", seed)] if rng.random() < (0.7 if order == "random" else 0.1) else []
        yield from [option(rng, "runs", small(rng))] if rng.random() < (0.6 if order == "random" else 0.1) else []
        limit = option(rng, "processors", small(rng))
        yield from [limit] if rng.random() < (0.6 if order == "greedy" else 0.05) else []
    # Outcomes that are held against a list have no log.
    is_held = command == "outcomes" and rng.random() < 0.35
    for name in COUNTED.get(command, ()):
        yield from (
            [option(rng, name, small(rng))] if rng.random() < (0.05 if is_held and name == "pick" else 0.4) else []
        )
    if command == "lanes" and rng.random() < 0.3:
        yield ["--svg"]
    if command in ("lanes", "page") and rng.random() < 0.3:
        yield ["--path"]
    if command == "lanes" and rng.random() < 0.1:
        yield ["--rounds"]
    if command == "outcomes" and rng.random() < 0.3:
        yield ["--sets"]
    if command == "outcomes" and rng.random() < (0.05 if is_held else 0.25):
        yield ["--count"]
    if is_held:
        yield option(
            rng, "expect", f"{text[:4]}.list" if rng.random() < 0.5 else rng.choice(["part.list", "stray.list", *NAMES])
        )
    if command == "run" and rng.random() < 0.3:
        yield option(rng, "workers", small(rng))
    if command in ("run", "outcomes") and rng.random() < (0.05 if is_held else 0.4):
        yield option(rng, "log", rng.choice(["made", "step.log", *NAMES]))
    if command in ("run", "outcomes", "races", *runs.COMMANDS):
        for _ in range(text.startswith("many") if rng.random() < 0.8 else rng.randrange(3)):
            yield option(rng, "arg", rng.choice(NUMBERS[:12] if rng.random() < 0.8 else NUMBERS))


def meant(rng: random.Random, given: str) -> list[str]:
    """A call that could be meant, with this file as standard input."""
    command = rng.choice([*command_line.COMMANDS, "run", "run", "run", "run", "outcomes", "why"])
    file = rng.choice(["step.x10", "many.x10", "step.json", "many.json", "-"] if rng.random() < 0.8 else NAMES)
    parts = [[file], *options(rng, command, given if file == "-" else file)]
    # A page may be made of an outcome in place of a log.
    is_outcome = command == "page" and rng.random() < 0.5
    if is_outcome:
        parts.append(option(rng, "outcome", small(rng)))
        parts += [option(rng, "limit", small(rng))] if rng.random() < 0.3 else []
    rng.shuffle(parts)
    if is_outcome:
        return [command, *(word for part in parts for word in part)]
    if command in runs.COMMANDS or command == "races" and rng.random() < 0.5:
        at = parts.index([file])
        fitting = f"{(given if file == '-' else file)[:4]}.log"
        log = fitting if rng.random() < 0.6 else rng.choice(["cut.log", "waits.log", *NAMES])
        behind = rng.randrange(at + 1, len(parts) + 1)
        parts.insert(behind, [log])
        if command == "why":
            step = str(rng.randrange(1, 15)) if rng.random() < 0.8 else rng.choice(NUMBERS)
            parts.insert(rng.randrange(behind + 1, len(parts) + 1), [step])
    return [command, *(word for part in parts for word in part)]


def any_word(rng: random.Random) -> str:
    return rng.choice(rng.choice([STRANGE, STRANGE, NAMES, NUMBERS, ORDERS]))


def changed(rng: random.Random, words: list[str]) -> list[str]:
    """A word left out, doubled, put in or replaced, or two in another order."""
    words, at = list(words), rng.randrange(len(words) + 1)
    if not words:
        return [any_word(rng)]
    match rng.randrange(6):
        case 0:
            del words[at : at + 1]
        case 1:
            words[at:at] = words[at : at + rng.choice([1, 2])]
        case 2 | 3:
            words.insert(at, any_word(rng))
        case 4:
            words[at : at + 1] = [any_word(rng)]
        case _:
            to = rng.randrange(len(words))
            words[at % len(words)], words[to] = words[to], words[at % len(words)]
    return words


def case(rng: random.Random) -> tuple[list[str], str]:
    """The words of a call that ends soon, and the file that is its standard input."""
    while True:
        given = rng.choice(list(FILES))
        words = meant(rng, given) if rng.random() < 0.97 else [any_word(rng) for _ in range(rng.randrange(4))]
        for _ in range(rng.choice([0, 0, 0, 0, 1, 1, 2, 5])):
            words = changed(rng, words)
        job = job_of(words)
        if not job or int(job.values.get("runs", "1")) <= command_line.MOST_RUNS:
            return words, given


# Calls.


Folder = dict[str, bytes]


def fill(folder: pathlib.Path) -> None:
    """Puts the files there, and nothing else."""
    for path in sorted(folder.rglob("*"), reverse=True):
        path.rmdir() if path.is_dir() and not path.is_symlink() else path.unlink()
    for name, text in FILES.items():
        (folder / name).write_bytes(text)
    (folder / FOLDER).mkdir()
    (folder / LINK).symlink_to("step.x10")


def found(folder: pathlib.Path) -> Folder:
    return {str(path.relative_to(folder)): path.read_bytes() for path in folder.rglob("*") if path.is_file()}


@dataclass(frozen=True)
class Caller:
    """Makes a call, and tells it."""

    program: pathlib.Path
    folder: pathlib.Path

    def called(self, words: list[str], given: str) -> tuple[Told, Folder]:
        fill(self.folder)
        with (self.folder / given).open("rb") as stdin:
            status, out, err = harness.call([self.program, *words], stdin, cwd=self.folder).texts()
        is_all = is_asked(words) or err.startswith(runs.LOG_FIRST)
        told = err.removesuffix("\n") if is_all else err.partition("\n")[0]
        return Told(status, out, told), found(self.folder)

    def told(self, words: list[str], given: str) -> tuple[Told, Folder]:
        fill(self.folder)
        with contextlib.chdir(self.folder), open(given, "rb") as stdin:
            return command_line.told(words, stdin), found(self.folder)

    def difference(self, words: list[str], given: str) -> tuple[Told, str | None]:
        """What the program answers, and what is wrong with it."""
        (right, left), (got, there) = self.told(words, given), self.called(words, given)
        job = job_of(words)
        if job and "json" in job.flags and job.command in ("run", "outcomes"):
            right, got = in_lines(right), in_lines(got)
        if job and job.command == "outcomes" and {right.status, got.status} <= {outcomes.WHOLE, outcomes.NOT_WHOLE}:
            return got, "; ".join(outcome_faults(job, given, got, left, there)) or None
        if job and "outcome" in job.values and {right.status, got.status} <= {outcomes.WHOLE, outcomes.NOT_WHOLE}:
            right = self.page_of_outcome(job, given)
        if got.status == 0 and job and "workers" in job.values:
            played = replayed(job, given, left, there)
            if played is not None and played != got:
                return got, f"its log is that of {played}, and it answers {got}"
            right, got = in_any_order(right), in_any_order(got)
            left = left if played is None else there
        if (right, left) == (got, there):
            return got, None
        files = {name for name in {*left, *there} if left.get(name) != there.get(name)}
        return got, f"reference: {right}\n    program:   {got}\n    files that differ: {sorted(files)}"

    def page_of_outcome(self, job: Job, given: str) -> Told:
        """What the reference tells of the log that the program writes of an outcome, or in place of a page."""
        file, pick, log = job.values["FILE"], job.values["outcome"], "log of the outcome"
        options = [*(f"--{flag}" for flag in job.flags), *(f"--arg={number}" for number in job.numbers)]
        limit, window = valued(job, "limit"), valued(job, "from", "to")
        listed, there = self.called(["outcomes", *options, *limit, f"--pick={pick}", f"--log={log}", "--", file], given)
        if not there[log]:
            return Told(outcomes.NOT_WHOLE, command_line.no_outcome(int(pick), listed.out))
        with contextlib.chdir(self.folder), open(given, "rb") as stdin:
            return command_line.told(["page", *options, *window, "--", file, log], stdin)


def valued(job: Job, *names: str) -> list[str]:
    """Those of these options that a job has, with their values."""
    return [f"--{name}={job.values[name]}" for name in names if name in job.values]


def job_of(words: list[str]) -> Job | None:
    """What words ask for that are a job."""
    try:
        return command_line.read(words)
    except (command_line.Mistake, command_line.Help, command_line.Version):
        return None


def is_asked(words: list[str]) -> bool:
    """Whether they ask for a run whose order is asked for, of which all that goes to standard error counts."""
    job = job_of(words)
    return job is not None and job.values.get("order") == command_line.ASK


def log_path(job: Job) -> str:
    """The file that a log goes to."""
    path = os.path.normpath(job.values.get("log", ""))
    return "step.x10" if path == LINK else path


def program_of(job: Job, given: str) -> bytes:
    """The bytes of the program."""
    file = job.values["FILE"]
    return FILES[given] if file == "-" else contents_of(file)


def contents_of(path: str) -> bytes:
    """The bytes of a file that was there before the call."""
    return FILES["step.x10" if path == LINK else os.path.normpath(path)]


def are_others_same(job: Job, left: Folder, there: Folder) -> bool:
    """Whether all files but that of the log are the same."""
    kept = [
        {name: text for name, text in files.items() if name not in (log_path(job), LINK)} for files in (left, there)
    ]
    return kept[0] == kept[1]


def in_lines(answer: Told) -> Told:
    """What would be told without `--json`."""
    return Told(answer.status, values.lines(answer.out) if answer.out else "", answer.err)


def in_any_order(answer: Told) -> Told:
    return Told(answer.status, "".join(sorted(answer.out.splitlines(keepends=True))), answer.err)


def replayed(job: Job, given: str, left: Folder, there: Folder) -> Told | None:
    """What a log prints that workers wrote, if they were to write one; all other files are as they are told to be."""
    if log_path(job) not in there:
        return None
    if not are_others_same(job, left, there):
        return Told(-1, "", "other files differ")
    judged = command_line.judge(job, program_of(job, given))
    status, out, err = logs.answer(judged, there[log_path(job)], logs.Played.output, tuple(job.numbers))
    return Told(status, out, err)


def outcome_faults(job: Job, given: str, got: Told, left: Folder, there: Folder) -> Iterator[str]:
    """What is wrong with outcomes that are told, and with their log, if there was to be one; all other files are as
    they are told to be."""
    if got.err or not are_others_same(job, left, there):
        yield f"other files differ, or something is on standard error: {got}"
    module, numbers = command_line.judge(job, program_of(job, given)).module, tuple(job.numbers)
    log = there.get(log_path(job), b"no log") if "log" in job.values else b""
    walk, asked, answer = (
        outcomes.walked(module, numbers), command_line.asked_outcomes(job), Answer(got.status, got.out, log)
    )
    if "count" in job.flags:
        faults = outcomes.count_faults(walk, module, numbers, asked, answer)
    elif "expect" in job.values:
        faults = outcomes.held_faults(walk, asked, outcomes.expected(contents_of(job.values["expect"])), answer)
    else:
        faults = outcomes.faults(walk, module, numbers, asked, answer)
    yield from (f"{fault}: {got}" for fault in faults)


# Cases.


@dataclass(frozen=True)
class Cases:
    """The cases of a seed."""

    seed: int
    program: pathlib.Path

    def compared(self, cases: range) -> tuple[collections.Counter, collections.Counter, list[str]]:
        """How often each answer was given, how often each command answered that it is done, and what differs."""
        answers, done, differing = collections.Counter(), collections.Counter(), []
        with tempfile.TemporaryDirectory() as folder:
            caller = Caller(self.program, pathlib.Path(folder))
            for number in cases:
                words, given = case(random.Random(f"{self.seed} {number}"))
                try:
                    answer, what = caller.difference(words, given)
                except Exception as fault:  # A fault of the reference is a difference like any other.
                    answer, what = Told(-1), f"the reference failed: {fault!r}"
                answers[tally.label(answer.status, answer.err)] += 1
                done[words[0] if words and answer.status == 0 and job_of(words) else ""] += 1
                if what:
                    differing.append(f"case {number}: {words} < {given}\n    {what}")
        return answers, done, differing


def main() -> int:
    parser = argparse.ArgumentParser(description="Compares what x10clock says of command lines with the reference.")
    parser.add_argument("cases", nargs="?", type=int, default=2_000)
    parser.add_argument("seed", nargs="?", type=int, default=1)
    harness.add_program(parser)
    parser.add_argument("--jobs", type=int, default=2)
    parser.add_argument("--tally", action="store_true")
    parser.add_argument("--only", type=int)
    asked = parser.parse_args()
    if asked.only is not None:
        print(*case(random.Random(f"{asked.seed} {asked.only}")))
        return 0
    chunks = [range(start, min(start + CHUNK, asked.cases)) for start in range(0, asked.cases, CHUNK)]
    answers, done, differing = collections.Counter(), collections.Counter(), []
    with concurrent.futures.ProcessPoolExecutor(asked.jobs) as pool:
        for counted, ended, wrong in pool.map(Cases(asked.seed, asked.program.resolve()).compared, chunks):
            answers += counted
            done += ended
            differing += wrong
    differing += [f"no {command} are told" for command in ANSWERED if answers.total() >= MANY and not done[command]]
    if asked.tally:
        tally.show(answers)
    print(*differing[:SHOWN], sep="\n", end="\n" if differing else "", file=sys.stderr)
    print(f"words: {answers.total()} command lines, {len(differing)} answered otherwise")
    return 1 if differing or not answers else 0


if __name__ == "__main__":
    sys.exit(main())
