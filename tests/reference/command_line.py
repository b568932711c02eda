"""The reference for the command line: what words ask for, or why they are no job; and what a job on files is answered.

Of clap's texts it has the first line, and help by its place in tests/program/words.txt. The words are taken one after
another, and the first that is wrong is reported; what an option is given is looked at when the next argument begins,
and what is missing at the end. Files are opened, in this order: FILE, LOG or the list of `--expect`, and PATH of
`--log`, which is emptied; then FILE is read.
"""

from __future__ import annotations

import errno
import itertools
import os
import re
from dataclasses import dataclass, field
from typing import BinaryIO

from tests.harness import TOP
from tests.reference import ask, explain, explain_json, listing, logs, modules, outcomes, runs, source, tally, values
from tests.reference.events import Program
from tests.reference.modules import Accepted, Arguments, Refused, Way
from tests.prover import rule_pages

# A number's digits are read one after another, up to the first that makes it too large.
SIGNED, UNSIGNED = range(-(2**63), 2**63), range(2**64)
WORKERS, COUNTS = range(1, 65), range(1, 2**64)
# A run of more steps than this is too long for Python; runs are counted, for a bound says only how long they may
# become.
TOO_LONG = 100_000
# And so many runs are too many.
MOST_RUNS = 1_000
# What is behind these bytes of a file isn't looked at: some files have no end.
MOST_BYTES = 1 << 25
DEVICE = "x10clock: device"
NO_TEXT = "x10clock: a word is not in UTF-8"
EXCLUDED = "x10clock: --workers and --order exclude each other"
SEED_ALONE = "x10clock: --seed goes with --order random"
PROCESSORS_ALONE = "x10clock: --processors goes with --order greedy"
RUNS_MISPLACED = "x10clock: --runs goes with --order random, and not with --log"
LIST_MISPLACED = "x10clock: --expect goes without --log and --pick"
PICK_ALONE = "x10clock: --pick goes with --log"
COUNT_MISPLACED = "x10clock: --count goes without --expect, --json, --log and --pick"
JSON_MISPLACED = "x10clock: --json goes without --order ask and --runs"
ROUNDS_MISPLACED = "x10clock: --rounds goes without --path, --svg, --from and --to"
PAGE_UNCLEAR = "x10clock: page takes either LOG or --outcome; --limit goes with --outcome, and --path with LOG"
OVER_FILE = "x10clock: --log would write over FILE"
OVER_ANSWERS = "x10clock: --log would write over FILE or standard input"
ASKED_INPUT = "x10clock: --order ask reads standard input, so FILE can't be -"
# The order that a person is asked for.
ASK = "ask"
VERSION = "x10clock 1.5.0\n"
# The kit that proved the sources.
PROVED = "proved with rattle-kit-13f logic dac8208d650f15bf\n"


class Mistake(Exception):
    """The words are no job; the message is the first line that is told."""


class Help(Exception):
    """The words ask for help, of this command or, where it is empty, of the program."""


class Version(Exception):
    """The words ask for the program's version; the message is what is told."""


class Device(Exception):
    """A file failed; the message is what is told before the line of a device, if something is."""


# Of these commands the specification has what is told where a file can't be opened.
FIXED = ("check", "compile", "run", "replay", "chart")
# Why a file can't be opened.
REASONS = {errno.ENOENT: "no such file or folder", errno.EISDIR: "it is a folder", errno.EACCES: "no permission",
           errno.EPERM: "no permission"}


class TooLong(Exception):
    """A run has too many steps to be told, or a program too many worlds."""


# What there is.


@dataclass(frozen=True)
class Option:
    """An option that takes a value: what it is called where it is told, the numbers or names that it takes, if not any
    text, and whether it comes again."""

    told: str
    numbers: range | None = None
    names: list[str] | None = None
    is_list: bool = False


OPTIONS = {
    "order": Option("--order <ORDER>", names=[*modules.ORDERS, ASK]),
    "seed": Option("--seed <SEED>", UNSIGNED),
    "runs": Option("--runs <RUNS>", COUNTS),
    "processors": Option("--processors <P>", COUNTS),
    "workers": Option("--workers <N>", WORKERS),
    "limit": Option("--limit <LIMIT>", COUNTS),
    "pick": Option("--pick <K>", COUNTS),
    "outcome": Option("--outcome <K>", COUNTS),
    "from": Option("--from <STEP>", COUNTS),
    "to": Option("--to <STEP>", COUNTS),
    "at": Option("--at <STEP>", UNSIGNED),
    "log": Option("--log <PATH>"),
    "expect": Option("--expect <FILE2>"),
    "arg": Option("--arg <N>", SIGNED, is_list=True),
}
# A place that takes a number.
NUMBERS = {"STEP": Option("<STEP>", COUNTS)}
# A place that may stay empty.
MAYBE = "?"
# For each command its options, those that take no value, and its places.
COMMANDS: dict[str, tuple[set[str], set[str], list[str]]] = {
    "check": (set(), {"module", "json"}, ["FILE"]),
    "explain": (set(), {"module", "json"}, ["FILE"]),
    "compile": (set(), set(), ["FILE"]),
    "listing": (set(), {"module"}, ["FILE"]),
    "run": ({"order", "seed", "runs", "processors", "workers", "log", "arg"}, {"module", "json"}, ["FILE"]),
    "outcomes": ({"limit", "pick", "log", "expect", "arg"}, {"module", "sets", "count", "json"}, ["FILE"]),
    "races": ({"arg"}, {"module", "json"}, ["FILE", "LOG" + MAYBE]),
    "replay": ({"arg"}, {"module"}, ["FILE", "LOG"]),
    "chart": ({"arg"}, {"module"}, ["FILE", "LOG"]),
    "events": ({"arg"}, {"module", "json"}, ["FILE", "LOG"]),
    "lanes": ({"from", "to", "arg"}, {"module", "svg", "path", "rounds"}, ["FILE", "LOG"]),
    "page": ({"outcome", "limit", "from", "to", "arg"}, {"module", "path"}, ["FILE", "LOG" + MAYBE]),
    "where": ({"at", "arg"}, {"module", "json"}, ["FILE", "LOG"]),
    "span": ({"arg"}, {"module", "json"}, ["FILE", "LOG"]),
    "why": ({"arg"}, {"module"}, ["FILE", "LOG", "STEP"]),
}


@dataclass
class Job:
    """What is asked for."""

    command: str
    flags: set[str] = field(default_factory=set)
    values: dict[str, str] = field(default_factory=dict)
    numbers: list[int] = field(default_factory=list)


# Numbers.


def number(text: str, within: range) -> int:
    """The number that a text names; the message of the fault is what is wrong with it."""
    sign = text[:1] if text[:1] == "+" or text[:1] == "-" and within.start < 0 else ""
    digits = text.removeprefix(sign)
    if not digits:
        raise ValueError("invalid digit found in string" if text else "cannot parse integer from empty string")
    found = 0
    for digit in digits:
        if digit not in "0123456789":
            raise ValueError("invalid digit found in string")
        found = 10 * found + (-int(digit) if sign == "-" else int(digit))
        if found not in within:
            raise ValueError(f"number too {'small' if found < 0 else 'large'} to fit in target type")
    return found


def told_range(numbers: range) -> str:
    """A range as clap tells it, which takes one up to the greatest number for one without an end."""
    greatest = numbers.stop - 1
    return f"{numbers.start}{'..' if numbers.stop == UNSIGNED.stop else '..='}{greatest}"


def looked_at(option: Option, value: str) -> None:
    """Raises what there is to say of an option's value."""
    told, numbers = option.told, option.numbers
    if option.names and value not in option.names:
        raise Mistake(
            f"error: invalid value '{value}' for '{told}'"
            if value
            else f"error: a value is required for '{told}' but none was supplied"
        )
    if numbers is None:
        return
    try:
        found = number(value, SIGNED if numbers.start < 0 else UNSIGNED)
        if found not in numbers:
            raise ValueError(f"{found} is not in {told_range(numbers)}")
    except ValueError as fault:
        raise Mistake(f"error: invalid value '{value}' for '{told}': {fault}") from None


# Words.


def unexpected(word: str) -> Mistake:
    return Mistake(f"error: unexpected argument '{word}' found")


def unrecognized(word: str) -> Mistake:
    return Mistake(f"error: unrecognized subcommand '{word}'")


class Reader:
    """Reads the words behind a command."""

    def __init__(self, command: str) -> None:
        self.job = Job(command)
        self.options, self.flags, places = COMMANDS[command]
        self.places = [place.removesuffix(MAYBE) for place in places]
        self.wanted = [place for place in places if not place.endswith(MAYBE)]
        # The option or place that was met last, with the value that it was given.
        self.name: str | None = None
        self.value: str | None = None

    def read(self, words: list[str]) -> Job:
        at = 0
        while at < len(words) and words[at] != "--":
            self.take(words[at])
            at += 1
        for word in words[at + 1 :]:
            self.place(word)
        self.settle()
        if any(place not in self.job.values for place in self.wanted):
            raise Mistake("error: the following required arguments were not provided:")
        return self.job

    def take(self, word: str) -> None:
        if word.startswith("--"):
            name, equals, value = word[2:].partition("=")
            self.long(name, value if equals else None)
        elif word.startswith("-") and word != "-":
            self.short(word[1])
        elif self.name in OPTIONS and self.value is None:
            self.value = word
        else:
            self.place(word)

    def long(self, name: str, value: str | None) -> None:
        if name in self.options:
            self.settle()
            self.name, self.value = name, value
            if value is not None:
                self.settle()
        elif name not in self.flags | {"help"}:
            raise unexpected(f"--{name}")
        elif value is not None:
            raise Mistake(f"error: unexpected value '{value}' for '--{name}' found; no more were expected")
        else:
            self.settle()
            self.flag(name)

    def flag(self, name: str) -> None:
        if name == "help":
            raise Help(self.job.command)
        if name in self.job.flags:
            raise Mistake(f"error: the argument '--{name}' cannot be used multiple times")
        self.job.flags.add(name)

    def short(self, letter: str) -> None:
        if letter != "h":
            raise unexpected(f"-{letter}")
        self.settle()
        raise Help(self.job.command)

    def place(self, word: str) -> None:
        taken = sum(place in self.job.values or place == self.name for place in self.places)
        if taken == len(self.places):
            raise unexpected(word)
        self.settle()
        self.name, self.value = self.places[taken], word

    def settle(self) -> None:
        """What was met last is done with: its value is looked at, and kept."""
        name, value, self.name, self.value = self.name, self.value, None, None
        if name is None:
            return
        if name not in OPTIONS:
            if name in NUMBERS:
                looked_at(NUMBERS[name], value)
            self.job.values[name] = value
            return
        if value is None:
            raise Mistake(f"error: a value is required for '{OPTIONS[name].told}' but none was supplied")
        if name in self.job.values and not OPTIONS[name].is_list:
            raise Mistake(f"error: the argument '{OPTIONS[name].told}' cannot be used multiple times")
        looked_at(OPTIONS[name], value)
        self.job.values[name] = value
        if name == "arg":
            self.job.numbers.append(int(value))


def helped(words: list[str]) -> Exception:
    """What `help` says of the words behind it."""
    if not words:
        return Help("")
    if words[0] not in {*COMMANDS, "help"}:
        return unrecognized(words[0])
    return unrecognized(words[1]) if len(words) > 1 else Help(words[0])


def read(words: list[str]) -> Job:
    """The job that the words ask for."""
    if any("\udc80" <= sign <= "\udcff" for word in words for sign in word):
        raise Mistake(NO_TEXT)
    if not words or words == ["--"]:
        raise Mistake("error: 'x10clock' requires a subcommand but one was not provided")
    first, rest = words[0], words[1:]
    if first in COMMANDS:
        job = Reader(first).read(rest)
        if "order" in job.values and "workers" in job.values:
            raise Mistake(EXCLUDED)
        if "seed" in job.values and job.values.get("order") != modules.ByChance.NAME:
            raise Mistake(SEED_ALONE)
        if "runs" in job.values and ("log" in job.values or job.values.get("order") != modules.ByChance.NAME):
            raise Mistake(RUNS_MISPLACED)
        if "processors" in job.values and job.values.get("order") != modules.Greedy.NAME:
            raise Mistake(PROCESSORS_ALONE)
        if "expect" in job.values and {"log", "pick"} & {*job.values}:
            raise Mistake(LIST_MISPLACED)
        if "pick" in job.values and "log" not in job.values:
            raise Mistake(PICK_ALONE)
        if "count" in job.flags and ({"log", "pick", "expect"} & {*job.values} or "json" in job.flags):
            raise Mistake(COUNT_MISPLACED)
        if first == "page" and is_unclear(job):
            raise Mistake(PAGE_UNCLEAR)
        if "json" in job.flags and (job.values.get("order") == ASK or "runs" in job.values):
            raise Mistake(JSON_MISPLACED)
        if "rounds" in job.flags and ({"path", "svg"} & job.flags or {"from", "to"} & {*job.values}):
            raise Mistake(ROUNDS_MISPLACED)
        if first == "check" and "json" in job.flags:
            job.command = "explain"
        return job
    if first == "help":
        raise helped(rest)
    if first == "--":
        raise unexpected(rest[0]) if rest[0] in {*COMMANDS, "help"} else unrecognized(rest[0])
    if first == "-" or not first.startswith("-"):
        raise unrecognized(first)
    raise of_all(first)


def is_unclear(job: Job) -> bool:
    """Whether `page` is given a log beside what is for an outcome, or an outcome beside what is for a log, or
    neither."""
    given = {*job.values, *job.flags}
    return bool({"outcome", "limit"} & given) if "LOG" in given else "outcome" not in given or "path" in given


def of_all(word: str) -> Exception:
    """What an option says that stands before any command: `--help` and `--version` alone are known there."""
    if word.startswith("--"):
        name, equals, value = word[2:].partition("=")
        if name not in ("help", "version"):
            return unexpected(f"--{name}")
        if equals:
            return Mistake(f"error: unexpected value '{value}' for '--{name}' found; no more were expected")
    elif (name := {"h": "help", "V": "version"}.get(word[1], "")) == "":
        return unexpected(f"-{word[1]}")
    if name == "help":
        return Help("")
    return Version(VERSION + PROVED if word.startswith("--") else VERSION)


def help_text(command: str) -> str:
    """The text of help, which stands in tests/program/words.txt."""
    call = "$ x10clock help help\n" if command == "help" else f"$ x10clock {command} --help\n".replace("  ", " ")
    return re.split(
        r"^\$ ", (TOP / "tests/program/words.txt").read_text().partition(call)[2], maxsplit=1, flags=re.MULTILINE
    )[0]


# Jobs.


@dataclass(frozen=True)
class Told:
    """What a call answers: its status, standard output, and the first line of standard error, or all of it, of a run
    that is asked for, and where FILE is a log and no program."""

    status: int
    out: str = ""
    err: str = ""


def opened(job: Job, path: str, mode: str) -> BinaryIO | None:
    """The file, or None for a folder, which can be opened and not be read, where what is told of that is fixed."""
    is_folder = mode == "rb" and path and os.path.isdir(path)
    is_fixed = job.command in FIXED and "json" not in job.flags
    if is_folder and is_fixed:
        return None
    try:
        return open(path, mode)
    except OSError as fault:
        raise Device("" if is_fixed else unopened(path, fault.errno)) from None


def unopened(path: str, number: int | None) -> str:
    """Which file can't be opened, and why."""
    shown = "".join(map(explain.shown, explain.signs(path.encode())))
    return f"x10clock: can't open {shown}: {REASONS.get(number, 'the system can' + chr(39) + 't open it')}"


def contents(file: BinaryIO | None) -> bytes:
    if file is None:
        raise Device
    try:
        return file.read(MOST_BYTES)
    except OSError:
        raise Device from None


def is_same(path: str, file: BinaryIO | None) -> bool:
    """Whether the log would be written over the program."""
    if file is None or not os.path.isfile(path):
        return False
    return os.path.samestat(os.stat(path), os.fstat(file.fileno()))


def listed(job: Job, data: bytes) -> Told:
    try:
        return Told(0, listing.listed(data, "module" in job.flags))
    except (modules.Unread, source.Fault) as fault:
        return Told(1, "", f"x10clock: {fault}")


def judge(job: Job, data: bytes) -> Accepted | Refused:
    return modules.judge(data) if "module" in job.flags else source.judge(data)


def compiled(data: bytes) -> Told:
    try:
        return Told(0, source.module_text(data) + "\n")
    except source.Fault as fault:
        return Told(1, "", f"x10clock: {fault}")


def explained(job: Job, data: bytes, judged: Refused) -> str:
    """What is said of a program that is refused."""
    kinds = [kind.name.lower() for kind in judged.by_kind.kinds] if judged.by_kind else []
    teller = explain_json if "json" in job.flags else explain
    return teller.explained(job.values["FILE"], data, judged.line, kinds, "module" in job.flags)


def accepted(job: Job, data: bytes, line: str) -> str:
    """What is said of a program that is accepted."""
    is_module = "module" in job.flags
    if job.command == "check":
        return line
    if "json" in job.flags:
        return explain_json.accepted(job.values["FILE"], data, line, is_module)
    return explain.accepted(data, line, is_module)


def ran(job: Job, judged: Accepted, log: BinaryIO | None) -> Told:
    """What a run prints; by workers as by one of them, and such a run's log isn't told."""
    processors = int(job.values["processors"]) if "processors" in job.values else None
    way = modules.way_of(job.values.get("order", "first"), int(job.values.get("seed", "0")), processors)
    given = tuple(job.numbers)
    if is_too_long(judged, way, given):
        raise TooLong
    if log and "workers" not in job.values:
        log.write(logs.text_of(logs.log_of(judged.module, way, given)))
    run = modules.run(judged.module, way, given)
    return Told(0, values.run(run) if "json" in job.flags else run.text())


def asked(job: Job, data: bytes, judged: Accepted, answers: bytes, log: BinaryIO | None) -> Told:
    """What a run prints whose order is asked for, and what is asked."""
    if judged.bounds.steps > TOO_LONG:
        raise TooLong
    told = ask.game(Program(data, "module" in job.flags), judged, answers, tuple(job.numbers))
    if log:
        log.write(told.log)
    return Told(told.status, told.out, told.err.removesuffix("\n"))


def tallied(job: Job, judged: Accepted) -> Told:
    """How often what is printed in runs by chance."""
    seed, count, given = int(job.values.get("seed", "0")), int(job.values["runs"]), tuple(job.numbers)
    if count > MOST_RUNS or any(
        is_too_long(judged, modules.ByChance(each % tally.SEEDS), given) for each in range(seed, seed + count)
    ):
        raise TooLong
    return Told(0, tally.tally(judged.module, given, seed, count))


def is_too_long(judged: Accepted, way: Way, arguments: Arguments) -> bool:
    if judged.bounds.steps <= TOO_LONG:
        return False
    return next(itertools.islice(logs.driven(judged.module, way, arguments), TOO_LONG, None), None) is not None


def asked_outcomes(job: Job) -> outcomes.Asked:
    """How many outcomes at most are asked for, and whose log, or page."""
    limit = int(job.values.get("limit", outcomes.USUAL_LIMIT))
    pick = int(job.values.get("outcome", job.values.get("pick", "1")))
    return outcomes.Asked(limit, pick if {"log", "outcome"} & {*job.values} else None, "sets" in job.flags)


def searched(job: Job, judged: Accepted, log: BinaryIO | None) -> Told:
    """An answer that `outcomes` may give, for which it has its choice."""
    walk = outcomes.walked(judged.module, tuple(job.numbers))
    if walk is None:
        raise TooLong
    if "count" in job.flags:
        return Told(*outcomes.counted(walk, asked_outcomes(job))[:2])
    answer = outcomes.answer(walk, asked_outcomes(job))
    if log:
        log.write(answer.log)
    return Told(answer.status, values.outcomes(answer.out) if "json" in job.flags else answer.out)


def no_outcome(pick: int, out: str) -> str:
    """What is told in place of a page, where `outcomes` tells this."""
    return f"no outcome {pick}: {out.splitlines()[-1]}\n"


def outcome_log(job: Job, judged: Accepted) -> bytes | Told:
    """A log of which the page may be that is made of an outcome, or what is told where there is none."""
    walk, asked = outcomes.walked(judged.module, tuple(job.numbers)), asked_outcomes(job)
    if walk is None:
        raise TooLong
    answer = outcomes.answer(walk, asked)
    return answer.log or Told(outcomes.NOT_WHOLE, no_outcome(asked.pick, answer.out))


def held(job: Job, judged: Accepted, list_in: BinaryIO | None) -> Told:
    """An answer that may be given where outcomes are held against a list."""
    try:
        told = outcomes.expected(contents(list_in))
    except outcomes.Stray as fault:
        return Told(outcomes.NO_LIST, "", f"x10clock: {fault}")
    walk = outcomes.walked(judged.module, tuple(job.numbers))
    if walk is None:
        raise TooLong
    answer = outcomes.held(walk, asked_outcomes(job), told)
    return Told(answer.status, values.held(answer.out, answer.status) if "json" in job.flags else answer.out)


def first_log(judged: Accepted, arguments: Arguments) -> bytes:
    """The log of the run in the order `first`, whose races are told where no log is given."""
    way = modules.way_of("first", 0)
    if is_too_long(judged, way, arguments):
        raise TooLong
    return logs.text_of(logs.log_of(judged.module, way, arguments))


def run_log(job: Job, judged: Accepted, log_in: BinaryIO | None) -> bytes | Told:
    """The log of the run that is told of, or what is told where there is no such run."""
    if "outcome" in job.values:
        return outcome_log(job, judged)
    return contents(log_in) if "LOG" in job.values else first_log(judged, tuple(job.numbers))


def answered(job: Job, data: bytes, given: BinaryIO, log_in: BinaryIO | None, log_out: BinaryIO | None) -> Told:
    """What is said of a program's bytes, with this standard input."""
    if job.command in ("compile", "listing"):
        return compiled(data) if job.command == "compile" else listed(job, data)
    judged = judge(job, data)
    line = modules.refusal(job.command, judged, tuple(job.numbers))
    if line:
        note = runs.note(job.command, Program(data, "module" in job.flags)) if "LOG" in job.values else ""
        return Told(1, explained(job, data, judged) if job.command == "explain" else "", f"{note}x10clock: {line}")
    if job.command in ("check", "explain"):
        return Told(0, accepted(job, data, judged.bounds.line() + "\n"))
    if job.values.get("order") == ASK:
        return asked(job, data, judged, contents(given), log_out)
    if "runs" in job.values:
        return tallied(job, judged)
    if "expect" in job.values:
        return held(job, judged, log_in)
    if job.command in ("run", "outcomes"):
        return ran(job, judged, log_out) if job.command == "run" else searched(job, judged, log_out)
    log = run_log(job, judged, log_in)
    if isinstance(log, Told):
        return log
    window = range(int(job.values.get("from", "0")), int(job.values.get("to", str(2**64 - 1))) + 1)
    status, out, err = runs.answer(
        job.command,
        judged,
        Program(data, "module" in job.flags, job.values["FILE"]),
        log,
        tuple(job.numbers),
        window,
        "svg" in job.flags,
        int(job.values["at"]) if "at" in job.values else None,
        int(job.values.get("STEP", "1")),
        "json" in job.flags,
        "path" in job.flags,
        "rounds" in job.flags,
    )
    return Told(status, out, err.removesuffix("\n"))


def rule_page(job: Job) -> str | None:
    """The page of the rule whose code stands for FILE, where `explain` is asked for it as a text."""
    if job.command != "explain" or job.flags:
        return None
    pages = {rule.code: rule.lines for rule in rule_pages.rules(TOP)}
    return "".join(f"{line}\n" for line in pages[job.values["FILE"]]) if job.values["FILE"] in pages else None


def done(job: Job, given: BinaryIO) -> Told:
    """What a job is answered, with this standard input. The files are those of the folder that the caller is in."""
    file, log_in, log_out, is_asked = job.values["FILE"], None, None, job.values.get("order") == ASK
    if page := rule_page(job):
        return Told(0, page)
    if is_asked and file == "-":
        return Told(2, "", ASKED_INPUT)
    program = given if file == "-" else opened(job, file, "rb")
    try:
        if {"LOG", "expect"} & {*job.values}:
            log_in = opened(job, job.values["LOG" if "LOG" in job.values else "expect"], "rb")
        if "log" in job.values:
            if is_asked and (is_same(job.values["log"], given) or is_same(job.values["log"], program)):
                return Told(2, "", OVER_ANSWERS)
            if is_same(job.values["log"], program):
                return Told(2, "", OVER_FILE)
            log_out = opened(job, job.values["log"], "wb")
        return answered(job, contents(program), given, log_in, log_out)
    finally:
        for opened_file in (log_in, log_out, program if file != "-" else None):
            if opened_file:
                opened_file.close()


def told(words: list[str], given: BinaryIO) -> Told:
    """What the words are answered, with this standard input."""
    try:
        return done(read(words), given)
    except Version as version:
        return Told(0, str(version))
    except Help as asked:
        return Told(0, help_text(str(asked)))
    except Mistake as mistake:
        return Told(2, "", str(mistake))
    except Device as device:
        return Told(5, "", str(device) or DEVICE)
