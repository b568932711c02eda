#!/usr/bin/env python3
"""Refuses each growth of memory in turn, the first, the second and so on, until a run ends without a refusal: in
`xk_tests_memory`, which makes library calls again that were refused memory and handed back what they were given, and in
`x10clock` itself on small programs, modules and source texts, and on words that are no job, which has to answer as it
does with ample memory, or with status 4, an empty standard output, nothing in the log that it was to write, and its
line.

    python3 -m tests.program.refused_growths [--counts] [--program PATH] [--exhaust PATH]

crates/x10clock/out/x10clock and crates/xk_tests_memory/out/xk_tests_memory where nothing else is said. The calls are
tried on all processors at once, each call's growths one after another. With `--counts` it tells how many each call has,
and how long they took.
"""

from __future__ import annotations

import argparse
import multiprocessing
import os
import pathlib
import select
import subprocess
import sys
import tempfile
import time
from dataclasses import dataclass

from tests import harness
from tests.harness import TOP

ROWS = TOP / "tests/program/rows"
LOGS = TOP / "tests/program/logs"
EXHAUST = "xk_tests_memory"

# Source texts that have a module: of no statement; of all sorts of statements; of bodies that take numbers; of methods
# that call each other in a chain; of a main that takes numbers, by which its loops end.
COMPILED = (
    "def main() { }",
    "def main() { val c = Clock.make(); var x: Long = -(1 + 2) * 3; if (x < 4) x = 5; else { c.resume(); } "
    "async clocked(c) { Clock.advanceAll(); } c.drop(); }",
    "def main() { val a = 1; val b = 2; "
    "async { Console.OUT.println(b); async { val d = a + b; Console.OUT.println(d); } } }",
    "def h(n: Long) { Console.OUT.println(n); } def g(c: Clock, n: Long) { h(n * 2); h(n); } "
    "def main() { val c = Clock.make(); g(c, 7); for (i in 2..1) h(i); }",
    "def main(n: Long, k: Long) { var t = n; for (i in 1..Math.min(t * k, 9)) { "
    "for (j in 0..Math.min(i, 3)) t = t - j; async { Console.OUT.println(i); } } Console.OUT.println(t); }",
)

# Source texts that break a rule: on tokens, on syntax, on names, on `main`, on recursion, on tables.
FAULTY = (
    "def main() { # }",
    "def main() { val x = ; }",
    "def main() { val x = 1; async { val y = x; z = y; } }",
    "def f() { }",
    "def main(c: Clock) { }",
    "def main() { for (i in 1..Math.min(i, 3)) { } }",
    "def f() { g(); } def g() { async { f(); } } def main() { f(); }",
    f"def main() {{ val a = 0; f({', '.join(['a'] * 65)}); }} "
    f"def f({', '.join(f'n{i}: Long' for i in range(65))}) {{ }}",
)

# No modules: of no version, with an instruction that its version lacks, and no text.
UNREAD = (
    '{"version":3,"shared":[],"units":[]}',
    '{"version":1,"shared":[],"units":[{"kind":"main","params":"","slots":2,'
    '"code":[["lit",1,2],["forto",0,1,1,3,2],["next",1],["ret"]]}]}',
    "",
)

MEMORY = b"x10clock: out of memory\n"
LOG_FIRST = b"x10clock: FILE is a log; the program comes first, then the log\n"
# A word that stands for the file of the log that a run is to write.
LOG = "the log"
# In how many parts the growths of one call are tried beside each other, where it has thousands.
PARTS = 8


class Wrong(Exception):
    """What was answered isn't what has to be."""


@dataclass(frozen=True)
class Answer:
    """What comes of a call: its status, what it wrote, and its log, if it made one."""

    status: int
    out: bytes
    err: bytes
    log: bytes | None


@dataclass(frozen=True)
class Call:
    """A call of a program with its words and standard input, and what it answers with ample memory. One that asks may
    have told some of it before it says that memory is out."""

    name: str
    words: list[str]
    input: bytes
    wanted: Answer
    first: int = 1
    step: int = 1
    asks: bool = False


class Place:
    """A folder for the files of one call at a time."""

    def __init__(self, folder: str, preloaded: str) -> None:
        self.folder = pathlib.Path(tempfile.mkdtemp(dir=folder))
        self.input, self.out, self.err, self.log, self.mark = (
            str(self.folder / name) for name in ("in", "out", "err", "log", "mark"))
        self.environment = {**os.environ, "LD_PRELOAD": preloaded, "REFUSE_MARK": self.mark}
        self.give(b"")

    def give(self, text: bytes) -> None:
        """What the next calls read from standard input."""
        pathlib.Path(self.input).write_bytes(text)

    def answer(self, words: list[str], refused: int) -> tuple[Answer, bool]:
        """What comes of the call where its growth of this number is refused, 0 being none, and whether one was."""
        for path in (self.log, self.mark):
            if os.path.exists(path):
                os.unlink(path)
        self.environment["REFUSE_AT"] = str(refused)
        words = [self.log if word == LOG else word for word in words]
        made = os.O_WRONLY | os.O_CREAT | os.O_TRUNC
        child = os.posix_spawn(words[0], words, self.environment, file_actions=[
            (os.POSIX_SPAWN_OPEN, 0, self.input, os.O_RDONLY, 0),
            (os.POSIX_SPAWN_OPEN, 1, self.out, made, 0o600),
            (os.POSIX_SPAWN_OPEN, 2, self.err, made, 0o600)])
        status = ended(child)
        log = contents(self.log) if os.path.exists(self.log) else None
        return Answer(status, contents(self.out), contents(self.err), log), os.path.exists(self.mark)


def contents(path: str) -> bytes:
    with open(path, "rb") as file:
        return file.read()


def ended(child: int) -> int:
    """The status that the process ends with, within a minute."""
    handle = os.pidfd_open(child)
    try:
        if not select.select([handle], [], [], harness.SECONDS)[0]:
            os.kill(child, 9)
            os.waitpid(child, 0)
            raise Wrong(f"no end within {harness.SECONDS} seconds")
        return os.waitstatus_to_exitcode(os.waitpid(child, 0)[1])
    finally:
        os.close(handle)


def judge(call: Call, growth: int, told: Answer, is_refused: bool) -> None:
    """Says where this isn't what has to be answered with this growth refused."""
    if told == call.wanted:
        return
    where = f"{call.name}, growth {growth}"
    if told.status != 4:
        raise Wrong(f"{where}: {told}, not {call.wanted}")
    if not is_refused:
        raise Wrong(f"{where}: out of memory without a refused growth")
    said = told.err.removesuffix(MEMORY) if call.asks else b""
    if told.out or told.err != said + MEMORY or not call.wanted.err.startswith(said) or told.log:
        raise Wrong(f"{where}: {told} with status 4")


def each_growth(place: Place, call: Call) -> int:
    """How many growths of the call were refused."""
    place.give(call.input)
    growth = call.first
    refused = 0
    while True:
        told, is_refused = place.answer(call.words, growth)
        judge(call, growth, told, is_refused)
        if not is_refused:
            break
        refused += 1
        growth += call.step
    if not refused:
        raise Wrong(f"{call.name}: no growth was refused")
    return refused


class Calls:
    """The calls that are to be tried, each asked once with ample memory."""

    def __init__(self, place: Place, program: pathlib.Path) -> None:
        self.place, self.program = place, str(program)
        self.calls: list[Call] = []

    def ask(self, name: str, words: list[str], text: bytes = b"", asks: bool = False) -> Answer:
        """Adds a call of the program, and what it answers."""
        self.place.give(text)
        wanted, _ = self.place.answer([self.program, *words], 0)
        self.calls.append(Call(name, [self.program, *words], text, wanted, asks=asks))
        return wanted

    def need(self, name: str, words: list[str], text: bytes, status: int, out: bytes, err: bytes) -> Answer:
        """The same of one that has to answer so."""
        told = self.ask(name, words, text)
        if (told.status, told.out, told.err) != (status, out, err):
            raise Wrong(f"{name}: {told}")
        return told

    def begins(self, name: str, words: list[str], status: int, out: str, err: str) -> Answer:
        """The same of one whose texts have to begin with these lines; an empty one stands for an empty text."""
        told = self.ask(name, words)
        firsts = [text.decode("utf-8").split("\n")[0] for text in (told.out, told.err)]
        if (told.status, firsts) != (status, [out, err]) or any(
            text and not line for text, line in zip((told.out, told.err), firsts)
        ):
            raise Wrong(f"{name}: {told}")
        return told

    def exhaust(self, program: pathlib.Path) -> None:
        """Adds `xk_tests_memory`, which answers the same whatever growth is refused."""
        wanted = Answer(0, (TOP / "crates/xk_tests_memory/stdout").read_bytes(), b"", None)
        for part in range(PARTS):
            self.calls.append(Call("exhaust", [str(program)], b"", wanted, first=part + 1, step=PARTS))


def given(row: pathlib.Path) -> list[str]:
    """The words of a row: `--module` where it is a module, and `--arg` for each number that its main is given."""
    words = ["--module"] if row.suffix == ".json" else []
    numbers = row.with_suffix(".args")
    return words + [f"--arg={number}" for number in numbers.read_text().split()] if numbers.exists() else words


def each_row(calls: Calls) -> None:
    for row in sorted([*ROWS.glob("*.json"), *ROWS.glob("*.x10")]):
        text = row.read_bytes()
        out, err = (row.with_suffix(end).read_bytes() for end in (".stdout", ".stderr"))
        calls.ask(f"{row.name}, explained", ["explain", *given(row)[:row.suffix == ".json"], "-"], text)
        calls.ask(
            f"{row.name}, explained as JSON", ["explain", "--json", *given(row)[:row.suffix == ".json"], "-"], text
        )
        calls.ask(f"{row.name}, run as JSON", ["run", "--json", *given(row), "-"], text)
        calls.ask(f"{row.name}, listed", ["listing", *given(row)[:row.suffix == ".json"], "-"], text)
        calls.ask(f"{row.name}, checked", ["check", *given(row)[:row.suffix == ".json"], "-"], text)
        calls.need(row.name, ["run", *given(row), "-"], text, 1 if err else 0, out, err)
        for order in ("first", "last", "round"):
            printed = row.with_suffix(f".{order}.stdout")
            if printed.exists():
                words = ["run", *given(row), "--order", order, "-"]
                calls.need(f"{row.name}, order {order}", words, text, 0, printed.read_bytes(), b"")
                logged = calls.need(
                    f"{row.name}, order {order}, with a log", [*words, "--log", LOG], text, 0, printed.read_bytes(), b""
                )
                if not logged.log:
                    raise Wrong(f"{row.name}, order {order}: no log")
        if row.suffix == ".x10":
            calls.ask(f"{row.name}, compiled", ["compile", "-"], text)
        if not err:
            calls.ask(f"{row.name}, some outcomes", ["outcomes", *given(row), "--limit", "3", "-"], text)
            calls.ask(
                f"{row.name}, some outcomes as JSON", ["outcomes", "--json", *given(row), "--limit", "3", "-"], text
            )


def each_text(calls: Calls) -> None:
    """Texts that have a module, and texts that have none."""
    for number, text in enumerate(COMPILED):
        if calls.ask(f"text {number}, compiled", ["compile", "-"], text.encode()).status:
            raise Wrong(f"not compiled: {text}")
    for words, texts in (["check"], FAULTY), (["check", "--module"], UNREAD):
        for number, text in enumerate(texts):
            told = calls.ask(f"{' '.join(words)} of wrong text {number}", [*words, "-"], text.encode())
            if told.status != 1 or told.out:
                raise Wrong(f"not refused: {text}")


def each_log(calls: Calls, folder: str) -> None:
    """Runs with their logs; the logs' replay and chart; and logs that are refused."""
    for name in ("in-step.x10", "ring.json", "method-waits.x10", "shared-sum.x10", "sum-to-square.json", "as-many.x10"):
        row = ROWS / name
        text, words = row.read_bytes(), given(row)
        ran = calls.ask(f"{name}, with a log", ["run", *words, "--log", LOG, "-"], text)
        last = ran.out.splitlines()[-1].replace(b"ended steps ", b"end ")
        if ran.status or not ran.log or ran.log.splitlines()[-1] != last:
            raise Wrong(f"{name}, the log: {ran}")
        kept = pathlib.Path(folder) / f"{name}.log"
        kept.write_bytes(ran.log)
        calls.need(f"{name}, replay", ["replay", *words, "-", str(kept)], text, 0, ran.out, b"")
        charted = calls.ask(f"{name}, chart", ["chart", *words, "-", str(kept)], text)
        if charted.status:
            raise Wrong(f"{name}, chart: {charted}")
        for command in (
            "events", "events --json", "lanes", "lanes --svg", "lanes --path", "lanes --svg --path", "lanes --rounds",
            "page", "page --path", "where", "where --json", "where --at 2", "where --at 999999",
            "where --json --at 999999", "races", "races --json", "span", "span --json"
        ):  # fmt: skip
            told = calls.ask(f"{name}, {command}", [*command.split(), *words, "-", str(kept)], text)
            partial = (0, 6) if command.split()[0] in ("races", "span") else (6,) if "999999" in command else (0,)
            if told.status not in partial:
                raise Wrong(f"{name}, {command}: {told}")
            if not told.out:
                raise Wrong(f"{name}, {command}: {told}")
        for step, status in ((last.split()[-1].decode(), 0), ("999999", 6)):
            told = calls.ask(f"{name}, why {step}", ["why", *words, "-", str(kept), step], text)
            if told.status != status or not told.out:
                raise Wrong(f"{name}, why {step}: {told}")
    text = (ROWS / "in-step.x10").read_bytes()
    for log, line in (("zero-steps", "L1 Grammar line 2"), ("no-end", "L2 Truncated"),
                      ("waits", "L4 NotEnabled entry 3"), ("stops", "L5 NotEnded")):
        so_far = () if log == "stops" else ("events", "lanes", "page")
        for command in (
            "replay", "chart", *so_far, "races", "races --json", "span", "span --json", "lanes --path",
            "lanes --rounds", "page --path"
        ):  # fmt: skip
            err = f"x10clock: {line}\n".encode()
            calls.need(f"{command}, {log}", [*command.split(), "-", str(LOGS / f"{log}.log")], text, 3, b"", err)
        calls.need(f"why, {log}", ["why", "-", str(LOGS / f"{log}.log"), "1"], text, 3, b"", err)
    waits = (LOGS / "waits.log").read_bytes()
    for command, note in (("events", LOG_FIRST), ("races", LOG_FIRST), ("where", LOG_FIRST), ("replay", b"")):
        calls.need(
            f"{command}, a log for FILE", [command, "-", str(LOGS / "waits.log")], waits, 1, b"",
            note + b"x10clock: F2 Syntax at 0\n"
        )
    for command in ("events", "events --json", "lanes", "lanes --svg", "page"):
        told = calls.ask(f"{command}, stops", [*command.split(), "-", str(LOGS / "stops.log")], text)
        if told.status != 6 or b"the log ends after step 11, before the run does" not in told.out:
            raise Wrong(f"{command}, stops: {told}")
    for log, status in (("zero-steps", 3), ("no-end", 3), ("waits", 6), ("stops", 0)):
        for command in ("where", "where --json"):
            stood = calls.ask(f"{command}, {log}", [*command.split(), "-", str(LOGS / f"{log}.log")], text)
            if stood.status != status:
                raise Wrong(f"{command}, {log}: {stood}")


def each_mismatch(calls: Calls, folder: str) -> None:
    """Too few arguments, and too many."""
    text = (ROWS / "as-many.x10").read_bytes()
    few, many = (f"x10clock: A1 Arguments wants 1 has {has}\n".encode() for has in (0, 2))
    calls.need("no argument, run", ["run", "-"], text, 1, b"", few)
    calls.need("no argument, chart", ["chart", "-", f"{folder}/as-many.x10.log"], text, 1, b"", few)
    calls.need("two arguments", ["run", "--arg", "1", "--arg", "1", "-"], text, 1, b"", many)


def each_search(calls: Calls) -> None:
    """All that small programs can print, with a log of one outcome; some of it, where a limit is met; and runs by
    chance, and by rounds."""
    for name, limit, status in (("in-step.x10", "100", 0), ("ring.json", "3", 0), ("as-many.x10", "2", 6)):
        row = ROWS / name
        found = calls.ask(
            f"{name}, outcomes", ["outcomes", *given(row), "--limit", limit, "--log", LOG, "-"], row.read_bytes()
        )
        if found.status != status or not found.out or status == 0 and not found.log:
            raise Wrong(f"{name}, outcomes: {found}")
        calls.ask(
            f"{name}, by chance",
            ["run", *given(row), "--order", "random", "--seed", "5", "--log", LOG, "-"],
            row.read_bytes(),
        )
        by_rounds = ["run", *given(row), "--order", "greedy", "--processors", "2"]
        calls.ask(f"{name}, by rounds", [*by_rounds, "-"], row.read_bytes())
        calls.ask(f"{name}, by rounds, with a log", [*by_rounds, "--log", LOG, "-"], row.read_bytes())
        calls.ask(f"{name}, a tally", ["run", *given(row), "--order", "random", "--runs", "3", "-"], row.read_bytes())
        calls.ask(f"{name}, races", ["races", *given(row), "-"], row.read_bytes())
        calls.ask(f"{name}, races as JSON", ["races", "--json", *given(row), "-"], row.read_bytes())
        calls.ask(
            f"{name}, outcomes without order",
            ["outcomes", *given(row), "--sets", "--limit", limit, "-"],
            row.read_bytes(),
        )
        for options in ((), ("--sets",)):
            words = ["outcomes", *given(row), "--count", *options, "--limit", limit, "-"]
            calls.ask(f"{name}, {' '.join(['the count of outcomes', *options])}", words, row.read_bytes())
        paged = calls.ask(
            f"{name}, the page of an outcome",
            ["page", *given(row), "--outcome", "1", "--limit", limit, "-"],
            row.read_bytes(),
        )
        if paged.status or not paged.out.startswith(b"<!DOCTYPE html>"):
            raise Wrong(f"{name}, the page of an outcome: {paged}")
    calls.need(
        "no page of an outcome",
        ["page", "--outcome", "3", "-"],
        (ROWS / "in-step.x10").read_bytes(),
        6,
        b"no outcome 3: outcomes 2 complete\n",
        b"",
    )


def each_list(calls: Calls, folder: str) -> None:
    """Outcomes that are held against a list which has them all, against one that hasn't, and against one that is
    none."""
    row = ROWS / "in-step.x10"
    for name, lines, status, out, err in (
            (
                "all",
                "outcome 2 prints 1 2\noutcome 1 prints 2 1\noutcomes 2 complete\n",
                0,
                b"outcomes 2 complete\n",
                b"",
            ),
            ("some", "outcome 1 prints 1 2\n", 7, b"outcome 2 prints 2 1\n", b""),
            ("none", "outcome 1 prints 1 2\n1 2\n", 3, b"", b"x10clock: L6 NoOutcome line 2\n")):
        kept = pathlib.Path(folder) / f"{name}.list"
        kept.write_text(lines)
        calls.need(f"a list of {name}", ["outcomes", "--expect", str(kept), "-"], row.read_bytes(), status, out, err)
        calls.ask(f"a list of {name}, as JSON", ["outcomes", "--json", "--expect", str(kept), "-"], row.read_bytes())
        calls.ask(
            f"a list of {name}, without order",
            ["outcomes", "--sets", "--limit", "4", "--expect", str(kept), "-"],
            row.read_bytes(),
        )


def each_game(calls: Calls) -> None:
    """Runs by hand: to their end, with a log and without, and where the input ends before."""
    for name in ("in-step.x10", "ring.json", "as-many.x10"):
        row = ROWS / name
        words = ["run", "--order", "ask", *given(row), str(row)]
        whole = b"".join(b"%d\n" % act for act in [0, 1, 2, 3] * 60)
        for what, answers, status in (
            ("to its end", whole, 0),
            ("to no end", b"0\nnobody\n0\n", 6),
            ("without an answer", b"", 6),
        ):
            played = calls.ask(f"{name}, by hand {what}", words, answers, asks=True)
            logged = calls.ask(f"{name}, by hand {what}, with a log", [*words, "--log", LOG], answers, asks=True)
            if (played.status, logged.status) != (status, status) or not played.err or not logged.log:
                raise Wrong(f"{name}, by hand {what}: {played} {logged}")


def each_worker(calls: Calls) -> None:
    """Runs by one worker, which takes the steps as in the order `first`; and fifty activities."""
    for name in ("in-step.x10", "ring.json", "shared-sum.x10", "two-loops.x10", "as-many.x10"):
        row = ROWS / name
        text, words, out = row.read_bytes(), given(row), row.with_suffix(".stdout").read_bytes()
        calls.need(f"{name}, by a worker", ["run", *words, "--workers", "1", "-"], text, 0, out, b"")
        logged = ["run", *words, "--workers", "1", "--log", LOG, "-"]
        calls.need(f"{name}, by a worker with a log", logged, text, 0, out, b"")
    fifty = b"def main() { for (i in 1..50) async { } }\n"
    calls.ask("fifty activities, with a log", ["run", "--log", LOG, "-"], fifty)
    calls.ask("fifty activities, by a worker", ["run", "--workers", "1", "-"], fifty)


def each_mistake(calls: Calls) -> None:
    """Words that are no job."""
    for name, words, err in (
            ("no words", [], "error: 'x10clock' requires a subcommand but one was not provided"),
            ("walk", ["walk"], "error: unrecognized subcommand 'walk'"),
            (
                "an unknown order",
                ["run", "--module", "--order", "least", "-"],
                "error: invalid value 'least' for '--order <ORDER>'",
            ),
            (
                "an order for check",
                ["check", "--module", "--order", "first", "-"],
                "error: unexpected argument '--order' found",
            ),
            ("no workers", ["run", "--module", "--workers", "0", "-"],
             "error: invalid value '0' for '--workers <N>': 0 is not in 1..=64"),
            ("an argument that is no number", ["run", "--arg", "x", "-"],
             "error: invalid value 'x' for '--arg <N>': invalid digit found in string"),
            ("an argument for check", ["check", "--arg", "1", "-"], "error: unexpected argument '--arg' found"),
            ("JSON for a listing", ["listing", "--json", "-"], "error: unexpected argument '--json' found"),
            ("workers beside an order", ["run", "--module", "--workers", "2", "--order", "first", "-"],
             "x10clock: --workers and --order exclude each other"),
            (
                "a seed without chance",
                ["run", "--module", "--seed", "2", "-"],
                "x10clock: --seed goes with --order random",
            ),
            (
                "a tally without chance",
                ["run", "--runs", "2", "-"],
                "x10clock: --runs goes with --order random, and not with --log",
            ),
            (
                "processors without rounds",
                ["run", "--order", "last", "--processors", "2", "-"],
                "x10clock: --processors goes with --order greedy",
            ),
            (
                "JSON of a run by hand",
                ["run", "--json", "--order", "ask", "list"],
                "x10clock: --json goes without --order ask and --runs",
            ),
            (
                "a list beside a log",
                ["outcomes", "--expect", "list", "--log", LOG, "-"],
                "x10clock: --expect goes without --log and --pick",
            ),
            ("a pick without a log", ["outcomes", "--pick", "2", "-"], "x10clock: --pick goes with --log"),
            (
                "a page of no run",
                ["page", "-"],
                "x10clock: page takes either LOG or --outcome; --limit goes with --outcome, and --path with LOG",
            ),
            ("no outcomes", ["outcomes", "--limit", "0", "-"],
             "error: invalid value '0' for '--limit <LIMIT>': 0 is not in 1..18446744073709551615")):
        calls.begins(name, words, 2, "", err)
    calls.begins("--help", ["--help"], 0, "Verifies and runs clocked programs.", "")
    told = calls.begins("a word not in UTF-8", ["run", "--module", "\udcff"], 2, "", "x10clock: a word is not in UTF-8")
    if told.err.count(b"\n") != 1:
        raise Wrong(f"a word not in UTF-8: {told}")


def all_calls(folder: str, preloaded: str, given: argparse.Namespace) -> list[Call]:
    calls = Calls(Place(folder, preloaded), given.program)
    calls.exhaust(given.exhaust)
    each_log(calls, folder)
    each_mismatch(calls, folder)
    each_row(calls)
    each_text(calls)
    each_search(calls)
    each_list(calls, folder)
    each_game(calls)
    each_worker(calls)
    each_mistake(calls)
    return calls.calls


# What a process that tries calls has: its place, and the calls.
PLACE: Place
CALLS: list[Call]


def begin(folder: str, preloaded: str, calls: list[Call]) -> None:
    global PLACE, CALLS
    PLACE, CALLS = Place(folder, preloaded), calls


def tried(number: int) -> tuple[int, int, float, str]:
    """Which call it was, how many growths were refused, how long that took, and what was wrong."""
    begun = time.monotonic()
    try:
        return number, each_growth(PLACE, CALLS[number]), time.monotonic() - begun, ""
    except Wrong as wrong:
        return number, 0, time.monotonic() - begun, str(wrong)


def main() -> int:
    parser = argparse.ArgumentParser()
    parser.add_argument("--counts", action="store_true")
    harness.add_program(parser)
    parser.add_argument("--exhaust", type=harness.resolved)
    options = parser.parse_args()
    options.exhaust = options.exhaust or harness.beside(options.program, EXHAUST)
    for path in (options.exhaust, options.program):
        harness.build(path)
    with tempfile.TemporaryDirectory() as folder:
        preloaded = f"{folder}/refuse.so"
        subprocess.run(["gcc", "-shared", "-fPIC", "-O2", "-o", preloaded, TOP / "tests/program/refuse.c"], check=True)
        try:
            calls = all_calls(folder, preloaded, options)
        except Wrong as wrong:
            print(f"refused growths: {wrong}", file=sys.stderr)
            return 1
        total = 0
        processors = len(os.sched_getaffinity(0))
        with multiprocessing.Pool(processors, begin, (folder, preloaded, calls)) as pool:
            for number, refused, seconds, wrong in pool.imap_unordered(tried, range(len(calls))):
                if wrong:
                    print(f"refused growths: {wrong}", file=sys.stderr)
                    pool.terminate()
                    return 1
                if options.counts:
                    print(f"{refused:6} {seconds:7.2f} s {calls[number].name}", flush=True)
                total += refused
    print(f"refused growths: {total} refused, all answered as they must")
    return 0


if __name__ == "__main__":
    sys.exit(main())
