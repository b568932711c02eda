#!/usr/bin/env python3
"""Whether the library for other languages answers what the program does, byte for byte.

    python3 -m tests.library.calls [--program PATH] [--library FOLDER]

The questions are those of all rows of tests/program/programs: `check` of each text, and of one in so many all other
commands, with the log of its run, a list of outcomes and answers of a run by hand. Each is asked of the program, of the
library from C (tests/library/calls.c, which also gives rooms that are too small, and looks at what stands behind), on a
thread with a stack of 512 KB, and from Python. Status, both texts and the log must be the same; but a run by workers is
some run, of which the log is played again. Some calls are made under valgrind, where it is installed, and some again
and again, each growth of memory being refused in its turn (tests/library/refused.c): status 4 then, and no text.

Without --library it takes X10CLOCK_LIBRARY_FOLDER, or else builds the library of what `rt ci` proved
(library/build.py), in crates/x10clock_c/out/library. Where nothing is proved there it says so, and fails.
"""

from __future__ import annotations

import argparse
import concurrent.futures
import json
import os
import pathlib
import re
import shutil
import struct
import subprocess
import sys
import tempfile
from collections.abc import Iterable, Iterator, Sequence
from dataclasses import dataclass

import x10clock
from x10clock.library import diagnosis, verdict

from tests import harness
from tests.generated.mutations import row_texts
from tests.harness import TOP
from tests.library import built

PROGRAMS = TOP / "tests/program/programs"
# All commands are asked of one text in so many; so many calls are made under valgrind.
ASKED, WATCHED = 12, 40
MOST_STEPS = 100_000
CHUNK = 50
LIST = b"outcome 1 prints 7\n"
ANSWERS = b"0\n0\n9\n1\n0\n1\n"
# The line of a text that is refused: which rule is broken where.
BROKEN = r"x10clock: ([FV])(\d+) \w+(?: unit (\d+))?(?: at (\d+)| over \d+)"
# Words that are no job, or ask for help, and a word that is no text.
ALONE = ((), ("--help",), ("run", "--help"), ("--version",), ("walk",), ("check",), ("explain", "V12"))
PICTURES = (
    ("chart",), ("events",), ("lanes",), ("lanes", "--svg"), ("lanes", "--path"), ("lanes", "--rounds"), ("page",),
    ("page", "--path"), ("where",), ("where", "--at", "2"), ("where", "--json"), ("where", "--json", "--at", "2")
)  # fmt: skip


@dataclass(frozen=True)
class Question:
    """Words, in which `mine` is FILE and `beside` what is read beside it; what these hold; and whether answers are read
    from standard input."""

    words: tuple[str, ...]
    program: bytes = b""
    beside: bytes = b""
    by_hand: bool = False


def bytes_of(answer: x10clock.Answer) -> tuple[int, bytes, bytes, bytes]:
    return answer.status, answer.out, answer.err, answer.log


# ---- questions


def texts() -> Iterator[tuple[bytes, bool]]:
    """All texts of rows, and whether each is a source text."""
    with tempfile.TemporaryDirectory() as work:
        for script, name in (("made.sh", "made.rows"), ("made-sources.sh", "sources-made.rows")):
            made = harness.call(["sh", str(PROGRAMS / script)], cwd=TOP, seconds=600)
            (pathlib.Path(work) / name).write_bytes(made.out)
        for path in [*sorted(PROGRAMS.glob("*.rows")), *sorted(pathlib.Path(work).glob("*.rows"))]:
            yield from ((text, path.name.startswith("sources")) for text in row_texts(path))


def is_short(text: bytes, form: tuple[str, ...]) -> bool:
    """Whether no run of a text takes more steps than are made here."""
    words = x10clock.call(["check", *form, "mine"], text).out.split()
    return not words or int(words[2]) <= MOST_STEPS


def first_questions(text: bytes, form: tuple[str, ...]) -> Iterator[Question]:
    """What is asked of a text alone."""
    yield Question(("run", *form, "--log", "log", "mine"), text)
    yield Question(("compile", *form, "mine"), text)
    yield Question(("listing", *form, "mine"), text)
    yield Question(("explain", *form, "mine"), text)
    yield Question(("explain", "--json", *form, "mine"), text)
    for order in ("last", "round", "random", "greedy"):
        yield Question(("run", *form, "--order", order, "mine"), text)
    yield Question(("run", *form, "--order", "random", "--runs", "3", "mine"), text)
    yield Question(("run", *form, "--order", "ask", "--log", "log", "mine"), text, ANSWERS, by_hand=True)
    yield Question(("races", *form, "mine"), text)
    yield Question(("races", "--json", *form, "mine"), text)
    yield Question(("outcomes", *form, "--limit", "50", "--log", "log", "mine"), text)
    yield Question(("outcomes", *form, "--limit", "50", "--expect", "beside", "mine"), text, LIST)
    yield Question(("outcomes", *form, "--limit", "50", "--count", "mine"), text)


def further_questions(text: bytes, form: tuple[str, ...], log: bytes) -> Iterator[Question]:
    """What is asked of a text and the log of its run."""
    for command, *options in PICTURES:
        yield Question((command, *form, *options, "mine", "beside"), text, log)
    for command in ("replay", "races", "span"):
        yield Question((command, *form, "mine", "beside"), text, log)
        yield Question((command, *form, "mine", "beside"), text, log[: len(log) // 2])
    yield Question(("races", "--json", *form, "mine", "beside"), text, log)
    yield Question(("span", "--json", *form, "mine", "beside"), text, log)
    yield Question(("why", *form, "mine", "beside", "2"), text, log)


def questions() -> Iterator[Question]:
    yield from (Question(words) for words in ALONE)
    for number, (text, is_source) in enumerate(texts()):
        form = () if is_source else ("--module",)
        yield Question(("check", *form, "mine"), text)
        if number % ASKED == 0 and is_short(text, form):
            yield from first_questions(text, form)
            log = x10clock.call(["run", *form, "--log", "log", "mine"], text).log
            yield from further_questions(text, form, log) if log else ()


# ---- who answers


def by_program(program: pathlib.Path, asked: Question) -> tuple[int, bytes, bytes, bytes]:
    """What the program answers."""
    with tempfile.TemporaryDirectory() as work:
        folder = pathlib.Path(work)
        # What tells how it is used tells the name that it was called by.
        named = folder / "x10clock"
        named.symlink_to(program)
        (folder / "mine").write_bytes(asked.program)
        (folder / "beside").write_bytes(asked.beside)
        given = asked.beside if asked.by_hand else b""
        ended = harness.call([named, *asked.words], given, cwd=folder)
        log = folder / "log"
        return ended.status, ended.out, ended.err, log.read_bytes() if log.exists() else b""


def by_python(asked: Question) -> tuple[int, bytes, bytes, bytes]:
    return bytes_of(x10clock.call(asked.words, asked.program, asked.beside))


def call_of(asked: Question) -> bytes:
    """A call as tests/library/calls.c reads it."""
    words = b"".join(word.encode() + b"\0" for word in asked.words)
    return b"".join(struct.pack("<I", len(part)) + part for part in (words, asked.program, asked.beside))


def by_c(caller: Sequence[object], asked: Iterable[Question]) -> list[tuple[int, bytes, bytes, bytes]]:
    """What the library answers to calls from C, of one process."""
    ended = harness.call(caller, b"".join(map(call_of, asked)), seconds=600)
    if ended.status or ended.err:
        raise SystemExit(f"calls: C ended with {ended.status}: {ended.err.decode('utf-8', 'replace')[-2000:]}")
    found, at = [], 0
    while at < len(ended.out):
        status, *lengths = struct.unpack_from("<BQQQ", ended.out, at)
        at += struct.calcsize("<BQQQ")
        parts = []
        for length in lengths:
            parts.append(ended.out[at : at + length])
            at += length
        found.append((status, parts[0], parts[1], parts[2]))
    return found


# ---- what is built


def caller_in(folder: pathlib.Path, work: str, name: str) -> pathlib.Path:
    """A program in C that calls the library."""
    made = pathlib.Path(work) / name
    flags = ["-std=c11", "-D_POSIX_C_SOURCE=200809L", "-O1", "-g", "-Wall", "-Wextra", "-Werror", "-pthread"]
    linked = [f"-L{folder}", "-lx10clock", f"-Wl,-rpath,{folder}"]
    words = [os.environ.get("CC", "cc"), *flags, f"-I{folder}", "-o", made, TOP / f"tests/library/{name}.c", *linked]
    subprocess.run([str(word) for word in words], check=True)
    return made


# ---- what is compared


def differing(program: pathlib.Path, caller: pathlib.Path, asked: Sequence[Question]) -> list[str]:
    """Where the library answers otherwise than the program."""
    wrong = []
    from_c = by_c([caller, "deep"], asked)
    for one, in_c in zip(asked, from_c, strict=True):
        wanted = by_program(program, one)
        if one.words == ("check", "mine"):
            wrong += wrong_numbers(one.program, wanted) + wrong_place(one.program)
        for who, got in (("C", in_c), ("Python", by_python(one))):
            if got != wanted:
                wrong.append(f"{who}: {' '.join(one.words)} of {one.program[:60]!r}: {got!r:.300}, not {wanted!r:.300}")
    return wrong


def wrong_numbers(text: bytes, said: tuple[int, bytes, bytes, bytes]) -> list[str]:
    """Where `x10clock_check` tells other numbers of a source text than the line of `check`."""
    status, told = verdict(text)
    wanted = [int(number) for number in re.findall(rb" (\d+)", said[1])] if status == 0 else []
    got = [told.steps, told.activities, told.clocks] if status == 0 else []
    if status == 1:
        family, number, unit, at = re.match(BROKEN, said[2].decode()).groups("0")  # type: ignore[union-attr]
        wanted, got = [int(number), int(unit), int(at)], [told.number, told.unit, told.at]
        wanted, got = [*wanted, " FV".index(family)], [*got, told.family]
    return [] if (status, got) == (said[0], wanted) else [f"typed: {text[:60]!r}: {status} {got}, not {said!r:.300}"]


def wrong_place(text: bytes) -> list[str]:
    """Where `x10clock_diagnose` tells other numbers than `x10clock_check`, or another place than `explain --json`."""
    (status, told), (checked, numbers) = diagnosis(text), verdict(text)
    said = json.loads(x10clock.call(["explain", "--json", "mine"], text).out) if status == 1 else {}
    wanted = [checked, said.get("line", 0), said.get("column", 0)]
    wanted += [getattr(numbers, field) for field, _ in numbers._fields_]
    got = [status, told.line, told.column, *(getattr(told, field) for field, _ in numbers._fields_)]
    return [] if got == wanted else [f"placed: {text[:60]!r}: {got}, not {wanted}"]


def watched(caller: pathlib.Path, asked: Sequence[Question]) -> str:
    """Some calls under valgrind: no byte is read or written that isn't there, and all memory is given back."""
    found = shutil.which("valgrind")
    if not found:
        return "valgrind isn't installed: memory isn't watched"
    watch = [found, "-q", "--leak-check=full", "--show-leak-kinds=all", "--error-exitcode=77"]
    some = asked[:: max(1, len(asked) // WATCHED)]
    by_c([*watch, caller], some)
    return f"{len(some)} calls under valgrind"


def refused(refuser: pathlib.Path) -> str:
    """Some calls, each growth of whose memory is refused in its turn."""
    text = (TOP / "examples/two-in-step.x10").read_bytes()
    log = x10clock.run(text).log
    words = (("run", "--log", "log", "mine"), ("explain", "mine"), ("outcomes", "mine"), ("walk",), ("explain", "V12"))
    some = [*(Question(one, text) for one in words), Question(("page", "mine", "beside"), text, log)]
    some.append(Question(("run", "--order", "ask", "mine"), text, ANSWERS))
    ended = harness.call([refuser], b"".join(map(call_of, some)), seconds=600)
    if ended.status:
        raise SystemExit(f"calls: {ended.err.decode('utf-8', 'replace')}")
    return f"{int(ended.out)} growths refused in {len(some)} calls"


def workers(program: pathlib.Path) -> list[str]:
    """A run by workers is some run: its log is played again by the program."""
    text = (TOP / "examples/two-in-step.x10").read_bytes()
    got = x10clock.call(["run", "--workers", "3", "--log", "log", "mine"], text)
    again = by_program(program, Question(("replay", "mine", "beside"), text, got.log))
    return [] if again[:2] == (0, got.out) else [f"workers: {got!r}, and again {again!r}"]


def main() -> int:
    parser = argparse.ArgumentParser(description="Compares the library with the program.")
    harness.add_program(parser)
    parser.add_argument("--library", type=pathlib.Path, metavar="FOLDER", help="where the library is")
    given = parser.parse_args()
    folder = built(given.library)
    os.environ["X10CLOCK_LIBRARY"] = str(folder / "libx10clock.so")
    asked = list(questions())
    with tempfile.TemporaryDirectory() as work:
        caller, refuser = (caller_in(folder, work, name) for name in ("calls", "refused"))
        chunks = [asked[at : at + CHUNK] for at in range(0, len(asked), CHUNK)]
        with concurrent.futures.ThreadPoolExecutor(len(os.sched_getaffinity(0))) as pool:
            parts = list(pool.map(lambda chunk: differing(given.program, caller, chunk), chunks))
        wrong = [line for part in parts for line in part] + workers(given.program)
        memory = f"{watched(caller, asked)}; {refused(refuser)}"
    print(*wrong[:10], sep="\n", end="\n" if wrong else "")
    print(f"library: {len(asked)} questions from C and Python, {len(wrong)} differ from the program; {memory}")
    return 1 if wrong or not asked else 0


if __name__ == "__main__":
    sys.exit(main())
