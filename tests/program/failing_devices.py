#!/usr/bin/env python3
"""The built program between devices that fail it: of each call every read and every write fails in its turn, of the
program, of a log, a list or what somebody answers, of standard output, of standard error, and of the log that is
written. Where devices move single bytes they fail, too: of long texts at some of them, and at the last. It has to end
with status 5 and its line, and to leave a beginning of what it answers otherwise: nothing where it couldn't read, and
no log before all of the result. Where devices move single bytes and none fails, it answers as ever.

    python3 -m tests.program.failing_devices [--program PATH]

crates/x10clock/out/x10clock where nothing else is said.
"""

from __future__ import annotations

import argparse
import itertools
import multiprocessing
import os
import pathlib
import subprocess
import sys
import tempfile
from collections.abc import Iterator
from dataclasses import dataclass, replace

from tests import harness
from tests.harness import TOP

ROWS = TOP / "tests/program/rows"
DEVICE, STATUS = b"x10clock: device\n", 5
# The most single bytes of a device that are tried: the first ones, and others between them and the last.
BYTES = 60

IN_STEP = (ROWS / "in-step.x10").read_bytes()
MODULE = (ROWS / "in-step.json").read_bytes()
LOG = b"x10log 1\n" + b"".join(b"%d 1\n" % who for who in (0, 0, 0, 1, 0, 0, 0, 0, 1, 1, 1, 1)) + b"end 12\n"
OUTCOMES = b"outcome 1 prints 1 2\noutcome 2 prints 2 1\noutcomes 2 complete\n"
NO_PROGRAM = b"main"
# A method that calls itself.
ITSELF = b"def main() { main(); }"
# Prints more numbers than are drawn.
MANY, MANY_LOG = b"def main() { for (i in 1..2001) Console.OUT.println(i); }", b"x10log 1\n0 4004\nend 1\n"
BEGINNING, OTHER_LOG = b"x10log 1\n0 1\n", b"x10log 1\n1 1\nend 1\n"
ASKED = b"def main() { async { Console.OUT.println(2); } Console.OUT.println(1); }"


@dataclass(frozen=True)
class Call:
    """Words, in which PROGRAM, SECOND and LOG stand for files; what the program and the second file hold, or, where
    somebody is asked, what standard input answers; the status where no device fails; and what is told where one
    does."""

    words: str
    program: bytes
    second: bytes = b""
    status: int = 0
    asks: bool = False
    line: bytes = DEVICE


@dataclass(frozen=True)
class Told:
    status: int
    out: bytes
    err: bytes
    log: bytes


@dataclass(frozen=True)
class Failure:
    """Which call of which device fails, and how; none where the number is 0."""

    device: str = "out"
    call: int = 0
    how: str = "error"
    paced: bool = False
    silent: bool = False


CALLS = [
    *(Call(f"{command} -", IN_STEP) for command in (
        "check", "explain", "explain --json", "compile", "listing", "run", "run --log LOG",
        "run --order last --log LOG", "run --workers 1 --log LOG",
        "run --order greedy --log LOG", "run --order random --runs 4",
        "races", "outcomes", "outcomes --sets", "outcomes --count", "outcomes --log LOG", "outcomes --pick 2 --log LOG",
        "check --json", "run --json", "run --json --log LOG", "outcomes --json", "outcomes --json --log LOG",
        "races --json")),
    *(
        Call(f"{command} --module -", MODULE)
        for command in ("check", "explain", "listing", "run --log LOG", "outcomes --log LOG")
    ),
    *(
        Call(f"{command} - SECOND", IN_STEP, LOG)
        for command in (
            "replay", "chart", "events", "events --json", "lanes", "lanes --svg", "lanes --path", "lanes --svg --path",
            "lanes --rounds", "page", "page --path", "where", "where --json", "where --at 2", "races", "races --json",
            "span", "span --json")
    ),
    *(Call(f"{command} --module - SECOND", MODULE, LOG) for command in ("replay", "chart")),
    Call("where --at 99 - SECOND", IN_STEP, LOG, status=6),
    Call("where --json --at 99 - SECOND", IN_STEP, LOG, status=6),
    Call("why - SECOND 4", IN_STEP, LOG),
    Call("why - SECOND 99", IN_STEP, LOG, status=6),
    Call("explain V9", b""),
    Call("outcomes --limit 1 --pick 2 --log LOG -", IN_STEP, status=6),
    Call("outcomes --count --limit 1 -", IN_STEP, status=6),
    Call("outcomes --expect SECOND -", IN_STEP, OUTCOMES),
    Call("outcomes --expect SECOND -", IN_STEP, b"outcome 1 prints 7\n", status=7),
    Call("outcomes --expect SECOND -", IN_STEP, BEGINNING, status=3),
    Call("outcomes --json --expect SECOND -", IN_STEP, OUTCOMES),
    Call("outcomes --json --expect SECOND -", IN_STEP, b"outcome 1 prints 7\n", status=7),
    Call("lanes --svg - SECOND", MANY, MANY_LOG, status=6),
    Call("page - SECOND", MANY, MANY_LOG, status=6),
    Call("page --path - SECOND", MANY, MANY_LOG, status=6),
    Call("page --outcome 2 -", IN_STEP),
    Call("page --outcome 3 -", IN_STEP, status=6),
    *(Call(f"{command} -", NO_PROGRAM, status=1) for command in ("check", "explain", "explain --json")),
    Call("run --log LOG -", ITSELF, status=1),
    Call("replay - SECOND", IN_STEP, BEGINNING, status=3),
    *(Call(f"{command} - SECOND", IN_STEP, OTHER_LOG, status=3) for command in ("chart", "page")),
    *(Call(f"{command} - SECOND", LOG, IN_STEP, status=1) for command in ("replay", "lanes")),
    Call("run --order ask --log LOG PROGRAM", ASKED, b"0\n1\n0\n1\n0\n", asks=True),
    Call("run --order ask --log LOG PROGRAM", ASKED, b"0\n2\n1\n0", status=6, asks=True),
    Call("--help", b"", line=b""),
    Call("walk", b"", status=2),
]


class Place:
    """A folder for the files of one call at a time."""

    def __init__(self, call: Call, program: str, preloaded: str, folder: str) -> None:
        self.call, self.program, self.preloaded = call, program, preloaded
        self.folder = pathlib.Path(tempfile.mkdtemp(dir=folder))
        (self.folder / "program").write_bytes(call.program)
        (self.folder / "second").write_bytes(call.second)

    def answer(self, failure: Failure) -> tuple[Told, bool]:
        """What comes of the call, and whether a device failed."""
        for name in ("out", "err", "log", "mark"):
            (self.folder / name).unlink(missing_ok=True)
        paths = {name.upper(): str(self.folder / name) for name in ("program", "second", "log")}
        words = [self.program, *(paths.get(word, word) for word in self.call.words.split())]
        with (
            open(self.folder / ("second" if self.call.asks else "program"), "rb") as given,
            open(self.folder / "out", "wb") as out,
            open(self.folder / "err", "wb") as err,
        ):
            ended = harness.call(words, given, stdout=out, stderr=err, env=self.environment(failure))
        texts = [path.read_bytes() if (path := self.folder / name).exists() else b"" for name in ("out", "err", "log")]
        return Told(ended.status, *texts), (self.folder / "mark").exists()

    def environment(self, failure: Failure) -> dict[str, str]:
        asked = {
            "DEVICE": str(self.folder / failure.device),
            "DEVICE_CALL": str(failure.call),
            "DEVICE_FAILURE": failure.how,
            "DEVICE_MARK": str(self.folder / "mark"),
            "DEVICE_PACE": "1" if failure.paced else "",
            "DEVICE_SILENT": "1" if failure.silent else "",
        }
        return {**os.environ, "LD_PRELOAD": self.preloaded, **{name: value for name, value in asked.items() if value}}


def is_cut(text: bytes, whole: bytes) -> bool:
    """Whether this is a beginning of the text and not all of it."""
    return whole.startswith(text) and text != whole


def is_right(call: Call, failure: Failure, told: Told, whole: Told) -> bool:
    """Whether this is what has to come of the call where a device fails, which is answered as a whole otherwise."""
    line = b"" if failure.silent or failure.device == "err" and not call.asks else call.line
    if told.status != STATUS or not told.err.endswith(line):
        return False
    before = told.err.removesuffix(line)
    match failure.device:
        case "program":
            return told == Told(STATUS, b"", line, b"")
        case "second":
            return not told.out and not told.log and (whole.err.startswith(before) if call.asks else not before)
        case "err":
            return is_cut(before, whole.err) and not told.log and told.out == (b"" if call.asks else whole.out)
        case "out":
            return is_cut(told.out, whole.out) and not told.log and before == (whole.err if call.asks else b"")
        case _:
            return is_cut(told.log, whole.log) and told.out == whole.out and before == (whole.err if call.asks else b"")


def numbers(length: int, paced: bool) -> Iterator[int]:
    """Which calls of a device fail in their turn: each, or of single bytes some up to the last one that there can be,
    which reads no more."""
    if not paced or length < BYTES:
        return itertools.count(1)
    return iter(sorted({*range(1, BYTES // 2), *range(BYTES // 2, length, 2 * length // BYTES), length, length + 1}))


def failures(call: Call, whole: Told) -> Iterator[tuple[Failure, int]]:
    """Each way in which a device of the call can fail, with the length of what the device holds."""
    held = {"program": call.program, "second": call.second, "out": whole.out, "err": whole.err, "log": whole.log}
    for device, text in held.items():
        for how, paced in itertools.product(
            ("error",) if device in ("program", "second") else ("error", "none"), (False, True)
        ):
            yield Failure(device, how=how, paced=paced), len(text)
        if device != "err" and not call.asks:
            yield Failure(device, silent=True), len(text)


def tried(call: Call, program: str, preloaded: str, folder: str) -> tuple[int, list[str]]:
    """How many calls failed, and what was answered wrongly."""
    place = Place(call, program, preloaded, folder)
    whole, _ = place.answer(Failure())
    wrong = [] if whole.status == call.status else [f"{call.words}: {whole}"]
    paced, _ = place.answer(Failure(paced=True))
    wrong += [] if paced == whole else [f"{call.words}, byte for byte: {paced}, not {whole}"]
    failed = 0
    for failure, length in failures(call, whole):
        for number in numbers(length, failure.paced):
            one = replace(failure, call=number)
            told, has_failed = place.answer(one)
            if not has_failed:
                break
            failed += 1
            wrong += [] if is_right(call, one, told, whole) else [f"{call.words}, {one}: {told}"]
    return failed, wrong


def main() -> int:
    parser = argparse.ArgumentParser()
    harness.add_program(parser)
    program = str(parser.parse_args().program)
    with tempfile.TemporaryDirectory() as folder:
        folder = os.path.realpath(folder)
        preloaded = f"{folder}/fail_devices.so"
        subprocess.run(
            ["gcc", "-shared", "-fPIC", "-O2", "-o", preloaded, TOP / "tests/program/fail_devices.c"], check=True
        )
        with multiprocessing.Pool(len(os.sched_getaffinity(0))) as pool:
            told = pool.starmap(tried, [(call, program, preloaded, folder) for call in CALLS], chunksize=1)
    wrong = [line for _, lines in told for line in lines]
    print("\n".join(wrong), end="\n" if wrong else "", file=sys.stderr)
    silent = [call.words for call, (failed, _) in zip(CALLS, told) if not failed]
    if wrong or silent:
        print(f"failing devices: {len(wrong)} wrong; no device failed in {silent}", file=sys.stderr)
        return 1
    total = sum(failed for failed, _ in told)
    print(f"failing devices: {len(CALLS)} calls, {total} reads and writes that failed, all answered as they must be")
    return 0


if __name__ == "__main__":
    sys.exit(main())
