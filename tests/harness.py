"""What the scripts of tests/ and bench/ share: where the repository and the program are, and how the program is called.

Each script that asks the program takes `--program PATH`. Where that is not given it is the one that X10CLOCK names, and
else the built one.
"""

from __future__ import annotations

import argparse
import os
import pathlib
import subprocess
from collections.abc import Iterable
from dataclasses import dataclass
from typing import Any, BinaryIO

TOP = pathlib.Path(__file__).resolve().parents[1]
BUILT = TOP / "crates/x10clock/out/x10clock"
# How many seconds a call may take: of the program, and of the reference (tests/reference/program.py).
SECONDS, SECONDS_OF_REFERENCE = 60, 1_200
# How a call ends that doesn't in time.
LATE = -1_000
LATE_TEXT = "no answer in time"


def usual() -> pathlib.Path:
    """The program where none is given."""
    return resolved(os.environ.get("X10CLOCK") or str(BUILT))


def resolved(path: str) -> pathlib.Path:
    return pathlib.Path(path).resolve()


def add_program(parser: argparse.ArgumentParser) -> None:
    """Adds `--program`."""
    what = "the program that is asked (X10CLOCK, or crates/x10clock/out/x10clock)"
    parser.add_argument("--program", type=resolved, default=usual(), metavar="PATH", help=what)


def add_program_or_none(parser: argparse.ArgumentParser) -> None:
    """Adds `--program`, and `--alone`, with which no program is asked."""
    add_program(parser)
    parser.add_argument("--alone", dest="program", action="store_const", const=None, help="the reference alone")


def patience(path: pathlib.Path) -> int:
    """How many seconds a call of this program may take."""
    return SECONDS_OF_REFERENCE if path.suffix == ".py" else SECONDS


@dataclass(frozen=True)
class Ended:
    """How a call ended: its status, below 0 where a signal ended it, and what it wrote."""

    status: int
    out: bytes
    err: bytes

    def texts(self) -> tuple[int, str, str]:
        """The same, with what it wrote as texts."""
        return self.status, self.out.decode("utf-8", "replace"), self.err.decode("utf-8", "replace")


def call(words: Iterable[object], given: bytes | BinaryIO = b"", seconds: int = 0, **how: Any) -> Ended:
    """Calls a program with these words, and waits for its end, but no longer than so many seconds, or than it may take.

    These bytes, or this file, are its standard input; `how` is for subprocess.run.
    """
    line = [str(word) for word in words]
    stdin = {"input": given} if isinstance(given, bytes) else {"stdin": given}
    pipes = {"stdout": subprocess.PIPE, "stderr": subprocess.PIPE}
    most = seconds or patience(pathlib.Path(line[0]))
    try:
        ran = subprocess.run(line, check=False, timeout=most, **stdin, **{**pipes, **how})
    except subprocess.TimeoutExpired:
        return Ended(LATE, b"", LATE_TEXT.encode())
    return Ended(ran.returncode, ran.stdout or b"", ran.stderr or b"")


def beside(program: pathlib.Path, crate: str) -> pathlib.Path:
    """The program of another crate: of the checkout that this one stands in, or else of this checkout."""
    inside = pathlib.Path(crate) / "out" / crate
    there = program.parent.parent.parent / inside
    return there if there.exists() else TOP / "crates" / inside


def build(path: pathlib.Path) -> None:
    """Builds a crate's program, where this is its path and it isn't there yet."""
    crate = path.parent.parent
    if path.exists() or crate.parent != TOP / "crates":
        return
    with (TOP / "crates/x10clock/stdin").open("rb") as stdin:
        subprocess.run(
            ["rt", "run", "--", "run", "--module", "-"], cwd=crate, stdin=stdin, stdout=subprocess.DEVNULL, check=True
        )
