#!/usr/bin/env python3
"""How long a call of the library takes from Python, and one of the program by a process.

    python3 -m bench.library [--program PATH] [--library FOLDER] [COUNT]

Each is made so many times, 500 where nothing else is said, and a process a tenth of that; it prints microseconds, the
least mean of five turns. The library is the one that tests/library/calls.py takes.
"""

from __future__ import annotations

import argparse
import importlib
import os
import pathlib
import time
from collections.abc import Callable

from tests import harness
from tests.harness import TOP
from tests.library import built

TURNS = 5
MINE = TOP / "examples/two-in-step.x10"


def microseconds(count: int, call: Callable[[], object]) -> float:
    """The least mean of some turns."""
    least = float("inf")
    for _ in range(TURNS):
        begun = time.perf_counter()
        for _ in range(count):
            call()
        least = min(least, (time.perf_counter() - begun) / count)
    return least * 1_000_000


def main() -> int:
    parser = argparse.ArgumentParser(description="How long a call of the library takes.")
    parser.add_argument("count", nargs="?", type=int, default=500)
    harness.add_program(parser)
    parser.add_argument("--library", type=pathlib.Path, metavar="FOLDER", help="where the library is")
    given = parser.parse_args()
    os.environ["X10CLOCK_LIBRARY"] = str(built(given.library) / "libx10clock.so")
    x10clock = importlib.import_module("x10clock")
    text = MINE.read_bytes()
    log = x10clock.run(text).log
    timed: dict[str, Callable[[], object]] = {
        "check": lambda: x10clock.check(text),
        "explain": lambda: x10clock.explain(text),
        "run, with its log": lambda: x10clock.run(text),
        "where": lambda: x10clock.where(text, log),
        "page": lambda: x10clock.page(text, log),
        "outcomes": lambda: x10clock.outcomes(text),
    }
    for name, call in timed.items():
        print(f"{name}: {microseconds(given.count, call):.0f} us", flush=True)
    process = microseconds(max(1, given.count // 10), lambda: harness.call([given.program, "check", MINE]))
    print(f"a process each, check: {process:.0f} us")
    return 0


if __name__ == "__main__":
    raise SystemExit(main())
