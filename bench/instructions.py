#!/usr/bin/env python3
"""Counts the instructions of the built program beside those of the machine in bench/plain, by callgrind; and those of
loops with a limit beside those of loops without one, which the machine in bench/plain doesn't know.

    python3 -m bench.instructions [--program PATH] [--only WORD]

A figure is what twice as much work takes more, so that starting a process and reading the module don't count. It is the
same on each run, whatever else the machine does; it says nothing of memory that isn't in a cache.
"""

from __future__ import annotations

import argparse
import concurrent.futures
import pathlib
import re
import subprocess
import tempfile
from collections.abc import Callable
from dataclasses import dataclass

from bench import modules
from bench.by_hand import ORDERS, built
from bench.results import show
from tests import harness

FIRST = ("first",)
# Makes the text of a module for so much work.
Make = Callable[[int], str]
# What a row counts, its module for so much work, and the orders.
ROWS = [
    ("20,000 local steps, two loops", lambda k: modules.counting(2 * k), ORDERS),
    ("10,000 calls of a method", lambda k: modules.calling(2 * k), FIRST),
    ("10,000 finishes opened and closed", lambda k: modules.finishing(2 * k), FIRST),
    ("5,000 activities, each in a finish of its own", lambda k: modules.gathering(5000 * k), ORDERS),
    ("5,000 starts under one finish", lambda k: modules.starting_in_finish(5000 * k), ORDERS),
    ("5,000 starts", lambda k: modules.starting(5000 * k), ORDERS),
    ("50 phases of 100 activities on a clock", lambda k: modules.in_step(100, 50 * k), ORDERS),
    ("50 phases of a ring of 90 activities", lambda k: modules.ring(90, 50 * k), ORDERS),
    ("5,000 clocks, one after the other", lambda k: modules.clocks_in_turn(5000 * k), FIRST),
    ("a million local steps of 100 activities", lambda k: modules.counting_beside(100, k), ("round",)),
]


# What a row counts, its module with limits for so much work, and its module without.
LIMITED = [
    (
        "20,000 local steps, two loops with a limit",
        lambda k: modules.counting_to_limits(2 * k),
        lambda k: modules.counting(2 * k),
    ),
    (
        "10,000 loops of one turn with a limit",
        lambda k: modules.beginning_with_limits(2 * k),
        lambda k: modules.beginning(2 * k),
    ),
]


def collected(words: list[object]) -> int:
    """The instructions of one call."""
    call = ["valgrind", "--tool=callgrind", "--callgrind-out-file=/dev/null", *words]
    return int(
        re.search(r"Collected : (\d+)", subprocess.run(call, capture_output=True, text=True, check=True).stderr)[1]
    )


@dataclass(frozen=True)
class Side:
    """One side of a row: a module for so much work, and the words of a call, None in the place of the module's path."""

    make: Make
    words: tuple[object, ...]

    def instructions(self) -> int:
        """What twice as much work takes more."""
        counts = []
        for work in (1, 2):
            with tempfile.NamedTemporaryFile("w", suffix=".json") as file:
                file.write(self.make(work))
                file.flush()
                counts.append(collected([file.name if word is None else word for word in self.words]))
        return counts[1] - counts[0]


@dataclass(frozen=True)
class Row:
    """What is counted, in which order, and the two sides that are compared, the program's and another one."""

    name: str
    order: str
    ours: Side
    other: Side

    def counted(self) -> tuple[int, int]:
        """The instructions of both sides."""
        return self.ours.instructions(), self.other.instructions()


def run_of(program: pathlib.Path, order: str) -> tuple[object, ...]:
    """The words by which the program runs a module in an order."""
    return program, "run", "--order", order, "--module", None


def rows_by_hand(program: pathlib.Path, only: str) -> list[Row]:
    """The rows beside the machine written by hand, which is built where there are some."""
    asked = [row for row in ROWS if only in row[0]]
    machine = built() if asked else ""
    return [
        Row(name, order, Side(make, run_of(program, order)), Side(make, (machine, None, order)))
        for name, make, orders in asked
        for order in orders
    ]


def rows_of_limits(program: pathlib.Path, only: str) -> list[Row]:
    """The rows of loops with a limit, beside the same without."""
    return [
        Row(name, order, Side(limited, run_of(program, order)), Side(plain, run_of(program, order)))
        for name, limited, plain in LIMITED
        if only in name
        for order in ORDERS
    ]


def show_rows(other: str, rows: list[Row]) -> None:
    """Prints a line for each row, in their order, with the other side's name."""
    with concurrent.futures.ThreadPoolExecutor(2) as pool:
        for row, (left, right) in zip(rows, pool.map(Row.counted, rows)):
            show(f"{row.name}, {row.order}", **{"ours": left, other: right, "ratio": left / right})


def main() -> None:
    parser = argparse.ArgumentParser()
    harness.add_program(parser)
    parser.add_argument("--only", default="")
    given = parser.parse_args()
    show_rows("by_hand", rows_by_hand(given.program, given.only))
    show_rows("without", rows_of_limits(given.program, given.only))


if __name__ == "__main__":
    main()
