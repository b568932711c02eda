#!/usr/bin/env python3
"""Times the built program: runs of a hundred million steps, in one unit, by calls and by finishes; runs of many
activities in each order; and checks of many great units.

    python3 -m bench.bench [--program PATH]

Prints for each call a line (bench/results.py) with the seconds that passed and the most memory that it took.
"""

from __future__ import annotations

import argparse
import pathlib
import tempfile
from collections.abc import Callable

from bench.modules import (
    Unit,
    calling,
    counting,
    finishing,
    gathering,
    module,
    starting,
    starting_in_finish,
    unit,
)
from bench.results import show
from bench.spent import spent
from tests import harness

ORDERS = ("first", "last", "round")


def great_unit(kind: str, next_unit: int | None) -> Unit:
    """4,096 instructions over 64 slots: numbers, branches, and loops of one turn, eight of them one in the other."""
    code = [["lit", slot, slot] for slot in range(64)]
    while len(code) < 4096 - 50:
        at = len(code)
        slots = [8 + (at + i) % 40 for i in range(8)]
        ends = [at + 8 + 16 + 7 - i for i in range(8)]
        code += [["for", slots[i], 1, 1, ends[i]] for i in range(8)]
        for i in range(8):
            place = len(code)
            code += [["unless", "lt", i, (i + 1) % 8, place + 2], ["add", i, i, 48 + i]]
        code += [["next", at + 7 - i] for i in range(8)]
    while len(code) < 4094:
        code.append(["copy", len(code) % 8, 48])
    code.append(["spawn", next_unit, []] if next_unit else ["copy", 0, 1])
    code.append(["ret"])
    return unit(kind, 64, code)


def jumping_unit(kind: str, next_unit: int | None) -> Unit:
    """4,096 instructions, nearly all of them jumps inside of loops: each loop has one jump, to its end."""
    code = []
    while len(code) < 4092:
        at = len(code)
        code += [["for", 0, 1, 1, at + 2], ["jump", at + 2], ["next", at]]
    code += [["jump", 4094]] * (4094 - len(code))
    code.append(["spawn", next_unit, []] if next_unit else ["lit", 0, 1])
    code.append(["ret"])
    return unit(kind, 1, code)


def adding_unit(kind: str, next_unit: int | None) -> Unit:
    """4,096 instructions, nearly all of them additions."""
    code = [["lit", 0, 1]] + [["add", 0, 0, 0]] * 4093
    code.append(["spawn", next_unit, []] if next_unit else ["lit", 0, 1])
    code.append(["ret"])
    return unit(kind, 1, code)


def chain(make_unit: Callable[[str, int | None], Unit], count: int) -> str:
    """Units of which each starts the next."""
    return module([make_unit("main" if i == 0 else "body", i + 1 if i + 1 < count else None) for i in range(count)])


class Timer:
    """Times calls of a program."""

    def __init__(self, program: pathlib.Path) -> None:
        self.program = program

    def timed(self, name: str, command: str, text: str, words: tuple[str, ...] = (), many: int = 0) -> None:
        """Prints what a call takes, and how many things it does in a second, where it does so many."""
        with tempfile.NamedTemporaryFile("w", suffix=".json") as file:
            file.write(text)
            file.flush()
            took = spent([self.program, command, *words, "--module", file.name])
        said = (took.out + took.err).decode().strip().replace("\n", "; ")
        each = {"each_second": round(many / took.passed)} if many else {}
        show(name, said, seconds=took.passed, megabytes=round(took.megabytes), status=took.status, **each)

    def runs(self) -> None:
        """Runs of many steps, calls, finishes and activities."""
        self.timed("run of 100,010,002 steps", "run", counting(9999), many=100_010_002)
        self.timed("run of 24,995,000 calls", "run", calling(4999), many=24_995_000)
        self.timed("run of 24,995,000 finishes", "run", finishing(4999), many=24_995_000)
        for count in (4_000, 16_000, 64_000):
            self.timed(f"run of {count} activities, each in a finish", "run", gathering(count))
        for order in ORDERS:
            words, many = ("--order", order), "run of 100,000 activities"
            self.timed(f"{many}, order {order}", "run", starting(99_999), words)
            self.timed(f"{many}, a finish round them, order {order}", "run", starting_in_finish(99_999), words)

    def checks(self) -> None:
        """Checks of many great units."""
        for count in (50, 100, 200):
            what = f"check of {count} units of 4,096 instructions over 64 slots"
            self.timed(what, "check", chain(great_unit, count))
        what = "check of 200 units of 4,096 instructions"
        self.timed(f"{what}, jumps inside of loops", "check", chain(jumping_unit, 200))
        self.timed(f"{what}, additions", "check", chain(adding_unit, 200))


def main() -> None:
    parser = argparse.ArgumentParser()
    harness.add_program(parser)
    timer = Timer(parser.parse_args().program)
    # The runs first: memory counts from what this process held when a call began, and great modules are great here too.
    timer.runs()
    timer.checks()


if __name__ == "__main__":
    main()
