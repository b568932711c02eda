#!/usr/bin/env python3
"""Times the built program where it tells of programs and of runs: what `explain` and `listing` take beside `check`;
what is told of long runs, of many activities, and of runs with many accesses of shared numbers; runs by chance; and all
outcomes of the examples and of two more.

    python3 -m bench.looks [--program PATH]

Prints for each call a line (bench/results.py): the least processor time of three, the most memory that it took (GNU
time is needed), how many bytes it told, and its status.
"""

from __future__ import annotations

import argparse
import bisect
import pathlib
import tempfile
from dataclasses import dataclass

from bench import modules, texts
from bench.results import show
from bench.spent import Spent, spent, spent_alone
from tests import harness
from tests.harness import TOP

TIMES = 3
LOOKS = [
    ("events",),
    ("lanes",),
    ("lanes", "--svg"),
    ("lanes", "--svg", "--to", "1200"),
    ("page",),
    ("page", "--to", "1200"),
    ("where",),
    ("races",),
]


def racing(activities: int, turns: int, clocked: bool) -> str:
    """Activities that each add to a shared number of their own and read another's, `clocked` in phases apart, so
    often."""
    barrier = "Clock.advanceAll();" if clocked else ""
    cells = "".join(f"shared s{k} = 0;\n" for k in range(activities))
    body = "for (i in 1..{turns}) {{ x = s{mine}; s{mine} = x + 1; {barrier} x = s{other}; {barrier} }}"
    parts = (body.format(turns=turns, mine=k, other=(k + 1) % activities, barrier=barrier) for k in range(activities))
    return (
        cells
        + "def main() { clocked finish { "
        + "".join(f"clocked async {{ var x = 0; {part} }}\n" for part in parts)
        + "} }\n"
    )


def writing(turns: int) -> str:
    """Two activities that each write a shared number so often, all in the text: each write races with each other."""
    return "shared s = 0;\ndef main() { finish { " + 2 * f"async {{ {'s = 1; ' * turns}}}\n" + "} }\n"


def printing(activities: int, phases: int) -> str:
    """Activities that print who they are in each phase, and advance together."""
    turns = f"for (phase in 1..{phases}) {{ Console.OUT.println(who); Clock.advanceAll(); }}"
    return f"def main() {{ clocked finish for (who in 1..{activities}) clocked async {{ {turns} }} }}\n"


def adding(turns: tuple[int, ...]) -> str:
    """Activities that each read a shared number, add one and write it, so often; at last it is printed."""
    parts = (f"async {{ for (k in 1..{each}) {{ val seen = s; s = seen + 1; }} }}\n" for each in turns)
    return f"shared s = 0;\ndef main() {{ finish {{ {''.join(parts)} }} val last = s; Console.OUT.println(last); }}\n"


# The examples of which the kept worlds are counted.
COUNTED = (
    "joining-late",
    "two-groups",
    "leaving-early",
    "stencil-without-a-barrier",
    "tree-of-finishes",
    "teams-in-rounds",
)
# The worlds that a search keeps where nothing is said.
LIMIT = 40_000


@dataclass
class Looker:
    """Looks at programs and runs by calls of a program, with files in a folder."""

    program: pathlib.Path
    folder: pathlib.Path

    def once(self, words: tuple[object, ...]) -> Spent:
        """One call."""
        return spent_alone([self.program, *words])

    def timed(self, name: str, *words: object, **figures: float) -> None:
        """Prints what a call takes, the least of some."""
        least = min((self.once(words) for _ in range(TIMES)), key=lambda took: took.seconds)
        taken = {"megabytes": round(least.megabytes), "bytes": len(least.out), "status": least.status}
        show(name, seconds=least.seconds, **taken, **figures)

    def texts(self) -> None:
        """What is told of large texts: of accepted ones, and of the same with a fault at the end: a statement that is
        none, or a clock that is lost in a loop."""
        for name in ("methods", "expressions", "calls"):
            right, wrong, leaking = (self.folder / f"{name}{part}.x10" for part in ("", "-f", "-v"))
            text = texts.TEXTS[name]
            right.write_text(text)
            wrong.write_text(text.rstrip()[:-1] + " x = ; }\n")
            leaking.write_text(text.rstrip()[:-1] + " for (k in 1..2) { val c = Clock.make(); } }\n")
            for command in ("check", "explain", "listing"):
                self.timed(f"{name}: {command}", command, right)
            for kind, path in (("F2", wrong), ("V13", leaking)):
                self.timed(f"{name} with {kind}: check", "check", path)
                self.timed(f"{name} with {kind}: explain", "explain", path)

    def run(self, name: str, text: str, form: tuple[str, ...], commands: list[tuple[str, ...]]) -> None:
        """What is told of the run of a program in the order `round`."""
        file, log = self.folder / "program", self.folder / "log"
        file.write_text(text)
        spent([self.program, "run", *form, "--order", "round", "--log", log, file])
        for words in [("replay",), *commands]:
            self.timed(f"{name}: {' '.join(words)}", *words, *form, file, log)

    def runs(self) -> None:
        """What is told of long runs, and of many activities."""
        module = ("--module",)
        self.run("64 activities in step, 500 phases", modules.in_step(64, 500), module, LOOKS)
        # Of many activities no races: a row for each of them has a number for each other one.
        quiet = [words for words in LOOKS if words != ("races",)]
        self.run("99,999 starts", modules.starting(99_999), module, quiet)
        self.run("99,999 starts under one finish", modules.starting_in_finish(99_999), module, quiet)
        self.run("2,000 starts", modules.starting(2_000), module, [("races",)])
        accesses = "16 activities, 2,000 turns of accesses"
        self.run(f"{accesses} kept apart by a clock", racing(16, 2_000, True), (), [("races",)])
        self.run(f"{accesses} that race", racing(16, 2_000, False), (), [("races",)])
        self.run("two activities with 1,000 writes each", writing(1_000), (), [("races",)])

    def chance(self) -> None:
        """Runs by chance, and what a thousand of them print."""
        file, example = self.folder / "program", TOP / "examples/lost-updates.x10"
        file.write_text(modules.in_step(100, 10_000))
        self.timed("100 activities in step, 10,000 phases, round", "run", "--order", "round", "--module", file)
        self.timed("the same, random", "run", "--order", "random", "--module", file)
        self.timed("1,000 runs of lost-updates", "run", "--order", "random", "--runs", "1000", example)

    def worlds(self, path: pathlib.Path) -> int:
        """The worlds that the search of a program keeps: the least limit with a complete count, if there is one."""
        if self.once(("outcomes", "--count", path)).status:
            return LIMIT
        limits = range(1, LIMIT)
        return bisect.bisect_left(limits, True, key=lambda most: self.is_complete(path, most)) + 1

    def is_complete(self, path: pathlib.Path, most: int) -> bool:
        """Whether a search that keeps at most so many worlds is complete."""
        return self.once(("outcomes", "--count", "--limit", most, path)).status == 0

    def all_outcomes(self, path: pathlib.Path, is_counted: bool) -> None:
        """All that a program prints; and how many worlds are kept for that, where that is asked."""
        lists = int(self.once(("outcomes", path)).out.splitlines()[-1].split()[1])
        counts = {"lists": lists, **({"worlds": self.worlds(path)} if is_counted else {})}
        self.timed(f"{path.stem}: outcomes", "outcomes", path, **counts)

    def outcomes(self) -> None:
        """All that each example prints whose main takes nothing, and so with two programs that aren't examples."""
        for path in sorted((TOP / "examples").glob("*.x10")):
            if self.once(("run", path)).status == 0:
                self.all_outcomes(path, path.stem in COUNTED)
        for name, text in (("sixty-writers", printing(60, 3)), ("four-adders", adding((2, 2, 2, 1)))):
            path = self.folder / f"{name}.x10"
            path.write_text(text)
            self.all_outcomes(path, True)


def main() -> None:
    parser = argparse.ArgumentParser()
    harness.add_program(parser)
    program = parser.parse_args().program
    with tempfile.TemporaryDirectory() as name:
        looker = Looker(program, pathlib.Path(name))
        looker.texts()
        looker.runs()
        looker.chance()
        looker.outcomes()


if __name__ == "__main__":
    main()
