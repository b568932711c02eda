#!/usr/bin/env python3
"""Times the built program by worker threads beside the order `first`: activities with long loops of their own, and many
that advance together.

    python3 -m bench.workers [--program PATH] [--rounds N]

Prints for each module a line (bench/results.py) with the seconds that passed, the least of three runs: in the order
`first`, and by 1, 2 and 4 workers.
"""

from __future__ import annotations

import argparse
import os
import tempfile

from bench.modules import counting_beside, module, unit
from bench.results import show
from bench.spent import spent
from tests import harness


def in_step_with_sums(activities: int, phases: int) -> str:
    """Activities on one clock, each of which adds eight times between two advances."""
    main = [["make", 0], ["for", 1, 1, activities, 3], ["spawn", 1, [0]], ["next", 1], ["drop", 0], ["ret"]]
    body = [
        ["lit", 2, 0],
        ["for", 1, 1, phases, 11],
        *[["add", 2, 2, 1]] * 8,
        ["advance"],
        ["next", 1],
        ["drop", 0],
        ["ret"],
    ]
    return module([unit("main", 2, main), unit("body", 3, body, "c")])


ROWS = [
    ("two activities with a loop of 100 million steps each", counting_beside(2, 10_000)),
    ("four activities with a loop of 50 million steps each", counting_beside(4, 5_000)),
    ("1,000 activities that take ten local steps, and advance together, 100 times", in_step_with_sums(1_000, 100)),
]


def passed(words: list[object], rounds: int) -> float:
    """The least seconds that a call took by the clock."""
    with open(os.devnull, "wb") as sink:
        runs = [spent(words, sink) for _ in range(rounds)]
    if any(run.status for run in runs):
        raise SystemExit(f"{words}: {runs}")
    return min(run.passed for run in runs)


def main() -> None:
    parser = argparse.ArgumentParser()
    harness.add_program(parser)
    parser.add_argument("--rounds", type=int, default=3)
    given = parser.parse_args()
    for name, text in ROWS:
        with tempfile.NamedTemporaryFile("w", suffix=".json") as file:
            file.write(text)
            file.flush()
            ways = {"first": [], **{f"workers_{count}": ["--workers", str(count)] for count in (1, 2, 4)}}
            calls = {way: [given.program, "run", *words, "--module", file.name] for way, words in ways.items()}
            show(name, **{way: passed(words, given.rounds) for way, words in calls.items()})


if __name__ == "__main__":
    main()
