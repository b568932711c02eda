#!/usr/bin/env python3
"""Counts the worlds that `outcomes` keeps of the models in bench/models.py, which bench/spin.py asks SPIN about.

    python3 -m bench.worlds [--program PATH] [MODEL ..]

Prints for each model a line (bench/results.py): how many lists of numbers it has; the worlds that are kept, which is
the least `--limit` with which a count is complete (from 40,000 on to within a hundredth; it bounds the sets of worlds,
too, that are met in reading); and processor time and memory of the list, or of the count where there are more than a
million lists. Worlds and lists lack where the search has more than a million worlds. Needs GNU time.
"""

from __future__ import annotations

import argparse
import pathlib
import tempfile
from dataclasses import dataclass

from bench.models import MODELS, x10
from bench.results import show
from bench.spent import Spent, spent_alone
from tests import harness
from tests.harness import TOP

# Worlds that a search may keep here.
MOST = 1_000_000
# Up to here worlds are counted one by one.
EXACT = 40_000
TEAMS = "teams-in-rounds"


@dataclass(frozen=True)
class Search:
    """All outcomes of a program, by searches with different limits."""

    program: pathlib.Path
    path: pathlib.Path

    def within(self, most: int, *options: str) -> Spent:
        """The search that keeps at most so many worlds."""
        return spent_alone([self.program, "outcomes", *options, "--limit", most, self.path])

    def is_complete(self, most: int) -> bool:
        return self.within(most, "--count").status == 0

    def whole(self) -> Spent:
        """The list, or the count where that is too long."""
        listed = self.within(MOST)
        return listed if listed.status == 0 else self.within(MOST, "--count")

    def worlds(self) -> int | None:
        """The least limit with a complete answer: doubled until there is one, and then halved in between."""
        most = 1
        while not self.is_complete(most):
            if most == MOST:
                return None
            most = min(2 * most, MOST)
        least = most // 2
        while most - least > max(1, most // 100 if most > EXACT else 1):
            middle = (least + most) // 2
            least, most = (least, middle) if self.is_complete(middle) else (middle, most)
        return most


def lists_told(took: Spent) -> int:
    """How many outcomes the last line tells."""
    return int(took.out.splitlines()[-1].split()[1])


def ours(program: pathlib.Path, path: pathlib.Path) -> dict[str, float]:
    """What the search finds, keeps and takes."""
    search = Search(program, path)
    worlds = search.worlds()
    took = search.whole()
    counts = {"lists": lists_told(took)} if took.status == 0 else {}
    kept = {} if worlds is None else {"worlds": worlds}
    return {**counts, **kept, "seconds": took.seconds, "megabytes": round(took.megabytes)}


def main() -> None:
    parser = argparse.ArgumentParser()
    parser.add_argument("models", nargs="*", metavar="MODEL")
    harness.add_program(parser)
    given = parser.parse_args()
    with tempfile.TemporaryDirectory() as folder:
        for name in given.models or MODELS:
            path = pathlib.Path(folder, "model.x10")
            path.write_text(x10(MODELS[name]))
            show(name, **ours(given.program, path))
    if not given.models:
        show(TEAMS, **ours(given.program, TOP / f"examples/{TEAMS}.x10"))


if __name__ == "__main__":
    main()
