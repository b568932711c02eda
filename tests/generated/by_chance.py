#!/usr/bin/env python3
"""Tallies of many runs by chance: whether `run --order random --runs N` prints what the reference does.

    python3 -m tests.generated.by_chance [STEPS] [SEED] [--program PATH]

Of each example, and of the programs of MANY, which have few steps, more than a hundred runs: as many as have STEPS
steps together at most, and no more than 1,500; each from a seed by chance, some of which go over the greatest one.
4,000 steps, seed 1 and crates/x10clock/out/x10clock where nothing else is said. An example is left out that has too
many steps for that, or whose main takes numbers.
"""

from __future__ import annotations

import argparse
import pathlib
import random
import sys
import tempfile
from collections.abc import Iterator

from tests import harness
from tests.harness import TOP
from tests.reference import modules, source, tally
from tests.reference.modules import Accepted

LEAST, MOST = 101, 1_500
SHOWN = 5
# Programs of few steps: with one list, in more than a thousand runs; with two, one of them empty; with many, short and
# long ones.
MANY = (
    "def main() { Console.OUT.println(1); }",
    "shared n = 0; def main() { async n = 1; val m = n; if (m == 1) { Console.OUT.println(m); Console.OUT.println(2); "
    "} }",
    "def main() { for (i in 1..5) async Console.OUT.println(i); }",
    "shared n = 0; def main() { for (i in 1..3) async for (k in 1..3) { atomic n = n + i; val m = n; "
    "Console.OUT.println(m); } }",
)


def programs() -> Iterator[tuple[str, bytes]]:
    """The programs, with their names."""
    yield from ((f"MANY {place}", text.encode()) for place, text in enumerate(MANY))
    yield from ((path.name, path.read_bytes()) for path in sorted((TOP / "examples").glob("*.x10")))


def any_seed(rng: random.Random) -> int:
    return rng.choice([0, rng.randrange(tally.SEEDS), tally.SEEDS - rng.randrange(1, LEAST)])


def main() -> int:
    parser = argparse.ArgumentParser(description="Compares tallies of many runs by chance with the reference.")
    parser.add_argument("steps", type=int, nargs="?", default=4_000)
    parser.add_argument("seed", type=int, nargs="?", default=1)
    harness.add_program(parser)
    given = parser.parse_args()
    rng, tallies, total, lists, differing = random.Random(given.seed), 0, 0, 0, []
    with tempfile.TemporaryDirectory() as folder:
        file = pathlib.Path(folder) / "text"
        for name, data in programs():
            judged = source.judge(data)
            if not isinstance(judged, Accepted) or modules.refusal("run", judged, ()):
                continue
            runs, seed = min(MOST, given.steps // judged.bounds.steps), any_seed(rng)
            if runs < LEAST:
                continue
            file.write_bytes(data)
            words = ["run", "--order", "random", "--seed", seed, "--runs", runs, file]
            wanted = tally.tally(judged.module, (), seed, runs)
            tallies, total, lists = tallies + 1, total + runs, lists + wanted.count("\n") - 1
            if (got := harness.call([given.program, *words]).texts()) != (0, wanted, ""):
                differing.append(f"{name}, seed {seed}, {runs} runs\n    reference: {wanted}\n    program:   {got}")
    print(*differing[:SHOWN], sep="\n", end="\n" if differing else "", file=sys.stderr)
    print(f"by_chance: {tallies} tallies of {total} runs, {lists} lists, {len(differing)} answered otherwise")
    return 1 if differing or not tallies else 0


if __name__ == "__main__":
    sys.exit(main())
