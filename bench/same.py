#!/usr/bin/env python3
"""Whether the machine in bench/plain prints what the program prints: on the modules of tests/program/rows, the accepted
rows of tests/program/programs, and modules that nobody wrote (tests/generated/generated.py), in each order, byte for
byte.

    python3 -m bench.same [CASES] [SEED] [--program PATH | --alone]

400 cases and seed 1 where nothing else is said. With `--alone` the reference is asked in the place of the program
(tests/reference/modules.py).
"""

from __future__ import annotations

import argparse
import collections
import pathlib
import random
import sys
import tempfile
from collections.abc import Iterator

from bench.by_hand import ORDERS, TOP, built
from tests import harness
from tests.generated import generated, mutations
from tests.reference import modules

MOST_STEPS, MOST_WORK = 20_000, 2_000_000


def row_texts() -> Iterator[bytes]:
    """The texts of the rows of modules."""
    for path in sorted((TOP / "tests/program/programs").glob("*.rows")):
        if not path.name.startswith("sources"):
            yield from mutations.row_texts(path)


def texts(cases: int, seed: int) -> Iterator[bytes]:
    """All modules that are looked at: the written ones, and so many by chance."""
    seeds = mutations.seed_texts(False)
    yield from seeds
    yield from row_texts()
    for case in range(cases):
        yield generated.case(random.Random(f"{seed} {case}"), seeds)


def told(program: pathlib.Path | None, judged: modules.Accepted, path: str, order: str) -> str:
    """What a run prints, by the program, or by the reference where there is none."""
    if program is None:
        return modules.run(judged.module, modules.Order(order)).text()
    words = [program, "run", "--order", order, "--module", path]
    return harness.call(words).texts()[1]


def is_known(module: modules.Module) -> bool:
    """Whether the plain machine knows all that a module has: no loops with a limit, and no numbers that main is
    given."""
    return not module.wants and not any(instr.name == "forto" for unit in module.units for instr in unit.code)


def is_small(bounds: modules.Bounds) -> bool:
    """Whether a run is soon at its end."""
    return bounds.steps <= MOST_STEPS and bounds.steps * (bounds.activities + bounds.clocks) <= MOST_WORK


def main() -> int:
    parser = argparse.ArgumentParser()
    parser.add_argument("cases", nargs="?", type=int, default=400)
    parser.add_argument("seed", nargs="?", type=int, default=1)
    harness.add_program_or_none(parser)
    given = parser.parse_args()
    machine, counts = built(), collections.Counter()
    with tempfile.NamedTemporaryFile(suffix=".json") as file:
        for text in texts(given.cases, given.seed):
            judged = modules.judge(text)
            # The plain reader knows no escapes: those rows are about the text alone; and it reads the first version
            # alone.
            accepted = isinstance(judged, modules.Accepted) and is_small(judged.bounds) and is_known(judged.module)
            if not accepted or b"\\" in text or b'"version":1' not in text:
                counts["left out"] += 1
                continue
            pathlib.Path(file.name).write_bytes(text)
            counts["modules"] += 1
            counts["of them with several activities"] += judged.bounds.activities > 1
            counts["of them with clocks"] += judged.bounds.clocks > 0
            for order in ORDERS:
                wanted = told(given.program, judged, file.name, order)
                got = harness.call([machine, file.name, order])
                counts["runs"] += 1
                if got.out.decode() != wanted:
                    counts["runs that differ"] += 1
                    print(f"{order}: {text!r}\n  wanted {wanted!r}\n  got {got}")
    print(", ".join(f"{count} {name}" for name, count in counts.items()))
    return 1 if counts["runs that differ"] else 0


if __name__ == "__main__":
    sys.exit(main())
