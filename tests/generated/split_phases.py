#!/usr/bin/env python3
"""Programs of split phases that nobody wrote: whether `races` prints what the reference does, and says by one run of a
program what it says by each other one.

    python3 -m tests.generated.split_phases [PROGRAMS] [SEED] [--program PATH]

200 programs, seed 1 and crates/x10clock/out/x10clock where nothing else is said. Activities resume clocks, leave them,
or end behind that, between writes and reads of two shared numbers: what comes before what hangs on phases alone. A run
without a race speaks for all runs, so no other one has a race; and what is in order in one run is so in each.
"""

from __future__ import annotations

import argparse
import pathlib
import random
import sys
import tempfile

from tests import harness
from tests.reference import logs, races, source
from tests.reference.events import Program
from tests.reference.modules import Accepted

ORDERS = ("first", "last", "round", "random:1", "random:2", "random:3")
MOST_STEPS = 150
CHILDREN = 3
SHOWN = 5


class Writer:
    """Writes a program."""

    def __init__(self, rng: random.Random) -> None:
        self.rng, self.names, self.children = rng, 0, 0

    def access(self) -> str:
        """A read or a write of a shared number."""
        shared = self.rng.choice(["x", "y"])
        if self.rng.random() < 0.5:
            return f"{shared} = {self.rng.randrange(9)};"
        self.names += 1
        return f"val n{self.names} = {shared};"

    def child(self, clocks: list[str], depth: int) -> str:
        given = [clock for clock in clocks if self.rng.random() < 0.8]
        head = f"async clocked ({', '.join(given)})" if given else "async"
        return f"{head} {{ {' '.join(self.body(given, depth + 1))} }}"

    def statement(self, clocks: list[str], depth: int) -> str:
        kind = self.rng.random()
        if kind < 0.35:
            return "Clock.advanceAll();"
        if kind < 0.55 and clocks:
            return f"{self.rng.choice(clocks)}.resume();"
        if kind < 0.75 and depth < 2 and self.children < CHILDREN:
            self.children += 1
            return self.child(clocks, depth)
        return self.access()

    def body(self, clocks: list[str], depth: int) -> list[str]:
        """Statements, behind which main drops its clocks; others may end with theirs."""
        statements = [self.statement(clocks, depth) for _ in range(self.rng.randint(2, 6))]
        return statements + [f"{clock}.drop();" for clock in clocks if depth == 0 or self.rng.random() < 0.4]

    def text(self) -> str:
        clocks = ["c", "d"][: self.rng.randint(1, 2)]
        made = [f"val {clock} = Clock.make();" for clock in clocks]
        return "\n".join(["shared x = 0;", "shared y = 0;", "def main() {", *made, *self.body(clocks, 0), "}", ""])


def written(rng: random.Random) -> tuple[bytes, Accepted]:
    """A program that is accepted, with several activities."""
    while True:
        data = Writer(rng).text().encode()
        judged = source.judge(data)
        if isinstance(judged, Accepted) and judged.bounds.activities > 1 and judged.bounds.steps <= MOST_STEPS:
            return data, judged


def called(*words: object) -> tuple[int, str]:
    status, out, err = harness.call(words).texts()
    return status, out + err


def told(program: pathlib.Path, data: bytes, judged: Accepted, folder: pathlib.Path) -> tuple[list[str], set[str]]:
    """What differs from the reference, and all that is said of all runs."""
    file, log, differing, said = folder / "text", folder / "log", [], set()
    file.write_bytes(data)
    for order in ORDERS:
        name, _, seed = order.partition(":")
        called(program, "run", "--order", name, *(["--seed", seed] if seed else []), "--log", log, file)
        played = logs.replay(judged.module, logs.read(log.read_bytes()))
        expected = races.races(Program(data, False), played)
        status, answer = called(program, "races", file, log)
        said.add(answer.splitlines()[-1])
        if (status, answer) != (6 if expected.startswith("race ") else 0, expected):
            differing.append(f"races of the run in the order {order}: {(status, answer)}, and not {expected!r}")
    return differing, said


def main() -> int:
    parser = argparse.ArgumentParser(
        description="Holds what `races` says by one run of a program against what it says by others."
    )
    parser.add_argument("programs", type=int, nargs="?", default=200)
    parser.add_argument("seed", type=int, nargs="?", default=1)
    harness.add_program(parser)
    given = parser.parse_args()
    found, free = [], 0
    with tempfile.TemporaryDirectory() as folder:
        for number in range(given.programs):
            data, judged = written(random.Random(f"{given.seed} {number}"))
            differing, said = told(given.program, data, judged, pathlib.Path(folder))
            if len(said) > 1:
                differing.append(f"by one run it says this, and by another one that: {sorted(said)}")
            free += said != {"of this run alone"}
            found += [f"program {number}: {data.decode()}{what}" for what in differing]
    for what in found[:SHOWN]:
        print(what)
    programs = f"{given.programs} programs, of which {free} have no race, {len(ORDERS)} runs of each"
    print(f"split_phases.py: {programs}, {len(found)} otherwise than they should be")
    return 1 if found or not 0 < free < given.programs else 0


if __name__ == "__main__":
    sys.exit(main())
