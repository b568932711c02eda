#!/usr/bin/env python3
"""Plays the examples by answers that nobody wrote: whether `run --order ask` asks, prints and logs what the reference
does.

    python3 -m tests.generated.asked [GAMES] [SEED] [--program PATH]

3 games of each example, seed 1 and crates/x10clock/out/x10clock where nothing else is said. Most answers name an
activity of a small number; some are no numbers, have blanks and zeros, or no line feed behind them, and some games end
early. An example of more than 2,000 steps, or whose main takes numbers, is left out.
"""

from __future__ import annotations

import argparse
import pathlib
import random
import sys
import tempfile

from tests import harness
from tests.harness import TOP
from tests.reference import ask, modules, source
from tests.reference.events import Program
from tests.reference.modules import Accepted

MOST_STEPS = 2_000
STRANGE = (b"", b"-1", b"one", b"1 2", b"4294967296", b"99", b"\xff", b"0x0", b"+0")
SHOWN = 5


def answers(rng: random.Random, most: int) -> bytes:
    """Answers for a game of an example: mostly numbers up to this one."""
    lines = []
    for _ in range(rng.choice([5, 40, 4_000])):
        number = b"%d" % rng.randint(0, most)
        strange = (
            rng.choice(STRANGE)
            if rng.random() < 0.5
            else rng.choice([b" ", b"\t", b""]) + b"0" * rng.randrange(3) + number + rng.choice([b" ", b"\r", b""])
        )
        lines.append(strange if rng.random() < 0.1 else number)
    return b"\n".join(lines) + rng.choice([b"\n", b""])


def played(program: pathlib.Path, file: pathlib.Path, data: bytes) -> ask.Game:
    """What the program answers."""
    with tempfile.TemporaryDirectory() as folder:
        log = pathlib.Path(folder) / "log"
        words = [program, "run", "--order", "ask", "--log", log, file]
        return ask.Game(*harness.call(words, data).texts(), log.read_bytes())


def main() -> int:
    parser = argparse.ArgumentParser(description="Plays the examples by answers that nobody wrote.")
    parser.add_argument("games", type=int, nargs="?", default=3)
    parser.add_argument("seed", type=int, nargs="?", default=1)
    harness.add_program(parser)
    given = parser.parse_args()
    rng, count, early, differing = random.Random(given.seed), 0, 0, []
    for file in sorted((TOP / "examples").glob("*.x10")):
        data = file.read_bytes()
        judged = source.judge(data)
        if not isinstance(judged, Accepted) or judged.bounds.steps > MOST_STEPS or modules.refusal("run", judged, ()):
            continue
        for game in range(given.games):
            said = answers(rng, judged.bounds.activities - 1)
            wanted = ask.game(Program(data, is_module=False), judged, said)
            count, early = count + 1, early + (wanted.status == ask.EARLY)
            if played(given.program, file, said) != wanted:
                differing.append(f"{file.name}, game {game}: {said!r}")
    print(*differing[:SHOWN], sep="\n", end="\n" if differing else "", file=sys.stderr)
    print(f"asked: {count} games, {early} that end early, {len(differing)} answered otherwise")
    return 1 if differing or not count else 0


if __name__ == "__main__":
    sys.exit(main())
