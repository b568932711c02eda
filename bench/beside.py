#!/usr/bin/env python3
"""Times the built program beside the machine in bench/plain, on the modules of bench/modules.py.

    python3 -m bench.beside [--program PATH] [--only WORD] [--rounds N] [--builds N]

Both have to print the same bytes. The machine is built nine times: the builds differ in where the functions stand
alone, and so by half in the time that one loop takes. Beside each of them four runs are made in turn, of which the
least counts. Each line (bench/results.py) has the seconds of processor time, the least of ours and the one of the
middle build by hand; the ratio beside the middle build; the ratios beside the fastest and the slowest; and the most
memory of each. A run of less than a twentieth of a second is marked as short: its ratio says little. Memory counts from
what the measuring process held, some 15 MB.
"""

from __future__ import annotations

import argparse
import pathlib
import statistics
import sys
import tempfile

from bench.by_hand import built
from bench.modules import ROWS
from bench.results import show
from bench.spent import spent
from tests import harness

SHORT = 0.05


def ran(words: list[object]) -> tuple[bytes, float, float]:
    """What a call prints, its seconds of processor time, and its most memory in MB."""
    took = spent(words)
    return took.out + took.err, took.seconds, took.megabytes


def in_turn(
    ours: list[object], machine: str, path: str, order: str, rounds: int
) -> tuple[bytes, list[float], list[float]]:
    """Runs of ours and by hand, in turn: what they print, the least seconds of each, and the least memory of each."""
    runs = [(ran(ours), ran([machine, path, order])) for _ in range(rounds)]
    if runs[0][0][0] != runs[0][1][0]:
        sys.exit(f"{path}, {order}: {runs[0][0][0][-200:]!r} beside {runs[0][1][0][-200:]!r}")
    seconds, memory = ([min(run[side][what] for run in runs) for side in (0, 1)] for what in (1, 2))
    return runs[0][1][0], seconds, memory


def row(name: str, order: str, program: pathlib.Path, machines: list[str], path: str, rounds: int) -> None:
    """Prints the line of a module in an order."""
    ours = [program, "run", "--order", order, "--module", path]
    printed, seconds, memory = zip(*(in_turn(ours, machine, path, order, rounds) for machine in machines))
    ratios = [own / max(other, 1e-6) for own, other in seconds]
    own, other = min(pair[0] for pair in seconds), statistics.median(pair[1] for pair in seconds)
    held, held_by_hand = (round(min(sizes)) for sizes in zip(*memory))
    show(
        f"{name}, {order}",
        *(["short"] if min(own, other) < SHORT else []),
        steps=int(printed[0].split()[-1]),
        ours=own,
        by_hand=other,
        ratio=statistics.median(ratios),
        least=min(ratios),
        most=max(ratios),
        megabytes=held,
        megabytes_by_hand=held_by_hand,
    )


def main() -> None:
    parser = argparse.ArgumentParser()
    harness.add_program(parser)
    parser.add_argument("--only", default="")
    parser.add_argument("--rounds", type=int, default=4)
    parser.add_argument("--builds", type=int, default=9)
    given = parser.parse_args()
    machines = [built(f"plain-{number}") for number in range(1, given.builds + 1)]
    for name, make, orders in ROWS:
        if given.only not in name:
            continue
        with tempfile.NamedTemporaryFile("w", suffix=".json") as file:
            file.write(make())
            file.flush()
            for order in orders:
                row(name, order, given.program, machines, file.name, given.rounds)


if __name__ == "__main__":
    main()
