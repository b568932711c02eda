"""The reference for a tally of runs by chance: how often what was printed (docs/RUNS.md, "By chance")."""

from __future__ import annotations

from tests.reference import modules
from tests.reference.modules import Arguments, ByChance, Module

SEEDS = 2**64


def tally(module: Module, arguments: Arguments, seed: int, runs: int) -> str:
    """What so many runs print, of which the first has this seed."""
    printed = [
        (each % SEEDS, tuple(modules.run(module, ByChance(each % SEEDS), arguments).printed))
        for each in range(seed, seed + runs)
    ]
    lists = [numbers for _, numbers in printed]
    lines = [
        told_share(lists.count(numbers), first, numbers)
        for place, (first, numbers) in enumerate(printed)
        if numbers not in lists[:place]
    ]
    return "".join(lines) + f"runs {runs} outcomes {len(set(lists))}\n"


def told_share(runs: int, first: int, numbers: tuple[int, ...]) -> str:
    return "".join([f"runs {runs} first seed {first} prints", *(f" {number}" for number in numbers), "\n"])
