#!/usr/bin/env python3
"""Programs that nobody wrote: whether `span` prints what the reference does, and whether that is what the words mean.

    python3 -m tests.generated.spans [PROGRAMS] [SEED] [--program PATH | --reference]

200 programs of split phases, seed 1 and crates/x10clock/out/x10clock where nothing else is said; with --reference no
program is asked. Of a run in each of five orders: no chain of steps is longer than the reference's, where chains can be
counted one by one; and where there is no race, the run by rounds, in each of which all who can step do so, takes each
step in the round that the reference says, all runs have the same span, which is the number of rounds that `run` counts,
and on P processors it counts no more than (work + (P - 1) span) / P.
"""

from __future__ import annotations

import argparse
import pathlib
import random
import sys
import tempfile
from collections.abc import Iterator

from tests import harness
from tests.generated.split_phases import called, written
from tests.reference import logs, modules, races, span
from tests.reference.events import Program
from tests.reference.logs import Played

ORDERS = ("first", "last", "round", "random:1", "random:2")
# On so many processors a program without a race is run by rounds.
PROCESSORS = (None, 1, 2, 3, 8)
# So many steps may a run have whose chains are counted one by one.
FEW = 16
SHOWN = 5


def all_chains(before: dict[int, list[int]], number: int) -> Iterator[int]:
    """The length of each chain up to a step."""
    yield 1
    for cause in before[number]:
        for length in all_chains(before, cause):
            yield length + 1


def rounds(module: modules.Module) -> tuple[Played, list[int]]:
    """The run in which all who can step do so in each round, and the round of each of its steps."""
    played, of = Played.opening(module, ()), list[int]()
    number = 0
    while not played.world.has_ended:
        number += 1
        able = [who for who in range(len(played.world.activities)) if modules.step(module, played.world, who)]
        for who in able:
            played.step(who)
        of += [number] * len(able)
    return played, of


def by_rounds(data: bytes, module: modules.Module, asked: pathlib.Path | None, folder: pathlib.Path) -> list[str]:
    """What is wrong with runs by rounds, if the program has no race."""
    played, of = rounds(module)
    chains = span.chains(played)
    wrong = [n for n, number in enumerate(of, start=1) if chains[n].length != number]
    found = [f"by rounds step {n} is in round {of[n - 1]}, its chain has {chains[n].length}" for n in wrong]
    for processors in PROCESSORS:
        ran = modules.run(module, modules.Greedy(processors))
        if not is_greedy(ran, processors, of[-1]):
            told = f"{ran.steps} steps in {ran.rounds} rounds, and the span is {of[-1]}"
            found.append(f"on {processors} processors {told}")
        if asked:
            (folder / "text").write_bytes(data)
            answer = called(asked, "run", *ran_by(processors), folder / "text")
            found += [f"on {processors} processors {answer}"] if answer != (0, ran.text()) else []
    return found


def ran_by(processors: int | None) -> list[str]:
    return modules.Greedy(processors).words()


def is_greedy(ran: modules.Ran, processors: int | None, span: int) -> bool:
    """Whether so many rounds are right for a program without a race of this span."""
    if processors is None:
        return ran.rounds == span
    most = (ran.steps + (processors - 1) * span) // processors
    return max(span, -(-ran.steps // processors)) <= ran.rounds <= most


def judged_run(program: Program, played: Played) -> tuple[list[str], tuple[int, int] | None]:
    """What is wrong with a run, and its work and span, if it has no race."""
    chains, before = span.chains(played), span.causes(played)
    wrong = []
    if len(played.taken) <= FEW:
        longest = {number: max(all_chains(before, number)) for number in before}
        lengths = {number: chain.length for number, chain in chains.items()}
        wrong = [f"step {n}: {lengths[n]}, and not {longest[n]}" for n in before if lengths[n] != longest[n]]
    if races.races(program, played).startswith("race "):
        return wrong, None
    return wrong, (len(played.taken), max(chain.length for chain in chains.values()))


def tried(
    data: bytes, module: modules.Module, asked: pathlib.Path | None, folder: pathlib.Path
) -> tuple[list[str], bool]:
    """What is wrong with the runs of a program, and whether it has no race."""
    wrong, numbers = list[str](), set[tuple[int, int] | None]()
    for order in ORDERS:
        name, _, seed = order.partition(":")
        log = logs.log_of(module, modules.way_of(name, int(seed or 0)))
        played, program = logs.replay(module, log), Program(data, False)
        found, number = judged_run(program, played)
        wrong += [f"order {order}: {what}" for what in found]
        numbers.add(number)
        if asked:
            (folder / "text").write_bytes(data)
            (folder / "log").write_bytes(logs.text_of(log))
            answer = called(asked, "span", folder / "text", folder / "log")
            expected = (0 if number else 6, span.span(program, played))
            wrong += [f"order {order}: {answer}, and not {expected}"] if answer != expected else []
    if len(numbers) > 1:
        wrong.append(f"by its runs it has these numbers: {numbers}")
    return wrong + ([] if None in numbers else by_rounds(data, module, asked, folder)), None not in numbers


def main() -> int:
    parser = argparse.ArgumentParser(description="Holds what `span` says of runs against what the words mean.")
    parser.add_argument("programs", type=int, nargs="?", default=200)
    parser.add_argument("seed", type=int, nargs="?", default=1)
    parser.add_argument("--reference", action="store_true", help="ask no program")
    harness.add_program(parser)
    given = parser.parse_args()
    asked = None if given.reference else given.program
    found, free = [], 0
    with tempfile.TemporaryDirectory() as folder:
        for number in range(given.programs):
            data, judged = written(random.Random(f"{given.seed} {number}"))
            wrong, is_free = tried(data, judged.module, asked, pathlib.Path(folder))
            free += is_free
            found += [f"program {number}: {data.decode()}{what}" for what in wrong]
    for what in found[:SHOWN]:
        print(what)
    programs = f"{given.programs} programs, of which {free} have no race, {len(ORDERS)} runs of each"
    print(f"spans.py: {programs}, {len(found)} otherwise than they should be")
    return 1 if found else 0


if __name__ == "__main__":
    sys.exit(main())
