#!/usr/bin/env python3
"""Asks SPIN for all that some programs print, by the models of bench/spin, which were written by hand: without its
partial order reduction, and with it.

    python3 -m bench.spin [MODEL ..]
    python3 -m bench.spin --models [MODEL ..]       those of bench/models.py

Needs `spin` and `gcc`. Prints for each model a line (bench/results.py): how many lists of numbers there are, and for
both searches the states that were stored and the processor time of one search. `spin -o2`, since else it hides an array
that is only written; no compression. Of the latter models a figure lacks where a search took more than a minute or
3.5 GB.
"""
from __future__ import annotations

import argparse
import pathlib
import re
import resource
import subprocess
import sys
import tempfile
from collections.abc import Callable
from dataclasses import dataclass

from bench.models import MODELS, promela
from bench.results import show

FOLDER = pathlib.Path(__file__).resolve().parent / "spin"


def spent() -> float:
    """The processor time of all calls so far."""
    usage = resource.getrusage(resource.RUSAGE_CHILDREN)
    return usage.ru_utime + usage.ru_stime


@dataclass(frozen=True)
class Searched:
    """What a search found: the lists, the states that were stored, and its processor time."""

    lists: frozenset[bytes]
    states: int
    seconds: float


Search = Callable[..., Searched | None]


def prepared(folder: pathlib.Path, text: str) -> pathlib.Path:
    """Makes the search of a model in a folder, as a program in C."""
    for path in (folder / "model.pml", folder / "clocks.h"):
        path.write_text(text if path.suffix == ".pml" else (FOLDER / "clocks.h").read_text("utf-8"), "utf-8")
    subprocess.run(["spin", "-o2", "-a", "model.pml"], cwd=folder, check=True, stdout=subprocess.DEVNULL)
    return folder


def called(folder: pathlib.Path, flags: tuple[str, ...], megabytes: int, seconds: int | None) -> Searched | None:
    """Searches, if that takes no more than this; without a limit of seconds it has to come to an end."""
    build = ["gcc", "-O2", "-w", "-DSAFETY", f"-DMEMLIM={megabytes}", *flags, "-o", "pan", "pan.c"]
    subprocess.run(build, cwd=folder, check=True)
    before = spent()
    # Processor time, so that it doesn't count what else the machine does.
    limit = ["prlimit", f"--cpu={seconds}"] if seconds else []
    ran = subprocess.run([*limit, "./pan", "-m100000", "-w24"], cwd=folder, capture_output=True, check=False)
    if seconds and (ran.returncode or b"max. memory" in ran.stdout + ran.stderr):
        return None
    found = re.search(rb"errors: ([1-9]\d*)|max search depth too small|max. memory", ran.stdout)
    states = re.search(rb"([\d.e+]+) states, stored", ran.stdout)
    if ran.returncode or found or not states:
        sys.exit(f"spin: status {ran.returncode}: {found[0].decode() if found else 'no count of states'}")
    lists = frozenset(line for line in ran.stdout.split(b"\n") if line.startswith(b"outcome"))
    return Searched(lists, int(float(states[1])), spent() - before)


def searched(folder: pathlib.Path, *flags: str) -> Searched:
    """A search that may take what it wants."""
    found = called(folder, flags, 16_000, None)
    if found is None:
        sys.exit("spin: no answer")
    return found


def searched_within(folder: pathlib.Path, *flags: str) -> Searched | None:
    """A search, if it takes no more than a minute and 3.5 GB."""
    return called(folder, flags, 3_500, 60)


def both(name: str, text: str, search: Search) -> dict[str, float]:
    """What the search of a model finds without reduction and with it, as far as it comes to an end."""
    with tempfile.TemporaryDirectory() as made:
        folder = prepared(pathlib.Path(made), text)
        whole, reduced = search(folder, "-DNOREDUCE"), search(folder)
    ended = [found for found in (whole, reduced) if found]
    if len({found.lists for found in ended}) > 1:
        sys.exit(f"spin: {name} has other lists with reduction")
    figures: dict[str, float] = {"lists": len(ended[0].lists)} if ended else {}
    figures |= {"states": whole.states, "seconds": whole.seconds} if whole else {}
    return figures | ({"reduced": reduced.states, "seconds_reduced": reduced.seconds} if reduced else {})


def main() -> None:
    parser = argparse.ArgumentParser(description="Asks SPIN for all that some programs print.")
    parser.add_argument("names", nargs="*", metavar="MODEL")
    parser.add_argument("--models", action="store_true", help="those of bench/models.py, within a minute and 3.5 GB")
    given = parser.parse_args()
    if given.models:
        for name in given.names or MODELS:
            show(name, **both(name, promela(MODELS[name]), searched_within))
        return
    for name in given.names or sorted(path.stem for path in FOLDER.glob("*.pml")):
        show(name, **both(name, (FOLDER / f"{name}.pml").read_text("utf-8"), searched))


if __name__ == "__main__":
    main()
