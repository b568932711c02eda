"""A long search for all outcomes that shows how far it is: it is asked again and again, each time for twice as many
worlds, so that all together takes no more than twice as long as the last time alone."""

from __future__ import annotations

import sys
from collections.abc import Iterator
from dataclasses import dataclass
from typing import TextIO

from x10clock.library import Program
from x10clock.programs import Count, count

# Worlds of the first search.
FIRST = 10_000


@dataclass(frozen=True)
class Searched:
    """What a search found that keeps no more than so many worlds."""

    worlds: int
    count: Count


def widening(program: Program, *arguments: int, limit: int, sets: bool = False) -> Iterator[Searched]:
    """Searches with more and more worlds, up to the limit, or until all outcomes are known."""
    worlds = min(FIRST, limit)
    while True:
        found = Searched(worlds, count(program, *arguments, limit=worlds, sets=sets))
        yield found
        if found.count.complete or worlds == limit:
            return
        worlds = min(2 * worlds, limit)


def show(found: Searched, out: TextIO = sys.stderr) -> None:
    """Shows a search that isn't complete, in one line that the next one is written over where it is a terminal."""
    line = f"{found.worlds} worlds, {found.count.number} outcomes so far"
    print(f"\r{line}" if out.isatty() else line, end="" if out.isatty() else "\n", file=out, flush=True)
