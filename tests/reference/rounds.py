"""The reference for `lanes --rounds`: a row for each round that `lanes --path` tells, and in each lane what its
activity does in it. Rounds one after another that look the same have one row."""

from __future__ import annotations

import itertools

from tests.reference import events, lanes
from tests.reference.events import Program
from tests.reference.logs import Played, Taken
from tests.reference.naming import Naming
from tests.reference.path import Path

# What stands for a step that nobody else sees, and how wide the first column is at least.
UNSEEN, NARROWEST = ".", 6


def deed(grid: lanes.Grid, taken: Taken | None) -> str:
    """What an activity does in a round in which it takes this step, or none."""
    if taken is None:
        return ""
    return grid.words(taken) if taken.step.event else UNSEEN


def cells(grid: lanes.Grid, steps: list[Taken]) -> str:
    """What stands in the lanes in a round with these steps, and behind them how many of these have no lane."""
    by_lane = {taken.who: taken for taken in steps}
    shown = "".join(deed(grid, by_lane.get(lane)).ljust(grid.lane) for lane in grid.lanes)
    more = sum(taken.who not in grid.lanes for taken in steps)
    return shown + (f"and {more} more" if more else "")


def label(rounds: list[int]) -> str:
    first, last = rounds[0], rounds[-1]
    return str(first) if first == last else f"{first} to {last}"


def drawing(program: Program, played: Played) -> tuple[str, bool]:
    """The lanes of a run by rounds, and whether each activity has one."""
    path = Path(played)
    naming = None if program.is_module else Naming(program, played)
    grid = lanes.Grid(program, played, lanes.WHOLE, naming.words if naming else events.words)
    by_round: dict[int, list[Taken]] = {}
    for taken in played.taken:
        by_round.setdefault(path.rounds[taken.number], []).append(taken)
    span = len(path.steps)
    width = max(NARROWEST, len(f"{span} to {span}"))
    titles = "".join(lanes.title(lane).ljust(grid.lane) for lane in grid.lanes)
    rows = [("round", titles)]
    for shown, rounds in itertools.groupby(range(1, span + 1), lambda n: cells(grid, by_round.get(n, []))):
        rows.append((label(list(rounds)), shown))
    drawn = "".join(f"{first:>{width}}  {behind}".rstrip() + "\n" for first, behind in rows)
    rest = f"lanes left out: {grid.left_out}\n" if grid.left_out else ""
    return drawn + rest, not grid.left_out
