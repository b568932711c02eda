"""The reference for `lanes`: a column for each activity, a row for each step of a logged run that others see, and a bar
for each clock that advances."""

from __future__ import annotations

from collections.abc import Callable

from tests.reference import events, modules
from tests.reference.events import Program
from tests.reference.logs import Advance, Played, Taken
from tests.reference.modules import Module, Status, World
from tests.reference.naming import Naming

NUMBER, GAP = 6, 2
MOST_LANES, NARROWEST = 64, 8

# The numbers of the steps that are asked for.
Window = range
WHOLE = range(1 << 64)


def clock_number(clock: int) -> str:
    return f"clock {clock}"


class Grid:
    """The widths of the columns, and how many lanes there are, where steps and clocks are told so."""

    def __init__(
        self,
        program: Program,
        played: Played,
        window: Window,
        words: Callable[[Taken], str] = events.words,
        clock: Callable[[int], str] = clock_number,
    ) -> None:
        seen = asked(played, window)
        self.words = words
        self.clock = clock
        self.place = GAP + max(len("at"), *(len(spot(program, taken)) for taken in seen), 0)
        self.lane = max(NARROWEST, GAP + max((len(words(taken)) for taken in seen), default=0))
        self.lanes = range(min(MOST_LANES, len(played.world.activities)))
        self.left_out = len(played.world.activities) - len(self.lanes)

    def line(self, number: object, place: str, cells: list[str], behind: str = "") -> str:
        """A line by its fields, without blanks at its end."""
        fields = "".join(cell.ljust(self.lane) for cell in cells)
        return f"{number:>{NUMBER}}{'':{GAP}}{place:{self.place}}{fields}{behind}".rstrip() + "\n"

    def bar(self, who: int, advance: Advance) -> str:
        """The bar of a clock: from the first lane to the last of those who are registered on it."""
        marked = [lane for lane in self.lanes if lane in advance.registered]
        signs = [" "] * (self.lane * len(self.lanes))
        for at in range(self.lane * marked[0], self.lane * marked[-1]) if marked else ():
            signs[at] = "="
        for lane in marked:
            signs[self.lane * lane] = "+"
        label = f"{self.clock(advance.clock)} phase {advance.phase} by {who}"
        return " " * (NUMBER + GAP + self.place) + "".join(signs) + label + "\n"


def spot(program: Program, taken: Taken) -> str:
    """Where a step was taken."""
    frame = events.frame_before(taken)
    return program.position(frame) or f"{frame.unit}.{frame.place}"


def asked(played: Played, window: Window) -> list[Taken]:
    """The steps that are asked for and that others see."""
    return [taken for taken in events.seen(played) if taken.number in window]


def title(lane: int) -> str:
    return "main" if lane == 0 else f"act {lane}"


def mark(module: Module, world: World, who: int) -> str:
    """What an activity shows where another one took the step that led to this world."""
    if who >= len(world.activities) or world.activities[who].status is Status.ENDED:
        return ""
    return "|" if modules.step(module, world, who) else ":"


def rows(program: Program, played: Played, grid: Grid, taken: Taken) -> str:
    """The row of a step that others see, and its bars. One who has no lane stands behind all lanes."""
    others = [mark(played.module, taken.step.world, lane) for lane in grid.lanes]
    words = grid.words(taken)
    cells = [words if lane == taken.who else other for lane, other in zip(grid.lanes, others, strict=True)]
    behind = "" if taken.who in grid.lanes else f"{title(taken.who)} {words}"
    bars = [grid.bar(taken.who, advance) for advance in taken.advances]
    return grid.line(taken.number, spot(program, taken), cells, behind) + "".join(bars)


def drawing(program: Program, played: Played, window: Window = WHOLE) -> tuple[str, bool]:
    """The lanes of the steps that are asked for, and whether each activity has one."""
    naming = None if program.is_module else Naming(program, played)
    told = (naming.words, naming.clocks.__getitem__) if naming else (events.words, clock_number)
    grid = Grid(program, played, window, *told)
    titles = [title(lane) for lane in grid.lanes]
    drawn = "".join(rows(program, played, grid, taken) for taken in asked(played, window))
    rest = f"lanes left out: {grid.left_out}\n" if grid.left_out else ""
    return grid.line("step", "at", titles) + drawn + rest, not grid.left_out


def lanes(program: Program, played: Played) -> str:
    return drawing(program, played)[0]
