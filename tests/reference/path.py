"""The reference for `lanes --path`, its picture, and `page --path`: what `lanes` draws, with the round of each step and
the critical path that `span` prints."""

from __future__ import annotations

from collections.abc import Callable

from tests.reference import events, lanes, picture, span
from tests.reference.events import Program
from tests.reference.lanes import WHOLE, Window
from tests.reference.logs import Played, Taken
from tests.reference.naming import Naming

# How wide the column of rounds is, in signs and in units of the picture, and how far before the lanes its numbers end.
ROUND, COLUMN, GAP = 6, 64, 12

LEGEND = """<style>
.critical{fill:none;stroke:#d4006a;stroke-width:4;pointer-events:none}
@media (prefers-color-scheme:dark){.critical{stroke:#ff5ca8}}
</style>
<path class='critical' d='M16 79h32'/><text x='60' y='83'>a critical path</text>
"""


class Path:
    """The round of each step, and the steps of the path that `span` prints."""

    def __init__(self, played: Played) -> None:
        chains = span.chains(played)
        self.rounds = {number: chain.length for number, chain in chains.items()}
        self.steps = span.path(played, chains)
        self.numbers = {taken.number for taken in self.steps}

    def boxes(self, window: Window) -> list[Taken]:
        """The steps of the path that a picture has."""
        return [taken for taken in self.steps if taken.number in window and taken.step.event]

    def words(self, taken: Taken) -> str:
        return f"step {taken.number} act {taken.who} round {self.rounds[taken.number]}"

    def marked(self, words: Callable[[Taken], str]) -> Callable[[Taken], str]:
        """What a step did, behind `*` where it is one of the path's."""
        return lambda taken: ("*" if taken.number in self.numbers else "") + words(taken)


def beside(first: object, lines: str) -> str:
    """Lines further right, with this field before the first one."""
    row, *bars = lines.splitlines(keepends=True)
    return f"{first:>{ROUND}}{row}" + "".join(" " * ROUND + bar for bar in bars)


def drawing(program: Program, played: Played, window: Window = WHOLE) -> tuple[str, bool]:
    """The lanes of the steps that are asked for, and whether each activity has one."""
    path = Path(played)
    naming = None if program.is_module else Naming(program, played)
    words, clock = (naming.words, naming.clocks.__getitem__) if naming else (events.words, lanes.clock_number)
    grid = lanes.Grid(program, played, window, words, clock)
    grid.words = path.marked(words)
    head = beside("round", grid.line("step", "at", [lanes.title(lane) for lane in grid.lanes]))
    drawn = "".join(
        beside(path.rounds[taken.number], lanes.rows(program, played, grid, taken))
        for taken in lanes.asked(played, window)
    )
    rest = f"lanes left out: {grid.left_out}\n" if grid.left_out else ""
    return head + drawn + rest, not grid.left_out


def number(x: int, y: int, words: object) -> str:
    return f"<text class='number' x='{x}' y='{y}'>{words}</text>\n"


def line(sheet: picture.Sheet, tops: dict[int, int], boxes: list[Taken]) -> str:
    """One line along these boxes: down their left edges, and from each to the next above that one."""
    edges = [(sheet.left + sheet.lane * taken.who + 4, tops[taken.number]) for taken in boxes]
    pieces = [f"V{top}H{left}v22" for left, top in edges[1:]]
    first = [f"M{left} {top + 2}v20" for left, top in edges[:1]]
    return f"<path class='critical' d='{''.join(first + pieces)}'/>\n" if edges else ""


def picture_drawing(program: Program, played: Played, window: Window = WHOLE) -> tuple[str, bool]:
    """The picture, and whether it isn't too large."""
    sheet = picture.Sheet(program, played, window)
    if not sheet.fits():
        return picture.drawing(program, played, window)
    path = Path(played)
    for name in ("left", "bands_left", "labels"):
        setattr(sheet, name, getattr(sheet, name) + COLUMN)
    sheet.width = max(picture.NARROWEST, sheet.labels + sheet.room + 8)
    rows, row, tops = "", 0, dict[int, int]()
    for taken in sheet.steps:
        phases = picture.phases_behind(played, taken.number)
        drawn = picture.Drawn(program, played.module, sheet, taken, row, phases)
        tops[taken.number] = drawn.top(0)
        rows += drawn.draw()
        if taken.step.event:
            rows += number(sheet.left - GAP, drawn.top(0) + 16, path.rounds[taken.number])
        row += 1 + len(taken.advances)
    boxes = path.boxes(window)
    told = "".join(f" {path.words(taken)};" for taken in boxes)
    follows = f" Along a critical path of {len(path.steps)} steps goes a line, by these of them:{told} no others."
    head = sheet.head().replace("The lanes of a run<", "The lanes of a run, and its critical path<")
    return (
        head.replace("</desc>", f"{follows}</desc>")
        + picture.STYLE
        + picture.SHAPES
        + picture.LEGEND
        + LEGEND
        + number(sheet.left - GAP, 104, "round")
        + sheet.titles()
        + rows
        + line(sheet, tops, boxes)
        + "</svg>\n"
    ), True
