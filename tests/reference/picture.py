"""The reference for `lanes --svg`: what `lanes` draws, as a picture."""

from __future__ import annotations

from tests.reference import events, lanes, modules
from tests.reference.events import Program
from tests.reference.lanes import WHOLE, Window
from tests.reference.logs import Advance, Played, Taken
from tests.reference.naming import Naming

# The most rows and activities that are drawn.
MOST_ROWS, MOST_LANES = 2000, 64
# Places, in units of the picture: a row's height, where the first one begins, a sign's width, and so on.
ROW, TOP, SIGN = 24, 112, 8
# The most signs of a place, of a lane, and of a clock's name; how many there are behind a bar besides that name, and
# where clocks have none.
MOST_PLACE, MOST_LANE, MOST_NAME = 40, 100, 100
BEHIND_NAME, BEHIND = 22, 32
NUMBER_END, PLACE_START = 80, 88
MOST_BANDS, BAND = 8, 14
NARROWEST = 680

STYLE = """<style>
text{font:12px monospace;fill:#1f2328}
.paper{fill:#ffffff}
.number{text-anchor:end}
.at,.number{fill:#656d76}
.lane,.words{text-anchor:middle}
.lane{font-weight:bold}
.life rect{fill:#e4e7ec;stroke:#7a828e}
.clock rect{fill:#dbe9fb;stroke:#2f6fc0}
.shared rect{fill:#dcf3e0;stroke:#2b8a4b}
.print rect{fill:#fdeec6;stroke:#b58110}
.free{stroke:#8c959f;stroke-width:2}
.held{fill:url(#hatch)}
.hatch{fill:#fbe3e1}
.lines{stroke:#cf4a3f;stroke-width:1}
.bar{stroke:#b3261e;stroke-width:3}
.ring{fill:#ffffff;stroke:#b3261e;stroke-width:2}
.start{stroke:#57606a;stroke-dasharray:5 3;marker-end:url(#tip)}
.tip{fill:#57606a}
.even{fill:#b6c9e6}
.odd{fill:#e9cda0}
@media (prefers-color-scheme:dark){
text{fill:#e6edf3}
.paper{fill:#0d1117}
.at,.number{fill:#9198a1}
.life rect{fill:#2a3038}
.clock rect{fill:#14335c;stroke:#5c9ded}
.shared rect{fill:#123d22;stroke:#4cb86f}
.print rect{fill:#4a3808;stroke:#d9a62e}
.hatch{fill:#3a1a18}
.bar,.ring{stroke:#ff7b72}
.ring{fill:#0d1117}
.start{stroke:#adb5bf}
.tip{fill:#adb5bf}
.even{fill:#36507a}
.odd{fill:#6e5426}
}
</style>
"""

SHAPES = """<defs>
<pattern id='hatch' width='8' height='8' patternUnits='userSpaceOnUse'>\
<rect class='hatch' width='8' height='8'/><path class='lines' d='M-1 1l2 -2M0 8l8 -8M7 9l2 -2'/></pattern>
<marker id='tip' markerWidth='10' markerHeight='10' refX='8' refY='4' orient='auto' markerUnits='userSpaceOnUse'>\
<path class='tip' d='M0 0l9 4l-9 4z'/></marker>
<path id='free' class='free' d='M0 0v24'/>
<rect id='held' class='held' x='-6' width='12' height='24'/>
<circle id='ring' class='ring' r='4'/>
<rect id='even' class='even' width='10' height='24'/>
<rect id='odd' class='odd' width='10' height='24'/>
</defs>
<rect class='paper' width='100%' height='100%'/>
"""

LEGEND = """<g class='life'><rect x='16' y='14' width='32' height='18' rx='3'/></g>\
<text x='60' y='27'>a step that others see</text>
<use href='#free' x='264' y='11'/><text x='284' y='27'>can take a step</text>
<use href='#held' x='464' y='11'/><text x='484' y='27'>is held back</text>
<path class='bar' d='M16 55h32'/><use href='#ring' x='32' y='55'/><text x='60' y='59'>a clock advances</text>
<path class='start' d='M248 55h28'/><text x='284' y='59'>starts an activity</text>
<use href='#even' x='454' y='43'/><use href='#odd' x='464' y='43'/><text x='484' y='59'>phases of a clock</text>
<text class='number' x='80' y='104'>step</text><text class='at' x='88' y='104'>at</text>
"""

# What kind of step each one is, by its name in tests/reference/modules.py.
KINDS = {
    **dict.fromkeys(("Made", "Resumed", "Dropped", "Arrived", "Passed"), "clock"),
    **dict.fromkeys(("Got", "Put", "Added"), "shared"),
    **dict.fromkeys(("Opened", "Closed", "Spawned", "Ended"), "life"),
}


def kind(taken: Taken) -> str:
    return "print" if taken.step.printed is not None else KINDS[taken.step.event]


class Sheet:
    """Where things stand: which rows there are, and how wide the columns are."""

    def __init__(self, program: Program, played: Played, window: Window) -> None:
        naming = None if program.is_module else Naming(program, played)
        self.words = naming.words if naming else events.words
        self.clock = naming.clocks.__getitem__ if naming else lanes.clock_number
        grid = lanes.Grid(program, played, window, self.words, self.clock)
        self.steps = [
            taken for taken in played.taken if taken.number in window and (taken.step.event or taken.advances)
        ]
        self.rows = sum(1 + len(taken.advances) for taken in self.steps)
        self.activities = len(played.world.activities)
        self.lanes = range(min(MOST_LANES, self.activities))
        self.bands = range(min(MOST_BANDS, len(played.world.clocks)))
        self.left = PLACE_START + SIGN + SIGN * min(MOST_PLACE, grid.place)
        self.lane = SIGN * min(MOST_LANE, grid.lane)
        self.bands_left = self.left + self.lane * len(self.lanes) + 8
        self.labels = self.bands_left + BAND * len(self.bands) + 8
        behind = BEHIND
        if naming:
            made = sum(taken.step.event == "Made" for taken in played.taken if taken.number < window.stop)
            behind = BEHIND_NAME + min(MOST_NAME, max(map(len, naming.clocks[:made]), default=0))
        self.room = SIGN * behind if self.bands else 0
        self.width = max(NARROWEST, self.labels + self.room + 8)
        self.height = TOP + ROW * self.rows + 16

    def fits(self) -> bool:
        return self.rows <= MOST_ROWS and self.activities <= MOST_LANES

    def middle(self, lane: int) -> int:
        return self.left + self.lane * lane + self.lane // 2

    def titles(self) -> str:
        return "".join(
            f"<text class='lane' x='{self.middle(lane)}' y='104'>{lanes.title(lane)}</text>\n"
            for lane in self.lanes
        )

    def head(self) -> str:
        return (
            f"<svg xmlns='http://www.w3.org/2000/svg' width='{self.width}' height='{self.height}' "
            f"viewBox='0 0 {self.width} {self.height}' role='img' aria-labelledby='title desc'>\n"
            "<title id='title'>The lanes of a run</title>\n"
            f"<desc id='desc'>A lane for each of {self.activities} activities, and {self.rows} rows, from the top: "
            "one for each step that others see, and one for each advance of a clock.</desc>\n"
        )


class Drawn:
    """A step, the row in which it is drawn, and the phases of clocks behind it."""

    def __init__(
        self, program: Program, module: modules.Module, sheet: Sheet, taken: Taken, row: int, phases: dict[int, int]
    ) -> None:
        self.program, self.module, self.sheet, self.taken, self.row, self.phases = (
            program, module, sheet, taken, row, phases
        )

    def top(self, below: int) -> int:
        return TOP + ROW * (self.row + below)

    def lines(self, top: int, but: int | None) -> str:
        """How each activity but this one stands behind the step."""
        world, signs = self.taken.step.world, {"|": "free", ":": "held"}
        marks = [(lane, lanes.mark(self.module, world, lane)) for lane in self.sheet.lanes if lane != but]
        return "".join(
            f"<use href='#{signs[mark]}' x='{self.sheet.middle(lane)}' y='{top}'/>\n" for lane, mark in marks if mark
        )

    def bands(self, top: int) -> str:
        """The phases of the first clocks behind the step."""
        made = len(self.taken.step.world.clocks)
        phases = [(clock, self.phases.get(clock, 0)) for clock in self.sheet.bands if clock < made]
        at = self.sheet.bands_left
        return "".join(
            f"<use href='#{'odd' if phase % 2 else 'even'}' x='{at + BAND * clock}' y='{top}'/>\n"
            for clock, phase in phases
        )

    def box(self) -> str:
        """The step itself: its number, its place, and in the lane of who took it what was done."""
        taken, sheet, top = self.taken, self.sheet, self.top(0)
        words = sheet.words(taken)
        spot = lanes.spot(self.program, taken)
        left, middle = sheet.left + sheet.lane * taken.who + 4, sheet.middle(taken.who)
        return (
            f"<text class='number' x='{NUMBER_END}' y='{top + 16}'>{taken.number}</text>"
            f"<text class='at' x='{PLACE_START}' y='{top + 16}'>{spot}</text>\n"
            f"<g class='{kind(taken)}'><title>step {taken.number} act {taken.who} at {spot} {words}</title>"
            f"<rect x='{left}' y='{top + 2}' width='{sheet.lane - 8}' height='20' rx='3'/>"
            f"<text class='words' x='{middle}' y='{top + 16}'>{words}</text></g>\n"
        )

    def start(self) -> str:
        """An arrow to the lane of who was started."""
        if self.taken.step.event != "Spawned":
            return ""
        sheet, child = self.sheet, len(self.taken.before.activities)
        begin = sheet.left + sheet.lane * self.taken.who + sheet.lane - 4
        return f"<path class='start' d='M{begin} {self.top(0) + 12}H{sheet.middle(child)}'/>\n"

    def bar(self, advance: Advance, below: int) -> str:
        """A bar over the lanes of those who are registered on the clock, and rings there."""
        sheet, top = self.sheet, self.top(below)
        on = [lane for lane in sheet.lanes if lane in advance.registered]
        pieces = ""
        for lane in sheet.lanes:
            before, behind = any(k < lane for k in on), any(k > lane for k in on)
            if before and (lane in on or behind):
                pieces += f"<path class='bar' d='M{sheet.left + sheet.lane * lane} {top + 12}h{sheet.lane // 2}'/>\n"
            if behind and (lane in on or before):
                pieces += f"<path class='bar' d='M{sheet.middle(lane)} {top + 12}h{sheet.lane // 2}'/>\n"
            if lane in on:
                pieces += f"<use href='#ring' x='{sheet.middle(lane)}' y='{top + 12}'/>\n"
        label = f"{sheet.clock(advance.clock)} phase {advance.phase} by {self.taken.who}"
        return (
            self.lines(top, None)
            + self.bands(top)
            + pieces
            + f"<text x='{sheet.labels}' y='{top + 16}'>{label}</text>\n"
        )

    def draw(self) -> str:
        row = ""
        if self.taken.step.event:
            top = self.top(0)
            row = self.lines(top, self.taken.who) + self.bands(top) + self.box() + self.start()
        return row + "".join(self.bar(advance, below) for below, advance in enumerate(self.taken.advances, start=1))


def phases_behind(played: Played, number: int) -> dict[int, int]:
    """The phase of each clock that has advanced by a step."""
    return {advance.clock: advance.phase for advance in played.advances if advance.step <= number}


def drawing(program: Program, played: Played, window: Window = WHOLE) -> tuple[str, bool]:
    """The picture, and whether it isn't too large, and is one of a whole run."""
    sheet = Sheet(program, played, window)
    if not sheet.fits():
        most = f"at most {MOST_ROWS} and {MOST_LANES} are drawn, and --from and --to ask for fewer rows"
        return f"picture too large: {sheet.rows} rows, {sheet.activities} activities; {most}\n", False
    rows, row = "", 0
    for taken in sheet.steps:
        rows += Drawn(program, played.module, sheet, taken, row, phases_behind(played, taken.number)).draw()
        row += 1 + len(taken.advances)
    ending = played.ending()
    below = f"<text x='8' y='{TOP + ROW * sheet.rows + 10}'>{ending}</text>\n" if ending else ""
    return sheet.head() + STYLE + SHAPES + LEGEND + sheet.titles() + rows + below + "</svg>\n", not ending
