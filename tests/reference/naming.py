"""The reference for the names and values in `events`, `lanes`, pictures and pages of a source text: which shared number
or clock a step was about, what the number was before it and behind it, and which step wrote what is read."""

from __future__ import annotations

from tests.reference import events, origins
from tests.reference.events import Program
from tests.reference.logs import Played, Taken
from tests.reference.modules import ClockName, Instr, Status
from tests.reference.source import Parser

# The most letters of a name that are told.
LETTERS = 30


def cut(name: str) -> str:
    return name if len(name) <= LETTERS else f"{name[:LETTERS]}.."


class Naming:
    """Of a run of a source text's module."""

    def __init__(self, program: Program, played: Played) -> None:
        self.program = program
        self.played = played
        self.shared = [cut(shared.name.text) for shared in Parser(program.data).program().shared]
        self.clocks = self.clock_names()
        self.writers = self.last_writers()

    @classmethod
    def of_module(cls, played: Played) -> Naming:
        """Of a run of a module, which has no names: which clock or shared number a step was about."""
        found = cls.__new__(cls)
        found.played, found.shared, found.clocks = played, [], []
        return found

    def instr(self, taken: Taken) -> Instr | None:
        """The instruction that a step carried out; a pass has none."""
        if taken.before.activities[taken.who].status is not Status.RUNNING:
            return None
        frame = events.frame_before(taken)
        return self.played.module.units[frame.unit].code[frame.place]

    def clock_names(self) -> list[str]:
        """The names that the clocks were made under. The second clock of a name has its number behind it, and so on."""
        found: list[str] = []
        for taken in self.played.taken:
            if taken.step.event == "Made":
                found.append(self.made_under(taken))
        return [self.numbered(name, found[:at].count(name)) for at, name in enumerate(found)]

    def made_under(self, taken: Taken) -> str:
        """The name that a step made a clock under, behind that of its method, if that isn't main; that of a `clocked
        finish` is told by its place."""
        frame = events.frame_before(taken)
        instr = self.instr(taken)
        unit = origins.origins(self.program.data)[frame.unit]
        name = unit.slots.get(instr.operands[0])
        if name is None:
            return f"clock of {self.program.position(frame)}"
        return cut(name) if unit.method == "main" else f"{cut(unit.method)}.{cut(name)}"

    @staticmethod
    def numbered(name: str, before: int) -> str:
        return f"{name}#{before + 1}" if before else name

    def cell(self, taken: Taken) -> int | None:
        """The shared number that a step was about, if it was about one."""
        instr = self.instr(taken)
        if instr is None or instr.name not in ("get", "put", "addto"):
            return None
        return instr.operands[1 if instr.name == "get" else 0]

    def clock(self, taken: Taken) -> int | None:
        """The clock that a step made, resumed or dropped, if it did."""
        instr = self.instr(taken)
        if instr is None or instr.name not in ("make", "resume", "drop"):
            return None
        if instr.name == "make":
            return len(taken.before.clocks)
        held = events.frame_before(taken).slots[instr.operands[0]]
        return held.number if isinstance(held, ClockName) else None

    def last_writers(self) -> dict[int, int]:
        """For each step that reads the step that wrote the number last: 0 where nobody did."""
        last: dict[int, int] = {}
        found: dict[int, int] = {}
        for taken in self.played.taken:
            cell = self.cell(taken)
            if cell is None:
                continue
            if taken.step.event == "Got":
                found[taken.number] = last.get(cell, 0)
            else:
                last[cell] = taken.number
        return found

    def words(self, taken: Taken) -> str:
        """What others see of a step, with names and values."""
        cell, clock = self.cell(taken), self.clock(taken)
        if cell is not None:
            before, after = taken.before.shared[cell], taken.step.world.shared[cell]
            value = f"{before} -> {after}" if taken.step.event == "Added" else str(after)
            return f"{events.WORDS[taken.step.event]} {self.shared[cell]} {value}"
        if clock is not None:
            return f"{events.WORDS[taken.step.event]} {self.clocks[clock]}"
        return events.words(taken)

    def source(self, taken: Taken) -> str:
        """Which step wrote what a step reads."""
        if taken.number not in self.writers:
            return ""
        writer = self.writers[taken.number]
        return f" (step {writer})" if writer else " (opening)"

    def told(self, taken: Taken) -> str:
        place = self.program.position(events.frame_before(taken))
        return f"step {taken.number} act {taken.who} at {place} {self.words(taken)}"

    def line(self, taken: Taken) -> str:
        return f"{self.told(taken)}{self.source(taken)}\n"


def text(program: Program, played: Played) -> str:
    """What `events` prints: of a module alone as tests/reference/events.py has it."""
    if program.is_module:
        return events.events(program, played)
    naming = Naming(program, played)
    return "".join(naming.line(taken) for taken in events.seen(played))
