"""The reference for `events` of a module, and for the lines of its page: a line for each step of a logged run that
others see. Those of a source text have names and values (tests/reference/naming.py)."""

from __future__ import annotations

from dataclasses import dataclass

from tests.reference import explain, origins
from tests.reference.logs import Played, Taken
from tests.reference.modules import Frame

# What others see of a step, by its name in tests/reference/modules.py; of a print, and of what gets a number, it has
# one behind it.
WORDS = {
    "Made": "make",
    "Got": "read",
    "Put": "write",
    "Added": "add",
    "Opened": "finish",
    "Closed": "endfinish",
    "Spawned": "async",
    "Resumed": "resume",
    "Dropped": "drop",
    "Arrived": "arrive",
    "Passed": "pass",
    "Ended": "end",
}


@dataclass(frozen=True)
class Program:
    """The bytes of a program that is accepted: a source text or a module, and the name of its file."""

    data: bytes
    is_module: bool
    name: str = "-"

    def position(self, frame: Frame) -> str | None:
        """The line and column that a frame's next instruction comes from; a module alone has none."""
        if self.is_module:
            return None
        return explain.place_title(self.data, self.offset(frame))

    def offset(self, frame: Frame) -> int:
        """The offset in a source text that it comes from."""
        return origins.origins(self.data)[frame.unit].offsets[frame.place]


def frame_before(taken: Taken) -> Frame:
    """Where the activity stood that took a step."""
    return taken.before.activities[taken.who].frames[-1]


def seen(played: Played) -> list[Taken]:
    """The steps that others see."""
    return [taken for taken in played.taken if taken.step.event]


def words(taken: Taken) -> str:
    """What others see of a step: clocks and activities are numbered from 0 as they come."""
    if taken.step.printed is not None:
        return f"print {taken.step.printed}"
    numbered = {"Made": taken.before.clocks, "Spawned": taken.before.activities}.get(taken.step.event)
    word = WORDS[taken.step.event]
    return word if numbered is None else f"{word} {len(numbered)}"


def line(program: Program, taken: Taken) -> str:
    frame = frame_before(taken)
    position = program.position(frame)
    place = f"at {position}" if position else f"unit {frame.unit} place {frame.place}"
    return f"step {taken.number} act {taken.who} {place} {words(taken)}\n"


def events(program: Program, played: Played) -> str:
    return "".join(line(program, taken) for taken in seen(played))
