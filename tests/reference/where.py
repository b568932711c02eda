"""The reference for `where`: how things stand behind the steps of a log, or behind so many, as far as they can be
taken."""

from __future__ import annotations

from collections.abc import Callable
from dataclasses import dataclass

from tests.reference import logs, modules, naming, origins
from tests.reference.events import Program
from tests.reference.logs import Answer, Entry, Fault, Log, Played
from tests.reference.modules import Accepted, Arguments, ClockName, Frame, Refused, Standing, Status, Value
from tests.reference.source import Parser

# So many activities are named in a row.
NAMED = 8
# The status where a step of the log can't be taken.
STOPPED = 6


@dataclass(frozen=True)
class Stop:
    """The step of a log that can't be taken: the number of its entry, which of the entry's steps it is, and the
    entry."""

    number: int
    step: int
    entry: Entry


@dataclass(frozen=True)
class Place:
    """A run that has come as far as the steps of a log can be taken."""

    program: Program
    played: Played
    stop: Stop | None

    @property
    def everybody(self) -> range:
        return range(len(self.played.world.activities))

    def can_step(self, who: int) -> bool:
        return modules.step(self.played.module, self.played.world, who) is not None

    def doing(self, who: int) -> str:
        """What an activity does, or that it isn't there."""
        if who not in self.everybody:
            return "isn't there"
        status = self.played.world.activities[who].status
        if status is Status.ENDED:
            return "has ended"
        if self.can_step(who):
            return "can step"
        return "waits for clocks" if status is Status.ARRIVED else "waits in finish"

    def registration(self, who: int, clock: int, *, is_waiting: bool) -> str:
        """A clock, and where an activity stands on it."""
        standing = self.played.world.clocks[clock].standing(who)
        if standing is Standing.APART:
            return ""
        told = f", clock {clock} {standing.name.lower()}"
        return told + self.holders(clock) if is_waiting and standing is Standing.SIGNALLED else told

    def holders(self, clock: int) -> str:
        """Whom a clock waits for: those who are registered and haven't resumed it in this phase."""
        there = self.played.world.clocks[clock]
        return " held by" + listed(
            [who for who in self.everybody if who in there.registered and who not in there.resumed]
        )

    def line(self, who: int) -> str:
        """Where an activity is, what it does there, and where it stands on its clocks."""
        doing = self.doing(who)
        if doing == "has ended":
            return f"act {who} {doing}\n"
        activity = self.played.world.activities[who]
        frame = activity.frames[-1]
        position = self.program.position(frame)
        place = f"at {position}" if position else f"unit {frame.unit} place {frame.place}"
        awaited = " for" + listed(sorted(activity.finishes[-1])) if doing == "waits in finish" else ""
        clocks = range(len(self.played.world.clocks))
        standings = "".join(self.registration(who, clock, is_waiting=doing == "waits for clocks") for clock in clocks)
        return f"act {who} {place} {doing}{awaited}{standings}\n"

    def limited(self, frame: Frame, slot: int) -> tuple[int, int] | None:
        """Of the loop that goes no further up than the number in a slot: the slot that it counts in, and the number of
        the text that it goes no further up than."""
        for instr in self.played.module.units[frame.unit].code:
            if instr.name == "forto" and instr.operands[2] == slot:
                return instr.operands[0], instr.operands[3]
        return None

    def held(self, frame: Frame, names: dict[int, str], slot: int, value: Value) -> str:
        """What a slot holds, by its name; a number without a name is told where it bounds a loop."""
        if value is None:
            return ""
        if isinstance(value, ClockName):
            return f", {naming.cut(names[slot])} is clock {value.number}" if slot in names else ""
        if slot in names:
            return f", {naming.cut(names[slot])} = {value}"
        limited = self.limited(frame, slot)
        return f", {naming.cut(names[limited[0]])} up to {min(value, limited[1])}" if limited else ""

    def numbers(self, frame: Frame) -> str:
        """What a frame's numbers and clocks are."""
        unit = origins.origins(self.program.data)[frame.unit]
        return "".join(self.held(frame, unit.slots, slot, value) for slot, value in enumerate(frame.slots))

    def method(self, frame: Frame) -> str:
        """Whose frame it is."""
        return naming.cut(origins.origins(self.program.data)[frame.unit].name or "async")

    def calling(self, frame: Frame) -> str:
        """Of a frame that waits for a call to return, whose it is, where that call is, and the frame's numbers. Frames
        that wait stand behind their calls here."""
        at = self.program.position(frame._replace(place=frame.place - 1))
        return f"called by {self.method(frame)} at {at}{self.numbers(frame)}\n"

    def own(self, who: int) -> str:
        """What an activity's own numbers are in the frame that it stands in, and its clocks, and those of the frames
        that wait for it, the nearest first, if the text is known."""
        activity = self.played.world.activities[who]
        if self.program.is_module or activity.status is Status.ENDED:
            return ""
        frame = activity.frames[-1]
        held = self.numbers(frame)
        here = f"act {who} in {self.method(frame)}{held}\n" if held else ""
        return here + "".join(f"act {who} {self.calling(frame)}" for frame in reversed(activity.frames[:-1]))

    def told(self, who: int) -> str:
        return self.line(who) + self.own(who)

    def numbered(self) -> list[str]:
        """The shared numbers by their numbers."""
        return [f"shared {cell} is {number}\n" for cell, number in enumerate(self.played.world.shared)]

    def named(self) -> list[str]:
        """The shared numbers, of a source text by their names."""
        if self.program.is_module:
            return self.numbered()
        names = [naming.cut(shared.name.text) for shared in Parser(self.program.data).program().shared]
        return [f"{name} = {number}\n" for name, number in zip(names, self.played.world.shared)]

    def standings(self, act: Callable[[int], str], shared: list[str]) -> str:
        world, phases = self.played.world, self.played.phases
        lines = [f"steps {self.played.steps}\n", *map(act, self.everybody)]
        lines += [f"clock {clock} phase {phases.get(clock, 0)}\n" for clock in range(len(world.clocks))]
        lines += shared
        if self.stop:
            entry = self.stop.entry
            why = f"act {entry.activity} {self.doing(entry.activity)}"
            lines.append(f"entry {self.stop.number} step {self.stop.step} of {entry.steps}: {why}\n")
        return "".join(lines)

    def text(self) -> str:
        """What `where` prints, and what a page has of a moment."""
        return self.standings(self.told, self.named())


def listed(acts: list[int]) -> str:
    """Activities, each after a blank: the first of them, and how many more."""
    more = len(acts) - NAMED
    return "".join(f" {act}" for act in acts[:NAMED]) + (f" and {more} more" if more > 0 else "")


def taken(played: Played, log: Log) -> Stop | None:
    """Takes the steps of a log, up to the first that can't be taken."""
    for number, entry in enumerate(log):
        for step in range(1, entry.steps + 1):
            if not played.step(entry.activity):
                return Stop(number, step, entry)
    return None


def beginning(log: Log, at: int) -> Log:
    """The entries of the first steps of a log, so many; one that has more of them is cut."""
    taken = []
    for entry in log:
        if at == 0:
            break
        taken.append(entry._replace(steps=min(at, entry.steps)))
        at -= taken[-1].steps
    return taken


def lines(place: Place, ends: int | None) -> str:
    """What is told as lines; the log ends at this step, where one behind it was asked for."""
    return place.text() + ("" if ends is None else f"the log ends after step {ends}\n")


def answer(
    program: Program,
    judged: Accepted | Refused,
    data: bytes,
    arguments: Arguments = (),
    at: int | None = None,
    tell: Callable[[Place, int | None], str] = lines,
) -> Answer:
    """How things stand behind the steps of a log, or behind so many; its text is judged as for a replay."""
    line = modules.refusal("replay", judged, arguments)
    if line:
        return 1, "", f"x10clock: {line}\n"
    try:
        log = logs.read(data)
    except Fault as fault:
        return 3, "", f"x10clock: {fault}\n"
    played = Played.opening(judged.module, arguments)
    stop = taken(played, log if at is None else beginning(log, at))
    steps = sum(entry.steps for entry in log)
    ends = steps if at is not None and steps < at else None
    return STOPPED if stop or ends is not None else 0, tell(Place(program, played, stop), ends), ""
