"""The reference for `why`: which steps of a logged run a step of it rests on, by the rules in words of docs/WHY.md. One
walk along the run keeps, of each place that holds a number, all that came to what stands there, as the bits of a
number; nothing is gone back along."""

from __future__ import annotations

from collections.abc import Iterator
from typing import NamedTuple

from tests.reference import events
from tests.reference.events import Program
from tests.reference.logs import Played, Taken
from tests.reference.modules import Head, Instr, Standing
from tests.reference.naming import Naming
from tests.reference.races import AWAITED, Doings

# So many of the steps that a step rests on are shown at most.
SHOWN = 100

# Where a number stands: a slot of a frame (of an activity, above so many others), or a shared number.
Spot = tuple[str, int, int, int] | tuple[str, int]


class Making(NamedTuple):
    """What a step makes of what: where it stands then, if it stands anywhere, and where what it is made of stood."""

    to: Spot | None
    of: tuple[Spot, ...] = ()


def shared(number: int) -> Spot:
    return ("shared", number)


def slot(who: int, depth: int, number: int) -> Spot:
    return ("slot", who, depth, number)


def handed(taken: Taken, who: int, depth: int, slots: tuple[int, ...]) -> Iterator[Making]:
    """The slots of a frame that begins hold what the step's own frame hands on."""
    own = len(taken.before.activities[taken.who].frames) - 1
    for number, source in enumerate(slots):
        yield Making(slot(who, depth, number), (slot(taken.who, own, source),))


def makings(taken: Taken, code: tuple[Instr, ...]) -> Iterator[Making]:
    """What a step makes, by the instruction that it carries out in this code."""
    frame, depth = events.frame_before(taken), len(taken.before.activities[taken.who].frames) - 1
    instr = code[frame.place]
    own = [slot(taken.who, depth, operand) for operand in instr.operands if isinstance(operand, int)]
    match instr.name:
        case "lit" | "for":
            yield Making(own[0])
        case "forto" if taken.step.world.activities[taken.who].frames[-1].place == frame.place + 1:
            yield Making(own[0])
        case "next":
            counted = slot(taken.who, depth, Head.of(code[instr.operands[0]]).slot)
            yield Making(counted, (counted,))
        case "copy":
            yield Making(own[0], (own[1],))
        case "add" | "sub" | "mul":
            yield Making(own[0], (own[1], own[2]))
        case "get":
            yield Making(own[0], (shared(instr.operands[1]),))
        case "put":
            yield Making(shared(instr.operands[0]), (own[1],))
        case "addto":
            yield Making(shared(instr.operands[0]), (shared(instr.operands[0]), own[1]))
        case "print":
            yield Making(None, (own[0],))
        case "call":
            yield from handed(taken, taken.who, depth + 1, instr.arguments)
        case "spawn":
            yield from handed(taken, len(taken.before.activities), 0, instr.arguments)


class Walk:
    """What a run has come to, step by step."""

    def __init__(self, played: Played) -> None:
        self.units = played.module.units
        # By which step each making was; and of what stands at each place, the makings that it rests on.
        self.steps: list[int] = []
        self.stands: dict[Spot, int] = {}
        # The steps by which a clock ceased to await somebody in a phase; and what finishes wait for.
        self.came: dict[tuple[int, int], list[int]] = {}
        self.doings = Doings()

    def waited_for(self, taken: Taken) -> list[int]:
        """The steps that a pass or the close of a finish waited for."""
        doings, who = self.doings, taken.who
        if taken.step.event == "Passed":
            ahead = [at for at, clock in enumerate(taken.before.clocks) if clock.standing(who) is Standing.AHEAD]
            return [step for clock in ahead for step in self.came.get((clock, doings.phases[clock] - 1), [])]
        if taken.step.event == "Closed":
            return list(doings.ends.get(doings.opened[who][-1], []))
        return []

    def take(self, taken: Taken) -> int:
        """Takes a step; what it used, and what that rests on, as bits."""
        used, made = self.bits_of(self.waited_for(taken)), dict[Spot, int]()
        if taken.step.event != "Passed":
            for making in makings(taken, self.units[events.frame_before(taken).unit].code):
                of = 0
                for spot in making.of:
                    of |= self.stands.get(spot, 0)
                used |= of
                if making.to is not None:
                    made[making.to] = of | self.made_by(taken)
        self.stands.update(made)
        for clock in ceased(taken):
            self.came.setdefault((clock, self.doings.phases.get(clock, 0)), []).append(taken.number)
        self.doings.note(taken)
        return used

    def made_by(self, taken: Taken) -> int:
        self.steps.append(taken.number)
        return 1 << len(self.steps) - 1

    def bits_of(self, steps: list[int]) -> int:
        """As bits, steps that made nothing of anything."""
        bits = 0
        for step in steps:
            self.steps.append(step)
            bits |= 1 << len(self.steps) - 1
        return bits

    def among(self, bits: int) -> set[int]:
        """The steps of these bits."""
        return {step for at, step in enumerate(self.steps) if bits >> at & 1}


def ceased(taken: Taken) -> Iterator[int]:
    """The clocks that ceased to await an activity by its step."""
    advanced = {advance.clock for advance in taken.advances}
    for clock, before in enumerate(taken.before.clocks):
        still = taken.step.world.clocks[clock].standing(taken.who) in AWAITED and clock not in advanced
        if before.standing(taken.who) in AWAITED and not still:
            yield clock


def rests(played: Played, step: int) -> list[int]:
    """The steps that a step rests on and that others can see, the last first."""
    walk = Walk(played)
    used = [walk.take(taken) for taken in played.taken[:step]]
    seen = {taken.number for taken in events.seen(played)}
    return sorted(walk.among(used[-1]) & seen, reverse=True)


def told(program: Program, played: Played, step: int) -> str:
    """The line of a step that others see, those of the steps that it rests on, and how many these are."""
    naming = None if program.is_module else Naming(program, played)
    lines = {
        taken.number: naming.line(taken) if naming else events.line(program, taken) for taken in events.seen(played)
    }
    rest = rests(played, step)
    more = f", the last {SHOWN} shown" if len(rest) > SHOWN else ""
    return "".join(lines[number] for number in [step, *rest[:SHOWN]]) + f"rests on steps {len(rest)}{more}\n"


def why(program: Program, played: Played, step: int) -> tuple[str, bool]:
    """What `why` prints of a step, and whether that is a whole answer."""
    if step > played.steps:
        return f"the log ends after step {played.steps}\n", False
    if not played.taken[step - 1].step.event:
        return f"no other activity can see step {step}: see events\n", False
    return told(program, played, step), True
