"""The reference for `races`: pairs of accesses of one shared number whose order nothing but the schedule of a logged
run says, by the rules in words of docs/RACES.md. Each step has the whole set of steps that come before it, as the bits
of a number."""

from __future__ import annotations

from collections.abc import Iterator
from dataclasses import dataclass, field
from itertools import combinations

from tests.reference import events, explain
from tests.reference.events import Program
from tests.reference.logs import Played, Taken
from tests.reference.modules import Frame, Standing
from tests.reference.naming import Naming

AWAITED = (Standing.OPEN, Standing.AHEAD)
ACCESSES = ("Got", "Put", "Added")
# A pair of these is no race.
PEACEFUL = ("Got", "Added")
IN_ORDER = "prints in one order\n"
# So many races are shown at most.
SHOWN = 10_000


@dataclass
class Doings:
    """What steps so far are there to be waited for. A finish has the number of the step that opened it."""

    last: dict[int, int] = field(default_factory=dict)
    started: dict[int, int] = field(default_factory=dict)
    # Of a clock, the steps that its advance from each of its phases waits for.
    signals: dict[tuple[int, int], list[int]] = field(default_factory=dict)
    phases: dict[int, int] = field(default_factory=dict)
    opened: dict[int, list[int]] = field(default_factory=dict)
    under: dict[int, list[int]] = field(default_factory=dict)
    ends: dict[int, list[int]] = field(default_factory=dict)

    def waited_for(self, taken: Taken) -> Iterator[int]:
        """The steps that a step comes right after."""
        who = taken.who
        if who in self.last:
            yield self.last[who]
        elif who in self.started:
            yield self.started[who]
        if taken.step.event == "Passed":
            for number, clock in enumerate(taken.before.clocks):
                if clock.standing(who) is Standing.AHEAD:
                    yield from self.signals.get((number, self.phases[number] - 1), [])
        if taken.step.event == "Closed":
            yield from self.ends.get(self.opened[who][-1], [])

    def note(self, taken: Taken) -> None:
        """What may be waited for behind this step."""
        who, event, number = taken.who, taken.step.event, taken.number
        self.last[who] = number
        opened, under = self.opened.setdefault(who, []), self.under.setdefault(who, [])
        match event:
            case "Opened":
                opened.append(number)
            case "Closed":
                opened.pop()
            case "Spawned":
                child = len(taken.before.activities)
                self.started[child] = number
                self.under[child] = under + opened
            case "Ended":
                for finish in under:
                    self.ends.setdefault(finish, []).append(number)
        advanced = [advance.clock for advance in taken.advances]
        for clock, before in enumerate(taken.before.clocks):
            still = taken.step.world.clocks[clock].standing(who) in AWAITED and clock not in advanced
            if before.standing(who) in AWAITED and not still:
                self.signals.setdefault((clock, self.phases.get(clock, 0)), []).append(number)
            left = taken.step.world.clocks[clock].standing(who) is Standing.APART
            # Who has resumed is in the next phase already, for all that wait.
            if before.standing(who) is Standing.SIGNALLED and left:
                self.signals.setdefault((clock, self.phases.get(clock, 0) + 1), []).append(number)
        for clock in advanced:
            self.phases[clock] = self.phases.get(clock, 0) + 1


def pasts(played: Played) -> dict[int, int]:
    """Of each step, the steps that come before it."""
    doings, past = Doings(), dict[int, int]()
    for taken in played.taken:
        past[taken.number] = 0
        for before in doings.waited_for(taken):
            past[taken.number] |= past[before] | 1 << before
        doings.note(taken)
    return past


def frame(taken: Taken) -> Frame:
    return events.frame_before(taken)


def cell(played: Played, taken: Taken) -> int:
    """The shared number that an access reads or changes."""
    instr = played.module.units[frame(taken).unit].code[frame(taken).place]
    return instr.operands[1 if instr.name == "get" else 0]


def found(played: Played, past: dict[int, int]) -> Iterator[tuple[int, Taken, Taken]]:
    """Two accesses of a shared number, neither of which comes before the other, of each two places the first."""
    accesses = [(cell(played, taken), taken) for taken in played.taken if taken.step.event in ACCESSES]
    told = set()
    for (number, first), (other, second) in sorted(
        combinations(accesses, 2), key=lambda pair: (pair[1][1].number, pair[0][1].number)
    ):
        if number != other or past[second.number] >> first.number & 1:
            continue
        if first.step.event == second.step.event and first.step.event in PEACEFUL:
            continue
        places = frozenset((frame(taken).unit, frame(taken).place) for taken in (first, second))
        if (number, places) not in told:
            told.add((number, places))
            yield number, first, second


def step_words(program: Program, taken: Taken) -> str:
    position = program.position(frame(taken))
    place = f"at {position}" if position else f"unit {frame(taken).unit} place {frame(taken).place}"
    return f"step {taken.number} act {taken.who} {place}"


def gap(played: Played, past: dict[int, int]) -> tuple[Taken, Taken] | None:
    """The first print before which the print just before it needn't have come, and that one first."""
    prints = [taken for taken in played.taken if taken.step.printed is not None]
    for first, second in zip(prints, prints[1:], strict=False):
        if not past[second.number] >> first.number & 1:
            return first, second
    return None


def print_words(program: Program, between: tuple[Taken, Taken] | None) -> str:
    """Whether each print comes before the next one, where there is this gap between two."""
    if between is None:
        return IN_ORDER
    first, second = (step_words(program, taken) for taken in between)
    return f"prints not in one order: {first}, {second}\n"


def closing(program: Program, played: Played, past: dict[int, int], count: int) -> str:
    """What is told behind so many races: how many, and of which runs that holds."""
    if count:
        counted = f"{count}" if count <= SHOWN else f"{SHOWN} and more"
        return f"races {counted}\nof this run alone\n"
    prints = print_words(program, gap(played, past))
    order = " in this order" if prints == IN_ORDER else ""
    return f"races 0\n{prints}every schedule prints these numbers{order}\n"


def numbered(program: Program, number: int, first: Taken, second: Taken) -> str:
    """A race of a module's run, on a line."""
    one, other = (f"{step_words(program, taken)} {events.words(taken)}" for taken in (first, second))
    return f"race shared {number}: {one}, {other}\n"


def named(naming: Naming, number: int, first: Taken, second: Taken) -> str:
    """A race of a source text's run: by names and with values, and with the line of each access."""

    def access(taken: Taken) -> str:
        text = naming.program.data
        at = min(naming.program.offset(frame(taken)), len(text))
        return f"{naming.told(taken)}\n{explain.excerpt(text, at, 1)}"

    return f"race on {naming.shared[number]}\n{access(first)}{access(second)}"


def races(program: Program, played: Played) -> str:
    past = pasts(played)
    pairs = list(found(played, past))
    naming = Naming(program, played) if pairs and not program.is_module else None
    told = (named(naming, *pair) if naming else numbered(program, *pair) for pair in pairs[:SHOWN])
    return "".join(told) + closing(program, played, past, len(pairs))
