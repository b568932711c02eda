"""The reference for `span`: how many steps of a logged run had to come one after another, by the rules in words of
docs/SPAN.md. Each step has the list of those that come right before it, and the longest chain of them is sought."""

from __future__ import annotations

from collections import Counter
from collections.abc import Iterator
from itertools import groupby
from typing import NamedTuple

from tests.reference import events, races
from tests.reference.events import Program
from tests.reference.logs import Played, Taken

# So many stretches of the path, lines of the text, places of waits, phases and activities of one are shown at most.
STRETCHES, LINES, PLACES = 200, 5, 6
PHASES, NAMES = 40, 8
PROCESSORS = (2, 4, 8)
CAUSES = {"Passed": "passes a clock that waited for", "Closed": "closes a finish that waited for"}


class Chain(NamedTuple):
    """The longest chain up to a step: how many steps it has, and the one before the last, or 0."""

    length: int
    before: int


def causes(played: Played) -> dict[int, list[int]]:
    """Of each step, those that come right before it: its activity's own first, then in order of the run."""
    doings, found = races.Doings(), dict[int, list[int]]()
    for taken in played.taken:
        found[taken.number] = list(doings.waited_for(taken))
        doings.note(taken)
    return found


def chains(played: Played) -> dict[int, Chain]:
    """Of each step, a longest chain up to it; of several the one that goes on with the first cause."""
    of = dict[int, Chain]()
    for number, before in causes(played).items():
        best = max(before, key=lambda cause: of[cause].length, default=0)
        of[number] = Chain(of[best].length + 1 if best else 1, best)
    return of


def path(played: Played, of: dict[int, Chain]) -> list[Taken]:
    """The steps of a longest chain: of several, that which ends with the first activity."""
    lasts = {taken.who: taken.number for taken in played.taken}
    number = max(sorted(lasts), key=lambda who: of[lasts[who]].length, default=None)
    steps, at = [], lasts.get(number, 0)
    while at:
        steps.append(played.taken[at - 1])
        at = of[at].before
    return steps[::-1]


def spot(program: Program, taken: Taken) -> str:
    frame = events.frame_before(taken)
    return program.position(frame) or f"unit {frame.unit} place {frame.place}"


def hundredths(work: int, span: int) -> int:
    """How many hundredths work is of span, to the nearest one, half of one up."""
    return (200 * work + span) // (2 * span) if span else 0


def stretches(program: Program, steps: list[Taken]) -> list[str]:
    """A line for each activity that the path comes to."""
    lines, start, behind = [], 1, None
    for who, group in groupby(steps, key=lambda taken: taken.who):
        own = list(group)
        why = "" if behind is None else f", {CAUSES.get(own[0].step.event or '', 'started by')} act {behind}"
        lines.append(
            f"path rounds {start} to {start + len(own) - 1} act {who}"
            f" from {spot(program, own[0])} to {spot(program, own[-1])}{why}\n"
        )
        start, behind = start + len(own), who
    more = len(lines) - STRETCHES
    return lines[:STRETCHES] + ([f"path and {more} stretches more\n"] if more > 0 else [])


def line_counts(program: Program, steps: list[Taken]) -> Counter[int]:
    """How many of these steps come from each line of the text."""
    positions = [program.position(events.frame_before(taken)) for taken in steps]
    return Counter(int(position.split(":")[0]) for position in positions if position)


def source_lines(program: Program, steps: list[Taken]) -> list[str]:
    """The lines of the text that have the most steps of the path."""
    counts = line_counts(program, steps)
    most = sorted(counts.items(), key=lambda item: (-item[1], item[0]))[:LINES]
    return [f"path lines {', '.join(f'{line} with {many}' for line, many in most)}\n"] if most else []


def waits(program: Program, played: Played, of: dict[int, Chain]) -> list[str]:
    """A line for each place where activities waited, the longest waits first."""
    last, waited, first = dict[int, int](), dict[tuple[int, int], list[int]](), dict[tuple[int, int], Taken]()
    for taken in played.taken:
        here = of[taken.number].length
        idle = here - last.get(taken.who, 0) - 1
        last[taken.who] = here
        if taken.step.event in CAUSES and idle > 0:
            frame = events.frame_before(taken)
            waited.setdefault((frame.unit, frame.place), []).append(idle)
            first.setdefault((frame.unit, frame.place), taken)
    longest = sorted(waited, key=lambda place: -sum(waited[place]))[:PLACES]
    return [
        f"waited {sum(waited[at])} rounds {place_words(program, first[at])}, {len(waited[at])} times\n"
        for at in longest
    ]


def advanced(played: Played) -> Iterator[tuple[int, int, list[Taken]]]:
    """Each advance of the run: the clock, the phase that it advances to, and the steps for which it waited."""
    doings = races.Doings()
    for taken in played.taken:
        before = dict(doings.phases)
        doings.note(taken)
        for advance in taken.advances:
            phase = before.get(advance.clock, 0)
            came = [played.taken[number - 1] for number in doings.signals[advance.clock, phase]]
            yield advance.clock, phase + 1, came


def phases(program: Program, played: Played, of: dict[int, Chain]) -> list[str]:
    """A line for each phase of a clock: who came last, and by how much the others came earlier."""
    lines = [phase_line(program, of, clock, phase, came) for clock, phase, came in advanced(played)]
    more = len(lines) - PHASES
    return lines[:PHASES] + ([f"and {more} phases more\n"] if more > 0 else [])


def phase_line(program: Program, of: dict[int, Chain], clock: int, phase: int, came: list[Taken]) -> str:
    last = max(of[taken.number].length for taken in came)
    lasts = [f", last act {taken.who} at {spot(program, taken)}" for taken in came if of[taken.number].length == last]
    lags = [(taken.who, last - of[taken.number].length) for taken in came]
    earlier = [f"; act {who} earlier by {lag}" for who, lag in lags if lag]
    return f"clock {clock} phase {phase} round {last}{few(lasts)}{few(earlier)}\n"


def few(words: list[str]) -> str:
    """The first of these, and how many more there are."""
    more = len(words) - NAMES
    return "".join(words[:NAMES]) + (f" and {more} more" if more > 0 else "")


def place_words(program: Program, taken: Taken) -> str:
    frame = events.frame_before(taken)
    position = program.position(frame)
    place = f"at {position}" if position else f"unit {frame.unit} place {frame.place}"
    return f"{place} {events.words(taken)}"


def processors(work: int, rounds: int, widths: Counter[int]) -> list[str]:
    """On so many processors: no fewer rounds than the first number, and the second where each round of an ideal machine
    is dealt out before the next."""
    return [
        f"on {many} processors rounds {max(-(-work // many), rounds)}"
        f" to {sum(-(-width // many) for width in widths.values())}\n"
        for many in PROCESSORS
    ]


def span(program: Program, played: Played) -> str:
    of = chains(played)
    steps = path(played, of)
    work, rounds = len(played.taken), len(steps)
    widths = Counter(chain.length for chain in of.values())
    ratio = hundredths(work, rounds)
    parallelism = f"{ratio // 100}.{ratio // 10 % 10}{ratio % 10}"
    head = f"work {work} span {rounds} parallelism {parallelism} widest {max(widths.values(), default=0)}\n"
    free = not races.races(program, played).startswith("race ")
    return "".join(
        [
            head,
            *(processors(work, rounds, widths) if free else []),
            *stretches(program, steps),
            *source_lines(program, steps),
            *phases(program, played, of),
            *waits(program, played, of),
            "every schedule has this work and span, and this widest round\n" if free else "of this run alone\n",
        ]
    )
