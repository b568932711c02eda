"""The reference for `span --json`, from docs/FORMATS.md, "As JSON": how long a logged run had to take, as one value."""

from __future__ import annotations

from collections import Counter
from itertools import groupby

from tests.reference import events, races, span
from tests.reference.events import Program
from tests.reference.explain_json import Members, line_of
from tests.reference.logs import Played, Taken
from tests.reference.span import Chain
from tests.reference.values import Teller

WHY = {"Passed": "clock", "Closed": "finish"}


def step(teller: Teller, taken: Taken) -> Members:
    """Which step it was, whose, what it did, and where."""
    printed = taken.step.printed is not None
    word = "print" if printed else events.WORDS[taken.step.event] if taken.step.event else "local"
    return {"step": taken.number, "act": taken.who, "event": word} | teller.place(taken)


def stretches(teller: Teller, steps: list[Taken]) -> list[Members]:
    """The path by stretches of an activity."""
    told, start, behind = list[Members](), 1, None
    for who, group in groupby(steps, key=lambda taken: taken.who):
        own = list(group)
        why: Members = {} if behind is None else {"behind": behind, "why": WHY.get(own[0].step.event or "", "start")}
        ends: Members = {"first": step(teller, own[0]), "last": step(teller, own[-1])}
        told.append(ends | {"start": start, "stop": start + len(own) - 1} | why)
        start, behind = start + len(own), who
    return told


def lines(teller: Teller, steps: list[Taken]) -> list[Members]:
    """How many steps of the path come from each line."""
    counts = Counter(place["line"] for place in map(teller.place, steps) if "line" in place)
    return [{"line": line, "steps": counts[line]} for line in sorted(counts)]


def phases(teller: Teller, played: Played, of: dict[int, Chain]) -> list[Members]:
    return [phase_value(teller, of, clock, phase, came) for clock, phase, came in span.advanced(played)]


def phase_value(teller: Teller, of: dict[int, Chain], clock: int, phase: int, came: list[Taken]) -> Members:
    """Who came last at a phase, and by how much the others came earlier."""
    rounds = [of[taken.number].length for taken in came]
    last = max(rounds)
    lags = [(taken, last - here) for taken, here in zip(came, rounds, strict=True)]
    return {
        "clock": clock,
        "phase": phase,
        "round": last,
        "last": [step(teller, taken) for taken, lag in lags if not lag],
        "earlier": [{"act": taken.who, "rounds": lag} for taken, lag in lags if lag],
    }


def waits(teller: Teller, played: Played, of: dict[int, Chain]) -> list[Members]:
    """Where activities waited, in the order in which they first did so there."""
    last, idle, first = dict[int, int](), dict[tuple[int, int], list[int]](), dict[tuple[int, int], Taken]()
    for taken in played.taken:
        here = of[taken.number].length
        waited = here - last.get(taken.who, 0) - 1
        last[taken.who] = here
        if taken.step.event in WHY and waited:
            frame = events.frame_before(taken)
            idle.setdefault((frame.unit, frame.place), []).append(waited)
            first.setdefault((frame.unit, frame.place), taken)
    told = list[Members]()
    for at, rounds in idle.items():
        word = events.WORDS[first[at].step.event]
        told.append({"event": word, "rounds": sum(rounds), "times": len(rounds)} | teller.place(first[at]))
    return told


def on_processors(work: int, rounds: int, widths: Counter[int], many: int) -> Members:
    least = max(-(-work // many), rounds)
    return {"processors": many, "least": least, "most": sum(-(-width // many) for width in widths.values())}


def timing(program: Program, played: Played) -> tuple[str, bool]:
    """How long a run had to take, and whether it has no race."""
    of, teller = span.chains(played), Teller(program, played)
    steps = span.path(played, of)
    widths = Counter(chain.length for chain in of.values())
    work, rounds, free = len(played.taken), len(steps), not races.races(program, played).startswith("race ")
    told: Members = {
        "work": work,
        "span": rounds,
        "widest": max(widths.values(), default=0),
        "processors": [on_processors(work, rounds, widths, many) for many in span.PROCESSORS if free],
        "path": stretches(teller, steps),
        "lines": lines(teller, steps),
        "phases": phases(teller, played, of),
        "waits": waits(teller, played, of),
        "every_schedule": free,
    }
    return line_of(told), free
