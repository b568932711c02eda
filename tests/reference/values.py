"""The reference for what is told as JSON, from docs/FORMATS.md, "As JSON": what a run printed, what a program can
print, what that says of a list, what others see of the steps of a run, and its races."""

from __future__ import annotations

import json

from tests.reference import events, races
from tests.reference.events import Program
from tests.reference.explain import position
from tests.reference.explain_json import Members, line_of
from tests.reference.logs import Played, Taken
from tests.reference.modules import Ran
from tests.reference.naming import Naming
from tests.reference.outcomes import text_of

# What outcomes say of a list, by the status.
VERDICTS = {0: "complete", 6: "undecided", 7: "refuted"}


def run(ran: Ran) -> str:
    rounds = {} if ran.rounds is None else {"rounds": ran.rounds}
    return line_of({"ended": True, "printed": ran.printed, "steps": ran.steps} | rounds)


def outcomes(text: str) -> str:
    """Of what `outcomes` prints as lines."""
    *lines, last = text.splitlines()
    found = [[int(number) for number in line.split()[3:]] for line in lines]
    return line_of({"complete": last.endswith(" complete"), "outcomes": found})


def held(text: str, status: int) -> str:
    """Of the line that `outcomes --expect` prints, with this status."""
    return line_of({"text": text.removesuffix("\n"), "verdict": VERDICTS[status]})


def lines(out: str) -> str:
    """The lines that are told without `--json` where this is told with it: of a run, of outcomes, and of a list."""
    value = json.loads(out)
    if line_of(value) != out:
        return f"no line of JSON as it should be: {out}"
    if "verdict" in value:
        return f"{value['text']}\n"
    if "outcomes" in value:
        return text_of([tuple(numbers) for numbers in value["outcomes"]], value["complete"])
    return Ran(value["printed"], value["steps"], value["ended"], value.get("rounds")).text()


class Teller:
    """Tells of the steps of a run."""

    def __init__(self, program: Program, played: Played) -> None:
        self.program, self.played = program, played
        # A module has no names: what is asked of these is which clock or shared number a step was about.
        self.naming = Naming.of_module(played) if program.is_module else Naming(program, played)

    def place(self, taken: Taken) -> Members:
        frame = events.frame_before(taken)
        found: Members = {"unit": frame.unit, "place": frame.place}
        if self.program.is_module:
            return found
        line, column = position(self.program.data, self.program.offset(frame))
        return found | {"line": line, "column": column}

    def name(self, name: str) -> Members:
        return {} if self.program.is_module else {"name": name}

    def subject(self, taken: Taken) -> Members:
        """Which clock or shared number it was about, and what that number was before and behind it."""
        cell, clock = self.naming.cell(taken), self.naming.clock(taken)
        if cell is not None:
            values = {"before": taken.before.shared[cell], "after": taken.step.world.shared[cell]}
            return {"shared": cell} | values | self.name("" if self.program.is_module else self.naming.shared[cell])
        if clock is not None:
            return {"clock": clock} | self.name("" if self.program.is_module else self.naming.clocks[clock])
        return {}

    def value(self, taken: Taken) -> Members:
        word = "print" if taken.step.printed is not None else events.WORDS[taken.step.event]
        told: Members = {"step": taken.number, "act": taken.who, "event": word}
        if taken.step.printed is not None:
            told["printed"] = taken.step.printed
        if taken.step.event == "Spawned":
            told["started"] = len(taken.before.activities)
        return told | self.place(taken) | self.subject(taken)


def steps(program: Program, played: Played) -> tuple[str, bool]:
    """A value for each step that others see, and whether all have ended; where not, a last value says so."""
    teller = Teller(program, played)
    text = "".join(line_of(teller.value(taken)) for taken in events.seen(played))
    ending = played.ending()
    if not ending:
        return text, True
    return text + line_of({"ended": False, "steps": len(played.taken), "text": ending}), False


def racing(program: Program, played: Played) -> tuple[str, bool]:
    """The races of a run, each by the values of its two steps, and whether it has none; whether these are all, and each
    print comes before the next one; then the lines behind them."""
    past, teller = races.pasts(played), Teller(program, played)
    pairs = list(races.found(played, past))
    told = [
        {"first": teller.value(first), "second": teller.value(second), "shared": number}
        | teller.name("" if program.is_module else teller.naming.shared[number])
        for number, first, second in pairs[: races.SHOWN]
    ]
    text = races.closing(program, played, past, len(pairs))
    facts = {"prints_in_order": races.gap(played, past) is None, "whole": len(pairs) == len(told)}
    return line_of({"every_schedule": not pairs, "races": told, "text": text} | facts), not pairs
