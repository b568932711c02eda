"""x10clock in this process: checks, explains and runs clocked programs, on texts in memory or in files.

    import x10clock

    x10clock.check("def main() { Console.OUT.println(7); }").steps
    x10clock.run(pathlib.Path("mine.x10")).printed

A program is a text (`str`), its bytes, or the path of a file. Nothing else is opened, no thread is started, and nothing
is kept between calls; `call` does what the program x10clock does with the same words, and all else is made of it. A
refused program raises `Refused`, a refused log `BadLog`. `python -m x10clock` grades a class, and shows how far a long
search is.
"""

from x10clock.faults import BadLog, BadWords, Fault, OutOfMemory, Refused
from x10clock.grading import Asked, Verdict, judge
from x10clock.library import Answer, Program, call
from x10clock.programs import Bounds, Broken, Count, Outcome, Outcomes, Races, Run, Span, Standings, check, count
from x10clock.programs import diagnose, events, explain, held_against, outcomes, page, page_of_outcome, races, replay
from x10clock.programs import run, span, standings, where
from x10clock.searching import Searched, widening
from x10clock.stepping import Moment, Stepper

__all__ = (
    "Answer",
    "Asked",
    "BadLog",
    "BadWords",
    "Bounds",
    "Broken",
    "Count",
    "Fault",
    "Moment",
    "OutOfMemory",
    "Outcome",
    "Outcomes",
    "Program",
    "Races",
    "Refused",
    "Run",
    "Searched",
    "Span",
    "Standings",
    "Stepper",
    "Verdict",
    "call",
    "check",
    "count",
    "diagnose",
    "events",
    "explain",
    "held_against",
    "judge",
    "outcomes",
    "page",
    "page_of_outcome",
    "races",
    "replay",
    "run",
    "span",
    "standings",
    "where",
    "widening",
)
