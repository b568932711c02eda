#!/usr/bin/env python3
"""The reference for `run --order ask`: a person names who takes the next steps.

    python3 -m tests.reference.ask [--module] FILE [LOG] [--arg=N].. < ANSWERS
"""

from __future__ import annotations

import pathlib
import re
import sys
from dataclasses import dataclass

from tests.reference import explain, logs, modules, source, where
from tests.reference.events import Program
from tests.reference.logs import Entry, Played
from tests.reference.modules import Accepted, Arguments, Refused

NUMBER = re.compile(rb"[ \t\r]*([0-9]+)[ \t\r]*")
PROMPT, AGAIN, OVER = "who steps?\n", "none of these: who steps?\n", "the input has ended\n"
# So many numbers that were printed are told, the last ones.
PRINTED = 20
# The status where the input ends before the run does.
EARLY = 6


@dataclass(frozen=True)
class Game:
    """What comes of answers: the status, standard output, standard error, and the log."""

    status: int
    out: str
    err: str
    log: bytes = b""


def named(line: bytes) -> int | None:
    """The number of 32 bits that a line is."""
    found = NUMBER.fullmatch(line)
    return int(found[1]) if found and int(found[1]) < 2**32 else None


def able(played: Played) -> list[int]:
    """Who can step, rising."""
    return [
        who for who in range(len(played.world.activities)) if modules.step(played.module, played.world, who) is not None
    ]


def printed(numbers: list[int]) -> str:
    """The line of the numbers that were printed, if some were."""
    if not numbers:
        return ""
    return "printed" + " .." * (len(numbers) > PRINTED) + "".join(f" {number}" for number in numbers[-PRINTED:]) + "\n"


def able_line(program: Program, played: Played, who: int) -> str:
    """An activity, and where it is; of a source text also the line there."""
    frame = played.world.activities[who].frames[-1]
    if program.is_module:
        return f"act {who} unit {frame.unit} place {frame.place}\n"
    line = explain.line_text(program.data, program.offset(frame))
    return f"act {who} at {program.position(frame)}: {line}\n"


def question(program: Program, played: Played) -> str:
    """How things are, what was printed, a line for each that can step, and the prompt; nothing where all have
    ended."""
    if played.world.has_ended:
        return ""
    lines = "".join(able_line(program, played, who) for who in able(played))
    return where.Place(program, played, None).text() + printed(played.printed) + lines + PROMPT


def take_turn(played: Played, who: int) -> None:
    """The steps of an activity up to one that others see, as far as it can take them."""
    while played.step(who) and not played.taken[-1].step.event:
        pass


def game(program: Program, judged: Accepted | Refused, data: bytes, arguments: Arguments = ()) -> Game:
    """The run of a program by the answers in these bytes."""
    line = modules.refusal("run", judged, arguments)
    if line:
        return Game(1, "", f"x10clock: {line}\n")
    played = Played.opening(judged.module, arguments)
    told = question(program, played)
    for answer in data.split(b"\n")[:-1]:
        if played.world.has_ended:
            break
        who = named(answer)
        if who not in able(played):
            told += AGAIN
            continue
        take_turn(played, who)
        told += question(program, played)
    log = logs.text_of([Entry(taken.who, 1) for taken in played.taken])
    if played.world.has_ended:
        return Game(0, played.output(), told, log)
    return Game(
        EARLY, "".join(f"{number}\n" for number in played.printed) + f"stopped steps {played.steps}\n", told + OVER, log
    )


def main(words: list[str]) -> int:
    more, arguments = modules.parted(words)
    is_module = "--module" in more
    file, *paths = [word for word in more if word != "--module"]
    data = pathlib.Path(file).read_bytes()
    judged = modules.judge(data) if is_module else source.judge(data)
    told = game(Program(data, is_module), judged, sys.stdin.buffer.read(), arguments)
    for path in paths:
        pathlib.Path(path).write_bytes(told.log)
    sys.stdout.write(told.out)
    sys.stderr.write(told.err)
    return told.status


if __name__ == "__main__":
    sys.exit(main(sys.argv[1:]))
