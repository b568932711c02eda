#!/usr/bin/env python3
"""The reference for commands on a log: `replay`, `chart`, `races`, `span`, `why`, `lanes --path`, `lanes --rounds` and
`page --path` of a whole run, `events`, `lanes` and `page` of one that may go on, too, and `where` of any log.

    python3 -m tests.reference.runs events [--module] FILE LOG [--arg=N]..
    python3 -m tests.reference.runs lanes [--module] [--svg] [--path] [--rounds] FILE LOG [--arg=N]..
    python3 -m tests.reference.runs why [--module] --step=STEP FILE LOG [--arg=N]..
"""

from __future__ import annotations

import pathlib
import sys
from functools import partial

from tests.reference import lanes, logs, modules, naming, page, path, picture, races, rounds, source, span, span_values
from tests.reference import values, where, where_values, why
from tests.reference.events import Program
from tests.reference.lanes import WHOLE
from tests.reference.logs import Answer, Played, Teller
from tests.reference.modules import Accepted, Arguments, Refused

# The commands on the log of a run, those of them that take one that goes on, and the one on any log.
OF_RUNS, WHERE = ("replay", "chart", "events", "lanes", "page", "races", "span", "why"), "where"
SO_FAR = ("events", "lanes", "page")
COMMANDS = (*OF_RUNS, WHERE)
# Of these the specification has all that is told.
FIXED = ("replay", "chart")
LOG_FIRST = "x10clock: FILE is a log; the program comes first, then the log"


def races_of(program: Program, played: Played) -> tuple[str, bool]:
    """The races of a run, and whether it has none."""
    text = races.races(program, played)
    return text, not text.startswith("race ")


def span_of(program: Program, played: Played) -> tuple[str, bool]:
    """How long a run had to take, and whether it has no race."""
    text = span.span(program, played)
    return text, text.endswith("every schedule has this work and span, and this widest round\n")


def with_ending(told: str | tuple[str, bool], played: Played) -> tuple[str, bool]:
    """A text, and whether it is whole: of a run that goes on it isn't, and a line says so."""
    text, is_whole = told if isinstance(told, tuple) else (told, True)
    ending = played.ending()
    return (f"{text}{ending}\n", False) if ending else (text, is_whole)


def teller(
    command: str,
    program: Program,
    window: range = WHOLE,
    is_picture: bool = False,
    step: int = 1,
    is_json: bool = False,
    has_path: bool = False,
    by_rounds: bool = False,
) -> Teller:
    """What a command prints of a run of this program, whose bytes are looked at where there is one."""
    if by_rounds:
        return partial(rounds.drawing, program)
    if has_path:
        draw = path.picture_drawing if is_picture else path.drawing
        if command == "page":
            draw = partial(page.drawing, has_path=True)
        return lambda played: draw(program, played, window)
    if command in ("lanes", "page"):
        if command == "lanes" and not is_picture:
            return lambda played: with_ending(lanes.drawing(program, played, window), played)
        draw = page.drawing if command == "page" else picture.drawing
        return lambda played: draw(program, played, window)
    if command == "events" and is_json:
        return lambda played: values.steps(program, played)
    if command == "events":
        return lambda played: with_ending(naming.text(program, played), played)
    if command == "races" and is_json:
        return lambda played: values.racing(program, played)
    if command == "span" and is_json:
        return partial(span_values.timing, program)
    of_program = {"races": races_of, "span": span_of, "why": partial(why.why, step=step)}
    if command in of_program:
        return partial(of_program[command], program)
    return {"replay": Played.output, "chart": Played.chart}[command]


def note(command: str, program: Program) -> str:
    """What is told before the line of a program that is refused and has a log beside it: where it is a text that begins
    as a log does, that it is one."""
    is_log = not program.is_module and program.data.startswith(logs.FIRST_LINE + b"\n")
    return f"{LOG_FIRST}\n" if is_log and command not in FIXED else ""


def answer(
    command: str,
    judged: Accepted | Refused,
    program: Program,
    log: bytes,
    arguments: Arguments = (),
    window: range = WHOLE,
    is_picture: bool = False,
    at: int | None = None,
    step: int = 1,
    is_json: bool = False,
    has_path: bool = False,
    by_rounds: bool = False,
) -> Answer:
    """What a command answers of a log and this program."""
    if isinstance(judged, Refused):
        return 1, "", f"{note(command, program)}x10clock: {judged.line}\n"
    if command == WHERE:
        tell_standing = where_values.standings if is_json else where.lines
        return where.answer(program, judged, log, arguments, at, tell_standing)
    played_by = logs.carry_out if command in SO_FAR and not has_path and not by_rounds else logs.replay
    tell = teller(command, program, window, is_picture, step, is_json, has_path, by_rounds)
    return logs.answer(judged, log, tell, arguments, played_by)


def main(words: list[str]) -> int:
    """Answers as the program does."""
    more, arguments = modules.parted(words)
    command, *flags, file, log = more
    program = Program(pathlib.Path(file).read_bytes(), "--module" in flags, file)
    judged = modules.judge(program.data) if program.is_module else source.judge(program.data)
    steps = [int(flag.removeprefix("--step=")) for flag in flags if flag.startswith("--step=")]
    status, out, err = answer(
        command,
        judged,
        program,
        pathlib.Path(log).read_bytes(),
        arguments,
        is_picture="--svg" in flags,
        step=steps[-1] if steps else 1,
        is_json="--json" in flags,
        has_path="--path" in flags,
        by_rounds="--rounds" in flags,
    )
    sys.stdout.write(out)
    sys.stderr.write(err)
    return status


if __name__ == "__main__":
    sys.exit(main(sys.argv[1:]))
