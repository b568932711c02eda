#!/usr/bin/env python3
"""Asks the built program what it says of the exercises in examples/exercises.

Each solution, `NAME.x10`, is accepted, has no race, and prints what is in its list, `NAME.list`, and all of that. The
list refuses the solution without its waits, if it has any: without `Clock.advanceAll();`, or without `finish`. It
refuses the wrong try, `wrong/NAME.x10`, which is accepted, too. The page beside them names each exercise.

    python3 -m tests.program.exercises [--program PATH]
"""

from __future__ import annotations

import argparse
import pathlib
import re
import sys
from collections.abc import Iterator

from tests import harness
from tests.harness import TOP

FOLDER = TOP / "examples/exercises"
WRONG = FOLDER / "wrong"
PAGE = FOLDER / "README.md"
WAITS = ("Clock.advanceAll();", "finish ")
# The status of an answer that is a no.
NO = 7


def without_waits(text: str) -> list[str]:
    """A solution in which nobody waits at a clock, and one in which nobody does in a finish, where it has these."""
    return [text.replace(word, "") for word in WAITS if word in text]


def is_refused(program: pathlib.Path, wanted: pathlib.Path, text: str) -> bool:
    """Whether a list refuses a program, and not the verifier."""
    status, out, _ = harness.call([program, "outcomes", "--expect", wanted, "-"], text.encode()).texts()
    return status == NO and out.startswith("outcome ")


def faults(program: pathlib.Path, solution: pathlib.Path) -> Iterator[str]:
    """What is wrong with an exercise."""
    wanted, text = solution.with_suffix(".list"), solution.read_text()
    count = len(re.findall(r"^outcome ", wanted.read_text(), re.MULTILINE))
    status, out, err = harness.call([program, "check", solution]).texts()
    if status or not out.startswith("accepted "):
        yield f"isn't accepted: {out}{err}"
    status, out, err = harness.call([program, "races", solution]).texts()
    if status or not out.startswith("races 0\n"):
        yield f"has a race: {out}{err}"
    status, out, err = harness.call([program, "outcomes", "--expect", wanted, solution]).texts()
    if status or out != f"outcomes {count} complete\n":
        yield f"has not the {count} outcomes of its list: {out}{err}"
    tries = without_waits(text)
    if tries and not any(is_refused(program, wanted, each) for each in tries):
        yield "has a list that takes it without its waits, too"
    if not is_refused(program, wanted, (WRONG / solution.name).read_text()):
        yield "has a wrong try that its list doesn't refuse"


def main() -> int:
    parser = argparse.ArgumentParser(description="Asks what is said of the exercises.")
    harness.add_program(parser)
    program = parser.parse_args().program
    solutions, page = sorted(FOLDER.glob("*.x10")), PAGE.read_text()
    named = set(re.findall(r"^\| `([\w-]+)` \|", page, re.MULTILINE))
    parts = [named, {path.stem for path in solutions}]
    parts += [{path.stem for path in files} for files in (FOLDER.glob("*.list"), WRONG.glob("*.x10"))]
    whole = set.intersection(*parts)
    some = sorted(set.union(*parts) - whole)
    wrong = [f"{name}: not a row, a solution, a list and a wrong try" for name in some]
    asked = [path for path in solutions if path.stem in whole]
    wrong += [f"{path.stem}: {fault}" for path in asked for fault in faults(program, path)]
    print(*wrong, sep="\n", end="\n" if wrong else "", file=sys.stderr)
    print(f"exercises: {len(asked)} solutions, {len(wrong)} faults")
    return 1 if wrong or not asked else 0


if __name__ == "__main__":
    sys.exit(main())
