"""How often each answer was given: a table that the tests on what nobody wrote show with `--tally`."""

from __future__ import annotations

import collections
import re

# The name of a fault, or the words of clap before what is told of the words that were given.
FAULT = re.compile(r"x10clock: ([A-Z]\d+ \w+|[-\w ]+)")
MISTAKE = re.compile(r"error: (?:'x10clock' )?([^':]+)")


def label(status: int, err: str) -> str:
    """The answer by its status and by what is told on standard error, without what is told of this text or these words
    alone."""
    found = FAULT.match(err) or MISTAKE.match(err)
    return f"{status} {found[1].strip() if found else err or 'done'}"


def show(answers: collections.Counter[str]) -> None:
    for answer in sorted(answers, key=by_number):
        print(f"{answer}: {answers[answer]}")


def by_number(answer: str) -> list[int | str]:
    """Faults in the order of their numbers."""
    return [int(part) if part.isdigit() else part for part in re.split(r"(\d+)", answer)]
