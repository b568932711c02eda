#!/usr/bin/env python3
"""Asks `explain CODE` of each rule: the page has to be that of docs/REFUSALS.md, as tests/prover/rule_pages.py breaks
its lines, and what it says of its programs has to be so. On a page a question stands before the program that it is
about, which is four columns in: the program is asked it, with that one as standard input. A text that is no code is a
file.

    python3 -m tests.program.rules [--program PATH]
"""

from __future__ import annotations

import argparse
import pathlib
import re
import sys
from collections.abc import Iterator

from tests import harness
from tests.program.pages import answer
from tests.prover import rule_pages

QUESTION = re.compile(r"((?:check|compile|run)(?: --\w+(?:=-?\d+| (?!--)\w+)?)*): (.*)")
# What is no code, though one could take it for one.
NO_CODES = ("V", "V0", "V18", "v9", "F16", "M4", "L7", "A2", "V09", "V9 ", "F", "rule")


def blocks(page: str) -> Iterator[tuple[list[tuple[str, str]], str]]:
    """The questions of a page, with the program that they are about."""
    questions: list[tuple[str, str]] = []
    program: list[str] = []
    for line in [*page.splitlines(), "end"]:
        if questions and (line.startswith("    ") or not line):
            program.append(line.removeprefix("    "))
        else:
            if questions and program:
                yield questions, "\n".join(program).strip("\n") + "\n"
            if program or not QUESTION.fullmatch(line):
                questions, program = [], []
            if found := QUESTION.fullmatch(line):
                questions.append((found[1], found[2]))


def differences(program: pathlib.Path, rule: rule_pages.Rule) -> Iterator[str]:
    """What is otherwise of a rule's page."""
    status, out, err = harness.call([program, "explain", rule.code]).texts()
    wanted = "".join(f"{line}\n" for line in rule.lines)
    if (status, out, err) != (0, wanted, ""):
        yield f"explain {rule.code}: status {status}, {out[:200]!r}.., {err!r}"
    for questions, text in blocks(wanted):
        for words, said in questions:
            got = answer(program, words.split(), text).replace(",", ", ")
            if got != said:
                yield f"the page on {rule.code}: {words} says {got!r}, and not {said!r}"


def main() -> int:
    parser = argparse.ArgumentParser(description="Compares `explain CODE` with docs/REFUSALS.md.")
    harness.add_program(parser)
    program = parser.parse_args().program
    rules = rule_pages.rules(harness.TOP)
    otherwise = [line for rule in rules for line in differences(program, rule)]
    for word in NO_CODES:
        status, out, _ = harness.call([program, "explain", word]).texts()
        if status != 5 or out:
            otherwise.append(f"explain {word!r} isn't told as a file that is missing: status {status}, {out[:200]!r}")
    print("\n".join(otherwise + [f"rules: {len(rules)} pages, {len(otherwise)} answers otherwise"]))
    return 1 if otherwise else 0


if __name__ == "__main__":
    sys.exit(main())
