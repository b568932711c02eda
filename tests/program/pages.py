#!/usr/bin/env python3
"""Plays the pages: asks the built program what the fenced blocks of the documents say of it, and compares, line for
line.

A block that begins with a question has below it the program that the question is about, which is handed in as standard
input:

    check: accepted steps 12 activities 2 clocks 1
    run --order last: 2,1,ended steps 12
    def main() { .. }

A question is a command with its words, a colon, and the answer: on standard error with status 1 where it begins with
`x10clock: `, else on standard output with status 0; of `run`, a comma stands where a line ends. With `--module` the
program is a module. A block that begins with `$ ` has calls, each with all that it says below it; `x10clock` in a call
is the built program. The calls of a page are made one after another in a folder of the page's own, which has a copy of
`examples` and what calls before have left. All other blocks are for the eye. With `--write` the answers are written
anew. docs/REFUSALS.md has to have an answer with each rule.

    python3 -m tests.program.pages [--write] [--program PATH] [PAGE ..]
"""

from __future__ import annotations

import argparse
import os
import pathlib
import re
import shutil
import sys
import tempfile
from dataclasses import dataclass, field

from tests import harness
from tests.harness import TOP

EXAMPLES = [TOP / "examples/README.md", TOP / "examples/exercises/README.md"]
PAGES = [TOP / "README.md", *EXAMPLES, *sorted((TOP / "docs").glob("*.md"))]
REFUSALS = TOP / "docs/REFUSALS.md"
# (L3, a read that failed, is told as `x10clock: device`.)
NUMBERS = {"F": range(1, 16), "M": range(1, 4), "V": range(1, 18), "A": (1,), "L": (1, 2, 4, 5, 6)}
RULES = {f"{letter}{number}" for letter, numbers in NUMBERS.items() for number in numbers}

BLOCK = re.compile(r"^```\w*\n(.*?)^```$", re.MULTILINE | re.DOTALL)
QUESTION = re.compile(r"((?:check|compile|run)(?: --\w+(?:=-?\d+| (?!--)\w+)?)*): (.*)\n")


@dataclass
class Played:
    """A page that is played: the program that is asked, and what came of it."""

    program: pathlib.Path
    asked: int = 0
    labels: set[str] = field(default_factory=set)
    differing: list[str] = field(default_factory=list)

    def said(self, where: str, wanted: str, got: str) -> None:
        self.asked += 1
        self.labels.update(re.findall(r"x10clock: ([FMVAL]\d+) ", wanted))
        if wanted != got:
            self.differing.append(f"{where}\n    page:    {wanted!r}\n    program: {got!r}")


def answer(program: pathlib.Path, words: list[str], text: str) -> str:
    """What the program says of a text, in the form of a question's answer."""
    status, out, err = harness.call([program, *words, "-"], text.encode()).texts()
    if status == 0 and not err:
        lines = out.removesuffix("\n")
        return lines.replace("\n", ",") if words[0] == "run" else lines
    if status == 1 and not out and err.startswith("x10clock: "):
        return err.removesuffix("\n")
    return f"status {status}: {out}{err}"


def asked(where: str, block: str, played: Played) -> str:
    """A block of questions and a program, with the answers that were given."""
    questions = []
    while found := QUESTION.match(block):
        questions.append((found[1], found[2]))
        block = block[found.end() :]
    given = []
    for words, wanted in questions:
        got = answer(played.program, words.split(), block)
        played.said(f"{where}: {words}", wanted, got)
        given.append((words, got))
    return "".join(f"{words}: {got}\n" for words, got in given) + block


def called(where: str, block: str, folder: str, played: Played) -> str:
    """A block of calls in this folder, with what they said."""
    parts = []
    for call in re.split(r"^(?=\$ )", block, flags=re.MULTILINE)[1:]:
        line, wanted = call.split("\n", 1)
        script = f'x10clock() {{ "$PROGRAM" "$@"; }}\n{line[2:]}\n'
        environ, seconds = {**os.environ, "PROGRAM": str(played.program)}, harness.patience(played.program)
        _, out, err = harness.call(["sh", "-c", script], seconds=seconds, cwd=folder, env=environ).texts()
        got = out + err
        played.said(f"{where}: {line[2:]}", wanted, got)
        parts.append(f"{line}\n{got}")
    return "".join(parts)


def play(page: pathlib.Path, folder: str, played: Played) -> str:
    """The page, with the answers that were given; calls are made in this folder."""
    text = page.read_text()

    def block(found: re.Match[str]) -> str:
        name = page.relative_to(TOP) if page.is_relative_to(TOP) else page
        where = f"{name}, line {text.count(chr(10), 0, found.start()) + 1}"
        inside = found[1]
        if QUESTION.match(inside):
            inside = asked(where, inside, played)
        elif inside.startswith("$ "):
            inside = called(where, inside, folder, played)
        return found[0].replace(found[1], inside, 1) if found[1] else found[0]

    return BLOCK.sub(block, text)


def main() -> int:
    parser = argparse.ArgumentParser(description="Compares what the pages say of x10clock with what it says.")
    parser.add_argument("pages", nargs="*", type=harness.resolved, metavar="PAGE")
    parser.add_argument("--write", action="store_true")
    harness.add_program(parser)
    given = parser.parse_args()
    differing, count = [], 0
    for page in given.pages or PAGES:
        played = Played(given.program)
        with tempfile.TemporaryDirectory() as folder:
            shutil.copytree(TOP / "examples", f"{folder}/examples")
            text = play(page, folder, played)
        if given.write:
            page.write_text(text)
        missing = RULES - played.labels if page == REFUSALS else set()
        if missing:
            differing.append(f"{page.name}: no answer with {' '.join(sorted(missing))}")
        differing += [] if given.write else played.differing
        count += played.asked
    print(*differing, sep="\n", end="\n" if differing else "", file=sys.stderr)
    if not count:
        print("pages: no questions", file=sys.stderr)
        return 1
    print(f"pages: {count} questions, {len(differing)} answered otherwise")
    return 1 if differing else 0


if __name__ == "__main__":
    sys.exit(main())
