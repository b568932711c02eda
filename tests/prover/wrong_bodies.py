#!/usr/bin/env python3
"""Holds the tables of wrong bodies in docs/GUARANTEES.md and the edits of the crates together.

    tests/prover/wrong_bodies.py [TOP]

A row of a table in the section "What the gate refuses" says in its second cell, as `CRATE: NAME`, which edit makes the
body wrong, crates/CRATE/must-fail/NAME.edit, or which `#[test]` function of the crate sees it; or as `PATH: TEXT` which
line of a file of rows does. A third cell, as `CALL`, `CLAUSE`, says what refuses the edit: a function of that crate,
and a clause of its contract. It is a failure

    if an edit is in no row, or in two;
    if a row names an edit, a test, a line, a call or a clause that isn't there;
    if what an edit takes away doesn't stand just once in its file;
    if an edit changes anything but the body of a function. In a crate without code, where no function has anything in
    its body, it may change a clause or a definition.

It reads texts alone: that the prover refuses each edit is for `rt ci` to see. It prints the failures, or how many edits
and tests there are; the status is 1 where there is a failure.
"""
import collections
import dataclasses
import re
import sys
from pathlib import Path
from typing import Iterator

from bugs import functions

PAGE = "docs/GUARANTEES.md"
SECTION = "## What the gate refuses"


@dataclasses.dataclass
class Row:
    """A row of a table: what it names, and its last cell."""

    line: int
    names: list[tuple[str, str]]
    refused_by: str

    def place(self) -> str:
        return f"{PAGE}:{self.line}"


def rows_of(top: Path) -> Iterator[Row]:
    """The rows of the section's tables, without their heads."""
    is_there = False
    for number, line in enumerate((top / PAGE).read_text(encoding="utf-8").split("\n"), 1):
        if line.startswith("## "):
            is_there = line == SECTION
        cells = [cell.strip() for cell in line.strip("|").split(" | ")] if line.startswith("| ") else []
        if is_there and len(cells) > 1 and cells[1] not in ("Edit", "Test"):
            yield Row(number, re.findall(r"`([\w/.-]+): ([^`]+)`", cells[1]), cells[2] if len(cells) > 2 else "")


def sources(crate: Path) -> Iterator[tuple[Path, list[str]]]:
    for path in sorted((crate / "src").rglob("*.rt")):
        yield path, path.read_text(encoding="utf-8").split("\n")


def head_and_body(lines: list[str], first: int, last: int) -> tuple[str, range]:
    """The head of a function with its contract, and the lines of its body. Lines are counted from 1."""
    indent = re.match(r"\s*", lines[first - 1])[0]
    opening = first
    while (
        opening < last
        and lines[opening - 1] != indent + "{"
        and not (opening == first and lines[opening - 1].endswith("{"))
    ):
        opening += 1
    return "\n".join(lines[first - 1 : opening]), range(opening + 1, last)


def heads_of(crate: Path, name: str) -> list[str]:
    """The contracts of the crate's functions of this name."""
    found = []
    for _, lines in sources(crate):
        for first, last, _, function in functions("\n".join(lines)):
            if function == name:
                found.append(head_and_body(lines, first, last)[0])
    return found


def bodies_of(lines: list[str]) -> Iterator[range]:
    for first, last, _, _ in functions("\n".join(lines)):
        yield head_and_body(lines, first, last)[1]


def has_code(crate: Path) -> bool:
    return any(len(body) > 0 for _, lines in sources(crate) for body in bodies_of(lines))


def is_test(crate: Path, name: str) -> bool:
    """Whether a `#[test]` function of the crate is called so."""
    return any(
        lines[first - 2].strip() == "#[test]"
        for _, lines in sources(crate)
        for first, _, _, function in functions("\n".join(lines))
        if function == name
    )


def changes_of(edit: Path) -> Iterator[tuple[str, str, str]]:
    """The file, the old text and the new one of each change."""
    file = old = ""
    for line in edit.read_text(encoding="utf-8").rstrip("\n").split("\n"):
        word, _, rest = line.partition(": ")
        if word == "file":
            file = rest
        elif word == "old":
            old = rest
        elif word == "new":
            yield file, old, rest


def is_in_body(text: str, at: int) -> bool:
    """Whether this offset stands in the body of a function."""
    line = text.count("\n", 0, at) + 1
    return any(line in body for body in bodies_of(text.split("\n")))


def faults_of_edit(crate: Path, edit: Path) -> Iterator[str]:
    """What is wrong with an edit. A change is made to what the earlier ones have made."""
    texts: dict[str, str] = {}
    changes = list(changes_of(edit))
    if not changes:
        yield "changes nothing"
    for file, old, new in changes:
        if not (crate / file).is_file():
            yield f"{file} isn't there"
            return
        text = texts.get(file) or (crate / file).read_text(encoding="utf-8")
        if not old or text.count(old) != 1:
            yield f"what it takes away stands {text.count(old) if old else 0} times in {file}"
            return
        is_code = file.startswith("src/") and is_in_body(text, text.index(old) + len(old) - len(old.lstrip()))
        if not is_code and has_code(crate):
            yield f"it changes {file} elsewhere than in the body of a function, in a crate that has code"
        texts[file] = text.replace(old, new)


def faults_of_refusal(crate: Path, refused_by: str) -> Iterator[str]:
    """What is wrong with the cell that says what refuses an edit."""
    found = re.match(r"`(?:\w+::)*(\w+)`(?:, `(\w+)`)?", refused_by)
    if not found:
        yield "no call is named that refuses it"
        return
    heads = heads_of(crate, found[1])
    if not heads:
        yield f"{crate.name} has no function {found[1]}"
    elif found[2] and not any(re.search(rf"\bensures {found[2]} ", head) for head in heads):
        yield f"{found[1]} of {crate.name} has no clause {found[2]}"


def faults_of_row(top: Path, row: Row) -> Iterator[str]:
    """What is wrong with a row."""
    if not row.names:
        yield f"{row.place()}: names no edit and no test"
    for owner, name in row.names:
        crate = top / "crates" / owner
        if (crate / "must-fail" / f"{name}.edit").is_file():
            yield from (f"{row.place()}: {fault}" for fault in faults_of_refusal(crate, row.refused_by))
        elif (top / owner).is_file():
            if name not in (top / owner).read_text(encoding="utf-8").split("\n"):
                yield f"{row.place()}: {owner} has no line `{name}`"
        elif not is_test(crate, name):
            yield f"{row.place()}: {owner} has no edit and no test {name}"


def faults(top: Path, rows: list[Row], edits: list[Path]) -> Iterator[str]:
    """All that is wrong."""
    named = collections.Counter(name for row in rows for name in row.names)
    for row in rows:
        yield from faults_of_row(top, row)
    for edit in edits:
        crate = edit.parents[1]
        count = named[(crate.name, edit.stem)]
        if count != 1:
            yield f"{edit.relative_to(top)}: stands in {count} rows"
        yield from (f"{edit.relative_to(top)}: {fault}" for fault in faults_of_edit(crate, edit))


def main() -> int:
    top = Path(sys.argv[1] if len(sys.argv) > 1 else Path(__file__).parents[2]).resolve()
    rows = list(rows_of(top))
    edits = sorted(top.glob("crates/*/must-fail/*"))
    wrong = list(faults(top, rows, edits))
    print("\n".join(wrong) if wrong else f"{len(edits)} edits, and {len(rows) - len(edits)} rows of tests")
    return 1 if wrong or not edits else 0


if __name__ == "__main__":
    sys.exit(main())
