"""The results of the scripts here: lines of plain text. `bench/all.sh` keeps what each script prints in bench/results/,
and bench/tables.py makes the tables of docs/PERFORMANCE.md from that.

A line has what was measured, and then its figures: `NAME | FIGURE NUMBER | FIGURE NUMBER`. Whatever else stands on it
is for the reader. `note TABLE: TEXT` is told under a table, and a line that begins with `#` is for the reader alone.
"""

from __future__ import annotations

import re
from pathlib import Path

FIGURE = re.compile(r"(?P<what>\w+) (?P<number>-?[\d,]+(?:\.\d+)?)")
# The figures of a line, by their names.
Figures = dict[str, float]


def show(name: str, /, *told: str, **figures: float) -> None:
    """Prints a line: what was measured, its figures, and what else the reader is told."""
    forms = ((what, number, "," if isinstance(number, int) else ".3f") for what, number in figures.items())
    each = [f"{what} {number:{form}}" for what, number, form in forms]
    print(" | ".join(filter(None, [name, *each, *told])), flush=True)


def lines(path: Path) -> list[str]:
    """The lines of a file of results that aren't for the reader alone."""
    return [line for line in path.read_text(encoding="utf-8").splitlines() if line and not line.startswith("#")]


def figures(path: Path) -> dict[str, Figures]:
    """What a file of results has, in its order."""
    found: dict[str, Figures] = {}
    for line in lines(path):
        name, *parts = line.split(" | ")
        each = (match for part in parts if (match := FIGURE.fullmatch(part)))
        if parts:
            found[name] = {match["what"]: float(match["number"].replace(",", "")) for match in each}
    return found


def notes(path: Path, table: str) -> list[str]:
    """What is told under a table."""
    begin = f"note {table}: "
    return [line.removeprefix(begin) for line in lines(path) if line.startswith(begin)]
