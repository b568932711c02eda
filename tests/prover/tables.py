#!/usr/bin/env python3
"""Writes the parts of pages that are made from other files: the crates of docs/ARCHITECTURE.md and crates/README.md,
and the times of docs/PROVING.md.

    tests/prover/tables.py [TOP]            writes them
    tests/prover/tables.py --check [TOP]    says whether they are as it would write them

A part stands between two marks on its page, `<!-- NAME: .. -->` and `<!-- NAME: end -->`.

Crates and families, in this order, are those of crates.txt. What a crate has is the first sentence of its
`src/lib.rt` or `src/main.rt`. What a person wrote stays: in docs/ARCHITECTURE.md the brackets at the end of a crate's
line, whose names in backquotes have to be files of its `specs/`, with a capital, or of its `src/`; in crates/README.md
what stands behind the crates of a family. Times are what `tests/prover/gate_times.py` printed of a run, which is kept
in tests/prover/times.txt.
"""

from __future__ import annotations

import argparse
import itertools
import re
import sys
import textwrap
from collections.abc import Callable, Iterator, Sequence
from dataclasses import dataclass
from pathlib import Path

COLUMNS = 120
# So many crates stand side by side in the table of times.
ABREAST = 3
HEADING = re.compile(r"# (?P<name>\w+): (?P<what>.+)")
CRATE = re.compile(r"(?P<name>\w+)(?: staticlib)?:")
# A crate of docs/ARCHITECTURE.md and a family of crates/README.md, each on one line, with what a person wrote of it.
IN_BRACKETS = re.compile(r"- `(?P<name>\w+)`. .*\((?P<hand>[^()]*`[^()]*)\)")
BEHIND_CRATES = re.compile(r"- \*\*(?P<name>\w+)\*\*: (?:`\w+`[ .]*)*(?P<hand>.*)")
TIMES = re.compile(r"(?P<crate>\w+) +(?P<proof>\d+) +(?P<tests>\d+) +(?P<edits>\d+)")


class Fault(Exception):
    """Why a part can't be written."""


@dataclass(frozen=True)
class Family:
    """A family of crates: its name, what it is, and its crates."""

    name: str
    what: str
    crates: tuple[str, ...]


@dataclass(frozen=True)
class Times:
    """What a crate takes in a run of `rt ci`, in seconds of one processor: its proof, its tests, its edits."""

    crate: str
    proof: int
    tests: int
    edits: int

    def total(self) -> int:
        return self.proof + self.tests + self.edits

    def cells(self) -> list[str]:
        """Its cells in the table: tests count as proofs."""
        return [f"`{self.crate}`", str(self.proof + self.tests), str(self.edits or "")]


@dataclass(frozen=True)
class Part:
    """A part of a page: its name, how its text is made from the repository and its text so far, and by which script."""

    page: str
    name: str
    made: Callable[[Path, str], str]
    script: str = "tests/prover/tables.py"


def families(top: Path) -> list[Family]:
    """The families of crates.txt: a heading, and a line for each crate. A heading without crates is a comment."""
    found: list[tuple[re.Match[str], list[str]]] = []
    for line in (top / "crates.txt").read_text(encoding="utf-8").splitlines():
        if heading := HEADING.fullmatch(line):
            found.append((heading, []))
        elif found and (crate := CRATE.match(line)):
            found[-1][1].append(crate["name"])
    return [Family(heading["name"], heading["what"], tuple(crates)) for heading, crates in found if crates]


def crates(top: Path) -> list[str]:
    return [crate for family in families(top) for crate in family.crates]


def doc(top: Path, crate: str) -> str:
    """The first sentence of a crate's own comment."""
    roots = [top / "crates" / crate / "src" / name for name in ("lib.rt", "main.rt")]
    root = next((path for path in roots if path.exists()), None)
    if root is None:
        raise Fault(f"crates.txt: {crate} has neither src/lib.rt nor src/main.rt")
    lines = itertools.takewhile(lambda line: line.startswith("//!"), root.read_text(encoding="utf-8").splitlines())
    sentence = re.split(r"(?<=\.)\s", " ".join(line[3:].strip() for line in lines))[0]
    if not sentence:
        raise Fault(f"{root.relative_to(top)}: no comment `//!` at its beginning")
    return sentence


def filled(text: str) -> str:
    """A paragraph or an item of a list, in lines that no words in backquotes are broken by."""
    kept = re.sub(r"`[^`]*`", lambda quoted: quoted[0].replace(" ", "\0"), text)
    indent = "  " if text.startswith("- ") else ""
    lines = textwrap.wrap(kept, COLUMNS, subsequent_indent=indent, break_long_words=False, break_on_hyphens=False)
    return "\n".join(lines).replace("\0", " ")


def by_hand(before: str, form: re.Pattern[str]) -> dict[str, str]:
    """What a person wrote of each crate or family: the items of a list so far, each on one line."""
    items = re.sub(r"\n +", " ", before).splitlines()
    return {found["name"]: found["hand"] for item in items if (found := form.fullmatch(item))}


def look_for(top: Path, crate: str, hand: str) -> None:
    """Whether the names in the brackets behind a crate are files of its `specs/` or `src/`, or folders there."""
    for name in re.findall(r"`([^`]+)`", hand):
        folder, suffix = ("specs", ".antt") if name[0].isupper() else ("src", ".rt")
        within = top / "crates" / crate / folder
        if not any(path.stem == name for path in (*within.rglob(f"*{suffix}"), *within.glob("*/"))):
            raise Fault(f"docs/ARCHITECTURE.md: `{name}` is no file of crates/{crate}/{folder}")


def list_of_crates(top: Path, before: str) -> str:
    """Each family, and its crates with what they have."""
    hands, parts = by_hand(before, IN_BRACKETS), []
    for family in families(top):
        items = []
        for crate in family.crates:
            hand = hands.get(crate, "")
            look_for(top, crate, hand)
            items.append(filled(f"- `{crate}`. {doc(top, crate)}" + (f" ({hand})" if hand else "")))
        parts.append("\n".join([f"**{family.name.capitalize()}**: {family.what}", "", *items]))
    return "\n\n".join(parts)


def list_of_families(top: Path, before: str) -> str:
    """Each family with the names of its crates."""
    hands = by_hand(before, BEHIND_CRATES)
    items = []
    for family in families(top):
        names = " ".join(f"`{crate}`" for crate in family.crates)
        items.append(filled(f"- **{family.name}**: {names}. {hands.get(family.name, '')}".rstrip()))
    return "\n".join(items)


def times(top: Path) -> list[Times]:
    """The times that are kept, the dearest crate first."""
    lines = (top / "tests/prover/times.txt").read_text(encoding="utf-8").splitlines()
    found = [match for line in lines if (match := TIMES.fullmatch(line.strip()))]
    if not found:
        raise Fault("tests/prover/times.txt: no line of a crate with its three numbers")
    each = [Times(match["crate"], int(match["proof"]), int(match["tests"]), int(match["edits"])) for match in found]
    return sorted(each, key=lambda one: -one.total())


def row(cells: list[str]) -> str:
    return "|" + "".join(f" {cell} |" if cell else " |" for cell in cells)


def notes_on_times(top: Path, each: list[Times]) -> Iterator[str]:
    """The sums, and where the crates of the run aren't those of today."""
    proofs, edits = sum(one.proof + one.tests for one in each), sum(one.edits for one in each)
    yield f"All together: {proofs:,} seconds of proofs, {edits:,} of edits."
    measured, today = [one.crate for one in each], crates(top)
    if new := [f"`{crate}`" for crate in today if crate not in measured]:
        yield f"Not measured: {', '.join(new)}."
    if gone := [f"`{crate}`" for crate in measured if crate not in today]:
        yield f"No crate any more: {', '.join(gone)}."


def table_of_times(top: Path, _: str) -> str:
    """The table, crates from above to below, and then from left to right."""
    each = times(top)
    height = -(-len(each) // ABREAST)
    columns = [each[at * height : (at + 1) * height] for at in range(ABREAST)]
    rows = itertools.zip_longest(*([one.cells() for one in column] for column in columns), fillvalue=["", "", ""])
    lines = [
        row(["Crate", "Proof", "Edits"] * ABREAST),
        "|" + "---|" * 3 * ABREAST,
        *(row([cell for cells in abreast for cell in cells]) for abreast in rows),
    ]
    return "\n".join(lines) + "\n\n" + filled(" ".join(notes_on_times(top, each)))


PARTS = (
    Part("docs/ARCHITECTURE.md", "crates", list_of_crates),
    Part("crates/README.md", "families", list_of_families),
    Part("docs/PROVING.md", "times", table_of_times),
)


def written(top: Path, part: Part, page: str) -> str:
    """The text of a page with a part as it is made now."""
    begin, end = rf"<!-- {part.name}: (?!end)[^\n]*-->\n\n", rf"\n\n<!-- {part.name}: end -->\n"
    marks = re.compile(f"({begin})(.*?)({end})", re.DOTALL)
    found = marks.search(page)
    if found is None:
        raise Fault(f"{part.page}: no marks `<!-- {part.name}: .. -->` and `<!-- {part.name}: end -->`")
    return page[: found.start()] + found[1] + part.made(top, found[2]) + found[3] + page[found.end() :]


def look(top: Path, part: Part, is_check: bool) -> str | None:
    """Writes a part, or looks whether it is as it would be written; and says what is wrong, if anything."""
    path = top / part.page
    before = path.read_text(encoding="utf-8")
    try:
        after = written(top, part, before)
    except Fault as fault:
        return str(fault)
    if after == before:
        return None
    if is_check:
        return f"{part.page}: the part `{part.name}` isn't as {part.script} writes it: call that"
    path.write_text(after, encoding="utf-8")
    return None


def main(parts: Sequence[Part] = PARTS, about: str | None = __doc__) -> int:
    """Writes these parts, or looks at them, as the call asks."""
    parser = argparse.ArgumentParser(description=about, formatter_class=argparse.RawDescriptionHelpFormatter)
    parser.add_argument("--check", action="store_true")
    parser.add_argument("top", nargs="?", type=Path, default=Path(__file__).resolve().parents[2])
    given = parser.parse_args()
    wrong = [what for part in parts if (what := look(given.top, part, given.check))]
    print(*wrong, sep="\n", end="\n" if wrong else "")
    print(f"tables: {len(parts)} parts of pages, {len(wrong)} with a fault")
    return 1 if wrong else 0


if __name__ == "__main__":
    sys.exit(main())
