"""Whether tests/README.md names each script of tests/, and each that it names is there.

    python3 -m tests.gate.scripts

A script is named in backquotes, with its options or without: by its path from the top or from tests/, or, in the part
of the page that begins with its folder, as **`gate/`**, by its name.
"""

from __future__ import annotations

import pathlib
import re
import sys
from collections.abc import Iterator

from tests.harness import TOP

TESTS = TOP / "tests"
PAGE = TESTS / "README.md"
PART = re.compile(r"^\*\*`(\w+)/`\*\*", re.MULTILINE)
QUOTED = re.compile(r"`([^`\n]+)`")
SUFFIXES = (".py", ".sh")


def scripts() -> set[pathlib.Path]:
    """All scripts, but for those that only make a folder a package."""
    found = (path for suffix in SUFFIXES for path in TESTS.rglob(f"*{suffix}"))
    return {path for path in found if path.name != "__init__.py"}


def names(text: str) -> Iterator[str]:
    """The words in backquotes that are a script's name or path."""
    words = (word.rpartition("=")[2] for quoted in QUOTED.findall(text) for word in quoted.split())
    yield from (word for word in words if word.endswith(SUFFIXES))


def meant(name: str, folder: str) -> set[pathlib.Path]:
    """The scripts that are named so in a folder's part, or, without one, at the beginning of the page."""
    within = set((TESTS / folder).rglob(name)) if folder else set()
    return within | {path for path in (TOP / name, TESTS / name) if path.exists()}


def parts(text: str) -> Iterator[tuple[str, str]]:
    """The parts of the page, with their folders."""
    beginning, *rest = PART.split(text)
    yield "", beginning
    yield from zip(rest[::2], rest[1::2], strict=True)


def main() -> int:
    named = [(name, meant(name, folder)) for folder, text in parts(PAGE.read_text("utf-8")) for name in names(text)]
    there = scripts()
    wrong = [f"{PAGE.relative_to(TOP)}: no {name}" for name, paths in named if not paths]
    without = sorted(there - {path for _, paths in named for path in paths})
    wrong += [f"{PAGE.relative_to(TOP)}: {path.relative_to(TESTS)} isn't named" for path in without]
    print(*wrong, sep="\n", end="\n" if wrong else "")
    print(f"scripts: {len(there)} scripts, {len(named)} names, {len(wrong)} faults")
    return 1 if wrong or not there else 0


if __name__ == "__main__":
    sys.exit(main())
