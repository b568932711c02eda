#!/usr/bin/env python3
"""Prints what each crate costs in a run of `rt ci`: seconds of one processor, of its proof, of its tests and of its
edits.

    tests/prover/gate_times.py [SECONDS] [--processors LIST]

Begin it right behind `rt ci`, with no other `rt` on the machine: it looks once a second, or as often as is said, which
checks are running, and prints them all when no `rt ci` is left, the dearest crate first. With `--processors 0,1` it
looks at processes alone that are bound to these, or to some of them: then others may run beside, bound to others. The
last second or so of each check is missed. What is tried of a crate over work that was kept, as its edits but for the
first, counts as edits too; a check of several jobs is several processes, each of which counts once. What it prints is
what tests/prover/times.txt keeps (tests/prover/tables.py).
"""

from __future__ import annotations

import argparse
import collections
import os
import pathlib
import sys
import time
from collections.abc import Iterable, Iterator
from dataclasses import dataclass

TICKS = os.sysconf("SC_CLK_TCK")
KINDS = ("proof", "tests", "edits")
# A process: its number, and when it began, since numbers come again.
Key = tuple[str, str]


@dataclass
class Check:
    """A process that checks a crate: the process that began it, and the processor time of its own and of the processes
    that it waited for."""

    crate: str
    kind: str
    parent: Key
    own: float = 0.0
    waited: float = 0.0


def processors(text: str) -> frozenset[int]:
    """A list of processors, as `taskset -c` takes it: numbers, and ranges of them."""
    parts = [[int(end) for end in part.split("-")] for part in text.split(",")]
    return frozenset(number for ends in parts for number in range(ends[0], ends[-1] + 1))


def is_bound(process: pathlib.Path, to: frozenset[int] | None) -> bool:
    """Whether a process runs on no other processors than these, if any are given."""
    return to is None or os.sched_getaffinity(int(process.name)) <= to


def words_of(process: pathlib.Path) -> list[str]:
    """The words of its call."""
    return (process / "cmdline").read_bytes().decode(errors="replace").split("\0")


def kind_of(process: pathlib.Path, words: list[str]) -> str:
    """Edits are tried in a folder of their own."""
    if pathlib.Path(os.readlink(process / "cwd")).name.startswith("rt-edit"):
        return "edits"
    return "tests" if any("test" in word for word in words if word.startswith("--")) else "proof"


def fields_of(process: pathlib.Path) -> list[str]:
    """What the system says of a process, from its state on."""
    return (process / "stat").read_text().rpartition(")")[2].split()


def key_of(process: pathlib.Path) -> Key:
    return process.name, fields_of(process)[19]


def is_gate(words: list[str]) -> bool:
    """Whether these words call `rt ci`."""
    return words[1:2] != [] and pathlib.Path(words[1]).name == "rt" and words[2:3] == ["ci"]


def look_at(process: pathlib.Path, words: list[str], checks: dict[Key, Check]) -> None:
    """Brings a check up to date, if the process is one."""
    if pathlib.Path(words[0]).name == "rattle" and "--crate-name" in words:
        key, fields = key_of(process), fields_of(process)
        if key not in checks:
            parent = key_of(process.with_name(fields[1]))
            checks[key] = Check(words[words.index("--crate-name") + 1], kind_of(process, words), parent)
        ticks = [int(field) for field in fields[11:15]]
        checks[key].own, checks[key].waited = sum(ticks[:2]) / TICKS, sum(ticks[2:]) / TICKS


def look(checks: dict[Key, Check], bound_to: frozenset[int] | None) -> bool:
    """Brings the checks up to date, and says whether an `rt ci` is running."""
    is_running = False
    for process in pathlib.Path("/proc").glob("[0-9]*"):
        try:
            words = words_of(process)
            if is_bound(process, bound_to):
                is_running = is_running or is_gate(words)
                look_at(process, words, checks)
        except (OSError, IndexError):
            # It has ended meanwhile.
            continue
    return is_running


def seconds(checks: dict[Key, Check]) -> Iterator[tuple[Check, float]]:
    """The processor time of each check, and of what it waited for, but for checks: these have their own."""
    of_checks: collections.Counter[Key] = collections.Counter()
    for check in checks.values():
        of_checks[check.parent] += check.own + check.waited
    for key, check in checks.items():
        yield check, check.own + max(0.0, check.waited - of_checks[key])


def line(name: str, cells: Iterable[str]) -> str:
    return f"{name:20}" + "".join(f"{cell:>8}" for cell in cells)


def show(checks: dict[Key, Check]) -> None:
    """Prints a line for each crate, the dearest first, and their sums."""
    crates: dict[str, collections.Counter[str]] = collections.defaultdict(collections.Counter)
    for check, took in seconds(checks):
        crates[check.crate][check.kind] += took
    print(line("crate", KINDS))
    for crate, kinds in sorted(crates.items(), key=lambda it: -sum(it[1].values())):
        print(line(crate, (f"{kinds[kind]:.0f}" for kind in KINDS)))
    print(line("in all", (f"{sum(kinds[kind] for kinds in crates.values()):.0f}" for kind in KINDS)))


def main() -> int:
    parser = argparse.ArgumentParser(description=__doc__, formatter_class=argparse.RawDescriptionHelpFormatter)
    parser.add_argument("seconds", nargs="?", type=float, default=1.0)
    parser.add_argument("--processors", type=processors, metavar="LIST")
    given = parser.parse_args()
    checks: dict[Key, Check] = {}
    while look(checks, given.processors):
        time.sleep(given.seconds)
    show(checks)
    return 0


if __name__ == "__main__":
    sys.exit(main())
