#!/usr/bin/env python3
"""Times the built program beside Lua 5.4 (Debian's package `lua5.4`) on the same two loops: a sum of fifty million
numbers.

    python3 -m bench.lua [--program PATH] [--rounds N]

Both have to print the same sum. Seconds are of processor time, the least of three runs, which are made in turn.
"""

from __future__ import annotations

import argparse
import tempfile

from bench.beside import ran
from bench.modules import counting
from bench.results import show
from tests import harness

TURNS = 9999
LOOPS = f"local t = 0; for i = 1, {TURNS} do for j = 1, 5000 do t = t + j end end; print(t)"


def main() -> None:
    parser = argparse.ArgumentParser()
    harness.add_program(parser)
    parser.add_argument("--rounds", type=int, default=3)
    given = parser.parse_args()
    ours, lua = [], []
    with tempfile.NamedTemporaryFile("w", suffix=".json") as file:
        file.write(counting(TURNS))
        file.flush()
        for _ in range(given.rounds):
            ours.append(ran([given.program, "run", "--module", file.name]))
            lua.append(ran(["lua5.4", "-e", LOOPS]))
    if ours[0][0].split()[0] != lua[0][0].split()[0]:
        raise SystemExit(f"{ours[0][0]!r} beside {lua[0][0]!r}")
    seconds = [min(run[1] for run in runs) for runs in (ours, lua)]
    show("a sum of fifty million numbers", ours=seconds[0], lua=seconds[1], ratio=seconds[0] / seconds[1])


if __name__ == "__main__":
    main()
