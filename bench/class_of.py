#!/usr/bin/env python3
"""How long a class of programs takes, by the loops of docs/GRADING.md: a shell that calls the program once for each.

    python3 -m bench.class_of [--program PATH] [COUNT]

200 where nothing else is said: the programs of examples/, accepted and refused, again and again until there are so
many. It prints seconds, and how often each status came.
"""

from __future__ import annotations

import argparse
import collections
import itertools
import os
import pathlib
import shutil
import subprocess
import tempfile
import time

from tests import harness
from tests.harness import TOP

COMMANDS = ("check", "explain", "explain --json", "run", "run --order random --runs 100")
LOOP = 'for f in class/*.x10; do "$PROGRAM" %s "$f" > out 2>&1; echo $?; done'


def write_class(count: int, folder: pathlib.Path) -> None:
    """Writes so many programs."""
    folder.mkdir()
    for number, path in zip(range(count), itertools.cycle(sorted((TOP / "examples").glob("*.x10")))):
        shutil.copyfile(path, folder / f"{number:04}-{path.name}")


def main() -> int:
    parser = argparse.ArgumentParser(description="How long a class of programs takes.")
    parser.add_argument("count", nargs="?", type=int, default=200)
    harness.add_program(parser)
    given = parser.parse_args()
    environ = {**os.environ, "PROGRAM": str(given.program)}
    with tempfile.TemporaryDirectory() as room:
        write_class(given.count, pathlib.Path(room, "class"))
        for command in COMMANDS:
            begun = time.monotonic()
            said = subprocess.run(
                ["sh", "-c", LOOP % command], cwd=room, env=environ, stdout=subprocess.PIPE, text=True, check=True
            ).stdout
            seconds = time.monotonic() - begun
            statuses = sorted(collections.Counter(said.split()).items())
            print(f"{command}: {seconds:.2f} s,", *(f"{n} of status {status}" for status, n in statuses), flush=True)
    return 0


if __name__ == "__main__":
    raise SystemExit(main())
