#!/usr/bin/env python3
"""Runs `rt ci` without the edits: what it proves is kept by the kit, and `rt ci` takes it over.

    tests/prover/proofs_alone.py [--jobs N] [NAME ..]

With names it proves these crates and those below, over a copy of the sources. With `--jobs` each proof has so many
processes, and begins whatever memory `rt` reckons for it: for the crates at the top, each of which waits for the one
before. For kits that keep what `rt ci` passes (13f); for 13b there is kept_ci.py. It is no verdict, and rests on names
in `rt` that another kit may not have.
"""

from __future__ import annotations

import argparse
import importlib.machinery
import importlib.util
import os
import shutil
import sys
from types import ModuleType
from typing import Any

# What a proof is said to take, in bytes, where all are to begin.
LITTLE = 1_000_000_000


def give_jobs(rt: ModuleType, jobs: int) -> None:
    """Has each proof of a crate made by so many processes, as soon as its libraries are there."""
    made = rt.Crate.ci

    def with_jobs(crate: Any, flags: list[str], tests: bool) -> Any:
        own = [word for at, word in enumerate(flags) if "--jobs" not in flags[max(at - 1, 0) : at + 1]]
        return made(crate, [*own, "--jobs", str(jobs)], tests)

    rt.Crate.ci = with_jobs
    rt.need = lambda crate: LITTLE


def main() -> int:
    parser = argparse.ArgumentParser(description="Runs rt ci without the edits.")
    parser.add_argument("--jobs", type=int)
    parser.add_argument("names", nargs="*", metavar="NAME")
    given = parser.parse_args()
    path = shutil.which("rt")
    if path is None:
        sys.exit("proofs_alone: the kit isn't on the path as rt")
    path = os.path.realpath(path)
    sys.dont_write_bytecode = True
    sys.path.insert(0, os.path.dirname(path))
    loader = importlib.machinery.SourceFileLoader("rt", path)
    spec = importlib.util.spec_from_loader("rt", loader)
    assert spec is not None
    rt = importlib.util.module_from_spec(spec)
    loader.exec_module(rt)
    # (no edit is tried, and none was before)
    rt.add_edits = lambda *given, **named: (lambda of: [], dict)
    if given.jobs:
        give_jobs(rt, given.jobs)
    return rt.ci(False, tuple(given.names))


if __name__ == "__main__":
    sys.exit(main())
