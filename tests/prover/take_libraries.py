#!/usr/bin/env python3
"""Takes over the libraries that runs of `rt ci` in other checkouts proved of the same sources: so `rt check` of a crate
here needn't prove those below first.

    tests/prover/take_libraries.py EARLIER LOG [EARLIER LOG ..]

EARLIER is a checkout on the same disk in which `rt ci` ran, or kept_ci.py; LOG is what that run printed so far. The
last line names the crates whose libraries are still wanting. A check over such libraries is no verdict.
"""

from __future__ import annotations

import argparse
import pathlib
import shutil
import subprocess
import sys
from typing import Any

import kept_ci


def take(run: kept_ci.Earlier, crate: Any) -> None:
    """Takes over a library, and says of which sources it is."""
    out = pathlib.Path(crate.folder) / "out"
    shutil.rmtree(out / "rlib", ignore_errors=True)
    out.mkdir(exist_ok=True)
    subprocess.run(["cp", "-al", str(run.top / "crates" / crate.name / "out/rlib"), str(out)], check=True)
    stamp = out / "rlib/stamp"
    stamp.unlink(missing_ok=True)
    stamp.write_text(crate.stamp(), "utf-8")


def main() -> int:
    parser = argparse.ArgumentParser(description="Takes over proved libraries of other checkouts.")
    parser.add_argument("runs", nargs="+", type=pathlib.Path, metavar="EARLIER LOG")
    given = parser.parse_args()
    if len(given.runs) % 2:
        parser.error("each EARLIER has a LOG")
    sys.dont_write_bytecode = True
    pairs = [(top.resolve(), log.resolve()) for top, log in zip(given.runs[::2], given.runs[1::2])]
    _, rtlib = kept_ci.kit()
    runs = [kept_ci.Earlier(rtlib, top, log) for top, log in pairs]
    wanting = list[str]()
    for name, crate in kept_ci.crates_in(rtlib, kept_ci.TOP).items():
        if crate.is_program or crate.is_built():
            continue
        run = next((it for it in runs if it.has(crate)), None)
        if run:
            take(run, crate)
        else:
            wanting.append(name)
    print("wanting:", " ".join(wanting) or "none")
    return 0


if __name__ == "__main__":
    sys.exit(main())
