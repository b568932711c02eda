#!/usr/bin/env python3
"""Runs `rt ci`, but keeps what earlier runs of it proved of the same sources.

    tests/prover/kept_ci.py [EARLIER LOG ..] [--leave 'NAME ..'] [--later] [--at-once N]

EARLIER is another checkout in which `rt ci` ran, with its `out/` folders, and LOG what that run printed; it may itself
have been such a run, may have been stopped, and may still be running: what it proves before this one comes to a crate
is kept, too. The checkout of this script is proved by the kit's own functions. Kept
are the proof and the tests of each crate whose files, and those of all below, are the same as there, and that was
proved there; and its edits, where these are the same too and each was refused. Of several runs the first that has a
crate counts. All else is done from nothing, and so are the runs of programs. The first lines say what is kept, the last
one is that of `rt ci`. With `--leave` these crates count as not proved, and nothing above them is tried: so several
runs can share what there is to do.

It is for kits whose `rt ci` keeps nothing (13b), and no verdict: that is `rt ci` alone. It trusts EARLIER and LOG, and
rests on names in `rt` that another kit may not have. EARLIER has to be on the same disk: libraries are taken over by
hard links, as a whole, and a crate of a run only where those below are the very files that it was built over.
"""

from __future__ import annotations

import argparse
import fcntl
import importlib.machinery
import importlib.util
import os
import pathlib
import re
import shutil
import subprocess
import sys
import threading
import time
from collections.abc import Callable
from types import ModuleType
from typing import Any

TOP = pathlib.Path(__file__).resolve().parents[2]
# Between two looks at a run that is waited for, in seconds.
PAUSE = 4
# What a crate counts that tests/prover/times.txt doesn't have, in seconds.
UNKNOWN = 40


def once(reckon: Callable[[Any], Any], key: Callable[[Any], Any]) -> Callable[[Any], Any]:
    """What reckons it for each crate once; the crates are held, so that no other has the same `id`."""
    known = dict[Any, tuple[Any, Any]]()

    def of(crate: Any) -> Any:
        if key(crate) not in known:
            known[key(crate)] = crate, reckon(crate)
        return known[key(crate)][1]

    return of


def kit() -> tuple[ModuleType, ModuleType]:
    """The modules of `rt`, with sums and libraries of crates that are reckoned once."""
    path = shutil.which("rt")
    if path is None:
        sys.exit("kept_ci: the kit isn't on the path as rt")
    path = os.path.realpath(path)
    sys.path.insert(0, os.path.dirname(path))
    loader = importlib.machinery.SourceFileLoader("rt", path)
    spec = importlib.util.spec_from_loader("rt", loader)
    assert spec is not None
    rt = importlib.util.module_from_spec(spec)
    loader.exec_module(rt)
    rtlib = importlib.import_module("rtlib")
    rtlib.Crate = rt.Crate
    rt.Crate.stamp = once(rt.Crate.stamp, lambda crate: crate.folder)
    rt.Crate.below = once(rt.Crate.below, id)
    return rt, rtlib


def crates_in(rtlib: ModuleType, top: pathlib.Path) -> dict[str, Any]:
    """The crates of a checkout by their names."""
    os.chdir(top)
    return {crate.name: crate for crate in rtlib.crates_below(str(top))}


def edits_in(top: pathlib.Path, name: str) -> dict[str, str]:
    """The edits of a crate by the names of their files."""
    return {path.name: path.read_text("utf-8") for path in sorted((top / "crates" / name / "must-fail").glob("*.edit"))}


class Earlier:
    """What an earlier run did."""

    def __init__(self, rtlib: ModuleType, top: pathlib.Path, log: pathlib.Path) -> None:
        self.top = top
        self.log = log
        self.crates = crates_in(rtlib, top)
        self.read()

    def read(self) -> None:
        """Reads what the run has printed so far. Its threads print at once: so what one says may stand right behind
        another's, on the same line."""
        log = self.log.read_text("utf-8", "replace")
        self.proofs = set(re.findall(r"rt: (\w+) proved(?![ ,:])", log))
        self.failed = set(re.findall(r"rt: (\w+)(?:: its tests are)? NOT PROVED", log))
        self.left = set(" ".join(re.findall(r"^left: (.*)$", log, re.M)).split())
        self.tests = set(re.findall(r"rt: (\w+): its tests are proved(?![ ,:])", log))
        self.edits = set(re.findall(r"rt: must-fail (\w+/\S+): refused", log))

    def has(self, crate: Any) -> bool:
        """Whether the crate is the same there, and was proved with its tests."""
        name = crate.name
        is_same = name in self.crates and self.crates[name].stamp() == crate.stamp() and name in self.proofs
        return is_same and (not crate.has_tests() or name in self.tests)

    def is_running(self) -> bool:
        """Whether `rt ci` holds its lock there."""
        try:
            with open(self.top / ".git/rt-ci.lock", "a", encoding="utf-8") as lock:
                fcntl.flock(lock, fcntl.LOCK_EX | fcntl.LOCK_NB)
        except BlockingIOError:
            return True
        return False

    def is_to_have(self, crate: Any) -> bool:
        """Whether the run goes on, and will come to the crate, which is the same there."""
        name = crate.name
        is_same = name in self.crates and self.crates[name].stamp() == crate.stamp()
        return is_same and name not in self.left | self.failed and not self.has(crate) and self.is_running()

    def library(self, name: str) -> set[tuple[str, int]]:
        """The files of a crate's library: where they are in it, and which they are on the disk."""
        top = self.top / "crates" / name / "out/rlib"
        files = (path for path in top.rglob("*") if path.is_file())
        return {(str(path.relative_to(top)), path.stat().st_ino) for path in files if path.name != "stamp"}

    def refused(self, name: str) -> bool:
        """Whether the crate's edits are the same, and each was refused."""
        edits = edits_in(TOP, name)
        return edits == edits_in(self.top, name) and all(f"{name}/{edit}" in self.edits for edit in edits)

    def take(self, name: str) -> None:
        """Takes over what was built of a crate."""
        out = TOP / "crates" / name / "out"
        out.mkdir(parents=True, exist_ok=True)
        for part in (self.top / "crates" / name / "out").iterdir():
            subprocess.run(["cp", "-al", str(part), str(out)], check=True)


def run_that_has(crate: Any, runs: list[Earlier], kept: dict[str, Earlier]) -> Earlier | None:
    """The first run that has the crate, built over the libraries that are kept of those below, if these are kept."""
    below = [it.name for it in crate.below()]
    if not all(it in kept for it in below):
        return None
    for run in runs:
        if run.has(crate) and all(run.library(it) == kept[it].library(it) for it in below):
            return run
    return None


def runs_that_have(mine: dict[str, Any], runs: list[Earlier]) -> dict[str, Earlier]:
    """For each crate that is kept, the first run that has it, built over the libraries that are kept of those below."""
    kept: dict[str, Earlier] = {}
    for name, crate in sorted(mine.items(), key=lambda row: len(row[1].below())):
        run = run_that_has(crate, runs, kept)
        if run:
            kept[name] = run
    return kept


def with_above(mine: dict[str, Any], names: set[str]) -> set[str]:
    """These crates, and all above them."""
    return {name for name, crate in mine.items() if name in names or any(it.name in names for it in crate.below())}


def seconds_above(mine: dict[str, Any]) -> dict[str, int]:
    """For each crate how long the longest chain of crates takes that begins with it."""
    rows = re.findall(r"^(xk_\w+|x10clock) +(\d+) +(\d+)", (TOP / "tests/prover/times.txt").read_text("utf-8"), re.M)
    times = {name: int(proof) + int(tests) for name, proof, tests in rows}
    chains = {name: times.get(name, UNKNOWN) for name in mine}
    for crate in sorted(mine.values(), key=lambda it: -len(it.below())):
        for low in crate.below():
            chains[low.name] = max(chains[low.name], times.get(low.name, UNKNOWN) + chains[crate.name])
    return chains


class Places:
    """So many checks run side by side; of those that wait the one with the longest chain goes first."""

    def __init__(self, number: int) -> None:
        self.free = number
        self.waiting = list[int]()
        self.changed = threading.Condition()

    def take(self, chain: int) -> None:
        with self.changed:
            self.waiting.append(chain)
            self.changed.wait_for(lambda: self.free and chain == max(self.waiting))
            self.waiting.remove(chain)
            self.free -= 1
            self.changed.notify_all()

    def give(self) -> None:
        with self.changed:
            self.free += 1
            self.changed.notify_all()


def keep(rt: ModuleType, runs: list[Earlier], kept: dict[str, Earlier], left: set[str]) -> None:
    """Has `rt` leave out what is kept, and what is to be left."""
    crates_of, prove, try_edits = rt.crates_of, rt.Crate.ci, rt.must_fail_all

    def crates(root: str, aside: str) -> Any:
        found = crates_of(root, aside)
        for name, run in kept.items():
            run.take(name)
        return found

    def keep_late(crate: Any) -> bool:
        for run in runs:
            run.read()
        while any(run.is_to_have(crate) for run in runs):
            time.sleep(PAUSE)
            for run in runs:
                run.read()
        run = run_that_has(crate, runs, kept)
        if run:
            run.take(crate.name)
            kept[crate.name] = run
        return run is not None

    def ci(crate: Any, flags: list[str], tests: bool) -> int:
        if crate.name in left:
            return 1
        if crate.name not in kept and not keep_late(crate):
            return prove(crate, flags, tests)
        print(f"kept: {crate.name}{', its tests' if tests else ''}", flush=True)
        return 0

    def must_fail_all(crate: Any, edits: list[str], flags: list[str]) -> list[tuple[bool, str]]:
        if crate.name not in kept or not any(run.refused(crate.name) for run in runs):
            return try_edits(crate, edits, flags)
        names = [os.path.basename(edit) for edit in edits]
        return [(True, f"must-fail {crate.name}/{name}: refused in the run that is kept") for name in names]

    rt.crates_of, rt.Crate.ci, rt.must_fail_all = crates, ci, must_fail_all


def hurry(rt: ModuleType, chains: dict[str, int], number: int) -> None:
    """Has `rt` begin each crate as soon as those below are there, so many checks side by side."""
    prove, places = rt.Crate.ci, Places(number)

    def ci(crate: Any, flags: list[str], tests: bool) -> int:
        places.take(chains[crate.name])
        try:
            return prove(crate, flags, tests)
        finally:
            places.give()

    # (each crate has a lane, since most of them only wait)
    os.environ["RT_JOBS"] = str(2 * len(chains))
    rt.Crate.ci = ci


def later(rt: ModuleType, rtlib: ModuleType) -> None:
    """Has `rt` try no edits, and not look at the format."""
    rtlib.fmt = lambda *_: 0
    rt.must_fail_all = lambda *_: []


def main() -> int:
    parser = argparse.ArgumentParser(description="Runs rt ci, and keeps what earlier runs proved.")
    parser.add_argument("runs", nargs="*", type=pathlib.Path, metavar="EARLIER LOG")
    parser.add_argument("--leave", default="", help="crates that aren't tried, in one word")
    parser.add_argument("--later", action="store_true", help="edits aren't tried, nor is the format looked at")
    parser.add_argument("--at-once", type=int, metavar="N", help="so many checks at most side by side")
    given = parser.parse_args()
    if len(given.runs) % 2:
        parser.error("each EARLIER has a LOG")
    sys.dont_write_bytecode = True
    pairs = [(top.resolve(), log.resolve()) for top, log in zip(given.runs[::2], given.runs[1::2])]
    rt, rtlib = kit()
    rt.Crate.allowed = rt.handles_of(str(TOP))
    runs = [Earlier(rtlib, top, log) for top, log in pairs]
    mine = crates_in(rtlib, TOP)
    left = with_above(mine, set(given.leave.split()))
    kept = {name: run for name, run in runs_that_have(mine, runs).items() if name not in left}
    print("left:", " ".join(sorted(left)))
    print("proved anew:", " ".join(name for name in mine if name not in kept and name not in left) or "no crate")
    refused = sorted(name for name in kept if edits_in(TOP, name) and any(run.refused(name) for run in runs))
    print("edits kept of:", " ".join(refused), flush=True)
    if given.later:
        later(rt, rtlib)
    if given.at_once:
        hurry(rt, seconds_above(mine), given.at_once)
    keep(rt, runs, kept, left)
    return rt.ci()


if __name__ == "__main__":
    sys.exit(main())
