#!/usr/bin/env python3
"""Times the built program on logs: runs that write them, their replay and their charts, beside runs that keep none and
a plain copy of the log; and logs that claim much.

    python3 -m bench.logs [--program PATH]

Prints for each call a line (bench/results.py): its seconds of processor time, the seconds that passed, the most memory
that it took, and its status; and first what this process held, from which memory counts.
"""

from __future__ import annotations

import argparse
import itertools
import os
import pathlib
import resource
import tempfile

from bench.modules import clocks_in_turn, counting, in_step
from bench.results import show
from bench.spent import spent
from tests import harness

# The turns of an inner loop.
INNER = 1_000


def timed(name: str, words: list[object], out: str | None = None, **figures: float) -> None:
    """A call, and what it takes; its standard output goes to the file, if one is given."""
    with open(out or os.devnull, "wb") as sink:
        took = spent(words, sink)
    taken = {"seconds": took.seconds, "passed": took.passed, "megabytes": round(took.megabytes), "status": took.status}
    show(name, took.err.decode().strip(), **taken, **figures)


def size(path: str | pathlib.Path) -> int:
    return pathlib.Path(path).stat().st_size


def whole(program: pathlib.Path, name: str, text: str, folder: pathlib.Path) -> None:
    """A run, the same with a log, its replay and its chart; a copy of the log, and the replay of one in which steps in
    a row are one entry."""
    file, log, chart, joined = (str(folder / part) for part in ("module", "log", "chart", "joined"))
    pathlib.Path(file).write_text(text)
    steps = int(spent([program, "run", "--module", file]).out.split()[-1])
    timed(f"{name}: run", [program, "run", "--module", file], steps=steps)
    timed(f"{name}: run --log", [program, "run", "--module", "--log", log, file])
    timed(f"{name}: a copy of the log", ["cat", log], joined, bytes=size(log))
    timed(f"{name}: replay", [program, "replay", "--module", file, log])
    timed(f"{name}: chart", [program, "chart", "--module", file, log], chart)
    show(f"{name}: the chart", bytes=size(chart))
    join(log, joined)
    timed(f"{name}: replay, entries joined", [program, "replay", "--module", file, joined], bytes=size(joined))


def join(log: str, joined: str) -> None:
    """Writes the log again, with steps in a row as one entry."""
    entries, last, steps = 0, b"", 0
    with open(log, "rb") as read, open(joined, "wb") as write:
        for line in read:
            who, _, count = line.rstrip().partition(b" ")
            if who == last:
                steps += int(count)
                continue
            if steps:
                write.write(b"%s %d\n" % (last, steps))
                entries += 1
            last, steps = who, int(count) if who.isdigit() else 0
            if who == b"x10log":
                write.write(line)
        write.write(b"end %d\n" % entries)


def hostile(program: pathlib.Path, folder: pathlib.Path) -> None:
    """Logs of which little is true."""
    file, log = folder / "module", folder / "log"
    file.write_text(counting(100, INNER))
    claims = "a log that claims much"

    def replayed(name: str, *parts: tuple[bytes, int]) -> None:
        with log.open("wb") as write:
            for part, times in parts:
                write.writelines(itertools.repeat(part, times))
        timed(f"{claims}: {name}", [program, "replay", "--module", file, log], bytes=size(log))

    head, many = (b"x10log 1\n", 1), 10_000_000
    replayed("end 1000000000 and no entry", head, (b"end 1000000000\n", 1))
    replayed("one entry of 4294967295 steps", head, (b"0 4294967295\nend 1\n", 1))
    replayed(
        "10,000,000 entries that nobody can take", head, (b"4294967295 4294967295\n", many), (b"end %d\n" % many, 1)
    )
    replayed("10,000,000 entries, and no last line", head, (b"0 1\n", many))
    timed(f"{claims}: /dev/zero", [program, "replay", "--module", file, "/dev/zero"])
    file.write_text(counting(499_000, INNER))
    replayed("one entry of 4294967295 steps, of a program of 999,000,000", head, (b"0 4294967295\nend 1\n", 1))


def main() -> None:
    parser = argparse.ArgumentParser()
    harness.add_program(parser)
    program = parser.parse_args().program
    show("this process", megabytes=round(resource.getrusage(resource.RUSAGE_SELF).ru_maxrss / 1024))
    with tempfile.TemporaryDirectory() as name:
        folder = pathlib.Path(name)
        whole(program, "1,000,000 steps of one activity", counting(499, INNER), folder)
        whole(program, "10,000,000 steps of one activity", counting(4_997, INNER), folder)
        whole(program, "100 activities in step, 10,000 phases", in_step(100, 10_000), folder)
        whole(program, "2 activities in step, 1,000,000 phases", in_step(2, 1_000_000), folder)
        whole(program, "10,000 clocks, one after the other", clocks_in_turn(10_000), folder)
        hostile(program, folder)


if __name__ == "__main__":
    main()
