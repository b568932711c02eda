#!/usr/bin/env python3
"""The Python package x10clock: what each of its functions gives, what a class is graded as, its wheel, and the code on
`docs/EMBEDDING.md`, of which each block is run.

    python3 -m tests.library.package [--library FOLDER]

The library is the one that tests/library/calls.py takes. The wheel is installed by `pip install --no-index` into a
folder of its own, where pip is, and asked there.
"""

from __future__ import annotations

import argparse
import contextlib
import csv
import io
import os
import pathlib
import re
import subprocess
import sys
import tempfile
import threading
from collections.abc import Callable
from xml.etree import ElementTree

import x10clock

from tests import harness
from tests.harness import TOP
from tests.library import built

EXAMPLES = TOP / "examples"
IN_STEP, DROPPED, RACING = (EXAMPLES / f"{name}.x10" for name in ("two-in-step", "second-drop", "atomic-updates"))
PAGE = TOP / "docs/EMBEDDING.md"
SEVEN = "def main() { Console.OUT.println(7); }"
TAKES_ONE = "def main(n: Long) { Console.OUT.println(n); }"
# One that takes longer than it is given.
ENDLESS = "def main() { for (i in 1..1000) for (j in 1..1000) for (k in 1..100) ; Console.OUT.println(7); }"

# One with more than 30,000 worlds: four activities race, by different numbers.
UNEQUAL = """shared x = 0;
def main() {
    finish for (who in 1..4) async for (turn in 1..3) { val seen = x; x = seen + who; }
    val left = x;
    Console.OUT.println(left);
}
"""


class Wrong(Exception):
    """Something else than is wanted."""


def want(what: str, got: object, wanted: object) -> None:
    if got != wanted:
        raise Wrong(f"{what}: {got!r:.500}, not {wanted!r:.500}")


def fault_of(kind: type[x10clock.Fault], call: Callable[[], object]) -> x10clock.Fault:
    """The fault of this kind that a call has."""
    try:
        got = call()
    except kind as fault:
        return fault
    raise Wrong(f"no {kind.__name__}, but {got!r:.300}")


# ---- what is asked of a program


def checks() -> None:
    want("bounds", x10clock.check(SEVEN).activities, 1)
    want("bounds of a file", x10clock.check(IN_STEP), x10clock.Bounds(19, 2, 1))
    want("bounds of bytes", x10clock.check(SEVEN.encode()), x10clock.check(SEVEN))
    fault = fault_of(x10clock.Refused, lambda: x10clock.check(DROPPED))
    want("rule", getattr(fault, "rule", ""), "V11")
    want("line", x10clock.explain(DROPPED)["line"], 8)
    want("place", x10clock.diagnose(DROPPED), x10clock.Broken("V11", 8, 9))
    want("place of a fault of syntax", x10clock.diagnose("def main() {\n  val n = 1\n}"), x10clock.Broken("F2", 3, 1))
    want("no place", x10clock.diagnose("def f() {}"), x10clock.Broken("F9", None, None))
    want("no fault", x10clock.diagnose(SEVEN), None)
    want("accepted", x10clock.explain(SEVEN)["accepted"], True)
    fault_of(x10clock.BadWords, lambda: x10clock.run(SEVEN, order="upwards"))
    want("A1", getattr(fault_of(x10clock.Refused, lambda: x10clock.run(TAKES_ONE)), "rule", ""), "A1")
    want("an argument", x10clock.run(TAKES_ONE, -3).printed, (-3,))


def runs() -> None:
    run = x10clock.run(IN_STEP)
    want("printed", run.printed, (1, 2, 11, 12))
    want("again", x10clock.replay(IN_STEP, run.log).printed, run.printed)
    steps = x10clock.events(IN_STEP, run.log)
    want("events", [step["printed"] for step in steps if step["event"] == "print"], [1, 2, 11, 12])
    want("names", {step["name"] for step in steps if "clock" in step}, {"clock of 4:5"})
    want("last", x10clock.run(IN_STEP, order="last").printed, (2, 1, 12, 11))
    want("rounds", x10clock.run(IN_STEP, order="greedy", processors=1).rounds, 19)
    want("steps", x10clock.run(IN_STEP, order="random", seed=3).steps, 19)
    fault_of(x10clock.BadLog, lambda: x10clock.replay(IN_STEP, b"no log\n"))
    want("where", x10clock.where(IN_STEP, run.log).splitlines()[0], "steps 19")
    want("where, earlier", x10clock.where(IN_STEP, run.log, at=3).splitlines()[0], "steps 3")
    stood = x10clock.standings(IN_STEP, run.log, at=3)
    want("standings", (stood.steps, stood.able, stood.whole), (3, (0, 1), True))
    want("frames", [frame["in"] for frame in stood.told["frames"]], ["main", "async"])
    want("standings behind the end", x10clock.standings(IN_STEP, run.log, at=99).told["log_ends"], 19)
    timed = x10clock.span(IN_STEP, run.log)
    want("span", (timed.work, timed.span, timed.every_schedule), (19, 12, True))
    want("parallelism", f"{timed.parallelism:.2f}", "1.58")
    want("page", x10clock.page(IN_STEP, run.log)[:15], b"<!DOCTYPE html>")
    want("page with a path", b' id="path">' in x10clock.page(IN_STEP, run.log, path=True), True)
    want("races", x10clock.races(IN_STEP).count, 0)
    want("races of a log", x10clock.races(IN_STEP, log=run.log).count, 0)
    want("every schedule", x10clock.races(IN_STEP).told["every_schedule"], True)


def races() -> None:
    """Whether all races are told, whether there is none, and whether the prints are in one order."""

    def facts(program: x10clock.Program) -> tuple[int, bool, bool, bool]:
        found = x10clock.races(program)
        told = tuple(found.told[key] for key in ("whole", "every_schedule", "prints_in_order"))
        want("facts", (found.whole, found.every_schedule, found.prints_in_order), told)
        return (found.count, found.whole, found.every_schedule, found.prints_in_order)

    want("two in step", facts(IN_STEP), (0, True, True, False))
    want("one print", facts(SEVEN), (0, True, True, True))
    want("an update that is lost", facts(EXAMPLES / "unlucky-schedule.x10"), (3, True, False, True))
    want("many races", facts(TOP / "tests/program/logs/many-races.x10"), (10_000, False, False, True))


def searches() -> None:
    found = x10clock.outcomes(IN_STEP)
    want("outcomes", (len(found.all), found.complete), (4, True))
    want("count", x10clock.count(IN_STEP), x10clock.Count(4, True))
    want("a count that isn't all", x10clock.count(RACING, limit=1).complete, False)
    want("at once", list(x10clock.widening(IN_STEP, limit=500)), [x10clock.Searched(500, x10clock.Count(4, True))])
    worlds = [found.worlds for found in x10clock.widening(UNEQUAL, limit=30_000)]
    want("up to the limit", worlds, [10_000, 20_000, 30_000])
    searching()
    picked = x10clock.outcomes(IN_STEP, pick=3)
    want("its log", x10clock.replay(IN_STEP, picked.log).printed, picked.all[2].printed)
    listed = harness.call([sys.executable, "-c", "print('outcome 1 prints 7')"]).out
    want("held", x10clock.held_against(SEVEN, listed), True)
    want("not held", x10clock.held_against("def main() { Console.OUT.println(8); }", listed), x10clock.Outcome(1, (8,)))
    want("undecided", x10clock.outcomes(RACING, limit=1).complete, False)
    want("its page", x10clock.page_of_outcome(IN_STEP, 2)[:15], b"<!DOCTYPE html>")


def searching() -> None:
    """The search that shows how far it is prints what the program does, with its status."""
    words = ["-m", "x10clock", "outcomes", "--limit", "30000"]
    with tempfile.NamedTemporaryFile("w", suffix=".x10") as file:
        file.write(UNEQUAL)
        file.flush()
        ended = harness.call([sys.executable, *words, file.name], cwd=TOP / "python", seconds=120)
    told = x10clock.call(["outcomes", "--limit", "30000", "-"], UNEQUAL)
    want("what is printed", (ended.status, ended.out), (told.status, told.out))
    shown = [line.split()[0] for line in ended.err.decode().splitlines()]
    want("what is shown", shown, ["10000", "20000", "30000"])


def steps() -> None:
    stepper = x10clock.Stepper(IN_STEP)
    moments = list(stepper)
    want("the end", (moments[-1].over, moments[-1].printed), (True, (1, 2, 11, 12)))
    want("its log", x10clock.replay(IN_STEP, moments[-1].log).steps, 19)
    want("back", stepper.back(len(moments)).steps, 0)
    want("where", stepper.where().splitlines()[0], "steps 0")
    last = list(x10clock.Stepper(IN_STEP, choose=lambda moment: moment.who[-1]))[-1]
    want("the greatest", last.printed, x10clock.run(IN_STEP, order="last").printed)
    with contextlib.suppress(ValueError):
        raise Wrong(f"a step of nobody: {stepper.take(77)}")


def threads() -> None:
    wanted, wrong = (x10clock.explain(IN_STEP), x10clock.run(IN_STEP)), []

    def work() -> None:
        wrong.extend(1 for _ in range(50) if (x10clock.explain(IN_STEP), x10clock.run(IN_STEP)) != wanted)

    several = [threading.Thread(target=work) for _ in range(4)]
    for thread in several:
        thread.start()
    for thread in several:
        thread.join()
    want("four threads at once", len(wrong), 0)


# ---- a class


def classes(work: pathlib.Path) -> None:
    handed_in = work / "handed-in"
    handed_in.mkdir()
    text = IN_STEP.read_text("utf-8")
    for name, one in {
        "anna": text,
        "ben": DROPPED.read_text("utf-8"),
        "cleo": text.replace("clocked async", "async"),
        "dora": text.replace("println(1);", "println(1)"),
        "emil": ENDLESS,
    }.items():
        (handed_in / f"{name}.x10").write_text(one, "utf-8")
    (work / "right.list").write_bytes(x10clock.call(["outcomes", "-"], IN_STEP).out)
    words = ["grade", handed_in, "--expect", work / "right.list", "--seconds", "5", "--limit", "5000"]
    tables = ["--csv", work / "table.csv", "--junit", work / "table.xml", "--out", work / "shown"]
    ended = harness.call([sys.executable, "-m", "x10clock", *words, *tables], cwd=TOP / "python", seconds=120)
    want("status", ended.status, 1)
    rows = list(csv.DictReader(io.StringIO((work / "table.csv").read_text("utf-8"))))
    got = {row["file"]: (row["verdict"], row["rule"], row["line"]) for row in rows}
    want("anna", got["anna.x10"], ("accepted", "", ""))
    want("ben", got["ben.x10"], ("refused", "V11", "8"))
    want("cleo", got["cleo.x10"][0], "wrong")
    want("dora", got["dora.x10"][:2], ("refused", "F2"))
    want("emil", got["emil.x10"][0], "undecided")
    log, page = (pathlib.Path(rows[2][kind]) for kind in ("log", "page"))
    shown = x10clock.replay(handed_in / "cleo.x10", log).printed
    want("cleo's log", " ".join(["prints", *map(str, shown)]), rows[2]["detail"])
    want("cleo's page", page.read_bytes()[:15], b"<!DOCTYPE html>")
    suite = ElementTree.parse(work / "table.xml").getroot()
    want("JUnit", (suite.get("tests"), suite.get("failures"), suite.get("errors")), ("5", "3", "1"))
    for line in re.findall(r"^\w+\.x10 .*", PAGE.read_text("utf-8"), re.MULTILINE):
        want(f"the page's line {line}", line in ended.out.decode().splitlines(), True)
    last = ended.out.decode().splitlines()[-1]
    want("the table's last line", last, "5 programs: 1 accepted, 2 refused, 1 wrong, 1 undecided")


# ---- the wheel, and the page


def wheels(folder: pathlib.Path, work: pathlib.Path) -> str:
    """Whether the wheel can be installed, and answers there."""
    environment = {name: value for name, value in os.environ.items() if name not in ("X10CLOCK_LIBRARY", "PYTHONPATH")}
    made = harness.call([sys.executable, TOP / "python/make_wheel.py", folder, work])
    want("wheel", made.status, 0)
    pip = harness.call([sys.executable, "-m", "pip", "--version"])
    if pip.status:
        return "pip isn't installed: the wheel isn't tried"
    wheel, there = made.out.decode().strip(), work / "there"
    words = [sys.executable, "-m", "pip", "install", "-q", "--no-index", "--target", there, wheel]
    installed = harness.call(words, seconds=120, env=environment)
    want(f"pip: {installed.err.decode()}", installed.status, 0)
    code = "import x10clock; print(x10clock.run('def main() { Console.OUT.println(7); }').printed)"
    asked = harness.call([sys.executable, "-c", code], cwd=there, env=environment)
    want(f"the wheel: {asked.err.decode()}", asked.out, b"(7,)\n")
    return "the wheel answers"


def pages(folder: pathlib.Path, work: pathlib.Path) -> int:
    """Runs each block of Python and C of the page, and compares what it prints with the block behind it."""
    blocks = re.findall(r"^```(\w*)\n(.*?)^```", PAGE.read_text("utf-8"), re.MULTILINE | re.DOTALL)
    count = 0
    for (kind, code), (behind, said) in zip(blocks, [*blocks[1:], ("", "")], strict=True):
        if kind not in ("python", "c"):
            continue
        ended = by_c(code, folder, work) if kind == "c" else harness.call([sys.executable, "-c", code], cwd=TOP)
        if behind == "text":
            want(f"the page's block {count + 1}: {ended.err.decode()}", ended.out.decode(), said)
        want(f"the page's block {count + 1}", (ended.status, ended.err), (0, b""))
        count += 1
    return count


def by_c(code: str, folder: pathlib.Path, work: pathlib.Path) -> harness.Ended:
    """A program in C, with the library."""
    source, program = work / "page.c", work / "page"
    source.write_text(code, "utf-8")
    rest = [f"-I{folder}", "-o", program, source, f"-L{folder}", "-lx10clock", f"-Wl,-rpath,{folder}"]
    words = [os.environ.get("CC", "cc"), "-std=c11", "-Wall", "-Wextra", "-Werror", *rest]
    subprocess.run([str(word) for word in words], check=True)
    return harness.call([program], cwd=TOP)


def main() -> int:
    parser = argparse.ArgumentParser(description="Tests the Python package.")
    parser.add_argument("--library", type=pathlib.Path, metavar="FOLDER", help="where the library is")
    folder = built(parser.parse_args().library)
    os.environ["X10CLOCK_LIBRARY"] = str(folder / "libx10clock.so")
    os.environ["PYTHONPATH"] = str(TOP / "python")
    for part in (checks, runs, races, searches, steps, threads):
        part()
    with tempfile.TemporaryDirectory() as work:
        classes(pathlib.Path(work))
        wheel = wheels(folder, pathlib.Path(work))
        count = pages(folder, pathlib.Path(work))
    print(f"package: all as wanted; {wheel}; {count} blocks of the page run")
    return 0 if count else 1


if __name__ == "__main__":
    sys.exit(main())
