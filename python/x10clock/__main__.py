"""Grades programs from the command line, and shows how far a long search for outcomes is.

    python -m x10clock grade DIR --expect right.list [--jobs N] [--seconds S] [--csv FILE] [--junit FILE] [--out DIR]
    python -m x10clock judge FILE --expect right.list
    python -m x10clock outcomes FILE --limit N [--sets] [--arg N]

`grade` tells a verdict on each program of a folder, each by a process of its own that is ended after so many seconds.
`judge` tells that on one as a line of JSON; so a cluster can be asked, too, with GNU parallel:

    ls DIR/*.x10 | parallel --timeout 10 python -m x10clock judge --expect right.list {} > verdicts.jsonl

`outcomes` prints and answers what `x10clock outcomes` does with the same words, and shows on standard error how many
worlds were searched, and how many outcomes are known by then; it takes up to three times as long.
"""

from __future__ import annotations

import argparse
import json
import os
import pathlib
import sys
from dataclasses import asdict

from x10clock import grading, searching
from x10clock.faults import Fault, known
from x10clock.library import call


def _add_search(parser: argparse.ArgumentParser, *, is_limited: bool) -> None:
    """What is searched."""
    parser.add_argument("--arg", type=int, action="append", default=[], metavar="N", help="a number that main is given")
    parser.add_argument("--limit", type=int, required=is_limited, metavar="N", help="how many worlds are looked at")
    parser.add_argument("--sets", action="store_true", help="numbers count in whatever order")


def _add_asked(parser: argparse.ArgumentParser) -> None:
    """What programs are held against."""
    parser.add_argument("--expect", type=pathlib.Path, required=True, metavar="LIST", help="the outcomes that may be")
    _add_search(parser, is_limited=False)
    parser.add_argument("--out", type=pathlib.Path, metavar="DIR", help="where logs and pages of wrong programs go")


def _given() -> argparse.Namespace:
    parser = argparse.ArgumentParser(prog="python -m x10clock", description="Grades clocked programs.")
    what = parser.add_subparsers(dest="what", required=True)
    grade = what.add_parser("grade", help="a verdict on each program of a folder")
    grade.add_argument("folder", type=pathlib.Path, metavar="DIR")
    grade.add_argument("--jobs", type=int, default=os.cpu_count() or 1, metavar="N", help="so many at once")
    grade.add_argument("--seconds", type=float, default=10.0, metavar="S", help="the most that one may take")
    grade.add_argument("--csv", type=pathlib.Path, metavar="FILE", help="the table as comma-separated values")
    grade.add_argument("--junit", type=pathlib.Path, metavar="FILE", help="the table in JUnit's form")
    judge = what.add_parser("judge", help="the verdict on one program, as a line of JSON")
    judge.add_argument("file", type=pathlib.Path, metavar="FILE")
    for parser_of in (grade, judge):
        _add_asked(parser_of)
    outcomes = what.add_parser("outcomes", help="all outcomes of one program, by a search that shows how far it is")
    outcomes.add_argument("file", type=pathlib.Path, metavar="FILE")
    _add_search(outcomes, is_limited=True)
    return parser.parse_args()


def _asked(given: argparse.Namespace) -> grading.Asked:
    return grading.Asked(grading.checked_list(given.expect), tuple(given.arg), given.limit, given.sets)


def _grade(given: argparse.Namespace) -> int:
    """Tells the table, and writes it where that is asked for: 1 where not all are accepted."""
    words = grading.worded(_asked(given), given.expect)
    words += ["--out", str(given.out)] if given.out else []
    rows = grading.grade(sorted(given.folder.glob("*.x10")), words, given.seconds, given.jobs)
    print(grading.as_table(rows), end="")
    if given.csv:
        given.csv.write_text(grading.as_csv(rows), encoding="utf-8")
    if given.junit:
        given.junit.write_text(grading.as_junit(rows), encoding="utf-8")
    return 0 if all(row.verdict == "accepted" for row in rows) else 1


def _judge(given: argparse.Namespace) -> int:
    print(json.dumps(asdict(grading.row_of(given.file, _asked(given), given.out))))
    return 0


def _outcomes(given: argparse.Namespace) -> int:
    """Shows how far the search is, and then prints all that was found."""
    for found in searching.widening(given.file, *given.arg, limit=given.limit, sets=given.sets):
        searching.show(found)
    print(file=sys.stderr, end="\n" if sys.stderr.isatty() else "")
    words = ["outcomes", "--limit", str(given.limit), *(["--sets"] if given.sets else [])]
    words += [f"--arg={number}" for number in given.arg]
    answer = known(call([*words, "--", str(given.file)], given.file))
    sys.stdout.buffer.write(answer.out)
    return answer.status


DONE_BY = {"grade": _grade, "judge": _judge, "outcomes": _outcomes}


def main() -> int:
    given = _given()
    try:
        return DONE_BY[given.what](given)
    except Fault as fault:
        print(f"x10clock: {fault}", file=sys.stderr)
        return fault.answer.status
    except OSError as fault:
        print(f"x10clock: {fault}", file=sys.stderr)
        return 5


if __name__ == "__main__":
    sys.exit(main())
