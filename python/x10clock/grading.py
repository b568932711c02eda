"""Verdicts on programs that were handed in, against a list of the outcomes that may be."""

from __future__ import annotations

import csv
import io
import json
import os
import pathlib
import subprocess
import sys
from collections.abc import Iterable, Sequence
from concurrent.futures import ThreadPoolExecutor
from dataclasses import asdict, dataclass, field, replace
from typing import Literal
from xml.etree import ElementTree

from x10clock import programs
from x10clock.faults import OutOfMemory, Refused
from x10clock.library import Program, held

Word = Literal["accepted", "refused", "wrong", "undecided"]
WORDS: tuple[Word, ...] = ("accepted", "refused", "wrong", "undecided")
COLUMNS = ("file", "verdict", "rule", "line", "detail", "log", "page")


@dataclass(frozen=True)
class Asked:
    """What programs are held against, and how."""

    expected: bytes
    arguments: tuple[int, ...] = ()
    limit: int | None = None
    sets: bool = False


@dataclass(frozen=True)
class Verdict:
    """What is said of a program: `accepted` where each run prints one of the list; `refused`, by a rule at a line;
    `wrong`, where a run prints something else, with that run's log and page; `undecided`, where a limit was met."""

    verdict: Word
    rule: str = ""
    line: int | None = None
    detail: str = ""
    log: bytes = field(default=b"", repr=False)
    page: bytes = field(default=b"", repr=False)


@dataclass(frozen=True)
class Row:
    """A line of the table: a program, what is said of it, and where its log and its page are."""

    file: str
    verdict: Word
    rule: str = ""
    line: int | None = None
    detail: str = ""
    log: str = ""
    page: str = ""

    def cells(self) -> list[str]:
        return ["" if cell is None else str(cell) for cell in asdict(self).values()]


def judge(program: Program, asked: Asked) -> Verdict:
    """The verdict on a program. Raises `BadLog` where the list is none."""
    try:
        found = programs.held_against(program, asked.expected, *asked.arguments, limit=asked.limit, sets=asked.sets)
    except Refused as fault:
        told = programs.explain(program)
        return Verdict("refused", fault.rule, told.get("line"), str(told.get("message") or fault))
    except OutOfMemory:
        return Verdict("undecided", detail="out of memory")
    if found is True:
        return Verdict("accepted")
    if found is False:
        return Verdict("undecided", detail="there may be more outcomes than were looked at: give a greater --limit")
    return _wrong(program, asked, found)


def _wrong(program: Program, asked: Asked, outcome: programs.Outcome) -> Verdict:
    """A program with an outcome that isn't in the list."""
    given = asked.arguments
    log = programs.outcomes(program, *given, limit=asked.limit, pick=outcome.number, sets=asked.sets).log
    detail = " ".join(["prints", *map(str, outcome.printed)])
    return Verdict("wrong", detail=detail, log=log, page=programs.page(program, log, *given) if log else b"")


# ---- a process each


def worded(asked: Asked, expected: os.PathLike[str] | str) -> list[str]:
    """What is asked, as words of a command line."""
    words = ["--expect", os.fspath(expected), *(f"--arg={number}" for number in asked.arguments)]
    words += ["--limit", str(asked.limit)] if asked.limit is not None else []
    return words + (["--sets"] if asked.sets else [])


def row_of(path: pathlib.Path, asked: Asked, out: pathlib.Path | None) -> Row:
    """The verdict on a file as a line of the table, with log and page in a folder."""
    verdict = judge(path, asked)
    row = Row(path.name, verdict.verdict, verdict.rule, verdict.line, verdict.detail)
    if out is None or not verdict.log:
        return row
    out.mkdir(parents=True, exist_ok=True)
    log, page = out / f"{path.stem}.log", out / f"{path.stem}.html"
    log.write_bytes(verdict.log)
    page.write_bytes(verdict.page)
    return replace(row, log=str(log), page=str(page))


def row_in_time(path: pathlib.Path, words: Sequence[str], seconds: float) -> Row:
    """The same by a process of its own, which is ended after so many seconds. Raises `BadLog` where it says so."""
    command = [sys.executable, "-m", "x10clock", "judge", *words, "--", str(path)]
    try:
        ran = subprocess.run(command, check=False, capture_output=True, timeout=seconds)
    except subprocess.TimeoutExpired:
        return Row(path.name, "undecided", detail=f"no verdict in {seconds:g} seconds")
    if ran.returncode == 0:
        return Row(**json.loads(ran.stdout))
    said = ran.stderr.decode("utf-8", "replace").strip().rpartition("\n")[2]
    return Row(path.name, "undecided", detail=said or f"its process ended with {ran.returncode}")


def grade(paths: Iterable[pathlib.Path], words: Sequence[str], seconds: float, jobs: int) -> list[Row]:
    """The table, a process for each program and so many at once."""
    with ThreadPoolExecutor(max_workers=jobs) as workers:
        return list(workers.map(lambda path: row_in_time(path, words, seconds), paths))


def checked_list(expected: Program) -> bytes:
    """A list of outcomes, if it is one. Raises `BadLog`."""
    text = held(expected)
    programs.held_against("def main() { }", text)
    return text


# ---- as tables


def as_table(rows: Sequence[Row]) -> str:
    """A line for each program, and how many there are of each verdict."""
    wide = max((len(row.file) for row in rows), default=0)
    lines = [f"{row.file:{wide}} {row.verdict:9} {_said(row)}".rstrip() for row in rows]
    counts = (f"{sum(row.verdict == word for row in rows)} {word}" for word in WORDS)
    return "\n".join([*lines, f"{len(rows)} programs: {', '.join(counts)}"]) + "\n"


def _said(row: Row) -> str:
    """`V11 line 8: a slot may hold something else here ..`."""
    place = f" line {row.line}" if row.line else ""
    head = f"{row.rule}{place}: " if row.rule else ""
    return head + row.detail


def as_csv(rows: Sequence[Row]) -> str:
    """The same as comma-separated values, with a head."""
    text = io.StringIO()
    writer = csv.writer(text, lineterminator="\n")
    writer.writerow(COLUMNS)
    writer.writerows(row.cells() for row in rows)
    return text.getvalue()


def as_junit(rows: Sequence[Row], name: str = "x10clock") -> str:
    """The same for what reads JUnit's form: refused and wrong programs failed, undecided ones are errors."""
    failed = sum(row.verdict in ("refused", "wrong") for row in rows)
    undecided = sum(row.verdict == "undecided" for row in rows)
    counts = {"tests": str(len(rows)), "failures": str(failed), "errors": str(undecided)}
    suite = ElementTree.Element("testsuite", {"name": name, **counts})
    for row in rows:
        case = ElementTree.SubElement(suite, "testcase", {"name": row.file, "classname": name})
        if row.verdict != "accepted":
            kind = "error" if row.verdict == "undecided" else "failure"
            ElementTree.SubElement(case, kind, {"type": row.rule or row.verdict, "message": _said(row)})
    ElementTree.indent(suite)
    return '<?xml version="1.0" encoding="UTF-8"?>\n' + ElementTree.tostring(suite, encoding="unicode") + "\n"
