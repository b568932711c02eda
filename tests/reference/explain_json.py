"""The reference for what `explain --json` prints on standard output: from docs/EXPLAIN.md, "As JSON" and its tables,
and the line of `check`."""

from __future__ import annotations

import json
import re
from collections.abc import Iterable

from tests.reference import origins
from tests.reference.explain import (
    BOUND,
    FRONT,
    PLACE,
    TEXT,
    WITHOUT_PLACE,
    WORD,
    further,
    notes_on,
    notes_on_accepted,
    place_title,
    position,
    repair_at,
    tables,
    wrong_in_source,
)
from tests.reference.sums import Note

ACCEPTED = re.compile(r"accepted steps (?P<steps>\d+) activities (?P<activities>\d+) clocks (?P<clocks>\d+)\n?")
Members = dict[str, object]


def line_of(members: Members) -> str:
    return json.dumps(members, ensure_ascii=False, separators=(",", ":"), sort_keys=True) + "\n"


def begin(text: bytes, at: int) -> Members:
    line, column = position(text, at)
    return {"line": line, "column": column}


def place(text: bytes, at: int) -> Members:
    """Where an offset lies, and where the name, the number or the sign ends that is there."""
    at = min(at, len(text))
    line, column = position(text, min(max(WORD.match(text, at).end(), at + 1), len(text)))
    return begin(text, at) | {"end_line": line, "end_column": column}


def notes_of(text: bytes | None, notes: Iterable[Note]) -> Members:
    return {"notes": [{"text": words} | ({} if text is None or at is None else place(text, at)) for at, words in notes]}


def refused(file: str, title: str) -> Members:
    """By a title as `F2 Syntax`."""
    rule, name = title.split()
    wrong, repair = tables()[0][rule]
    return {"accepted": False, "file": file, "rule": rule, "name": name, "message": wrong, "repair": repair}


def front(file: str, text: bytes, found: re.Match[str]) -> Members:
    said, at = refused(file, found["title"]), min(int(found["at"]), len(text))
    return (
        said
        if found["rule"] in WITHOUT_PLACE
        else said | place(text, at) | {"repair": repair_at(found["rule"], text, at)}
    )


def one_front(file: str, text: bytes, said: str) -> Members:
    """What is said of one fault, with its notes."""
    return front(file, text, FRONT.fullmatch(said)) | notes_of(text, notes_on(text, said, False))


def by_place(file: str, text: bytes | None, found: re.Match[str], kinds: list[str]) -> Members:
    """What is said of a place that the verifier refuses; of that of a source text with its lines and names."""
    number, at = map(int, re.findall(r"\d+", found["place"]))
    unit = None if text is None else origins.origins(text)[number]
    said = refused(file, found["title"]) | {"unit": number, "place": at}
    if unit:
        said |= {"message": wrong_in_source(said["rule"])}
        said |= {"in": unit.name or f"async at {place_title(text, unit.at)}"} | place(text, unit.offsets[at])
    if found["walk"]:
        slot, kind = int(found["slot"]), found["kind"]
        stops = zip(map(int, found["walk"].split()), kinds, strict=True)
        walk = [
            {"place": stop, "kind": held} | (begin(text, unit.offsets[stop]) if unit else {}) for stop, held in stops
        ]
        said |= {"slot": slot, "kind": kind, "holds": tables()[1][kind], "walk": walk}
        said |= {"slot_name": unit.slots.get(slot)} if unit else {}
    return said


def explained(file: str, text: bytes, line: str, kinds: list[str], is_module: bool) -> str:
    """What is said where standard error gets this line; the kinds are those of the walk."""
    said = line.removeprefix("x10clock: ").removesuffix("\n")
    if FRONT.fullmatch(said):
        behind, more = further(text, said)
        others = {"further": [one_front(file, text, line) for line in behind], "more": more} if behind else {}
        return line_of(one_front(file, text, said) | others)
    source, notes = None if is_module else text, notes_on(text, said, is_module)
    if found := TEXT.fullmatch(said):
        return line_of(refused(file, found["title"]))
    if found := PLACE.fullmatch(said):
        return line_of(by_place(file, source, found, kinds) | notes_of(source, notes))
    if found := BOUND.fullmatch(said):
        return line_of(refused(file, found["title"]) | {"limit": int(found["limit"])} | notes_of(source, notes))
    return ""


def accepted(file: str, text: bytes, line: str, is_module: bool) -> str:
    """What is said of a program of which `check` says this line."""
    found = ACCEPTED.fullmatch(line)
    numbers = {key: int(number) for key, number in found.groupdict().items()} if found else {}
    return line_of(
        {"accepted": True, "file": file}
        | numbers
        | notes_of(None if is_module else text, notes_on_accepted(text, is_module))
    )
