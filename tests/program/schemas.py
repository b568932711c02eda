#!/usr/bin/env python3
"""Holds what the program tells as JSON against the schemas of docs/schemas, and beside what it tells as lines.

    python3 -m tests.program.schemas [--program PATH]

Each text of the rows of tests/program/programs and each example is checked. Of those that are accepted, and whose runs
are short, one in so many is run in some orders, with its events and how things stand, also by a log that ends too
early, its races, how long it had to take, and its outcomes, alone and against lists. Each answer fits its schema, has
no key that isn't in it, and tells the numbers that the lines tell. An answer without a key that the schema wants
doesn't fit, nor does one whose last number is a text.

Wants Python's jsonschema (Debian's python3-jsonschema); where that lacks, the schemas are left out, and it says so.
"""

from __future__ import annotations

import argparse
import copy
import json
import pathlib
import sys
import tempfile
from collections.abc import Iterator
from typing import Any

from tests import harness
from tests.generated.mutations import row_texts
from tests.harness import TOP
from tests.program import values_as_lines
from tests.program.values_as_lines import Value, place_of

try:
    import jsonschema
except ModuleNotFoundError:
    jsonschema = None

SCHEMAS = TOP / "docs/schemas"
# All but `check` is asked of one text in so many, if its runs take no more steps than this.
ASKED, MOST_STEPS = 8, 2_000
ORDERS = (("first",), ("last",), ("random", "--seed", "7"), ("greedy",), ("greedy", "--processors", "2"))
MODULE = ["--module"]
NAMES = ("check", "run", "outcomes", "expected", "events", "races", "where", "span")


class Wrong(Exception):
    """An answer isn't as it should be; the message says why."""


class Schema:
    """A schema, which counts the answers that were held against it."""

    def __init__(self, name: str) -> None:
        self.name, self.count = name, 0
        self.schema = json.loads((SCHEMAS / f"{name}.schema.json").read_text())
        self.held = None if jsonschema is None else jsonschema.Draft202012Validator(self.schema)
        self.keys = set(self.known(self.schema))

    def known(self, schema: Any) -> Iterator[str]:
        """The keys that some object of it may have."""
        if isinstance(schema, dict):
            yield from schema.get("properties", {})
            for part in schema.values():
                yield from self.known(part)
        elif isinstance(schema, list):
            for part in schema:
                yield from self.known(part)

    def take(self, line: str) -> Value:
        """The value of a line, which has to fit."""
        value: Value = json.loads(line)
        if json.dumps(value, ensure_ascii=False, separators=(",", ":"), sort_keys=True) != line:
            raise Wrong(f"isn't in one line, its keys in order: {line}")
        if strange := set(value) - self.keys:
            raise Wrong(f"has keys that aren't in {self.name}: {strange}")
        self.count += 1
        if self.held is not None:
            for fault in self.held.iter_errors(value):
                raise Wrong(f"doesn't fit {self.name}: {fault.message}: {line}")
            self.refuse(value)
        return value

    def refuse(self, value: Value) -> None:
        """A value without one of the keys that it wants, or with a text for the last number of a list, doesn't fit."""
        for key in self.wanted(value):
            if self.held.is_valid({name: part for name, part in value.items() if name != key}):
                raise Wrong(f"{self.name} takes it without {key}: {value}")
        for key in ("printed", "outcomes"):
            if isinstance(value.get(key), list) and value[key]:
                other = copy.deepcopy(value)
                other[key][-1] = "7"
                if self.held.is_valid(other):
                    raise Wrong(f"{self.name} takes a text for a number: {other}")

    def wanted(self, value: Value) -> list[str]:
        """The keys that it wants of such a value: of the first form in which it fits."""
        forms = self.schema.get("$defs", {})
        if "oneOf" not in self.schema:
            return list(self.schema["required"])
        names = [part["$ref"].rpartition("/")[2] for part in self.schema["oneOf"]]
        return next(forms[name]["required"] for name in names if set(forms[name]["required"]) <= set(value))


def words_of(value: Value) -> str:
    """What a line says of a step behind the word for what it did."""
    if "name" not in value:
        made = value["clock"] if value["event"] == "make" else ""
        numbers = (value.get("printed", ""), value.get("started", ""), made)
        return "".join(f" {number}" for number in numbers if number != "")
    if "clock" in value:
        return f" {value['name']}"
    change = f"{value['before']} -> " if value["event"] == "add" else ""
    return f" {value['name']} {change}{value['after']}"


class Asker:
    """Asks the program, and holds its answers."""

    def __init__(self, program: pathlib.Path, work: pathlib.Path) -> None:
        self.program, self.work = program, work
        self.schemas = {name: Schema(name) for name in NAMES}

    def call(self, *words: object, given: bytes) -> tuple[int, str, str]:
        return harness.call([self.program, *words], given).texts()

    def value(self, name: str, *words: object, given: bytes, beside: tuple[object, ...] = ()) -> Value:
        """The one value that a command tells, with the log beside the program where one is read."""
        _, out, err = self.call(*words, "--json", "-", *beside, given=given)
        if out.count("\n") != 1:
            raise Wrong(f"{words} tells no value on one line: {out}{err}")
        return self.schemas[name].take(out.removesuffix("\n"))

    def checked(self, text: bytes, form: list[str]) -> bool:
        """Whether a text is accepted, and its runs are short."""
        status, out, err = self.call("check", *form, "-", given=text)
        told = self.value("check", "check", *form, given=text)
        if told["accepted"] != (status == 0) or self.value("check", "explain", *form, given=text) != told:
            raise Wrong("isn't what `check` and `explain --json` say")
        if told["accepted"]:
            bounds = f"accepted steps {told['steps']} activities {told['activities']} clocks {told['clocks']}\n"
            if bounds != out:
                raise Wrong(f"has other bounds than {out}")
            return bool(told["steps"] <= MOST_STEPS)
        if not err.startswith(f"x10clock: {told['rule']} {told['name']}"):
            raise Wrong(f"has another rule than {err}")
        return False

    def ran(self, text: bytes, form: list[str], order: tuple[str, ...]) -> None:
        """A run, and the events of its log, and of one that ends before."""
        log = self.work / "log"
        given = [*form, "--order", *order]
        told = self.value("run", "run", *given, "--log", log, given=text)
        *numbers, last = self.call("run", *given, "-", given=text)[1].splitlines()
        rounds = f" rounds {told['rounds']}" if "rounds" in told else ""
        if told["printed"] != list(map(int, numbers)) or last != f"ended steps {told['steps']}{rounds}":
            raise Wrong("isn't what `run` prints")
        self.stepped(text, form, log)
        self.raced(text, form, (log,))
        self.timed(text, form, log)
        if order == ORDERS[0]:
            self.raced(text, form, ())
        head, *entries, _ = log.read_text().splitlines()
        some = entries[: len(entries) // 2]
        log.write_text("".join(f"{line}\n" for line in [head, *some, f"end {len(some)}"]))
        self.stepped(text, form, log)
        for at in ((), ("--at", told["steps"] // 4), ("--at", told["steps"])):
            self.stood(text, [*form, *map(str, at)], log)

    def stepped(self, text: bytes, form: list[str], log: pathlib.Path) -> None:
        """The events of a log, each beside its line."""
        status, out, err = self.call("events", *form, "--json", "-", log, given=text)
        lines = self.call("events", *form, "-", log, given=text)[1].splitlines()
        values = [self.schemas["events"].take(line) for line in out.splitlines()]
        if len(values) != len(lines):
            raise Wrong(f"tells {len(values)} values of {len(lines)} lines: {err}")
        for value, line in zip(values, lines, strict=True):
            self.beside(value, line)
        if (status == 6) != any("ended" in value for value in values):
            raise Wrong("says otherwise than its status whether the log ends too early")

    def raced(self, text: bytes, form: list[str], log: tuple[pathlib.Path, ...]) -> None:
        """The races of a log, or of the run in the order `first`, beside their lines."""
        status, out, _ = self.call("races", *form, "-", *log, given=text)
        value = self.value("races", "races", *form, given=text, beside=log)
        lines = out.splitlines()
        accesses = [access for race in value["races"] for access in (race["first"], race["second"])]
        if form:
            words = [f"race shared {race['shared']}" for race in value["races"]]
            told = [line.partition(":")[0] for line in lines if line.startswith("race ")]
        else:
            words = [f"race on {race['name']}" for race in value["races"]]
            told = [line for line in lines if line.startswith("race ")]
            for access, line in zip(accesses, (line for line in lines if line.startswith("step ")), strict=True):
                self.beside(access, line)
        count, *_, scope = value["text"].splitlines()
        if words != told or not out.endswith(value["text"]):
            raise Wrong(f"tells {words} and {value['text']!r} where `races` tells {told}")
        if count != f"races {len(words)}{'' if value['whole'] else ' and more'}":
            raise Wrong(f"says otherwise than {count} whether these are all")
        if value["every_schedule"] and value["prints_in_order"] != scope.endswith(" in this order"):
            raise Wrong(f"says otherwise than {scope} whether the prints are in one order")
        if (status == 6) == value["every_schedule"]:
            raise Wrong("says otherwise than its status whether every schedule prints these numbers")

    def stood(self, text: bytes, given: list[str], log: pathlib.Path) -> None:
        """How things stand behind the steps of a log: the value says all that the lines do."""
        out = self.call("where", *given, "-", log, given=text)[1]
        value = self.value("where", "where", *given, given=text, beside=(log,))
        if values_as_lines.standings(value) != out:
            raise Wrong(f"tells {value} where `where` tells {out}")

    def timed(self, text: bytes, form: list[str], log: pathlib.Path) -> None:
        """How long a run had to take: the value says all that the lines do."""
        out = self.call("span", *form, "-", log, given=text)[1]
        value = self.value("span", "span", *form, given=text, beside=(log,))
        if values_as_lines.timing(value) != out:
            raise Wrong(f"tells {value} where `span` tells {out}")

    def beside(self, value: Value, line: str) -> None:
        """Whether a value of a step tells what its line does."""
        if "ended" in value:
            told = str(value["text"])
        else:
            told = f"step {value['step']} act {value['act']} {place_of(value)} {value['event']}{words_of(value)}"
        if not line.startswith(told):
            raise Wrong(f"tells {value} where a line tells {line}")

    def found(self, text: bytes, form: list[str]) -> None:
        """The outcomes of a text, alone and against lists."""
        given = [*form, "--limit", "50"]
        lines = self.call("outcomes", *given, "-", given=text)[1].splitlines()
        told = self.value("outcomes", "outcomes", *given, given=text)
        if told["outcomes"] != [list(map(int, line.split()[3:])) for line in lines[:-1]]:
            raise Wrong("isn't what `outcomes` prints")
        if told["complete"] != lines[-1].endswith(" complete"):
            raise Wrong("says otherwise than `outcomes` whether that is all")
        for several in (lines, lines[1:]):
            (self.work / "list").write_text("".join(f"{line}\n" for line in several))
            expect = [*given, "--expect", self.work / "list"]
            held = self.value("expected", "outcomes", *expect, given=text)
            if f"{held['text']}\n" != self.call("outcomes", *expect, "-", given=text)[1]:
                raise Wrong("isn't what `outcomes --expect` prints")

    def ask(self, text: bytes, form: list[str], is_asked: bool) -> None:
        if self.checked(text, form) and is_asked and self.call("run", *form, "-", given=text)[0] == 0:
            for order in ORDERS:
                self.ran(text, form, order)
            self.found(text, form)


def texts() -> Iterator[tuple[str, bytes, list[str], bool]]:
    """Texts, each with where it is from, and whether all is asked of it."""
    for path in sorted((TOP / "tests/program/programs").glob("*.rows")):
        form = [] if path.name.startswith("sources") else MODULE
        for at, text in enumerate(row_texts(path)):
            yield f"{path.name} {at}", text, form, at % ASKED == 0
    for path in sorted((TOP / "examples").glob("*.x10")):
        yield path.name, path.read_bytes(), [], True


def main() -> int:
    parser = argparse.ArgumentParser(description="Holds what is told as JSON against its schemas.")
    harness.add_program(parser)
    program = parser.parse_args().program
    if jsonschema is None:
        print("schemas: no Python module jsonschema here (Debian: python3-jsonschema): schemas are left out")
    wrong = 0
    with tempfile.TemporaryDirectory() as work:
        asker = Asker(program, pathlib.Path(work))
        for name, text, form, is_asked in texts():
            try:
                asker.ask(text, form, is_asked)
            except (Wrong, ValueError) as fault:
                print(f"{name}: {fault}", file=sys.stderr)
                wrong += 1
        counts = ", ".join(f"{schema.name} {schema.count}" for schema in asker.schemas.values())
    print(f"schemas: {wrong} wrong; answers: {counts}")
    return 1 if wrong or not all(schema.count for schema in asker.schemas.values()) else 0


if __name__ == "__main__":
    sys.exit(main())
