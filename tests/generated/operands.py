#!/usr/bin/env python3
"""Changes each operand, each name and each field of some modules to each value that might be taken for it, and looks
what the program says.

    python3 -m tests.generated.operands [--jobs N] [--program PATH]

2 jobs and crates/x10clock/out/x10clock where nothing else is said. The modules are what some texts of
tests/program/rows are compiled to. A number becomes 0 and one more; where it may have no sign also the greatest of 16
bits, one beyond it, and -1; where it may also both ends of 64 bits and one beyond each. A name becomes each other name,
a comparison each other one, a letter of `params` the other, and each instruction is left out, and doubled. Each of
these modules is refused as the reference says (tests/reference/modules.py), or runs in the three orders and by chance
as it says, within its bound; its logs are played again and say the same. Besides, each beginning of a module's text,
and brackets within brackets, are no JSON.
"""

from __future__ import annotations

import argparse
import concurrent.futures
import copy
import itertools
import json
import pathlib
import re
import sys
import tempfile
from collections.abc import Iterator

from tests import harness
from tests.generated import generated, logs
from tests.generated.mutations import SHORT, Comparer, Summary, in_order, refused
from tests.harness import TOP
from tests.reference import modules, source
from tests.reference.modules import Accepted, ByChance, Greedy, Order, Role, Way

# Two in step; a clock dropped on one of two ways; activities that add; a loop with a limit, whose main takes a number.
TEXTS = [
    (TOP / "tests/program/rows/in-step.x10").read_bytes(),
    b"def main() { val c = Clock.make(); val n = 1; if (n == 1) { c.drop(); } c.resume(); }",
    (TOP / "tests/program/rows/shared-sum.x10").read_bytes(),
    (TOP / "tests/program/rows/as-many.x10").read_bytes(),
]
ROW = (
    b'{"version":1,"shared":[],"units":[{"kind":"main","params":"","slots":3,'
    b'"code":[["lit",0,2],["lit",1,3],["add",0,0,1],["make",2],["advance"],["print",0],["ret"]]}]}'
)
WAYS: list[Way] = [*Order, ByChance(7), Greedy(), Greedy(2)]
UNSIGNED = (0, 65_535, 65_536, -1)
SIGNED = (0, -(2**63), -(2**63) - 1, 2**63 - 1, 2**63)
CHUNK = 50
SHOWN = 5


def plain_modules() -> list[dict]:
    return [json.loads(source.module_text(text)) for text in TEXTS]


def others(role: Role, operand: object) -> Iterator[object]:
    """What an operand becomes."""
    if role is Role.OPERATOR:
        yield from (name for name in modules.COMPARISONS if name != operand)
    elif role is Role.ARGUMENTS:
        for at, slot in enumerate(operand):
            yield from (operand[:at] + [other] + operand[at + 1 :] for other in numbers(UNSIGNED, slot))
        yield operand[:-1] if operand else [0]
        yield operand + operand[:1]
    else:
        yield from numbers(SIGNED if role is Role.LITERAL else UNSIGNED, operand)


def numbers(edges: tuple[int, ...], number: int) -> Iterator[int]:
    yield from (other for other in {*edges, number + 1} if other != number)


def instructions(unit: dict) -> Iterator[list]:
    """The code with one instruction changed, left out or doubled."""
    code = unit["code"]
    for at, (name, *operands) in enumerate(code):
        for place, (role, operand) in enumerate(zip(modules.ROLES[name], operands)):
            for other in others(role, operand):
                yield code[:at] + [[name, *operands[:place], other, *operands[place + 1 :]]] + code[at + 1 :]
        for other in modules.ROLES:
            yield code[:at] + [[other, *operands]] + code[at + 1 :]
        yield generated.without(code, at)
        yield code[: at + 1] + code[at:]


def units(unit: dict) -> Iterator[dict]:
    """The unit with one thing changed."""
    yield from ({**unit, "code": code} for code in instructions(unit))
    yield from ({**unit, "slots": slots} for slots in numbers((*UNSIGNED, 64, 65), unit["slots"]))
    yield from ({**unit, "kind": kind} for kind in ("main", "method", "body", "other"))
    letters = unit["params"]
    for at, letter in enumerate(letters):
        yield {**unit, "params": letters[:at] + ("n" if letter == "c" else "c") + letters[at + 1 :]}
    yield {**unit, "params": letters + "n"}
    yield {**unit, "params": letters[:-1]}


def changed(module: dict) -> Iterator[dict]:
    """The module with one thing changed."""
    for at, unit in enumerate(module["units"]):
        for other in units(unit):
            yield {**module, "units": module["units"][:at] + [other] + module["units"][at + 1 :]}
    for at, number in enumerate(module["shared"]):
        for other in numbers(SIGNED, number):
            yield {**module, "shared": module["shared"][:at] + [other] + module["shared"][at + 1 :]}
    yield from ({**module, "version": version} for version in (0, 1, 2, 3))
    for key in module:
        without = copy.copy(module)
        del without[key]
        yield without


def texts() -> list[bytes]:
    found = [json.dumps(one, separators=(",", ":")).encode() for module in plain_modules() for one in changed(module)]
    return list(dict.fromkeys(found))


def no_json() -> list[bytes]:
    return [ROW[:end] for end in range(len(ROW))] + [b"[" * 200 + b"]" * 200, b"[" * 1_000_000, b'{"a":' * 1_000_000]


def replayed(ran: tuple[int, str, str]) -> tuple[int, str, str]:
    """What a replay answers where this is the answer of a run: a log doesn't say where rounds begin."""
    return ran[0], re.sub(r" rounds [0-9]+\n$", "\n", ran[1]), ran[2]


def replays(program: logs.Program, text: bytes, judged: Accepted) -> Iterator[str]:
    """Whether the logs of a module's runs are played again."""
    given = logs.Text(text, True).given(*[3] * judged.module.wants)
    for way in WAYS:
        ran, log = program.run(given, way)
        again = program.answer(given, log, "replay")
        if ran[0] != 0 or again != replayed(ran):
            yield f"run --log {' '.join(way.words())}: {ran}\n    its replay: {again}"


def is_logged(judged: Accepted) -> bool:
    """Whether each order ends soon."""
    runs = (logs.logs.driven(judged.module, way, (3,) * judged.module.wants) for way in WAYS)
    return all(next(itertools.islice(run, SHORT, None), None) is None for run in runs)


def looked_at(path: pathlib.Path, cases: list[tuple[int, bytes]]) -> Summary:
    comparer, summary = Comparer(path, 1_000, False), Summary()
    with tempfile.TemporaryDirectory() as folder:
        program = logs.Program(path, folder)
        for number, text in cases:
            outcome = comparer.outcome(text)
            judged = modules.judge(text)
            if isinstance(judged, Accepted) and is_logged(judged):
                outcome.differences += replays(program, text, judged)
                outcome.counts["logs played again"] += len(WAYS)
            summary.add(number, text, outcome)
    return summary


def without_json(path: pathlib.Path) -> tuple[int, list[str]]:
    """How many texts that are no JSON there are, and of which the program says something else."""
    comparer, wanted = Comparer(path, 0, False), refused("M1 NotJson")
    asked = no_json()
    return len(asked), [
        f"{text[:200]!r}: {answer}" for text in asked if (answer := comparer.ask(text, "check")) != wanted
    ]


def main() -> int:
    parser = argparse.ArgumentParser(description="Compares what x10clock answers of modules with one thing changed.")
    parser.add_argument("--jobs", type=int, default=2)
    harness.add_program(parser)
    given = parser.parse_args()
    path, summary = given.program, Summary()
    cases = list(enumerate(texts()))
    chunks = [cases[start : start + CHUNK] for start in range(0, len(cases), CHUNK)]
    with concurrent.futures.ProcessPoolExecutor(given.jobs) as pool:
        for part in pool.map(looked_at, [path] * len(chunks), chunks):
            summary.join(part)
    beginnings, differing = without_json(path)
    for label in sorted(summary.labels, key=in_order):
        print(f"{summary.labels[label]:8} {label}")
    for name, count in sorted(summary.counts.items()):
        print(f"{count:8} {name}")
    for case, text, differences in sorted(summary.differing)[:SHOWN]:
        print(f"case {case}: {text!r}", *differences, sep="\n    ", file=sys.stderr)
    print(*differing[:SHOWN], sep="\n", end="\n" if differing else "", file=sys.stderr)
    wrong = len(summary.differing) + len(differing)
    print(f"operands: {summary.cases} modules and {beginnings} texts that are no JSON, {wrong} with a difference")
    return 1 if wrong or not summary.counts["logs played again"] else 0


if __name__ == "__main__":
    sys.exit(main())
