#!/usr/bin/env python3
"""Looks whether tests/reference/meaning.py would notice a wrong compiler: each of these coders, put in the place of the
right one, has to be told otherwise.

    python3 -m tests.generated.meaning_bugs [CASES]

So many programs are tried at most for each, 500 where nothing else is said.
"""

from __future__ import annotations

import sys
from dataclasses import dataclass, replace

from tests.reference import meaning, modules, source
from tests.reference.source import Coder

RIGHT = source.Coder


class LeavesPrintsOut(Coder):
    def statement(self, stmt: source.Stmt) -> None:
        if not isinstance(stmt, source.Print):
            super().statement(stmt)


class ReadsTwice(Coder):
    """Reads a shared number a second time."""

    def write(self, word: str, slot: int, *more: object) -> None:
        super().write(word, slot, *more)
        if word == "get":
            super().write(word, slot, *more)


class MistakesClocks(Coder):
    """Resumes and drops the clock that was made first."""

    def statement(self, stmt: source.Stmt) -> None:
        if isinstance(stmt, source.OnClock):
            clocks = [declared for declared in self.slots if declared.means is source.Meaning.CLOCK]
            self.code.append([stmt.word, self.slots[clocks[0]]])
        else:
            super().statement(stmt)


class PutsElsewhere(Coder):
    """Puts a number where nobody reads it, where a name has one already."""

    def statement(self, stmt: source.Stmt) -> None:
        if isinstance(stmt, source.Assignment) and self.cell(stmt.name) is None:
            self.give(self.first_temporary + 1, stmt.right)
        else:
            super().statement(stmt)


class JumpsShort(Coder):
    """Does the last instruction of a `then` that isn't taken."""

    def branch(self, stmt: source.Branch) -> None:
        begin = len(self.code)
        super().branch(stmt)
        test = next(instr for instr in self.code[begin:] if instr[0] == "unless")
        if stmt.otherwise is None and test[4] - 1 > self.code.index(test, begin):
            test[4] -= 1


class Overlaps(Coder):
    """Computes both operands in one place."""

    def both(self, left: source.Expr, right: source.Expr, free: int) -> tuple[int, int]:
        return self.eval(left, free), self.eval(right, free)


class CapturesOthers(Coder):
    """Hands numbers on in another order."""

    def statement(self, stmt: source.Stmt) -> None:
        super().statement(stmt)
        if isinstance(stmt, source.Async):
            body, slots = self.code[-1][1:]
            self.code[-1][2] = slots[: len(body.params)] + slots[len(body.params) :][::-1]


class TurnsLess(Coder):
    """A loop of several turns has one less."""

    def around(self, opener: list, body: source.Stmt, closer: str) -> None:
        super().around(opener, body, closer)
        if opener[0] == "for" and opener[2] < opener[3]:
            opener[3] -= 1


class AddsInTwoSteps(Coder):
    """An addition to a shared number that others may come between."""

    def statement(self, stmt: source.Stmt) -> None:
        if isinstance(stmt, source.Addition):
            free = self.first_temporary
            self.write("get", free, self.cell(stmt.name))
            self.write("add", free, free, self.eval(stmt.term, free + 1))
            self.code.append(["put", self.cell(stmt.name), free])
        else:
            super().statement(stmt)


class ClosesEarly(Coder):
    """Closes a finish before its statement."""

    def around(self, opener: list, body: source.Stmt, closer: str) -> None:
        super().around(opener, source.Block([]) if opener[0] == "finish" else body, closer)
        if opener[0] == "finish":
            self.statement(body)


class ForgetsDrops(Coder):
    """Keeps the clock of a `clocked finish` at its end."""

    def between(self, body: source.Stmt, slot: int) -> None:
        super().between(body, slot)
        self.code.pop()


class DropsAtOnce(Coder):
    """Drops the clock of a `clocked finish` in front of its statement."""

    def between(self, body: source.Stmt, slot: int) -> None:
        super().between(source.Block([]), slot)
        self.statement(body)


class MakesEarly(Coder):
    """Makes the clock of a `clocked finish` before the finish opens."""

    def around(self, opener: list, body: source.Stmt, closer: str) -> None:
        super().around(opener, body, closer)
        if isinstance(body, source.Between):
            self.code.insert(self.code.index(opener), self.code.pop(self.code.index(opener) + 1))


class DropsLate(Coder):
    """Drops the clock of a `clocked finish` behind the finish."""

    def around(self, opener: list, body: source.Stmt, closer: str) -> None:
        super().around(opener, body, closer)
        if isinstance(body, source.Between):
            self.code[-2:] = self.code[:-3:-1]


class HandsOnOuterClocks(Coder):
    """Starts a `clocked async` on the clock of the outermost `clocked finish` around it."""

    open: tuple[int, ...] = ()

    def between(self, body: source.Stmt, slot: int) -> None:
        self.open += (slot,)
        super().between(body, slot)
        self.open = self.open[:-1]

    def statement(self, stmt: source.Stmt | source.Between) -> None:
        super().statement(stmt)
        if isinstance(stmt, source.Async) and stmt.clocked is not None and self.open:
            self.code[-1][2][0] = self.open[0]


@dataclass(frozen=True)
class Again:
    """Takes the limit of a loop once more."""

    loop: source.Loop


class TakesLimitsAnew(Coder):
    """Takes the limit of a loop anew at the end of each turn."""

    def statement(self, stmt: source.Stmt | Again) -> None:
        match stmt:
            case Again(loop):
                self.into(loop.limit, self.slots[self.names.limits[loop.name.at]], self.first_temporary)
            case source.Loop() if stmt.limit is not None:
                super().statement(replace(stmt, body=source.Block([stmt.body, Again(stmt)])))
            case _:
                super().statement(stmt)


class LimitsByItself(Coder):
    """A loop with a limit asks the slot that counts for it."""

    def around(self, opener: list, body: source.Stmt, closer: str) -> None:
        if opener[0] == "forto":
            opener[3] = opener[1]
        super().around(opener, body, closer)


class LimitsByNames(Coder):
    """Where a name alone is a limit, what is assigned to it inside changes the limit too."""

    def loop(self, stmt: source.Loop) -> None:
        begin = len(self.code)
        super().loop(stmt)
        if isinstance(stmt.limit, source.Name):
            for instr in self.code[begin:]:
                if instr[0] == "forto" and instr[1] == self.slot(stmt.name):
                    instr[3] = self.slot(stmt.limit)


class ForgetsLimits(Coder):
    """A loop with a limit goes as far as the number of the text."""

    def around(self, opener: list, body: source.Stmt, closer: str) -> None:
        if opener[0] == "forto":
            opener[:] = ["for", opener[1], opener[2], opener[4]]
        super().around(opener, body, closer)


class Swaps(Coder):
    """Takes the second operand of `-` first."""

    def both(self, left: source.Expr, right: source.Expr, free: int) -> tuple[int, int]:
        return super().both(left, right, free)[::-1]


WRONG = [
    LeavesPrintsOut, ReadsTwice, MistakesClocks, PutsElsewhere, JumpsShort, Overlaps, CapturesOthers, TurnsLess,
    AddsInTwoSteps, ClosesEarly, Swaps, TakesLimitsAnew, LimitsByItself, LimitsByNames, ForgetsLimits, ForgetsDrops,
    DropsAtOnce, MakesEarly, DropsLate, HandsOnOuterClocks,
]  # fmt: skip


def first_told(coder: type[Coder], cases: int) -> str | None:
    """How the first program that this coder gets wrong is told otherwise."""
    for case in range(cases):
        source.Coder = RIGHT
        text = meaning.text_of_case(1, case)
        source.Coder = coder
        try:
            meaning.compare_runs(text, modules.read_module(source.module_text(text).encode()), 3)
        except meaning.Differs as differs:
            return f"program {case}: {differs}"
        except source.Fault:
            continue
    return None


def main(words: list[str]) -> int:
    cases, missed = int(words[0]) if words else 500, 0
    for coder in WRONG:
        told = first_told(coder, cases)
        if told is None:
            missed += 1
            print(f"{coder.__name__}: not noticed in {cases} programs", file=sys.stderr)
        elif words:
            print(f"{coder.__name__}: {told}")
    source.Coder = RIGHT
    print(f"wrong coders: {len(WRONG)}, {missed} not noticed")
    return 1 if missed else 0


if __name__ == "__main__":
    sys.exit(main(sys.argv[1:]))
