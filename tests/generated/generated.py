"""Modules that nobody wrote, as JSON values and as texts: whole programs that are mostly accepted, programs with one
rule broken, short codes without order, programs at the limits, and values and bytes that were changed at some place.

A generator knows of each slot the kinds that it may have, so that it can keep to the rules; how often it doesn't look
is left to chance.
"""

from __future__ import annotations

import copy
import json
import random
from collections.abc import Callable, Iterator
from dataclasses import dataclass

Code = list[list]
Value = object

# Which operands of an instruction are places.
PLACES = {"unless": 4, "jump": 1, "for": 4, "forto": 5, "next": 1, "finish": 1, "endfinish": 1}
BEHIND = ("next", "endfinish")
CLOSERS = {"for": "next", "forto": "next", "finish": "endfinish"}
# Which operands of an instruction are slots, and which of them it reads as numbers.
SLOTS = {
    "lit": (1,), "copy": (1, 2), "add": (1, 2, 3), "sub": (1, 2, 3), "mul": (1, 2, 3), "unless": (2, 3), "for": (1,),
    "forto": (1, 3), "make": (1,), "resume": (1,), "drop": (1,), "print": (1,), "get": (1,), "put": (2,), "addto": (2,),
}  # fmt: skip
OPERATORS = ("eq", "ne", "lt", "le", "gt", "ge")
EDGES = (-(2**63), -(2**63) + 1, 2**63 - 1, 2**63 - 2, 2**32, -1, 0, 1)


def arguments(rng: random.Random, count: int) -> tuple[int, ...]:
    """So many numbers that a program may be given."""
    return tuple(rng.choice(EDGES) if rng.random() < 0.15 else rng.randrange(-2, 8) for _ in range(count))


def near(rng: random.Random, low: int, high: int) -> int:
    """A number about the first or the last one of a loop, within 64 bits."""
    return min(max(rng.choice([low, high]) + rng.choice([-1, 0, 0, 1]), -(2**63)), 2**63 - 1)
@dataclass(frozen=True)
class Raw:
    """A piece of text that stands in a value as it is."""

    text: str


# Whole programs.

FREE = frozenset("uno")
HELD = frozenset("lr")


@dataclass(frozen=True)
class Signature:
    """What others need to know of a unit."""

    number: int
    kind: str
    params: str
    steps: int
    activities: int


@dataclass
class Knobs:
    """How large a program gets, and how often its writer doesn't look."""

    statements: int
    steps: int
    activities: int
    shared: int
    slip: float
    forget: float


class UnitWriter:
    """Writes the code of one unit. For each slot it keeps the kinds that the slot may have: unset, number, live,
    resumed, out, by their first letters."""

    def __init__(
        self, rng: random.Random, knobs: Knobs, kind: str, params: str, slots: int, later: list[Signature]
    ) -> None:
        self.rng, self.knobs, self.kind, self.params, self.slots, self.later = rng, knobs, kind, params, slots, later
        self.code: Code = []
        self.state = [frozenset("lr" if letter == "c" else "n") for letter in params] + [frozenset("u")] * (
            slots - len(params)
        )
        self.homes = {slot: -1 for slot, letter in enumerate(params) if letter == "c"}
        self.block = -1
        # The slots that loops around this place count with, or take their limits from.
        self.loop_slots: list[int] = []
        self.times = 1
        self.steps = 1
        self.activities = 0

    def written(self) -> Code:
        least = self.knobs.statements // 2 if self.kind == "main" else 0
        self.statements(self.rng.randint(least, self.knobs.statements), 0)
        if self.kind == "method" or self.rng.random() < 0.2:
            self.drop_all(slot for slot in range(len(self.params), self.slots))
        self.code.append(["ret"])
        return self.code

    # Which slots fit.

    def slots_where(self, fits: Callable[[int], bool]) -> list[int]:
        return [slot for slot in range(self.slots) if fits(slot)]

    def numbers(self) -> list[int]:
        return self.slots_where(lambda slot: self.state[slot] == {"n"})

    def held(self) -> list[int]:
        return self.slots_where(lambda slot: self.state[slot] <= HELD)

    def free(self) -> list[int]:
        return self.slots_where(lambda slot: self.state[slot] <= FREE and slot not in self.loop_slots)

    # Writing.

    def emit(self, *instr: object) -> None:
        self.code.append(list(instr))
        self.steps += self.times * (2 if instr[0] == "advance" else 1)

    def statements(self, count: int, depth: int) -> None:
        for _ in range(count):
            if self.rng.random() < self.knobs.slip:
                self.slip()
            elif self.steps < self.knobs.steps:
                self.statement(depth)

    def statement(self, depth: int) -> None:
        ways = [
            self.arithmetic,
            self.make,
            self.make,
            self.resume,
            self.advance,
            self.advance,
            self.drop,
            self.show,
            self.share,
        ]
        ways += [self.start] * 5
        if depth < 3:
            ways += [lambda: self.loop(depth), lambda: self.branch(depth), lambda: self.finish(depth)] * 2
        for _ in range(4):
            if self.rng.choice(ways)():
                return

    def slip(self) -> None:
        """An instruction without a look at what fits."""
        rng = self.rng
        slot = lambda: rng.randrange(max(1, self.slots))
        way = rng.randrange(9)
        if way == 0:
            self.emit(rng.choice(["make", "resume", "drop", "print"]), slot())
        elif way == 1:
            self.emit("lit", slot(), rng.randrange(3))
        elif way == 2:
            self.emit("copy", slot(), slot())
        elif way == 3:
            self.emit(rng.choice(["add", "sub", "mul"]), slot(), slot(), slot())
        elif way == 4:
            self.emit("get", slot(), rng.randrange(self.knobs.shared + 1))
        elif way == 5:
            self.emit(rng.choice(["put", "addto"]), rng.randrange(self.knobs.shared + 1), slot())
        elif way == 6 and self.later:
            callee = rng.choice(self.later)
            self.emit("spawn" if callee.kind == "body" else "call", callee.number, [slot() for _ in callee.params])
        elif way == 7:
            self.emit("unless", rng.choice(OPERATORS), slot(), slot(), len(self.code) + 1)
        else:
            self.emit("drop", slot())

    def arithmetic(self) -> bool:
        free, numbers, rng = self.free(), self.numbers(), self.rng
        if not free:
            return False
        slot = rng.choice(free)
        way = rng.randrange(3) if numbers else 0
        if way == 0:
            self.emit("lit", slot, rng.choice(EDGES) if rng.random() < 0.2 else rng.randrange(-3, 6))
        elif way == 1:
            self.emit("copy", slot, rng.choice(numbers))
        else:
            self.emit(rng.choice(["add", "sub", "mul"]), slot, rng.choice(numbers), rng.choice(numbers))
        self.state[slot] = frozenset("n")
        return True

    def make(self) -> bool:
        fits = [
            slot for slot in self.free() if slot >= len(self.params) and self.homes.get(slot, self.block) == self.block
        ]
        if not fits:
            return False
        slot = self.rng.choice(fits)
        self.emit("make", slot)
        self.homes[slot] = self.block
        self.state[slot] = frozenset("l")
        return True

    def resume(self) -> bool:
        held = self.held()
        if held:
            slot = self.rng.choice(held)
            self.emit("resume", slot)
            self.state[slot] = frozenset("r")
        return bool(held)

    def drop(self) -> bool:
        held = [slot for slot in self.held() if self.kind != "method" or slot >= len(self.params)]
        if held and self.rng.random() < 0.6:
            self.drop_all([self.rng.choice(held)])
        return bool(held)

    def drop_all(self, slots: object) -> None:
        for slot in slots:
            if self.state[slot] <= HELD and self.rng.random() >= self.knobs.forget:
                self.emit("drop", slot)
                self.state[slot] = frozenset("o")

    def advance(self) -> bool:
        self.emit("advance")
        self.state = [frozenset("l" if kind == "r" else kind for kind in kinds) for kinds in self.state]
        return True

    def show(self) -> bool:
        numbers = self.numbers()
        if numbers:
            self.emit("print", self.rng.choice(numbers))
        return bool(numbers)

    def share(self) -> bool:
        if not self.knobs.shared:
            return False
        cell, numbers, free = self.rng.randrange(self.knobs.shared), self.numbers(), self.free()
        if numbers and self.rng.random() < 0.6:
            self.emit(self.rng.choice(["put", "addto"]), cell, self.rng.choice(numbers))
        elif free:
            slot = self.rng.choice(free)
            self.emit("get", slot, cell)
            self.state[slot] = frozenset("n")
        return bool(numbers or free)

    def start(self) -> bool:
        """A `call` or a `spawn` of a unit whose parameters can be filled."""
        at_home = [slot for slot in self.held() if self.homes.get(slot) == self.block]
        numbers = self.numbers()
        fits = [
            callee
            for callee in self.later
            if callee.params.count("c") <= len(at_home)
            and (numbers or "n" not in callee.params)
            and self.steps + self.times * (1 + callee.steps) <= self.knobs.steps
            and self.activities + self.times * (callee.activities + (callee.kind == "body")) <= self.knobs.activities
        ]
        if not fits:
            return False
        callee = self.rng.choice(fits)
        clocks = self.rng.sample(at_home, callee.params.count("c"))
        lent = list(clocks)
        arguments = [clocks.pop() if letter == "c" else self.rng.choice(numbers) for letter in callee.params]
        self.emit("spawn" if callee.kind == "body" else "call", callee.number, arguments)
        self.steps += self.times * callee.steps
        self.activities += self.times * (callee.activities + (callee.kind == "body"))
        if callee.kind == "method":
            self.state = [
                HELD if "r" in kinds and kinds <= HELD or slot in lent else kinds
                for slot, kinds in enumerate(self.state)
            ]
        return True

    def loop(self, depth: int) -> bool:
        """A loop whose body is written anew, with more kinds at its beginning, as long as it ends with kinds that it
        didn't begin with."""
        free = self.free()
        turns = self.rng.choice([1, 1, 2, 2, 3])
        if not free or self.times * turns > 12:
            return False
        slot = self.rng.choice(free)
        low = self.rng.choice([0, 1, 1, -2, -(2**63), 2**63 - turns])
        limit = self.limit(slot, low, low + turns - 1) if self.rng.random() < 0.5 else None
        passed = list(self.state)
        entry = list(self.state)
        entry[slot] = frozenset("n")
        opener = ["for", slot, low, low + turns - 1] if limit is None else ["forto", slot, low, limit, low + turns - 1]
        begin, homes, count, spent = (
            len(self.code), dict(self.homes), self.rng.randint(0, 3), (self.steps, self.activities)
        )
        for attempt in range(5):
            del self.code[begin:]
            self.state, self.homes, (self.steps, self.activities) = list(entry), dict(homes), spent
            self.turn(opener, turns, lambda: self.statements(count if attempt < 4 else 0, depth + 1))
            if all(end <= start for end, start in zip(self.state, entry)):
                break
            entry = [start | end for start, end in zip(entry, self.state)]
        if limit is not None:
            self.state = [end | before for end, before in zip(self.state, passed)]
        return True

    def limit(self, slot: int, low: int, high: int) -> int | None:
        """A slot with a number that a loop goes no further than, mostly about where it begins or ends; none where no
        other slot is there."""
        numbers = [one for one in self.numbers() if one != slot]
        free = [one for one in self.free() if one != slot]
        if numbers and (not free or self.rng.random() < 0.6):
            return self.rng.choice(numbers)
        if not free:
            return None
        limit = self.rng.choice(free)
        self.emit("lit", limit, self.rng.choice(EDGES) if self.rng.random() < 0.2 else near(self.rng, low, high))
        self.state[limit] = frozenset("n")
        return limit

    def turn(self, opener: list, turns: int, body: Callable[[], None]) -> None:
        """A loop around what this writes."""
        begin, slots = len(self.code), [opener[at] for at in SLOTS[opener[0]]]
        self.code.append([*opener, 0])
        self.times *= turns
        self.loop_slots += slots
        body()
        self.emit("next", begin)
        del self.loop_slots[-len(slots) :]
        self.times //= turns
        self.code[begin][-1] = len(self.code) - 1

    def branch(self, depth: int) -> bool:
        numbers = self.numbers()
        if not numbers:
            return False
        test = len(self.code)
        self.emit("unless", self.rng.choice(OPERATORS), self.rng.choice(numbers), self.rng.choice(numbers), 0)
        before = list(self.state)
        self.statements(self.rng.randint(0, 2), depth + 1)
        after = self.state
        if self.rng.random() < 0.5:
            jump = len(self.code)
            self.emit("jump", 0)
            self.code[test][4] = len(self.code)
            self.state = before
            self.statements(self.rng.randint(0, 2), depth + 1)
            self.code[jump][1] = len(self.code)
            before = self.state
        else:
            self.code[test][4] = len(self.code)
        self.state = [one | other for one, other in zip(before, after)]
        return True

    def finish(self, depth: int) -> bool:
        begin, outer = len(self.code), self.block
        self.emit("finish", 0)
        self.block = begin
        self.statements(self.rng.randint(0, 4), depth + 1)
        self.drop_all(slot for slot in range(self.slots) if self.homes.get(slot) == begin)
        self.block = outer
        self.code[begin][1] = len(self.code)
        self.emit("endfinish", begin)
        return True


def main_params(rng: random.Random, most: int) -> str:
    """Numbers alone, or now and then a clock, which main may not take."""
    if rng.random() < 0.01:
        return params_of(rng, most)
    return "n" * min(most, rng.choice([0, 0, 0, 1, 1, 2, 3]))


def version_of(rng: random.Random, units: list[dict]) -> int:
    """The version that a module needs, or another one now and then."""
    if rng.random() < 0.04:
        return rng.choice([1, 2, 2, 3])
    return 2 if any(instr[0] == "forto" for unit in units for instr in unit["code"]) else rng.choice([1, 1, 2])


def params_of(rng: random.Random, most: int) -> str:
    return "".join(
        rng.choice("ccn") for _ in range(rng.choice([0, 1, 1, 1, 2, 2, 3]) if most >= 3 else rng.randint(0, most))
    )


def program(rng: random.Random) -> dict:
    """A whole program: the units from the last one up, so that each knows those that it may start or call."""
    knobs = Knobs(
        statements=rng.choice([2, 4, 6, 9]),
        steps=rng.choice([20, 30, 40, 50, 60, 90, 200, 1500]),
        activities=rng.choice([1, 2, 2, 3, 3, 3, 4, 5, 30]),
        shared=rng.choice([0, 0, 1, 2]),
        slip=rng.choice([0, 0, 0, 0.01, 0.03, 0.15]),
        forget=rng.choice([0, 0, 0.02, 0.3]),
    )
    count = rng.choice([1, 2, 3, 3, 3, 4, 4, 5, 7])
    later: list[Signature] = []
    units: list[dict] = []
    for number in reversed(range(count)):
        kind = rng.choice(["body", "body", "method"]) if number else "main"
        slots = rng.choice([0, 1, 2, 3, 3, 4, 5])
        params = params_of(rng, slots) if number else main_params(rng, slots)
        # Each unit has its share of the steps and activities.
        part = 1 if number == 0 else 2 + number
        own = copy.copy(knobs)
        own.steps, own.activities = (
            max(4, knobs.steps // part), knobs.activities if number == 0 else knobs.activities // 2
        )
        if number == 0:
            own.statements += 3
        writer = UnitWriter(rng, own, kind, params, slots, list(later))
        code = writer.written()
        later.append(Signature(number, kind, params, writer.steps, writer.activities))
        units.append({"kind": kind, "params": params, "slots": slots, "code": code})
    shared = [rng.choice(EDGES) if rng.random() < 0.2 else rng.randrange(4) for _ in range(knobs.shared)]
    return {"version": version_of(rng, units), "shared": shared, "units": units[::-1]}


# Short codes without order.


def soup(rng: random.Random) -> dict:
    """Few slots, and instructions in any order, with jumps ahead, and now and then a loop or a finish around a part."""

    def unit(number: int, kind: str, params: str) -> dict:
        slots = max(len(params), rng.randint(1, 3))
        length = rng.randint(1, 9)
        slot = lambda: rng.randrange(slots)
        code: Code = []
        for place in range(length):
            way = rng.randrange(14)
            if way < 7:
                code.append([rng.choice(["make", "make", "resume", "drop", "lit", "print"]), slot()])
                if code[-1][0] == "lit":
                    code[-1].append(1)
            elif way < 10:
                code.append(["unless", rng.choice(OPERATORS), slot(), slot(), rng.randint(place + 1, length)])
            elif way == 10:
                code.append(["jump", rng.randint(place + 1, length)])
            elif way == 11 and number + 1 < len(plan):
                callee = rng.randrange(number + 1, len(plan))
                code.append(
                    ["spawn" if plan[callee][0] == "body" else "call", callee, [slot() for _ in plan[callee][1]]]
                )
            elif way == 12:
                code.append(["copy", slot(), slot()])
            else:
                code.append(["advance"])
        code.append(["ret"])
        # A number in each slot at first, so that a walk gets further.
        if rng.random() < 0.7:
            for at in range(len(params), slots):
                insert(rng, code, 0, ["lit", at, 0])
        for _ in range(rng.choice([0, 0, 1, 1, 2])):
            wrap(rng, code, rng.choice(["for", "forto", "finish"]), slots)
        return {"kind": kind, "params": params, "slots": slots, "code": code}

    plan = [("main", main_params(rng, 2))] + [
        (rng.choice(["body", "method"]), params_of(rng, 2)) for _ in range(rng.randrange(3))
    ]
    units = [unit(number, *form) for number, form in enumerate(plan)]
    return {"version": version_of(rng, units), "shared": [], "units": units}


# Changes of a code.


def insert(rng: random.Random, code: Code, at: int, instr: list) -> None:
    """Puts an instruction in; what was named stays named, and a jump to the place goes there or behind."""
    for old in code:
        position = PLACES.get(old[0])
        if position is None:
            continue
        if old[position] > at or (old[position] == at and (old[0] not in ("unless", "jump") or rng.random() < 0.5)):
            old[position] += 1
    code.insert(at, instr)


def without(code: Code, at: int) -> Code:
    """The code without an instruction; what was named stays named."""
    code = copy.deepcopy(code)
    del code[at]
    for old in code:
        position = PLACES.get(old[0])
        if position is not None and isinstance(old[position], int) and old[position] > at:
            old[position] -= 1
    return code


def wrap(rng: random.Random, code: Code, opener: str, slots: int) -> None:
    """Puts a loop or a finish around a part of the code."""
    begin = rng.randrange(len(code))
    end = rng.randrange(begin, len(code))
    slot = lambda: rng.randrange(max(1, slots))
    heads = {
        "for": [slot(), 1, rng.choice([1, 2, 3])],
        "forto": [slot(), 1, slot(), rng.choice([1, 2, 3])],
        "finish": [],
    }
    closer = [CLOSERS[opener], begin]
    insert(rng, code, end, closer)
    insert(rng, code, begin, [opener, *heads[opener], 0])
    closer[1] = begin
    code[begin][PLACES[opener]] = end + 1


def instrs(units: list[dict], *names: str) -> Iterator[tuple[int, int]]:
    """The places of the instructions of these names; of all where none is given."""
    for number, unit in enumerate(units):
        for place, instr in enumerate(unit["code"]):
            if not names or instr[0] in names:
                yield number, place


def some_place(rng: random.Random, units: list[dict], *names: str) -> tuple[int, int] | None:
    places = list(instrs(units, *names))
    return rng.choice(places) if places else None


Breaker = Callable[[random.Random, dict], None]


def break_target(rng: random.Random, module: dict) -> None:
    found = some_place(rng, module["units"], *PLACES)
    if found:
        code, place = module["units"][found[0]]["code"], found[1]
        choices = (
            [place, place + 1, 65535]
            if code[place][0] in BEHIND
            else [place, max(0, place - 1), 0, len(code), len(code) + 1, 65535]
        )
        code[place][PLACES[code[place][0]]] = rng.choice(choices)


def break_block(rng: random.Random, module: dict) -> None:
    units = module["units"]
    way = rng.randrange(4)
    if way == 0:
        number = rng.randrange(len(units))
        wrap(rng, units[number]["code"], rng.choice(["for", "forto", "finish"]), units[number]["slots"])
        return
    found = some_place(rng, units, *PLACES) if way < 3 else some_place(rng, units)
    if not found:
        return
    code, place = units[found[0]]["code"], found[1]
    if way == 1:
        code[place][PLACES[code[place][0]]] = (
            rng.randrange(0, place)
            if place and code[place][0] in BEHIND
            else rng.randint(place + 1, max(place + 1, len(code) - 1))
        )
    elif way == 2:
        code[place] = ["advance"]
    else:
        insert(rng, code, place, ["jump", rng.randint(place + 1, len(code))])


def break_slot(rng: random.Random, module: dict) -> None:
    unit = rng.choice(module["units"])
    fits = [(instr, at) for instr in unit["code"] for at in SLOTS.get(instr[0], ())] + [
        (instr[2], at) for instr in unit["code"] if instr[0] in ("call", "spawn") for at in range(len(instr[2]))
    ]
    if fits and rng.random() < 0.8:
        holder, at = rng.choice(fits)
        holder[at] = unit["slots"] + rng.choice([0, 0, 1, 60, 65535 - unit["slots"]])
    elif unit["slots"] > len(unit["params"]):
        unit["slots"] -= 1


def break_unit(rng: random.Random, module: dict) -> None:
    units = module["units"]
    way = rng.randrange(5)
    if way == 0:
        rng.choice(units)["kind"] = rng.choice(["main", "body", "method"])
    elif way == 1:
        unit = rng.choice(units)
        unit["params"] = (
            unit["params"][1:] if unit["params"] and rng.random() < 0.5 else unit["params"] + rng.choice("nc")
        )
        unit["slots"] = max(unit["slots"], len(unit["params"]))
    else:
        found = some_place(rng, units, "call", "spawn")
        if not found:
            units[0]["kind"] = "body"
            return
        instr = units[found[0]]["code"][found[1]]
        if way == 2:
            instr[1] = rng.choice([found[0], 0, len(units), len(units) - 1, 65535])
        elif way == 3:
            instr[0] = "call" if instr[0] == "spawn" else "spawn"
        elif instr[2] and rng.random() < 0.5:
            instr[2].pop()
        else:
            instr[2].append(0)


def break_cell(rng: random.Random, module: dict) -> None:
    found = some_place(rng, module["units"], "get", "put", "addto")
    if found:
        instr = module["units"][found[0]]["code"][found[1]]
        instr[2 if instr[0] == "get" else 1] = len(module["shared"]) + rng.choice([0, 1, 255])
    else:
        number = rng.randrange(len(module["units"]))
        unit = module["units"][number]
        if unit["slots"]:
            insert(
                rng,
                unit["code"],
                rng.randrange(len(unit["code"])),
                ["get", rng.randrange(unit["slots"]), len(module["shared"])],
            )


def break_loop(rng: random.Random, module: dict) -> None:
    found = some_place(rng, module["units"], "for", "forto")
    if not found:
        return
    code, place = module["units"][found[0]]["code"], found[1]
    head = code[place]
    slots = [head[at] for at in SLOTS[head[0]]]
    way = rng.randrange(5)
    if way < 2:
        head[2], head[-2] = head[-2] + rng.choice([0, 1]), head[2]
    elif way == 2 and head[0] == "forto":
        head[rng.choice([1, 3])] = rng.choice(slots)
    else:
        slot = rng.choice(slots)
        instr = rng.choice(
            [
                ["lit", slot, 1],
                ["copy", slot, slot],
                ["make", slot],
                ["add", slot, slot, slot],
                ["for", slot, 1, 1],
                ["get", slot, 0],
            ]
        )
        if instr[0] == "for":
            insert(rng, code, place + 1, ["next", place + 1])
            insert(rng, code, place + 1, [*instr, place + 2])
        else:
            insert(rng, code, rng.choice([place + 1, head[-1]]), instr)


def break_end(rng: random.Random, module: dict) -> None:
    code = rng.choice(module["units"])["code"]
    way = rng.randrange(4)
    if way == 0:
        code.clear()
    elif way == 1:
        insert(rng, code, rng.randrange(len(code) + 1), ["ret"])
    elif way == 2 and code:
        code[-1] = ["advance"]
    elif code:
        code[rng.randrange(len(code))] = ["ret"]


def break_home(rng: random.Random, module: dict) -> None:
    unit = rng.choice(module["units"])
    way = rng.randrange(3)
    if way == 0 and unit["params"]:
        insert(rng, unit["code"], rng.randrange(len(unit["code"])), ["make", rng.randrange(len(unit["params"]))])
    elif way == 1:
        methods = [unit for unit in module["units"] if unit["kind"] == "method" and "c" in unit["params"]]
        if methods:
            unit = rng.choice(methods)
            insert(rng, unit["code"], rng.randrange(len(unit["code"])), ["drop", unit["params"].index("c")])
    elif unit["slots"]:
        makes = [instr[1] for instr in unit["code"] if instr[0] == "make"]
        at = rng.randrange(len(unit["code"]))
        for instr in (["make", rng.choice(makes) if makes else rng.randrange(unit["slots"])], ["drop", 0]):
            insert(rng, unit["code"], at, instr)
        wrap(rng, unit["code"], "finish", unit["slots"])


def fitting(rng: random.Random, module: dict, clocks: int) -> tuple[int, list] | None:
    """A unit, and an instruction that hands on one of its clocks there, for each of the callee's clocks the same
    one."""
    units = module["units"]
    fits = []
    for number, unit in enumerate(units):
        slots = [instr[1] for instr in unit["code"] if instr[0] == "make"] + [
            slot for slot, letter in enumerate(unit["params"]) if letter == "c"
        ]
        callees = [callee for callee in range(number + 1, len(units)) if units[callee]["params"].count("c") >= clocks]
        fits += [(number, slot, callee) for slot in slots for callee in callees]
    if not fits:
        return None
    number, slot, callee = rng.choice(fits)
    other = rng.randrange(max(1, units[number]["slots"]))
    arguments = [slot if letter == "c" else other for letter in units[callee]["params"]]
    return number, ["spawn" if units[callee]["kind"] == "body" else "call", callee, arguments]


def break_registers(rng: random.Random, module: dict) -> None:
    """A finish around something that hands a clock on."""
    units = module["units"]
    places = [(number, place) for number, place in instrs(units, "call", "spawn") if units[number]["code"][place][2]]
    if places and rng.random() < 0.5:
        number, place = rng.choice(places)
    else:
        found = fitting(rng, module, 1)
        if not found:
            return
        number, instr = found
        place = rng.randrange(len(units[number]["code"]))
        insert(rng, units[number]["code"], place, instr)
    code = units[number]["code"]
    begin, end = max(0, place - rng.choice([0, 0, 1, 2])), min(len(code) - 1, place + rng.choice([1, 1, 2, 3]))
    closer = ["endfinish", begin]
    insert(rng, code, end, closer)
    insert(rng, code, begin, ["finish", 0])
    closer[1], code[begin][1] = begin, end + 1


def break_same_clock(rng: random.Random, module: dict) -> None:
    units = module["units"]
    places = [
        (number, place) for number, place in instrs(units, "call", "spawn") if len(units[number]["code"][place][2]) > 1
    ]
    if places and rng.random() < 0.5:
        number, place = rng.choice(places)
        slots = units[number]["code"][place][2]
        slots[rng.randrange(len(slots))] = rng.choice(slots)
        return
    found = fitting(rng, module, 2)
    if found:
        number, instr = found
        code = units[number]["code"]
        insert(rng, code, rng.randint(0, len(code) - 1), instr)


def break_use(rng: random.Random, module: dict) -> None:
    """An instruction more, or one less, or two that change places."""
    unit = rng.choice(module["units"])
    code, slot = unit["code"], rng.randrange(max(1, unit["slots"]))
    way = rng.randrange(4)
    at = rng.randrange(len(code))
    if way == 0 and len(code) > 1:
        if code[at][0] not in PLACES and code[at][0] != "ret":
            code[:] = without(code, at)
    elif way == 1 and at + 1 < len(code) and not {code[at][0], code[at + 1][0]} & {*PLACES, "ret"}:
        code[at], code[at + 1] = code[at + 1], code[at]
    else:
        insert(
            rng,
            code,
            at,
            rng.choice([["drop", slot], ["resume", slot], ["print", slot], ["copy", slot, slot], ["drop", slot]]),
        )


def break_held(rng: random.Random, module: dict) -> None:
    """A clock that is made in a finish and kept."""
    found = some_place(rng, module["units"], "finish")
    if not found:
        break_registers(rng, module)
        return
    unit, place = module["units"][found[0]], found[1]
    if unit["slots"] > len(unit["params"]):
        slot = rng.randrange(len(unit["params"]), unit["slots"])
        instr = rng.choice([["make", slot], ["make", slot], ["lit", slot, 0]])
        insert(rng, unit["code"], rng.randint(place + 1, unit["code"][place][1]), instr)


def break_leak(rng: random.Random, module: dict) -> None:
    """A clock that is written over."""
    unit = rng.choice(module["units"])
    makes = [place for place, instr in enumerate(unit["code"]) if instr[0] == "make"]
    clocks = [unit["code"][place][1] for place in makes] + [
        slot for slot, letter in enumerate(unit["params"]) if letter == "c"
    ]
    if clocks:
        slot = rng.choice(clocks)
        at = (
            rng.randint(makes[0] + 1 if makes else 0, len(unit["code"]) - 1)
            if not makes or makes[0] + 1 < len(unit["code"])
            else 0
        )
        insert(rng, unit["code"], at, rng.choice([["lit", slot, 1], ["make", slot], ["copy", slot, 0]]))
    elif unit["slots"] > len(unit["params"]):
        unit["code"].insert(0, ["make", unit["slots"] - 1])


BREAKERS: list[Breaker] = [
    break_target, break_block, break_slot, break_unit, break_unit, break_cell, break_loop, break_end, break_home,
    break_home, break_registers, break_registers, break_registers, break_same_clock, break_same_clock, break_same_clock,
    break_same_clock, break_use, break_held, break_leak,
]  # fmt: skip


def broken_program(rng: random.Random) -> dict:
    module = program(rng)
    for _ in range(rng.choice([1, 1, 1, 1, 2, 2, 4])):
        try:
            rng.choice(BREAKERS)(rng, module)
        except (IndexError, ValueError):
            # An earlier change left nothing to change.
            pass
    return module


# Programs at the limits.


def unit_form(kind: str, params: str, slots: int, code: Code) -> dict:
    return {"kind": kind, "params": params, "slots": slots, "code": code}


def module_form(*units: dict, shared: tuple[int, ...] = ()) -> dict:
    has_limit = any(instr[0] == "forto" for unit in units for instr in unit["code"])
    return {
        "version": 2 if has_limit or units and units[0]["params"] else 1,
        "shared": list(shared),
        "units": list(units),
    }


def first_number(rng: random.Random, turns: int) -> int:
    """Where a loop of so many turns may begin."""
    if turns == 2**64:
        return -(2**63)
    return rng.choice([0, 1, -5, -(2**63), 2**63 - turns]) if turns else 1


def nest(rng: random.Random, turns: list[int], body: Code, limited: bool = False) -> Code:
    """Loops in one another, each with a slot of its own, around a body without places; some go no further than slot 0
    says, where that is said."""
    count, code = len(turns), []
    for level, many in enumerate(turns):
        low = first_number(rng, many)
        high, end = low + many - 1, 2 * count + len(body) - level - 1
        if limited and rng.random() < 0.7:
            code.append(["forto", level + 1, low, 0, high, end])
        else:
            code.append(["for", level + 1, low, high, end])
    code += body
    for level in reversed(range(count)):
        code.append(["next", level])
    return code + [["ret"]]


def nesting(rng: random.Random, turns: list[int], body: Code) -> dict:
    """A main with such loops, which perhaps takes a number that is their limit."""
    limited = rng.random() < 0.5
    return unit_form("main", "n" if limited else "", 6, nest(rng, turns, body, limited))


def factors(rng: random.Random, product: int) -> list[int]:
    """Two or three numbers whose product is near this one."""
    one = rng.choice([rng.randint(1, 50), rng.randint(1, product), product, 1000])
    other = max(1, product // one)
    return [one, other] if rng.random() < 0.7 else [one, other, rng.choice([1, 1, 2])]


def many_steps(rng: random.Random) -> dict:
    """About as many steps as there may be."""
    body = [rng.choice([["advance"], ["lit", 4, 1], ["make", 5], ["drop", 5]][:2]) for _ in range(rng.randrange(3))]
    weight = 1 + sum(2 if instr[0] == "advance" else 1 for instr in body)
    way = rng.randrange(4)
    if way == 0:
        # One loop: its instructions by its turns, one for the `for` and one for the `ret`, and perhaps some more.
        turns = (1_000_000_000 - 2) // weight + rng.choice([-1, 0, 0, 0, 1])
        main = nesting(rng, [max(1, turns)], body)
        rest = 1_000_000_000 - 2 - turns * weight
        for _ in range(max(0, min(6, rest + rng.choice([-1, 0, 0, 1])))):
            main["code"].insert(len(main["code"]) - 1, ["lit", 4, 1])
        return module_form(main)
    if way == 1:
        return module_form(nesting(rng, factors(rng, 1_000_000_000 // weight), body))
    if way == 2:
        return module_form(nesting(rng, [2**64], []))
    kind = rng.choice(["body", "method"])
    word = "spawn" if kind == "body" else "call"
    height = rng.choice([3, 9, 27, 28, 29, 200])
    tower = [unit_form(kind, "", 0, [[word, number + 1, []]] * 2 + [["ret"]]) for number in range(1, height)] + [
        unit_form(kind, "", 0, [["ret"]])
    ]
    return module_form(unit_form("main", "", 0, [[word, 1, []]] * 2 + [["ret"]]), *tower)


def many_activities(rng: random.Random) -> dict:
    product = 100_000 + rng.choice([-2, -1, 0, 1, 2])
    turns = rng.choice([[99_999], [100_000], [3, 33_333], [9, 11_111], [271, 369], [41, 2439], factors(rng, product)])
    below = rng.choice([0, 0, 0, 1, 2])
    bodies = [unit_form("body", "", 0, [["spawn", 2 + number, []] for number in range(below)] + [["ret"]])] + [
        unit_form("body", "", 0, [["ret"]]) for _ in range(below)
    ]
    if below:
        turns = factors(rng, max(1, 99_999 // (1 + below)))
    return module_form(nesting(rng, turns, [["spawn", 1, []]]), *bodies)


def many_clocks(rng: random.Random) -> dict:
    turns = rng.choice([[100_000], [100_001], [1000, 100], [1000, 101], [11, 9091], [317, 316], factors(rng, 100_000)])
    if rng.random() < 0.5:
        return module_form(nesting(rng, turns, [["make", 5], ["drop", 5]]))
    return module_form(
        nesting(rng, turns, [["call", 1, []]]), unit_form("method", "", 1, [["make", 0], ["drop", 0], ["ret"]])
    )


def high_stack(rng: random.Random) -> dict:
    """Methods that call one another, with about as many slots as there may be."""
    left = 4_096 + rng.choice([-1, 0, 0, 1, 1, 64])
    sizes = []
    while left > 0:
        sizes.append(min(left, rng.choice([64, 64, 64, 63, 60])))
        left -= sizes[-1]
    rng.shuffle(sizes)
    units = []
    for number, slots in enumerate(sizes):
        calls = [["call", number + 1, []]] if number + 1 < len(sizes) else []
        if calls and rng.random() < 0.1:
            calls.append(["call", rng.randrange(number + 1, len(sizes)), []])
        units.append(unit_form("method" if number else "main", "", slots, calls + [["ret"]]))
    return module_form(*units)


def large(rng: random.Random) -> dict:
    """A module that is as large as it may be in one respect, or a little larger; sometimes it doesn't fit either."""
    way = rng.randrange(6)
    more = rng.choice([-1, 0, 0, 1, 1])
    if way == 0:
        return module_form(
            unit_form("main", "", 0, [["ret"]]),
            *[unit_form(rng.choice(["body", "method"]), "", 0, [["ret"]])] * (1023 + more),
        )
    if way == 1:
        return module_form(unit_form("main", "", 64 + more, [["lit", 63 + rng.choice([0, more]), 1], ["ret"]]))
    if way == 2:
        return module_form(unit_form("main", "", 1, [["lit", 0, 1]] * (4095 + more) + [["ret"]]))
    if way == 3:
        return module_form(
            unit_form("main", "", 1, [["get", 0, 255 + rng.choice([0, more])], ["ret"]]), shared=(1,) * (256 + more)
        )
    if way == 4:
        count = 64 + more
        return module_form(
            unit_form("main", "", 1, [["lit", 0, 1], ["spawn", 1, [0] * count], ["ret"]]),
            unit_form("body", "n" * min(64, count), 64, [["ret"]]),
        )
    slots = rng.choice([0, 1, 2, 64])
    return (
        module_form(
            unit_form("main", "", 0, [["ret"]]), unit_form("body", "c" * max(0, slots + more), slots, [["ret"]])
        )
        if rng.random() < 0.8
        else module_form()
    )


def long_code(rng: random.Random) -> dict:
    """Many instructions with branches, or many loops or finishes in one another, and perhaps a slot that is used as
    what it isn't at the end."""
    way = rng.randrange(4)
    slots = 2
    if way == 0:
        slots = 64
        depth = rng.choice([10, 63, 64, 200])
        turns = rng.choice([1, 1, 2])
        head = lambda level: rng.choice([["for", 1 + level % 63, 1, turns], ["forto", 1 + level % 63, 1, 0, turns]])
        heads = [[*head(level), 2 * depth - 1 - level] for level in range(depth)]
        code = heads + [["next", depth - 1 - level] for level in range(depth)]
    elif way == 1:
        depth = rng.choice([10, 100, 500])
        code = [["finish", 2 * depth - 1 - level] for level in range(depth)] + [
            ["endfinish", depth - 1 - level] for level in range(depth)
        ]
    else:
        code = [["lit", 0, 1], ["make", 1]]
        for _ in range(rng.choice([20, 100, 400, 1500])):
            place = len(code)
            far = rng.choice([1, 2, 2, 3, 5])
            code.append(
                rng.choice(
                    [
                        ["unless", rng.choice(OPERATORS), 0, 0, place + far],
                        ["resume", 1],
                        ["advance"],
                        ["lit", 0, 1],
                        ["jump", place + far],
                    ]
                )
            )
        code += [["advance"]] * 6
    end = rng.choice([[], [], [["print", 1]], [["drop", 1]], [["drop", 1], ["drop", 1]], [["lit", 1, 0]]])
    return module_form(unit_form("main", rng.choice(["", "n"]) if way == 0 else "", slots, code + end + [["ret"]]))


# Changes of a value, and of its text.

NUMBERS = [
    0,
    1,
    2,
    63,
    64,
    65,
    4095,
    4096,
    65534,
    65535,
    65536,
    -1,
    2**31,
    2**63 - 1,
    2**63,
    -(2**63),
    -(2**63) - 1,
    2**64 - 1,
    2**64,
]
ODD = [
    *map(Raw, "1.0 1e0 -0 0.0 -0.0 1E5 0e0 0e999 1e400 -1e400 1e-400 1e308 01 -01 +1 .5 1. 1e 1e+ 0x10".split()),
    *map(Raw, "NaN Infinity -Infinity - true false null nul TRUE".split()),
    *map(
        Raw,
        [
            r'"\ud800"',
            r'"\udc00"',
            r'"\ud83d\ude00"',
            r'"\ud83dx"',
            r'"\u00e9"',
            r'"\x"',
            r'"\u12"',
            '"\x01"',
            '"\x7f"',
            '"\xe9"',
            '""',
            '"',
        ],
    ),
    *map(
        Raw,
        [
            "[]",
            "{}",
            "[1,]",
            "[,]",
            '{"a":1,}',
            '{"a"}',
            '{"a":}',
            "[[",
            "]",
            "1 2",
            "/**/1",
            "'a'",
            "9" * 30,
            "9" * 400,
            "1" + "0" * 309 + "e-300",
        ],
    ),
]
WORDS = [
    *"lit copy add sub mul get put addto unless jump for next finish endfinish".split(),
    *"print make resume drop advance spawn ret call Make forto".split(),
    *OPERATORS, "main", "body", "method", "", "c", "n", "cc", "cn", "ncn", "x",
]  # fmt: skip
# Words that can stand for one another where the rest of the value still fits.
KIN = [
    group.split()
    for group in (
        "add sub mul", "copy get put addto", "print make resume drop jump next finish endfinish", "advance ret",
        "call spawn", "eq ne lt le gt ge", "main body method", "c n", "cc cn",
    )
]  # fmt: skip


def leaves(value: Value, path: tuple = ()) -> Iterator[tuple]:
    """The paths of all that stands in a value."""
    yield path
    children = value.items() if isinstance(value, dict) else enumerate(value) if isinstance(value, list) else ()
    for key, child in children:
        yield from leaves(child, path + (key,))


def changed_value(rng: random.Random, value: Value) -> Value:
    """The value with one part replaced, dropped, doubled or moved."""
    value = copy.deepcopy(value)
    paths = [path for path in leaves(value) if path]
    if not paths:
        return value
    operands = [path for path in paths if "code" in path and len(path) > 4] if rng.random() < 0.7 else []
    path = rng.choice(operands or paths)
    holder = value
    for key in path[:-1]:
        holder = holder[key]
    old = holder[path[-1]]
    way = rng.randrange(20)
    if way < 2 and isinstance(holder, list):
        del holder[path[-1]]
    elif way < 4 and isinstance(holder, list):
        holder.insert(rng.randrange(len(holder) + 1), copy.deepcopy(old))
    elif way < 6 and isinstance(holder, list) and len(holder) > 1:
        other = rng.randrange(len(holder))
        holder[path[-1]], holder[other] = holder[other], old
    elif way == 6 and isinstance(holder, dict):
        del holder[path[-1]]
    elif way == 7:
        holder[path[-1]] = rng.choice(ODD)
    elif way == 8:
        depth = rng.choice([1, 2, *range(118, 131)])
        holder[path[-1]] = Raw("[" * depth + "]" * depth)
    elif isinstance(old, str):
        kin = next((group for group in KIN if old in group), WORDS)
        holder[path[-1]] = rng.choice(kin if rng.random() < 0.7 else WORDS)
    elif isinstance(old, int) and way < 17:
        holder[path[-1]] = old + rng.choice([-1, 1]) if rng.random() < 0.5 else rng.randrange(4)
    else:
        holder[path[-1]] = rng.choice(NUMBERS)
    return value


SPOILS = [
    b"0",
    b"9",
    b"-",
    b".",
    b"e",
    b",",
    b"[",
    b"]",
    b"{",
    b"}",
    b'"',
    b"\\",
    b" ",
    b"\t",
    b"\r",
    b"\x0b",
    b"\xff",
    b"\x00",
    b"\xc3\xa9",
    b"\xef\xbb\xbf",
]


def changed_bytes(rng: random.Random, text: bytes, spoils: list[bytes] = SPOILS) -> bytes:
    """The bytes with a few of them replaced, dropped, doubled or cut off, or with some of those given put in."""
    changed = bytearray(text)
    for _ in range(rng.choice([1, 1, 1, 2, 5])):
        at = rng.randrange(len(changed) + 1)
        way = rng.randrange(5)
        if way == 0:
            changed[at : at + 1] = bytes([rng.randrange(256)])
        elif way == 1:
            del changed[at : at + 1]
        elif way == 2:
            changed[at:at] = changed[at : at + rng.randrange(1, 20)]
        elif way == 3:
            changed[at:at] = rng.choice(spoils)
        elif len(changed) > 1 and rng.random() < 0.3:
            del changed[at:]
        if not changed:
            break
    return bytes(changed)


@dataclass(frozen=True)
class Style:
    """How a value is written."""

    space: bool = False
    shuffle: bool = False
    escape: bool = False
    twice: bool = False


def written(rng: random.Random, value: Value, style: Style) -> str:
    """The text of a value: with white space, keys in another order, escaped letters, or keys that come twice, as the
    style has it."""
    gap = (lambda: rng.choice(["", "", " ", "\n", "\t", "\r\n  "])) if style.space else lambda: ""
    if isinstance(value, Raw):
        return gap() + value.text + gap()
    if isinstance(value, dict):
        members = list(value.items())
        if style.twice and members and rng.random() < 0.5:
            key, _ = rng.choice(members)
            members.insert(0, (key, rng.choice([0, "n", [], Raw("{}"), Raw("1.5"), value[key]])))
        if style.shuffle:
            rng.shuffle(members)
        inside = ",".join(
            f"{gap()}{written(rng, key, style)}{gap()}:{written(rng, child, style)}" for key, child in members
        )
        return f"{gap()}{{{inside}{gap()}}}{gap()}"
    if isinstance(value, (list, tuple)):
        return f"{gap()}[{','.join(written(rng, child, style) for child in value) or gap()}]{gap()}"
    if isinstance(value, str) and style.escape:
        return (
            '"'
            + "".join(
                f"\\u{ord(sign):04{rng.choice('xX')}}" if rng.random() < 0.3 else json.dumps(sign)[1:-1]
                for sign in value
            )
            + '"'
        )
    return gap() + json.dumps(value) + gap()


def text_of(rng: random.Random, value: Value) -> bytes:
    style = Style()
    if rng.random() < 0.15:
        style = Style(*(rng.random() < 0.4 for _ in range(4)))
    return written(rng, value, style).encode("utf-8", "surrogatepass")


# Cases.


def case(rng: random.Random, seeds: list[bytes]) -> bytes:
    """One text, of whatever sort."""
    way = rng.random()
    if way < 0.33:
        return text_of(rng, program(rng))
    if way < 0.63:
        return text_of(rng, broken_program(rng))
    if way < 0.73:
        return text_of(rng, soup(rng))
    if way < 0.755:
        return text_of(
            rng,
            rng.choice(
                [
                    many_steps,
                    many_steps,
                    many_activities,
                    many_activities,
                    many_activities,
                    many_clocks,
                    many_clocks,
                    high_stack,
                    large,
                    large,
                    large,
                    long_code,
                ]
            )(rng),
        )
    seed = rng.choice(seeds) if rng.random() < 0.5 else text_of(rng, program(rng))
    try:
        value = json.loads(seed)
    except ValueError:
        return changed_bytes(rng, seed) if seed else b" "
    if way < 0.86:
        return changed_bytes(rng, seed)
    for _ in range(rng.choice([1, 1, 1, 2, 3])):
        value = changed_value(rng, value)
    return text_of(rng, value)
