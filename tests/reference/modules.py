#!/usr/bin/env python3
"""The reference for modules: all that x10clock answers for one.

It shares nothing with the program: the module is read here by a reader of its own, a rule is the set of places that
break it, and the machine keeps for each clock the sets of activities that are registered, that have resumed, and that
may go on, and for each open finish the set of activities that it waits for. Beside the answers it walks through all
schedules of a small module and looks whether the promises hold: no wrong step, no longer schedule than was verified,
and all have ended where nobody can step.

    python3 -m tests.reference.modules check FILE                           what the program prints
    python3 -m tests.reference.modules run FILE [ORDER [SEED]] [--arg=N]..  ORDER is first, last, round or random
    python3 -m tests.reference.modules walk FILE [WORLDS] [--arg=N]..       all schedules, through WORLDS at most
"""

from __future__ import annotations

import enum
import itertools
import pathlib
import re
import sys
from collections import Counter, deque
from collections.abc import Callable, Iterable, Iterator
from dataclasses import dataclass
from functools import cached_property
from typing import NamedTuple

# The reader.

LEAST, GREATEST = -(2**63), 2**63 - 1
UNSIGNED_16 = range(2**16)
DEPTH = 128


class Unread(Exception):
    """The bytes name no module; the message is the name of the fault."""


def not_json() -> Unread:
    return Unread("M1 NotJson")


def not_a_module() -> Unread:
    return Unread("M2 NotAModule")


Json = None | bool | int | float | str | list["Json"] | dict[str, "Json"]

SPACE = re.compile(r"[ \t\n\r]*")
NUMBER = re.compile(r"-?(?:0|[1-9][0-9]*)((?:\.[0-9]+)?(?:[eE][-+]?[0-9]+)?)")
TEXT = re.compile(r'"([^"\\\x00-\x1f]*(?:\\(?:["\\/bfnrt]|u[0-9a-fA-F]{4})[^"\\\x00-\x1f]*)*)"')
ESCAPE = re.compile(r"\\u([dD][89abAB][0-9a-fA-F]{2})\\u([dD][c-fC-F][0-9a-fA-F]{2})|\\u([0-9a-fA-F]{4})|\\(.)")
SHORT_ESCAPES = {"b": "\b", "f": "\f", "n": "\n", "r": "\r", "t": "\t"}
CONSTANTS: dict[str, Json] = {"null": None, "true": True, "false": False}


def unescaped(found: re.Match[str]) -> str:
    """The character that an escape stands for; half of a pair of surrogates stands for none."""
    high, low, four, short = found.groups()
    if high:
        return chr(0x10000 + ((int(high, 16) - 0xD800) << 10) + (int(low, 16) - 0xDC00))
    if short:
        return SHORT_ESCAPES.get(short, short)
    code = int(four, 16)
    if 0xD800 <= code < 0xE000:
        raise not_json()
    return chr(code)


def number(text: str, tail: str) -> int | float:
    """A number as written: a whole one within 64 bits (signed or unsigned) is an int, each other one a float, and `-0`
    is one too."""
    if not tail and text != "-0" and len(text) <= 20 and LEAST <= int(text) < 2**64:
        return int(text)
    value = float(text)
    if value in (float("inf"), float("-inf")):
        raise not_json()
    return value


class JsonReader:
    """Reads one JSON value, which nests less than 128 deep. Of a key that comes twice the last value stays."""

    def __init__(self, text: str) -> None:
        self.text = text
        self.at = 0

    def whole(self) -> Json:
        value = self.value(1)
        self.space()
        if self.at != len(self.text):
            raise not_json()
        return value

    def space(self) -> None:
        self.at = SPACE.match(self.text, self.at).end()

    def sign(self, signs: str) -> str:
        """The next sign, which has to be one of these."""
        self.space()
        sign = self.text[self.at : self.at + 1]
        if not sign or sign not in signs:
            raise not_json()
        self.at += 1
        return sign

    def is_next(self, sign: str) -> bool:
        """Whether this sign comes next; it is taken then."""
        self.space()
        if not self.text.startswith(sign, self.at):
            return False
        self.at += 1
        return True

    def word(self) -> str:
        self.space()
        found = TEXT.match(self.text, self.at)
        if not found:
            raise not_json()
        self.at = found.end()
        return ESCAPE.sub(unescaped, found[1])

    def value(self, depth: int) -> Json:
        self.space()
        sign = self.text[self.at : self.at + 1]
        if sign == '"':
            return self.word()
        if sign and sign in "[{":
            if depth >= DEPTH:
                raise not_json()
            self.at += 1
            return self.items(depth) if sign == "[" else self.members(depth)
        for name, constant in CONSTANTS.items():
            if self.text.startswith(name, self.at):
                self.at += len(name)
                return constant
        found = NUMBER.match(self.text, self.at)
        if not found:
            raise not_json()
        self.at = found.end()
        return number(found[0], found[1])

    def items(self, depth: int) -> list[Json]:
        items: list[Json] = []
        if self.is_next("]"):
            return items
        while True:
            items.append(self.value(depth + 1))
            if self.sign(",]") == "]":
                return items

    def members(self, depth: int) -> dict[str, Json]:
        members: dict[str, Json] = {}
        if self.is_next("}"):
            return members
        while True:
            key = self.word()
            self.sign(":")
            members[key] = self.value(depth + 1)
            if self.sign(",}") == "}":
                return members


# Modules.


class UnitKind(enum.Enum):
    MAIN = "main"
    METHOD = "method"
    BODY = "body"


class Role(enum.Enum):
    """What an operand of an instruction is there for."""

    READ = "a slot that is read as a number"
    WRITE = "a slot that gets a number"
    MAKE = "a slot that gets a new clock"
    USE = "a slot whose clock is resumed"
    LEAVE = "a slot whose clock is dropped"
    LITERAL = "a number of 64 bits"
    OPERATOR = "a comparison"
    TARGET = "a place to go to"
    END = "the place of the instruction that closes what this one opens"
    BEGIN = "the place of the instruction that opened what this one closes"
    UNIT = "a unit"
    ARGUMENTS = "a list of slots that are handed on"
    SHARED = "a shared number"


SLOT_ROLES = (Role.READ, Role.WRITE, Role.MAKE, Role.USE, Role.LEAVE)

ROLES: dict[str, tuple[Role, ...]] = {
    "lit": (Role.WRITE, Role.LITERAL),
    "copy": (Role.WRITE, Role.READ),
    "add": (Role.WRITE, Role.READ, Role.READ),
    "sub": (Role.WRITE, Role.READ, Role.READ),
    "mul": (Role.WRITE, Role.READ, Role.READ),
    "unless": (Role.OPERATOR, Role.READ, Role.READ, Role.TARGET),
    "jump": (Role.TARGET,),
    "for": (Role.WRITE, Role.LITERAL, Role.LITERAL, Role.END),
    "forto": (Role.WRITE, Role.LITERAL, Role.READ, Role.LITERAL, Role.END),
    "next": (Role.BEGIN,),
    "make": (Role.MAKE,),
    "resume": (Role.USE,),
    "drop": (Role.LEAVE,),
    "advance": (),
    "finish": (Role.END,),
    "endfinish": (Role.BEGIN,),
    "call": (Role.UNIT, Role.ARGUMENTS),
    "spawn": (Role.UNIT, Role.ARGUMENTS),
    "print": (Role.READ,),
    "get": (Role.WRITE, Role.SHARED),
    "put": (Role.SHARED, Role.READ),
    "addto": (Role.SHARED, Role.READ),
    "ret": (),
}

# The first version of the format that knows an instruction, where it isn't the first of all.
SINCE = {"forto": 2}

CLOSERS = {"for": "next", "forto": "next", "finish": "endfinish"}

COMPARISONS: dict[str, Callable[[int, int], bool]] = {
    "eq": lambda a, b: a == b,
    "ne": lambda a, b: a != b,
    "lt": lambda a, b: a < b,
    "le": lambda a, b: a <= b,
    "gt": lambda a, b: a > b,
    "ge": lambda a, b: a >= b,
}


@dataclass(frozen=True)
class Instr:
    """An instruction: its name and its operands, in the order of its roles."""

    name: str
    operands: tuple[int | str | tuple[int, ...], ...]

    def of(self, *roles: Role) -> list:
        """The operands that are there for one of these."""
        return [operand for role, operand in zip(ROLES[self.name], self.operands) if role in roles]

    @cached_property
    def arguments(self) -> tuple[int, ...]:
        return self.of(Role.ARGUMENTS)[0]

    @cached_property
    def callee(self) -> int:
        return self.of(Role.UNIT)[0]


class Pair(NamedTuple):
    """A loop, or a finish: the place that opens it and the place that closes it."""

    begin: int
    end: int

    def holds(self, place: int) -> bool:
        """Whether the place stands strictly between."""
        return self.begin < place < self.end

    def repeats(self, place: int) -> bool:
        """Whether the place stands behind the opening one, up to the closing one."""
        return self.begin < place <= self.end


class Head(NamedTuple):
    """How a loop begins: the slot that counts, the first and the last number, and the slot whose number it goes no
    further than, if there is one."""

    slot: int
    low: int
    high: int
    limit: int | None

    @staticmethod
    def of(instr: Instr) -> Head:
        if instr.name == "forto":
            slot, low, limit, high, _end = instr.operands
            return Head(slot, low, high, limit)
        slot, low, high, _end = instr.operands
        return Head(slot, low, high, None)

    @property
    def turns(self) -> int:
        """How many turns it takes at most."""
        return self.high - self.low + 1

    @property
    def kept(self) -> list[int]:
        """The slots that nothing inside may write, and that its `next` reads."""
        return [self.slot] if self.limit is None else [self.slot, self.limit]
@dataclass(frozen=True)
class Unit:
    kind: UnitKind
    params: str
    slots: int
    code: tuple[Instr, ...]

    def is_clock_param(self, slot: int) -> bool:
        return slot < len(self.params) and self.params[slot] == "c"

    @cached_property
    def pairs(self) -> list[Pair]:
        """The loops and finishes: two instructions that name each other."""
        return [pair for opener in CLOSERS for pair in self.pairs_of(opener)]

    def pairs_of(self, opener: str) -> list[Pair]:
        found = []
        for begin, instr in enumerate(self.code):
            if instr.name != opener:
                continue
            end = instr.of(Role.END)[0]
            if self.code[end] == Instr(CLOSERS[opener], (begin,)):
                found.append(Pair(begin, end))
        return found

    @cached_property
    def loops(self) -> list[Pair]:
        return [pair for opener in ("for", "forto") for pair in self.pairs_of(opener)]

    def head(self, begin: int) -> Head:
        """How the loop begins that is opened at this place."""
        return Head.of(self.code[begin])

    @cached_property
    def blocks(self) -> list[int]:
        """For each place the `finish` of the innermost block around it, or the whole unit."""
        around = [WHOLE_UNIT] * len(self.code)
        for begin, end in sorted(self.pairs_of("finish")):
            around[begin + 1 : end] = [begin] * (end - begin - 1)
        return around

    @cached_property
    def homes(self) -> dict[int, int]:
        """The block in which each slot that takes a clock is at home: that of its first `make`; of a clock parameter
        the whole unit."""
        homes = {slot: WHOLE_UNIT for slot in range(len(self.params)) if self.is_clock_param(slot)}
        for place, instr in enumerate(self.code):
            for slot in instr.of(Role.MAKE):
                homes.setdefault(slot, self.blocks[place])
        return homes


WHOLE_UNIT = -1


@dataclass(frozen=True)
class Module:
    shared: tuple[int, ...]
    units: tuple[Unit, ...]

    def arguments(self, instr: Instr, letter: str) -> list[int]:
        """The slots that a `call` or `spawn` hands on for parameters of this letter."""
        if instr.name not in ("call", "spawn"):
            return []
        return [slot for slot, param in zip(instr.arguments, self.units[instr.callee].params) if param == letter]

    @property
    def wants(self) -> int:
        """How many numbers the program wants to be given, once it is accepted."""
        return len(self.units[0].params)


def fitted(condition: bool) -> None:
    if not condition:
        raise not_a_module()


def is_whole(value: Json, within: range) -> bool:
    return type(value) is int and value in within


SIGNED_64 = range(LEAST, GREATEST + 1)


def operand_of(role: Role, value: Json) -> int | str | tuple[int, ...]:
    if role is Role.ARGUMENTS:
        fitted(isinstance(value, list) and all(is_whole(slot, UNSIGNED_16) for slot in value))
        return tuple(value)
    if role is Role.OPERATOR:
        fitted(isinstance(value, str) and value in COMPARISONS)
    else:
        fitted(is_whole(value, SIGNED_64 if role is Role.LITERAL else UNSIGNED_16))
    return value


def instr_of(value: Json, version: int) -> Instr:
    fitted(isinstance(value, list) and len(value) > 0 and isinstance(value[0], str) and value[0] in ROLES)
    name, *operands = value
    fitted(version >= SINCE.get(name, 1))
    roles = ROLES[name]
    fitted(len(operands) == len(roles))
    return Instr(name, tuple(operand_of(role, operand) for role, operand in zip(roles, operands)))


def unit_of(value: Json, version: int) -> Unit:
    fitted(isinstance(value, dict) and set(value) == {"kind", "params", "slots", "code"})
    kind, params, slots, code = value["kind"], value["params"], value["slots"], value["code"]
    fitted(isinstance(kind, str) and kind in {known.value for known in UnitKind})
    fitted(isinstance(params, str) and set(params) <= {"n", "c"})
    fitted(is_whole(slots, UNSIGNED_16))
    fitted(isinstance(code, list))
    return Unit(UnitKind(kind), params, slots, tuple(instr_of(instr, version) for instr in code))


def module_of(value: Json) -> Module:
    """The module that a value names, whatever its size."""
    fitted(isinstance(value, dict) and set(value) == {"version", "shared", "units"})
    version, shared, units = value["version"], value["shared"], value["units"]
    fitted(is_whole(version, range(1, 3)))
    fitted(isinstance(shared, list) and all(is_whole(number, SIGNED_64) for number in shared))
    fitted(isinstance(units, list))
    return Module(tuple(shared), tuple(unit_of(unit, version) for unit in units))


def is_within_limits(module: Module) -> bool:
    return (
        1 <= len(module.units) <= 1024
        and len(module.shared) <= 256
        and all(unit.slots <= 64 and len(unit.params) <= unit.slots and len(unit.code) <= 4096 for unit in module.units)
        and all(len(slots) <= 64 for unit in module.units for instr in unit.code for slots in instr.of(Role.ARGUMENTS))
    )


LONGEST_TEXT = 1 << 28


def read_module(data: bytes) -> Module:
    if len(data) > LONGEST_TEXT:
        raise Unread("M3 Limit")
    try:
        text = data.decode("utf-8", "strict")
    except UnicodeDecodeError:
        raise not_json() from None
    module = module_of(JsonReader(text).whole())
    if not is_within_limits(module):
        raise Unread("M3 Limit")
    return module


# The rules on places. Each has the places of a module that break it, where the module breaks none of those before it.

Place = tuple[int, int]
Breaches = Iterator[Place]


def each_unit(breaches: Callable[[Module, Unit], Iterable[int]]) -> Callable[[Module], Breaches]:
    """A rule on one unit, for all units."""

    def of_all(module: Module) -> Breaches:
        for number, unit in enumerate(module.units):
            for place in breaches(module, unit):
                yield number, place

    return of_all


@each_unit
def breaks_target(_: Module, unit: Unit) -> Iterator[int]:
    """Places named ahead are ahead and in the code, places named behind are behind."""
    for place, instr in enumerate(unit.code):
        ahead = all(place < target < len(unit.code) for target in instr.of(Role.TARGET, Role.END))
        behind = all(begin < place for begin in instr.of(Role.BEGIN))
        if not (ahead and behind):
            yield place


@each_unit
def breaks_block(_: Module, unit: Unit) -> Iterator[int]:
    """Loops and finishes are whole and nest, and no jump crosses the edge of one."""
    whole = {place for pair in unit.pairs for place in pair}
    for place, instr in enumerate(unit.code):
        if instr.of(Role.BEGIN, Role.END) and place not in whole:
            yield place
    for one, other in itertools.combinations(sorted(unit.pairs), 2):
        if one.begin < other.begin < one.end < other.end:
            yield from (*one, *other)
    for place, instr in enumerate(unit.code):
        for target in instr.of(Role.TARGET):
            if any(pair.holds(place) != pair.repeats(target) for pair in unit.pairs):
                yield place


@each_unit
def breaks_slot(_: Module, unit: Unit) -> Iterator[int]:
    for place, instr in enumerate(unit.code):
        slots = instr.of(*SLOT_ROLES) + [slot for slots in instr.of(Role.ARGUMENTS) for slot in slots]
        if any(slot >= unit.slots for slot in slots):
            yield place


def breaks_unit(module: Module) -> Breaches:
    """Main is unit 0, alone, and takes no clock; who is called or started is there, is of the right kind, and gets what
    it takes."""
    wanted = {"call": UnitKind.METHOD, "spawn": UnitKind.BODY}
    for number, unit in enumerate(module.units):
        if (unit.kind is UnitKind.MAIN) != (number == 0) or (number == 0 and "c" in unit.params):
            yield number, 0
        for place, instr in enumerate(unit.code):
            if instr.name not in wanted:
                continue
            callee = module.units[instr.callee] if number < instr.callee < len(module.units) else None
            if callee is None or callee.kind is not wanted[instr.name] or len(instr.arguments) != len(callee.params):
                yield number, place


@each_unit
def breaks_cell(module: Module, unit: Unit) -> Iterator[int]:
    for place, instr in enumerate(unit.code):
        if any(cell >= len(module.shared) for cell in instr.of(Role.SHARED)):
            yield place


@each_unit
def breaks_loop(_: Module, unit: Unit) -> Iterator[int]:
    """A loop may have a turn, its limit isn't the slot that counts, and nothing in it writes one of the two."""
    for loop in unit.loops:
        head = unit.head(loop.begin)
        if head.low > head.high or head.limit == head.slot:
            yield loop.begin
        for place in range(loop.begin + 1, loop.end):
            if set(head.kept) & set(unit.code[place].of(Role.WRITE, Role.MAKE)):
                yield place


@each_unit
def breaks_end(_: Module, unit: Unit) -> Iterator[int]:
    """The last instruction is the one `ret`."""
    last = len(unit.code) - 1
    others = [place for place, instr in enumerate(unit.code) if instr.name == "ret" and place != last]
    if others:
        yield others[0]
    elif last < 0 or unit.code[last].name != "ret":
        yield max(last, 0)


@each_unit
def breaks_home(_: Module, unit: Unit) -> Iterator[int]:
    """A slot takes clocks in one block, a parameter in none; a lent clock isn't dropped."""
    for place, instr in enumerate(unit.code):
        makes_elsewhere = any(
            slot < len(unit.params) or unit.homes[slot] != unit.blocks[place] for slot in instr.of(Role.MAKE)
        )
        drops_lent = unit.kind is UnitKind.METHOD and any(unit.is_clock_param(slot) for slot in instr.of(Role.LEAVE))
        if makes_elsewhere or drops_lent:
            yield place


@each_unit
def breaks_registers(module: Module, unit: Unit) -> Iterator[int]:
    """A clock is handed on directly in the block where its slot is at home."""
    for place, instr in enumerate(unit.code):
        homes = [unit.homes[slot] for slot in module.arguments(instr, "c") if slot in unit.homes]
        if any(home != unit.blocks[place] for home in homes):
            yield place


@each_unit
def breaks_same_clock(module: Module, unit: Unit) -> Iterator[int]:
    for place, instr in enumerate(unit.code):
        slots = module.arguments(instr, "c")
        if len(set(slots)) < len(slots):
            yield place


PLACE_RULES: list[tuple[str, Callable[[Module], Breaches]]] = [
    ("V1 Target", breaks_target),
    ("V2 Block", breaks_block),
    ("V3 Slot", breaks_slot),
    ("V4 Unit", breaks_unit),
    ("V5 Cell", breaks_cell),
    ("V6 Loop", breaks_loop),
    ("V7 End", breaks_end),
    ("V8 Home", breaks_home),
    ("V9 Registers", breaks_registers),
    ("V10 SameClock", breaks_same_clock),
]


# The rules on kinds. Each slot of a unit is followed by itself.


class Kind(enum.IntEnum):
    UNSET = 0
    NUMBER = 1
    LIVE = 2
    RESUMED = 3
    OUT = 4


HELD = frozenset((Kind.LIVE, Kind.RESUMED))
USE_REFUSED, HELD_REFUSED, LEAK_REFUSED = "V11 Use", "V12 Held", "V13 Leak"

Point = tuple[int, Kind]


@dataclass(frozen=True)
class KindRefusal:
    rule: str
    unit: int
    place: int
    slot: int
    kind: Kind
    walk: tuple[int, ...]
    # What the slot holds before each stop of the walk.
    kinds: tuple[Kind, ...]

    def line(self, walk: Iterable[int] | None = None) -> str:
        """The refusal as the program prints it, with another walk where one is given."""
        places = " ".join(map(str, self.walk if walk is None else walk))
        return f"{self.rule} unit {self.unit} at {self.place} slot {self.slot} {self.kind.name.lower()} walk {places}"


@dataclass(frozen=True)
class Effect:
    """What an instruction does to the slots of its unit, and where walks go on from it."""

    name: str
    reads: frozenset[int]
    uses: frozenset[int]
    leaves: frozenset[int]
    writes: frozenset[int]
    makes: frozenset[int]
    handed_on: frozenset[int]
    # The finish that the instruction closes, if it closes one.
    closes: int | None
    following: tuple[int, ...]
    # Where a walk goes on from a loop that takes no turn: its slot isn't written then.
    past: int | None

    @staticmethod
    def of(module: Module, unit: Unit, place: int) -> Effect:
        instr = unit.code[place]
        reads = instr.of(Role.READ) + module.arguments(instr, "n")
        following = {place + 1, *instr.of(Role.TARGET)}
        closes = past = None
        match instr.name:
            case "next":
                begin = instr.operands[0]
                reads = unit.head(begin).kept
                following.add(begin + 1)
            case "forto":
                past = instr.of(Role.END)[0] + 1
                following.add(past)
            case "jump":
                following.remove(place + 1)
                following.update(instr.operands)
            case "endfinish":
                closes = instr.operands[0]
            case "ret":
                following = set()
        return Effect(
            instr.name,
            frozenset(reads),
            frozenset(instr.of(Role.USE)),
            frozenset(instr.of(Role.LEAVE)),
            frozenset(instr.of(Role.WRITE)),
            frozenset(instr.of(Role.MAKE)),
            frozenset(module.arguments(instr, "c")),
            closes,
            tuple(sorted(following)),
            past,
        )


class SlotWalks:
    """The walks of one slot of one unit: from one instruction with a kind before it to the next one, and where they are
    refused."""

    def __init__(self, unit: Unit, effects: list[Effect], slot: int) -> None:
        self.unit, self.effects, self.slot = unit, effects, slot

    @cached_property
    def entry(self) -> list[Kind]:
        """The kinds at the first instruction, rising."""
        if self.unit.is_clock_param(self.slot):
            return [Kind.LIVE, Kind.RESUMED]
        return [Kind.NUMBER if self.slot < len(self.unit.params) else Kind.UNSET]

    def refusal(self, place: int, kind: Kind) -> str | None:
        """The rule by which a walk that comes to the place with this kind is refused, if it is."""
        effect, slot = self.effects[place], self.slot
        if slot in effect.reads and kind is not Kind.NUMBER:
            return USE_REFUSED
        if kind not in HELD:
            return USE_REFUSED if slot in effect.uses or slot in effect.leaves or slot in effect.handed_on else None
        if slot in effect.writes or slot in effect.makes:
            return LEAK_REFUSED
        if effect.closes is not None and self.unit.homes.get(slot) == effect.closes:
            return HELD_REFUSED
        if effect.name == "ret" and self.unit.kind is UnitKind.METHOD and slot >= len(self.unit.params):
            return LEAK_REFUSED
        return None

    def after(self, place: int, kind: Kind, following: int) -> tuple[Kind, ...]:
        """The kinds with which a walk goes on from the place to the following one, where it isn't refused, rising."""
        effect, slot = self.effects[place], self.slot
        if following == effect.past:
            return (kind,)
        if slot in effect.makes:
            return (Kind.LIVE,)
        if slot in effect.writes:
            return (Kind.NUMBER,)
        if slot in effect.uses:
            return (Kind.RESUMED,)
        if slot in effect.leaves:
            return (Kind.OUT,)
        if effect.name == "advance" and kind is Kind.RESUMED:
            return (Kind.LIVE,)
        if effect.name == "call" and (kind is Kind.RESUMED or slot in effect.handed_on):
            return (Kind.LIVE, Kind.RESUMED)
        return (kind,)

    def next_points(self, point: Point) -> list[Point]:
        """Where a walk goes on from a point, rising; nowhere where it is refused."""
        if self.refusal(*point):
            return []
        return [(place, kind) for place in self.effects[point[0]].following for kind in self.after(*point, place)]

    @cached_property
    def found_from(self) -> dict[Point, Point | None]:
        """All points that walks come to, each with the one that a search in breadth found it from."""
        found: dict[Point, Point | None] = {(0, kind): None for kind in self.entry}
        waiting = deque(found)
        while waiting:
            point = waiting.popleft()
            for following in self.next_points(point):
                if following not in found:
                    found[following] = point
                    waiting.append(following)
        return found

    @cached_property
    def refused(self) -> list[Point]:
        return [point for point in self.found_from if self.refusal(*point)]

    def walk_to(self, point: Point) -> tuple[Point, ...]:
        """The first walk to a point that a search in breadth finds."""
        points: list[Point] = []
        before: Point | None = point
        while before is not None:
            points.append(before)
            before = self.found_from[before]
        return tuple(reversed(points))

    def is_walk(self, places: list[int], last: Point) -> bool:
        """Whether a walk over these places ends at this point."""
        kinds = set(self.entry) if places and places[0] == 0 else set()
        for place, following in itertools.pairwise(places):
            kinds = {kind for before in kinds for at, kind in self.next_points((place, before)) if at == following}
        return bool(places) and places[-1] == last[0] and last[1] in kinds


@dataclass(frozen=True)
class Kinds:
    """The walks of all slots of all units."""

    slots: tuple[tuple[SlotWalks, ...], ...]

    @staticmethod
    def of(module: Module) -> Kinds:
        slots = []
        for unit in module.units:
            effects = [Effect.of(module, unit, place) for place in range(len(unit.code))]
            slots.append(tuple(SlotWalks(unit, effects, slot) for slot in range(unit.slots)))
        return Kinds(tuple(slots))

    def refusal(self) -> KindRefusal | None:
        """The least refused walk's end, by unit, place, slot and kind, with a walk to it."""
        for number, slots in enumerate(self.slots):
            refused = [(place, walks.slot, kind) for walks in slots for place, kind in walks.refused]
            if refused:
                place, slot, kind = min(refused)
                walks = slots[slot]
                rule = walks.refusal(place, kind)
                places, kinds = zip(*walks.walk_to((place, kind)))
                return KindRefusal(rule, number, place, slot, kind, places, kinds)
        return None


# The rules on sums.


@dataclass(frozen=True)
class Bounds:
    steps: int
    activities: int
    clocks: int
    stack: int
    # The most clocks that one activity is registered on at once.
    registrations: int

    def line(self) -> str:
        return f"accepted steps {self.steps} activities {self.activities} clocks {self.clocks}"


SUM_LIMITS = {"V14 Steps": 1_000_000_000, "V15 Activities": 100_000, "V16 Clocks": 100_000, "V17 Stack": 4_096}


def turns(unit: Unit) -> list[int]:
    """How often each instruction is carried out at most, whenever its unit is."""
    times = [1] * len(unit.code)
    for loop in unit.loops:
        for place in range(loop.begin + 1, loop.end + 1):
            times[place] *= unit.head(loop.begin).turns
    return times


def bounds(module: Module) -> Bounds:
    """The sums of a module that no rule on places refuses: units start and call greater ones alone, so they are told
    from the last one up."""
    steps, started, clocks, stacks, made = ({} for _ in range(5))
    for number in reversed(range(len(module.units))):
        unit = module.units[number]
        steps[number] = started[number] = clocks[number] = 0
        called = []
        for instr, times in zip(unit.code, turns(unit)):
            below = instr.callee if instr.name in ("call", "spawn") else None
            steps[number] += times * ((2 if instr.name == "advance" else 1) + (0 if below is None else steps[below]))
            started[number] += times * ((1 if instr.name == "spawn" else 0) + (0 if below is None else started[below]))
            clocks[number] += times * ((1 if instr.name == "make" else 0) + (0 if below is None else clocks[below]))
            if instr.name == "call":
                called.append(below)
        stacks[number] = unit.slots + max((stacks[below] for below in called), default=0)
        made[number] = len({instr.operands for instr in unit.code if instr.name == "make"}) + max(
            (made[below] for below in called), default=0
        )
    kept = max(
        unit.params.count("c") + made[number]
        for number, unit in enumerate(module.units)
        if unit.kind is not UnitKind.METHOD
    )
    return Bounds(steps[0], started[0] + 1, clocks[0], max(stacks.values()), min(kept, clocks[0]))


# The verifier's answer.


@dataclass(frozen=True)
class Accepted:
    module: Module
    kinds: Kinds
    bounds: Bounds


@dataclass(frozen=True)
class Refused:
    """The line on a program that isn't run, and what is known of the walk in it, where there is one."""

    line: str
    kinds: Kinds | None = None
    by_kind: KindRefusal | None = None

    @property
    def label(self) -> str:
        return self.line.split()[0]


def judge(data: bytes) -> Accepted | Refused:
    """What becomes of a text: the first rule that it breaks, at the least place, or its bounds."""
    try:
        module = read_module(data)
    except Unread as fault:
        return Refused(str(fault))
    for rule, breaches in PLACE_RULES:
        least = min(breaches(module), default=None)
        if least is not None:
            return Refused(f"{rule} unit {least[0]} at {least[1]}")
    kinds = Kinds.of(module)
    by_kind = kinds.refusal()
    if by_kind:
        return Refused(by_kind.line(), kinds, by_kind)
    sums = bounds(module)
    for (rule, limit), value in zip(SUM_LIMITS.items(), (sums.steps, sums.activities, sums.clocks, sums.stack)):
        if value > limit:
            return Refused(f"{rule} over {limit}")
    return Accepted(module, kinds, sums)


# The machine.


class Wrong(Exception):
    """A step that goes wrong; the message says how."""


class ClockName(NamedTuple):
    number: int


Value = None | int | ClockName


class Frame(NamedTuple):
    """A unit in progress."""

    unit: int
    place: int
    slots: tuple[Value, ...]


class Status(enum.IntEnum):
    RUNNING = 0
    ARRIVED = 1
    ENDED = 2


class Activity(NamedTuple):
    """The units in progress, the last one called at the end; and for each finish that is open, the innermost last, whom
    it waits for."""

    status: Status
    frames: tuple[Frame, ...]
    finishes: tuple[frozenset[int], ...] = ()


class Standing(enum.Enum):
    """Where an activity stands on a clock."""

    APART = "isn't registered"
    OPEN = "is registered, and hasn't resumed since it last went on"
    SIGNALLED = "has resumed"
    AHEAD = "has resumed, and the clock has advanced since"

    def __repr__(self) -> str:
        return self.name.lower()


class Clock(NamedTuple):
    """Who is registered; who of them has resumed in this phase; and who had resumed in the last one, and hasn't gone on
    since.

    Phases aren't counted, since no step looks at their number.
    """

    registered: frozenset[int]
    resumed: frozenset[int] = frozenset()
    let_on: frozenset[int] = frozenset()

    def standing(self, who: int) -> Standing:
        if who not in self.registered:
            return Standing.APART
        if who in self.resumed:
            return Standing.SIGNALLED
        return Standing.AHEAD if who in self.let_on else Standing.OPEN

    def with_resumed(self, who: int) -> Clock:
        """Resumed once; a second time, or before going on from the last phase, changes nothing."""
        if who not in self.registered or who in self.let_on:
            return self
        return self._replace(resumed=self.resumed | {who})

    def gone_on(self, who: int) -> Clock:
        return self._replace(let_on=self.let_on - {who}) if who in self.let_on else self

    def without(self, who: int) -> Clock:
        if who not in self.registered:
            return self
        return Clock(self.registered - {who}, self.resumed - {who}, self.let_on - {who})

    def joined(self, who: int, starter: int) -> Clock:
        """With a new activity that stands where its starter does."""
        resumed = self.resumed | {who} if starter in self.resumed else self.resumed
        let_on = self.let_on | {who} if starter in self.let_on else self.let_on
        return Clock(self.registered | {who}, resumed, let_on)

    def advanced(self) -> Clock:
        """In its next phase, where all who are registered have resumed."""
        if not self.registered or self.resumed != self.registered:
            return self
        return Clock(self.registered, let_on=self.registered)


class World(NamedTuple):
    activities: tuple[Activity, ...]
    clocks: tuple[Clock, ...]
    shared: tuple[int, ...]

    @property
    def has_ended(self) -> bool:
        return all(activity.status is Status.ENDED for activity in self.activities)


class Step(NamedTuple):
    """A step that was taken: what others see of it (nothing where it is local), what it printed, and the clocks that
    advanced with it."""

    world: World
    event: str
    printed: int | None
    advanced: tuple[int, ...]


Arguments = tuple[int, ...]


def misgiven(module: Module, arguments: Arguments) -> str | None:
    """What is said of a program that is given another count of numbers than it wants."""
    if len(arguments) == module.wants:
        return None
    return f"A1 Arguments wants {module.wants} has {len(arguments)}"


def opening(module: Module, arguments: Arguments = ()) -> World:
    """The world in which a program begins that is given these numbers, as many as it wants."""
    frame = Frame(0, 0, arguments + (None,) * (module.units[0].slots - len(arguments)))
    return World((Activity(Status.RUNNING, (frame,)),), (), module.shared)


def wrapped(value: int) -> int:
    return (value + 2**63) % 2**64 - 2**63


@dataclass
class Turn:
    """One step of one activity, in the making."""

    module: Module
    who: int
    activities: list[Activity]
    clocks: list[Clock]
    shared: list[int]
    printed: int | None = None

    @property
    def me(self) -> Activity:
        return self.activities[self.who]

    @me.setter
    def me(self, activity: Activity) -> None:
        self.activities[self.who] = activity

    @property
    def frame(self) -> Frame:
        return self.me.frames[-1]

    @property
    def instr(self) -> Instr:
        code = self.module.units[self.frame.unit].code
        if self.frame.place >= len(code):
            raise Wrong("no such instruction")
        return code[self.frame.place]

    # What the operands stand for.

    def value(self, slot: int) -> Value:
        if slot >= len(self.frame.slots):
            raise Wrong("no such slot")
        if self.frame.slots[slot] is None:
            raise Wrong("missing operand")
        return self.frame.slots[slot]

    def number(self, slot: int) -> int:
        value = self.value(slot)
        if isinstance(value, ClockName):
            raise Wrong("a clock for a number")
        return value

    def clock(self, slot: int) -> int:
        value = self.value(slot)
        if not isinstance(value, ClockName):
            raise Wrong("a number for a clock")
        if self.who not in self.clocks[value.number].registered:
            raise Wrong("ClockUseException")
        return value.number

    def shared_at(self, cell: int) -> int:
        if cell >= len(self.shared):
            raise Wrong("no such shared number")
        return self.shared[cell]

    # Changes of the activity itself.

    def put_frame(self, frame: Frame) -> None:
        self.me = self.me._replace(frames=self.me.frames[:-1] + (frame,))

    def write(self, slot: int, value: Value) -> None:
        slots = self.frame.slots
        if slot >= len(slots):
            raise Wrong("no such slot")
        self.put_frame(self.frame._replace(slots=slots[:slot] + (value,) + slots[slot + 1 :]))

    def go_to(self, place: int) -> None:
        self.put_frame(self.frame._replace(place=place))

    def go_on(self) -> None:
        self.go_to(self.frame.place + 1)

    # The instructions.

    def lit(self, slot: int, number: int) -> None:
        self.write(slot, number)
        self.go_on()

    def copy(self, slot: int, source: int) -> None:
        self.lit(slot, self.number(source))

    def add(self, slot: int, left: int, right: int) -> None:
        self.lit(slot, wrapped(self.number(left) + self.number(right)))

    def sub(self, slot: int, left: int, right: int) -> None:
        self.lit(slot, wrapped(self.number(left) - self.number(right)))

    def mul(self, slot: int, left: int, right: int) -> None:
        self.lit(slot, wrapped(self.number(left) * self.number(right)))

    def unless(self, comparison: str, left: int, right: int, target: int) -> None:
        if COMPARISONS[comparison](self.number(left), self.number(right)):
            self.go_on()
        else:
            self.go_to(target)

    def jump(self, target: int) -> None:
        self.go_to(target)

    def for_(self, slot: int, low: int, _high: int, _end: int) -> None:
        self.lit(slot, low)

    def last_turn(self, head: Head) -> int:
        """The number of the last turn that a loop takes, if it takes one."""
        return head.high if head.limit is None else min(self.number(head.limit), head.high)

    def forto(self, slot: int, low: int, _limit: int, _high: int, end: int) -> None:
        """Begins a loop, or goes past it where the limit is below its first number."""
        if low <= self.last_turn(Head.of(self.instr)):
            self.lit(slot, low)
        else:
            self.go_to(end + 1)

    def next(self, begin: int) -> None:
        head = self.module.units[self.frame.unit].head(begin)
        turn = self.number(head.slot)
        if turn < self.last_turn(head):
            self.write(head.slot, turn + 1)
            self.go_to(begin + 1)
        else:
            self.go_on()

    def make(self, slot: int) -> None:
        self.write(slot, ClockName(len(self.clocks)))
        self.clocks.append(Clock(frozenset({self.who})))
        self.go_on()

    def resume(self, slot: int) -> None:
        clock = self.clock(slot)
        self.clocks[clock] = self.clocks[clock].with_resumed(self.who)
        self.go_on()

    def drop(self, slot: int) -> None:
        clock = self.clock(slot)
        self.clocks[clock] = self.clocks[clock].without(self.who)
        self.go_on()

    def advance(self) -> bool | None:
        """Resumes all clocks of the activity; then, in a step of its own, goes on where none of them keeps it
        waiting."""
        if self.me.status is Status.RUNNING:
            self.clocks = [clock.with_resumed(self.who) for clock in self.clocks]
            self.me = self.me._replace(status=Status.ARRIVED)
            return None
        if any(self.who in clock.resumed for clock in self.clocks):
            return False
        self.clocks = [clock.gone_on(self.who) for clock in self.clocks]
        self.me = self.me._replace(status=Status.RUNNING)
        self.go_on()
        return None

    def finish(self, _end: int) -> None:
        self.me = self.me._replace(finishes=self.me.finishes + (frozenset(),))
        self.go_on()

    def endfinish(self, _begin: int) -> bool | None:
        if not self.me.finishes:
            raise Wrong("no open finish")
        if self.me.finishes[-1]:
            return False
        self.me = self.me._replace(finishes=self.me.finishes[:-1])
        self.go_on()
        return None

    def entered(self, number: int, arguments: tuple[int, ...], kind: UnitKind) -> Frame:
        """The first frame of a unit that gets these slots."""
        if number >= len(self.module.units):
            raise Wrong("no such unit")
        unit = self.module.units[number]
        if unit.kind is not kind or len(unit.params) != len(arguments):
            raise Wrong("no such unit")
        given: list[Value] = []
        for slot, letter in zip(arguments, unit.params):
            given.append(ClockName(self.clock(slot)) if letter == "c" else self.number(slot))
        return Frame(number, 0, tuple(given) + (None,) * (unit.slots - len(given)))

    def call(self, number: int, arguments: tuple[int, ...]) -> None:
        frame = self.entered(number, arguments, UnitKind.METHOD)
        self.go_on()
        self.me = self.me._replace(frames=self.me.frames + (frame,))

    def spawn(self, number: int, arguments: tuple[int, ...]) -> None:
        """Starts an activity: each finish that the starter has open, and each that waits for the starter, waits for it
        too."""
        frame = self.entered(number, arguments, UnitKind.BODY)
        child = len(self.activities)
        for value in frame.slots:
            if isinstance(value, ClockName):
                self.clocks[value.number] = self.clocks[value.number].joined(child, self.who)
        for owner, activity in enumerate(self.activities):
            if activity.finishes:
                waits = tuple(
                    awaited | {child} if owner == self.who or self.who in awaited else awaited
                    for awaited in activity.finishes
                )
                self.activities[owner] = activity._replace(finishes=waits)
        self.activities.append(Activity(Status.RUNNING, (frame,)))
        self.go_on()

    def print(self, slot: int) -> None:
        self.printed = self.number(slot)
        self.go_on()

    def get(self, slot: int, cell: int) -> None:
        self.lit(slot, self.shared_at(cell))

    def put(self, cell: int, slot: int) -> None:
        self.shared_at(cell)
        self.shared[cell] = self.number(slot)
        self.go_on()

    def addto(self, cell: int, slot: int) -> None:
        self.shared[cell] = wrapped(self.shared_at(cell) + self.number(slot))
        self.go_on()

    def ret(self) -> None:
        """Back to the caller; or the activity ends, is registered nowhere any more, and no finish waits for it."""
        if self.module.units[self.frame.unit].kind is UnitKind.METHOD:
            if len(self.me.frames) == 1:
                raise Wrong("no caller")
            self.me = self.me._replace(frames=self.me.frames[:-1])
            return
        self.me = Activity(Status.ENDED, ())
        self.clocks = [clock.without(self.who) for clock in self.clocks]
        for owner, activity in enumerate(self.activities):
            if any(self.who in awaited for awaited in activity.finishes):
                waits = tuple(awaited - {self.who} for awaited in activity.finishes)
                self.activities[owner] = activity._replace(finishes=waits)


    def event(self, name: str) -> str:
        """What others have seen of an instruction of this name that was carried out."""
        match name:
            case "advance":
                return "Arrived" if self.me.status is Status.ARRIVED else "Passed"
            case "print":
                return f"Printed({self.printed})"
            case "ret":
                return "Ended" if self.me.status is Status.ENDED else ""
        return SEEN.get(name, "")


CARRY_OUT: dict[str, Callable[..., bool | None]] = {
    name: getattr(Turn, "for_" if name == "for" else name) for name in ROLES
}
SEEN = {
    "make": "Made",
    "resume": "Resumed",
    "drop": "Dropped",
    "finish": "Opened",
    "endfinish": "Closed",
    "spawn": "Spawned",
    "get": "Got",
    "put": "Put",
    "addto": "Added",
}


def step(module: Module, world: World, who: int) -> Step | None:
    """The next step of an activity, or None where it can't step; raises Wrong."""
    if not 0 <= who < len(world.activities) or world.activities[who].status is Status.ENDED:
        return None
    turn = Turn(module, who, list(world.activities), list(world.clocks), list(world.shared))
    instr = turn.instr
    if CARRY_OUT[instr.name](turn, *instr.operands) is False:
        return None
    clocks = tuple(clock.advanced() for clock in turn.clocks)
    advanced = tuple(number for number, clock in enumerate(clocks) if clock is not turn.clocks[number])
    return Step(
        World(tuple(turn.activities), clocks, tuple(turn.shared)), turn.event(instr.name), turn.printed, advanced
    )


# Runs.


class Order(enum.Enum):
    """Who takes each step: the least number that can, the greatest, or the next above the one before, and the least
    where there is none."""

    FIRST = "first"
    LAST = "last"
    ROUND = "round"

    def words(self) -> list[str]:
        """The words that ask for it."""
        return ["--order", self.value]


@dataclass(frozen=True)
class ByChance:
    """By four chances in five whoever took the step before, if it can take one more, and else any of those who can:
    drawn from a seed."""

    NAME = "random"

    seed: int = 0

    def words(self) -> list[str]:
        return ["--order", self.NAME, "--seed", str(self.seed)]

    def numbers(self) -> Iterator[int]:
        """The numbers of SplitMix64."""
        state = self.seed
        while True:
            state = (state + 0x9E3779B97F4A7C15) % 2**64
            mixed = (state ^ state >> 30) * 0xBF58476D1CE4E5B9 % 2**64
            mixed = (mixed ^ mixed >> 27) * 0x94D049BB133111EB % 2**64
            yield mixed ^ mixed >> 31


@dataclass(frozen=True)
class Greedy:
    """By rounds: who can step when a round begins takes a step each, by their numbers; or the first of them, as many as
    there are processors."""

    NAME = "greedy"

    processors: int | None = None

    def words(self) -> list[str]:
        limit = [] if self.processors is None else ["--processors", str(self.processors)]
        return ["--order", self.NAME, *limit]


Way = Order | ByChance | Greedy
ORDERS = [*(order.value for order in Order), ByChance.NAME, Greedy.NAME]


def way_of(name: str, seed: int = 0, processors: int | None = None) -> Way:
    """The order of this name; the seed is for the one by chance, and the processors are for the one by rounds."""
    if name == Greedy.NAME:
        return Greedy(processors)
    return ByChance(seed) if name == ByChance.NAME else Order(name)


class Chooser:
    """Says who takes the steps of a run, one after another."""

    def __init__(self, way: Way) -> None:
        self.way, self.before = way, -1
        self.numbers = way.numbers() if isinstance(way, ByChance) else iter(())
        # Who still has to step in the round, and how many rounds have begun, where there are rounds.
        self.round: list[int] = []
        self.rounds = 0 if isinstance(way, Greedy) else None

    def candidates(self, count: int, can_step: Callable[[int], object]) -> Iterable[int]:
        """Who takes the next step, of so many: the first of these who can take one."""
        before = self.before
        match self.way:
            case Order.FIRST:
                return range(count)
            case Order.LAST:
                return reversed(range(count))
            case Order.ROUND:
                return itertools.chain(range(before + 1, count), range(before + 1))
            case Greedy(processors):
                return self.in_round([who for who in range(count) if can_step(who)][:processors])
        number = next(self.numbers)
        if number % 5 and can_step(before):
            return [before]
        able = [who for who in range(count) if can_step(who)]
        return [able[number // 5 % len(able)]] if able else []

    def in_round(self, able: list[int]) -> list[int]:
        """Who steps next in the round, or in a new one, of these."""
        if not self.round and able:
            self.round, self.rounds = able, self.rounds + 1
        first, self.round = self.round[:1], self.round[1:]
        return first

    def step(self, module: Module, world: World) -> Step | None:
        """The next step, or None where nobody can step; raises Wrong."""
        for who in self.candidates(len(world.activities), lambda who: step(module, world, who)):
            taken = step(module, world, who)
            if taken:
                self.before = who
                return taken
        return None


@dataclass(frozen=True)
class Ran:
    printed: list[int]
    steps: int
    ended: bool
    # How many rounds there were, in a run by rounds.
    rounds: int | None = None

    def text(self) -> str:
        rounds = "" if self.rounds is None else f" rounds {self.rounds}"
        return "".join(f"{number}\n" for number in self.printed) + f"ended steps {self.steps}{rounds}\n"


def run(module: Module, way: Way, arguments: Arguments = ()) -> Ran:
    """The run in an order, with these numbers given; raises Wrong."""
    world, chooser, steps, printed = opening(module, arguments), Chooser(way), 0, []
    while (taken := chooser.step(module, world)) is not None:
        world, steps = taken.world, steps + 1
        if taken.printed is not None:
            printed.append(taken.printed)
    return Ran(printed, steps, world.has_ended, chooser.rounds)


# All schedules.


class Broken(Exception):
    """A promise that doesn't hold; the message says which, and the schedule that shows it."""


KIND_OF = {
    Standing.APART: Kind.OUT,
    Standing.OPEN: Kind.LIVE,
    Standing.SIGNALLED: Kind.RESUMED,
    Standing.AHEAD: Kind.RESUMED,
}


def kind_in(world: World, who: int, value: Value) -> Kind:
    """The kind of what a slot of a running activity holds."""
    if value is None:
        return Kind.UNSET
    if not isinstance(value, ClockName):
        return Kind.NUMBER
    return KIND_OF[world.clocks[value.number].standing(who)]


class Schedules:
    """A walk through all schedules of an accepted module that is given these numbers. Worlds that are alike are looked
    at once."""

    def __init__(self, accepted: Accepted, worlds: int, arguments: Arguments = ()) -> None:
        self.module, self.kinds, self.bounds, self.worlds = accepted.module, accepted.kinds, accepted.bounds, worlds
        self.start = opening(self.module, arguments)
        # For each world that is done with, how many steps can be taken from it at most.
        self.longest: dict[World, int] = {}
        self.path: list[int] = []

    def broken(self, what: str) -> Broken:
        return Broken(f"{what}, by the schedule {' '.join(map(str, self.path))}")

    def look(self, world: World) -> None:
        """Looks at one world: its sizes, and the kinds of what the slots hold."""
        stack = max(sum(len(frame.slots) for frame in activity.frames) for activity in world.activities)
        registrations = max(
            sum(who in clock.registered for clock in world.clocks) for who in range(len(world.activities))
        )
        sizes = (len(world.activities), len(world.clocks), stack, registrations)
        bounds = (self.bounds.activities, self.bounds.clocks, self.bounds.stack, self.bounds.registrations)
        if any(size > bound for size, bound in zip(sizes, bounds)):
            raise self.broken("more than was verified")
        for who, activity in enumerate(world.activities):
            if activity.status is not Status.RUNNING:
                continue
            unit, place, slots = activity.frames[-1]
            for slot, value in enumerate(slots):
                if (place, kind_in(world, who, value)) not in self.kinds.slots[unit][slot].found_from:
                    raise self.broken(f"a kind that no walk has, activity {who}, slot {slot}")

    def steps_from(self, world: World) -> Iterator[tuple[int, World]]:
        for who in range(len(world.activities)):
            try:
                taken = step(self.module, world, who)
            except Wrong as wrong:
                self.path.append(who)
                raise self.broken(f"a wrong step: {wrong}") from None
            if taken:
                yield who, taken.world

    def walk(self) -> int | None:
        """How many worlds there are, or None where there are more than were to be looked at; raises Broken."""
        start = self.start
        self.look(start)
        stack: list[tuple[World, Iterator[tuple[int, World]], int, bool]] = [(start, self.steps_from(start), 0, False)]
        open_worlds = {start}
        while stack:
            world, following, longest, stepped = stack.pop()
            taken = next(following, None)
            if taken is None:
                if not stepped and not world.has_ended:
                    raise self.broken("nobody can step, and not all have ended")
                self.longest[world] = longest
                open_worlds.discard(world)
                if self.path:
                    self.path.pop()
                if stack:
                    above, rest, before, _ = stack.pop()
                    stack.append((above, rest, max(before, longest + 1), True))
                continue
            who, after = taken
            known = self.longest.get(after)
            stack.append((world, following, longest if known is None else max(longest, known + 1), True))
            if known is not None:
                continue
            self.path.append(who)
            if after in open_worlds:
                raise self.broken("a schedule that goes on for ever")
            if len(self.longest) + len(open_worlds) >= self.worlds:
                return None
            self.look(after)
            open_worlds.add(after)
            stack.append((after, self.steps_from(after), 0, False))
        if self.longest[start] > self.bounds.steps:
            raise self.broken(f"a schedule of {self.longest[start]} steps")
        return len(self.longest)


    def printed(self) -> Counter[tuple[int, ...]]:
        """In how many schedules each list of numbers is printed, once the walk has come to its end."""
        lists: dict[World, Counter[tuple[int, ...]]] = {}
        # A world is done with behind all that can follow it.
        for world in self.longest:
            found: Counter[tuple[int, ...]] = Counter()
            for who in range(len(world.activities)):
                taken = step(self.module, world, who)
                if taken:
                    begin = () if taken.printed is None else (taken.printed,)
                    found.update({begin + rest: count for rest, count in lists[taken.world].items()})
            lists[world] = found or Counter({(): 1})
        return lists[self.start]


# The command line.


def refusal(command: str, judged: Accepted | Refused, arguments: Arguments) -> str | None:
    """The line on a program that is refused: all but `check` and `explain` also look at how many numbers are given."""
    if isinstance(judged, Refused):
        return judged.line
    return None if command in ("check", "explain") else misgiven(judged.module, arguments)


def answer_walk(schedules: Schedules) -> None:
    """Prints how often each list of numbers is printed."""
    worlds = schedules.walk()
    if worlds is None:
        print("more worlds")
        return
    printed = schedules.printed()
    print(f"{worlds} worlds, {printed.total()} schedules, at most {schedules.longest[schedules.start]} steps")
    for numbers, count in sorted(printed.items()):
        print(f"{count} times:", *numbers)


def answer(command: str, judged: Accepted | Refused, more: list[str], arguments: Arguments = ()) -> int:
    """Prints what there is to say of a program that is given these numbers."""
    line = refusal(command, judged, arguments)
    if line:
        print(f"x10clock: {line}", file=sys.stderr)
        return 1
    if command == "check":
        print(judged.bounds.line())
    elif command == "run":
        print(run(judged.module, way_named(more), arguments).text(), end="")
    else:
        answer_walk(Schedules(judged, int(more[0]) if more else 1_000_000, arguments))
    return 0


ARGUMENT = "--arg="


def way_named(more: list[str]) -> Way:
    """An order, with a seed or a number of processors, as the words have them behind a file."""
    name, numbers = more[0] if more else Order.FIRST.value, [int(word) for word in more[1:]]
    return Greedy(*numbers) if name == Greedy.NAME else way_of(name, *numbers)


def parted(words: list[str]) -> tuple[list[str], Arguments]:
    """The words of a call without the numbers that are given, and these."""
    numbers = tuple(int(word.removeprefix(ARGUMENT)) for word in words if word.startswith(ARGUMENT))
    return [word for word in words if not word.startswith(ARGUMENT)], numbers


def main(words: list[str]) -> int:
    (command, path, *more), arguments = parted(words)
    return answer(command, judge(pathlib.Path(path).read_bytes()), more, arguments)


if __name__ == "__main__":
    sys.exit(main(sys.argv[1:]))
