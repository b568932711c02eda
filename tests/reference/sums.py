"""The reference for the notes of `explain` on what the verifier says (docs/EXPLAIN.md, "Notes"), from the module and
where its instructions come from.

Beside V8, V9 and V12 stands the other place that the rule speaks of, beside V9 who waits for whom, beside V11 to V13
what the slot may hold when which thing is done with it, and of a clock that is dropped where, beside V14 to V17 the sum
by its parts, and of a program that is accepted what its numbers come from.
"""

from __future__ import annotations

import re
from collections.abc import Callable, Iterable, Iterator
from dataclasses import dataclass

from tests.reference import modules
from tests.reference.modules import WHOLE_UNIT, Instr, Module, Role, Unit
from tests.reference.names import cut
from tests.reference.origins import Origins, program

# A note: its offset in the text, if it has a place there, and its words.
Note = tuple[int | None, str]

# Numbers up to this one are printed in digits.
MOST_TOLD = 10**18
FAULT = re.compile(
    r"(?P<rule>V\d+) \w+ (?:unit (?P<unit>\d+) at (?P<at>\d+)"
    r"(?: slot (?P<slot>\d+) (?P<kind>\w+) walk (?P<walk>.*))?|over \d+)"
)
LOOPS = ("for", "forto")


# Words.


def counted(number: int, one: str, many: str) -> str:
    return f"{amount(number)} {one if number == 1 else many}"


def amount(number: int) -> str:
    return str(number) if number <= MOST_TOLD else f"over {MOST_TOLD}"


@dataclass(frozen=True)
class Speaker:
    """Speaks of the units and slots of a module: in the names of its text, or by their numbers."""

    origins: list[Origins] | None

    def unit(self, number: int, nameless: str = "this `async`") -> str:
        return f"unit {number}" if self.origins is None else cut(self.origins[number].name or nameless)

    def around(self, number: int) -> str:
        """The unit, spoken of at a place in it."""
        return self.unit(number, "the `async` around it")

    def slot(self, number: int, slot: int) -> str:
        if self.origins is None:
            return f"slot {slot}"
        names = self.origins[number].slots
        return f"`{cut(names[slot])}`" if slot in names else "the clock without a name"

    def times(self, number: int, times: int) -> str:
        return f"{counted(times, 'time', 'times')} in one run of {self.around(number)}"

    def at(self, number: int, place: int, words: str) -> Note:
        """A note on an instruction."""
        if self.origins is None:
            return None, f"unit {number} at {place}: {words}"
        return self.origins[number].offsets[place], words

    def of(self, number: int, words: str) -> Note:
        """A note on a whole unit, which stands at its name, or at its `async`."""
        return None if self.origins is None else self.origins[number].at, words


# The other places.


def elsewhere(unit: Unit, slot: int, place: int, places: Iterable[int]) -> int | None:
    """The first of these places that makes a slot's clock in another block than that of a place."""
    return next(
        (at for at in places if unit.code[at] == Instr("make", (slot,)) and unit.blocks[at] != unit.blocks[place]), None
    )


def beside_home(number: int, unit: Unit, place: int, speaker: Speaker) -> Iterator[Note]:
    """V8: the clock that is dropped is lent; the slot of one that is made is a parameter's, or takes a clock of another
    block before."""
    name, (slot, *_) = unit.code[place].name, unit.code[place].operands
    if name == "drop" or slot < len(unit.params):
        yield speaker.of(number, f"{speaker.slot(number, slot)} comes from outside")
    elif (made := elsewhere(unit, slot, place, range(place))) is not None:
        yield speaker.at(number, made, f"{speaker.slot(number, slot)} is made here")


def beside_registers(module: Module, number: int, place: int, speaker: Speaker) -> Iterator[Note]:
    """V9: where the first clock comes from that is handed on in another block than its own, the finish that is open,
    and, where that begins behind it, who waits for whom."""
    unit = module.units[number]
    block, instr = unit.blocks[place], unit.code[place]
    clock = None
    for slot in module.arguments(instr, "c"):
        made = elsewhere(unit, slot, place, range(len(unit.code)))
        if unit.is_clock_param(slot) and block != WHOLE_UNIT:
            clock = speaker.slot(number, slot)
            yield speaker.of(number, f"{clock} comes from outside")
            break
        if made is not None:
            clock = speaker.slot(number, slot) if made < block else None
            yield speaker.at(number, made, f"{speaker.slot(number, slot)} is made here")
            break
    if block != WHOLE_UNIT:
        yield speaker.at(number, block, "this finish is open")
        if clock:
            callee = f"those that {speaker.unit(instr.callee)} starts" if instr.name == "call" else ""
            awaited = f"at its end the finish waits for {callee or 'the one started here'}"
            yield speaker.at(number, place, f"{awaited}, which may wait on {clock} for this activity")


def beside_held(number: int, unit: Unit, place: int, speaker: Speaker) -> Iterator[Note]:
    """V12: where the finish begins that ends."""
    for begin in unit.code[place].of(Role.BEGIN):
        yield speaker.at(number, begin, "the finish begins here")


HOLDS = {
    "unset": "may hold nothing yet",
    "number": "may be a number",
    "live": "may be held still",
    "resumed": "may be held still",
    "out": "may be dropped already",
}
DONE = {
    "resume": "when it is resumed here",
    "drop": "when it is dropped here",
    "spawn": "when it is handed on here",
    "endfinish": "when the finish ends here",
    "make": "when it is made anew here",
}


def beside_kind(module: Module, number: int, place: int, slot: int, kind: str, speaker: Speaker) -> Note:
    """V11 to V13: what the slot may hold when this is done with it."""
    instr = module.units[number].code[place]
    done = DONE.get(instr.name, "where it is used here")
    if instr.name == "call":
        done = f"when it is lent to {speaker.unit(instr.callee)} here"
    if instr.name == "ret":
        done = f"when {speaker.unit(number)} ends here"
    return speaker.at(number, place, f"{speaker.slot(number, slot)} {HOLDS[kind]} {done}")


def beside_dropped(number: int, unit: Unit, slot: int, walk: list[int], speaker: Speaker) -> Iterator[Note]:
    """Where the clock of a slot is dropped on a walk to where it may be dropped already, if that is elsewhere: the last
    time."""
    found, is_out = None, False
    for place in walk[:-1]:
        if slot in unit.code[place].of(Role.LEAVE) and not is_out:
            found, is_out = place, True
        if slot in unit.code[place].of(Role.MAKE):
            is_out = False
    if found is not None and found != walk[-1]:
        yield speaker.at(number, found, f"{speaker.slot(number, slot)} is dropped here")


# Sums.


def totals(module: Module, own: Callable[[Instr], int]) -> list[int]:
    """What a run of each unit comes to, with all that it calls and starts: such have greater numbers."""
    found = [0] * len(module.units)
    for number in reversed(range(len(module.units))):
        unit = module.units[number]
        below = [sum(found[callee] for callee in instr.of(Role.UNIT)) for instr in unit.code]
        found[number] = sum(
            times * (own(instr) + more)
            for times, instr, more in zip(modules.turns(unit), unit.code, below, strict=True)
        )
    return found


def stacks(module: Module) -> list[int]:
    """The slots of each unit, with the most of those that it calls."""
    found = [0] * len(module.units)
    for number in reversed(range(len(module.units))):
        unit = module.units[number]
        found[number] = unit.slots + max(
            (found[instr.callee] for instr in unit.code if instr.name == "call"), default=0
        )
    return found


@dataclass(frozen=True)
class Sum:
    """What is told of a sum: which instructions, by their names, and loops from how many turns on; and of each unit, in
    words."""

    names: tuple[str, ...]
    least_turns: int
    wholes: Callable[[Module], list[str]] | None = None


def takes(does: str, one: str, many: str, own: Callable[[Instr], int]) -> Callable[[Module], list[str]]:
    return lambda module: [f"{does} {counted(total, one, many)} at most" for total in totals(module, own)]


def has(module: Module) -> list[str]:
    found = zip(module.units, stacks(module), strict=True)
    return [
        f"has {counted(unit.slots, 'slot', 'slots')}, at most {amount(most)} with those that it calls"
        for unit, most in found
    ]


SUMS = {
    "V14": Sum(
        (*LOOPS, "call", "spawn"), 0, takes("takes", "step", "steps", lambda instr: 2 if instr.name == "advance" else 1)
    ),
    "V15": Sum(
        (*LOOPS, "call", "spawn"), 0, takes("starts", "activity", "activities", lambda instr: instr.name == "spawn")
    ),
    "V16": Sum(
        (*LOOPS, "call", "spawn", "make"), 0, takes("makes", "clock", "clocks", lambda instr: instr.name == "make")
    ),
    "V17": Sum(("call",), 0, has),
}
ACCEPTED = Sum((*LOOPS, "spawn", "make"), 2)


def part(told: Sum, number: int, unit: Unit, place: int, times: int, speaker: Speaker) -> str | None:
    """What is told of an instruction that is carried out so often, if anything."""
    instr = unit.code[place]
    if instr.name not in told.names:
        return None
    if instr.name in LOOPS:
        turns = unit.head(place).turns
        in_all = f"{amount(times * turns)} in one run of {speaker.around(number)}"
        words = f"this loop has {counted(turns, 'turn', 'turns')} each time, {in_all}"
        return words if turns >= told.least_turns else None
    if instr.name == "make":
        return f"a clock is made here {speaker.times(number, times)}"
    does = "is called here" if instr.name == "call" else "is started"
    return f"{speaker.unit(instr.callee)} {does} {speaker.times(number, times)}"


def parts(told: Sum, module: Module, speaker: Speaker) -> Iterator[Note]:
    """Unit by unit what its instructions add, and then what it comes to."""
    wholes = told.wholes(module) if told.wholes else []
    for number, unit in enumerate(module.units):
        for place, times in enumerate(modules.turns(unit)):
            if words := part(told, number, unit, place, times, speaker):
                yield speaker.at(number, place, words)
        for words in wholes[number : number + 1]:
            yield speaker.of(number, f"{speaker.unit(number)} {words}")


# Notes.


def of_refused(data: bytes, said: str, is_module: bool) -> list[Note]:
    """The notes beside a line of the verifier's, as `V9 Registers unit 0 at 3`."""
    found = FAULT.match(said)
    if not found or found["rule"] not in ("V8", "V9", "V11", "V12", "V13", *SUMS):
        return []
    module, origins = program(data, is_module)
    speaker, rule = Speaker(origins), found["rule"]
    if rule in SUMS:
        return list(parts(SUMS[rule], module, speaker))
    number, place = int(found["unit"]), int(found["at"])
    if rule == "V9":
        return list(beside_registers(module, number, place, speaker))
    if rule == "V8":
        return list(beside_home(number, module.units[number], place, speaker))
    unit, slot = module.units[number], int(found["slot"])
    notes = [beside_kind(module, number, place, slot, found["kind"], speaker)]
    if rule == "V12":
        notes += beside_held(number, unit, place, speaker)
    if found["kind"] == "out":
        notes += beside_dropped(number, unit, slot, list(map(int, found["walk"].split())), speaker)
    return notes


def of_accepted(data: bytes, is_module: bool) -> list[Note]:
    """The notes on a program that is accepted."""
    module, origins = program(data, is_module)
    return list(parts(ACCEPTED, module, Speaker(origins)))
