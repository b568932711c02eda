#!/usr/bin/env python3
"""The reference for `listing`, from docs/LISTING.md.

    python3 -m tests.reference.listing [--module] FILE
"""

from __future__ import annotations

import pathlib
import sys

from tests.reference import explain, modules, origins
from tests.reference.modules import Instr, Kind, Kinds, Module, Role, Unit
from tests.reference.origins import Origins

# How wide a field is at least: an instruction's place, its words, the clocks, and where it comes from. Two blanks stand
# between fields.
PLACE, WORDS, CLOCKS, FROM = 4, 17, 24, 7
OF_CLOCKS = (Kind.LIVE, Kind.RESUMED, Kind.OUT)
# So many letters of a name are shown where it isn't declared, and `..` for the others.
NAMED = 60


def has_shape(module: Module) -> bool:
    """Whether no place breaks V1 to V10; each is asked where the ones before it aren't broken."""
    return all(next(breaches(module), None) is None for _, breaches in modules.PLACE_RULES)


def words(instr: Instr) -> str:
    operands = zip(modules.ROLES[instr.name], instr.operands, strict=True)
    listed = [
        f"({' '.join(map(str, operand))})" if role is Role.ARGUMENTS else str(operand) for role, operand in operands
    ]
    return " ".join([instr.name, *listed])


def cut(name: str) -> str:
    return name[:NAMED] + ".." if len(name) > NAMED else name


def clocks(kinds: Kinds | None, number: int, place: int, names: dict[int, str]) -> str:
    """The slots that may hold clocks before an instruction, and what they may hold."""
    said = []
    for slot, walks in enumerate(kinds.slots[number] if kinds else ()):
        found = sorted(kind for at, kind in walks.found_from if at == place)
        if any(kind in OF_CLOCKS for kind in found):
            name = cut(names[slot]) if slot in names else slot
            said.append(f"{name}:{'|'.join(kind.name.lower() for kind in found)}")
    return " ".join(said)


def front(place: int) -> str:
    return f"{place:>{PLACE}}  "


def module_unit(number: int, unit: Unit, kinds: Kinds | None) -> str:
    """A unit of a module that comes without its text."""
    params = f"  params {unit.params}" if unit.params else ""
    said = f"unit {number}  {unit.kind.value}{params}  slots {unit.slots}\n"
    for place, instr in enumerate(unit.code):
        found = clocks(kinds, number, place, {})
        said += front(place) + (f"{words(instr):<{WORDS}}  {found}" if found else words(instr)) + "\n"
    return said


def source_unit(text: bytes, number: int, unit: Unit, comes_from: Origins, kinds: Kinds | None) -> str:
    name = f"def {comes_from.name}" if comes_from.name else "async"
    names = dict(comes_from.slots)
    if not comes_from.name:
        # What an `async` takes from outside is declared there.
        names.update((slot, cut(names[slot])) for slot in range(len(unit.params)) if slot in names)
    slots = "".join(f" {slot}:{names[slot]}" if slot in names else f" {slot}" for slot in range(unit.slots))
    said = f"unit {number}  {name}  {explain.place_title(text, comes_from.at)}  slots{slots}\n"
    before = None
    for place, (instr, at) in enumerate(zip(unit.code, comes_from.offsets, strict=True)):
        held = f"  {clocks(kinds, number, place, comes_from.slots):<{CLOCKS}}" if kinds else ""
        title = explain.place_title(text, at)
        line = title if at == before else f"{title:<{FROM}}  {explain.line_text(text, at)}"
        said += f"{front(place)}{words(instr):<{WORDS}}{held}  {line}\n"
        before = at
    return said


def listed(data: bytes, is_module: bool) -> str:
    """Of bytes that give a module; of others the fault is raised."""
    module, known = origins.program(data, is_module)
    kinds = Kinds.of(module) if has_shape(module) else None
    if known is None:
        return "\n".join(module_unit(number, unit, kinds) for number, unit in enumerate(module.units))
    units = zip(module.units, known, strict=True)
    return "\n".join(
        source_unit(data, number, unit, comes_from, kinds) for number, (unit, comes_from) in enumerate(units)
    )


def main(arguments: list[str]) -> int:
    *flags, path = arguments
    sys.stdout.write(listed(pathlib.Path(path).read_bytes(), "--module" in flags))
    return 0


if __name__ == "__main__":
    sys.exit(main(sys.argv[1:]))
