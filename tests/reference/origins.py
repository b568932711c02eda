"""The reference for where the instructions of a compiled text come from in it, and what its slots are called
(docs/EXPLAIN.md)."""

from __future__ import annotations

from dataclasses import dataclass
from functools import lru_cache

from tests.reference import modules, source
from tests.reference.modules import Module
from tests.reference.source import Between, Block, Coder, Finish, Loop, Names, Parser, Sort, Stmt, Tree, UnitForm

CLOSERS = ("next", "endfinish")


@dataclass
class Origins:
    """Of a unit: its word or name, the name of the method that it is in, where it stands, where each instruction comes
    from, and the names of slots."""

    name: str | None
    method: str
    at: int
    offsets: list[int]
    slots: dict[int, str]


class PlacedParser(Parser):
    """Keeps where statements stand, and where the statement in a loop, a finish or a body ends."""

    def __init__(self, text: bytes) -> None:
        super().__init__(text)
        self.places: dict[int, int] = {}
        self.ends: dict[int, int] = {}
        self.kept: list[object] = []

    def statement(self) -> Stmt:
        first = self.next
        made = super().statement()
        self.kept.append(made)
        self.places[id(made)] = self.place(first)
        self.close(made)
        return made

    def block(self) -> Block:
        made = super().block()
        self.kept.append(made)
        self.close(made)
        return made

    def close(self, made: Stmt) -> None:
        """Where a block ends: at its brace. No other statement has an end of its own, nor has the one of nothing but
        `;`."""
        last = self.tokens[self.next - 1]
        if isinstance(made, Block) and last.text == "}":
            self.ends[id(made)] = last.at

    def place(self, first: int) -> int:
        """The token at the place of a statement, which begins at this one."""
        token = self.tokens[first]
        if token.sort is Sort.NAME:
            return token.at
        behind = {"val": 1, "var": 1, "atomic": 1, "if": 1, "for": 1, "clocked": 1, "Console": 2}
        return self.tokens[first + behind.get(token.text, 0)].at


class PlacedCoder(Coder):
    """Keeps where each instruction comes from."""

    parser: PlacedParser

    def __init__(self, names: Names, unit: UnitForm) -> None:
        self.offsets: dict[int, int] = {}
        self.clocked = 0
        super().__init__(names, unit)
        body, ends = unit.body, self.parser.ends
        self.offsets[len(self.code) - 1] = ends.get(id(body), unit.at)

    def statement(self, stmt: Stmt | Between) -> None:
        begin, clocked = len(self.code), self.clocked
        if isinstance(stmt, Finish) and stmt.clocked is not None:
            self.clocked = stmt.clocked
        super().statement(stmt)
        place = clocked if isinstance(stmt, Between) else self.parser.places.get(id(stmt), 0)
        end = self.parser.ends.get(id(stmt.body), place) if self.ends_at_brace(stmt) else place
        for at in range(begin, len(self.code)):
            self.offsets.setdefault(at, end if self.code[at][0] in CLOSERS else place)
        self.clocked = clocked

    def ends_at_brace(self, stmt: Stmt | Between) -> bool:
        return isinstance(stmt, Loop) or isinstance(stmt, Finish) and stmt.clocked is None


def slot_names(data: bytes, names: Names, unit: UnitForm) -> dict[int, str]:
    """The names of a unit's slots; those that the text has no name for aren't told."""
    texts = {
        names.meanings[token.at]: token.text
        for token in source.tokens_of(data)
        if token.sort is Sort.NAME and token.at in names.meanings
    }
    return {slot: texts[declared] for declared, slot in unit.named.items() if declared in texts}


@lru_cache(maxsize=4)
def origins(data: bytes) -> list[Origins]:
    """Of each unit of a text that is compiled, in the order of their numbers."""
    parser = PlacedParser(data)
    tree: Tree = parser.program()
    names = Names(tree)
    names.check()
    coder = type("Coder", (PlacedCoder,), {"parser": parser})
    usual, source.Coder = source.Coder, coder
    try:
        coders = source.reached_units(names)
    finally:
        source.Coder = usual
    method_names = {id(unit): name for name, unit in names.units.items()}
    told = []
    for unit in source.in_order(names, coders):
        made = coders[unit]
        offsets = [made.offsets[at] for at in range(len(made.code))]
        name, method = method_names.get(id(unit)), method_names[id(outermost(unit))]
        told.append(Origins(name, method, unit.at, offsets, slot_names(data, names, unit)))
    return told


def outermost(unit: UnitForm) -> UnitForm:
    """The method that a unit is in, or is."""
    return outermost(unit.around) if unit.around else unit


@lru_cache(maxsize=4)
def program(data: bytes, is_module: bool) -> tuple[Module, list[Origins] | None]:
    """The module of bytes that give one, and where its instructions come from, if the bytes are a source text."""
    if is_module:
        return modules.read_module(data), None
    return modules.read_module(source.module_text(data).encode()), origins(data)
