#!/usr/bin/env python3
"""The reference for source texts: the tokens, trees, names, units and code that x10clock makes of one.

It shares nothing with the program. A text becomes tokens, these a tree, or the first token that can't stand; each name
is then looked up where it stands, and what it means is kept by its offset; the units that main reaches get their
numbers and their code; and what is made of the module from there on is in tests/reference/modules.py.

    python3 -m tests.reference.source compile FILE            what the program prints
    python3 -m tests.reference.source check FILE
    python3 -m tests.reference.source run FILE [ORDER] [--arg=N]..        ORDER is first, last or round
    python3 -m tests.reference.source walk FILE [WORLDS] [--arg=N]..      all schedules, through WORLDS at most
"""

from __future__ import annotations

import enum
import heapq
import json
import pathlib
import re
import sys
from collections.abc import Iterator
from contextlib import contextmanager
from dataclasses import dataclass, field

from tests.reference import modules

LONGEST = 1_048_576
DEEPEST = 64
MOST_OPERATORS = 64

# Limits of a module, which a text may go past (F14).
MOST_UNITS, MOST_SLOTS, MOST_INSTRUCTIONS, MOST_SHARED, MOST_ARGUMENTS = 1024, 64, 4096, 256, 64

RULES = {
    1: "Token",
    2: "Syntax",
    3: "TooDeep",
    4: "TooLong",
    5: "UnknownName",
    6: "DuplicateName",
    7: "WrongKind",
    8: "NotCaptured",
    9: "NoMain",
    10: "Recursive",
    11: "Arity",
    12: "SameClockTwice",
    13: "Literal",
    14: "Table",
    15: "NoHiddenClock",
}


class Fault(Exception):
    """A text that is refused, by a rule, at an offset."""

    def __init__(self, rule: int, offset: int) -> None:
        super().__init__(f"F{rule} {RULES[rule]} at {offset}")
        self.rule, self.offset = rule, offset


# Tokens.


class Sort(enum.Enum):
    NAME = "a name"
    RESERVED = "a reserved word"
    DIGITS = "digits"
    SIGN = "a sign"
    STRAY = "something with which no token begins"
    END = "the end of the text"


@dataclass(frozen=True)
class Token:
    sort: Sort
    text: str
    at: int


RESERVED = frozenset("shared def val var if else for in async clocked finish atomic Clock Long Console".split())
PIECES = re.compile(
    rb"""
      (?P<blank> [ \t\n\r]+ | //[^\n]* | /\*(?s:.*?)\*/ )
    | (?P<word> [A-Za-z_][A-Za-z_0-9]* )
    | (?P<digits> [0-9]+ )
    | (?P<sign> \.\. | == | != | <= | >= | [(){},;:=+\-*.<>] )
    """,
    re.VERBOSE,
)


def tokens_of(text: bytes) -> list[Token]:
    """The tokens of a text; the last one is the end, or something with which none begins."""
    found: list[Token] = []
    at = 0
    while at < len(text):
        piece = PIECES.match(text, at)
        if piece is None:
            found.append(Token(Sort.STRAY, "", at))
            return found
        word = piece[0].decode() if piece.lastgroup != "blank" else ""
        if piece.lastgroup == "word":
            found.append(Token(Sort.RESERVED if word in RESERVED else Sort.NAME, word, at))
        elif piece.lastgroup == "digits":
            found.append(Token(Sort.DIGITS, word, at))
        elif piece.lastgroup == "sign":
            found.append(Token(Sort.SIGN, word, at))
        at = piece.end()
    found.append(Token(Sort.END, "", len(text)))
    return found


# Trees. An `at` is the offset of the first token, or of what the comment says.


@dataclass(frozen=True)
class Name:
    text: str
    at: int


@dataclass(frozen=True)
class Number:
    value: int
    at: int


@dataclass(frozen=True)
class Parens:
    inner: Expr
    at: int


@dataclass(frozen=True)
class Negation:
    of: Expr
    at: int


@dataclass(frozen=True)
class Operation:
    sign: str
    left: Expr
    right: Expr

    @property
    def at(self) -> int:
        first = self.left
        while isinstance(first, Operation):
            first = first.left
        return first.at


Expr = Name | Number | Parens | Negation | Operation


@dataclass(frozen=True)
class NewClock:
    at: int


@dataclass(frozen=True)
class Block:
    statements: list[Stmt]


@dataclass(frozen=True)
class Declaration:
    word: str
    name: Name
    type: Name | None
    right: Expr | NewClock


@dataclass(frozen=True)
class Assignment:
    name: Name
    right: Expr


@dataclass(frozen=True)
class Addition:
    name: Name
    again: Name
    term: Expr


@dataclass(frozen=True)
class Branch:
    left: Expr
    comparison: str
    right: Expr
    then: Stmt
    otherwise: Stmt | None


@dataclass(frozen=True)
class Loop:
    """Goes no further than `high`, nor than what `limit` comes to, where the bound is `Math.min(limit, high)`."""

    name: Name
    low: int
    high: int
    limit: Expr | None
    body: Stmt


@dataclass(frozen=True)
class Async:
    """Where it is a `clocked async`, `clocked` is the offset of that word, and there is no list."""

    clocks: list[Name]
    body: Stmt
    at: int
    clocked: int | None = None


@dataclass(frozen=True)
class Finish:
    """Where it is a `clocked finish`, `clocked` is the offset of that word."""

    body: Stmt
    clocked: int | None = None


@dataclass(frozen=True)
class Call:
    name: Name
    arguments: list[Expr]


@dataclass(frozen=True)
class OnClock:
    name: Name
    word: str


@dataclass(frozen=True)
class AdvanceAll:
    pass


@dataclass(frozen=True)
class Print:
    value: Expr


Stmt = (
    Block | Declaration | Assignment | Addition | Branch | Loop | Async | Finish | Call | OnClock | AdvanceAll | Print
)


@dataclass(frozen=True)
class Shared:
    name: Name
    value: int


@dataclass(frozen=True)
class Param:
    name: Name
    type: str


@dataclass(frozen=True)
class Method:
    name: Name
    params: list[Param]
    body: Block


@dataclass(frozen=True)
class Tree:
    shared: list[Shared]
    methods: list[Method]


COMPARISONS = {"==": "eq", "!=": "ne", "<": "lt", "<=": "le", ">": "gt", ">=": "ge"}
OPERATIONS = {"+": "add", "-": "sub", "*": "mul"}
STATEMENT_WORDS = frozenset(("val", "var", "atomic", "if", "for", "async", "clocked", "finish", "Clock", "Console"))


class Parser:
    """Takes the tokens one by one. Whatever can't stand where it is met is a fault there and then, so that the first
    one is told."""

    def __init__(self, text: bytes) -> None:
        self.tokens = tokens_of(text)
        self.next = 0
        # How many statements, parentheses and negations are open in the method, and the operators of the expression so
        # far.
        self.depth = 0
        self.operators = 0

    @property
    def token(self) -> Token:
        return self.tokens[self.next]

    def misfit(self) -> Fault:
        return Fault(1 if self.token.sort is Sort.STRAY else 2, self.token.at)

    def took(self) -> Token:
        token = self.token
        self.next += 1
        return token

    def is_at(self, *texts: str) -> bool:
        """Whether one of these signs and reserved words is next."""
        return self.token.sort in (Sort.SIGN, Sort.RESERVED) and self.token.text in texts

    def has(self, text: str) -> bool:
        """Whether this comes next; it is taken then."""
        if self.is_at(text):
            self.next += 1
            return True
        return False

    def want(self, *texts: str) -> Token:
        if not self.is_at(*texts):
            raise self.misfit()
        return self.took()

    def name(self, *words: str) -> Name:
        """A name, which has to be one of these where some are given."""
        if self.token.sort is not Sort.NAME or (words and self.token.text not in words):
            raise self.misfit()
        token = self.took()
        return Name(token.text, token.at)

    def digits(self, sign: int) -> int:
        if self.token.sort is not Sort.DIGITS:
            raise self.misfit()
        text = self.token.text
        if (
            len(text) > 1
            and text[0] == "0"
            or len(text) > 19
            or not modules.LEAST <= sign * int(text) <= modules.GREATEST
        ):
            raise Fault(13, self.token.at)
        self.next += 1
        return sign * int(text)

    def number(self) -> int:
        return self.digits(-1 if self.has("-") else 1)

    @contextmanager
    def deeper(self) -> Iterator[None]:
        """One level more, which begins at the next token."""
        if self.depth == DEEPEST:
            raise Fault(3, self.token.at)
        self.depth += 1
        yield
        self.depth -= 1

    # Expressions.

    def operator(self) -> Token:
        """Takes an operator, if there may be one more."""
        if self.operators == MOST_OPERATORS:
            raise Fault(3, self.token.at)
        self.operators += 1
        return self.took()

    def whole_expr(self) -> Expr:
        self.operators = 0
        return self.expr()

    def expr(self) -> Expr:
        left = self.term()
        while self.is_at("+", "-"):
            left = Operation(self.operator().text, left, self.term())
        return left

    def term(self) -> Expr:
        left = self.factor()
        while self.is_at("*"):
            left = Operation(self.operator().text, left, self.factor())
        return left

    def factor(self) -> Expr:
        at = self.token.at
        if self.token.sort is Sort.NAME:
            return self.name()
        if self.is_at("("):
            with self.deeper():
                self.took()
                inner = self.expr()
                self.want(")")
            return Parens(inner, at)
        if self.is_at("-") and self.tokens[self.next + 1].sort is not Sort.DIGITS:
            with self.deeper():
                self.operator()
                return Negation(self.factor(), at)
        return Number(self.number(), at)

    # Statements.

    def statement(self) -> Stmt:
        if not (self.is_at("{", ";", *STATEMENT_WORDS) or self.token.sort is Sort.NAME):
            raise self.misfit()
        with self.deeper():
            return self.named_statement() if self.token.sort is Sort.NAME else self.other_statement()

    def block(self) -> Block:
        self.want("{")
        statements = []
        while not self.is_at("}"):
            statements.append(self.statement())
        self.want("}")
        return Block(statements)

    def named_statement(self) -> Stmt:
        name = self.name()
        sign = self.want("=", "(", ".").text
        if sign == "=":
            made = Assignment(name, self.whole_expr())
        elif sign == "(":
            made = Call(name, self.arguments())
        else:
            made = OnClock(name, self.name("resume", "drop").text)
            self.want("(")
            self.want(")")
        self.want(";")
        return made

    def arguments(self) -> list[Expr]:
        if self.has(")"):
            return []
        found = [self.whole_expr()]
        while self.want(",", ")").text == ",":
            found.append(self.whole_expr())
        return found

    def other_statement(self) -> Stmt:
        if self.is_at("{"):
            return self.block()
        first = self.took()
        match first.text:
            case ";":
                return Block([])
            case "val" | "var":
                return self.declaration(first.text)
            case "atomic":
                return self.addition()
            case "if":
                return self.branch()
            case "for":
                return self.loop()
            case "async":
                return self.start(first.at)
            case "clocked":
                return self.clocked(first.at)
            case "finish":
                return Finish(self.statement())
            case "Clock":
                self.want(".")
                self.name("advanceAll")
                self.want("(")
                made = AdvanceAll()
            case "Console":
                self.want(".")
                self.name("OUT")
                self.want(".")
                self.name("println")
                self.want("(")
                made = Print(self.whole_expr())
        self.want(")")
        self.want(";")
        return made

    def type(self) -> Name:
        token = self.want("Clock", "Long")
        return Name(token.text, token.at)

    def declaration(self, word: str) -> Declaration:
        name = self.name()
        type = self.type() if self.has(":") else None
        self.want("=")
        right = self.new_clock() if self.is_at("Clock") else self.whole_expr()
        self.want(";")
        return Declaration(word, name, type, right)

    def new_clock(self) -> NewClock:
        at = self.want("Clock").at
        self.want(".")
        self.name("make")
        self.want("(")
        self.want(")")
        return NewClock(at)

    def addition(self) -> Addition:
        name = self.name()
        self.want("=")
        again = self.name()
        self.want("+")
        self.operators = 0
        term = self.term()
        self.want(";")
        return Addition(name, again, term)

    def branch(self) -> Branch:
        self.want("(")
        left = self.whole_expr()
        comparison = self.want(*COMPARISONS).text
        right = self.whole_expr()
        self.want(")")
        then = self.statement()
        return Branch(left, comparison, right, then, self.statement() if self.has("else") else None)

    def loop(self) -> Loop:
        self.want("(")
        name = self.name()
        self.want("in")
        low = self.number()
        self.want("..")
        limit = self.least() if self.token.sort is Sort.NAME else None
        high = self.number()
        if limit is not None:
            self.want(")")
        self.want(")")
        return Loop(name, low, high, limit, self.statement())

    def least(self) -> Expr:
        """The first operand of `Math.min`, with all that stands before the second one."""
        self.name("Math")
        self.want(".")
        self.name("min")
        self.want("(")
        limit = self.whole_expr()
        self.want(",")
        return limit

    def clocked(self, at: int) -> Stmt:
        word = self.want("finish", "async")
        return Finish(self.statement(), at) if word.text == "finish" else Async([], self.statement(), word.at, at)

    def start(self, at: int) -> Async:
        """A `clocked` begins the list where a `(` comes behind it, and else the statement."""
        clocks: list[Name] = []
        if self.is_at("clocked") and self.tokens[self.next + 1].text == "(":
            self.took()
            self.want("(")
            clocks.append(self.name())
            while self.want(",", ")").text == ",":
                clocks.append(self.name())
        return Async(clocks, self.statement(), at)

    # Programs.

    def shared(self) -> Shared:
        self.want("shared")
        name = self.name()
        self.want("=")
        value = self.number()
        self.want(";")
        return Shared(name, value)

    def param(self) -> Param:
        name = self.name()
        self.want(":")
        return Param(name, self.type().text)

    def method(self) -> Method:
        self.want("def")
        name = self.name()
        self.want("(")
        params = []
        if not self.has(")"):
            params.append(self.param())
            while self.want(",", ")").text == ",":
                params.append(self.param())
        return Method(name, params, self.block())

    def program(self) -> Tree:
        shared, methods = [], []
        while self.is_at("shared"):
            shared.append(self.shared())
        while self.token.sort is not Sort.END:
            methods.append(self.method())
        return Tree(shared, methods)


def parse(data: bytes) -> Tree:
    if len(data) > LONGEST:
        raise Fault(4, 0)
    try:
        data.decode("utf-8", "strict")
    except UnicodeDecodeError as bad:
        raise Fault(1, bad.start) from None
    return Parser(data).program()


# Names. What each one means is kept by its offset.


class Meaning(enum.Enum):
    SHARED = "a shared number"
    CLOCK = "a clock"
    VAR = "a number that is assigned to"
    FIXED = "a number that stays: a `val`, a parameter or a loop's"


@dataclass(eq=False)
class Declared:
    """A name where it is declared: in a unit, or in none where it is a shared number."""

    means: Meaning
    unit: UnitForm | None = None
    # The place of a shared number among them.
    cell: int = 0


@dataclass(eq=False)
class UnitForm:
    """A method, or the body of an `async`: what it takes, and what it declares."""

    kind: str
    at: int
    body: Stmt
    around: UnitForm | None
    params: list[Declared] = field(default_factory=list)
    # Numbers that a body takes from outside, in order of first use.
    taken: list[Declared] = field(default_factory=list)
    own: list[Declared] = field(default_factory=list)

    @property
    def all_params(self) -> list[Declared]:
        return self.params + self.taken

    @property
    def letters(self) -> str:
        return "".join("c" if param.means is Meaning.CLOCK else "n" for param in self.all_params)

    @property
    def named(self) -> dict[Declared, int]:
        """The slots of all that has a name."""
        return {declared: slot for slot, declared in enumerate(self.all_params + self.own)}


class Names:
    """Goes through a tree in the order of its text and keeps all faults; the least is told."""

    def __init__(self, tree: Tree) -> None:
        self.tree = tree
        self.faults: list[tuple[int, int]] = []
        self.visible: dict[str, Declared] = {}
        self.scopes: list[list[str]] = []
        self.meanings: dict[int, Declared] = {}
        # What the limit of a loop comes to, by the offset of the loop's name.
        self.limits: dict[int, Declared] = {}
        # The clock of each `clocked finish`, by the offset of its `clocked`; and the one that a `clocked async` here is
        # started on.
        self.hidden: dict[int, Declared] = {}
        self.hidden_now: Declared | None = None
        # The body of each `async`, by the offset of its word; the first method of each name; and who calls whom, and
        # where.
        self.bodies: dict[int, UnitForm] = {}
        self.methods: dict[str, Method] = {}
        self.units: dict[str, UnitForm] = {}
        self.calls: dict[str, list[Name]] = {}

    def look(self) -> None:
        for method in self.tree.methods:
            if method.name.text in self.methods:
                self.fault(6, method.name)
            self.methods.setdefault(method.name.text, method)
        with self.scope():
            for cell, shared in enumerate(self.tree.shared):
                self.declare(shared.name, Declared(Meaning.SHARED, cell=cell))
            for method in self.tree.methods:
                self.method(method)

    def check(self) -> None:
        self.look()
        if self.faults:
            offset, rule = min(self.faults)
            raise Fault(rule, offset)
        if "main" not in self.methods or any(param.type == "Clock" for param in self.methods["main"].params):
            raise Fault(9, 0)

    def fault(self, rule: int, where: Expr | NewClock) -> None:
        self.faults.append((where.at, rule))

    @contextmanager
    def scope(self) -> Iterator[None]:
        self.scopes.append([])
        yield
        for name in self.scopes.pop():
            del self.visible[name]

    def declare(self, name: Name, declared: Declared) -> Declared:
        if name.text in self.visible:
            self.fault(6, name)
        else:
            self.visible[name.text] = declared
            self.scopes[-1].append(name.text)
        self.meanings[name.at] = declared
        if declared.unit:
            declared.unit.own.append(declared)
        return declared

    def method(self, method: Method) -> None:
        unit = UnitForm("main" if method.name.text == "main" else "method", method.name.at, method.body, None)
        self.units.setdefault(method.name.text, unit)
        # The calls of a second method of a name count for nothing: there is a fault then.
        self.calls_now = self.calls.setdefault(method.name.text, [])
        with self.scope():
            for param in method.params:
                means = Meaning.CLOCK if param.type == "Clock" else Meaning.FIXED
                unit.params.append(self.declare(param.name, Declared(means, unit)))
            unit.own.clear()
            self.statement(unit, method.body)

    # Uses of names.

    def found(self, name: Name) -> Declared | None:
        if name.text not in self.visible:
            self.fault(5, name)
            return None
        declared = self.meanings[name.at] = self.visible[name.text]
        return declared

    def use(self, unit: UnitForm, name: Name, *wanted: Meaning) -> Declared | None:
        """A name where one of these is wanted that the unit sees."""
        declared = self.found(name)
        if declared is None:
            return None
        if declared.means not in wanted:
            self.fault(7, name)
        is_given = declared.means is Meaning.CLOCK and declared in unit.params
        if declared.means in (Meaning.VAR, Meaning.CLOCK) and declared.unit is not unit and not is_given:
            self.fault(8, name)
        return declared

    def clock(self, unit: UnitForm, name: Name) -> None:
        self.use(unit, name, Meaning.CLOCK)

    def distinct(self, names: list[Name]) -> None:
        """No clock comes twice."""
        before = set()
        for name in names:
            if name.text in before:
                self.fault(12, name)
            before.add(name.text)

    def number(self, unit: UnitForm, expr: Expr) -> None:
        """An expression: its names are numbers that the unit sees, none of them shared."""
        match expr:
            case Name():
                self.number_name(unit, expr)
            case Parens(inner):
                self.number(unit, inner)
            case Negation(of):
                self.number(unit, of)
            case Operation(_, left, right):
                self.number(unit, left)
                self.number(unit, right)

    def number_name(self, unit: UnitForm, name: Name) -> None:
        declared = self.use(unit, name, Meaning.VAR, Meaning.FIXED)
        if declared and declared.means in (Meaning.VAR, Meaning.FIXED) and declared.unit is not unit:
            inner: UnitForm | None = unit
            while inner and inner is not declared.unit:
                if declared not in inner.taken:
                    inner.taken.append(declared)
                inner = inner.around

    def value(self, unit: UnitForm, expr: Expr) -> None:
        """What a number of its own gets: an expression, or a shared number that stands alone."""
        if isinstance(expr, Name) and expr.text in self.visible and self.visible[expr.text].means is Meaning.SHARED:
            self.found(expr)
        else:
            self.number(unit, expr)

    # Statements.

    def alone(self, unit: UnitForm, stmt: Stmt) -> None:
        """The single statement of another one, which is a scope."""
        with self.scope():
            self.statement(unit, stmt)

    def below(self, unit: UnitForm, stmt: Stmt, hidden: Declared | None) -> None:
        """The statement of a finish or an `async`, in which this is the hidden clock, if there is one."""
        around, self.hidden_now = self.hidden_now, hidden
        self.alone(unit, stmt)
        self.hidden_now = around

    def statement(self, unit: UnitForm, stmt: Stmt) -> None:
        match stmt:
            case Block(statements):
                with self.scope():
                    for one in statements:
                        self.statement(unit, one)
            case Declaration():
                self.declaration(unit, stmt)
            case Assignment(name, right):
                declared = self.use(unit, name, Meaning.VAR, Meaning.SHARED)
                if declared and declared.means is Meaning.VAR:
                    self.value(unit, right)
                else:
                    self.number(unit, right)
            case Addition(name, again, term):
                self.use(unit, name, Meaning.SHARED)
                self.use(unit, again, Meaning.SHARED)
                if again.text != name.text:
                    self.fault(7, again)
                self.number(unit, term)
            case Branch(left, _, right, then, otherwise):
                self.number(unit, left)
                self.number(unit, right)
                self.alone(unit, then)
                if otherwise:
                    self.alone(unit, otherwise)
            case Loop():
                self.loop(unit, stmt)
            case Async():
                self.start(unit, stmt)
            case Finish(body, None):
                self.below(unit, body, None)
            case Finish(body, clocked):
                clock = self.hidden[clocked] = Declared(Meaning.CLOCK, unit)
                unit.own.append(clock)
                self.below(unit, body, clock)
            case Call():
                self.call(unit, stmt)
            case OnClock(name, _):
                self.clock(unit, name)
            case Print(value):
                self.number(unit, value)

    def declaration(self, unit: UnitForm, stmt: Declaration) -> None:
        is_clock = isinstance(stmt.right, NewClock)
        if stmt.type and stmt.type.text != ("Clock" if is_clock else "Long"):
            self.fault(7, stmt.type)
        if isinstance(stmt.right, NewClock):
            if stmt.word == "var":
                self.fault(7, stmt.right)
        else:
            self.value(unit, stmt.right)
        number = Meaning.VAR if stmt.word == "var" else Meaning.FIXED
        self.declare(stmt.name, Declared(Meaning.CLOCK if is_clock else number, unit))

    def loop(self, unit: UnitForm, stmt: Loop) -> None:
        """The limit doesn't see the loop's name; what it comes to has a slot right behind that name's."""
        if stmt.limit is not None:
            self.number(unit, stmt.limit)
        with self.scope():
            self.declare(stmt.name, Declared(Meaning.FIXED, unit))
            if stmt.limit is not None:
                limit = self.limits[stmt.name.at] = Declared(Meaning.FIXED, unit)
                unit.own.append(limit)
            self.alone(unit, stmt.body)

    def start(self, unit: UnitForm, stmt: Async) -> None:
        for name in stmt.clocks:
            self.clock(unit, name)
        self.distinct(stmt.clocks)
        clocks = [self.visible[name.text] for name in stmt.clocks if name.text in self.visible]
        hidden = self.hidden_now if stmt.clocked is not None else None
        if hidden:
            clocks.append(hidden)
        elif stmt.clocked is not None:
            self.faults.append((stmt.clocked, 15))
        body = self.bodies[stmt.at] = UnitForm("body", stmt.at, stmt.body, unit, clocks)
        self.below(body, stmt.body, hidden)

    def call(self, unit: UnitForm, stmt: Call) -> None:
        self.calls_now.append(stmt.name)
        method = self.methods.get(stmt.name.text)
        if method is None:
            self.fault(5, stmt.name)
            return
        if len(stmt.arguments) != len(method.params):
            self.fault(11, stmt.name)
        clocks = []
        for argument, param in zip(stmt.arguments, method.params):
            if param.type == "Long":
                self.number(unit, argument)
            elif isinstance(argument, Name):
                self.clock(unit, argument)
                clocks.append(argument)
            else:
                self.fault(7, argument)
                self.number(unit, argument)
        self.distinct(clocks)


def faults_of(data: bytes) -> list[tuple[int, int]]:
    """All faults of names that a text has, each by its offset and its rule, in the order in which they are told."""
    try:
        names = Names(parse(data))
    except Fault:
        return []
    names.look()
    return sorted(set(names.faults))


# Recursion.


def check_recursion(names: Names) -> None:
    """Nobody calls main, and from no method that is called is the calling one reached again."""
    reached_from: dict[str, frozenset[str]] = {}

    def reached(start: str) -> frozenset[str]:
        """The methods that a call of this one reaches, itself among them."""
        if start not in reached_from:
            found, left = {start}, [start]
            while left:
                for called in names.calls[left.pop()]:
                    if called.text not in found:
                        found.add(called.text)
                        left.append(called.text)
            reached_from[start] = frozenset(found)
        return reached_from[start]

    calls = [(called.at, caller, called.text) for caller, all_called in names.calls.items() for called in all_called]
    for at, caller, called in sorted(calls):
        if called == "main" or caller in reached(called):
            raise Fault(10, at)


# Code. Whom a `call` or a `spawn` means is put in when the units have their numbers.

Instr = list


@dataclass(frozen=True)
class Between:
    """What a `clocked finish` does between its two ends: its clock is made, and dropped behind the body."""

    body: Stmt
    clock: Declared


class Coder:
    """Writes the code of one unit."""

    def __init__(self, names: Names, unit: UnitForm) -> None:
        self.names, self.unit = names, unit
        self.code: list[Instr] = []
        self.slots = unit.named
        self.first_temporary = self.highest = len(self.slots)
        self.mentioned: list[UnitForm] = []
        self.statement(unit.body)
        self.code.append(["ret"])

    def slot(self, name: Name) -> int:
        return self.slots[self.names.meanings[name.at]]

    def cell(self, name: Name) -> int | None:
        """The place of a shared number, or None where the name is no such."""
        declared = self.names.meanings[name.at]
        return declared.cell if declared.means is Meaning.SHARED else None

    def write(self, word: str, slot: int, *more: object) -> None:
        """An instruction that writes a slot."""
        self.code.append([word, slot, *more])
        self.highest = max(self.highest, slot + 1)

    # Expressions.

    def both(self, left: Expr, right: Expr, free: int) -> tuple[int, int]:
        """The slots of two operands, the second computed where it leaves the first alone."""
        first = self.eval(left, free)
        return first, self.eval(right, free + 1 if first == free else free)

    def eval(self, expr: Expr, free: int) -> int:
        """The slot of an expression's number; the temporaries from this one on are free."""
        while isinstance(expr, Parens):
            expr = expr.inner
        if isinstance(expr, Name):
            return self.slot(expr)
        self.into(expr, free, free)
        return free

    def into(self, expr: Expr, target: int, free: int) -> None:
        """Puts the number into a slot."""
        match expr:
            case Parens(inner):
                self.into(inner, target, free)
            case Name():
                self.write("copy", target, self.slot(expr))
            case Number(value):
                self.write("lit", target, value)
            case Operation(sign, left, right):
                self.write(OPERATIONS[sign], target, *self.both(left, right, free))
            case Negation(of):
                self.write("lit", free, 0)
                self.write("sub", target, free, self.eval(of, free + 1))

    # Statements.

    def statement(self, stmt: Stmt | Between) -> None:
        match stmt:
            case Block(statements):
                for one in statements:
                    self.statement(one)
            case Declaration(_, name, _, NewClock()):
                self.write("make", self.slot(name))
            case Declaration(_, name, _, right):
                self.give(self.slot(name), right)
            case Assignment(name, right):
                cell = self.cell(name)
                if cell is None:
                    self.give(self.slot(name), right)
                else:
                    self.code.append(["put", cell, self.eval(right, self.first_temporary)])
            case Addition(name, _, term):
                self.code.append(["addto", self.cell(name), self.eval(term, self.first_temporary)])
            case Branch():
                self.branch(stmt)
            case Loop():
                self.loop(stmt)
            case Finish(body, clocked):
                self.around(
                    ["finish"], body if clocked is None else Between(body, self.names.hidden[clocked]), "endfinish"
                )
            case Between(body, clock):
                self.between(body, self.slots[clock])
            case Async(_, _, at):
                body = self.names.bodies[at]
                self.mentioned.append(body)
                self.code.append(["spawn", body, [self.slots[declared] for declared in body.all_params]])
            case Call():
                self.call(stmt)
            case OnClock(name, word):
                self.code.append([word, self.slot(name)])
            case AdvanceAll():
                self.code.append(["advance"])
            case Print(value):
                self.code.append(["print", self.eval(value, self.first_temporary)])

    def give(self, slot: int, right: Expr) -> None:
        """A number of the unit's own gets a value."""
        cell = self.cell(right) if isinstance(right, Name) else None
        if cell is None:
            self.into(right, slot, self.first_temporary)
        else:
            self.write("get", slot, cell)

    def around(self, opener: Instr, body: Stmt | Between, closer: str) -> None:
        begin = len(self.code)
        self.code.append(opener)
        self.statement(body)
        opener.append(len(self.code))
        self.code.append([closer, begin])

    def between(self, body: Stmt, slot: int) -> None:
        """What stands in a `clocked finish`, whose clock has this slot."""
        self.write("make", slot)
        self.statement(body)
        self.code.append(["drop", slot])

    def loop(self, stmt: Loop) -> None:
        """Nothing where the numbers of the text allow no turn."""
        if stmt.low > stmt.high:
            return
        slot = self.slot(stmt.name)
        if stmt.limit is None:
            self.around(["for", slot, stmt.low, stmt.high], stmt.body, "next")
            return
        limit = self.slots[self.names.limits[stmt.name.at]]
        self.into(stmt.limit, limit, self.first_temporary)
        self.around(["forto", slot, stmt.low, limit, stmt.high], stmt.body, "next")

    def branch(self, stmt: Branch) -> None:
        test = ["unless", COMPARISONS[stmt.comparison], *self.both(stmt.left, stmt.right, self.first_temporary)]
        self.code.append(test)
        self.statement(stmt.then)
        if stmt.otherwise is not None:
            jump = ["jump"]
            self.code.append(jump)
            test.append(len(self.code))
            self.statement(stmt.otherwise)
            jump.append(len(self.code))
        else:
            test.append(len(self.code))

    def call(self, stmt: Call) -> None:
        free = self.first_temporary
        slots = []
        for argument, param in zip(stmt.arguments, self.names.methods[stmt.name.text].params):
            slots.append(self.slot(argument) if param.type == "Clock" else self.eval(argument, free))
            if slots[-1] == free:
                free += 1
        method = self.names.units[stmt.name.text]
        self.mentioned.append(method)
        self.code.append(["call", method, slots])

    @property
    def is_too_large(self) -> bool:
        arguments = [instr[2] for instr in self.code if instr[0] in ("call", "spawn")]
        return (
            self.highest > MOST_SLOTS
            or len(self.code) > MOST_INSTRUCTIONS
            or any(len(slots) > MOST_ARGUMENTS for slots in arguments)
        )


def reached_units(names: Names) -> dict[UnitForm, Coder]:
    """All that main reaches, with its code."""
    left = [names.units["main"]]
    coders: dict[UnitForm, Coder] = {}
    while left:
        unit = left.pop()
        if unit not in coders:
            coders[unit] = Coder(names, unit)
            left.extend(coders[unit].mentioned)
    return coders


def in_order(names: Names, coders: dict[UnitForm, Coder]) -> list[UnitForm]:
    """The units by their numbers: next comes the first in the text of those who are mentioned by numbered ones
    alone."""
    waits_for = {unit: 0 for unit in coders}
    for coder in coders.values():
        for unit in set(coder.mentioned):
            waits_for[unit] += 1
    ready = [(names.units["main"].at, names.units["main"])]
    order: list[UnitForm] = []
    while ready:
        _, unit = heapq.heappop(ready)
        order.append(unit)
        for after in set(coders[unit].mentioned):
            waits_for[after] -= 1
            if waits_for[after] == 0:
                heapq.heappush(ready, (after.at, after))
    return order


def compile_tree(tree: Tree) -> dict:
    """The module of a tree, as a value."""
    names = Names(tree)
    names.check()
    check_recursion(names)
    coders = reached_units(names)
    order = in_order(names, coders)
    too_large = [unit.at for unit, coder in coders.items() if coder.is_too_large]
    too_large += [unit.at for unit in order[MOST_UNITS : MOST_UNITS + 1]]
    too_large += [shared.name.at for shared in tree.shared[MOST_SHARED : MOST_SHARED + 1]]
    if too_large:
        raise Fault(14, min(too_large))
    numbers = {unit: number for number, unit in enumerate(order)}
    units = []
    for unit in order:
        coder = coders[unit]
        code = [[numbers[part] if isinstance(part, UnitForm) else part for part in instr] for instr in coder.code]
        units.append({"kind": unit.kind, "params": unit.letters, "slots": coder.highest, "code": code})
    return {"version": version_of(units), "shared": [shared.value for shared in tree.shared], "units": units}


def version_of(units: list[dict]) -> int:
    """The version that a module is written in: the second where it needs that one."""
    has_limit = any(instr[0] == "forto" for unit in units for instr in unit["code"])
    return 2 if has_limit or units[0]["params"] else 1


# Answers.


def module_text(data: bytes) -> str:
    """The compact text of the module that a source becomes; raises Fault."""
    return json.dumps(compile_tree(parse(data)), separators=(",", ":"), sort_keys=True)


def judge(data: bytes) -> modules.Accepted | modules.Refused:
    """What becomes of a source text: a fault, or what becomes of its module."""
    try:
        text = module_text(data)
    except Fault as fault:
        return modules.Refused(str(fault))
    return modules.judge(text.encode())


def answer_compile(data: bytes) -> int:
    """Prints the module that a source becomes."""
    try:
        print(module_text(data))
    except Fault as fault:
        print(f"x10clock: {fault}", file=sys.stderr)
        return 1
    return 0


def main(words: list[str]) -> int:
    (command, path, *more), arguments = modules.parted(words)
    data = sys.stdin.buffer.read() if path == "-" else pathlib.Path(path).read_bytes()
    return answer_compile(data) if command == "compile" else modules.answer(command, judge(data), more, arguments)


if __name__ == "__main__":
    sys.exit(main(sys.argv[1:]))
