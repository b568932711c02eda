"""Source texts that nobody wrote: whole programs that are mostly accepted, programs in which a name or a token is
wrong, programs at the limits, tokens without order, and texts that were changed byte by byte.

A generator knows which names are visible, and of each clock in which ways the activity may stand on it, so that it can
keep to the rules; how often it doesn't look is left to chance.
"""

from __future__ import annotations

import random
from collections.abc import Callable, Iterator
from contextlib import contextmanager
from dataclasses import dataclass, field

from tests.generated import generated
from tests.generated.generated import EDGES

Tokens = list[str]

NAMES = """a b c d e f g h i j k n s t x y z _ x1 y2
    clock make resume drop OUT println advanceAll main Long2 Math min""".split()
COMPARISONS = ("==", "!=", "<", "<=", ">", ">=")
RESERVED = "shared def val var if else for in async clocked finish atomic Clock Long Console".split()
SIGNS = "( ) { } , ; : = + - * . .. == != < <= > >=".split()
LITERALS = [
    "0",
    "1",
    "2",
    "3",
    "7",
    "00",
    "007",
    "9223372036854775807",
    "9223372036854775808",
    "9223372036854775809",
    "1" * 40,
]
HELD = frozenset("lr")


def listed(parts: list[Tokens]) -> Tokens:
    """The parts with commas between them."""
    return [token for number, part in enumerate(parts) for token in ([","] if number else []) + part]


# Whole programs.


@dataclass(eq=False)
class Known:
    """A visible name. A clock has a home: the finish in which it was made, counted in its unit, or 0."""

    name: str
    kind: str
    unit: Unit | None
    home: int = 0
    lent: bool = False


@dataclass(eq=False)
class Unit:
    """The unit that is being written: for each clock that it sees, the ways in which the activity may stand on it
    (live, resumed, out); and whether a `clocked async` may stand here."""

    kind: str
    clocks: dict[Known, frozenset[str]] = field(default_factory=dict)
    block: int = 0
    blocks: int = 0
    has_hidden: bool = False


@dataclass(frozen=True)
class Signature:
    """What others need to know of a method."""

    name: str
    params: str
    steps: int
    activities: int


class Writer:
    """Writes the methods of one program."""

    def __init__(self, rng: random.Random) -> None:
        self.rng = rng
        self.most_steps = rng.choice([20, 35, 50, 70, 120, 1500])
        self.most_activities = rng.choice([1, 2, 3, 3, 4, 4, 5, 20])
        self.length = rng.choice([2, 3, 5, 8])
        self.slip = rng.choice([0, 0, 0, 0, 0.02, 0.08])
        # How often a name isn't looked at, how often not in which way the activity stands on a clock, and how often a
        # clock isn't dropped.
        self.risk = rng.choice([0, 0, 0, 0, 0.1, 0.4])
        self.forget = rng.choice([0, 0, 0, 0.05, 0.3])
        self.visible: list[Known] = []
        self.methods: list[Signature] = []
        self.tokens: Tokens = []
        self.unit = Unit("main")
        # The variables that limits of the loops around this place were taken from.
        self.limiting: list[Known] = []
        self.times = self.steps = self.activities = 1
        self.depth = 0

    def program(self) -> Tokens:
        """All of a program: methods know those that were written before them, and stand in any order."""
        rng = self.rng
        head: Tokens = []
        for _ in range(rng.choice([0, 0, 1, 1, 2])):
            known = self.declared("shared", None)
            head += ["shared", known.name, "=", *self.literal(), ";"]
        parts = []
        count = rng.choice([0, 0, 1, 1, 2, 3])
        for number in range(count + 1):
            is_main = number == count
            part = 1 if is_main else 3
            self.tokens = []
            self.method(is_main, self.most_steps // part, self.most_activities // part + 1)
            parts.append(self.tokens)
        if rng.random() < 0.5:
            rng.shuffle(parts)
        return head + [token for part in parts for token in part]

    def method(self, is_main: bool, steps: int, activities: int) -> None:
        rng = self.rng
        self.unit, self.times, self.steps, self.activities = Unit("main" if is_main else "method"), 1, 1, 0
        self.budget, self.places = steps, activities
        taken = {known.name for known in self.methods}
        fresh = [one for one in [*NAMES, "m", "step"] if one not in taken and one != "main"]
        name = "main" if is_main else self.chance(self.rng.choice(fresh), NAMES)
        any_letters = ["", "c", "c", "n", "nn", "cn", "nc", "nnn", "cc", "ncn"]
        letters = rng.choice(["", "", "n", "n", "nn"] if is_main and not self.slips() else any_letters)
        with self.scope():
            params: list[Tokens] = []
            for letter in letters:
                known = self.declared("clock" if letter == "c" else "fixed", self.unit, lent=True)
                if letter == "c":
                    self.unit.clocks[known] = HELD
                params.append([known.name, ":", "Clock" if letter == "c" else "Long"])
            self.emit("def", name, "(", *listed(params), ")")
            self.block(rng.randint(self.length // 2, self.length) + (3 if is_main else 0))
        self.methods.append(Signature(name, letters, self.steps, self.activities))

    # Chances.

    def slips(self) -> bool:
        return self.rng.random() < self.slip

    def risks(self) -> bool:
        return self.rng.random() < self.risk

    def chance(self, fitting: object, any_of: list) -> object:
        """What fits; now and then anything."""
        return self.rng.choice(any_of) if any_of and self.slips() else fitting

    # Tokens.

    def emit(self, *tokens: str) -> None:
        self.tokens += tokens

    def spend(self, steps: int) -> None:
        self.steps += self.times * steps

    def literal(self) -> Tokens:
        number = self.rng.choice(EDGES) if self.rng.random() < 0.1 else self.rng.randrange(-3, 8)
        return ["-", str(-number)] if number < 0 else [str(number)]

    # Names.

    @contextmanager
    def scope(self) -> Iterator[None]:
        count = len(self.visible)
        yield
        for known in self.visible[count:]:
            self.unit.clocks.pop(known, None)
        del self.visible[count:]

    def declared(self, kind: str, unit: Unit | None, lent: bool = False) -> Known:
        """A new name, which mostly isn't visible yet; `main` and the like are names like any other."""
        taken = {known.name for known in self.visible}
        fresh = [name for name in NAMES if name not in taken] or [f"v{len(self.visible)}"]
        name = self.chance(self.rng.choice(fresh), [known.name for known in self.visible])
        known = Known(name, kind, unit, unit.block if unit else 0, lent)
        self.visible.append(known)
        return known

    def any_name(self) -> str:
        return self.rng.choice([known.name for known in self.visible] + [known.name for known in self.methods] + NAMES)

    def name_of(self, known: Known) -> str:
        return self.any_name() if self.slips() else known.name

    def numbers(self) -> list[Known]:
        seen = (
            lambda known: known.kind in ("fixed", "val")
            or known.kind == "var"
            and (known.unit is self.unit or self.slips())
        )
        return [known for known in self.visible if seen(known)]

    def of_kind(self, kind: str) -> list[Known]:
        return [
            known for known in self.visible if known.kind == kind and (known.unit in (None, self.unit) or self.slips())
        ]

    def held(self) -> list[Known]:
        """The clocks that the activity is registered on, whatever way it came."""
        seen = [known for known, ways in self.unit.clocks.items() if ways <= HELD or self.risks()]
        return seen + [
            known for known in self.visible if known.kind == "clock" and known not in self.unit.clocks and self.slips()
        ]

    # Expressions.

    def expr(self, depth: int = 0) -> Tokens:
        rng, numbers = self.rng, self.numbers()
        way = rng.random()
        if depth > 3 or way < 0.35 or not numbers and way < 0.5:
            self.spend(1)
            return self.literal()
        if way < 0.65 and numbers:
            return [self.name_of(rng.choice(numbers))]
        if way < 0.72:
            return ["(", *self.expr(depth + 1), ")"]
        if way < 0.79:
            self.spend(2)
            inner = self.expr(depth + 1)
            return ["-", *(inner if len(inner) == 1 else ["(", *inner, ")"])]
        self.spend(1)
        return [*self.expr(depth + 1), rng.choice("+-*"), *self.expr(depth + 1)]

    # Statements.

    def block(self, count: int) -> None:
        """Statements in braces; the clocks that are made among them are dropped where that has to be."""
        self.emit("{")
        with self.scope():
            begin = len(self.visible)
            for _ in range(count):
                self.statement()
            self.drop_made(self.visible[begin:])
        self.emit("}")

    def drop_made(self, made: list[Known]) -> None:
        needs = self.unit.kind == "method" or self.times > 1 or self.unit.block or self.rng.random() < 0.1
        for known in made:
            if needs and self.unit.clocks.get(known, frozenset("o")) <= HELD and self.rng.random() >= self.forget:
                self.use(known, "drop")

    def use(self, known: Known, word: str) -> None:
        self.emit(self.name_of(known), ".", word, "(", ")", ";")
        if known in self.unit.clocks:
            self.unit.clocks[known] = frozenset("r" if word == "resume" else "o")
        self.spend(1)

    def inner(self, count: int) -> None:
        """The single statement of another one: mostly a block."""
        if self.rng.random() < 0.75 or self.depth > 4:
            self.block(count)
        else:
            with self.scope():
                begin = len(self.tokens)
                self.statement(alone=True)
                if len(self.tokens) == begin:
                    self.emit(";")

    def ways(self, alone: bool) -> list[Callable[[], bool]]:
        """What a statement may be, more often what stands there more often."""
        ways: list[Callable[[], bool]] = [self.number] * 3 + [self.advance, self.call] * 2
        ways += [self.assign, self.share, self.show, self.resume, self.drop]
        ways += [self.assign] * 8 if self.limiting else []
        ways += [] if alone else [self.make] * 3
        if self.depth < 5:
            ways += (
                [self.start] * (10 if self.unit.has_hidden else 5)
                + [self.loop, self.branch, self.finish] * 2
                + [self.nested]
            )
        return ways

    def statement(self, alone: bool = False) -> None:
        if self.steps >= self.budget:
            return
        ways = self.ways(alone)
        for _ in range(4):
            self.depth += 1
            done = self.rng.choice(ways)()
            self.depth -= 1
            if done:
                return

    def number(self) -> bool:
        word = self.rng.choice(["val", "val", "var"])
        shared = self.of_kind("shared")
        right = [self.name_of(self.rng.choice(shared))] if shared and self.rng.random() < 0.3 else self.expr()
        known = self.declared(word, self.unit)
        type = self.rng.choice([[], [], [":", self.chance("Long", ["Clock"])]])
        self.emit(word, known.name, *type, "=", *right, ";")
        self.spend(1)
        return True

    def make(self) -> bool:
        known = self.declared("clock", self.unit)
        self.unit.clocks[known] = frozenset("l")
        type = self.rng.choice([[], [], [":", self.chance("Clock", ["Long"])]])
        self.emit(self.chance("val", ["var"]), known.name, *type, "=", "Clock", ".", "make", "(", ")", ";")
        self.spend(1)
        if self.rng.random() < 0.4 and self.depth < 5:
            self.start()
        return True

    def assign(self) -> bool:
        variables, shared = self.of_kind("var"), self.of_kind("shared")
        if not variables:
            return False
        limiting = [known for known in self.limiting if known in variables]
        right = [self.name_of(self.rng.choice(shared))] if shared and self.rng.random() < 0.3 else self.expr()
        self.emit(
            self.name_of(self.rng.choice(limiting if limiting and self.rng.random() < 0.8 else variables)),
            "=",
            *right,
            ";",
        )
        self.spend(1)
        return True

    def share(self) -> bool:
        shared = self.of_kind("shared")
        if not shared:
            return False
        name = self.name_of(self.rng.choice(shared))
        if self.rng.random() < 0.5:
            self.emit(name, "=", *self.expr(), ";")
        else:
            term = self.expr(2)
            self.emit(
                "atomic",
                name,
                "=",
                self.chance(name, [self.any_name()]),
                "+",
                *(term if len(term) < 3 else ["(", *term, ")"]),
                ";",
            )
        self.spend(1)
        return True

    def show(self) -> bool:
        self.emit("Console", ".", "OUT", ".", "println", "(", *self.expr(), ")", ";")
        self.spend(1)
        return True

    def advance(self) -> bool:
        self.emit("Clock", ".", "advanceAll", "(", ")", ";")
        self.unit.clocks = {
            known: frozenset("l" if way == "r" else way for way in ways) for known, ways in self.unit.clocks.items()
        }
        self.spend(2)
        return True

    def resume(self) -> bool:
        held = self.held()
        if held:
            self.use(self.rng.choice(held), "resume")
        return bool(held)

    def drop(self) -> bool:
        held = [known for known in self.held() if self.unit.kind != "method" or not known.lent or self.risks()]
        if held and self.rng.random() < 0.5:
            self.use(self.rng.choice(held), "drop")
            return True
        return False

    def at_home(self) -> list[Known]:
        return [known for known in self.held() if known.home == self.unit.block or self.risks()]

    def call(self) -> bool:
        at_home = self.at_home()
        fits = [
            method
            for method in self.methods
            if method.params.count("c") <= len(at_home)
            and self.steps + self.times * method.steps <= self.budget
            and self.activities + self.times * method.activities <= self.places
        ]
        if not fits:
            return False
        method = self.rng.choice(fits)
        clocks = self.rng.sample(at_home, method.params.count("c"))
        lent, arguments = list(clocks), []
        for letter in self.chance(method.params, ["", "n", "c", "cc"]):
            arguments.append([self.name_of(clocks.pop())] if letter == "c" and clocks else self.expr(1))
        self.emit(self.name_of(method), "(", *listed(arguments), ")", ";")
        self.steps += self.times * (1 + method.steps)
        self.activities += self.times * method.activities
        for known, ways in self.unit.clocks.items():
            if known in lent or "r" in ways and ways <= HELD:
                self.unit.clocks[known] = HELD
        return True

    def start(self) -> bool:
        if self.activities + self.times > self.places:
            return False
        at_home, is_hidden = self.at_home(), self.slips() or self.unit.has_hidden and self.rng.random() < 0.6
        clocks = (
            self.rng.sample(at_home, self.rng.randint(1, len(at_home)))
            if at_home and not is_hidden and self.rng.random() < 0.85
            else []
        )
        self.emit(*["clocked", "async"] if is_hidden else ["async"])
        if clocks:
            names = [[self.name_of(known)] for known in clocks]
            self.emit("clocked", "(", *listed(names + ([self.rng.choice(names)] if self.slips() else [])), ")")
        outer, self.unit = self.unit, Unit("body", {known: HELD for known in clocks}, has_hidden=is_hidden)
        # At home in the whole unit, whatever finish they were made in further out.
        homes = {known: known.home for known in clocks}
        for known in clocks:
            known.home = 0
        self.activities += self.times
        self.spend(2)
        if self.depth < 5 and self.rng.random() < 0.1:
            self.finish()
        else:
            self.inner(self.rng.randint(0, self.length))
        self.unit = outer
        for known, home in homes.items():
            known.home = home
        return True

    def loop(self) -> bool:
        """A loop whose body is written anew, with more ways to stand on a clock at its beginning, as long as it ends
        with other ways."""
        turns = self.rng.choice([0, 1, 1, 2, 2, 3])
        if self.times * max(1, turns) > 12:
            return False
        low = self.rng.choice([0, 1, 1, -2, -(2**63), 2**63 - 3])
        bound = self.bound(low, low + turns - 1 if low + turns - 1 >= -(2**63) else low)
        bounds, limiting = [*self.written(low), "..", *bound], list(self.limiting)
        self.limiting += [known for known in self.of_kind("var") if known.name in bound]
        begin, spent, count = len(self.tokens), (self.steps, self.activities), self.rng.randint(0, 3)
        entry = dict(self.unit.clocks)
        for attempt in range(5):
            del self.tokens[begin:]
            (self.steps, self.activities), self.unit.clocks = spent, dict(entry)
            times, self.times = self.times, self.times * max(1, turns)
            with self.scope():
                known = self.declared("fixed", self.unit)
                self.emit("for", "(", known.name, "in", *bounds, ")")
                self.inner(count) if attempt < 4 else self.emit(";")
                self.spend(2)
            self.times = times
            if all(self.unit.clocks[known] <= ways for known, ways in entry.items()):
                break
            entry = {known: ways | self.unit.clocks[known] for known, ways in entry.items()}
        self.limiting = limiting
        return True

    def bound(self, low: int, high: int) -> Tokens:
        """How far a loop goes: to a number, or no further than an expression either, mostly one about where the loop
        begins or ends."""
        if self.rng.random() < 0.5:
            return self.written(high)
        self.spend(1)
        way, variables = self.rng.random(), self.of_kind("var")
        if variables and way < 0.4:
            limit = [self.rng.choice(variables).name]
        elif way < 0.6 or not self.numbers():
            limit = self.written(generated.near(self.rng, low, high))
        else:
            limit = self.expr(self.rng.choice([1, 2, 4]))
        return ["Math", ".", "min", "(", *limit, ",", *self.written(high), ")"]

    def written(self, number: int) -> Tokens:
        return ["-", str(-number)] if number < 0 else [str(number)]

    def branch(self) -> bool:
        self.emit("if", "(", *self.expr(2), self.rng.choice(COMPARISONS), *self.expr(2), ")")
        self.spend(2)
        before = dict(self.unit.clocks)
        self.inner(self.rng.randint(0, 2))
        if self.rng.random() < 0.5:
            after, self.unit.clocks = self.unit.clocks, dict(before)
            self.emit("else")
            self.inner(self.rng.randint(0, 2))
            before = after
        self.unit.clocks = {known: ways | before[known] for known, ways in self.unit.clocks.items()}
        return True

    def finish(self) -> bool:
        outer = self.unit.block, self.unit.has_hidden
        self.unit.blocks += 1
        self.unit.block, self.unit.has_hidden = self.unit.blocks, self.rng.random() < 0.5
        self.emit(*["clocked", "finish"] if self.unit.has_hidden else ["finish"])
        self.spend(4 if self.unit.has_hidden else 2)
        if self.unit.has_hidden and self.rng.random() < 0.2:
            self.inner(1)
        else:
            self.block(self.rng.randint(0, 4))
        self.unit.block, self.unit.has_hidden = outer
        return True

    def nested(self) -> bool:
        if self.rng.random() < 0.2:
            self.emit(";")
        else:
            self.block(self.rng.randint(0, 3))
        return True


def program(rng: random.Random) -> Tokens:
    return Writer(rng).program()


# Programs with something wrong in them.


def is_name(token: str) -> bool:
    return (token[:1].isalpha() or token[:1] == "_") and token not in RESERVED


def misnamed(rng: random.Random, tokens: Tokens) -> Tokens:
    """Another name at one place, or one name for another everywhere behind a place."""
    tokens = list(tokens)
    places = [at for at, token in enumerate(tokens) if is_name(token)]
    if places:
        at = rng.choice(places)
        name = tokens[rng.choice(places)] if rng.random() < 0.8 else rng.choice(NAMES)
        if rng.random() < 0.7:
            tokens[at] = name
        else:
            old = tokens[at]
            tokens = tokens[:at] + [name if token == old else token for token in tokens[at:]]
    return tokens


def statements(tokens: Tokens) -> list[tuple[int, int]]:
    """Where the statements without others in them begin and end."""
    found, begin = [], 0
    for at, token in enumerate(tokens):
        if token in ("{", "}"):
            begin = at + 1
        elif token == ";":
            found.append((begin, at + 1))
            begin = at + 1
    return [(begin, end) for begin, end in found if tokens[begin] not in ("shared", "else")]


def starts(tokens: Tokens) -> list[int]:
    """Where statements begin."""
    return [
        at
        for at in range(1, len(tokens))
        if tokens[at - 1] in (";", "{", "}") and tokens[at] not in ("}", "def", "else", "shared")
    ]


def restated(rng: random.Random, tokens: Tokens) -> Tokens:
    """A statement more, or one less, or one at another place, or in another one."""
    for _ in range(rng.choice([1, 1, 1, 2])):
        places = statements(tokens)
        if not places:
            return tokens
        begin, end = rng.choice(places)
        to = rng.choice(rng.choice(places))
        piece = tokens[begin:end]
        way = rng.randrange(6)
        clocks = [
            tokens[at - 2]
            for at, token in enumerate(tokens)
            if token == "Clock" and at > 1 and tokens[at - 1] in (":", "=")
        ]
        if way == 0:
            tokens = tokens[:begin] + tokens[end:]
        elif way == 5 and clocks:
            at = rng.choice(starts(tokens))
            tokens = (
                tokens[:at]
                + [rng.choice(clocks), ".", rng.choice(["drop", "drop", "resume"]), "(", ")", ";"]
                + tokens[at:]
            )
        elif way == 1:
            tokens = tokens[:to] + piece + tokens[to:]
        elif way == 2 and not begin < to < end:
            rest = tokens[:begin] + tokens[end:]
            to -= len(piece) if to >= end else 0
            tokens = rest[:to] + piece + rest[to:]
        else:
            begin = rng.choice(starts(tokens))
            name = rng.choice([token for token in tokens if is_name(token)])
            least = [f"for ( i9 in 1 .. Math . min ( {name} , {high} ) )" for high in (0, 2, 2)]
            clocked = [
                "clocked finish",
                "clocked finish",
                "clocked async",
                "async clocked finish",
                "clocked finish clocked async",
            ]
            forms = [
                "async",
                "async",
                "finish",
                "finish",
                "if ( 1 < 2 )",
                "for ( i9 in 1 .. 2 )",
                "for ( i9 in 1 .. 0 )",
                *clocked,
                *least,
            ]
            tokens = tokens[:begin] + rng.choice(forms).split() + tokens[begin:]
    return tokens


def clocked_otherwise(rng: random.Random, tokens: Tokens) -> Tokens:
    """A `finish` or an `async` with a `clocked` in front of it, or without the one that stands there; or one where it
    can't stand."""
    words = [at for at, token in enumerate(tokens) if token in ("finish", "async")]
    if not words or rng.random() < 0.15:
        at = rng.choice(starts(tokens) or [len(tokens)])
        return (
            tokens[:at]
            + rng.choice(["clocked", "async clocked", "async clocked async", "clocked ( )", "finish clocked"]).split()
            + tokens[at:]
        )
    at = rng.choice(words)
    return tokens[: at - 1] + tokens[at:] if tokens[at - 1] == "clocked" else tokens[:at] + ["clocked"] + tokens[at:]


def recursive(rng: random.Random, tokens: Tokens) -> Tokens:
    """A call of some method at some place, with what it takes as often as not."""
    heads = [at for at, token in enumerate(tokens) if token == "def" and at + 1 < len(tokens)]
    places = statements(tokens)
    if not heads or not places:
        return tokens
    head = rng.choice(heads)
    letters = []
    for token in tokens[head : tokens.index("{", head)]:
        letters += [token] if token in ("Clock", "Long") else []
    clocks = [
        tokens[at - 2]
        for at, token in enumerate(tokens)
        if token == "Clock" and at > 1 and tokens[at - 1] in (":", "=")
    ]
    arguments = [rng.choice(clocks) if letter == "Clock" and clocks else "1" for letter in letters]
    if rng.random() < 0.1:
        arguments = arguments[1:] if arguments and rng.random() < 0.5 else [*arguments, "1"]
    at = rng.choice(rng.choice(places))
    return (
        tokens[:at] + [tokens[head + 1], "(", *listed([[argument] for argument in arguments]), ")", ";"] + tokens[at:]
    )


def some_token(rng: random.Random, tokens: Tokens) -> str:
    way = rng.random()
    if way < 0.5 and tokens:
        return rng.choice(tokens)
    return rng.choice(
        rng.choice([RESERVED, SIGNS, LITERALS, NAMES, ["#", "!", "&", "\u00e9", "/*", "//", "/**/", "'"]])
    )


def jumbled(rng: random.Random, tokens: Tokens) -> Tokens:
    """A few tokens replaced, put in, dropped, doubled or moved."""
    tokens = list(tokens)
    for _ in range(rng.choice([1, 1, 1, 2, 3])):
        at = rng.randrange(len(tokens) + 1)
        far = min(len(tokens), at + rng.choice([1, 1, 1, 2, 3, 6, 20]))
        way = rng.randrange(6)
        if way == 0:
            tokens[at : at + 1] = [some_token(rng, tokens)]
        elif way == 1:
            tokens.insert(at, some_token(rng, tokens))
        elif way == 2:
            del tokens[at:far]
        elif way == 3:
            tokens[at:at] = tokens[at:far]
        elif way == 4:
            piece, rest = tokens[at:far], tokens[:at] + tokens[far:]
            to = rng.randrange(len(rest) + 1)
            tokens = rest[:to] + piece + rest[to:]
        elif rng.random() < 0.3:
            del tokens[at:]
    return tokens


def digits_changed(rng: random.Random, tokens: Tokens) -> Tokens:
    """A number that is another one, perhaps none at all."""
    places = [at for at, token in enumerate(tokens) if token[:1].isdigit()]
    if not places:
        return tokens
    at = rng.choice(places)
    return tokens[:at] + [rng.choice(LITERALS)] + tokens[at + 1 :]


def soup(rng: random.Random) -> Tokens:
    """Tokens in any order, in a method or alone."""
    tokens = [some_token(rng, []) for _ in range(rng.randint(0, 12))]
    return ["def", "main", "(", ")", "{", *tokens, "}"] if rng.random() < 0.8 else tokens


# Programs at the limits.

ONE = "val x = 1 ;".split()
PRINT = "Console . OUT . println".split()


def main_of(*tokens: str) -> Tokens:
    return ["def", "main", "(", ")", "{", *tokens, "}"]


def near(rng: random.Random, limit: int) -> int:
    return limit + rng.choice([-1, 0, 0, 1, 1, 2])


def deep(rng: random.Random) -> Tokens:
    """Statements, parentheses and negations in one another, about as many as there may be."""
    levels, opened = near(rng, 64), []
    statements = max(0, rng.choice([0, 10, levels - 2, levels - 1, levels]))
    closed: Tokens = []
    has_hidden, only = False, rng.choice([[], [], [], [], ["clocked finish"], ["clocked finish", "clocked async"]])
    for number in range(statements):
        loops = [f"for ( i{number} in 1 .. {bound} )" for bound in ("1", "Math . min ( 1 , 1 )")]
        forms = only or [
            "{",
            "finish",
            "async",
            "if ( 1 < 2 )",
            *loops,
            "if ( 1 == 2 ) ; else",
            "clocked finish",
            "clocked async",
        ]
        form = rng.choice([form for form in forms if form != "clocked async" or has_hidden])
        opened += form.split()
        closed += ["}"] if form == "{" else []
        has_hidden = form.startswith("clocked") or has_hidden and form not in ("finish", "async")
    declared = ONE if rng.random() < 0.7 else []
    if rng.random() < 0.5:
        return main_of(*declared, *opened, ";", *closed)
    signs = [rng.choice("(-") for _ in range(levels - statements - 1)]
    inner = "x" if "-" in signs[-1:] and rng.random() < 0.5 else "1"
    expr = [*signs, inner, *(")" for sign in signs if sign == "(")]
    last = (
        "for ( j in 1 .. Math . min (".split() + [*expr, *", 1 ) ) ;".split()]
        if rng.random() < 0.3
        else [*PRINT, "(", *expr, ")", ";"]
    )
    return main_of(*declared, *opened, *last, *closed)


def long_expr(rng: random.Random) -> Tokens:
    """About as many operators as there may be, with parentheses here and there, in each place where an expression may
    stand."""
    expr: Tokens = ["1"]
    for _ in range(near(rng, 64)):
        way = rng.random()
        operator, one = rng.choice("+-*"), rng.choice(["2", "x", "7"])
        if way < 0.6:
            expr += [operator, one]
        elif way < 0.8:
            expr = ["(", *expr, ")", operator, one] if rng.random() < 0.3 else [one, operator, *expr]
        else:
            expr += [operator, "(", "-", "x", ")"] if rng.random() < 0.5 else [operator, "-", "3"]
    way = rng.randrange(5)
    if way == 4:
        return main_of(*ONE, *"for ( i in 1 .. Math . min (".split(), *expr, *", 2 ) ) ;".split())
    if way == 0:
        return [*"def f ( a : Long , b : Long ) { }".split(), *main_of(*ONE, "f", "(", *expr, ",", *expr, ")", ";")]
    if way == 1:
        return main_of(*ONE, "if", "(", *expr, rng.choice(COMPARISONS), *expr, ")", ";")
    if way == 2:
        return [
            *"shared s = 0 ;".split(),
            *main_of(*ONE, *"atomic s = s + x".split(), *["*", "x"] * near(rng, 64), ";"),
        ]
    return main_of(*ONE, *PRINT, "(", *expr, ")", ";")


def many_bodies(rng: random.Random) -> Tokens:
    clocked = rng.choice([[], ["clocked"]])
    bodies = [
        token
        for _ in range(near(rng, 1023))
        for token in rng.choice([[*clocked, "async", ";"], [*clocked, "async", "{", "}"]])
    ]
    return main_of("clocked", "finish", "{", *bodies, "}") if clocked else main_of(*bodies)


def many_methods(rng: random.Random) -> Tokens:
    numbers = list(range(near(rng, 1023)))
    methods = [f"def m{number} ( ) {{ }}".split() for number in numbers]
    rng.shuffle(numbers)
    parts = [*methods, main_of(*(token for number in numbers for token in f"m{number} ( ) ;".split()))]
    if rng.random() < 0.5:
        rng.shuffle(parts)
    return [token for part in parts for token in part]


def many_slots(rng: random.Random) -> Tokens:
    count = near(rng, 64) - rng.choice([0, 0, 1, 2])
    declared = [token for number in range(count) for token in f"val x{number} = 1 ;".split()]
    loops = [
        f"for ( i in 1 .. Math . min ( {limit} ) ) ;".split()
        for limit in ("1 , 2", "x0 + 1 , 2", "1 + 2 * 3 , 1", "1 , 0")
    ]
    clocked = [f"clocked finish {body}".split() for body in (";", "clocked finish ;", "clocked async val y = 1 ;")]
    return main_of(
        *declared, *rng.choice([[], [*PRINT, "(", "1", ")", ";"], "if ( 1 < 2 ) ;".split(), *loops, *clocked])
    )


def many_instructions(rng: random.Random) -> Tokens:
    body = [*ONE, *[*PRINT, "(", "x", ")", ";"] * near(rng, 4094)]
    return main_of(*body) if rng.random() < 0.5 else main_of("async", "{", *body, "}")


def many_shared(rng: random.Random) -> Tokens:
    return [token for number in range(near(rng, 256)) for token in f"shared s{number} = 1 ;".split()] + main_of()


def many_arguments(rng: random.Random) -> Tokens:
    count = near(rng, 64)
    method = ["def", "f", "(", *listed([[f"a{number}", ":", "Long"] for number in range(count)]), ")", "{", "}"]
    parts = [method, main_of(*ONE, "f", "(", *listed([["x"]] * count), ")", ";")]
    rng.shuffle(parts)
    return parts[0] + parts[1]


def many_steps(rng: random.Random) -> Tokens:
    low, high = rng.choice(
        [
            ("1", "999999998"),
            ("1", "999999999"),
            ("1", "999999997"),
            ("- 9223372036854775808", "9223372036854775807"),
            ("5", "4"),
        ]
    )
    if rng.random() < 0.5:
        return main_of(*f"for ( i in {low} .. {high} ) ;".split())
    return [
        "def",
        "main",
        "(",
        "n",
        ":",
        "Long",
        ")",
        "{",
        *f"for ( i in {low} .. Math . min ( n , {high} ) ) ;".split(),
        "}",
    ]


def many_activities(rng: random.Random) -> Tokens:
    turns = rng.choice([99_998, 99_999, 100_000, 100_001])
    body = rng.choice(
        [
            "async ;",
            "{ val c = Clock . make ( ) ; c . drop ( ) ; }",
            "clocked finish ;",
            "clocked finish clocked async ;",
        ]
    )
    bound = rng.choice([f"{turns}", f"Math . min ( 3 , {turns} )"])
    return main_of(*f"for ( i in 1 .. {bound} ) {body}".split())


def long_chain(rng: random.Random) -> Tokens:
    """Methods each of which calls the next one, and perhaps comes back at the end."""
    count = rng.choice([10, 300, 1100])
    chain = "".join(f"def m{number} ( ) {{ m{number + 1} ( ) ; }} " for number in range(count))
    back = f"m{rng.randrange(count)} ( ) ;" if rng.random() < 0.3 else ""
    return f"{chain} def m{count} ( ) {{ {back} }} def main ( ) {{ m{rng.randrange(count)} ( ) ; }}".split()


LIMITS = [
    deep, deep, deep, deep, deep, deep, long_expr, long_expr, long_expr, long_expr, long_expr, long_expr, many_bodies,
    many_methods, many_slots, many_slots, many_instructions, many_shared, many_arguments, many_steps, many_activities,
    long_chain,
]  # fmt: skip


# Texts.

COMMENTS = ["/* */", "/**/", "/*/*/", "// c\n", "//\n", "/* \u00e9\n */", "// \u2192 */ /*\n"]


def laid_out(rng: random.Random, tokens: Tokens) -> str:
    """The tokens with blanks between them: as few as may be, one each, or of all sorts."""
    style = rng.choice(["plain", "plain", "tight", "odd"])
    parts: list[str] = []
    for before, token in zip(["", *tokens], tokens):
        needs = before and (before[-1].isalnum() or before[-1] == "_") and (token[0].isalnum() or token[0] == "_")
        if style == "plain":
            gap = (
                "\n"
                if before in (";", "{", "}")
                else ""
                if token in ";,()." or before in (".", "(") and not needs
                else " "
            )
        elif style == "tight":
            gap = ""
        else:
            gap = rng.choice(["", "", " ", " ", "\n", "\t", "\r\n", "  ", *COMMENTS])
        parts += [gap or (" " if needs else ""), token]
    return "".join(parts) + rng.choice(["", "", "\n", " // end", " /* end */"])


def text_of(rng: random.Random, tokens: Tokens) -> bytes:
    return laid_out(rng, tokens).encode()


SPOILS = [bytes([sign]) for sign in b"09-./*=<>!(){},;:+# \t\r\x0b\x00\xff"] + [
    b"/*",
    b"*/",
    b"//",
    b"..",
    b"==",
    b"\xc3\xa9",
    b"\xe2\x82",
    b"\xef\xbb\xbf",
    b"\n",
]


def very_long(rng: random.Random) -> bytes:
    """A text about as long as a text may be."""
    text = text_of(rng, program(rng))
    blanks = rng.choice([b" ", b"\n", b"/", b"/* */ "])
    if blanks == b"/":
        text += b"\n/"
    fill = (blanks * 1_048_576)[: 1_048_576 - len(text) + rng.choice([-1, 0, 0, 1, 5])]
    return text + fill if rng.random() < 0.6 or blanks == b"/" else fill + text


# Cases.


def case(rng: random.Random, seeds: list[bytes]) -> bytes:
    """One text, of whatever sort."""
    way = rng.random()
    if way < 0.42:
        return text_of(rng, program(rng))
    if way < 0.53:
        return text_of(rng, misnamed(rng, program(rng)))
    if way < 0.64:
        return text_of(rng, restated(rng, program(rng)))
    if way < 0.66:
        return text_of(rng, recursive(rng, program(rng)))
    if way < 0.68:
        return text_of(rng, clocked_otherwise(rng, program(rng)))
    if way < 0.75:
        return text_of(rng, jumbled(rng, program(rng)))
    if way < 0.77:
        return text_of(rng, soup(rng))
    if way < 0.83:
        return text_of(rng, rng.choice(LIMITS)(rng))
    if way < 0.831:
        return very_long(rng)
    if way < 0.89:
        return text_of(rng, digits_changed(rng, program(rng)))
    return changed(rng, seeds)


def changed(rng: random.Random, seeds: list[bytes]) -> bytes:
    """A text that somebody wrote, or a generated one, changed byte by byte."""
    seed = rng.choice(seeds) if rng.random() < 0.5 else text_of(rng, program(rng))
    return generated.changed_bytes(rng, seed, SPOILS) if seed else b" "


def mostly_compiled(rng: random.Random) -> bytes:
    """A text that is mostly compiled, and whose module may be one that the verifier refuses."""
    tokens = program(rng)
    change = rng.choice([None, None, None, restated, restated, misnamed, digits_changed, clocked_otherwise])
    return text_of(rng, change(rng, tokens) if change else tokens)
