"""The reference for the hints of `explain` on a text that is accepted (docs/EXPLAIN.md, "Hints"), from its tree."""

from __future__ import annotations

from collections.abc import Callable, Iterable, Iterator
from dataclasses import dataclass, replace

from tests.reference import source
from tests.reference.names import cut
from tests.reference.origins import PlacedParser
from tests.reference.source import (
    Addition,
    AdvanceAll,
    Assignment,
    Async,
    Block,
    Branch,
    Call,
    Declaration,
    Expr,
    Finish,
    Loop,
    Method,
    Name,
    NewClock,
    OnClock,
    Param,
    Print,
    Stmt,
    Tree,
)

# A hint: its offset in the text, and its words.
Hint = tuple[int, str]

# A text with a method that ends behind so many bytes has no hints.
MOST_BYTES = 65536

TURNLESS = "this loop has no turn: it goes up, and begins above its end"
CLOCKLESS = "this advanceAll waits for nobody: its activity is on no clock"
UNJOINED_FINISH = "nobody joins the clock of this `clocked finish`; `clocked async` starts an activity on it"
BESIDE = "this activity isn't on the clock of the `clocked finish` around it: no advance of that clock waits for it"
UNJOINED = "is given to no activity and to no method: nobody is on it but its maker"
UNAWAITED = "is read here, and nothing has waited for the end of the `async` that writes it"
LOST = (
    "is read here, and written back later: what the `async` of another turn writes in between is lost; "
    "`atomic` adds in one step"
)
RESUMED = "the advanceAll behind this resumes all clocks, and waits for all: to resume `{}` first gains nothing"
UNORDERED = "is {} here, and {} in an `async` before this one: only the schedule orders the two"


# What statements hold, and which names they use.


def held(stmt: Stmt) -> list[Stmt]:
    match stmt:
        case Block(statements):
            return statements
        case Branch(then=then, otherwise=otherwise):
            return [then] if otherwise is None else [then, otherwise]
        case Loop() | Async() | Finish():
            return [stmt.body]
    return []


def within(stmts: Iterable[Stmt]) -> Iterator[Stmt]:
    """The statements, and all that they hold."""
    for stmt in stmts:
        yield stmt
        yield from within(held(stmt))


def names(expr: Expr | NewClock | None) -> set[str]:
    match expr:
        case Name(text):
            return {text}
        case source.Parens(inner):
            return names(inner)
        case source.Negation(of):
            return names(of)
        case source.Operation(_, left, right):
            return names(left) | names(right)
    return set()


def given(stmt: Stmt) -> set[str]:
    """The names that an activity or a method is given."""
    match stmt:
        case Async(clocks):
            return {clock.text for clock in clocks}
        case Call(_, arguments):
            return set().union(*map(names, arguments))
    return set()


def used(stmt: Stmt) -> set[str]:
    match stmt:
        case Declaration(right=right) | Assignment(right=right):
            return names(right)
        case Addition(term=term):
            return names(term)
        case Branch(left, _, right):
            return names(left) | names(right)
        case Loop(limit=limit):
            return names(limit)
        case OnClock(name, "resume"):
            return {name.text}
        case Print(value):
            return names(value)
    return given(stmt)


def written(stmt: Stmt) -> set[str]:
    return {stmt.name.text} if isinstance(stmt, Assignment | Addition) else set()


def called(stmt: Stmt) -> set[str]:
    return {stmt.name.text} if isinstance(stmt, Call) else set()


def waits(stmt: Stmt) -> bool:
    """Whether its activity may wait at all of its clocks: by itself, or in a method."""
    return isinstance(stmt, AdvanceAll | Call)


def some(names_of: Callable[[Stmt], set[str]], stmts: Iterable[Stmt], name: Name) -> bool:
    """Whether some statement does this with a name."""
    return any(name.text in names_of(stmt) for stmt in within(stmts))


def of_number(name: Name, is_used: bool, is_written: bool) -> Iterator[Hint]:
    if not is_used:
        yield name.at, f"`{cut(name.text)}` is {'written, and never read' if is_written else 'never used'}"


# Clocks.


def is_joined(finish: Finish) -> bool:
    """Whether some activity is started on the clock of a `clocked finish`: those in one that it holds are on that
    one's."""
    stmts = [finish.body]
    while stmts:
        stmt = stmts.pop()
        if isinstance(stmt, Async) and stmt.clocked is not None:
            return True
        if not (isinstance(stmt, Finish) and stmt.clocked is not None):
            stmts += held(stmt)
    return False


def makes_clock(stmt: Stmt) -> bool:
    """Whether the activity that runs it makes a clock there."""
    match stmt:
        case Declaration(right=NewClock()) | Finish(clocked=int()):
            return True
        case Async():
            return False
    return any(map(makes_clock, held(stmt)))


# Shared numbers.


def is_plain(stmt: Stmt) -> bool:
    """Whether it is an `async` without clocks."""
    return isinstance(stmt, Async) and not stmt.clocks and stmt.clocked is None


def left_by(stmt: Stmt) -> set[str]:
    """What is written in the activities that it starts without clocks, and doesn't wait for, whatever its conditions
    are."""
    if is_plain(stmt):
        return set().union(*map(written, within(held(stmt))))
    if isinstance(stmt, Block | Loop):
        return set().union(*map(left_by, held(stmt)))
    return set()


def turns(stmt: Loop) -> int:
    """How often at least it goes round."""
    return stmt.high - stmt.low + 1 if stmt.limit is None else 0


# Activities beside one another.


@dataclass(frozen=True)
class Access:
    """What is done with a number: it is read, written or added to."""

    name: Name
    done: str

    def meets(self, other: Access) -> bool:
        """Whether it counts which comes first."""
        return self.name.text == other.name.text and {self.done, other.done} not in ({"read"}, {"added to"})


def may_wait(stmt: Stmt) -> bool:
    """Whether the activity that runs it may wait there."""
    match stmt:
        case Finish() | Call() | AdvanceAll():
            return True
        case Async():
            return False
    return any(map(may_wait, held(stmt)))


def up_to_a_wait(stmts: list[Stmt]) -> list[Stmt]:
    """Those that are come to before the activity may wait."""
    waiting = [at for at, stmt in enumerate(stmts, start=1) if may_wait(stmt)]
    return stmts[: waiting[0]] if waiting else stmts


def accesses(stmt: Stmt) -> Iterator[Access]:
    """What the activity does for sure before it may wait."""
    match stmt:
        case Declaration(right=Name() as read):
            yield Access(read, "read")
        case Assignment(name, right):
            yield Access(name, "written")
            if isinstance(right, Name):
                yield Access(right, "read")
        case Addition(name):
            yield Access(name, "added to")
        case Block(stmts):
            for inner in up_to_a_wait(stmts):
                yield from accesses(inner)
        case Finish():
            yield from accesses(stmt.body)
        case Loop() if turns(stmt) >= 1:
            yield from accesses(stmt.body)


def meetings(stmts: list[Stmt]) -> Iterator[tuple[Access, Access]]:
    """For each `async` of a block what it does, and what one before it does that may come later."""
    for at, later in enumerate(stmts):
        if not isinstance(later, Async):
            continue
        since = next((n for n in range(at, 0, -1) if may_wait(stmts[n - 1])), 0)
        before = [access for stmt in stmts[since:at] if isinstance(stmt, Async) for access in accesses(stmt.body)]
        for access in accesses(later.body):
            met = next(filter(access.meets, before), None)
            if met is not None:
                yield access, met


@dataclass(frozen=True)
class Activity:
    """What is known of the activity at a place: that it is never on a clock; that the place is in a `clocked finish`
    that others have joined. `is_turned`: each turn of a loop comes to the place, and it has two or more. `is_many`:
    each activity that such turns start comes to it. `left`: what is written in activities that were started before, and
    that nothing has waited for."""

    is_clockless: bool
    is_shared: bool = False
    is_turned: bool = False
    is_many: bool = False
    left: frozenset[str] = frozenset()


class Hints:
    def __init__(self, parser: PlacedParser, tree: Tree) -> None:
        self.parser, self.tree = parser, tree
        self.bodies = [method.body for method in tree.methods]
        self.shared = {shared.name.text for shared in tree.shared}

    def of_program(self) -> Iterator[Hint]:
        if any(self.parser.ends[id(body)] > MOST_BYTES for body in self.bodies):
            return
        for shared in self.tree.shared:
            name = shared.name
            is_used, is_written = some(used, self.bodies, name), some(written, self.bodies, name)
            yield from of_number(name, is_used, is_written)
            if is_used and not is_written and shared.value == 0:
                yield name.at, f"`{cut(name.text)}` is read, and never written"
        for method in self.tree.methods:
            yield from self.of_method(method)
        yield from self.of_meetings()

    def of_meetings(self) -> Iterator[Hint]:
        """Of each shared number the first place in the text."""
        blocks = [stmt.statements for stmt in within(self.bodies) if isinstance(stmt, Block)]
        found = sorted((pair for stmts in blocks for pair in meetings(stmts)), key=lambda pair: pair[0].name.at)
        first = {access.name.text: (access, met) for access, met in reversed(found)}
        for access, met in first.values():
            if access.name.text in self.shared:
                words = UNORDERED.format(access.done, met.done)
                yield access.name.at, f"`{cut(access.name.text)}` {words}"

    def of_method(self, method: Method) -> Iterator[Hint]:
        is_main = method.name.text == "main"
        if not (is_main or some(called, self.bodies, method.name)):
            yield method.name.at, f"`{cut(method.name.text)}` is never called"
        for param in method.params:
            yield from of_number(param.name, self.is_param_used(method, param), False)
        yield from self.of_statement(method.body, Activity(is_main and not makes_clock(method.body)), [])

    def is_param_used(self, method: Method, param: Param) -> bool:
        """A clock is used, too, where the activity may wait at all of its clocks."""
        stmts = [method.body]
        return some(used, stmts, param.name) or param.type == "Clock" and any(map(waits, within(stmts)))

    def of_declaration(self, stmt: Declaration, behind: list[Stmt]) -> Iterator[Hint]:
        if not isinstance(stmt.right, NewClock):
            yield from of_number(stmt.name, some(used, behind, stmt.name), some(written, behind, stmt.name))
        elif not some(given, behind, stmt.name):
            yield stmt.name.at, f"`{cut(stmt.name.text)}` {UNJOINED}"

    def of_reading(self, stmt: Declaration | Assignment, activity: Activity, behind: list[Stmt]) -> Iterator[Hint]:
        """A shared number is read alone."""
        read = stmt.right
        if not (isinstance(read, Name) and read.text in self.shared):
            return
        if read.text in activity.left:
            yield read.at, f"`{cut(read.text)}` {UNAWAITED}"
        if activity.is_many and any(is_written_back(read, stmt.name, after) for after in behind):
            yield read.at, f"`{cut(read.text)}` {LOST}"

    def of_statement(self, stmt: Stmt, activity: Activity, behind: list[Stmt]) -> Iterator[Hint]:
        """Those of a statement, where these stand behind it in its block."""
        within_it = replace(activity, is_turned=activity.is_turned and isinstance(stmt, Block))
        match stmt:
            case Declaration():
                yield from self.of_declaration(stmt, behind)
                yield from self.of_reading(stmt, activity, behind)
            case Assignment():
                yield from self.of_reading(stmt, activity, behind)
            case OnClock(name, "resume") if behind and isinstance(behind[0], AdvanceAll):
                yield name.at, RESUMED.format(cut(name.text))
            case AdvanceAll() if activity.is_clockless:
                yield self.parser.places[id(stmt)], CLOCKLESS
            case Branch():
                within_it = replace(within_it, is_many=False)
            case Loop(_, low, high):
                if low > high:
                    yield self.parser.places[id(stmt)], TURNLESS
                is_many = activity.is_many and turns(stmt) >= 1
                within_it = replace(activity, is_turned=turns(stmt) >= 2, is_many=is_many)
            case Async():
                if activity.is_shared and is_plain(stmt):
                    yield stmt.at, BESIDE
                is_many = is_plain(stmt) and (activity.is_turned or activity.is_many)
                is_clockless = is_plain(stmt) and not makes_clock(stmt.body)
                within_it = Activity(is_clockless, is_many=is_many)
            case Finish():
                is_shared = stmt.clocked is not None and is_joined(stmt)
                if stmt.clocked is not None and not is_shared:
                    yield stmt.clocked, UNJOINED_FINISH
                within_it = replace(within_it, is_shared=is_shared)
        stmts, left = held(stmt), within_it.left
        for at, inner in enumerate(stmts, start=1):
            rest = stmts[at:] if isinstance(stmt, Block) else []
            yield from self.of_statement(inner, replace(within_it, left=left), rest)
            left |= left_by(inner) if isinstance(stmt, Block) else set()


def is_written_back(read: Name, own: Name, stmt: Stmt) -> bool:
    """Whether it writes the number that was read, and computes that of the name that it was read into."""
    return isinstance(stmt, Assignment) and stmt.name.text == read.text and own.text in names(stmt.right)


def of_accepted(data: bytes, is_module: bool) -> list[Hint]:
    """The hints on a program that is accepted, in the order of the text; a module has none."""
    if is_module:
        return []
    parser = PlacedParser(data)
    tree = parser.program()
    return [(at, f"hint: {words}") for at, words in sorted(Hints(parser, tree).of_program())]
