#!/usr/bin/env python3
"""What a source text means, without its code; and whether a compiled program does that.

A program is carried out on its tree here: a step does one statement with its expressions, or ends a turn of a loop, a
finish, a call or an activity. It shares no world with tests/reference/modules.py: a clock keeps a phase and where each
activity stands, a finish keeps how many it still waits for. Then the module is run by a schedule by chance, and
whenever a step of it is seen, the same activity of the program goes on up to its next step that is seen: these two have
to be the same event, and leave the same phases, standings and shared numbers, with all activities ended in both or in
neither. As often the program goes first and the module follows. Both get the same numbers, by chance, where `main`
takes some.

    python3 -m tests.reference.meaning [CASES] [SEED] [--runs N] [--jobs N] [--program PATH | --alone] [--only CASE]
    python3 -m tests.reference.meaning --file FILE [--runs N] [--program PATH | --alone]

2,000 programs that nobody wrote, seed 1, 3 runs of each and 2 jobs where nothing else is said. The module is the one
that tests/reference/source.py makes of the text, or with `--program` the one that this program prints for `compile`.
`--only` prints one text alone.
"""

from __future__ import annotations

import argparse
import collections
import concurrent.futures
import enum
import pathlib
import random
import sys
from collections.abc import Iterator
from dataclasses import dataclass, field
from typing import Protocol

from tests import harness
from tests.generated import generated, generated_source
from tests.reference import modules, source
from tests.reference.modules import Arguments, ClockName, Standing, Status, Wrong, wrapped

# A run is left after so many steps of who goes first.
LONGEST = 400
CHUNK = 50
SHOWN = 5

Value = int | ClockName
# The phase of each clock and where each activity stands on it; the shared numbers; whether all have ended.
Shown = tuple[tuple[tuple[int, tuple[Standing, ...]], ...], tuple[int, ...], bool]


class World(Protocol):
    """Something whose activities take steps."""

    def count(self) -> int:
        """How many activities there are."""

    def take(self, who: int) -> str | None:
        """The activity's next step is taken: what others see of it, nothing where it is local; None where it can't
        step. Raises Wrong."""

    def shown(self) -> Shown:
        """What all activities share."""


# The program.


@dataclass(frozen=True)
class Turn:
    """The end of a turn of a loop, and the number of its last turn, which is known since before the first one."""

    loop: source.Loop
    last: int


class Rest(enum.Enum):
    """What is left of a finish besides its statement."""

    MAKE = "the clock of a clocked finish is made"
    DROP = "it is dropped"
    CLOSE = "the end of the finish"


Todo = source.Stmt | Turn | Rest


@dataclass
class Doing:
    """A call in progress: what is left to do, the next one last, and what names stand for; and of each finish that it
    has open, and of the method or `async` around them, the clock that a `clocked async` is started on there."""

    names: dict[str, Value]
    hidden: list[ClockName | None]
    todo: list[Todo] = field(default_factory=list)

    def next_comes(self, *stmts: source.Stmt | Rest) -> None:
        """These come next, without a step for blocks, and none for loops whose numbers allow no turn."""
        self.todo += reversed([one for stmt in stmts for one in unfolded(stmt)])


def unfolded(stmt: source.Stmt | Rest) -> Iterator[source.Stmt | Rest]:
    match stmt:
        case source.Block(statements):
            for one in statements:
                yield from unfolded(one)
        case source.Loop(_, low, high) if low > high:
            pass
        case _:
            yield stmt


@dataclass(eq=False)
class Finish:
    """A finish, the one around it, and how many activities that were started in it, directly or by others, haven't
    ended."""

    around: Finish | None
    left: int = 0

    def count(self, change: int) -> None:
        at: Finish | None = self
        while at:
            at.left += change
            at = at.around


@dataclass(eq=False)
class Activity:
    """The calls in progress, the last one called at the end; the finish that it was started in; and those that it has
    open."""

    calls: list[Doing]
    within: Finish
    status: Status = Status.RUNNING
    opened: list[Finish] = field(default_factory=list)

    @property
    def innermost(self) -> Finish:
        return self.opened[-1] if self.opened else self.within


@dataclass
class Clock:
    """Who isn't listed is apart."""

    phase: int = 0
    standings: dict[int, Standing] = field(default_factory=dict)

    def change(self, who: int, before: Standing, after: Standing) -> None:
        if self.standings.get(who) is before:
            self.standings[who] = after

    def settle(self) -> None:
        """Goes on where somebody is registered and all of them have resumed."""
        if self.standings and set(self.standings.values()) == {Standing.SIGNALLED}:
            self.phase += 1
            self.standings = dict.fromkeys(self.standings, Standing.AHEAD)


class Program:
    """A tree that is carried out, one step after the other, by a main that gets these numbers."""

    def __init__(self, tree: source.Tree, arguments: Arguments) -> None:
        self.cells = {shared.name.text: cell for cell, shared in enumerate(tree.shared)}
        self.methods = {method.name.text: method for method in tree.methods}
        self.shared = [shared.value for shared in tree.shared]
        self.clocks: list[Clock] = []
        self.activities: list[Activity] = []
        main = self.methods["main"]
        given: dict[str, Value] = {
            param.name.text: number for param, number in zip(main.params, arguments, strict=True)
        }
        self.begin(Activity([Doing(given, [None])], Finish(None)), main.body)

    def begin(self, activity: Activity, body: source.Stmt) -> None:
        activity.calls[-1].next_comes(body)
        activity.within.count(1)
        self.activities.append(activity)

    def count(self) -> int:
        return len(self.activities)

    def shown(self) -> Shown:
        everybody = range(len(self.activities))
        clocks = tuple(
            (clock.phase, tuple(clock.standings.get(who, Standing.APART) for who in everybody)) for clock in self.clocks
        )
        return clocks, tuple(self.shared), all(activity.status is Status.ENDED for activity in self.activities)

    # Names and numbers.

    def number(self, names: dict[str, Value], expr: source.Expr) -> int:
        match expr:
            case source.Name(text):
                if not isinstance(names.get(text), int):
                    raise Wrong("no number")
                return names[text]
            case source.Number(value):
                return value
            case source.Parens(inner):
                return self.number(names, inner)
            case source.Negation(of):
                return wrapped(-self.number(names, of))
            case source.Operation(sign, left, right):
                a, b = self.number(names, left), self.number(names, right)
                return wrapped(a + b if sign == "+" else a - b if sign == "-" else a * b)

    def clock(self, who: int, name: source.Expr) -> ClockName:
        """A clock that the activity is registered on."""
        return self.registered(
            who, self.activities[who].calls[-1].names.get(name.text) if isinstance(name, source.Name) else None
        )

    def registered(self, who: int, value: Value | None) -> ClockName:
        if not isinstance(value, ClockName):
            raise Wrong("no clock")
        if who not in self.clocks[value.number].standings:
            raise Wrong("ClockUseException")
        return value

    # Steps.

    def take(self, who: int) -> str | None:
        me = self.activities[who]
        if me.status is Status.ENDED:
            return None
        if me.status is Status.ARRIVED:
            event = self.second_half(who, me)
        elif me.calls[-1].todo:
            event = self.next_of(who, me, me.calls[-1])
        else:
            event = self.over(who, me)
        if event is not None:
            for clock in self.clocks:
                clock.settle()
        return event

    def second_half(self, who: int, me: Activity) -> str | None:
        """Goes on behind `Clock.advanceAll()`, once each clock of the activity has gone on since it resumed it."""
        if any(clock.standings.get(who) is Standing.SIGNALLED for clock in self.clocks):
            return None
        for clock in self.clocks:
            clock.change(who, Standing.AHEAD, Standing.OPEN)
        me.status = Status.RUNNING
        return "Passed"

    def over(self, who: int, me: Activity) -> str:
        """Nothing is left: back to who called, or the activity ends, is registered nowhere any more, and no finish
        waits for it."""
        if len(me.calls) > 1:
            me.calls.pop()
            return ""
        me.status = Status.ENDED
        me.within.count(-1)
        for clock in self.clocks:
            clock.standings.pop(who, None)
        return "Ended"

    def next_of(self, who: int, me: Activity, doing: Doing) -> str | None:
        match doing.todo[-1]:
            case Turn(loop, last):
                doing.todo.pop()
                return self.turn(doing, loop, self.number(doing.names, loop.name) + 1, last)
            case Rest.MAKE:
                doing.todo.pop()
                doing.hidden[-1] = self.made(who)
                return "Made"
            case Rest.DROP:
                doing.todo.pop()
                return self.dropped(who, self.registered(who, doing.hidden[-1]))
            case Rest.CLOSE:
                if me.opened[-1].left:
                    return None
                me.opened.pop()
                doing.hidden.pop()
                doing.todo.pop()
                return "Closed"
            case stmt:
                doing.todo.pop()
                return self.does(who, me, doing, stmt)

    def turn(self, doing: Doing, loop: source.Loop, number: int, last: int) -> str:
        """A turn of a loop with this number, if there is one."""
        if number <= last:
            doing.names[loop.name.text] = number
            doing.todo.append(Turn(loop, last))
            doing.next_comes(loop.body)
        return ""

    def last_turn(self, names: dict[str, Value], loop: source.Loop) -> int:
        return loop.high if loop.limit is None else min(self.number(names, loop.limit), loop.high)

    def does(self, who: int, me: Activity, doing: Doing, stmt: source.Stmt) -> str:
        names = doing.names
        match stmt:
            case source.Declaration(_, name, _, source.NewClock()):
                names[name.text] = self.made(who)
                return "Made"
            case source.Declaration(_, name, _, right):
                return self.gives(names, name, right)
            case source.Assignment(name, right) if name.text in self.cells:
                self.shared[self.cells[name.text]] = self.number(names, right)
                return "Put"
            case source.Assignment(name, right):
                return self.gives(names, name, right)
            case source.Addition(name, _, term):
                cell = self.cells[name.text]
                self.shared[cell] = wrapped(self.shared[cell] + self.number(names, term))
                return "Added"
            case source.Branch(left, comparison, right, then, otherwise):
                compare = modules.COMPARISONS[source.COMPARISONS[comparison]]
                holds = compare(self.number(names, left), self.number(names, right))
                doing.next_comes(*([then] if holds else [otherwise] if otherwise else []))
                return ""
            case source.Loop(_, low):
                return self.turn(doing, stmt, low, self.last_turn(names, stmt))
            case source.Finish(body, clocked):
                me.opened.append(Finish(me.innermost))
                doing.hidden.append(None)
                doing.next_comes(*([body] if clocked is None else [Rest.MAKE, body, Rest.DROP]), Rest.CLOSE)
                return "Opened"
            case source.Async(clocks, body, _, None):
                return self.start(who, me, [self.clock(who, name) for name in clocks], None, body)
            case source.Async(_, body, _, _):
                clock = self.registered(who, doing.hidden[-1])
                return self.start(who, me, [clock], clock, body)
            case source.Call(name, arguments):
                return self.call(who, me, self.methods[name.text], arguments)
            case source.OnClock(name, "resume"):
                self.clocks[self.clock(who, name).number].change(who, Standing.OPEN, Standing.SIGNALLED)
                return "Resumed"
            case source.OnClock(name, "drop"):
                return self.dropped(who, self.clock(who, name))
            case source.AdvanceAll():
                for clock in self.clocks:
                    clock.change(who, Standing.OPEN, Standing.SIGNALLED)
                me.status = Status.ARRIVED
                return "Arrived"
            case source.Print(value):
                return f"Printed({self.number(names, value)})"

    def made(self, who: int) -> ClockName:
        self.clocks.append(Clock(standings={who: Standing.OPEN}))
        return ClockName(len(self.clocks) - 1)

    def dropped(self, who: int, clock: ClockName) -> str:
        del self.clocks[clock.number].standings[who]
        return "Dropped"

    def gives(self, names: dict[str, Value], name: source.Name, right: source.Expr) -> str:
        """A name of the activity's own gets a number, or a shared number that stands alone."""
        if isinstance(right, source.Name) and right.text in self.cells:
            names[name.text] = self.shared[self.cells[right.text]]
            return "Got"
        names[name.text] = self.number(names, right)
        return ""

    def start(self, who: int, me: Activity, given: list[ClockName], hidden: ClockName | None, body: source.Stmt) -> str:
        """The new activity knows what its starter knows, and stands on the clocks that it gets where its starter
        stands."""
        for clock in [self.clocks[name.number] for name in given]:
            clock.standings[len(self.activities)] = clock.standings[who]
        self.begin(Activity([Doing(dict(me.calls[-1].names), [hidden])], me.innermost), body)
        return "Spawned"

    def call(self, who: int, me: Activity, method: source.Method, arguments: list[source.Expr]) -> str:
        names = me.calls[-1].names
        given: dict[str, Value] = {}
        for argument, param in zip(arguments, method.params, strict=True):
            given[param.name.text] = (
                self.clock(who, argument) if param.type == "Clock" else self.number(names, argument)
            )
        me.calls.append(Doing(given, [None]))
        me.calls[-1].next_comes(method.body)
        return ""


# The module.


class Machine:
    """A module that is run as tests/reference/modules.py has it, whose phases are counted."""

    def __init__(self, module: modules.Module, arguments: Arguments) -> None:
        self.module, self.world = module, modules.opening(module, arguments)
        self.phases: list[int] = []

    def count(self) -> int:
        return len(self.world.activities)

    def shown(self) -> Shown:
        everybody = range(len(self.world.activities))
        clocks = tuple(
            (phase, tuple(map(clock.standing, everybody)))
            for phase, clock in zip(self.phases, self.world.clocks, strict=True)
        )
        return clocks, self.world.shared, self.world.has_ended

    def take(self, who: int) -> str | None:
        taken = modules.step(self.module, self.world, who)
        if taken is None:
            return None
        self.world = taken.world
        self.phases += [0] * (len(self.world.clocks) - len(self.phases))
        for clock in taken.advanced:
            self.phases[clock] += 1
        return taken.event


# Both.


class Differs(Exception):
    """A run of the one that isn't one of the other; the message says where."""


def next_seen(world: World, who: int) -> str | None:
    """What others see of an activity next, which it has done then; None where it can't step so far."""
    while (event := world.take(who)) == "":
        pass
    return event


class Pair:
    """A run of one of the two, which the other follows."""

    def __init__(self, leader: World, follower: World) -> None:
        self.leader, self.follower = leader, follower
        self.schedule: list[int] = []
        self.seen: list[str] = []

    def differ(self, what: str) -> Differs:
        return Differs(
            f"{what}; {type(self.leader).__name__} first, by the schedule {' '.join(map(str, self.schedule))}"
        )

    def step(self, who: int) -> bool:
        """The activity takes a step, if it can; raises Wrong where it goes wrong in both."""
        self.schedule.append(who)
        try:
            event = self.leader.take(who)
        except Wrong as wrong:
            self.fails(who, str(wrong))
            raise
        if event is None:
            self.schedule.pop()
            return False
        if event:
            self.follows(who, event)
        return True

    def fails(self, who: int, how: str) -> None:
        """What goes wrong in the one goes wrong in the other."""
        try:
            told = next_seen(self.follower, who)
        except Wrong:
            return
        raise self.differ(f"activity {who} goes wrong ({how}), and not {told}")

    def follows(self, who: int, event: str) -> None:
        self.seen.append(event)
        try:
            told = next_seen(self.follower, who)
        except Wrong as wrong:
            told = f"goes wrong: {wrong}"
        if told != event:
            raise self.differ(f"activity {who}: {event}, and not {told}")
        if self.leader.shown() != self.follower.shown():
            raise self.differ(
                f"behind {event} of activity {who}: {self.leader.shown()}, and not {self.follower.shown()}"
            )

    def halts(self) -> None:
        """Where nobody can step in the one, nobody can in the other, once nothing local is left."""
        for who in range(self.follower.count()):
            told = next_seen(self.follower, who)
            if told is not None:
                raise self.differ(f"nobody can step, and activity {who} can: {told}")


def compare(tree: source.Tree, module: modules.Module, rng: random.Random) -> collections.Counter[str]:
    """A run by chance, to its end where that comes soon; raises Differs. Answers what was counted."""
    arguments = generated.arguments(rng, module.wants)
    worlds = Program(tree, arguments), Machine(module, arguments)
    pair = Pair(*(worlds if rng.random() < 0.5 else worlds[::-1]))
    try:
        end = end_of(pair, rng)
    except Wrong:
        end = "runs that went wrong"
    except Differs as differs:
        raise Differs(f"{differs}, with the numbers {arguments}") from None
    counts = collections.Counter({end: 1, "runs": 1, "steps that are seen": len(pair.seen)})
    return counts + collections.Counter({"runs with numbers given": 1 if arguments else 0})


def end_of(pair: Pair, rng: random.Random) -> str:
    """How a run by chance ends: some let one activity go on for long, some take turns."""
    stay, who = rng.choice([0.0, 0.5, 0.9]), 0
    while len(pair.schedule) < LONGEST:
        if rng.random() < stay and pair.step(who):
            continue
        others = range(pair.leader.count())
        if (one := next((one for one in rng.sample(others, len(others)) if pair.step(one)), None)) is None:
            pair.halts()
            return "runs to an end" if pair.leader.shown()[2] else "runs that got stuck"
        who = one
    return "runs that were left after many steps"


# Texts.


def text_of_case(seed: int, case: int) -> bytes:
    """A text that is compiled, by its number alone."""
    rng = random.Random(f"{seed} {case}")
    while True:
        text = generated_source.mostly_compiled(rng)
        try:
            source.compile_tree(source.parse(text))
            return text
        except source.Fault:
            pass


def module_of(text: bytes, program: pathlib.Path | None) -> modules.Module:
    """The module that a text is compiled to: by the reference, or by the program."""
    if program is None:
        return modules.read_module(source.module_text(text).encode())
    status, out, err = harness.call([program, "compile", "-"], text).texts()
    if status or err:
        raise Differs(f"it is not compiled: status {status}, {err}")
    return modules.read_module(out.encode())


def compare_runs(text: bytes, module: modules.Module, runs: int) -> collections.Counter[str]:
    """So many runs of a text and its module, which are the same whenever it is asked; raises Differs."""
    tree, rng = source.parse(text), random.Random(text)
    return sum((compare(tree, module, rng) for _ in range(runs)), collections.Counter())


@dataclass(frozen=True)
class Job:
    seed: int
    runs: int
    program: pathlib.Path | None

    def of_text(self, text: bytes) -> collections.Counter[str]:
        return compare_runs(text, module_of(text, self.program), self.runs)

    def of_cases(self, cases: range) -> tuple[collections.Counter[str], list[tuple[int, bytes, str]]]:
        """What was counted, and what differs."""
        counts, differing = collections.Counter(), []
        for case in cases:
            text = text_of_case(self.seed, case)
            try:
                counts += self.of_text(text)
            except Differs as differs:
                differing.append((case, text, str(differs)))
            except Exception as fault:  # A fault of the reference is a difference like any other.
                differing.append((case, text, f"the reference failed: {fault!r}"))
        return counts, differing


def words() -> argparse.Namespace:
    parser = argparse.ArgumentParser(description="Runs programs by their texts and by their modules, and compares.")
    parser.add_argument("cases", nargs="?", type=int, default=2_000)
    parser.add_argument("seed", nargs="?", type=int, default=1)
    parser.add_argument("--runs", type=int, default=3)
    parser.add_argument("--jobs", type=int, default=2)
    harness.add_program_or_none(parser)
    parser.add_argument("--file", type=pathlib.Path)
    parser.add_argument("--only", type=int)
    return parser.parse_args()


def told(count: int, counts: collections.Counter[str], differing: list[tuple[int, bytes, str]]) -> int:
    for case, text, differs in sorted(differing)[:SHOWN]:
        print(f"program {case}: {text!r}\n    {differs}", file=sys.stderr)
    several = ", ".join(f"{number} {name}" for name, number in sorted(counts.items()))
    print(f"meaning: {count} programs, {len(differing)} told otherwise ({several})")
    return 1 if differing else 0


def main() -> int:
    given = words()
    job = Job(given.seed, given.runs, given.program)
    if given.only is not None:
        sys.stdout.buffer.write(text_of_case(given.seed, given.only) + b"\n")
        return 0
    if given.file:
        text = given.file.read_bytes()
        try:
            return told(1, job.of_text(text), [])
        except source.Fault as fault:
            print(f"x10clock: {fault}", file=sys.stderr)
        except Differs as differs:
            return told(1, collections.Counter(), [(0, text, str(differs))])
        return 1
    counts, differing = collections.Counter(), []
    chunks = [range(start, min(start + CHUNK, given.cases)) for start in range(0, given.cases, CHUNK)]
    with concurrent.futures.ProcessPoolExecutor(given.jobs) as pool:
        for more, others in pool.map(job.of_cases, chunks):
            counts += more
            differing += others
    return told(given.cases, counts, differing)


if __name__ == "__main__":
    sys.exit(main())
