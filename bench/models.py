"""Models of clocked programs of which all outcomes are asked, each in X10 and in Promela: the same activities, and what
is one step that others see in X10 is one step there.

A model is built of what activities do: read a shared number, write one, print, advance. `x10` and `promela` write it
out. The names of `MODELS` have the sizes.
"""

from __future__ import annotations

import itertools
from collections.abc import Iterable, Iterator
from dataclasses import dataclass, field


@dataclass(frozen=True)
class Read:
    """A local number becomes what a shared one is."""

    local: str
    shared: str


@dataclass(frozen=True)
class Write:
    """A shared number becomes this sum of local ones."""

    shared: str
    value: str


@dataclass(frozen=True)
class Print:
    value: str


@dataclass(frozen=True)
class Advance:
    """Waits for all on the activity's clock."""


@dataclass(frozen=True)
class Wait:
    """Looks, at most so often, whether a shared number is 0 or another is this one; what follows is only for who saw
    it."""

    tries: int
    zero: str
    other: str
    number: int
    then: tuple[Act, ...]


Act = Read | Write | Print | Advance | Wait


@dataclass(frozen=True)
class Activity:
    acts: tuple[Act, ...]
    # the number of its clock, if it is on one
    clock: int | None = None


@dataclass
class Model:
    """Activities under one finish, started by main, which has clocks for them and prints these numbers at the end."""

    shared: dict[str, int]
    activities: list[Activity]
    clocks: int = 0
    shown: tuple[str, ...] = ()
    prints: int = field(default=0)

    def __post_init__(self) -> None:
        """How many numbers a run prints at most."""
        self.prints = len(self.shown) + sum(printed(each.acts) for each in self.activities)


def printed(acts: Iterable[Act]) -> int:
    """How many numbers these print at most."""
    return sum(printed(act.then) if isinstance(act, Wait) else isinstance(act, Print) for act in acts)


def locals_of(acts: Iterable[Act]) -> list[str]:
    """The local numbers, each once."""
    names: dict[str, None] = {}
    for act in acts:
        match act:
            case Read(local, _):
                names[local] = None
            case Wait(then=then):
                names |= dict.fromkeys(["open", "zero", "other", *locals_of(then)])
    return list(names)


# ---- X10


def x10_act(act: Act) -> str:
    match act:
        case Read(local, shared):
            return f"{local} = {shared};"
        case Write(shared, value):
            return f"{shared} = {value};"
        case Print(value):
            return f"Console.OUT.println({value});"
        case Advance():
            return "Clock.advanceAll();"
        case Wait():
            look = f"zero = {act.zero}; other = {act.other};"
            seen = f"if (zero == 0) open = 1; else if (other == {act.number}) open = 1;"
            then = " ".join(map(x10_act, act.then))
            return f"for (k in 1..{act.tries}) if (open == 0) {{ {look} {seen} }}\nif (open == 1) {{ {then} }}"


def x10(model: Model) -> str:
    """The model as a source text: neighbours that do the same are started in a loop."""
    lines = [f"shared {name} = {number};" for name, number in model.shared.items()]
    lines += ["def main() {", "finish {", *(f"val k{c} = Clock.make();" for c in range(model.clocks))]
    for activity, same in itertools.groupby(model.activities):
        many = len(list(same))
        turns = f"for (turn in 1..{many}) " if many > 1 else ""
        on = "" if activity.clock is None else f" clocked(k{activity.clock})"
        lines += [f"{turns}async{on} {{", *(f"var {name} = 0;" for name in locals_of(activity.acts))]
        lines += [*map(x10_act, activity.acts), "}"]
    lines += [*(f"k{c}.drop();" for c in range(model.clocks)), "}"]
    lines += [f"val last{name} = {name}; Console.OUT.println(last{name});" for name in model.shown]
    return "\n".join([*lines, "}", ""])


# ---- Promela


def promela_act(act: Act, clock: int | None) -> str:
    match act:
        case Read(local, shared):
            return f"{local} = {shared};"
        case Write(shared, value):
            return f"{shared} = {value};"
        case Print(value):
            return f"PRINT({value});"
        case Advance():
            return f"ADVANCE({clock});"
        case Wait():
            seen = f"if :: zero == 0 || other == {act.number} -> open = 1 :: else fi"
            look = f"if :: open == 0 -> zero = {act.zero}; other = {act.other}; {seen} :: else fi"
            then = " ".join(promela_act(each, clock) for each in act.then)
            return f"for (k : 1 .. {act.tries}) {{ {look} }}\nif :: open == 1 -> {then} :: else fi;"


def promela_activity(number: int, activity: Activity) -> Iterator[str]:
    yield f"proctype A{number}() {{"
    yield "byte k; byte now_in;"
    yield from (f"short {name};" for name in locals_of(activity.acts))
    yield from (promela_act(act, activity.clock) for act in activity.acts)
    yield "END }" if activity.clock is None else f"END_ON({activity.clock}) }}"


def promela(model: Model) -> str:
    """The model for SPIN, with bench/spin/clocks.h."""
    lines = [f"#define NUMBERS {max(1, model.prints)}", f"#define CLOCKS {max(1, model.clocks)}", '#include "clocks.h"']
    lines += [f"short {name} = {number};" for name, number in model.shared.items()]
    for number, activity in enumerate(model.activities):
        lines += promela_activity(number, activity)
    on = [sum(each.clock == c for each in model.activities) for c in range(model.clocks)]
    registered = " ".join(f"registered[{c}] = {count};" for c, count in enumerate(on))
    started = " ".join(f"run A{number}();" for number in range(len(model.activities)))
    lines += ["init { short last;", f"d_step {{ {registered} left = {len(model.activities) + 1} }}"]
    lines += [f"atomic {{ {started} }}", "left == 1;"]
    lines += [f"last = {name}; PRINT(last);" for name in model.shown]
    return "\n".join([*lines, "END }", "WATCH", ""])


# ---- the models


def cells(count: int) -> dict[str, int]:
    return {f"c{k}": k + 1 for k in range(count)}


def lost_update(activities: int) -> Model:
    """Each reads a number, adds one, and writes it."""
    acts = (Read("x", "s"), Write("s", "x + 1"))
    return Model({"s": 0}, [Activity(acts) for _ in range(activities)], shown=("s",))


def stencil(count: int, rounds: int, has_barriers: bool) -> Model:
    """In a ring, each becomes the sum of its neighbours; with barriers all have read before one writes."""
    clock, barrier = (0, (Advance(),)) if has_barriers else (None, ())
    activities = list[Activity]()
    for k in range(count):
        reads = (Read("x", f"c{(k - 1) % count}"), Read("y", f"c{(k + 1) % count}"))
        acts = (*reads, *barrier, Write(f"c{k}", "x + y"), *barrier) * rounds
        activities.append(Activity(acts, clock))
    return Model(cells(count), activities, clocks=int(has_barriers), shown=tuple(cells(count)))


def phases_apart(count: int, phases: int) -> Model:
    """Each counts for itself, phase by phase."""
    own = ((Read("x", f"c{k}"), Write(f"c{k}", "x + 1"), Advance()) * phases for k in range(count))
    return Model(cells(count), [Activity(acts, 0) for acts in own], clocks=1, shown=tuple(cells(count)))


def readers_and_writer(readers: int, phases: int) -> Model:
    """One writes a number in each second phase, and the others read it in those between, and add it up."""
    write = (Read("x", "s"), Write("s", "x + 1"), Advance(), Advance())
    activities = [Activity(write * phases, 0)]
    for k in range(readers):
        read = (Advance(), Read("x", "s"), Read("y", f"c{k}"), Write(f"c{k}", "x + y"), Advance())
        activities.append(Activity(read * phases, 0))
    return Model({"s": 0, **cells(readers)}, activities, clocks=1, shown=tuple(cells(readers)))


def prefix_sums(count: int) -> Model:
    """Each adds the number that is 1, 2, 4, .. before its own."""
    strides = [1 << k for k in range((count - 1).bit_length())]
    activities = list[Activity]()
    for k in range(count):
        acts = list[Act]()
        for stride in strides:
            is_far = k >= stride
            acts += [Read("x", f"c{k}"), Read("y", f"c{k - stride}")] if is_far else []
            acts += [Advance(), *([Write(f"c{k}", "x + y")] if is_far else []), Advance()]
        activities.append(Activity(tuple(acts), 0))
    return Model(cells(count), activities, clocks=1, shown=tuple(cells(count)))


def token_ring(count: int, turns: int) -> Model:
    """One after the other adds to a number and prints it, a phase each."""
    own = (Read("x", "s"), Write("s", "x + 1"), Print("x"), Advance())
    activities = list[Activity]()
    for k in range(count):
        turn = (*(Advance(),) * k, *own, *(Advance(),) * (count - 1 - k))
        activities.append(Activity(turn * turns, 0))
    return Model({"s": 0}, activities, clocks=1)


def bank(transfers: int) -> Model:
    """Each takes one from an account and gives it to the next of three, by reads and writes."""
    activities = list[Activity]()
    for k in range(transfers):
        giver, taker = f"c{k % 3}", f"c{(k + 1) % 3}"
        take, give = (Read("x", giver), Write(giver, "x - 1")), (Read("y", taker), Write(taker, "y + 1"))
        activities.append(Activity((*take, *give)))
    accounts = dict.fromkeys(("c0", "c1", "c2"), 10)
    return Model(accounts, activities, shown=tuple(accounts))


def barriers(count: int, phases: int) -> Model:
    """All print who they are in each phase."""
    own = [tuple(act for p in range(phases) for act in (Print(str(10 * p + k)), Advance())) for k in range(count)]
    return Model({}, [Activity(acts, 0) for acts in own], clocks=1)


def producers_and_consumers(pairs: int, items: int) -> Model:
    """Each pair has a clock: one writes a number, and the other prints it in the next phase."""
    activities = list[Activity]()
    for k in range(pairs):
        writes = (act for item in range(1, items + 1) for act in (Write(f"b{k}", str(item)), Advance(), Advance()))
        prints = (Advance(), Read("x", f"b{k}"), Print(f"{100 * k} + x"), Advance())
        activities += [Activity(tuple(writes), k), Activity(prints * items, k)]
    return Model({f"b{k}": 0 for k in range(pairs)}, activities, clocks=pairs)


def peterson(tries: int) -> Model:
    """Two who shut each other out by flags and a turn, and give up after so many looks; who comes in prints so."""
    activities = list[Activity]()
    for who in range(2):
        inside = (Read("x", "n"), Write("n", "x + 1"), Print(f"{who} + 2 * x"), Write(f"flag{who}", "0"))
        begin = (Write(f"flag{who}", "1"), Write("turn", str(1 - who)))
        activities.append(Activity((*begin, Wait(tries, f"flag{1 - who}", "turn", who, inside))))
    return Model({"flag0": 0, "flag1": 0, "turn": 0, "n": 0}, activities)


MODELS = {
    "lost update, 6": lost_update(6),
    "Peterson, 8 tries": peterson(8),
    "stencil with barriers, 6 x 4": stencil(6, 4, has_barriers=True),
    "stencil without, 4 x 2": stencil(4, 2, has_barriers=False),
    "phases apart, 8 x 8": phases_apart(8, 8),
    "6 readers and a writer, 4 phases": readers_and_writer(6, 4),
    "prefix sums, 8": prefix_sums(8),
    "token ring, 6 x 3": token_ring(6, 3),
    "bank, 4": bank(4),
    "bank, 5": bank(5),
    "all print at barriers, 4 x 3": barriers(4, 3),
    "3 producers and consumers, 3 items": producers_and_consumers(3, 3),
}
