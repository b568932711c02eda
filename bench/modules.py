"""The modules that the machine written by hand and the program are measured on, each made when it is asked for."""

from __future__ import annotations

import json
from collections.abc import Iterable
from typing import Any

# A unit of a module, as JSON has it.
Unit = dict[str, Any]


def module(units: list[Unit], shared: Iterable[int] = (), version: int = 1) -> str:
    """The text of a module."""
    return json.dumps({"version": version, "shared": list(shared), "units": units}, separators=(",", ":"))


def unit(kind: str, slots: int, code: list[list[Any]], params: str = "") -> Unit:
    """A unit, with its code instruction by instruction: a name and operands."""
    return {"kind": kind, "params": params, "slots": slots, "code": code}


def counting(turns: int, inner: int = 5_000) -> str:
    """A loop in a loop: a sum, and the end of a turn; two steps for each turn of the inner one."""
    code = [
        ["lit", 2, 0],
        ["for", 0, 1, turns, 5],
        ["for", 1, 1, inner, 4],
        ["add", 2, 2, 1],
        ["next", 2],
        ["next", 1],
        ["print", 2],
        ["ret"],
    ]
    return module([unit("main", 3, code)])


def counting_to_limits(turns: int) -> str:
    """The same, in which both loops have a limit that is no less than their last number."""
    code = [
        ["lit", 3, turns + 5000],
        ["lit", 2, 0],
        ["forto", 0, 1, 3, turns, 6],
        ["forto", 1, 1, 3, 5000, 5],
        ["add", 2, 2, 1],
        ["next", 3],
    ]
    return module([unit("main", 4, [*code, ["next", 2], ["print", 2], ["ret"]])], version=2)


def beginning(turns: int) -> str:
    """A loop in a loop that takes one turn: its beginning, and with the end of a turn three steps."""
    code = [
        ["for", 0, 1, turns, 5],
        ["for", 1, 1, 5000, 4],
        ["for", 2, 1, 1, 3],
        ["next", 2],
        ["next", 1],
        ["next", 0],
        ["ret"],
    ]
    return module([unit("main", 3, code)])


def beginning_with_limits(turns: int) -> str:
    """The same, in which the loop of one turn has a limit."""
    code = [
        ["lit", 3, 1],
        ["for", 0, 1, turns, 6],
        ["for", 1, 1, 5000, 5],
        ["forto", 2, 1, 3, 1, 4],
        ["next", 3],
        ["next", 2],
        ["next", 1],
        ["ret"],
    ]
    return module([unit("main", 4, code)], version=2)


def counting_beside(count: int, turns: int) -> str:
    """So many activities, each with such a loop."""
    body = [
        ["lit", 2, 0],
        ["for", 0, 1, turns, 5],
        ["for", 1, 1, 5000, 4],
        ["add", 2, 2, 1],
        ["next", 2],
        ["next", 1],
        ["ret"],
    ]
    main = [["for", 0, 1, count, 2], ["spawn", 1, []], ["next", 0], ["ret"]]
    return module([unit("main", 1, main), unit("body", 3, body)])


def calling(turns: int) -> str:
    """A loop in a loop that calls a method with a number: the call, a sum, the `ret` and the end of a turn are four
    steps."""
    code = [["for", 0, 1, turns, 4], ["for", 1, 1, 5000, 3], ["call", 1, [1]], ["next", 1], ["next", 0], ["ret"]]
    return module([unit("main", 2, code), unit("method", 2, [["add", 1, 0, 0], ["ret"]], "n")])


def finishing(turns: int) -> str:
    """A loop in a loop that opens a finish and closes it: with the end of a turn three steps."""
    code = [
        ["for", 0, 1, turns, 5],
        ["for", 1, 1, 5000, 4],
        ["finish", 3],
        ["endfinish", 2],
        ["next", 1],
        ["next", 0],
        ["ret"],
    ]
    return module([unit("main", 2, code)])


def gathering(count: int) -> str:
    """A loop that waits in each turn for an activity that it starts, in a finish of its own."""
    code = [["for", 0, 1, count, 4], ["finish", 3], ["spawn", 1, []], ["endfinish", 1], ["next", 0], ["ret"]]
    return module([unit("main", 1, code), unit("body", 0, [["ret"]])])


def starting(count: int) -> str:
    """A loop that starts an activity in each turn: `for (i in 1..count) async { }`. Its steps are two for each turn,
    one for each activity, and two."""
    return module(
        [unit("main", 1, [["for", 0, 1, count, 2], ["spawn", 1, []], ["next", 0], ["ret"]]), unit("body", 0, [["ret"]])]
    )


def starting_in_finish(count: int) -> str:
    """The same with a finish round the loop, and a shared number to which each activity adds one."""
    main = [
        ["finish", 4],
        ["for", 0, 1, count, 3],
        ["spawn", 1, []],
        ["next", 1],
        ["endfinish", 0],
        ["get", 0, 0],
        ["print", 0],
        ["ret"],
    ]
    return module([unit("main", 1, main), unit("body", 1, [["lit", 0, 1], ["addto", 0, 0], ["ret"]])], [0])


def in_step(activities: int, phases: int) -> str:
    """Activities on one clock, main among them, and how often each of them advances."""
    body = [["for", 1, 1, phases, 2], ["advance"], ["next", 0], ["ret"]]
    main = [["make", 0], ["for", 1, 2, activities, 3], ["spawn", 1, [0]], ["next", 1]]
    main += [["for", 2, 1, phases, 6], ["advance"], ["next", 4], ["ret"]]
    return module([unit("main", 3, main), unit("body", 2, body, "c")])


def ring(activities: int, phases: int) -> str:
    """A ring: each activity is registered on two clocks, of which each neighbour has one. A method makes a clock,
    starts an activity on the clock before and this one, and calls the next method; the last one closes the ring."""
    body, chain = activities - 1, activities - 3
    units = [unit("main", 2, [["make", 0], ["make", 1], ["spawn", body, [0, 1]], ["call", 1, [0, 1]], ["ret"]])]
    for number in range(1, chain + 1):
        code = [["make", 2], ["spawn", body, [1, 2]], ["call", number + 1, [0, 2]], ["drop", 2], ["ret"]]
        units.append(unit("method", 3, code, "cc"))
    units.append(
        unit("method", 3, [["make", 2], ["spawn", body, [1, 2]], ["spawn", body, [2, 0]], ["drop", 2], ["ret"]], "cc")
    )
    units.append(unit("body", 3, [["for", 2, 1, phases, 2], ["advance"], ["next", 0], ["ret"]], "cc"))
    return module(units)


def clocks_in_turn(count: int) -> str:
    """A clock in each turn, which advances once and is dropped."""
    return module(
        [unit("main", 2, [["for", 0, 1, count, 4], ["make", 1], ["advance"], ["drop", 1], ["next", 0], ["ret"]])]
    )


def clocks_then_activities(clocks: int, activities: int) -> str:
    """Clocks that are made and dropped at once, and then activities."""
    code = [
        ["for", 0, 1, clocks, 3],
        ["make", 1],
        ["drop", 1],
        ["next", 0],
        ["for", 0, 1, activities, 6],
        ["spawn", 1, []],
        ["next", 4],
        ["ret"],
    ]
    return module([unit("main", 2, code), unit("body", 0, [["ret"]])])


def clocks_beside_activities(count: int, phases: int) -> str:
    """Activities, each with a clock of its own that advances."""
    body = [["make", 0], ["for", 1, 1, phases, 3], ["advance"], ["next", 1], ["drop", 0], ["ret"]]
    return module(
        [unit("main", 1, [["for", 0, 1, count, 2], ["spawn", 1, []], ["next", 0], ["ret"]]), unit("body", 2, body)]
    )


def waiting(count: int, phases: int) -> str:
    """Activities that wait for main on one clock, while two others advance on another one."""
    slow = [["advance"], ["ret"]]
    fast = [["for", 1, 1, phases, 2], ["advance"], ["next", 0], ["ret"]]
    main = [["make", 0], ["make", 1], ["for", 2, 1, count, 4], ["spawn", 1, [0]], ["next", 2]]
    main += [["spawn", 2, [1]], ["spawn", 2, [1]], ["drop", 1], ["advance"], ["ret"]]
    return module([unit("main", 3, main), unit("body", 1, slow, "c"), unit("body", 2, fast, "c")])


ALL, FIRST, LAST, ROUND = ("first", "last", "round"), ("first",), ("last",), ("round",)

# What is in a row, its module, and the orders in which it is run.
ROWS = [
    ("100 million local steps, two loops", lambda: counting(9999), ALL),
    ("10 million local steps of 100 activities", lambda: counting_beside(100, 10), ALL),
    ("10 million calls of a method", lambda: calling(2000), FIRST),
    ("10 million finishes opened and closed", lambda: finishing(2000), FIRST),
    ("64,000 activities, each in a finish of its own", lambda: gathering(64_000), ALL),
    ("99,999 starts under one finish", lambda: starting_in_finish(99_999), ALL),
    ("99,999 starts", lambda: starting(99_999), ALL),
    ("100 activities on a clock, 10,000 phases", lambda: in_step(100, 10_000), ALL),
    ("a ring of 90 activities, 2,000 phases", lambda: ring(90, 2_000), ALL),
    ("100,000 clocks, one after the other", lambda: clocks_in_turn(100_000), FIRST),
    ("10,000 clocks made and dropped, then 5,000 activities", lambda: clocks_then_activities(10_000, 5_000), ALL),
    ("10,000 activities, each with a clock of 10 phases", lambda: clocks_beside_activities(10_000, 10), ALL),
    ("50,000 wait on a clock, another one has 2,000 phases", lambda: waiting(50_000, 2_000), LAST),
]
