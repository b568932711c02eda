#!/usr/bin/env python3
"""Writes the tables of docs/PERFORMANCE.md from the results of the scripts here, which bench/results/ keeps.

    python3 -m bench.tables [TOP]            writes them
    python3 -m bench.tables --check [TOP]    says whether they are as it would write them

Which rows there are, and what they are called, is said here. A figure that the results don't have is a fault, but for a
call of bench/looks.py, whose cell is empty then. Notes of the results are under the table.
"""

from __future__ import annotations

import sys
from collections.abc import Callable, Iterator
from pathlib import Path

from bench.by_hand import ORDERS
from bench.instructions import ROWS as INSTRUCTIONS
from bench.results import Figures, figures, notes
from tests.prover.tables import Fault, Part, filled, main, row

PAGE = "docs/PERFORMANCE.md"
FOLDER = Path("bench/results")
# The rows of a table: what the script printed, as it is called there.
Results = dict[str, Figures]
# Less is not said of what is printed.
LEAST_BYTES = 100_000

BESIDE = (
    ("100 million local steps, two loops", ORDERS),
    ("10 million local steps of 100 activities", ("round",)),
    ("10 million calls of a method", ("first",)),
    ("10 million finishes opened and closed", ("first",)),
    ("99,999 starts", ("round",)),
    ("99,999 starts under one finish", ("round",)),
    ("100 activities on a clock, 10,000 phases", ("last", "round")),
)
LIMITED = "20,000 local steps, two loops with a limit"
# What a row is called on the page, and in the results.
LOGS = (
    ("one activity, a sum in two loops", "1,000,000 steps of one activity"),
    ("the same", "10,000,000 steps of one activity"),
    ("100 activities in step, 10,000 phases", "100 activities in step, 10,000 phases"),
    ("2 activities in step, 1,000,000 phases", "2 activities in step, 1,000,000 phases"),
    ("10,000 clocks in turn, each with one phase", "10,000 clocks, one after the other"),
)
WHOLE_TEXTS = (
    ("1,015 methods of seven loops and branches each", "methods"),
    ("7,000 expressions of 55 parentheses in one another", "expressions"),
    ("1,022 methods that call each other, 91,604 calls", "calls"),
)
# Texts that are no programs: those that take about the same are told of together.
OTHER_TEXTS = (
    (
        "1 MiB of `{`, `-` or `(` in `main`; of `/*` repeated, digits or one name",
        (("1 MiB of {", "1 MiB of -", "1 MiB of ("), ("1 MiB of /*", "1 MiB of digits", "1 MiB of one name")),
    ),
    ("1 MiB of `;` in `main`", (("1 MiB of ;",),)),
    ("1 MiB of `async;` in `main`: 174,760 units, and too many", (("1 MiB of async;",),)),
)
# Without V13 where the text itself is refused.
EXPLAINED = (
    ("the methods", "methods", ("F2", "V13")),
    ("the expressions", "expressions", ("F2", "V13")),
    ("the calls, refused (V14)", "calls", ("F2",)),
)
LOOKS = (
    ("64 in step, 500 phases: 63,254 events", "64 activities in step, 500 phases"),
    ("99,999 starts", "99,999 starts"),
    ("the same under one finish", "99,999 starts under one finish"),
    (
        "16 activities, 96,000 accesses kept apart by a clock",
        "16 activities, 2,000 turns of accesses kept apart by a clock",
    ),
    ("the same without the clock: 16 races", "16 activities, 2,000 turns of accesses that race"),
    (
        "two activities with 1,000 writes each, all in the text: more than 10,000 races",
        "two activities with 1,000 writes each",
    ),
)
FOUR_ADDERS = "three that read, add and write twice, and one that does so once"
OUTCOMES = (
    ("`joining-late`", "joining-late"),
    ("`two-groups`", "two-groups"),
    ("`leaving-early`", "leaving-early"),
    ("`stencil-without-a-barrier`", "stencil-without-a-barrier"),
    ("`tree-of-finishes`", "tree-of-finishes"),
    ("`teams-in-rounds`, which isn't whole within the usual limit", "teams-in-rounds"),
    ("sixty that print in three phases, not whole either", "sixty-writers"),
    (FOUR_ADDERS, "four-adders"),
)
SPIN = (
    ("`lost-updates`", "lost-updates"),
    ("`barriers`", "barriers"),
    ("`stencil-without-a-barrier`", "stencil-without-a-barrier"),
    ("`leaving-early`", "leaving-early"),
    ("`two-groups`", "two-groups"),
    ("`joining-late`", "joining-late"),
    (FOUR_ADDERS, "three-writers"),
)


WORLDS = "Model | Outcomes | Worlds | s | MB | SPIN's states | s | With reduction | s"


def seconds(*each: float) -> str:
    """Seconds with two digits, or with one from a second on."""
    digits = 1 if max(each) >= 0.995 else 2
    return ", ".join("under 0.01" if one < 0.005 else f"{one:.{digits}f}" for one in each)


def megabytes(size: float) -> str:
    """So many bytes in megabytes, below ten of them with a digit."""
    millions = size / 1e6
    return (f"{millions:.0f}" if millions >= 10 else f"{millions:.1f}".removesuffix(".0")) + " MB"


def spread(form: Callable[[float], str], each: list[float]) -> str:
    """The least and the greatest, or one where they look alike."""
    return " to ".join(dict.fromkeys((form(min(each)), form(max(each)))))


def rows_beside(found: Results) -> Iterator[list[str]]:
    """A row for each order, with the ratios over the builds."""
    for name, orders in BESIDE:
        for order in orders:
            one = found[f"{name}, {order}"]
            cells = ["the same" if order != orders[0] else name, order, f"{one['steps']:,.0f}"]
            cells += [f"{one[side]:.3f}" for side in ("ours", "by_hand")]
            yield [*cells, f"{one['ratio']:.2f}", f"{one['least']:.2f} to {one['most']:.2f}"]


def rows_of_instructions(found: Results) -> Iterator[list[str]]:
    """A row for each module: one count where it is the same in each order, and else millions."""
    for name, _, orders in INSTRUCTIONS:
        each = [found[f"{name}, {order}"] for order in orders]
        name += ", `round`" if orders == ("round",) else ""
        if all((one["ours"], one["by_hand"]) == (each[0]["ours"], each[0]["by_hand"]) for one in each):
            yield [name, *(f"{each[0][side]:,.0f}" for side in ("ours", "by_hand")), f"{each[0]['ratio']:.2f}"]
        else:
            ours, by_hand = (", ".join(f"{one[side] / 1e6:.1f}" for one in each) for side in ("ours", "by_hand"))
            yield [name, f"{ours} million", by_hand, ", ".join(f"{one['ratio']:.2f}" for one in each)]
        if name == INSTRUCTIONS[0][0]:
            yield ["the same, loops with a limit", f"{found[f'{LIMITED}, first']['ours']:,.0f}", "", ""]


def rows_of_workers(found: Results) -> Iterator[list[str]]:
    """The seconds of each module, with no worker and with some."""
    for name, one in found.items():
        yield [name, *(f"{one[way]:.2f}" for way in ("first", "workers_1", "workers_2", "workers_4"))]


def memory(held: float, run: float, replay: float, chart: float, drawn: float) -> str:
    """The most memory, where it is clearly more than what the measuring process held; the chart has so many bytes."""
    most, told = max(held + 1, run, replay), []
    if most > held + 1:
        told.append(f"{most:.0f} MB")
    if chart > most:
        told.append(f"chart of {megabytes(drawn)} {chart:.0f} MB")
    return ", ".join(told)


def rows_of_logs(found: Results) -> Iterator[list[str]]:
    """The seconds of each run and of what is done with its log, and its memory."""
    for name, run in LOGS:
        calls = {call: found[f"{run}: {call}"] for call in ("run", "run --log", "replay", "chart")}
        held = [found["this process"], calls["run --log"], calls["replay"], calls["chart"]]
        drawn, log = found[f"{run}: the chart"]["bytes"], found[f"{run}: a copy of the log"]["bytes"]
        cells = [name, f"{calls['run']['steps']:,.0f}", *(seconds(one["seconds"]) for one in calls.values())]
        yield [*cells, megabytes(log), memory(*(one["megabytes"] for one in held), drawn)]


def rows_of_texts(found: Results, counts: Results) -> Iterator[list[str]]:
    """Seconds and instructions of each text, and of the others by groups."""
    for name, text in WHOLE_TEXTS:
        size, count = counts[text]["bytes"], counts[text]["instructions"]
        cells = [f"{size:,.0f} bytes: {name}", seconds(found[text]["seconds"])]
        yield [*cells, f"{count / 1e6:.0f}, {count / size:.0f} a byte", f"{counts[text]['memory'] / 1e6:.0f}"]
    for name, groups in OTHER_TEXTS:
        took = [spread(seconds, [found[text]["seconds"] for text in group]) for group in groups]
        counted = [spread("{:.0f}".format, [counts[text]["instructions"] / 1e6 for text in group]) for group in groups]
        yield [name, "; ".join(took), "; ".join(counted), ""]


def printed(size: float) -> str:
    """How much was printed, where it is worth saying."""
    return f", prints {megabytes(size)}" if size >= LEAST_BYTES else ""


def rows_of_explain(found: Results) -> Iterator[list[str]]:
    """The seconds of `explain` beside those of `check`."""
    for name, text, faults in EXPLAINED:
        check, explain = found[f"{text}: check"], found[f"{text}: explain"]
        cells = [name, seconds(check["seconds"]), seconds(explain["seconds"]) + printed(explain["bytes"])]
        for fault in faults:
            both = (found[f"{text} with {fault}: {command}"]["seconds"] for command in ("check", "explain"))
            cells.append(seconds(*both))
        yield [*cells, *[""] * (5 - len(cells))]


def look_cell(one: Figures | None) -> str:
    """What a look took and printed, and whether that is all."""
    if one is None:
        return ""
    size, is_cut = one.get("bytes", 0), one.get("status") == 6
    told = [seconds(one["seconds"])] if "seconds" in one else []
    told += [megabytes(size)] if size >= LEAST_BYTES else []
    told += ["not whole" if size >= LEAST_BYTES else "too large"] if is_cut else []
    return ", ".join(told)


def page_cell(found: Results, run: str) -> str:
    """The page, or the one of 1,200 steps where only that can be drawn."""
    short = found.get(f"{run}: page --to 1200")
    is_drawn = short is not None and short["status"] == 0
    return f"{look_cell(short)} (1,200 steps)" if is_drawn else look_cell(found.get(f"{run}: page"))


def rows_of_looks(found: Results) -> Iterator[list[str]]:
    """What each look took and printed. Status 6 of `races` says that there are some, and not that a text is cut."""
    for name, run in LOOKS:
        events, lanes, where = (look_cell(found.get(f"{run}: {command}")) for command in ("events", "lanes", "where"))
        races = found.get(f"{run}: races")
        yield [name, events, lanes, page_cell(found, run), where, look_cell(races and {**races, "status": 0})]


def rows_of_outcomes(found: Results) -> Iterator[list[str]]:
    """How many outcomes and worlds a program has, and what the search took."""
    for name, program in OUTCOMES:
        one = found[f"{program}: outcomes"]
        lists = "more" if one["status"] == 6 else f"{one['lists']:,.0f}"
        yield [name, lists, f"{one['worlds']:,.0f}", seconds(one["seconds"]), f"{one['megabytes']:.0f}"]


def rows_of_spin(found: Results) -> Iterator[list[str]]:
    """What SPIN found, without reduction and with it."""
    for name, model in SPIN:
        one = found[model]
        counts = [f"{one[what]:,.0f}" for what in ("lists", "states", "reduced")]
        yield [name, *counts, seconds(one["seconds"], one["seconds_reduced"])]


def counted(one: Figures, what: str, seconds_of: str) -> list[str]:
    """A count and its seconds: those of a search that was given up aren't told."""
    return [f"{one[what]:,.0f}", seconds(one[seconds_of])] if what in one else ["more", ""]


def rows_of_worlds(found: Results, states: Results) -> Iterator[list[str]]:
    """What `outcomes` keeps of each model, and what SPIN stores, which has to find as many lists."""
    for name, one in found.items():
        beside = states.get(name)
        if beside and one.get("lists", 0) != beside.get("lists", one.get("lists", 0)) and "lists" in one:
            raise Fault(f"{PAGE}: worlds: {name} has {one['lists']:,.0f} lists, and SPIN {beside['lists']:,.0f}")
        lists = f"{one['lists']:,.0f}" if "lists" in one else "more"
        pairs = (("states", "seconds"), ("reduced", "seconds_reduced")) if beside else ()
        spins = [cell for what, seconds_of in pairs for cell in counted(beside or {}, what, seconds_of)]
        memory = f"{one['megabytes']:.0f}" if "worlds" in one else ""
        yield [name, lists, *counted(one, "worlds", "seconds"), memory, *(spins or [""] * 4)]


def part(name: str, head: str, make: Callable[..., Iterator[list[str]]], *files: str) -> Part:
    """A table, its head, and how its rows are made of some files of results."""

    def made(top: Path, _: str) -> str:
        paths = [top / FOLDER / f"{file}.txt" for file in files]
        try:
            rows = list(make(*(figures(path) for path in paths)))
        except KeyError as missing:
            raise Fault(f"{PAGE}: {name}: {' and '.join(files)} in {FOLDER}/ have no {missing}") from missing
        columns = head.split(" | ")
        lines = [row(columns), "|" + "---|" * len(columns), *map(row, rows)]
        below = [filled(note) for path in paths for note in notes(path, name)]
        return "\n\n".join(["\n".join(lines), *below])

    return Part(PAGE, name, made, "bench/tables.py")


PARTS = (
    part("beside", "Module | Order | Steps | Ours | By hand | Ratio | Over the builds", rows_beside, "beside"),
    part("instructions", "What | Ours | By hand | Ratio", rows_of_instructions, "instructions"),
    part("workers", "Program | `first` | 1 worker | 2 | 4", rows_of_workers, "workers"),
    part("logs", "Run | Steps | `run` | `run --log` | `replay` | `chart` | The log | Memory", rows_of_logs, "logs"),
    part("texts", "Text | Seconds | Million instructions | Of these, memory", rows_of_texts, "texts", "counts"),
    part("explain", "Text | `check` | `explain` | with F2 at its end | with V13", rows_of_explain, "looks"),
    part("looks", "Run | `events` | `lanes` | `page` | `where` | `races`", rows_of_looks, "looks"),
    part("outcomes", "Program | Outcomes | Worlds | Seconds | MB", rows_of_outcomes, "looks"),
    part("worlds", WORLDS, rows_of_worlds, "worlds", "models"),
    part("spin", "Program | Lists | States | With reduction | Seconds of both", rows_of_spin, "spin"),
)


if __name__ == "__main__":
    sys.exit(main(PARTS, __doc__))
