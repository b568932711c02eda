#!/usr/bin/env python3
"""Whether the program gets along with the memory that docs/RELIABILITY.md says it can want at most, on the worst
programs that are known.

    python3 -m tests.program.wants [--program PATH] [--least] [--only WORD]

crates/x10clock/out/x10clock where nothing else is said. Each call has an address space of no more than what the formula
says of it, and has to be answered as with ample memory. With `--least` the least address space in which it is answered
so is told beside it, found by halving; with `--only` these are the calls of one command.
"""

from __future__ import annotations

import argparse
import json
import pathlib
import resource
import sys
import tempfile
from collections.abc import Iterator
from dataclasses import dataclass

from tests import harness
from tests.harness import Ended
from tests.reference import modules, source

MEGABYTE = 1_000_000
# What the program takes before it looks at anything.
START = 7 * MEGABYTE
LONGEST_TEXT = 1 << 20
# The status of an answer that isn't whole, or is a no.
NOT_WHOLE = 6
# So many bytes for each byte of a JSON value, whose parts are all there before the first is written.
TIMES_VALUE = 38
# How long a call may take: these are the largest.
SECONDS = 2 * harness.SECONDS


@dataclass(frozen=True)
class Call:
    """A call of the program, and how many bytes it can want: so many, and so many for each byte that it prints."""

    name: str
    words: list[object]
    least: int
    times: int = 0

    def most(self, whole: Ended) -> int:
        """What it can want, by what it prints with ample memory."""
        return self.least + self.times * len(whole.out)


# The formulas.


def to_read(text: bytes) -> int:
    """What reading and compiling a source text can want."""
    return START + 260 * len(text)


def to_read_module(text: bytes) -> int:
    return START + 140 * len(text)


def to_verify(module: modules.Module) -> int:
    """What the verifier can want: each unit is looked at with all of its slots at all of its instructions."""
    return sum(8 * len(unit.code) * max(unit.slots, 4) for unit in module.units)


def to_start(found: modules.Accepted) -> int:
    """What an activity can want."""
    given = max(unit.params.count("c") for unit in found.module.units)
    return 210 + 9 * found.bounds.stack + 16 * given


def to_run(found: modules.Accepted) -> int:
    """A clock has two numbers and a place in the list of one that is registered on it: who makes it, or who is given it
    at a start."""
    return found.bounds.activities * to_start(found) + 64 * found.bounds.clocks


def to_log(entries: int) -> int:
    return 16 * entries


def to_take_rounds(found: modules.Accepted) -> int:
    """Its log, and who can step when a round begins."""
    return to_log(found.bounds.steps) + 4 * found.bounds.activities


def to_print(numbers: int) -> int:
    return 16 * numbers


def to_chart(advances: int) -> int:
    """Twice the text, of which a line has some 38 bytes here."""
    return 2 * 40 * advances


def to_events(steps: int) -> int:
    """Four times the text, of which a line has some 40 bytes here, and what the steps of a source text were about."""
    return (4 * 40 + 90) * steps


def to_lanes(steps: int) -> int:
    """Twice the text, of which a row has some 28 bytes here, the lists of the steps that others see and of those that
    are drawn, and what the steps of a source text were about."""
    return (2 * 28 + 128 + 90) * steps


def to_search(found: modules.Accepted, worlds: int, steps: int) -> int:
    """What is known of worlds and of ways of one step from them, the worlds that are looked at, and those that are kept
    whole."""
    return 90 * worlds + 118 * steps + 4 * to_run(found) + 100_000 * to_start(found)


def to_list(text: str) -> int:
    """Three times the text of a list of outcomes, as it grows, and three times 16 for each of its lines."""
    return 3 * len(text) + 48 * text.count("\n")


def to_draw(steps: int) -> int:
    """The lists of the steps that others see, with what they were about, and of their rows."""
    return (128 + 90) * steps


def to_stand(activities: int) -> int:
    """Whom each activity awaits: eight of them, how many there are, and whether its governor does."""
    return 90 * activities


def to_reason(makings: int, steps: int) -> int:
    """What each step makes of what, also those that nobody else sees, and the steps that others see."""
    return 900 * makings + 220 * steps


def to_tally(lists: int, numbers: int) -> int:
    """A list has its numbers, their length and room, a seed, and how often it was printed."""
    return 160 * lists + to_print(numbers)


def to_order(activities: int, deeds: int, races: int) -> int:
    """What each activity knows of each other one, and of so many clocks, finishes, accesses and prints; these and the
    advances; the races, and of those that are printed the steps, with what they were about."""
    return 8 * activities * (activities + deeds) + 450 * deeds + 300 * races + 800 * min(races, 10_000)


def to_chain(steps: int) -> int:
    """The longest chain up to each step, also of those that nobody else sees, and which deed comes right before it."""
    return 270 * steps


def to_mark(steps: int) -> int:
    """The round of each step, and the steps of a critical path, with which these are."""
    return 200 * steps


# The programs.


def filled(piece: str, before: str = "def main(){", behind: str = "}") -> str:
    """A text as long as it may be."""
    return before + piece * ((LONGEST_TEXT - len(before) - len(behind)) // len(piece)) + behind


def chain(depth: int) -> str:
    """Methods of sixty slots, each of which calls the next one."""
    slots = "".join(f"var v{k}=0;" for k in range(60))
    return "".join(f"def m{i}(){{{slots}{f'm{i + 1}();' if i + 1 < depth else ''}}}" for i in range(depth))


def chain_of_clocks(depth: int) -> str:
    """The same, but that the slots have clocks."""
    makes, drops = "".join(f"val c{k}=Clock.make();" for k in range(60)), "".join(f"c{k}.drop();" for k in range(60))
    return "".join(f"def m{i}(){{{makes}{f'm{i + 1}();' if i + 1 < depth else ''}{drops}}}" for i in range(depth))


def texts() -> Iterator[tuple[str, str]]:
    """Texts that are large in each way."""
    yield "statements of one sign", filled(";")
    yield "activities", filled("async;")
    yield "blocks", filled("{}")
    yield "hidden clocks", filled("clocked finish;")
    yield "nested activities", filled("async " * 60 + ";")
    yield "calls", filled("f();", "def f(){}def main(){")
    yield "methods", "".join(f"def f{i}(){{}}" for i in range(70_000)) + "def main(){}"
    yield "names", "def main(){" + "".join(f"val a{i}=1;" for i in range(70_000)) + "}"
    resumes = "".join(f"val c{k}=Clock.make();" for k in range(60)) + "if(1==1)c0.resume();" * 1_000
    yield "clocks at all places", "".join(f"def m{i}(){{{resumes}}}" for i in range(40)) + "def main(){}"


def refused_texts() -> Iterator[tuple[str, str]]:
    """Texts that are as long as they may be, with a walk to tell of a fault of their last method, or a fault of theirs
    at their end."""
    wrong = "def main(){val c=Clock.make();c.drop();c.resume();}"
    for piece in (";", "x=1;", "f();", "{}", "if(1<2);", "Clock.advanceAll();", "finish;"):
        methods = "def f(){}" + "".join(f"def m{i}(){{var x=0;{piece * (980 // len(piece))}}}" for i in range(1_000))
        yield f"methods of {piece}", methods + " " * (LONGEST_TEXT - len(methods) - len(wrong)) + wrong
    yield "a long walk", "def main(){val c=Clock.make();" + "Clock.advanceAll();" * 4_000 + "c.drop();c.resume();}"
    yield "a fault at the end", filled("{}", behind="x=1;}")
    yield "one line of a fault", filled(" ", behind="x=1;}")


def large_modules() -> Iterator[tuple[str, object]]:
    """Module texts that are large: values that are none, and units in which all slots may be of all kinds."""
    yield "objects of nothing", "[" + ",".join(['{"":0}'] * 100_000) + "]"
    yield "brackets", "[" + ",".join(["[]"] * 300_000) + "]"
    # Each clock is resumed, or dropped, or neither, on some way to each place.
    code = [["lit", 63, 0]] + [["make", slot] for slot in range(63)]
    for slot in range(63):
        at = len(code)
        code += [["unless", "eq", 63, 63, at + 3], ["resume", slot], ["unless", "eq", 63, 63, at + 4], ["drop", slot]]
    code += [["unless", "eq", 63, 63, min(place + 2, 4_095)] for place in range(len(code), 4_095)] + [["ret"]]
    unit = {"kind": "body", "params": "", "slots": 64, "code": code}
    main = {"kind": "main", "params": "", "slots": 0, "code": [["ret"]]}
    yield "units of all kinds", {"version": 1, "shared": [], "units": [main] + [unit] * 8}


def runs() -> Iterator[tuple[str, list[str], str]]:
    """Programs whose runs want much, and the words for that."""
    deep, wide = chain(62), "for(i in 1..5000){val c=Clock.make();c.drop();}"
    makes, clocks = "".join(f"val c{k}=Clock.make();" for k in range(60)), ",".join(f"c{k}" for k in range(60))
    yield "deep stacks", ["--order", "last"], deep + "def main(){for(i in 1..3000)async m0();}"
    yield "deep stacks and clocks", ["--order", "last"], f"{deep}def main(){{{wide}for(i in 1..3000)async m0();}}"
    yield "clocks in deep stacks", ["--order", "last"], chain_of_clocks(62) + "def main(){for(i in 1..26)async m0();}"
    yield "activities on many clocks", [], f"def main(){{{makes}for(i in 1..20000)async clocked({clocks});}}"
    yield "activities", [], "def main(){for(i in 1..99999)async;}"
    yield (
        "activities on a clock",
        [],
        "def main(){val c=Clock.make();for(i in 1..99999)async clocked(c)Clock.advanceAll();Clock.advanceAll();}",
    )
    yield "clocks", [], "def main(){for(i in 1..100000){val c=Clock.make();c.drop();}}"
    yield "clocks at once", [], "def main(){for(i in 1..50000)async{val c=Clock.make();Clock.advanceAll();}}"
    yield "activities by rounds", ["--order", "greedy"], "def main(){for(i in 1..99999)async;}"
    yield "steps by rounds", ["--order", "greedy"], "def main(){for(i in 1..2200000);}"
    yield "workers", ["--workers", "4"], "def main(){for(i in 1..99999)async;}"


def judged(text: str) -> modules.Accepted:
    found = source.judge(text.encode())
    assert isinstance(found, modules.Accepted), found
    return found


class Calls:
    """The calls, their texts in a folder."""

    def __init__(self, folder: pathlib.Path) -> None:
        self.folder = folder

    def file(self, text: str) -> pathlib.Path:
        path = self.folder / "text"
        path.write_text(text)
        return path

    def of_texts(self) -> Iterator[Call]:
        for name, text in texts():
            verify = 8 * 1_100 * 64 * 41 if "places" in name else 0
            for command in ("check", "compile", "explain"):
                yield Call(f"{command}, {name}", [command, self.file(text)], to_read(text.encode()) + verify)
            if name in ("statements of one sign", "clocks at all places"):
                yield Call(f"listing, {name}", ["listing", self.file(text)], to_read(text.encode()) + verify)
            if name == "clocks at all places":
                yield Call(
                    f"explain --json, {name}", ["explain", "--json", self.file(text)], to_read(text.encode()) + verify
                )

    def of_refused_texts(self) -> Iterator[Call]:
        for name, text in refused_texts():
            yield Call(f"explain, {name}", ["explain", self.file(text)], to_read(text.encode()))
            if name == "a long walk":
                yield Call(f"explain --json, {name}", ["explain", "--json", self.file(text)], to_read(text.encode()))

    def of_modules(self) -> Iterator[Call]:
        for name, value in large_modules():
            text = value if isinstance(value, str) else json.dumps(value, separators=(",", ":"))
            verify = 0 if isinstance(value, str) else to_verify(modules.read_module(text.encode()))
            yield Call(
                f"check --module, {name}",
                ["check", "--module", self.file(text)],
                to_read_module(text.encode()) + verify,
            )

    def of_runs(self) -> Iterator[Call]:
        for name, words, text in runs():
            found = judged(text)
            most = to_read(text.encode()) + to_verify(found.module) + to_run(found)
            most += 4 * 12 * MEGABYTE if "--workers" in words else 0
            most += to_take_rounds(found) if "greedy" in words else 0
            yield Call(f"run, {name}", ["run", *words, self.file(text)], most)

    def of_logs(self) -> Iterator[Call]:
        log = self.folder / "log"
        text = "def main(){for(i in 1..2200000);}"
        small = to_read(text.encode()) + to_run(judged(text))
        yield Call("run --log, 2,200,000 steps", ["run", "--log", log, self.file(text)], small + to_log(2_200_002))
        yield Call("replay, 2,200,000 steps", ["replay", self.file(text), log], small + to_log(2_200_002))
        # Somewhat more than a power of two, so that half of the room is empty.
        text = "def main(){for(i in 1..1050000)Console.OUT.println(0-9223372036854775807);}"
        small = to_read(text.encode()) + to_run(judged(text))
        yield Call("run, 1,050,000 numbers", ["run", self.file(text)], small + to_print(1_050_000))
        text = "def main(){for(i in 1..300000)Console.OUT.println(i);}"
        small = to_read(text.encode()) + to_run(judged(text))
        yield Call(
            "run --log, 300,000 prints",
            ["run", "--log", log, self.file(text)],
            small + to_log(600_002) + to_print(300_000),
        )
        yield Call(
            "events, 300,000 prints", ["events", self.file(text), log], small + to_log(600_002) + to_events(300_001)
        )
        yield Call(
            "lanes, 300,000 prints", ["lanes", self.file(text), log], small + to_log(600_002) + to_lanes(300_001)
        )
        text = (
            "def main(){"
            + "".join(f"val c{k}=Clock.make();" for k in range(60))
            + "for(i in 1..15000)Clock.advanceAll();}"
        )
        small = to_read(text.encode()) + to_run(judged(text))
        yield Call("run --log, 900,000 advances", ["run", "--log", log, self.file(text)], small + to_log(45_062))
        yield Call(
            "chart, 900,000 advances", ["chart", self.file(text), log], small + to_log(45_062) + to_chart(900_000)
        )

    def small(self, text: str) -> int:
        """What reading a text and running its program can want."""
        found = judged(text)
        return to_read(text.encode()) + to_verify(found.module) + to_run(found)

    def logged(self, name: str, text: str, numbers: int = 0) -> Call:
        """A call that leaves the log of a run of this text, which has as many entries as steps, and prints so many
        numbers."""
        words = ["run", "--log", self.folder / "log", self.file(text)]
        most = self.small(text) + to_log(judged(text).bounds.steps) + to_print(numbers)
        return Call(f"run --log, {name}", words, most)

    def on_log(self, words: list[object], name: str, text: str, most: int) -> Call:
        """A call on this text and that log, which can want so much and four times what it prints, or more of a JSON
        value."""
        path, entries = self.file(text), to_log(judged(text).bounds.steps)
        told, times = " ".join(str(word) for word in words), TIMES_VALUE if "--json" in words else 4
        return Call(f"{told}, {name}", [*words, path, self.folder / "log"], self.small(text) + entries + most, times)

    def of_where(self) -> Iterator[Call]:
        """How things are where there are many clocks; where many wait for one; where many are registered on many; where
        one waits for many; after many entries."""
        makes, clocks = "".join(f"val c{k}=Clock.make();" for k in range(60)), ",".join(f"c{k}" for k in range(60))
        last = "Clock.advanceAll();"
        every = "".join(f"{who} 1\n" for who in range(1, 60_001))
        for name, text, log in (
            (
                "100,000 clocks",
                "def main(){val d=Clock.make();for(i in 1..99999){val c=Clock.make();c.drop();}"
                f"async clocked(d){last}{last}}}",
                f"x10log 1\n0 {3 * 99_999 + 3}\n1 1\nend 2\n",
            ),
            (
                "60,000 activities on a clock",
                f"def main(){{val c=Clock.make();for(i in 1..60000)async clocked(c){last}{last}}}",
                f"x10log 1\n0 {2 * 60_000 + 2}\n{every}end 60001\n",
            ),
            (
                "20,000 activities on 60 clocks",
                f"def main(){{{makes}for(i in 1..20000)async clocked({clocks}){last}}}",
                f"x10log 1\n0 {2 * 20_000 + 61}\nend 1\n",
            ),
            (
                "60,000 activities in a finish",
                "def main(){finish for(i in 1..60000)async for(j in 1..2);}",
                f"x10log 1\n0 {2 * 60_000 + 2}\nend 1\n",
            ),
            (
                "2,200,000 entries",
                "def main(){for(i in 1..2200000);}",
                "x10log 1\n" + "0 1\n" * 2_200_000 + "end 2200000\n",
            ),
        ):
            (self.folder / "log").write_text(log)
            yield self.on_log(["where"], name, text, to_stand(judged(text).bounds.activities))
            yield self.on_log(["where", "--json"], name, text, to_stand(judged(text).bounds.activities))

    def of_reasons(self) -> Iterator[Call]:
        """Somewhat more makings than a power of two, of a step that rests on nearly all, and of one that rests on none;
        many places that are wanted at once."""
        adds = "shared s=0;def main(){for(i in 1..133000)atomic s=s+1;val r=s;Console.OUT.println(r);}"
        sums = "def main(){for(i in 1..133000);Console.OUT.println(1);}"
        ends = "def main(){finish for(i in 1..3000)async;}"
        for name, text, step, makings, seen in (
            ("133,000 additions", adds, 2, 266_003, 133_003),
            ("133,000 additions", adds, -1, 266_003, 133_003),
            ("133,000 turns", sums, -1, 133_003, 2),
            ("3,000 ends", ends, -1, 6_002, 6_003),
        ):
            yield self.logged(name, text, 1)
            # The print, or the end of the finish, is the last step but one; an addition is the second.
            path, entries = self.file(text), to_log(judged(text).bounds.steps)
            asked = step if step > 0 else judged(text).bounds.steps - 1
            most = self.small(text) + entries + to_reason(makings, seen)
            yield Call(f"why {asked}, {name}", ["why", path, self.folder / "log", asked], most, 4)

    def of_tallies(self) -> Iterator[Call]:
        """One long list, a list again and again, and many lists."""
        for runs, lists, numbers, body in (
            (1, 1, 1_050_000, "for(i in 1..1050000)Console.OUT.println(0-9223372036854775807);"),
            (100, 1, 50_000, "for(i in 1..50000)Console.OUT.println(i);"),
            (9_000, 9_000, 81_000, "for(i in 1..9)async Console.OUT.println(i);"),
        ):
            text = f"def main(){{{body}}}"
            words = ["run", "--order", "random", "--runs", runs, self.file(text)]
            yield Call(f"run --runs {runs}", words, self.small(text) + to_tally(lists, numbers), 5)

    def of_pictures(self) -> Iterator[Call]:
        """Runs of more steps than are drawn, and a part of one; of as many lanes and rows as are; of many clocks; of a
        text that gets longer on a page."""
        drawn = (["lanes", "--svg"], ["page"])
        text = "def main(){for(i in 1..300000)Console.OUT.println(i);}"
        yield self.logged("300,000 prints", text, 300_000)
        for words in drawn:
            yield self.on_log(words, "300,000 prints", text, to_draw(300_001))
            yield self.on_log([*words, "--from=598000"], "300,000 prints", text, to_draw(300_001))
        makes, clocks = "".join(f"val c{k}=Clock.make();" for k in range(9)), ",".join(f"c{k}" for k in range(9))
        phases = "{for(k in 1..8){Console.OUT.println(k);Clock.advanceAll();}}"
        for name, text in (
            ("64 lanes", f"def main(){{clocked finish for(i in 1..63)clocked async{phases}}}"),
            ("64 lanes, 9 clocks", f"def main(){{{makes}for(i in 1..63)async clocked({clocks}){phases}}}"),
            ("900 clocks", "def main(){for(i in 1..900){val c=Clock.make();c.drop();}}"),
            ("a text of references", f"/*{'&' * 1_000_000}*/def main(){{Console.OUT.println(1);}}"),
        ):
            yield self.logged(name, text)
            for words in drawn:
                yield self.on_log(words, name, text, to_draw(2_000))
        # The last one has one outcome, and one run that speaks for all.
        most = self.small(text) + to_draw(2_000)
        yield Call(f"page --outcome 1, {name}", ["page", "--outcome", "1", self.file(text)], most, 4)

    def of_races(self) -> Iterator[Call]:
        """Many activities; somewhat more accesses and advances than a power of two, of two activities; many races."""
        adds = "shared s=0;def main(){for(i in 1..1500)async atomic s=s+1;}"
        accesses = "shared s=0;def main(){async for(i in 1..66500)atomic s=s+1;for(i in 1..66500)atomic s=s+1;}"
        phases = "for(i in 1..66500)Clock.advanceAll();"
        advances = f"def main(){{clocked finish{{clocked async {phases}{phases}}}}}"
        places = "shared s=0;def main(){" + ("async{" + "s=1;" * 20 + "}") * 20 + "}"
        for name, text, most in (
            ("1,500 activities", adds, to_order(1_501, 1_500, 0)),
            ("133,000 accesses", accesses, to_order(2, 133_000, 0)),
            ("133,000 advances", advances, to_order(2, 133_000, 0)),
            ("more races than are printed", places, to_order(21, 400, 10_400)),
        ):
            yield self.logged(name, text)
            yield self.on_log(["races"], name, text, most)

    def of_spans(self) -> Iterator[Call]:
        """Somewhat more steps than a power of two, that nobody else sees, or at which a clock advances; many ends that
        one finish waits for."""
        phases = "for(i in 1..66500)Clock.advanceAll();"
        for name, text, activities, deeds in (
            ("133,000 turns", "def main(){for(i in 1..133000);Console.OUT.println(1);}", 1, 1),
            ("133,000 advances", f"def main(){{clocked finish{{clocked async {phases}{phases}}}}}", 2, 133_000),
            ("1,500 ends", "def main(){finish for(i in 1..1500)async;}", 1_501, 3_000),
        ):
            yield self.logged(name, text, 1)
            steps, seen = judged(text).bounds.steps, 2 * deeds
            spanned = to_order(activities, deeds, 0) + to_chain(steps)
            yield self.on_log(["span"], name, text, spanned)
            yield self.on_log(["span", "--json"], name, text, to_order(activities, deeds, 0) + to_chain(steps))
            yield self.on_log(["lanes", "--path"], name, text, to_lanes(seen) + to_chain(steps))
            yield self.on_log(["page", "--path"], name, text, spanned + to_mark(steps) + to_draw(seen))

    def of_searches(self) -> Iterator[Call]:
        """Many steps lead from each world to the next; as many worlds are kept whole as there is room for. Somewhat
        more worlds than a power of two."""
        for name, writers, turns, worlds in (("three writers", 3, 25, 17_000), ("seven writers", 7, 4, 9_000)):
            steps = f"for(i in 1..{turns}){{for(j in 1..1100);x=k;}}"
            text = f"shared x=0;def main(){{finish for(k in 1..{writers})async{{{steps}}}}}"
            most = to_search(judged(text), worlds + writers, writers * worlds)
            yield Call(
                f"outcomes, {name}",
                ["outcomes", "--limit", worlds, self.file(text)],
                to_read(text.encode()) + to_run(judged(text)) + most,
            )

    def of_lists(self) -> Iterator[Call]:
        text, path = "def main(){Console.OUT.println(7);}", self.folder / "list"
        # Somewhat more than a power of two bytes, so that half of the room is empty.
        for name, line in (("short", "outcome 1 prints 7\n"), ("empty", "\n")):
            listed = "outcome 1 prints 7\n" + line * (34_000_000 // len(line))
            path.write_text(listed)
            small = to_read(text.encode()) + to_run(judged(text))
            yield Call(
                f"outcomes --expect, {name} lines",
                ["outcomes", "--expect", path, self.file(text)],
                small + to_list(listed),
            )


def ask(program: pathlib.Path, call: Call, most: int | None) -> Ended:
    limit = (lambda: resource.setrlimit(resource.RLIMIT_AS, (most, most))) if most else None
    return harness.call([program, *call.words], seconds=SECONDS, preexec_fn=limit)


def least(program: pathlib.Path, call: Call, whole: Ended) -> int:
    """The least address space in which the call is answered, to a hundredth."""
    low, high = 0, 4 * call.most(whole)
    while high - low > max(high // 100, 10_000):
        middle = (low + high) // 2
        low, high = (low, middle) if ask(program, call, middle) == whole else (middle, high)
    return high


def main() -> int:
    parser = argparse.ArgumentParser(description="Tries x10clock in the memory that it can want at most.")
    harness.add_program(parser)
    parser.add_argument("--least", action="store_true")
    parser.add_argument("--only", metavar="WORD", default="")
    given = parser.parse_args()
    program, wrong, count = given.program, [], 0
    with tempfile.TemporaryDirectory() as folder:
        calls = Calls(pathlib.Path(folder))
        for kind in (
            calls.of_texts,
            calls.of_refused_texts,
            calls.of_modules,
            calls.of_runs,
            calls.of_logs,
            calls.of_where,
            calls.of_reasons,
            calls.of_tallies,
            calls.of_pictures,
            calls.of_races,
            calls.of_spans,
            calls.of_searches,
            calls.of_lists,
        ):
            for call in kind():
                whole = ask(program, call, None)
                if given.only not in ("", call.words[0]):
                    continue
                count += 1
                most = call.most(whole)
                if whole.status not in (0, 1, NOT_WHOLE):
                    wrong.append(f"{call.name}: {whole.status} {whole.err!r} with ample memory")
                if given.least:
                    needed = least(program, call, whole)
                    ask(program, call, None)
                    part = f"{needed / MEGABYTE:8.1f} of {most / MEGABYTE:8.1f} MB, {needed / most:5.2f}"
                    print(f"{part}: {call.name}", flush=True)
                elif (limited := ask(program, call, most)) != whole:
                    wrong.append(f"{call.name} in {most / MEGABYTE:.1f} MB: {limited.status} {limited.err!r}")
    print(*wrong, sep="\n", end="\n" if wrong else "", file=sys.stderr)
    print(f"wants: {count} calls, {len(wrong)} that want more")
    return 1 if wrong or not count else 0


if __name__ == "__main__":
    sys.exit(main())
