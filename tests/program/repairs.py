#!/usr/bin/env python3
"""Applies the repairs that `explain` tells of source texts, and asks that they are: the program is accepted then, or
refused for another reason, or further on.

The programs are the rows of sources-mistakes.rows, sources-habits.rows and sources-advice.rows. A repair that says what
to write is carried out by a rule of APPLIED; one that says in words how a program is written anew is counted. Each
repair of `docs/EXPLAIN.md` is one or the other. Where a sum is to be added in one step, a run of the repaired program
has no race.

Then it says so of repairs that are wrong on purpose: it has to see each of them.

    python3 -m tests.program.repairs [--program PATH]

Status 1 where a repair isn't one, or a wrong one isn't seen.
"""

from __future__ import annotations

import argparse
import pathlib
import re
import sys
import tempfile
from collections import Counter
from collections.abc import Callable, Iterator
from dataclasses import dataclass

from tests import harness
from tests.harness import TOP

ROWS = TOP / "tests/program/programs"
FILES = ("sources-mistakes.rows", "sources-habits.rows", "sources-advice.rows")
HEAD = re.compile(r"-:(\d+):(\d+): (F\d+) \w+: ")
LINE = re.compile(r"x10clock: (F\d+) \w+ at (\d+)\n")
USUAL = "   = usual repair: "
WORD = re.compile(r"[0-9A-Za-z_]+")
# What a statement may stand behind, without a `;`.
HEADS = re.compile(r"\s*(?:(?:if|for)\s*\((?:[^()]|\([^()]*\))*\)|async(?:\s+clocked\s*\([^)]*\))?|finish|clocked)\s*")


@dataclass(frozen=True)
class Fault:
    """A text, by which rule it is refused and where, the repair that is told, and how many faults of it come before."""

    text: str
    rule: str
    at: int
    repair: str
    number: int = 0

    def before(self) -> str:
        return self.text[: self.at]

    def rest(self) -> str:
        return self.text[self.at :]

    def word(self) -> str:
        found = WORD.match(self.rest())
        return found[0] if found else self.rest()[:1]


# ---- how a repair is carried out


def insert(fault: Fault, found: re.Match[str]) -> str:
    """A sign before the token at the fault, behind the one before it."""
    front = fault.before().rstrip()
    return front + found[1] + fault.text[len(front) :]


def instead(fault: Fault, found: re.Match[str]) -> str:
    """A token in the place of the one at the fault."""
    return fault.before() + found[1] + fault.rest()[len(fault.word()) :]


def away(fault: Fault, found: re.Match[str]) -> str:
    """Without the sign at the fault."""
    return fault.before() + fault.rest()[1:]


def meant(fault: Fault, found: re.Match[str]) -> str:
    """Another spelling: of the name at the fault, or of the word before a token that can't stand there."""
    if fault.rule == "F5":
        return instead(fault, found)
    front = fault.before().rstrip()
    return front[: len(front) - len(re.search(r"\w*\Z", front)[0])] + found[1] + fault.text[len(front) :]


def comparison(fault: Fault, found: re.Match[str]) -> str:
    """A sign in the place of those at the fault and right before it."""
    front = re.sub(r"[<>=:]+\Z", "", fault.before())
    return front + found[1] + re.sub(r"\A[<>=:]+", "", fault.rest())


def statement(fault: Fault) -> tuple[int, int]:
    """Where the assignment, the call or the declaration around the fault begins and ends, without its `;`."""
    begin = max(fault.text.rfind(sign, 0, fault.at) for sign in ";{}") + 1
    while (head := HEADS.match(fault.text, begin)) and head.end() <= fault.at:
        begin = head.end()
    begin += len(fault.text[begin:]) - len(fault.text[begin:].lstrip())
    return begin, fault.at + re.search(r";|\n|$", fault.rest()).start()


def written(fault: Fault, found: re.Match[str]) -> str:
    """A statement in the place of the one around the fault."""
    begin, end = statement(fault)
    return fault.text[:begin] + found[1] + fault.text[end + 1 :]


def read_first(fault: Fault, found: re.Match[str]) -> str:
    """A shared number is read in a statement of its own, by this name."""
    begin = max(fault.text.rfind(sign, 0, fault.at) for sign in ";{}") + 1
    read = f" val {found[1]} = {fault.word()}; "
    return fault.text[:begin] + read + fault.text[begin : fault.at] + found[1] + fault.rest()[len(fault.word()) :]


def brace_before(fault: Fault, found: re.Match[str]) -> str:
    """A `}` at the line and column that are told."""
    lines = fault.text.split("\n")
    line, column = int(found[1]) - 1, int(found[2]) - 1
    lines[line] = lines[line][:column] + "} " + lines[line][column:]
    return "\n".join(lines)


def clocked(fault: Fault, found: re.Match[str]) -> str:
    """The last `finish` before the fault has a clock."""
    begin = [where.start() for where in re.finditer(r"\bfinish\b", fault.before())][-1]
    return f"{fault.text[:begin]}clocked {fault.text[begin:]}"


def declared_as(word: str) -> Callable[[Fault, re.Match[str]], str]:
    """The name at the fault is declared by another word."""

    def apply(fault: Fault, found: re.Match[str]) -> str:
        return re.sub(rf"\b(?:val|var)(\s+{fault.word()}\b)", rf"{word}\1", fault.text, count=1)

    return apply


def shared(fault: Fault, found: re.Match[str]) -> str:
    """The `var` at the fault is a shared number in front of the methods."""
    kept = re.sub(rf"\bvar\s+{fault.word()}\b[^;]*;", ";", fault.text, count=1)
    return f"shared {fault.word()} = 0;\n{kept}"


def new_number(fault: Fault, found: re.Match[str]) -> str:
    """The name at the fault is declared as a shared number."""
    return f"shared {fault.word()} = 0;\n{fault.text}"


def new_method(fault: Fault, found: re.Match[str]) -> str:
    """A method of the name at the fault, with as many parameters as it is given."""
    given = re.match(r"\w+\s*\(([^()]*)\)", fault.rest())
    count = len(given[1].split(",")) if given and given[1].strip() else 0
    params = ", ".join(f"p{i}__: Long" for i in range(count))
    return f"{fault.text}\ndef {fault.word()}({params}) {{ }}\n"


def kept_in_val(fault: Fault, found: re.Match[str]) -> str:
    """A `val` of the `var`, by this name, is taken before the innermost `async`."""
    begin = [where.start() for where in re.finditer(r"\basync\b", fault.before())][-1]
    begin = max(fault.text.rfind(sign, 0, begin) for sign in ";{}") + 1
    name = fault.word()
    return (
        f"{fault.text[:begin]} val {found[1]} = {name};{fault.text[begin : fault.at]}{found[1]}"
        f"{fault.rest()[len(name) :]}"
    )


def handed_on(fault: Fault, found: re.Match[str]) -> str:
    """The innermost `async` is given the clock."""
    last = [where for where in re.finditer(r"\basync\b(?:\s+clocked\s*\(([^)]*)\))?", fault.before())][-1]
    clocks = f"{last[1]}, {found[1]}" if last[1] else found[1]
    return f"{fault.text[: last.start()]}async clocked ({clocks}){fault.text[last.end() :]}"


def in_order(fault: Fault, found: re.Match[str]) -> str:
    """Numbers and clocks of a call, each where one is taken: those that are given, and 1 where there are too few."""
    begin = [where.start() for where in re.finditer(rf"\b{found[1]}\s*\(", fault.text) if where.start() <= fault.at][-1]
    opened = fault.text.index("(", begin)
    closed = fault.text.index(")", opened)
    given = [word.strip() for word in fault.text[opened + 1 : closed].split(",") if word.strip()]
    clocks = [word for word in given if re.search(rf"\bval\s+{word}\s*=\s*Clock|\b{word}\s*:\s*Clock", fault.text)]
    numbers = [word for word in given if word not in clocks]
    taken = [(clocks or ["c"]) if "Clock" in param else (numbers or ["1"]) for param in found[2].split(",") if param]
    words = ", ".join(take.pop(0) if len(take) > 1 else take[0] for take in taken)
    return fault.text[: opened + 1] + words + fault.text[closed:]


def lent(fault: Fault, found: re.Match[str]) -> str:
    """The method takes the clock, and its callers make one for it."""
    head, clock = found[1], found[2]
    name = re.match(r"def (\w+)", head)[1]
    text = fault.before() + f"async clocked ({clock})" + re.sub(r"\Aclocked\s+async", "", fault.rest())
    text = re.sub(rf"def {name}\s*\([^)]*\)", head, text, count=1)
    calls = rf"(?<!def )\b{name}\s*\(([^)]*)\)"
    text = re.sub(calls, lambda call: f"{name}({call[1]}{', ' if call[1] else ''}{clock}__)", text)
    made = rf"\1 val {clock}__ = Clock.make();"
    return re.sub(r"clocked finish(\s*\{)", rf"finish{made}", re.sub(r"(def main\([^)]*\)\s*\{)", r"\1", text), count=1)


def added(fault: Fault, found: re.Match[str]) -> str:
    """An assignment whose sum stands on both sides is one step."""
    begin, end = statement(fault)
    return fault.text[:begin] + found[1] + fault.text[end + 1 :]


def declaration(fault: Fault, found: re.Match[str]) -> str:
    """What is declared in another language's words is a `var`, or a parameter."""
    begin, end = statement(fault)
    if fault.text.startswith("def", begin):
        return fault.before() + re.sub(r"\A\w+\s+(\w+)", r"\1: Long", fault.rest())
    words = re.match(r"(?:\w+\s+)*?(\w+)\s*(?::\s*\w+\s*)?(?:=\s*(.*))?$", fault.text[begin:end])
    value = words[2] if words[2] and words[2].isdigit() else "0"
    return f"{fault.text[:begin]}var {words[1]} = {value};{fault.text[end + 1 :]}"


def method_head(fault: Fault, found: re.Match[str]) -> str:
    """The words before a method's name are `def`."""
    begin = fault.before().rstrip()
    begin = begin if begin == "" or begin[-1] in ";}" else begin[: len(begin) - len(re.search(r"\w*\Z", begin)[0])]
    return begin + "\n" + re.sub(r"\A\s*(?:\w+\s+)*(\w+)\s*\(", r"def \1(", fault.text[len(begin) :])


def each(fault: Fault, found: re.Match[str]) -> str:
    """The word that the declaration begins with stands before each name."""
    begin, _ = statement(fault)
    word = re.match(r"(?:val|var|shared)?", fault.text[begin:])[0]
    value = "" if "=" in fault.text[begin : fault.at] else " = 0"
    return f"{fault.before()}{value}; {word}{fault.rest()[1:]}"


def renamed(fault: Fault, found: re.Match[str]) -> str:
    return fault.before() + fault.word() + "__" + fault.rest()[len(fault.word()) :]


def negative(fault: Fault, found: re.Match[str]) -> str:
    return fault.before() + "+ -" + fault.rest()[1:].lstrip()


def whole(fault: Fault, found: re.Match[str]) -> str:
    return fault.before() + re.sub(r"\A[\w.]+", "", fault.rest())


def parameter(fault: Fault, found: re.Match[str]) -> str:
    """The type of a parameter stands behind its name."""
    if fault.rest()[0] in ";),":
        return insert(fault, re.match("(.*)", ": Long"))
    if fault.word() == "Long":
        return fault.before() + re.sub(r"\ALong(\s+\w+)?", lambda name: f"{name[1] or 'n'}: Long", fault.rest())
    front = re.sub(r"(?:\w+\s+)+\Z", "", fault.before())
    return front + re.sub(r"\A(\w+)", r"\1: Long", fault.rest())


def without_parameters(fault: Fault, found: re.Match[str]) -> str:
    """The method takes nothing."""
    begin = fault.text.rindex("(", 0, fault.at)
    return fault.text[: begin + 1] + fault.text[fault.text.index(")", begin) :]


def brace_behind(fault: Fault, found: re.Match[str]) -> str:
    """The `{` in the place of a type of what a method gives back."""
    return fault.before() + re.sub(r"\A:[ \t]*\w*[ \t]*\{?", " {", fault.rest())


def ranged(fault: Fault, found: re.Match[str]) -> str:
    return fault.before() + re.sub(r"\Arange\s*\([^()]*\)", "0..2", fault.rest())


def looped(fault: Fault, found: re.Match[str]) -> str:
    """The head of a loop, up to its body."""
    begin = [where.start() for where in re.finditer(r"\b(?:for|For|foreach|repeat|loop)\b", fault.before())][-1]
    head = re.match(r"\w+[^({]*(?:\((?:[^()]|\([^()]*\))*\))?", fault.text[begin:])
    rest = re.sub(r"\A[^{;]*\{", "{", fault.text[begin + head.end() :])
    return fault.text[:begin] + f"for (i in 1..3) {rest}"


def left_away(fault: Fault, found: re.Match[str]) -> str:
    """Without the statement around the fault."""
    begin, end = statement(fault)
    return fault.text[:begin] + fault.text[end + 1 :]


def without_zero(fault: Fault, found: re.Match[str]) -> str:
    return fault.before() + re.sub(r"\A0+(?=[0-9])", "", fault.rest())


def greatest(fault: Fault, found: re.Match[str]) -> str:
    return fault.before() + re.sub(r"\A[0-9]+", "9223372036854775807", fault.rest())


def stop_at(fault: Fault, found: re.Match[str]) -> str:
    """The comment is closed at the text's end, or its line's."""
    end = fault.text.find("\n", fault.at)
    return fault.text[:end] + " */" + fault.text[end:]


Rule = tuple[re.Pattern[str], Callable[[Fault, re.Match[str]], str]]
APPLIED: list[Rule] = [
    (re.compile(r"write `([^`]+)` before it"), insert),
    (re.compile(r"write `}` before (\d+):(\d+)"), brace_before),
    (re.compile(r"write `clocked finish` in place of this `finish`"), clocked),
    (re.compile(r"write `([^`]+)` here"), instead),
    (re.compile(r"take this `[)}]` away: .*"), away),
    (re.compile(r"perhaps `(\w+)` is meant"), meant),
    (re.compile(r"write `(=|!=|<=)`(?: or `>=`)?"), comparison),
    (re.compile(r"(.)close the comment by `\*/`|close the comment by `\*/`"), stop_at),
    (re.compile(r"write `(atomic \w+ = .*;)`: it adds in one step"), added),
    (re.compile(r"read `\w+` first, which is shared: `val (t\d?) = \w+;`"), read_first),
    (re.compile(r"`\w+` is a `val`, which stays: declare it by `var`"), declared_as("var")),
    (re.compile(r"an `async` doesn't write `\w+`, which is a `var`: .*"), shared),
    (re.compile(r"take a `val (t\d?) = \w+;` before the `async`: .*"), kept_in_val),
    (re.compile(r"hand `\w+` on: write `async clocked \((\w+)\)`"), handed_on),
    (re.compile(r"declare it before, by `var \w+ = 0;`, .*"), new_number),
    (re.compile(r"write a method `def \w+\(\) \{ \.\. \}`, .*"), new_method),
    (re.compile(r"give `(\w+)` a number for each .*, in the order of `\(([^)]*)\)`"), in_order),
    (re.compile(r"give `(\w+)` one argument for each of `\(([^)]*)\)`, in this order"), in_order),
    (re.compile(r"take the clock as a parameter, `(def .*\))`, and write `async clocked \((\w+)\)`"), lent),
    (re.compile(r"write `(Clock\.advanceAll\(\);)`: it waits for .*"), written),
    (re.compile(r"write `(Console\.OUT\.println\(1\);)`, with one number"), written),
    (re.compile(r"there are no truth values: write the number (1) or 0"), instead),
    (re.compile(r"write `val n = 5;`, or `var` where it changes; .*"), declaration),
    (re.compile(r"a method begins with `def`: .*"), method_head),
    (re.compile(r"write each on its own, .*"), each),
    (re.compile(r"take another name"), renamed),
    (re.compile(r"to take away, add a negative number: .*"), negative),
    (re.compile(r"a number is whole, and of digits alone: .*"), whole),
    (re.compile(r"a parameter is `n: Long`, and one that takes a clock is `c: Clock`"), parameter),
    (re.compile(r"write `def main\(\) \{`, or for an `--arg` .*"), without_parameters),
    (re.compile(r"a method gives nothing back: its `\{` stands right behind the `\)`"), brace_behind),
    (re.compile(r"write `for \(i in 0\.\.2\)` for 0, 1 and 2"), ranged),
    (re.compile(r"write `for \(i in 1\.\.3\)` for 1, 2 and 3(?:, or .*)?"), looped),
    (re.compile(r"an activity is on a clock from its start, .*: leave `register` away"), left_away),
    (re.compile(r"write it without the 0, .*"), without_zero),
    (re.compile(r"a number is from -9223372036854775808 to 9223372036854775807"), greatest),
]


def page() -> str:
    return (TOP / "docs/EXPLAIN.md").read_text(encoding="utf-8")


def in_words() -> set[str]:
    """The repairs of the tables that no rule carries out: they say how a program is written anew."""
    rows = re.findall(r"^\| F\d+(?: \w+)? \|.* \| ([^|]+) \|$", page(), re.MULTILINE)
    return {said for said in rows if not any(rule.fullmatch(said) for rule, _ in APPLIED)}


WORDED = re.compile(
    r"add in one step, .*|give a (?:number|clock) in place of .*"
    r"|`\w+` is (?:a parameter|the number|a clock|a method|no method|seen in).*|`\w+` isn't seen outside .*"
    r"|read `\w+` first, .* of another name|keep `\w+` in a `val` of another name .*"
)


# ---- the programs


def programs() -> Iterator[str]:
    """The texts of the rows."""
    for name in FILES:
        lines = (ROWS / name).read_text(encoding="utf-8").splitlines()
        for line, answer in zip(lines, lines[1:], strict=False):
            if re.match(r"x10clock: F\d+ ", answer) and not line.startswith("#"):
                yield line.replace("\\n", "\n")


def ask(program: pathlib.Path, text: str) -> list[Fault]:
    """The faults of a text that are shown, each with its repair; none where the first has no place."""
    status, out, err = harness.call([program, "explain", "-"], text.encode()).texts()
    if status != 1 or not LINE.fullmatch(err):
        return []
    return [fault for number, shown in enumerate(out.split("\n\n")) for fault in shown_as(text, shown, number)]


def shown_as(text: str, shown: str, number: int) -> Iterator[Fault]:
    """The fault that is shown in these lines, if its repair is told."""
    head, last = HEAD.match(shown), shown.splitlines()[-1]
    if head and last.startswith(USUAL):
        lines = text.encode().split(b"\n")[: int(head[1])]
        at = sum(len(line) + 1 for line in lines[:-1]) + len(lines[-1].decode()[: int(head[2]) - 1].encode())
        yield Fault(text, head[3], at, last.removeprefix(USUAL), number)


def races(program: pathlib.Path, text: str) -> str:
    """What `races` says of a run of a text."""
    with tempfile.TemporaryDirectory() as room:
        file, log = pathlib.Path(room) / "it.x10", pathlib.Path(room) / "it.log"
        file.write_text(text)
        harness.call([program, "run", "--log", log, file])
        return harness.call([program, "races", file, log]).texts()[1]


def is_mended(program: pathlib.Path, fault: Fault, text: str) -> bool:
    """Whether a text is accepted, or refused for another reason, or further on; of a fault behind another, whether
    fewer are shown of its rule."""
    if fault.number:
        return many(program, text, fault.rule) < many(program, fault.text, fault.rule)
    status, _, err = harness.call([program, "check", "-"], text.encode()).texts()
    found = LINE.fullmatch(err)
    if status == 0 or not found:
        return status in (0, 1)
    return found[1] != fault.rule or int(found[2]) > fault.at


def many(program: pathlib.Path, text: str, rule: str) -> int:
    """How many faults by a rule are shown of a text."""
    return [fault.rule for fault in ask(program, text)].count(rule)


def applied(fault: Fault) -> str | None:
    """The text with its repair; None of one in words."""
    for rule, apply in APPLIED:
        if found := rule.fullmatch(fault.repair):
            return apply(fault, found)
    return None


def wrong_of(program: pathlib.Path, fault: Fault) -> str | None:
    """What is wrong with the repair of a fault."""
    try:
        text = applied(fault)
    except (IndexError, TypeError, ValueError) as error:
        return f"no place for it: {error!r}"
    if text is None:
        return None
    if not is_mended(program, fault, text):
        return f"not mended: {text!r}"
    is_accepted = harness.call([program, "check", "-"], text.encode()).status == 0
    if is_accepted and "adds in one step" in fault.repair and not races(program, text).startswith("races 0"):
        return f"races: {text!r}"
    return None


# ---- repairs that are wrong on purpose

SUM = "shared sum = 0;\ndef main() {\n    finish for (i in 1..3) async {\n        sum = sum + i;\n    }\n}\n"
WRONG = [
    ("def main() {\n    val n = 1\n}\n", "write `)` before it"),
    ("def main() {\n    val n = (1;\n}\n", "write `;` before it"),
    ("def main() {\n    val n = 1);\n}\n", "write `(` before it"),
    ("def main() {\n    val sum = 1;\n    Console.OUT.println(smu);\n}\n", "perhaps `sun` is meant"),
    ("def main() {\n    val n = 1;\n    n = 2;\n}\n", "hand `n` on: write `async clocked (n)`"),
    ("def w(n: Long, c: Clock) { }\ndef main() {\n    val c = Clock.make();\n    w(c, 1);\n}\n",
     "give `w` a number for each `Long`, in the order of `(c: Clock, n: Long)`"),
    ("def main() {\n    finish {\n        for (i in 1..2) {\n            f();\n    }\n    f();\n}\n\ndef f() { }\n",
     "write `}` before 2:5"),
    ("def main() {\n    work;\n}\ndef work() { }\n", "perhaps `wark` is meant"),
]  # fmt: skip


def unseen(program: pathlib.Path) -> Iterator[str]:
    """The wrong repairs that pass."""
    for text, repair in WRONG:
        found = ask(program, text)
        if not found or not wrong_of(program, Fault(text, found[0].rule, found[0].at, repair)):
            yield f"passes: {repair} {text!r}"
    found = ask(program, SUM)
    advised = "sum = t + i"
    raced = SUM.replace("sum = sum + i;", f"val t = sum; {advised};")
    if not found or races(program, raced).startswith("races 0"):
        yield f"no race: {raced!r}"


def main() -> int:
    parser = argparse.ArgumentParser(description="Applies the repairs that `explain` tells.")
    harness.add_program(parser)
    program = parser.parse_args().program
    words, count, wrong = in_words(), Counter(), []
    for fault in (fault for text in programs() for fault in ask(program, text)):
        text = fault.text
        said = wrong_of(program, fault)
        is_worded = fault.repair in words or WORDED.fullmatch(fault.repair) is not None
        if said:
            wrong.append(f"{fault.rule} at {fault.at} of {text!r}\n    {fault.repair}\n    {said}")
        elif not is_worded and not any(rule.fullmatch(fault.repair) for rule, _ in APPLIED):
            wrong.append(f"neither carried out nor in words: {fault.repair}")
        count["in words" if is_worded else "carried out"] += 1
    wrong += unseen(program)
    for line in wrong:
        print(line)
    print(f"repairs: {count['carried out']} carried out, {count['in words']} in words, {len(wrong)} wrong")
    return 1 if wrong else 0


if __name__ == "__main__":
    sys.exit(main())
