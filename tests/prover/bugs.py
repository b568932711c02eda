#!/usr/bin/env python3
"""Plants bugs in the crates and asks the prover whether the contracts refuse them.

    tests/prover/bugs.py [--top FOLDER] [--plan] [--keep FOLDER] CRATE [BUG ..]
    tests/prover/bugs.py [--top FOLDER] --applies [CRATE]

Bugs stand in tests/prover/bugs/CRATE.bugs, each as

    bug: its_name
    why: what is wrong, in words
    file: src/file.rt
    old: a text that stands once in that file
    new: what stands there instead

with further pairs of `old:` and `new:` where one isn't enough, and a further `file:` before those of another file. A
line `passes: reason` says that no contract refuses it, and why that is right. Contracts are all that callers see, so
bugs in different functions are planted together and tried by one `rt check`: each function says for itself whether it
is refused; one that calls a function which is refused waits for another check, if it must. What becomes of a bug:

    refused             a goal of its function isn't proved
    refused at answer   the answer that a proof file has for a goal of its function proves it no more
    only names          the proof file cites names that are gone, and nothing else is said: that shows nothing, since a
                        right body of another form would be met so too; take another bug, which leaves calls and names
                        as they are
    no program          it doesn't compile
    passes              it is proved
    not tried           a function that its own one calls, or another of its cycle, is refused in each check

`--applies` asks no prover: it says which bugs, of one crate or of all, name a file that isn't there or a text that
doesn't stand once in it.

It changes the files of the crate while it runs and puts them back: run it on a copy of the repository. The status is 0
where each bug is refused by its own function, or passes as said.
"""

from __future__ import annotations

import argparse
import os
import re
import signal
import subprocess
import sys
import time
from collections.abc import Iterable
from dataclasses import dataclass, field

# A function: its first and last line, the impl or trait that it stands in, and its name.
Function = tuple[int, int, str, str]
# What a bug changes: a file, and the function there; without a name a line outside of functions.
Place = tuple[str, int, int, str, str]


@dataclass
class Change:
    """A text of a file, and what stands in its place."""

    file: str
    old: str
    new: str = ""


@dataclass
class Bug:
    """A bug: what is wrong, why no contract refuses it where none does, and what it changes."""

    name: str
    why: str = ""
    passes: str = ""
    changes: list[Change] = field(default_factory=list)


def read_bugs(path: str) -> list[Bug]:
    """The bugs of a file; ends the run where they aren't written as they have to be."""
    bugs: list[Bug] = []
    file = ""
    for number, line in enumerate(open(path, encoding="utf-8"), 1):
        line = line.rstrip("\n")
        word, _, rest = line.partition(":")
        rest = rest[1:] if rest.startswith(" ") else rest
        if not line or line.startswith("#"):
            continue
        if word == "bug":
            bugs.append(Bug(rest))
            file = ""
        elif word in ("why", "passes"):
            setattr(bugs[-1], word, rest)
        elif word == "file":
            file = rest
        elif word == "old":
            bugs[-1].changes.append(Change(file, rest))
        elif word == "new" and not bugs[-1].changes[-1].new:
            bugs[-1].changes[-1].new = rest
        else:
            sys.exit(f"{path}:{number}: not understood: {line}")
    names = [b.name for b in bugs]
    for name in {n for n in names if names.count(n) > 1}:
        sys.exit(f"{path}: two bugs are called {name}")
    for bug in bugs:
        if not bug.why or not bug.changes or not all(change.file for change in bug.changes):
            sys.exit(f"{path}: {bug.name} has no why, no file, or nothing that it changes")
        if any(change.old == change.new for change in bug.changes):
            sys.exit(f"{path}: {bug.name} changes nothing")
    return bugs


def function_end(lines: list[str], first: int, indent: str) -> int:
    """The number of the last line of the function whose head begins in line `first`; lines are counted from 1. A method
    of a trait may have no body: it ends where its head does."""
    in_head = True
    for number in range(first, len(lines) + 1):
        line = lines[number - 1]
        is_signature = number == first or line.startswith(indent + ")")
        if (
            line in (indent + "}", indent + "{}")
            or is_signature
            and line.endswith(("}", ";"))
            or in_head
            and line.endswith("};")
        ):
            return number
        in_head = in_head and line != indent + "{" and not (is_signature and line.endswith("{"))
    return len(lines)


def owner_of(head: str) -> str:
    """What the functions of an impl or a trait stand under in the names of the prover: the type, with the trait that it
    implements."""
    words = [re.sub(r"[<:].*", "", word) for word in head.split(" for ")]
    return "".join(reversed(words))


def functions(text: str) -> list[Function]:
    """The functions of a file."""
    lines, owner = text.split("\n"), ""
    found: list[Function] = []
    for first, line in enumerate(lines, 1):
        if line == "}":
            owner = ""
        if m := re.match(r"(?:impl|pub trait|trait)(?:<[^>]*>)? (.*?) \{$", line):
            owner = owner_of(m[1])
        if m := re.match(r"(\s*)(?:pub(?:\(crate\))? )?(?:const |final )?fn (\w+)", line):
            found.append((first, function_end(lines, first, m[1]), owner if m[1] else "", m[2]))
    return found


class Crate:
    """A crate in which bugs are planted: its files as they are without any."""

    def __init__(self, top: str, name: str) -> None:
        self.path = os.path.join(top, "crates", name)
        self.name = name
        self.texts: dict[str, str] = {}

    def text(self, file: str) -> str:
        """The text of a file, as it was when it was first read."""
        if file not in self.texts:
            self.texts[file] = open(os.path.join(self.path, file), encoding="utf-8").read()
        return self.texts[file]

    def places(self, bug: Bug) -> set[Place]:
        """The functions that a bug changes, or the lines, where it changes something outside of functions."""
        hit: set[Place] = set()
        for change in bug.changes:
            text = self.text(change.file)
            line = text.count("\n", 0, text.find(change.old)) + 1
            f = next((f for f in functions(text) if f[0] <= line <= f[1]), None)
            hit.add((change.file, *f) if f else (change.file, line, line, "", ""))
        return hit

    def stale(self, bug: Bug) -> str:
        """Why a bug can't be planted, if it can't."""
        for change in bug.changes:
            if not os.path.exists(os.path.join(self.path, change.file)):
                return f"{change.file} isn't there"
            if self.text(change.file).count(change.old) != 1:
                return f"not once in {change.file}: {change.old}"
        return ""

    def batches(self, bugs: Iterable[Bug]) -> list[list[Bug]]:
        """Bugs that change different functions; what changes no function is tried alone."""
        left = list(bugs)
        done: list[list[Bug]] = []
        while left:
            used: set[Place] = set()
            taken: list[Bug] = []
            for bug in left:
                places = self.places(bug)
                alone = any(not name for *_, name in places)
                if (alone and taken) or places & used:
                    continue
                used |= places
                taken.append(bug)
                if alone:
                    break
            done.append(taken)
            left = [b for b in left if b not in taken]
        return done

    def planted(self, bugs: Iterable[Bug]) -> dict[str, str]:
        """The texts of the files that bugs change, with these."""
        cuts: dict[str, list[tuple[int, int, str]]] = {}
        for bug in bugs:
            for change in bug.changes:
                at = self.text(change.file).find(change.old)
                cuts.setdefault(change.file, []).append((at, at + len(change.old), change.new))
        texts = {}
        for file, found in cuts.items():
            text = self.text(file)
            for first, end, new in sorted(found, reverse=True):
                text = text[:first] + new + text[end:]
            texts[file] = text
        return texts

    def write(self, texts: dict[str, str]) -> None:
        """Writes files of the crate."""
        for file, text in texts.items():
            with open(os.path.join(self.path, file), "w", encoding="utf-8") as f:
                f.write(text)

    def check(self, bugs: Iterable[Bug]) -> str:
        """What the prover says of the crate with bugs; the files are as before then."""
        texts = self.planted(bugs)
        call = ["rt", "check", "--jobs", "1"]
        try:
            self.write(texts)
            with subprocess.Popen(
                call,
                cwd=self.path,
                stdout=subprocess.PIPE,
                stderr=subprocess.STDOUT,
                text=True,
                errors="replace",
                start_new_session=True,
            ) as running:
                try:
                    return running.communicate()[0]
                except BaseException:  # Whatever ends this run ends the check and what it started.
                    os.killpg(running.pid, signal.SIGTERM)
                    raise
        finally:
            self.write({file: self.text(file) for file in texts})


# What the prover says where a goal isn't proved, and where a name that a proof file cites is gone.
OPEN = re.compile(r"not proved|found no proof|did not prove")
GONE = re.compile(r"no such|not in scope|unknown|no field|has no `", re.I)
SAID = re.compile(r"(?:note: )?(?:\./)?(\S+?):(\d+):\d+: (.*)")


@dataclass
class Said:
    """What the prover says of the functions that a bug changes."""

    program: list[str] = field(default_factory=list)
    goals: list[str] = field(default_factory=list)
    answers: list[str] = field(default_factory=list)
    names: list[str] = field(default_factory=list)
    lost_invariant: bool = False
    without_proof: list[str] = field(default_factory=list)

    def add_proof_line(self, path: str, text: str) -> None:
        """Takes a line on a proof file in."""
        if GONE.search(text):
            self.names.append(text)
            self.lost_invariant |= path.endswith("Invariants.antt")
        elif text.startswith("error"):
            self.answers.append(text)

    def add_source_line(self, text: str) -> None:
        """Takes a line on a source file in."""
        if OPEN.search(text):
            self.goals.append(text)
        elif text.startswith("error"):
            self.program.append(text)

    def own_goals(self) -> list[str]:
        """The open goals, but for those that stay open because a name is gone: all where that is an invariant's; else
        those that an answer may have been for, which is lost with the name of its goal."""
        if self.lost_invariant:
            return []
        lost = {
            m[1].split("-")[0] for name in self.names if (m := re.search(r"has no `([\w-]+)` that can be named", name))
        }
        stems = [(m[1].split("-")[0] if (m := re.search(r"\(`([\w-]+)`\)", goal)) else "", goal) for goal in self.goals]
        return [goal for stem, goal in stems if stem not in lost]

    def verdict(self) -> tuple[str, str]:
        """What becomes of the bug, and a line that says so."""
        if self.program:
            return "no program", self.program[0]
        if goals := self.own_goals():
            return "refused", goals[0]
        if self.answers and not self.lost_invariant:
            return "refused at answer", self.answers[0]
        if self.names:
            return "only names", self.names[0]
        for reason in self.without_proof:
            if OPEN.search(reason) and not reason.startswith("it calls "):
                return "refused", reason
        return ("not tried", self.without_proof[0]) if self.without_proof else ("passes", "")


def is_own(words: list[str], own_path: list[str]) -> bool:
    """Whether a function that the prover names so is the one with this path. An `impl` of a trait with types, as
    `Recount<u8>`, has these behind its name there."""
    return len(words) == len(own_path) and all(map(str.startswith, words, own_path)) and words[-1] == own_path[-1]


def said(crate: Crate, bug: Bug, lines: list[str]) -> Said:
    """What is said of places in the bug's functions, or in the proofs that belong to them; of any, where it changes no
    function."""
    found = Said()
    for file, first, last, owner, name in crate.places(bug):
        stem = os.path.basename(file)[:-3]
        folder = "" if stem in ("lib", "main") else stem + "/"
        own_proof = re.compile(rf"proofs/{folder}{owner and owner + '/'}{name}(/|\.antt)", re.I)
        cycle_proof = re.compile(rf"proofs/{folder}(?:{owner}/)?\+\w+/")
        own_path = ([] if stem in ("lib", "main") else [stem]) + ([owner.lower()] if owner else []) + [name]
        for line in lines:
            if m := SAID.match(line):
                in_cycle = cycle_proof.match(m[1]) and f"`{name}-" in m[3]
                if m[1].startswith("proofs/") and (not name or own_proof.match(m[1]) or in_cycle):
                    found.add_proof_line(m[1], m[3])
                elif not name or m[1] == file and first <= int(m[2]) <= last:
                    found.add_source_line(m[3])
            elif m := re.match(r"fn \w+::(\S+): (?:no proof: |not proved(?:; |$))(.*)", line):
                if name and is_own([word.lower() for word in m[1].split("::")], own_path):
                    found.without_proof.append(m[2] or "another function of its cycle is refused")
    return found


def told(crate: Crate, bug: Bug, lines: list[str]) -> tuple[str, str]:
    """What becomes of a bug, and a line that says so."""
    word, line = said(crate, bug, lines).verdict()
    if not any(line.startswith("logic=") for line in lines) and word != "no program":
        return "not tried", "the check came to no end"
    return word, line


def try_all(crate: Crate, bugs: list[Bug], keep: str | None) -> dict[str, str]:
    """What becomes of each bug, by its name. One that another keeps from being tried is tried again, three times at
    most."""
    answers: dict[str, str] = {}
    number, left = 0, bugs
    for _ in range(3):
        later: list[Bug] = []
        for batch in crate.batches(left):
            began = time.time()
            out = crate.check(batch)
            if keep:
                with open(os.path.join(keep, f"{crate.name}-{number}.txt"), "w", encoding="utf-8") as f:
                    f.write(out)
            print(f"== {crate.name} {number}: {len(batch)} bugs, {time.time() - began:.0f} s", flush=True)
            number += 1
            for bug in batch:
                answers[bug.name], line = told(crate, bug, out.splitlines())
                print(f"  {bug.name:40} {answers[bug.name]:18} {line[:160]}", flush=True)
            later += [b for b in batch if answers[b.name] == "not tried"]
        left = later
    return answers


def bugs_of(top: str, name: str) -> list[Bug]:
    """The bugs of a crate."""
    return read_bugs(os.path.join(top, "tests", "prover", "bugs", name + ".bugs"))


def apply_all(top: str, names: list[str]) -> bool:
    """Says which bugs of these crates, or of all, can't be planted; whether all can."""
    files = sorted(os.listdir(os.path.join(top, "tests", "prover", "bugs")))
    count = 0
    wrong: list[str] = []
    for name in names or [file.removesuffix(".bugs") for file in files if file.endswith(".bugs")]:
        crate, bugs = Crate(top, name), bugs_of(top, name)
        count += len(bugs)
        wrong += [f"look at {name} {b.name}: {why}" for b in bugs if (why := crate.stale(b))]
    print(*wrong, f"{count} bugs, {count - len(wrong)} can be planted", sep="\n")
    return not wrong


def main() -> None:
    p = argparse.ArgumentParser()
    p.add_argument("--top", default=os.path.join(os.path.dirname(__file__), "../.."))
    p.add_argument("--plan", action="store_true", help="say what would be tried together")
    p.add_argument("--keep", help="a folder for what the prover says")
    p.add_argument("--applies", action="store_true", help="say which bugs can't be planted")
    p.add_argument("crate", nargs="?")
    p.add_argument("bugs", nargs="*")
    a = p.parse_args()
    if a.applies:
        sys.exit(0 if apply_all(a.top, [a.crate] if a.crate else []) else 1)
    if not a.crate:
        p.error("which crate?")
    signal.signal(signal.SIGTERM, lambda *_: sys.exit(1))
    crate = Crate(a.top, a.crate)
    bugs = bugs_of(a.top, a.crate)
    bugs = [b for b in bugs if not a.bugs or b.name in a.bugs]
    stale = {b.name: crate.stale(b) for b in bugs if crate.stale(b)}
    fresh = [b for b in bugs if b.name not in stale]
    answers: dict[str, str] = {}
    if a.plan:
        for batch in crate.batches(fresh):
            print(len(batch), *(b.name for b in batch))
    else:
        answers = try_all(crate, fresh, a.keep)
    wanted = {b.name: ["passes"] if b.passes else ["refused", "refused at answer"] for b in bugs}
    wrong = {name: word for name, word in {**answers, **stale}.items() if word not in wanted[name]}
    counts = ", ".join(f"{list(answers.values()).count(word)} {word}" for word in sorted(set(answers.values())))
    print(f"{a.crate}: {len(bugs)} bugs: {counts}")
    for name, why in wrong.items():
        print(f"  look at {name}: {why}")
    sys.exit(1 if wrong else 0)


if __name__ == "__main__":
    main()
