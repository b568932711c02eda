#!/usr/bin/env python3
"""Counts what keeps a house from being read: functions that are long or only hand on, lemmas that stand twice or that
nobody cites, lines over the limits. It reads texts alone, by their layout; nothing is proved or built.

    house.py [TOP]              the table of counts
    house.py --list WORD [TOP]  the places that one row of it counts; WORD is the row's first column
    house.py --ratchet [TOP]    whether no row has more than MOST allows

A script reads layout and names, no meaning: a row is a place to look at, not a fault. The status of the table is 1 only
where a crate has more than a hundred functions. A row of MOST may fall and not rise: whoever lowers a count lowers its
number here."""

import argparse
import collections
import dataclasses
import re
import sys
from pathlib import Path
from typing import Iterable, Iterator

MOST_FUNCTIONS = 100
LONG_FUNCTION = 40
CLAUSE, CODE, DOC, FILE = 100, 140, 120, 800
# The most that each of these rows may count.
MOST = {
    "full": 0,
    "long": 16,
    "bodies": 2,
    "forwarders": 76,
    "uncommented": 9,
    "prover": 0,
    "uncited": 1,
    "twice": 31,
    "pub": 80,
    "clauses": 0,
    "code": 224,
    "proofs": 6703,
    "docs": 80,
    "scripts": 0,
    "files": 0,
    "unnamed": 0,
    "ways": 21,
}
# `rt` sums up the files below a crate once for each way that leads to them in crates.txt: 200 ways are a second.
MANY_WAYS = 1000
SOURCES = ("src/**/*.rt", "specs/**/*.antt", "proofs/**/*.antt")
TESTS = {"xk_tests", "xk_tests_memory"}
FN = re.compile(r"^(\s*)((?:pub(?:\([^)]*\))? )?(?:const )?)fn (\w+)")
NAME = re.compile(r"[^\s(){}\[\];,.λ]+")
MODIFIERS = r"(?:pub |abbrev |unfoldable |record |data )*"


@dataclasses.dataclass
class Place:
    """Where something stands, and what it is."""

    file: Path
    line: int
    what: str

    def told(self, top: Path) -> str:
        return f"{self.file.relative_to(top)}:{self.line} {self.what}"


@dataclasses.dataclass
class Function:
    """A function: where its head and its end stand, and its body."""

    file: Path
    name: str
    line: int
    end: int
    body: list[str]
    has_comment: bool
    is_of_trait: bool

    def crate(self) -> str:
        return self.file.parts[self.file.parts.index("crates") + 1]

    def length(self) -> int:
        return self.end - self.line + 1

    def place(self, what: str = "") -> Place:
        return Place(self.file, self.line, f"{self.name} {what}".strip())


@dataclasses.dataclass
class Item:
    """A lemma or a definition, with its text."""

    file: Path
    line: int
    name: str
    is_pub: bool
    text: list[str]

    def place(self) -> Place:
        return Place(self.file, self.line, self.name)


def body_of(lines: list[str], head: int, indent: str) -> tuple[int, int]:
    """The lines where the braces of a function's body open and close."""
    for k in range(head, len(lines)):
        line = lines[k].rstrip()
        if line.endswith("{}") and (line == indent + "{}" or k == head):
            return k, k
        if line == indent + "{" or (line.endswith("{") and (k == head or line.startswith(indent + ")"))):
            close = next((j for j in range(k + 1, len(lines)) if lines[j].rstrip() == indent + "}"), k)
            return k, close
        if line.endswith(";") and (k == head or line.startswith(indent + ")")):
            return k, k
    return head, head


def is_of_trait(lines: list[str], head: int) -> bool:
    """Whether a function is a method of a trait's impl: its comment is the trait's."""
    if not lines[head].startswith(" "):
        return False
    impl = next((line for line in reversed(lines[:head]) if line and not line[0].isspace()), "")
    return impl.startswith("impl") and " for " in impl


def functions(top: Path) -> list[Function]:
    """All functions of the crates."""
    found = []
    for file in sorted((top / "crates").glob("*/src/**/*.rt")):
        lines = file.read_text(encoding="utf-8").split("\n")
        for i, line in enumerate(lines):
            if m := FN.match(line):
                opens, closes = body_of(lines, i, m.group(1))
                above = i - 1
                while above >= 0 and lines[above].strip().startswith("#["):
                    above -= 1
                of_trait = is_of_trait(lines, i)
                commented = above >= 0 and lines[above].strip().startswith("///") or of_trait
                body = lines[opens + 1 : closes]
                found.append(Function(file, m.group(3), i + 1, closes + 1, body, commented, of_trait))
    return found


def hands_on(fn: Function) -> bool:
    """Whether a body is one call of another function, with nothing but names handed on; but for a trait's method that
    asks a field's method of the same name, which can't be left out."""
    lines = [line.strip() for line in fn.body if line.strip() and not line.strip().startswith("//")]
    call = r"(?:Ok\()?((?:self(?:\.\w+)*\.)?[a-z]\w*(?:::\w+)*)\([\w\s,.&*]*\)\??\)?;?"
    found = re.fullmatch(call, " ".join(lines)) if 0 < len(lines) <= 4 else None
    return found is not None and not (fn.is_of_trait and found.group(1).endswith("." + fn.name))


def for_the_prover(top: Path) -> Iterator[Place]:
    """Lines that only the prover wants, without a comment above that says what for."""
    for file in sorted((top / "crates").glob("*/src/**/*.rt")):
        lines = file.read_text(encoding="utf-8").split("\n")
        for i, line in enumerate(lines):
            only_read = re.match(r"\s*let _\w+ = [&\w.()\[\]]+;$", line) and not re.search(r"\w\(\w|pop_", line)
            if only_read and not lines[i - 1].strip().startswith("//"):
                yield Place(file, i + 1, line.strip())


def items(top: Path) -> list[Item]:
    """Lemmas and definitions of the proofs and specs."""
    files = [p for p in sorted((top / "crates").glob("*/*/**/*.antt")) if "/out/" not in str(p)]
    return [item for file in files for item in items_in(file)]


def items_in(file: Path) -> list[Item]:
    """Those of one file: at the margin, and two blanks in where a `module` or `mutual` holds them."""
    found: list[Item] = []
    now: Item | None = None
    within = False
    for i, line in enumerate(file.read_text(encoding="utf-8").split("\n")):
        if not line.strip() or line.strip().startswith("--"):
            continue
        indent = len(line) - len(line.lstrip())
        if re.match(r"\s*((pub )?(use|mod)|(abbrev )?mutual|module)\b", line):
            within = within or indent == 0 and re.search(r"\b(mutual|module)\b", line) is not None
            now = None
            continue
        within = within and indent > 0
        m = re.match(MODIFIERS + r"([^\s:(]+) :", line.strip())
        if m and indent == (2 if within else 0):
            now = Item(file, i + 1, m.group(1), "pub " in line.strip()[: m.start(1)], [line])
            found.append(now)
        elif now is not None:
            now.text.append(line)
    return found


def module_of(file: Path) -> str:
    parts = file.parts[file.parts.index("crates") + 1 :]
    return "Rattle." + ".".join(parts)[: -len(".antt")]


def imports(file: Path) -> Iterator[tuple[str, str, str]]:
    """What a file takes from others: module, name, and how it calls it."""
    for m in re.finditer(r"use\s+(Rattle\.[\w.+\-]+)\.\{([^}]*)\}", file.read_text(encoding="utf-8")):
        for name in filter(None, (n.strip() for n in m.group(2).split(","))):
            first, _, alias = name.partition(" as ")
            yield m.group(1), first.strip(), (alias or first).strip()


def named_by_module(file: Path) -> Iterator[tuple[str, str]]:
    """What a file names by a module that it has given a short name: `use M as m`, and then `m.lemma`."""
    text = file.read_text(encoding="utf-8")
    for m in re.finditer(r"^use (Rattle\.[\w.+\-]+) as (\w+)$", text, flags=re.M):
        for name in re.findall(r"(?<![\w.])" + m.group(2) + r"\.([^\s(){}\[\];,.λ]+)", text):
            yield m.group(1), name


def without_imports(file: Path) -> str:
    """The text of a file but for comments and for what it takes from others."""
    text = re.sub(r"^use .*?\}$", "", file.read_text(encoding="utf-8"), flags=re.M)
    return re.sub(r"--.*", "", text)


class Citations:
    """Who cites which lemma."""

    def __init__(self, found: list[Item], top: Path) -> None:
        self.importers: dict[tuple[str, str], list[tuple[Path, str]]] = collections.defaultdict(list)
        self.words: dict[Path, collections.Counter[str]] = {}
        self.qualified: set[tuple[str, str]] = set()
        for file in dict.fromkeys(item.file for item in found):
            self.words[file] = collections.Counter(NAME.findall(without_imports(file)))
            self.qualified |= set(named_by_module(file))
            for module, name, alias in imports(file):
                self.importers[module, name].append((file, alias))
        self.code = "\n".join(p.read_text(encoding="utf-8") for p in (top / "crates").glob("*/src/**/*.rt"))

    def inside(self, item: Item) -> bool:
        """Whether its own file cites it."""
        return self.words[item.file][item.name] > collections.Counter(NAME.findall("\n".join(item.text)))[item.name]

    def outside(self, item: Item) -> bool:
        """Whether another file cites it, or code does."""
        module = module_of(item.file)
        if (module, item.name) in self.qualified or "::".join(module.split(".")[2:]) + "::" + item.name in self.code:
            return True
        return any(self.words[file][alias] for file, alias in self.importers[module, item.name])


def is_lemma(item: Item) -> bool:
    """Whether it is to be cited: a lemma, that is neither an answer nor an example."""
    return "/proofs/" in str(item.file) and "Example" not in str(item.file) and "goal." not in item.text[0]


def signature(item: Item) -> str:
    """What a lemma says, whatever its variables are called."""
    lines = [item.text[0]]
    for line in item.text[1:]:
        if not re.match(r"\s+(→|×)", line):
            break
        lines.append(line)
    said = re.sub(r"\s+", " ", " ".join(lines)).strip()
    said = re.sub(r"^" + MODIFIERS, "", said)[len(item.name) :]
    bound = [n for m in re.finditer(r"[({]([^\s():{}]+(?: [^\s():{}]+)*) :", said) for n in m.group(1).split()]
    numbered = {name: f"v{i}" for i, name in enumerate(dict.fromkeys(bound))}
    return NAME.sub(lambda m: numbered.get(m.group(0), m.group(0)), said)


def twice(found: list[Item]) -> list[Item]:
    """Lemmas whose statement stands in another file already."""
    known = collections.defaultdict(list)
    for item in found:
        said = signature(item) if is_lemma(item) else ""
        if len(said) >= 24 and re.search(r"≡|⊥|≤|<|→ Is", said):
            known[said].append(item)
    return [item for same in known.values() if len({x.file for x in same}) > 1 for item in same[1:]]


def clauses(files: list[Path]) -> Iterator[Place]:
    """Lines of clauses that are over the limit."""
    for file in files:
        depth, inside = 0, False
        for i, line in enumerate(file.read_text(encoding="utf-8").split("\n")):
            inside = inside or re.match(r"\s*(ensures|requires)\b", line) is not None
            if inside:
                depth += line.count("{") - line.count("}")
                if len(line) > CLAUSE:
                    yield Place(file, i + 1, f"{len(line)} columns")
                inside = depth > 0


def by_hand(files: Iterable[Path]) -> list[Path]:
    """The files that no script writes, in order: of the others nobody reads more than the first line, which says so."""
    return [p for p in sorted(files) if "writes this file" not in p.open(encoding="utf-8").readline()]


def long_lines(files: list[Path], most: int) -> list[Place]:
    lines = [(p, i, line) for p in files for i, line in enumerate(p.read_text(encoding="utf-8").split("\n"))]
    return [Place(p, i + 1, f"{len(line)} columns") for p, i, line in lines if len(line) > most]


Rows = dict[str, tuple[str, list[Place]]]


def rows_of_code(top: Path) -> Rows:
    """The rows that count functions."""
    fns = functions(top)
    hand = set(by_hand({f.file for f in fns}))
    by_us = [f for f in fns if f.file in hand]
    own = [f for f in by_us if f.crate() not in TESTS]
    full = [(c, n) for c, n in collections.Counter(f.crate() for f in fns).items() if n > MOST_FUNCTIONS]
    return {
        "functions": ("functions", [f.place() for f in fns]),
        "full": (
            f"crates of more than {MOST_FUNCTIONS} functions",
            [Place(top / "crates" / c, 0, str(n)) for c, n in full],
        ),
        "long": (f"functions over {LONG_FUNCTION} lines with their contract",
                 [f.place(str(f.length())) for f in by_us if f.length() > LONG_FUNCTION]),
        "bodies": (
            f"bodies over {LONG_FUNCTION} lines",
            [f.place(str(len(f.body))) for f in by_us if len(f.body) > LONG_FUNCTION],
        ),
        "forwarders": ("functions that only hand on", [f.place() for f in own if hands_on(f)]),
        "uncommented": ("functions without a comment", [f.place() for f in own if not f.has_comment]),
        "prover": ("lines for the prover without a comment", list(for_the_prover(top))),
    }


def rows_of_proofs(top: Path) -> Rows:
    """The rows that count lemmas."""
    found = items(top)
    cited = Citations(found, top)
    lemmas = [x for x in found if is_lemma(x)]
    # the prover itself looks for what stands in answers and invariants
    named = [x for x in lemmas if x.file.name not in ("Answers.antt", "Invariants.antt")]
    return {
        "lemmas": ("lemmas and definitions", [x.place() for x in found]),
        "uncited": (
            "lemmas that nobody cites",
            [x.place() for x in named if not cited.inside(x) and not cited.outside(x)],
        ),
        "twice": ("statements of lemmas that stand again", [x.place() for x in twice(found)]),
        "pub": (
            "`pub` and cited in their own file alone",
            [x.place() for x in named if x.is_pub and cited.inside(x) and not cited.outside(x)],
        ),
    }


def rows_of_lines(top: Path) -> Rows:
    """The rows that count lines."""
    rt = by_hand((top / "crates").glob("*/src/**/*.rt"))
    antt = [p for kind in ("specs", "proofs") for p in by_hand((top / "crates").glob(f"*/{kind}/**/*.antt"))]
    docs = [*sorted(top.glob("*.md")), *sorted((top / "docs").glob("*.md"))]
    scripts = [p for folder in ("bench", "dist", "tests") for p in sorted((top / folder).rglob("*.py"))]
    sizes = [(p, p.read_text(encoding="utf-8").count("\n")) for p in rt + antt]
    pages = [(p, i) for p in docs for i, _ in enumerate(p.open(encoding="utf-8"))]
    return {
        "clauses": (f"lines of clauses over {CLAUSE} columns", list(clauses(rt))),
        "code": (f"lines of code over {CODE} columns", long_lines(rt, CODE)),
        "proofs": (f"lines of specs and proofs over {CODE} columns", long_lines(antt, CODE)),
        "docs": (f"lines of pages over {DOC} columns", long_lines(docs, DOC)),
        "scripts": (f"lines of scripts over {DOC} columns", long_lines(scripts, DOC)),
        "files": (f"files over {FILE} lines", [Place(p, 0, str(n)) for p, n in sizes if n > FILE]),
        "pages": ("lines of pages", [Place(p, i + 1, "") for p, i in pages]),
    }


def libraries_of(top: Path) -> dict[str, list[str]]:
    """For each crate of crates.txt the libraries of this repository that it uses."""
    lines = (top / "crates.txt").read_text(encoding="utf-8").splitlines()
    rows = [line.replace(" staticlib:", ":").split(":") for line in lines if ":" in line and not line.startswith("#")]
    crates = {row[0] for row in rows}
    return {crate: [it for it in used.split() if it in crates] for crate, used in rows}


def rows_of_libraries(top: Path) -> Rows:
    """The rows that count what crates.txt says."""
    used = libraries_of(top)
    ways = dict[str, int]()

    def down(crate: str) -> int:
        if crate not in ways:
            ways[crate] = 1 + sum(down(it) for it in used[crate])
        return ways[crate]

    unnamed = list[Place]()
    for crate, libraries in used.items():
        folder = top / "crates" / crate
        files = by_hand(it for kind in SOURCES for it in folder.glob(kind))
        named = set(re.findall(r"\w+", "\n".join(it.read_text(encoding="utf-8") for it in files)))
        unnamed += [Place(top / "crates.txt", 0, f"{crate}: {it}") for it in libraries if it not in named]
    many = [Place(top / "crates" / it, 0, str(ways[it])) for it in used if down(it) > MANY_WAYS]
    return {
        "unnamed": ("libraries of crates.txt that a crate doesn't name", unnamed),
        "ways": (f"crates with over {MANY_WAYS} ways down through crates.txt", many),
    }


def ratchet(table: Rows) -> int:
    """Prints which rows count more than they may, and which count less, so that their numbers can be lowered."""
    counts = {word: len(table[word][1]) for word in MOST}
    over = [word for word, most in MOST.items() if counts[word] > most]
    for word in over:
        print(f"{table[word][0]}: {counts[word]}, at most {MOST[word]} may be: house.py --list {word} names them")
    fallen = [f"{word} {counts[word]}" for word, most in MOST.items() if counts[word] < most]
    lower = f"; lower in MOST: {', '.join(fallen)}" if fallen else ""
    print(f"house: {len(MOST)} rows, {len(over)} that count more than they may{lower}")
    return 1 if over else 0


def main() -> int:
    parser = argparse.ArgumentParser(description=__doc__, formatter_class=argparse.RawDescriptionHelpFormatter)
    parser.add_argument("--list", metavar="WORD")
    parser.add_argument("--ratchet", action="store_true")
    parser.add_argument("top", nargs="?", default=str(Path(__file__).resolve().parents[2]))
    options = parser.parse_args()
    top = Path(options.top).resolve()
    table = {**rows_of_code(top), **rows_of_proofs(top), **rows_of_lines(top), **rows_of_libraries(top)}
    if options.list:
        if options.list not in table:
            parser.error("one of " + ", ".join(table))
        for place in table[options.list][1]:
            print(place.told(top))
        return 0
    if options.ratchet:
        return ratchet(table)
    for word, (what, places) in table.items():
        print(f"{word:12} {len(places):6}  {what}")
    return 1 if table["full"][1] else 0


if __name__ == "__main__":
    try:
        sys.exit(main())
    except BrokenPipeError:
        sys.exit(0)
