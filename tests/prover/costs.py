#!/usr/bin/env python3
"""Tells what the proof of each function of a crate costs.

    tests/prover/costs.py CRATE [ROWS]
    tests/prover/costs.py --edits CRATE [ROWS]

The crate is checked by one job, over libraries that `rt check` has built or builds first. A check writes a file for
each part of a function's proof: `Lts` is what the borrow checker makes of its body, `Proof` its goals, `Tie` how a
cycle ends. How long a part took is the time since the file before it. Printed are seconds by the clock, of functions
and then of parts, the dearest first, 20 of each where nothing else is said. It takes away the crate's `out/`: run it on
a copy of the repository. `rt check` begins with what a check in another copy on this machine kept, if there is one:
then only what had to be proved anew is counted.

Where a function is refused, a check leaves out whatever calls it. With `--edits` it checks nothing and tells, by what
an earlier check left in `out/`, how many seconds each edit and bug of the crate lets a check leave out. Who calls whom
it takes from names alone, so it is too much where several functions have one name.
"""
import collections
import pathlib
import re
import shutil
import subprocess
import sys
import time

import bugs

TOP = pathlib.Path(__file__).resolve().parents[2]


def parts(crate: pathlib.Path, began: float = 0) -> list[tuple[float, str]]:
    """The seconds that each part took which was made since then, with its name."""
    files = sorted(
        (made, file.stem) for file in crate.glob("out/incremental/*/*.oantt") if (made := file.stat().st_mtime) >= began
    )
    return [(now - before, name) for (before, _), (now, name) in zip(files, files[1:])]


def name_of(part: str) -> str:
    """The function whose part this is."""
    return part.rpartition("proofs.")[2].rpartition(".")[0] or part


def show(title: str, costs: list[tuple[float, str]], rows: int) -> None:
    print(title)
    for seconds, name in sorted(costs, reverse=True)[:rows]:
        print(f"{seconds:8.1f}  {name}")


def functions_of(crate: pathlib.Path) -> dict[str, tuple[str, str, str]]:
    """By its name as the prover has it, in small letters: the file, the plain name and the text of each function. Those
    of a cycle count as one."""
    found = {}
    for file in sorted((crate / "src").rglob("*.rt")):
        text, inside = file.read_text(encoding="utf-8"), str(file.relative_to(crate))
        lines, module = text.split("\n"), inside[len("src/") : -len(".rt")].replace("/", ".")
        for first, last, owner, name in bugs.functions(text):
            head = "\n".join(lines[max(first - 6, 0) : first]).rpartition("\n\n")[2]
            cycle = re.search(r"cycle\((\w+)\)", head)
            words = [
                *([] if module in ("lib", "main") else [module]),
                *([owner] if owner and not cycle else []),
                f"+{cycle[1]}" if cycle else name,
            ]
            key = ".".join(words).lower()
            _, names, known = found.get(key, ("", "", ""))
            found[key] = inside, f"{names} {name}".strip(), known + "\n".join(lines[first - 1 : last])
    return found


def callers_of(found: dict[str, tuple[str, str, str]]) -> dict[str, set[str]]:
    """Who calls each function, directly or through others."""
    by_name = collections.defaultdict(set)
    for key, (_, names, _) in found.items():
        for name in names.split():
            by_name[name].add(key)
    direct = collections.defaultdict(set)
    for key, (_, _, text) in found.items():
        for called in set(re.findall(r"(?<!fn )\b(\w+)(?:::<[^>]*>)?\(", text)):
            for callee in by_name.get(called, set()) - {key}:
                direct[callee].add(key)
    every = {}
    for key in found:
        seen, left = set(), [key]
        while left:
            new = direct[left.pop()] - seen - {key}
            seen |= new
            left += new
        every[key] = seen
    return every


def edits_of(crate: pathlib.Path) -> list[tuple[str, bugs.Bug]]:
    """The crate's edits, and its bugs that aren't said to pass."""
    found = []
    for file in sorted((crate / "must-fail").glob("*.edit")):
        edit, name = bugs.Bug(file.stem), ""
        for line in file.read_text(encoding="utf-8").split("\n"):
            if line.startswith("file: "):
                name = line[len("file: ") :]
            elif line.startswith("old: "):
                edit.changes.append(bugs.Change(name, line[len("old: ") :]))
        found.append(("edit", edit))
    planted = TOP / "tests/prover/bugs" / f"{crate.name}.bugs"
    return found + [("bug", bug) for bug in (bugs.read_bugs(planted) if planted.exists() else []) if not bug.passes]


def show_edits(crate: pathlib.Path, rows: int) -> None:
    found, seconds = functions_of(crate), collections.Counter()
    for cost, part in parts(crate):
        key = name_of(part).lower()
        key = key if key in found else key.replace("+", "")
        while key and key not in found:
            key = key.rpartition(".")[0]
        seconds[key] += cost
    callers, told, sources = callers_of(found), [], bugs.Crate(str(TOP), crate.name)
    for kind, bug in edits_of(crate):
        changed = {(file, name) for file, _, _, _, name in sources.places(bug)}
        keys = [
            key for key, (file, names, _) in found.items() if any((file, name) in changed for name in names.split())
        ]
        above = set().union(*(callers[key] for key in keys))
        told.append((sum(seconds[key] for key in above), f"{kind:4}  {bug.name}"))
    show(f"left out, of {sum(seconds.values()):.0f} s", told, rows)


def main() -> int:
    words = [word for word in sys.argv[1:] if word != "--edits"]
    if len(words) not in (1, 2):
        print(__doc__, file=sys.stderr)
        return 2
    crate, rows = TOP / "crates" / words[0], int(words[1]) if len(words) == 2 else 20
    if "--edits" in sys.argv:
        show_edits(crate, rows)
        return 0
    shutil.rmtree(crate / "out", ignore_errors=True)
    began = time.time()
    status = subprocess.run(["rt", "check", "--jobs", "1"], cwd=crate, check=False).returncode
    costs, functions = parts(crate, began), collections.Counter()
    for seconds, part in costs:
        functions[name_of(part)] += seconds
    show("functions", [(seconds, name) for name, seconds in functions.items()], rows)
    show("parts", costs, rows)
    print(f"{sum(functions.values()):8.1f}  in all")
    return status


if __name__ == "__main__":
    sys.exit(main())
