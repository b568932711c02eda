#!/usr/bin/env python3
"""Asks the prover whether the law that a compiled program means its source refuses wrong compilers.

    tests/prover/wrong_code.py [BUG ..]

They stand in tests/prover/bugs/xk_law_compiler.bugs, in the form of tests/prover/bugs.py; each changes the definition
of the code of statements (crates/xk_emit/specs) or of what a text means (crates/xk_source_semantics/specs), which the
law is about. The functions of `xk_emit` would be refused first, by the contract that names the definition; so in a copy
of the crates below that one is left with its definitions and what the law's proof cites of its lemmas, and
`xk_law_compiler`, which has the law, is checked over it and `xk_source_semantics`, both without their examples: as it
is, where it has to be proved, and with each change, where it must not be.
"""

from __future__ import annotations

import os
import re
import shutil
import subprocess
import sys
import tempfile

from bugs import Crate, read_bugs

TOP = os.path.normpath(os.path.join(os.path.dirname(os.path.abspath(__file__)), "../.."))
BELOW = ["xk_types", "xk_tree", "xk_names", "xk_callgraph"]
LAW = ["xk_emit", "xk_source_semantics", "xk_law_compiler"]
KEPT_PROOFS = ["ScopeLemmas", "CoverageLemmas", "CoverageLaw"]
# what is said of the coder's answers, which the law doesn't ask
OF_ANSWERS = ["Room", "EmittedCode"]


def with_definitions_alone(folder: str) -> None:
    """Leaves the definitions of xk_emit in this folder, and the lemmas that the law's proof cites."""
    shutil.rmtree(os.path.join(folder, "out"), ignore_errors=True)
    for file in os.listdir(os.path.join(folder, "src")):
        os.remove(os.path.join(folder, "src", file))
    with open(os.path.join(folder, "src", "lib.rt"), "w", encoding="utf-8") as f:
        f.write("//! The code of source trees.\n#![tactic(auto)]\n")
    specs = [
        file[:-5] for file in sorted(os.listdir(os.path.join(folder, "specs"))) if file[:-5] not in ["Lib", *OF_ANSWERS]
    ]
    for name in OF_ANSWERS:
        os.remove(os.path.join(folder, "specs", f"{name}.antt"))
    proofs = os.path.join(folder, "proofs")
    for name in os.listdir(proofs):
        path = os.path.join(proofs, name)
        if name.removesuffix(".antt") not in KEPT_PROOFS:
            shutil.rmtree(path) if os.path.isdir(path) else os.remove(path)
    for where, names in (("specs", specs), ("proofs", KEPT_PROOFS)):
        with open(os.path.join(folder, where, "Lib.antt"), "w", encoding="utf-8") as f:
            f.write("".join(f"pub mod {name}\n" for name in names))


def without_examples(folder: str, name: str) -> None:
    """Leaves the crate in this folder without its file of examples, which would refuse what the law is asked about."""
    shutil.rmtree(os.path.join(folder, "out"), ignore_errors=True)
    os.remove(os.path.join(folder, "proofs", f"{name}.antt"))
    path = os.path.join(folder, "proofs", "Lib.antt")
    kept = [line for line in open(path, encoding="utf-8") if line.split() != ["pub", "mod", name]]
    with open(path, "w", encoding="utf-8") as f:
        f.writelines(kept)


def copied(folder: str) -> None:
    """Makes a copy of the crates that the law needs."""
    crates = os.path.join(folder, "crates")
    for name in BELOW + LAW:
        shutil.copytree(os.path.join(TOP, "crates", name), os.path.join(crates, name))
    shutil.copy(os.path.join(TOP, "HANDLES"), folder)
    lines = open(os.path.join(TOP, "crates.txt"), encoding="utf-8").read().splitlines()
    wanted = [line for line in lines if line.split(":")[0] in BELOW + LAW]
    with open(os.path.join(folder, "crates.txt"), "w", encoding="utf-8") as f:
        f.write("".join(line + "\n" for line in wanted))
    with_definitions_alone(os.path.join(crates, "xk_emit"))
    without_examples(os.path.join(crates, "xk_source_semantics"), "Examples")
    without_examples(os.path.join(crates, "xk_law_compiler"), "PremiseExample")


def says(folder: str) -> tuple[str, str]:
    """What the check of xk_law_compiler comes to: proved, refused, or a word on what went wrong before; and a line that
    says so."""
    call = ["rt", "check", "--jobs", "1"]
    ran = subprocess.run(
        call,
        cwd=os.path.join(folder, "crates", "xk_law_compiler"),
        stdout=subprocess.PIPE,
        stderr=subprocess.STDOUT,
        text=True,
        errors="replace",
        check=False,
    )
    lines = ran.stdout.splitlines()
    if ran.returncode == 0 and any(line.startswith("logic=proved functions=2 ") for line in lines[-8:]):
        return "proved", ""
    # that a tree has one module is not the law
    refused = [
        line
        for line in lines
        if re.match(r"(\./)?proofs/(?!CompiledOnce|OrderUniqueness|SettingLookup)\S+: error", line)
    ]
    if refused and any(line.startswith("fn xk_law_compiler::laws::means_its_source: not proved") for line in lines):
        return "refused", refused[0]
    return "not tried", lines[-1] if lines else ""


def main() -> None:
    bugs = read_bugs(os.path.join(TOP, "tests", "prover", "bugs", "xk_law_compiler.bugs"))
    bugs = [b for b in bugs if not sys.argv[1:] or b.name in sys.argv[1:]]
    wrong: list[str] = []
    with tempfile.TemporaryDirectory() as folder:
        copied(folder)
        first, line = says(folder)
        print(f"as it is: {first} {line}", flush=True)
        if first != "proved":
            sys.exit(1)
        crate = Crate(folder, "xk_law_compiler")
        for bug in bugs:
            if stale := crate.stale(bug):
                sys.exit(f"{bug.name}: {stale}")
            wrong_texts = crate.planted([bug])
            crate.write(wrong_texts)
            word, line = says(folder)
            print(f"  {bug.name:34} {word:10} {line[:150]}", flush=True)
            wrong += [bug.name] if word != "refused" else []
            crate.write({file: crate.text(file) for file in wrong_texts})
    print(f"{len(bugs)} wrong compilers, {len(bugs) - len(wrong)} refused")
    sys.exit(1 if wrong else 0)


if __name__ == "__main__":
    main()
