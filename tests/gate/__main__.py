"""The scripts of a stage of the gate, side by side.

    python3 -m tests.gate static
    python3 -m tests.gate ask [--program PATH]
"""

from __future__ import annotations

import argparse
import os
import pathlib
import sys

from tests import harness, library
from tests.gate import side_by_side

# What needs no proof and no built program, in less than a minute.
STATIC = (
    "python3 -m tests.gate.tree",
    "python3 -m tests.gate.layout",
    "python3 tests/prover/house.py --ratchet",
    "python3 tests/prover/bugs.py --applies",
    "python3 tests/prover/wrong_bodies.py",
    "python3 tests/prover/tables.py --check",
    "python3 tests/prover/rule_pages.py --check",
    "python3 -m bench.tables --check",
    "python3 -m tests.gate.links",
    "python3 -m tests.gate.scripts",
    "python3 -m compileall -q bench dist library python tests",
    "python3 -m tests.gate.python_style",
    "python3 -m tests.library.header",
    "python3 -m tests.reference.meaning 20 1 --alone",
)
# What the built program answers, alone and with growths refused; what the reference says of schedules, of logs, of what
# texts mean, and of modules and texts that nobody wrote; and what the program does where files and the system fail it.
ASK = (
    "sh tests/program/answers.sh",
    "sh tests/program/transcripts.sh",
    "python3 -m tests.program.pages",
    "python3 -m tests.program.schemas",
    "python3 -m tests.program.rules",
    "python3 -m tests.program.exercises",
    "python3 -m tests.program.repairs",
    "python3 -m tests.program.html_pages",
    "python3 -m tests.program.editors",
    "python3 -m tests.program.refused_growths",
    "sh tests/program/workers.sh",
    "python3 -m tests.program.schedules",
    "python3 -m tests.generated.logs 200 1",
    "python3 -m tests.generated.meaning_bugs",
    "python3 -m tests.reference.meaning 200 1",
    "python3 -m tests.generated.mutations 2000 1",
    "python3 -m tests.generated.mutations 2000 1 --source",
    "python3 -m tests.generated.words 500 1",
    "python3 -m tests.generated.outcomes 300 1",
    "python3 -m tests.generated.asked",
    "python3 -m tests.generated.by_chance",
    "python3 -m tests.generated.split_phases",
    "python3 -m tests.generated.spans",
    "python3 -m tests.generated.operands",
    "python3 -m tests.program.failing_devices",
    "python3 -m tests.program.hostile",
    "python3 -m tests.program.wants",
    "python3 -m tests.program.release",
)
# Whether the library answers the same, which is built of this checkout's proved crates.
ASK_LIBRARY = (
    "python3 -m tests.library.calls",
    "python3 -m tests.library.package",
)


def prepare(program: pathlib.Path) -> None:
    """Builds what the scripts ask, where it is this checkout's and isn't there yet, and names it to them."""
    if program == harness.BUILT:
        for path in (program, harness.beside(program, "xk_tests_memory")):
            harness.build(path)
        library.built()
    if not program.exists():
        sys.exit(f"ask: no program {program}")
    os.environ["X10CLOCK"] = str(program)


def ask_library(program: pathlib.Path) -> tuple[str, ...]:
    """What is asked of the library: nothing where another program is asked, and this checkout has built none."""
    if program == harness.BUILT or library.is_built():
        return ASK_LIBRARY
    print("ask: left out, for want of a library:", *ASK_LIBRARY, sep="\n    ", flush=True)
    return ()


def main() -> int:
    parser = argparse.ArgumentParser(description="Runs the scripts of a stage of the gate side by side.")
    stages = parser.add_subparsers(dest="stage", required=True)
    stages.add_parser("static")
    harness.add_program(stages.add_parser("ask"))
    given = parser.parse_args()
    if given.stage == "static":
        return 0 if side_by_side.run_all(STATIC) else 1
    prepare(given.program)
    return 0 if side_by_side.run_all((*ASK, *ask_library(given.program))) else 1


if __name__ == "__main__":
    sys.exit(main())
