#!/usr/bin/env python3
"""Times the built program on large source texts: what it takes to compile three of them, and to answer some that are no
programs.

    python3 -m bench.texts [--program PATH] [--count]

Prints for each text a line (bench/results.py): its bytes, the least processor time of five calls, which what else the
machine does changes little, and how the answer begins. With `--count` it prints the instructions of one call as
callgrind counts them (valgrind is needed), and how many of these are spent on memory: taking, giving back, copying.
"""

from __future__ import annotations

import argparse
import os
import pathlib
import re
import subprocess
import tempfile

from bench.results import show
from bench.spent import spent
from tests import harness

MIB = 1_048_576
MEMORY = re.compile(r"malloc|calloc|realloc|free|_int_|memcpy|memmove|memset|alloc", re.IGNORECASE)


def methods() -> str:
    """1,015 methods of seven loops and branches each, all called by `main`."""
    part = (
        "    for (i{0} in 1..10) {{ "
        "if (x <= y * {0} + 3) {{ x = x + i{0} * 2; }} else {{ y = y - (x - {0}); }} s = x + y; }}\n"
    )
    body = "".join(part.format(number) for number in range(7))
    head = "def method_{0}(first: Long, second: Long) {{\n    var x = first;\n    var y = second;\n"
    parts = [head.format(number) + body + "    Console.OUT.println(x * y);\n}\n" for number in range(1_015)]
    return (
        "shared s = 0;\n"
        + "".join(parts)
        + "def main() { "
        + "".join(f"method_{number}(1, 2); " for number in range(1_015))
        + "}\n"
    )


def expressions() -> str:
    """7,000 expressions of 55 parentheses in one another."""
    one = "    x = " + "(" * 55 + "x + 1" + " * 2)" * 5 + ")" * 50 + ";\n"
    parts = "".join(f"def m{number}() {{\n    var x = {number};\n{one * 70}}}\n" for number in range(100))
    return parts + "def main() { " + "".join(f"m{number}(); " for number in range(100)) + "}\n"


def calls() -> str:
    """1,022 methods that call each other: each the next 94, where there are so many."""
    return "".join(
        f"def m{number}() {{ "
        + "".join(f"m{other}();" for other in range(number + 1, min(number + 95, 1_022)))
        + " }\n"
        for number in range(1_022)
    ) + "def main() { m0(); }\n"


TEXTS = {
    "methods": methods(),
    "expressions": expressions(),
    "calls": calls(),
    "1 MiB of {": "def main() {" + "{" * (MIB - 12),
    "1 MiB of -": "def main() { val x = " + "-" * (MIB - 21),
    "1 MiB of (": "def main() { val x = " + "(" * (MIB - 21),
    "1 MiB of /*": "/*" * (MIB // 2),
    "1 MiB of digits": "shared s = " + "1" * (MIB - 11),
    "1 MiB of one name": "def " + "a" * (MIB - 4),
    "1 MiB of ;": "def main() {" + ";" * (MIB - 13) + "}",
    "1 MiB of async;": "def main() {" + "async;" * ((MIB - 13) // 6) + "}",
}


def called(program: pathlib.Path, path: pathlib.Path) -> tuple[float, bytes]:
    """Processor time, and the answer."""
    took = spent([program, "compile", path])
    return took.seconds, took.out + took.err


def counted(program: pathlib.Path, path: pathlib.Path) -> tuple[int, int]:
    """The instructions of a call, and those spent on memory."""
    with tempfile.TemporaryDirectory() as folder:
        told = os.path.join(folder, "told")
        words = ["valgrind", "--tool=callgrind", f"--callgrind-out-file={told}", program, "compile", path]
        subprocess.run(words, capture_output=True, check=False)
        words = ["callgrind_annotate", "--threshold=100", told]
        lines = subprocess.run(words, capture_output=True, text=True, check=False).stdout.split("\n")
    total = memory = 0
    for line in lines:
        found = re.match(r"\s*([\d,]+) \([^)]*\)\s+(.*)", line)
        if found and "PROGRAM TOTALS" in found[2]:
            total = int(found[1].replace(",", ""))
        elif found and MEMORY.search(found[2].split(" [")[0].rsplit(":", 1)[-1]):
            memory += int(found[1].replace(",", ""))
    return total, memory


def main() -> None:
    parser = argparse.ArgumentParser()
    harness.add_program(parser)
    parser.add_argument("--count", action="store_true")
    given = parser.parse_args()
    for name, text in TEXTS.items():
        with tempfile.TemporaryDirectory() as folder:
            path = pathlib.Path(folder, "text")
            path.write_text(text)
            if given.count:
                total, memory = counted(given.program, path)
                show(name, bytes=len(text), instructions=total, memory=memory)
                continue
            times = [called(given.program, path) for _ in range(5)]
        seconds, out = min(times)
        show(name, repr(out[:60]), bytes=len(text), seconds=seconds)


if __name__ == "__main__":
    main()
