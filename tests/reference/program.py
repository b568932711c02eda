#!/usr/bin/env python3
"""Answers as x10clock does, by the reference: so that scripts, pages and transcripts can be tried without the built
program.

    X10CLOCK=tests/reference/program.py sh tests/program/answers.sh tests/program/programs/sources.rows

Of clap's texts it knows the help, and of each other the first line.
"""

from __future__ import annotations

import pathlib
import sys

# It is called as the program is, by its path and from any folder.
sys.path.insert(0, str(pathlib.Path(__file__).resolve().parents[2]))
from tests.reference import command_line


def main() -> int:
    try:
        told = command_line.told(sys.argv[1:], sys.stdin.buffer)
    except command_line.TooLong:
        print("reference: too many steps for a run in Python", file=sys.stderr)
        return 9
    sys.stdout.write(told.out)
    if told.err:
        print(told.err, file=sys.stderr)
    return told.status


if __name__ == "__main__":
    sys.exit(main())
