"""Tests of the library for other languages. They import the Python package of this checkout."""

from __future__ import annotations

import os
import pathlib
import subprocess
import sys

from tests.harness import TOP

BUILT = TOP / "crates/x10clock_c/out/library"

sys.path.insert(0, str(TOP / "python"))


def is_built() -> bool:
    """Whether a library is there, without building one."""
    named = os.environ.get("X10CLOCK_LIBRARY_FOLDER")
    return (pathlib.Path(named) if named else BUILT).joinpath("libx10clock.so").exists()


def built(folder: pathlib.Path | None = None) -> pathlib.Path:
    """The folder of the library: this one, or the one that X10CLOCK_LIBRARY_FOLDER names, or else the one that is built
    of what `rt ci` proved, if it isn't there yet."""
    named = os.environ.get("X10CLOCK_LIBRARY_FOLDER")
    if folder or named:
        return (folder or pathlib.Path(str(named))).resolve()
    if not (BUILT / "libx10clock.so").exists():
        subprocess.run([sys.executable, str(TOP / "library/build.py"), str(BUILT)], check=True)
    return BUILT
