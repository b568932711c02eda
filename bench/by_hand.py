"""What the scripts here share of the machine written by hand: where it is, and how it is built."""

from __future__ import annotations

import pathlib
import subprocess
import tempfile

from tests.harness import TOP

ORDERS = ("first", "last", "round")


def built(name: str = "plain") -> str:
    """Builds the machine in bench/plain, with rustc alone, and gives its path. What is built under another name differs
    in nothing but where the compiler puts the functions: their symbols are made from that name, and stand in their
    order."""
    path = pathlib.Path(tempfile.gettempdir()) / f"x10clock-{name}"
    source = TOP / "bench/plain/main.rs"
    words = ["rustc", "-C", "opt-level=3", "-C", f"metadata={name}", "--edition", "2024", "-o", path, source]
    subprocess.run(words, check=True)
    return str(path)
