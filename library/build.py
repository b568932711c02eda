#!/usr/bin/env python3
"""Builds the library for other languages from what `rt ci` proved: `libx10clock.a`, `libx10clock.so`, `x10clock.h` and
`x10clock.pc` in a folder.

    python3 library/build.py FOLDER
    python3 library/build.py FOLDER --module FILE

It takes the libraries of all crates below x10clock_c as `rt ci` left them in crates/*/out/rlib, and proves and builds
that one crate (`rattle build --crate-type staticlib`); so nothing is built of what isn't proved. With --module it takes
a module of LLVM instead, which nobody proved: one that `rt try` has made of a program with the crate's functions lies
among its temporary files. So the library can be tried before a proof.

The kit's `rt` is to be on the path, and a C compiler (CC, or cc), whose linker makes the shared library. That exports
the functions of the header, and needs the C library alone.
"""

from __future__ import annotations

import argparse
import importlib
import os
import pathlib
import re
import shutil
import subprocess
import sys
import tempfile
from collections.abc import Sequence
from typing import Any

TOP = pathlib.Path(__file__).resolve().parents[1]
CRATE = TOP / "crates/x10clock_c"
HEADER = TOP / "library/x10clock.h"
# Names in a prototype.
EXPORTED = re.compile(r"\b(x10clock_\w+)\(")


def kit() -> pathlib.Path:
    """The folder of the kit whose `rt` is on the path."""
    found = shutil.which("rt")
    if not found:
        sys.exit("library: the Rattle kit isn't on the path as rt")
    return pathlib.Path(found).resolve().parents[1]


def run(words: Sequence[object], **how: Any) -> None:
    """Runs a program, and ends where it fails."""
    line = [str(word) for word in words]
    if subprocess.run(line, check=False, **how).returncode:
        sys.exit(f"library: failed: {' '.join(line)[:300]}")


def functions() -> list[str]:
    """The functions of the header."""
    return sorted(set(EXPORTED.findall(HEADER.read_text("utf-8"))))


def prove(archive: pathlib.Path) -> None:
    """Proves x10clock_c over the libraries below it, and builds its archive."""
    sys.path.insert(0, str(kit() / "bin"))
    rtlib: Any = importlib.import_module("rtlib")
    os.chdir(CRATE)
    words = rtlib.Crate(str(CRATE), str(TOP), {}, name=None).words([], keeps=False)
    run([rtlib.RATTLE, "build", *words, "--toolchain", f"{rtlib.KIT}/toolchain", "-o", archive])


def compile_module(module: pathlib.Path, archive: pathlib.Path) -> None:
    """Compiles a module that isn't proved, and exports from it what the header has, under whatever crate it stands."""
    clang = [kit() / "toolchain/bin/clang", "--target=x86_64-unknown-linux-gnu", "-w", "-x", "ir"]
    with tempfile.TemporaryDirectory() as work:
        text, made = pathlib.Path(work) / "module.ll", pathlib.Path(work) / "x10clock_c.o"
        run([*clang, "-S", "-emit-llvm", "-O0", "-Xclang", "-disable-llvm-passes", module, "-o", text])
        names = "|".join(functions())
        named = re.sub(rf'@"\w+::({names})"', r"@\1", text.read_text("utf-8"))
        shown = re.sub(rf"^define internal (.*@(?:{names})\()", r"define \1", named, flags=re.MULTILINE)
        text.write_text(shown, "utf-8")
        run([*clang, "-fPIC", "-O1", "-ffunction-sections", "-fdata-sections", "-c", text, "-o", made])
        run(["ar", "rcs", archive, made])


def link(archive: pathlib.Path, folder: pathlib.Path) -> None:
    """Adds what allocates memory to the archive, and makes the shared library, which exports the header's functions."""
    heap = kit() / "c/liblibc_c.a"
    with tempfile.TemporaryDirectory() as work:
        for part in (archive, heap):
            run(["ar", "x", part.resolve()], cwd=work)
        objects = sorted(pathlib.Path(work).glob("*.o"))
        both, names = folder / "libx10clock.a", pathlib.Path(work) / "names.map"
        both.unlink(missing_ok=True)
        run(["ar", "rcsD", both, *objects])
        names.write_text("{ global: " + "; ".join(functions()) + "; local: *; };\n", "utf-8")
        flags = ["-shared", "-Wl,-soname,libx10clock.so", f"-Wl,--version-script={names}", "-Wl,--gc-sections,-s"]
        run([os.environ.get("CC", "cc"), *flags, "-o", folder / "libx10clock.so", *objects])


def version() -> str:
    """The version that the program prints."""
    text = (TOP / "CHANGELOG.md").read_text("utf-8")
    found = re.search(r"^## (\d+\.\d+\.\d+)", text, re.MULTILINE)
    return found[1] if found else "0"


def describe(folder: pathlib.Path) -> None:
    """The header, and what pkg-config asks for."""
    shutil.copyfile(HEADER, folder / "x10clock.h")
    lines = (
        "prefix=${pcfiledir}",
        "Name: x10clock",
        "Description: Checks, explains and runs clocked programs in a process",
        f"Version: {version()}",
        "Cflags: -I${prefix}",
        "Libs: -L${prefix} -lx10clock",
    )
    (folder / "x10clock.pc").write_text("\n".join(lines) + "\n", "utf-8")


def main() -> int:
    parser = argparse.ArgumentParser(description="Builds the library for other languages.")
    parser.add_argument("folder", type=pathlib.Path, metavar="FOLDER")
    parser.add_argument("--module", type=pathlib.Path, metavar="FILE", help="a module of LLVM that isn't proved")
    given = parser.parse_args()
    folder = given.folder.resolve()
    folder.mkdir(parents=True, exist_ok=True)
    with tempfile.TemporaryDirectory() as work:
        archive = pathlib.Path(work) / "libx10clock_c.a"
        if given.module:
            compile_module(given.module.resolve(), archive)
        else:
            prove(archive)
        link(archive, folder)
    describe(folder)
    print(f"library: {folder}, {'not proved' if given.module else 'proved'}")
    return 0


if __name__ == "__main__":
    sys.exit(main())
