#!/usr/bin/env python3
"""Writes the wheel of the package x10clock, with the library that library/build.py made: a zip, as PEP 427 has it.

    python3 python/make_wheel.py LIBRARY_FOLDER OUT_FOLDER
    pip install --no-index OUT_FOLDER/x10clock-*.whl
"""

from __future__ import annotations

import base64
import hashlib
import pathlib
import re
import sys
import zipfile

PACKAGE = pathlib.Path(__file__).resolve().parent / "x10clock"
TAG = "py3-none-linux_x86_64"
ABOUT = "Summary: Checks, explains, runs and grades clocked programs in a process\nRequires-Python: >=3.11\n"


def sum_of(text: bytes) -> str:
    """A checksum, as RECORD has it."""
    return base64.urlsafe_b64encode(hashlib.sha256(text).digest()).rstrip(b"=").decode()


def main(library: pathlib.Path, out: pathlib.Path) -> int:
    found = re.search(r"^Version: (.+)$", (library / "x10clock.pc").read_text("utf-8"), re.MULTILINE)
    name, version = "x10clock", found[1] if found else "0"
    info = f"{name}-{version}.dist-info"
    files = {f"{name}/{path.name}": path.read_bytes() for path in sorted(PACKAGE.iterdir()) if path.is_file()}
    files[f"{name}/libx10clock.so"] = (library / "libx10clock.so").read_bytes()
    files[f"{info}/METADATA"] = f"Metadata-Version: 2.1\nName: {name}\nVersion: {version}\n{ABOUT}".encode()
    files[f"{info}/WHEEL"] = f"Wheel-Version: 1.0\nGenerator: x10clock\nRoot-Is-Purelib: false\nTag: {TAG}\n".encode()
    lines = [f"{path},sha256={sum_of(text)},{len(text)}" for path, text in files.items()]
    files[f"{info}/RECORD"] = "\n".join([*lines, f"{info}/RECORD,,", ""]).encode()
    made = out / f"{name}-{version}-{TAG}.whl"
    with zipfile.ZipFile(made, "w", zipfile.ZIP_DEFLATED) as wheel:
        for path, text in files.items():
            wheel.writestr(zipfile.ZipInfo(path, (2026, 1, 1, 0, 0, 0)), text, zipfile.ZIP_DEFLATED)
    print(made)
    return 0


if __name__ == "__main__":
    sys.exit(main(*map(pathlib.Path, sys.argv[1:])))
