"""Whether `rt fmt` would leave every file of the crates as it is.

    python3 -m tests.gate.layout

It asks the kit's `rattle fmt --check`, which is what `rt fmt` and `rt ci` ask: that writes nothing.
"""

from __future__ import annotations

import pathlib
import shutil
import sys

from tests import harness
from tests.harness import TOP


def rattle() -> str | None:
    """The kit's `rattle`: on the path, or beside `rt`."""
    rt = shutil.which("rt")
    folder = pathlib.Path(rt).resolve().parent if rt else None
    return shutil.which("rattle") or (shutil.which("rattle", path=folder) if folder else None)


def files() -> list[pathlib.Path]:
    """All files of code, definitions and proofs."""
    kinds = ("src/**/*.rt", "specs/**/*.antt", "proofs/**/*.antt")
    return [path.relative_to(TOP) for kind in kinds for path in sorted((TOP / "crates").glob(f"*/{kind}"))]


def main() -> int:
    program, asked = rattle(), files()
    if not program:
        print("layout: no rattle is here: rt ci will look at it")
        return 0
    status, out, err = harness.call([program, "fmt", "--check", *asked], seconds=600, cwd=TOP).texts()
    print(out + err, end="")
    print(f"layout: {len(asked)} files" + (", of which some aren't as rt fmt leaves them" if status else ""))
    return 1 if status or not asked else 0


if __name__ == "__main__":
    sys.exit(main())
