"""Whether the checkout has just what is committed: no changed file, and none that git doesn't know.

    python3 -m tests.gate.tree
"""

from __future__ import annotations

import sys

from tests import harness


def main() -> int:
    status, out, err = harness.call(["git", "status", "--porcelain"], cwd=harness.TOP).texts()
    if status:
        print(f"tree: git can't tell, so nothing is looked at: {err.strip()}")
        return 0
    print(out, end="")
    print(f"tree: {len(out.splitlines())} files that aren't as they are committed")
    return 1 if out else 0


if __name__ == "__main__":
    sys.exit(main())
