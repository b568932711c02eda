"""The reference for names in lines of `explain` (docs/EXPLAIN.md)."""

from __future__ import annotations

# So many letters of a name are shown inside a line.
SHOWN = 60


def cut(name: str) -> str:
    """A name inside a line."""
    return name[:SHOWN] + (".." if len(name) > SHOWN else "")
