"""Whether the scripts keep to the settings of pyproject.toml, as far as this can be seen without other tools.

    python3 -m tests.gate.python_style

No line is longer than `line-length`, and whatever is imported is used.
"""

from __future__ import annotations

import ast
import pathlib
import sys
import tomllib
from collections.abc import Iterator

from tests.harness import TOP

FOLDERS = ("bench", "dist", "library", "python", "tests")


def scripts() -> list[pathlib.Path]:
    return sorted(path for folder in FOLDERS for path in (TOP / folder).rglob("*.py"))


def imported(tree: ast.Module) -> Iterator[tuple[int, str]]:
    """The names that imports bring, with their lines."""
    for node in ast.walk(tree):
        if isinstance(node, ast.Import):
            yield from ((node.lineno, (name.asname or name.name).partition(".")[0]) for name in node.names)
        elif isinstance(node, ast.ImportFrom) and node.module != "__future__":
            yield from ((node.lineno, name.asname or name.name) for name in node.names)


def handed_on(tree: ast.Module) -> set[str]:
    """The names that a module hands on: those of its `__all__`."""
    assigned = [node for node in tree.body if isinstance(node, ast.Assign)]
    lists = [node.value for node in assigned if ast.unparse(node.targets[0]) == "__all__"]
    return {name for value in lists for name in ast.literal_eval(value)}


def faults(path: pathlib.Path, most: int) -> Iterator[str]:
    """What is wrong with a script."""
    text = path.read_text(encoding="utf-8")
    where = path.relative_to(TOP)
    for number, line in enumerate(text.split("\n"), 1):
        if len(line) > most:
            yield f"{where}:{number}: {len(line)} columns"
    tree = ast.parse(text, str(where))
    used = {node.id for node in ast.walk(tree) if isinstance(node, ast.Name)} | handed_on(tree)
    yield from (f"{where}:{line}: {name} isn't used" for line, name in imported(tree) if name not in used)


def main() -> int:
    settings = tomllib.loads((TOP / "pyproject.toml").read_text(encoding="utf-8"))
    most, asked = settings["tool"]["ruff"]["line-length"], scripts()
    found = [fault for path in asked for fault in faults(path, most)]
    print(*found, sep="\n", end="\n" if found else "")
    print(f"python style: {len(asked)} scripts, {len(found)} faults")
    return 1 if found or not asked else 0


if __name__ == "__main__":
    sys.exit(main())
