"""Whether what the pages point to is there.

    python3 -m tests.gate.links [PAGE ..]

Of each page of the repository: each relative link, with the heading that it goes to; each word in backquotes that has a
slash and looks like a file or a folder of the repository; each that looks like a file's name, of code, of proofs or of
a script; and each call of a script, `python3 -m tests.FOLDER.NAME`. A path may begin at the top, at the page's folder,
at `crates/` or within a crate, at `tests/` or within a folder of it; a name may be that of any file. `NAME` and `CRATE`
are any name, as is one with `Subject`, and the file behind them is any of its kind; `*` is any part of a name. What is
built, in a folder `out/`, needn't be there.
"""

from __future__ import annotations

import fnmatch
import pathlib
import re
import sys
from collections.abc import Iterator
from functools import cache

from tests import harness
from tests.harness import TOP

FENCE = re.compile(r"^```.*?^```$", re.MULTILINE | re.DOTALL)
LINK = re.compile(r"\]\(([^()\s]+)\)")
QUOTED = re.compile(r"`([^`\n]+)`")
SUFFIXES = "antt bugs c edit h html in json log md pml py rows rt sh svg toml txt vim x10".split()
PATH = re.compile(r"[\w.*-]+(?:/[\w.*-]+)*/?")
# The name of a file that a page means as one of the repository, also where no folder stands before it.
FILE = re.compile(r"[\w.*-]*\w\.(?:antt|bugs|c|edit|py|rt|sh)")
CALL = re.compile(r"python3 -m ((?:bench|tests)(?:\.\w+)+)")
ANY = ("NAME", "CRATE")
# Where a path may begin, beside the top and the page's folder.
ROOTS = ("crates", "crates/*", "crates/*/src", "crates/*/specs", "crates/*/proofs", "tests", "tests/*")


@cache
def files() -> list[pathlib.Path]:
    """All files of the repository, but for what is built; those too that nobody has committed yet."""
    words = ["git", "ls-files", "--cached", "--others", "--exclude-standard"]
    status, out, _ = harness.call(words, cwd=TOP).texts()
    listed = [TOP / line for line in out.splitlines()] if status == 0 else TOP.rglob("*")
    return sorted(path for path in listed if "out" not in path.parts and path.is_file())


def pages() -> list[pathlib.Path]:
    """All pages."""
    return [path for path in files() if path.suffix == ".md"]


@cache
def is_file_name(name: str) -> bool:
    """Whether a file somewhere has this name."""
    is_any = "Subject" in name or name.partition(".")[0] in ANY
    return is_any or any(fnmatch.fnmatchcase(path.name, name) for path in files())


def is_script(module: str) -> bool:
    """Whether `python3 -m` finds this one."""
    path = TOP.joinpath(*module.split("."))
    return path.with_suffix(".py").exists() or (path / "__main__.py").exists()


@cache
def anchors(page: pathlib.Path) -> set[str]:
    """The names of a page's headings, as links have them."""
    text = FENCE.sub("", page.read_text(encoding="utf-8"))
    heads = re.findall(r"^#+ +(.*?) *$", text, re.MULTILINE)
    return {re.sub(r"[^\w\- ]", "", head.lower()).replace(" ", "-") for head in heads}


def is_linked(page: pathlib.Path, target: str) -> bool:
    """Whether there is what a link goes to."""
    if re.match(r"[a-z]+:", target):
        return True
    name, _, heading = target.partition("#")
    path = page.parent / name if name else page
    return path.exists() and (not heading or path.suffix != ".md" or heading in anchors(path))


@cache
def names() -> set[str]:
    """The names at the top and in crates/."""
    return {path.name for folder in (TOP, TOP / "crates") for path in folder.iterdir()}


def paths(quoted: str) -> Iterator[str]:
    """The words that look like paths: with a file's suffix or a slash at the end, or with a known name at the start."""
    for word in quoted.split():
        path = word.rpartition("=")[2]
        is_one = path.endswith("/") or path.rpartition(".")[2] in SUFFIXES or path.partition("/")[0] in names()
        if "/" in path and not path.startswith("./") and PATH.fullmatch(path) and is_one:
            yield path


def pattern_of(path: str) -> str:
    """A path as a pattern."""
    parts = path.strip("/").split("/")
    if any(part.partition(".")[0] in ANY for part in parts):
        parts[-1] = f"*{pathlib.Path(parts[-1]).suffix}"
    return "/".join("*" if part in ANY else part for part in parts)


@cache
def is_there(folder: pathlib.Path, path: str) -> bool:
    """Whether there is such a folder, or file, also where its suffix is left out, within a folder."""
    pattern = pattern_of(path)
    return any(next(folder.glob(one), None) for one in (pattern, f"{pattern}.*"))


def is_known(page: pathlib.Path, path: str) -> bool:
    """Whether there is a file or a folder that is meant by a path."""
    if "out" in path.split("/"):
        return True
    if path.startswith(".."):
        return (page.parent / path).exists()
    if is_there(TOP, path) or is_there(page.parent, path):
        return True
    return any(is_there(TOP, f"{root}/{path}") for root in ROOTS)


def looked_at(page: pathlib.Path) -> Iterator[tuple[str, bool]]:
    """All that a page points to, and whether it is there."""
    text = page.read_text(encoding="utf-8")
    plain = FENCE.sub(lambda found: "\n" * found[0].count("\n"), text)
    for number, line in enumerate(plain.split("\n"), 1):
        where = f"{page.relative_to(TOP)}:{number}"
        yield from ((f"{where}: no {target}", is_linked(page, target)) for target in LINK.findall(line))
        yield from ((f"{where}: no {module}", is_script(module)) for module in CALL.findall(line))
        for quoted in QUOTED.findall(line):
            yield from ((f"{where}: no {path}", is_known(page, path)) for path in paths(quoted))
            named = (word for word in quoted.split() if FILE.fullmatch(word))
            yield from ((f"{where}: no {name}", is_file_name(name)) for name in named)


def main() -> int:
    asked = [harness.resolved(word) for word in sys.argv[1:]] or pages()
    found = [each for page in asked for each in looked_at(page)]
    wrong = [what for what, is_right in found if not is_right]
    print(*wrong, sep="\n", end="\n" if wrong else "")
    print(f"links: {len(asked)} pages, {len(found)} links and paths, {len(wrong)} that lead nowhere")
    return 1 if wrong or not found else 0


if __name__ == "__main__":
    sys.exit(main())
