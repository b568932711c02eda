"""The reference for `page`: the source text, the picture, and how things stand behind each step, in their elements, and
the policy; and with `--path` what is told of a critical path, in its own. What stands in each page besides, with its
script, means nothing to a run: it is taken from where the program has it."""

from __future__ import annotations

import base64
import functools
import hashlib
import re
from collections.abc import Iterator

from tests.harness import TOP
from tests.reference import events, path, picture, span
from tests.reference.events import Program
from tests.reference.lanes import WHOLE, Window
from tests.reference.logs import Played, Taken
from tests.reference.naming import Naming
from tests.reference.where import Place

FURNITURE = [TOP / f"crates/{name}/src/furniture.rt" for name in ("xk_show_page", "xk_path_page")]
TEXT = re.compile(r'^pub(?:\(crate\))? const (\w+): &str =\s+r(#+)"(.*?)"\2;$', re.MULTILINE | re.DOTALL)
STYLE, SCRIPT = ("COLOURS", "PLACES", "MARKS"), ("READER", "SHOWER", "MOVER")
# What a page with a critical path has more of them.
PATH_STYLE, PATH_SCRIPT = (*STYLE, "PATH_LOOK"), (*SCRIPT, "PATH_SCRIPT")
# The elements that hold the source text, the picture, the moments and the path.
SOURCE, PICTURE = '<pre id="source">\n', '<div id="picture" tabindex="0" role="group" aria-label="Lanes of the run">\n'
MOMENTS, PATH = (f'<script type="text/plain" id="{name}">\n' for name in ("moments", "path"))


@functools.cache
def furniture() -> dict[str, str]:
    """The texts that stand in each page, by their names."""
    texts = "".join(file.read_text(encoding="utf-8") for file in FURNITURE)
    return {name: text for name, _, text in TEXT.findall(texts)}


def piece(names: tuple[str, ...]) -> str:
    return "".join(furniture()[name] for name in names)


def allowed(text: str) -> str:
    """What a policy calls a script or a style of these bytes."""
    return f"'sha256-{base64.b64encode(hashlib.sha256(text.encode()).digest()).decode()}'"


def escaped(text: str) -> str:
    """A text as HTML has it."""
    return text.replace("&", "&amp;").replace("<", "&lt;").replace("\r", "&#13;")


def styled(style: str) -> str:
    """What stands in the one element of a style that is part of a picture."""
    return style.partition("<style>")[2].partition("</style>")[0]


def head(program: Program, has_path: bool) -> str:
    """What stands before the source text: a policy by which nothing is fetched, and one script and its own and the
    picture's styles count; and in title and heading the name of the file, but that of standard input."""
    style, script = (PATH_STYLE, PATH_SCRIPT) if has_path else (STYLE, SCRIPT)
    title = f"A run{f' of {escaped(program.name)}' if program.name != '-' else ''}"
    styles = [f"\n{piece(style)}", styled(picture.STYLE), *([styled(path.LEGEND)] if has_path else [])]
    policy = (
        f"default-src 'none'; style-src {' '.join(map(allowed, styles))}; script-src {allowed(chr(10) + piece(script))}"
    )
    return f"""<!DOCTYPE html>
<html lang="en">
<head>
<meta charset="utf-8">
<meta name="viewport" content="width=device-width, initial-scale=1">
<meta http-equiv="Content-Security-Policy" content="{policy}">
<title>{title}, step by step</title>
<style>
{piece(style)}</style>
</head>
<body class="still">
<header>
<h1>{title}{piece(("CONTROLS",))}{SOURCE}"""


def source(program: Program) -> str:
    """The source text, as HTML has it; a module has none."""
    text = "" if program.is_module else program.data.decode("utf-8")
    return escaped(text)


def line(program: Program, naming: Naming | None, taken: Taken) -> str:
    """What was done in a step: of a source text with names and values, but without whose write was read."""
    return f"{naming.told(taken)}\n" if naming else events.line(program, taken)


def moments(program: Program, played: Played, window: Window) -> Iterator[str]:
    """How things stand before the first step, and behind each that is asked for and that others see; of another one,
    but behind all of these, that it printed, if it did."""
    behind = Played(played.module, played.taken[0].before if played.taken else played.world)
    naming = None if program.is_module else Naming(program, played)
    yield Place(program, behind, None).text()
    for taken in played.taken:
        behind.taken.append(taken)
        behind.world = taken.step.world
        behind.phases.update({advance.clock: advance.phase for advance in taken.advances})
        if taken.step.event and taken.number in window:
            yield line(program, naming, taken) + Place(program, behind, None).text()
        elif taken.step.printed is not None and taken.number < window.stop:
            yield line(program, naming, taken)


def path_told(program: Program, played: Played, window: Window) -> str:
    """What `span` prints; the steps of the path that the picture has; and how many of all of them come from each line
    of the source text."""
    way = path.Path(played)
    lines = sorted(span.line_counts(program, way.steps).items())
    return "".join(
        [
            span.span(program, played),
            *(f"{way.words(taken)}\n" for taken in way.boxes(window)),
            *(f"line {line} with {many}\n" for line, many in lines),
        ]
    )


def drawing(
    program: Program, played: Played, window: Window = WHOLE, has_path: bool = False
) -> tuple[str, bool]:
    """The page, and whether its picture is whole; the line that stands in the place of one that is too large stands in
    the page's, too."""
    drawn, is_whole = (path.picture_drawing if has_path else picture.drawing)(program, played, window)
    if not drawn.startswith("<svg"):
        return drawn, False
    told = "".join(moments(program, played, window))
    way = f"</script>\n{PATH}{path_told(program, played, window)}" if has_path else ""
    script = piece(PATH_SCRIPT if has_path else SCRIPT)
    return (
        f"{head(program, has_path)}{source(program)}</pre>\n{piece(('LISTS',))}{PICTURE}{drawn}</div>\n</section>\n"
        f"</main>\n{MOMENTS}{told}{way}</script>\n<script>\n{script}</script>\n</body>\n</html>\n",
        is_whole,
    )
