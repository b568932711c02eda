#!/usr/bin/env python3
"""Reads pages of `page` by Python's parser of HTML, which knows nothing of x10clock, and compares what stands there
with what the program says of the same run.

    python3 -m tests.program.html_pages [--program PATH]

Of some runs, one of them of a module, and some of texts that have what HTML takes for something else: the text of the
element `source` is FILE's; that of `moments` is what `where` prints before the first step and behind each that is asked
for, each after the line of `events` without whose write was read, with those of the other steps that printed; that of
`picture` is what `lanes --svg` prints. Of each also the page with `--path`: there the picture is that of `lanes --svg
--path`, and the text of `path` what `span` prints, the steps of the path that the picture names, and how many come from
each line, the most as `span` says. The policy stands in the head before all that could fetch, no element fetches,
and all elements are closed, in order. Then a page is made wrong on purpose, in several ways, each of which has to be
refused.
"""

from __future__ import annotations

import argparse
import base64
import hashlib
import html.parser
import itertools
import pathlib
import re
import sys
import tempfile
from collections.abc import Callable, Iterable, Iterator
from dataclasses import dataclass, field
from typing import Any, NamedTuple

from tests import harness
from tests.harness import TOP

# Programs whose texts have what HTML takes for something else.
TEXTS = {
    "signs.x10": """// </pre><script>alert(1)</script> &lt; & &amp; \u00e9\r
def main() {\r
\tif (1 < 2) Console.OUT.println(-1); // <!--\r
}
""",
    # The parser leaves out a line's end right behind `<pre>`, and takes a carriage return for one.
    "ends-of-lines.x10": "\n\r\n\r\r\n// one\rtwo\n\ndef main() { Console.OUT.println(1); }\n\n\r",
    "tags.x10": """/* </PRE ></section></main></body></html> <!-- --> <![CDATA[ ]]> <?php ?> <!DOCTYPE x> <plaintext>
<style>*{display:none}</style> <img src=x onerror=alert(1)> <script src="x.js"></script> </script> <a href='//x'>
&#13; &#x0D; &#0; &notin &copy; &copy &amp;amp; &&lt; " ' ` < <\t
\x01\x0b\x0c\x7f\u0080\u0085\u00a0\u2028\ufeff\U0001f600 */
def main() { Console.OUT.println(1); }""",
}
# The runs: a program of examples/ or TEXTS, who takes the steps, and which steps are asked for.
RUNS: tuple[tuple[str, str, tuple[int, ...]], ...] = (
    ("held-back.x10", "last", ()),
    ("stencil.x10", "first", ()),
    ("unlucky-schedule.x10", "round", ()),
    ("stencil.x10", "random", (40, 60)),
    ("tree-of-finishes.x10", "last", ()),
    ("ring.json", "first", ()),
    ("signs.x10", "first", ()),
    ("ends-of-lines.x10", "first", ()),
    ("tags.x10", "first", ()),
)
# Whose write was read, in a line of `events`.
WRITER = re.compile(r" \((?:step (\d+)|opening)\)$")
# Elements that have no end, elements that fetch something, and attributes that say what is fetched; `href` is for parts
# of the page alone.
WITHOUT_END = {"meta", "input"}
FETCHING = set("applet audio base embed feimage form frame iframe image img link object source track video".split())
ADDRESSES = set("action archive background code codebase data formaction manifest ping poster src srcset".split())
# Pages that are wrong on purpose, made of that of signs.x10: what is done, what is taken out, and what comes instead.
WRONG = (
    ("the title has another name", "<title>A run of ", "<title>A run of an"),
    ("the source text's element isn't closed", "</pre>\n", ""),
    ("a tag of the source text is one of the page", "&lt;/pre>", "</pre>"),
    ("a script of the source text is one of the page", "&lt;script>", "<script>"),
    ("a reference of the source text is one of the page", "&amp;lt;", "&lt;"),
    ("a carriage return stands as it is", "&#13;", "\r"),
    ("the source text begins behind `<pre>`", '<pre id="source">\n', '<pre id="source">'),
    ("the policy is none", '<meta http-equiv="Content-Security-Policy"', '<meta name="policy"'),
    ("the policy lets the page fetch", "default-src 'none'", "default-src *"),
    ("the policy lets any script run", "script-src 'sha256-", "script-src 'unsafe-inline' 'sha256-"),
    ("the policy comes behind the head", '<meta http-equiv="Content', '</head><head>\n<meta http-equiv="Content'),
    ("the script is another one", '"use strict"', '"use strict";alert(1)'),
    ("a script comes from elsewhere", '<script>\n"use strict"', '<script src="//x"></script>\n<script>\n"use strict"'),
    ("a colour comes from elsewhere", "margin:0;", "margin:0;background:url(//x);"),
    ("an activity stands elsewhere", "act 0 at 4:1 can step\n", "act 0 at 4:2 can step\n"),
    ("the first moment isn't there", "steps 0\nact 0 ", "act 0 "),
    ("a moment stands in the list of another", "\nstep 5 act 0 at ", "\nstep 4 act 0 at "),
    ("the moments aren't there as text", '<script type="text/plain" id="moments">', '<script id="moments">'),
    ("a box of the picture has another line", "<title>step ", "<title>steps "),
)
# The same of its page with a critical path.
WRONG_PATHS = (
    ("a step of the path isn't told", "\nstep 5 act 0 round 5\n", "\n"),
    ("a step of the path has another round", "\nstep 5 act 0 round 5\n", "\nstep 5 act 0 round 6\n"),
    ("a line has more steps of the path", "\nline 3 with ", "\nline 3 with 1"),
    ("steps of the path come from another line", "\nline 3 with ", "\nline 2 with "),
    ("it is said of other runs, too", "\nevery schedule has", "\nof this run alone: every schedule has"),
    ("the path isn't there as text", '<script type="text/plain" id="path">', '<script id="path">'),
    ("the picture has no path", "<path class='critical' d='M16 79h32'/>", ""),
    ("the script of the path is another one", "tick.checked = true;", "tick.checked = false;"),
)
# A step that the picture of a path names, and what `span` says of lines.
NAMED, LINES = re.compile(r" (step \d+ act \d+ round \d+);"), re.compile(r"^path lines (.*)$", re.MULTILINE)


class Wrong(Exception):
    """The page says something else than the program."""


def same(what: str, said: Any, wanted: Any) -> None:
    if said != wanted:
        raise Wrong(f"{what}: the page says {said!r}, and not {wanted!r}")


# ---- runs, and what the program says of them


def answered(words: list[object], *partial: int) -> str:
    """What a call of the program tells, which has to be done, or to have one of these statuses."""
    ended = harness.call(words)
    if ended.status not in (0, *partial):
        raise Wrong(f"status {ended.status}: {ended.err!r}")
    return ended.out.decode()


class Run(NamedTuple):
    """A program, its log, which steps are asked for, and whether with a critical path."""

    program: pathlib.Path
    file: pathlib.Path
    log: pathlib.Path
    part: tuple[int, ...]
    has_path: bool = False

    @property
    def is_module(self) -> bool:
        return self.file.suffix == ".json"

    @property
    def flags(self) -> list[str]:
        return ["--module"] if self.is_module else []

    @property
    def window(self) -> list[str]:
        return [f"{flag}={step}" for flag, step in zip(("--from", "--to"), self.part)]

    @property
    def path(self) -> list[str]:
        return ["--path"] if self.has_path else []

    def ask(self, command: str, log: pathlib.Path, *more: str) -> str:
        return answered([self.program, command, *self.flags, *more, self.file, log])

    def span(self) -> str:
        """What `span` prints, of a run with a race, too."""
        return answered([self.program, "span", *self.flags, self.file, self.log], 6)

    def where(self, steps: int) -> str:
        """How things stand behind so many steps of the log, which has an entry for each."""
        entries = self.log.read_text().splitlines()[1 : steps + 1]
        cut = self.log.with_suffix(".cut")
        cut.write_text("".join(f"{line}\n" for line in ["x10log 1", *entries, f"end {steps}"]))
        return self.ask("where", cut)

    def page(self) -> str:
        return self.ask("page", self.log, *self.path, *self.window)

    def picture(self) -> str:
        return self.ask("lanes", self.log, "--svg", *self.path, *self.window)

    def named(self) -> list[str]:
        """The steps of the path that the picture names."""
        return NAMED.findall(self.picture().partition("</desc>")[0])

    def source(self) -> str:
        """The source text that the page has; of a module it has none."""
        return "" if self.is_module else self.file.read_bytes().decode()

    def events(self) -> dict[int, str]:
        """The lines that the page has of the steps that others see, by their numbers: those of `events`, but for whose
        write was read."""
        lines = (WRITER.sub("", line) for line in self.ask("events", self.log).splitlines())
        return {int(line.split()[1]): line for line in lines}

    def shown(self) -> dict[int, str]:
        """The same as the script shows them: a read with the step whose write it saw, where that is one of the page."""
        first = self.part[0] if self.part else 0
        lines = {int(line.split()[1]): line for line in self.ask("events", self.log).splitlines()}
        writers = {step: WRITER.search(line) for step, line in lines.items()}
        told = {step: found[1] and int(found[1]) >= first for step, found in writers.items() if found}
        return {step: line if told.get(step, True) else WRITER.sub("", line) for step, line in lines.items()}

    def asked(self) -> list[int]:
        """The steps behind which the page shows how things stand; 0 is before the first."""
        first, last = self.part or (0, sys.maxsize)
        return [0, *(step for step in self.events() if first <= step <= last)]

    def moments(self) -> Iterator[str]:
        """What the page has of the steps: of one that is asked for its line and how things stand, of one before these
        its line where it printed."""
        asked = set(self.asked())
        last = self.part[1] if self.part else sys.maxsize
        yield self.where(0)
        for step, line in self.events().items():
            if step in asked:
                yield f"{line}\n{self.where(step)}"
            elif " print " in line and step <= last:
                yield f"{line}\n"


def made(program: pathlib.Path, name: str, order: str, part: tuple[int, ...], folder: pathlib.Path) -> Run:
    """A run of a program, whose log it leaves in the folder."""
    file = TOP / "examples" / name
    if name in TEXTS:
        file = folder / name
        file.write_bytes(TEXTS[name].encode())
    run = Run(program, file, folder / f"{name}.log", part)
    answered([program, "run", *run.flags, "--order", order, "--log", run.log, run.file])
    return run


# ---- pages, as the parser takes them


@dataclass
class Element:
    """An element of a page: its name, its attributes, where what stands in it begins and ends, and its text, without
    that of the elements in it."""

    name: str
    attributes: dict[str, str]
    begins: int
    ends: int = 0
    text: str = ""
    inside: list[Element] = field(default_factory=list)

    def walk(self) -> Iterator[Element]:
        """It and all elements in it, in the order in which they begin."""
        yield self
        for element in self.inside:
            yield from element.walk()


class Page(html.parser.HTMLParser):
    """A page, whose elements have to be closed, in order."""

    def __init__(self, text: str) -> None:
        super().__init__(convert_charrefs=True)
        # HTML takes each end of a line for a line feed, before it looks at anything.
        self.text = text.replace("\r\n", "\n").replace("\r", "\n")
        self.lines = [0, *(found.end() for found in re.finditer("\n", self.text))]
        self.open = [Element("", {}, 0)]
        self.feed(self.text)
        self.close()
        if len(self.open) > 1:
            raise Wrong(f"<{self.open[-1].name}> isn't closed")
        self.all = list(self.open[0].walk())[1:]

    def place(self) -> int:
        line, column = self.getpos()
        return self.lines[line - 1] + column

    def add(self, name: str, attributes: list[tuple[str, str | None]]) -> Element:
        begins = self.place() + len(self.get_starttag_text() or "")
        element = Element(name, {key: value or "" for key, value in attributes}, begins)
        self.open[-1].inside.append(element)
        return element

    def handle_starttag(self, tag: str, attrs: list[tuple[str, str | None]]) -> None:
        element = self.add(tag, attrs)
        if tag not in WITHOUT_END:
            self.open.append(element)

    def handle_startendtag(self, tag: str, attrs: list[tuple[str, str | None]]) -> None:
        self.add(tag, attrs)

    def handle_endtag(self, tag: str) -> None:
        if tag != self.open[-1].name:
            raise Wrong(f"</{tag}> closes <{self.open[-1].name}>")
        self.open.pop().ends = self.place()

    def handle_data(self, data: str) -> None:
        self.open[-1].text += data

    def handle_comment(self, data: str) -> None:
        raise Wrong(f"a comment: {data!r}")

    def handle_pi(self, data: str) -> None:
        raise Wrong(f"an instruction: {data!r}")

    def unknown_decl(self, data: str) -> None:
        raise Wrong(f"a declaration: {data!r}")

    def handle_decl(self, decl: str) -> None:
        same("where the declaration stands", self.place(), 0)
        same("declaration", decl, "DOCTYPE html")

    def named(self, name: str) -> list[Element]:
        return [element for element in self.all if element.name == name]

    def by_id(self, name: str) -> Element:
        """The one element with this id."""
        found = [element for element in self.all if element.attributes.get("id") == name]
        same(f"elements with the id {name}", len(found), 1)
        return found[0]


def behind_first_line(element: Element, text: str) -> str:
    """What stands in an element behind the line's end that it has to begin with."""
    same(f"{element.name}'s first line", text[:1], "\n")
    return text[1:]


def try_title(page: Page, run: Run) -> None:
    """The file's name stands in the title and in the heading."""
    for name in ("title", "h1"):
        first, *_ = page.named(name)
        same(name, first.text, f"A run of {run.file}, step by step")


def try_source(page: Page, run: Run) -> None:
    """The source text stands in an element of its own. Behind `<pre>` HTML leaves out a line's end."""
    source = page.by_id("source")
    same("the source text's element", [source.name, source.inside], ["pre", []])
    same("source text", behind_first_line(source, source.text), run.source())


def try_picture(page: Page, run: Run) -> None:
    picture = page.by_id("picture")
    same("what stands in the picture's element", [element.name for element in picture.inside], ["svg"])
    drawn = page.text[picture.begins : picture.ends]
    same("picture", behind_first_line(picture, drawn), run.picture())


def try_moments(page: Page, run: Run) -> None:
    moments = page.by_id("moments")
    how = {"type": "text/plain", "id": "moments"}
    same("the moments' element", [moments.name, moments.attributes], ["script", how])
    same("moments", behind_first_line(moments, moments.text), "".join(run.moments()))


def try_path(page: Page, run: Run) -> None:
    """What `span` prints, the steps of the path that the picture has, and how many of all come from each line."""
    path = page.by_id("path")
    same("the path's element", [path.name, path.attributes], ["script", {"type": "text/plain", "id": "path"}])
    span = run.span()
    told = behind_first_line(path, path.text)
    same("what span prints", told[: len(span)], span)
    steps = "".join(f"{step}\n" for step in run.named())
    same("the path's steps", told[len(span) :][: len(steps)], steps)
    lines = [line.split() for line in told[len(span) + len(steps) :].splitlines()]
    counts = {int(line): int(many) for word, line, _, many in lines if word == "line"}
    same("the path's lines", [len(counts), sorted(counts)], [len(lines), list(counts)])
    most = sorted(counts.items(), key=lambda item: (-item[1], item[0]))[:5]
    said = LINES.findall(span)
    same("the lines with the most", [", ".join(f"{line} with {many}" for line, many in most)] if most else [], said)
    same("steps on lines", sum(counts.values()), 0 if run.is_module else int(span.split()[3]))


def policy(page: Page) -> str:
    """The policy by which the page's one script runs, its styles count, and nothing is fetched."""

    def sums(elements: Iterable[Element]) -> str:
        made = (hashlib.sha256(element.text.encode()).digest() for element in elements)
        return " ".join(f"'sha256-{base64.b64encode(each).decode()}'" for each in made)

    scripts = [script for script in page.named("script") if "type" not in script.attributes]
    return f"default-src 'none'; style-src {sums(page.named('style'))}; script-src {sums(scripts)}"


def try_policy(page: Page) -> None:
    """The policy is one, and stands in the head before all that it could forbid. No element has a style of its own."""
    tops = [element for element in page.all if element.name in ("html", "head", "body")]
    same("the largest elements", [element.name for element in tops], ["html", "head", "body"])
    policies = [element for element in page.all if "http-equiv" in element.attributes]
    wanted = {"http-equiv": "Content-Security-Policy", "content": policy(page)}
    same("policies", [element.attributes for element in policies], [wanted])
    before = [element.name for element in itertools.takewhile(lambda it: it is not policies[0], tops[1].inside)]
    same("what stands before the policy", before, ["meta", "meta"])
    same("elements with a style", [element.name for element in page.all if "style" in element.attributes], [])


def try_fetches(page: Page, run: Run) -> None:
    """No element fetches anything, nor has a script of its own, but for those of each page."""
    for element in page.all:
        same("an element that fetches", element.name if element.name in FETCHING else "", "")
        for key, value in element.attributes.items():
            is_local = key not in ADDRESSES and not key.startswith("on")
            is_part = key not in ("href", "xlink:href") or value.startswith("#")
            if not is_local or not is_part or re.search(r"url\((?!#)|javascript:", value):
                raise Wrong(f"an attribute of <{element.name}>: {key}={value!r}")
    styles = "".join(style.text for style in page.named("style"))
    same("what colours fetch", re.findall(r"@import|url\((?!#)[^)]*", styles), [])
    scripts = ["moments", *(["path"] if run.has_path else []), ""]
    same("scripts", [script.attributes.get("id", "") for script in page.named("script")], scripts)


def compare(text: str, run: Run) -> None:
    """Whether a page says what the program says of its run."""
    page = Page(text)
    try_title(page, run)
    try_source(page, run)
    try_picture(page, run)
    try_moments(page, run)
    if run.has_path:
        try_path(page, run)
    try_policy(page)
    try_fetches(page, run)


def is_refused(call: Callable[[], None]) -> bool:
    try:
        call()
    except Wrong:
        return True
    return False


def plant(text: str, run: Run, wrong: tuple[tuple[str, str, str], ...]) -> None:
    """Each page that is wrong on purpose has to be refused."""
    for what, old, new in wrong:
        if old not in text:
            raise Wrong(f"{what}: the page has no {old!r}")
        if not is_refused(lambda: compare(text.replace(old, new, 1), run)):
            raise Wrong(f"not seen: {what}")


def main() -> int:
    words = argparse.ArgumentParser(description="Reads pages by a parser of HTML.")
    harness.add_program(words)
    program = words.parse_args().program
    moments = 0
    with tempfile.TemporaryDirectory() as folder:
        for name, order, part in RUNS:
            try:
                run = made(program, name, order, part, pathlib.Path(folder))
                text = run.page()
                compare(text, run)
                pathed = run._replace(has_path=True)
                with_path = pathed.page()
                compare(with_path, pathed)
                moments += len(run.asked())
                if name == "signs.x10":
                    plant(text, run, WRONG)
                    plant(with_path, pathed, WRONG_PATHS)
            except Wrong as wrong:
                print(f"{name}: {wrong}", file=sys.stderr)
                return 1
    wrong = len(WRONG) + len(WRONG_PATHS)
    print(f"html_pages: {len(RUNS)} pages with {moments} moments, also with a path; {wrong} wrong ones are refused")
    return 0


if __name__ == "__main__":
    sys.exit(main())
