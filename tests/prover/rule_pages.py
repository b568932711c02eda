#!/usr/bin/env python3
"""Writes the texts of `explain CODE` into crates/xk_rules, from docs/REFUSALS.md: the page on each rule, as a terminal
shows it.

    tests/prover/rule_pages.py [TOP]            writes them
    tests/prover/rule_pages.py --check [TOP]    says whether they are as it would write them

A rule's section of docs/REFUSALS.md goes up to the next heading. Its paragraphs are broken at 80 columns, a row of a
table is a line, and what is in a block stands four columns in, below the questions that it begins with. Each rule has a
program that is refused by it, and each rule on programs one that is accepted, too: `tests/program/pages.py` asks the
program whether it is so.
"""

from __future__ import annotations

import argparse
import re
import sys
import textwrap
from collections.abc import Iterator, Sequence
from dataclasses import dataclass
from pathlib import Path

PAGE = "docs/REFUSALS.md"
CRATE = "crates/xk_rules"
COLUMNS = 80
MADE = "tests/prover/rule_pages.py writes this file, from docs/REFUSALS.md"
SECTION = re.compile(r"^### (?P<code>[FMVAL]\d+) (?P<name>\w+)\n(?P<text>.*?)(?=^##|\Z)", re.MULTILINE | re.DOTALL)
QUESTION = re.compile(r"(?:check|compile|run)(?: --\w+(?:=-?\d+| (?!--)\w+)?)*: .*")
ACCEPTED = re.compile(r"^(?:check(?: --module)?: accepted|run.*: (?:.*,)?ended steps) ", re.MULTILINE)
FENCE = re.compile(r"^```\w*$")
# The rules on logs, of which no program is refused.
ON_LOGS = "L"


class Fault(Exception):
    """Why the texts can't be written."""


@dataclass(frozen=True)
class Family:
    """Rules whose pages stand in one file: the letters of their codes, the file's name, and what they are about."""

    letters: str
    file: str
    about: str


FAMILIES = (
    Family("F", "source", "source texts"),
    Family("M", "module", "module texts"),
    Family("V", "verifier", "programs"),
    Family("AL", "run", "arguments and logs"),
)


@dataclass(frozen=True)
class Rule:
    """A rule: its code, its name, and the lines of its page."""

    code: str
    name: str
    lines: tuple[str, ...]


Groups = Sequence[tuple[Family, list[Rule]]]


def parts(text: str) -> Iterator[tuple[bool, list[str]]]:
    """The blocks of a section, and the paragraphs and tables between them: whether it is a block, and its lines."""
    lines: list[str] = []
    is_block = False
    for line in [*text.splitlines(), ""]:
        if FENCE.match(line):
            if lines:
                yield is_block, lines
            is_block, lines = not is_block, []
        elif line or is_block:
            lines.append(line)
        elif lines:
            yield False, lines
            lines = []


def of_block(lines: Sequence[str]) -> Iterator[str]:
    """A block: its questions, and four columns in what they are about."""
    count = next((k for k, line in enumerate(lines) if not QUESTION.fullmatch(line)), len(lines))
    yield from (re.sub(r",(?=\S)", ", ", line) if line.startswith("run") else line for line in lines[:count])
    if count:
        yield ""
    yield from (f"    {line}".rstrip() for line in lines[count:])


def of_table(lines: Sequence[str]) -> Iterator[str]:
    """A table: a line for each row, with the heading of its middle column."""
    rows = [[cell.strip() for cell in line.strip("|").split("|")] for line in lines]
    for row in rows[2:]:
        yield f"- {row[0]} ({rows[0][1].lower()} {row[1]}): {row[2]}"


def of_paragraph(lines: Sequence[str]) -> Iterator[str]:
    """A paragraph, in lines that no words in backquotes are broken by."""
    kept = re.sub(r"`[^`]*`", lambda quoted: quoted[0].replace(" ", "\0"), " ".join(lines))
    for line in textwrap.wrap(kept, COLUMNS, break_long_words=False, break_on_hyphens=False):
        yield line.replace("\0", " ")


def page_of(code: str, name: str, text: str) -> tuple[str, ...]:
    """The lines of a rule's page."""
    lines = [f"{code} {name}"]
    for is_block, part in parts(text):
        form = of_block if is_block else of_table if part[0].startswith("|") else of_paragraph
        lines += ["", *form(part)]
    return tuple(lines)


def rules(top: Path) -> list[Rule]:
    """The rules of the page, in its order."""
    found = []
    for section in SECTION.finditer((top / PAGE).read_text(encoding="utf-8")):
        code, name, text = section["code"], section["name"], section["text"]
        if f"x10clock: {code} {name}" not in text and "x10clock: device" not in text:
            raise Fault(f"{PAGE}: nothing is refused by {code}")
        if code[0] not in ON_LOGS and not ACCEPTED.search(text):
            raise Fault(f"{PAGE}: no program beside {code} is accepted")
        found.append(Rule(code, name, page_of(code, name, text)))
    return found


# ---- code and definitions


def quoted(line: str) -> str:
    return line.replace("\\", "\\\\").replace('"', '\\"')


def text_of(family: Family, rule: Rule) -> str:
    """The function that has a page."""
    inside, name = "".join(f"{line}\n" for line in rule.lines), rule.code.lower()
    return f"""/// The page on {rule.code}.
#[tactic(auto, unfolding(crate::specs::{family.file.capitalize()}::{name}))]
fn {name}() -> &'static str
    ensures {{ result.now ≡ {name} }}
{{
    r#"{inside}"#
}}
"""


def code_of(family: Family, of_family: Sequence[Rule]) -> str:
    """The file of a family's pages."""
    arms = "\n".join(f"        RulePage::{rule.name} => {rule.code.lower()}()," for rule in of_family)
    names = ", ".join([f"{family.file}_page", *(rule.code.lower() for rule in of_family)])
    texts = "\n".join(text_of(family, rule) for rule in of_family)
    return f"""//! The pages on {family.about}. ({MADE}.)

ghost use Rattle.std.specs.Prelude.{{◌≡◌}};
ghost use Rattle.xk_rules.specs.{family.file.capitalize()}.{{{names}}};

use crate::page::RulePage;

/// The page on a rule on {family.about}; of others none is here.
pub(crate) fn {family.file}_page(page: RulePage, other: &'static str) -> &'static str
    ensures {{ result.now ≡ {family.file}_page page other.now }}
{{
    match page {{
{arms}
        _ => other,
    }}
}}

{texts}"""


def definition_of(family: Family, of_family: Sequence[Rule]) -> str:
    """The file of the definition of a family's pages."""
    rows = "".join(f"{family.file}_page page.{rule.name} other = {rule.code.lower()}\n" for rule in of_family)
    texts = "\n".join(definition(rule) for rule in of_family)
    return f"""-- The pages on {family.about}. ({MADE}.) This project's own.
use Rattle.std.specs.Prelude.{{ℕ, List, codes}}
use Rattle.xk_rules.specs.declared.page.RulePage.{{RulePage}}
use Rattle.xk_rules.specs.declared.page.RulePage.TheVariants as page

{texts}
-- the page on a rule; of others none is here
abbrev pub {family.file}_page : RulePage → List ℕ → List ℕ
{rows}{family.file}_page _ other = other
"""


def definition(rule: Rule) -> str:
    """The definition of a page."""
    text, name = "".join(f"{quoted(line)}\\n" for line in rule.lines), rule.code.lower()
    return f'unfoldable pub {name} : List ℕ\n{name} = codes "{text}"\n'


def codes_of(groups: Groups) -> str:
    """The file of the rules and their codes."""
    rules = [rule for _, of_family in groups for rule in of_family]
    variants = "".join(f"    /// {rule.code}.\n    {rule.name},\n" for rule in rules)
    arms = "".join(f'            RulePage::{rule.name} => "{rule.code}",\n' for rule in rules)
    named = "\n".join(named_of(groups, k) for k in range(len(groups)))
    return f"""//! The rules that have a page, and their codes. ({MADE}.)

ghost use Rattle.std.specs.Prelude.{{◌≡◌, Some}};
ghost use Rattle.xk_rules.specs.Codes.{{page_code, {", ".join(finder(groups, k) for k in range(len(groups)))}}};

/// A rule that has a page.
#[derive(Clone, Copy, Debug, PartialEq, Eq)]
pub enum RulePage {{
{variants}}}

impl RulePage {{
    /// Its code, as `V9`, by which it is found.
    pub fn code(self) -> &'static str
        ensures code {{ result.now ≡ page_code self }}
        ensures found {{ page_named (page_code self) ≡ Some self }}
    {{
        match self {{
{arms}        }}
    }}
}}

{named}"""


def finder(groups: Groups, k: int) -> str:
    """The name of the function that finds the rules of a family by their codes, and then those of later ones."""
    return f"{groups[k][0].file}_named" if k else "page_named"


def named_of(groups: Groups, k: int) -> str:
    """This function."""
    family, of_family = groups[k]
    arms = "".join(f'        "{rule.code}" => Some(RulePage::{rule.name}),\n' for rule in of_family)
    behind = f"{finder(groups, k + 1)}(code)" if k + 1 < len(groups) else "None"
    what = f"The rule on {family.about} of this code, or on what comes behind them" if k else "The rule of this code"
    return f"""/// {what}, letter for letter.
pub(crate) fn {finder(groups, k)}(code: &str) -> Option<RulePage>
    ensures {{ result ≡ {finder(groups, k)} code.now }}
{{
    match code {{
{arms}        _ => {behind},
    }}
}}
"""


def code_definitions(groups: Groups) -> str:
    """The file of the definitions of codes."""
    rules = [rule for _, of_family in groups for rule in of_family]
    rows = "".join(f'page_code page.{rule.name} = codes "{rule.code}"\n' for rule in rules)
    named = []
    for k in reversed(range(len(groups))):
        behind = f"{finder(groups, k + 1)} code" if k + 1 < len(groups) else "None"
        tests = "".join(
            f'    {"else " if i else ""}if bytes_eq code (codes "{rule.code}") then Some page.{rule.name}\n'
            for i, rule in enumerate(groups[k][1])
        )
        named.append(
            f"abbrev pub {finder(groups, k)} : List ℕ → Option RulePage\n{finder(groups, k)} code =\n"
            f"{tests}    else {behind}\n"
        )
    return f"""-- The rules that have a page, by their codes. ({MADE}.) This project's own.
use Rattle.std.specs.Prelude.{{ℕ, List, Option, Some, None, codes, if◌then◌else◌}}
use Rattle.std.specs.Str.{{bytes_eq}}
use Rattle.xk_rules.specs.declared.page.RulePage.{{RulePage}}
use Rattle.xk_rules.specs.declared.page.RulePage.TheVariants as page

-- the code of a rule
abbrev pub page_code : RulePage → List ℕ
{rows}
-- the rule of a code: each family's, or those behind it
{chr(10).join(named)}"""


def files(top: Path) -> dict[str, str]:
    """The files that are written, by their paths."""
    found = rules(top)
    groups = [(family, [rule for rule in found if rule.code[0] in family.letters]) for family in FAMILIES]
    made = {f"{CRATE}/src/page.rt": codes_of(groups), f"{CRATE}/specs/Codes.antt": code_definitions(groups)}
    for family, of_family in groups:
        made[f"{CRATE}/src/{family.file}.rt"] = code_of(family, of_family)
        made[f"{CRATE}/specs/{family.file.capitalize()}.antt"] = definition_of(family, of_family)
    return made


def main() -> int:
    parser = argparse.ArgumentParser(description="Writes the texts of `explain CODE` from docs/REFUSALS.md.")
    parser.add_argument("--check", action="store_true", help="write nothing, and say what is otherwise")
    parser.add_argument("top", nargs="?", type=Path, default=Path(__file__).resolve().parents[2], metavar="TOP")
    given = parser.parse_args()
    made = files(given.top)
    if not given.check:
        for name, text in made.items():
            (given.top / name).write_text(text, encoding="utf-8")
        return 0
    otherwise = [name for name, text in made.items() if (given.top / name).read_text(encoding="utf-8") != text]
    for name in otherwise:
        print(f"{name} isn't as tests/prover/rule_pages.py writes it")
    print(f"rule pages: {len(made)} files, {len(otherwise)} otherwise")
    return 1 if otherwise else 0


if __name__ == "__main__":
    sys.exit(main())
