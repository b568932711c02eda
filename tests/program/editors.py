#!/usr/bin/env python3
"""Holds `editors/` against the lexer and against `explain`.

Colours: each reserved word and each sign of `crates/xk_lexer/src/scan.rt` is coloured whole, by one rule, in the syntax
file for vim and in the grammar; and no word is coloured as reserved that isn't. A name that only begins with a reserved
word isn't; a comment is one whatever stands in it. Then it says so of each example: what is left uncoloured are names
and blanks.

Faults, of programs that are refused at a place and without one: vim and neovim are run, and `:make` has to make the
entry that `explain` says; the script for neovim is run in neovim, and the extension for VS Code in node, over a
stand-in for `vscode`: the diagnostic has to be what `explain --json` says, and has to go when the text is mended. The
extension's problem matchers are tried on the lines of `explain`. An editor that isn't on the path is left out, and the
last lines say so.

    python3 -m tests.program.editors [--program PATH]

Status 1 where something is otherwise.
"""

from __future__ import annotations

import argparse
import json
import os
import pathlib
import re
import shutil
import sys
import tempfile
from collections.abc import Iterable
from dataclasses import dataclass
from typing import Any

from tests import harness
from tests.harness import TOP

SCAN = TOP / "crates/xk_lexer/src/scan.rt"
VIM = TOP / "editors/vim/syntax/x10clock.vim"
TEXTMATE = TOP / "editors/textmate/x10clock.tmLanguage.json"
RESERVED = {"x10Declaration", "x10Conditional", "x10Repeat", "x10Activity", "x10Type", "x10Object"}


def lexer() -> tuple[set[str], set[str]]:
    """The reserved words and the signs."""
    text = SCAN.read_text(encoding="utf-8")
    words = set(re.findall(r'text_is\(text, b"(\w+)"\)', text))
    one = set(re.findall(r"b'(.)' => Some\(Sign::", text))
    two = {a + b for a, b in re.findall(r"\(b'(.)', b'(.)'\) => Some\(Sign::", text)}
    if not words or not one or not two:
        sys.exit("editors: the lexer's words and signs aren't where they were")
    return words, one | two


class Rules:
    """The rules of one file, in the order in which they are tried: name, pattern; and the words that it colours as
    reserved."""

    def __init__(self, name: str) -> None:
        self.name = name
        self.rules: list[tuple[str, re.Pattern[str]]] = []
        self.reserved: set[str] = set()

    def coloured(self, text: str) -> list[tuple[str, str]]:
        """The pieces of a text with the rule that colours each; none where no rule does."""
        pieces: list[tuple[str, str]] = []
        at = 0
        while at < len(text):
            found = [(name, m) for name, rule in self.rules if (m := rule.match(text, at)) and m.end() > at]
            if found:
                name, m = found[0]
                pieces.append((name, m.group(0)))
                at = m.end()
                continue
            word = re.compile(r"\w+|.", re.S).match(text, at)
            assert word is not None
            pieces.append(("", word.group(0)))
            at = word.end()
        return pieces


def vim() -> Rules:
    """The rules of the syntax file for vim. What comes last is tried first, and words before all else."""
    rules = Rules("vim")
    words, matches = [], []
    for line in VIM.read_text(encoding="utf-8").splitlines():
        if m := re.match(r"syntax keyword (\w+) (.*)", line):
            words.append((m.group(1), re.compile(r"\b(?:" + "|".join(m.group(2).split()) + r")\b")))
            if m.group(1) in RESERVED:
                rules.reserved |= set(m.group(2).split())
        elif m := re.match(r'syntax match\s+(\w+) "(.*?)"(?: contains=\S+)?$', line):
            matches.append((m.group(1), re.compile(vim_pattern(m.group(2)), re.M)))
        elif m := re.match(r'syntax region\s+(\w+) start="(.*?)" end="(.*?)"', line):
            matches.append((m.group(1), re.compile(vim_pattern(m.group(2)) + r"(?:.|\n)*?" + vim_pattern(m.group(3)))))
    rules.rules = words + matches[::-1]
    return rules


def vim_pattern(pattern: str) -> str:
    """A pattern of vim's as one of Python's, as far as the file has such."""
    for old, new in ((r"\%(", "(?:"), (r"\)", ")"), (r"\|", "|"), (r"\<", r"\b"), (r"\>", r"\b")):
        pattern = pattern.replace(old, new)
    if r"\ze" in pattern:
        before, behind = pattern.split(r"\ze")
        # a bare `(` is itself in vim
        pattern = before + "(?=" + behind.replace("(", r"\(") + ")"
    return pattern if not pattern.startswith("/*") else pattern.replace("/*", r"/\*", 1)


def textmate() -> Rules:
    """The rules of the TextMate grammar, in its order."""
    rules = Rules("textmate")
    grammar = json.loads(TEXTMATE.read_text(encoding="utf-8"))
    for part in grammar["patterns"]:
        for rule in grammar["repository"][part["include"].lstrip("#")]["patterns"]:
            pattern = rule["match"] if "match" in rule else rule["begin"] + r"(?:.|\n)*?" + rule["end"]
            rules.rules.append((rule["name"], re.compile(pattern, re.M)))
            if part["include"] == "#words":
                rules.reserved |= set(re.findall(r"[A-Za-z]+", rule["match"].replace(r"\b", " ")))
    return rules


def faults(rules: Rules, words: set[str], signs: set[str]) -> list[str]:
    """What a file colours otherwise than the lexer reads it."""
    wrong = [f"reserved there, a name here: {w}" for w in sorted(rules.reserved - words)]
    wrong += [f"reserved, and not coloured: {w}" for w in sorted(words - rules.reserved)]
    for text in sorted(words | signs) + ["0", "17", "9223372036854775807", "// finish", "/* def\n\"*/"]:
        pieces = rules.coloured(text)
        if len(pieces) != 1 or not pieces[0][0]:
            wrong.append(f"not coloured whole: {text!r}: {pieces}")
    for word in sorted(words):
        for name in (word + "s", "my" + word, word + "_1"):
            if any(rule for rule, _ in rules.coloured(name)):
                wrong.append(f"a name is coloured: {name}")
    if any("omment" in rule for rule, _ in rules.coloured("a / b")):
        wrong.append("a stray / is a comment")
    for example in sorted((TOP / "examples").glob("*.x10")):
        left = {piece for rule, piece in rules.coloured(example.read_text(encoding="utf-8")) if not rule}
        if odd := sorted(piece for piece in left if not re.fullmatch(r"\s|[A-Za-z_]\w*", piece)):
            wrong.append(f"{example.name}: not coloured: {odd}")
    return wrong


# Faults.

PROGRAMS = {
    "a name.x10": b"def main() {\n    val n = 1\n    Console.OUT.println(n);\n}\n",
    "signs.x10": "def main() {\n\t/* \u00fc\U0001f600 */ nobody = 1; // \U0001f600\n}\n".encode(),
    "names.x10": b"def main() {\n    x = 1;\n    val n = x + y;\n    c.drop();\n}\n",
    "ends.x10": b"def main() {\n",
    "no-feed.x10": b"def main() {\n    val n = 1;",
    "no-main.x10": b"def min() {\n}\n",
    "mark.x10": b"\xef\xbb\xbfdef main() {\n}\n",
    "steps.x10": b"def main() {\n    for (i in 1..1000) for (j in 1..1000) for (k in 1..1000) ;\n}\n",
    "way.x10": b"def main() {\n    val c = Clock.make();\n" + b"    c.resume(); c.drop();\n" * 2 + b"}\n",
    "long-way.x10": b"def main() {\n    val c = Clock.make();\n" + b"    c.resume();\n    Clock.advanceAll();\n" * 9
    + b"    c.drop();\n" * 2 + b"}\n",
}
EXAMPLES = ("barriers.x10", "not-taken.x10", "second-drop.x10")
MENDED = "def main() {\n}\n"
# Of a walk with more stops these last ones are shown.
STOPS = 16
# What an editor is called, and the package of Debian that has it.
EDITORS = {"vim": "vim", "nvim": "neovim", "node": "nodejs"}
# How many milliseconds an editor waits for the program.
PATIENCE = 20_000


def texts() -> dict[str, bytes]:
    return PROGRAMS | {name: (TOP / "examples" / name).read_bytes() for name in EXAMPLES}


def explained(program: pathlib.Path, text: bytes) -> dict[str, Any]:
    said: dict[str, Any] = json.loads(harness.call([program, "explain", "--json", "-"], given=text).out)
    return said


def kinds() -> dict[str, str]:
    """What a slot of a kind holds, as the page says it."""
    page = (TOP / "docs/EXPLAIN.md").read_text(encoding="utf-8")
    rows = page.partition("| Kind | What is said |\n|---|---|\n")[2]
    return dict(re.findall(r"^\| (\w+) \| (.*) \|$", rows, re.MULTILINE))


@dataclass(frozen=True)
class Place:
    """A place in a text, from 0, in characters; also of a text that has no such line, or no such column."""

    line: int
    column: int

    def bytes(self, lines: list[str]) -> list[int]:
        return [self.line, len(lines[self.line][: self.column].encode())]

    def units(self, lines: list[str]) -> list[int]:
        """In UTF-16, as VS Code counts."""
        return [self.line, len(lines[self.line][: self.column].encode("utf-16-le")) // 2]


def place(lines: list[str], line: int, column: int) -> Place:
    if line > len(lines):
        return Place(len(lines) - 1, len(lines[-1]))
    return Place(line - 1, min(column - 1, len(lines[line - 1])))


def extent(lines: list[str], said: dict[str, Any]) -> tuple[Place, Place]:
    """Where a fault or a note begins and ends: with the word or the sign there, where nothing else is said."""
    if "line" not in said:
        return Place(0, 0), Place(0, 0)
    begin = place(lines, said["line"], said["column"])
    if "end_line" in said:
        return begin, place(lines, said["end_line"], said["end_column"])
    found = re.compile(r"\w+|.|", re.ASCII).match(lines[begin.line], begin.column)
    return begin, Place(begin.line, found.end() if found else begin.column)


def where(it: dict[str, Any]) -> str:
    return f"{it['line']}:{it['column']}: " if "line" in it else ""


def all_faults(said: dict[str, Any]) -> list[dict[str, Any]]:
    """What is said of the first fault, and of those behind it."""
    return [] if said["accepted"] else [said, *said.get("further", [])]


def in_neovim(text: str, said: dict[str, Any]) -> list[Any]:
    """What neovim has to show of a fault: the extent in bytes, and the message."""
    lines = text.removeprefix("\ufeff").removesuffix("\n").split("\n")
    walk = said.get("walk", [])
    which = f"the last {STOPS} of {len(walk)} stops of a way" if len(walk) > STOPS else "a way"
    told = [f"{said['rule']} {said['name']}: {said['message']}"]
    told += [f"{where(note)}{note['text']}" for note in said["notes"]]
    told += [f"{which} to it, and what is held before each stop:"] * bool(walk)
    told += [f"  {where(stop)}{kinds()[stop['kind']]}" for stop in walk[-STOPS:]]
    told += [f"usual repair: {said['repair']}"]
    begin, end = extent(lines, said)
    return [begin.bytes(lines), end.bytes(lines), "\n".join(told)]


def in_code(text: str, said: dict[str, Any]) -> list[Any]:
    """What VS Code has to show of a fault: the extent in UTF-16, rule and message, and the other places."""
    lines = text.split("\n")
    span = lambda it: [place.units(lines) for place in extent(lines, it)]
    is_elsewhere = lambda note: "line" in note and where(note) != where(said)
    told = [f"{said['name']}: {said['message']}"]
    told += [note["text"] for note in said["notes"] if not is_elsewhere(note)]
    told += [f"usual repair: {said['repair']}"]
    stops = said.get("walk", [])[-STOPS:]
    related = [[span(stop), f"on a way to it, held before: {kinds()[stop['kind']]}"] for stop in stops]
    related += [[span(note), note["text"]] for note in said["notes"] if is_elsewhere(note)]
    return [span(said), said["rule"], "\n".join(told), related]


# Reads the names, opens each, makes it, and writes what there is.
VIM_DRIVER = """
filetype plugin on
for s:name in json_decode($NAMES)
  execute "edit" fnameescape(s:name)
  silent make!
  let s:entries = filter(getqflist(), {_, it -> it.valid})
  let s:made = map(s:entries, {_, it -> [bufname(it.bufnr), it.lnum, it.col, it.type, it.text]})
  call writefile([json_encode([&filetype, &commentstring, &shiftwidth, s:made])], $SAID, "a")
endfor
qall!
"""
# Opens each, waits until each is told, and mends each: what there is before and then.
NEOVIM_DRIVER = """
local told, bufs = 0, {}
vim.api.nvim_create_autocmd("DiagnosticChanged", { callback = function() told = told + 1 end })
local function seen()
  vim.wait(PATIENCE, function() return told >= #bufs end, 5)
  told = 0
  return vim.tbl_map(function(buf)
    local found = {}
    for _, it in ipairs(vim.diagnostic.get(buf)) do
      table.insert(found, { { it.lnum, it.col }, { it.end_lnum, it.end_col }, it.message })
    end
    return found
  end, bufs)
end
vim.o.hidden = true
for _, name in ipairs(vim.fn.json_decode(vim.env.NAMES)) do
  vim.cmd("edit " .. vim.fn.fnameescape(name))
  table.insert(bufs, vim.api.nvim_get_current_buf())
end
local before = seen()
for _, buf in ipairs(bufs) do
  vim.bo[buf].bomb = false
  vim.api.nvim_buf_set_lines(buf, 0, -1, true, { "def main() {", "}" })
end
vim.fn.writefile({ vim.fn.json_encode({ before, seen() }) }, vim.env.SAID)
vim.cmd("qall!")
"""
# The part of the module `vscode` that the extension asks.
VSCODE = """
class Position { constructor(line, character) { Object.assign(this, { line, character }); } }
class Range { constructor(start, end) { Object.assign(this, { start, end }); } }
class Location { constructor(uri, range) { Object.assign(this, { uri, range }); } }
class Diagnostic { constructor(range, message, severity) { Object.assign(this, { range, message, severity }); } }
class DiagnosticRelatedInformation { constructor(location, message) { Object.assign(this, { location, message }); } }
const on = {}, told = new Map(), nothing = { dispose() {} };
const collection = { set: (uri, found) => told.set(uri, found), delete: uri => told.delete(uri), dispose() {} };
module.exports = {
  Position, Range, Location, Diagnostic, DiagnosticRelatedInformation, DiagnosticSeverity: { Error: 0 }, on, told,
  languages: { createDiagnosticCollection: () => collection },
  window: { showWarningMessage: text => console.error(text) },
  workspace: {
    textDocuments: [], getConfiguration: () => ({ get: () => "x10clock" }),
    onDidOpenTextDocument: f => ((on.open = f), nothing), onDidChangeTextDocument: f => ((on.change = f), nothing),
    onDidCloseTextDocument: f => ((on.close = f), nothing),
  },
};
"""
# The first text is there when the extension begins, the others are opened; then all are mended, and closed.
CODE_DRIVER = """
const fs = require("fs"), vscode = require("vscode");
const extension = require(process.env.EXTENSION);
const documents = JSON.parse(process.env.NAMES).map(name => ({
  uri: { toString: () => name }, languageId: "x10clock", version: 1, text: fs.readFileSync(name, "utf8"),
  getText() { return this.text; },
  get lineCount() { return this.text.split("\\n").length; },
  lineAt(n) { return { text: this.text.split("\\n")[n] }; },
}));
const at = it => [[it.start.line, it.start.character], [it.end.line, it.end.character]];
const related = it => [at(it.location.range), it.message];
const shown = it => [at(it.range), it.code, it.message, it.relatedInformation.map(related)];
const seen = async () => {
  for (let n = 0; n < PATIENCE / 10 && vscode.told.size < documents.length; n++) {
    await new Promise(f => setTimeout(f, 10));
  }
  const found = documents.map(it => vscode.told.has(it.uri) ? vscode.told.get(it.uri).map(shown) : null);
  vscode.told.clear();
  return found;
};
(async () => {
  vscode.workspace.textDocuments.push(documents[0]);
  extension.activate({ subscriptions: [] });
  documents.slice(1).forEach(document => vscode.on.open(document));
  const before = await seen();
  for (const document of documents) {
    Object.assign(document, { version: 2, text: process.env.MENDED });
    vscode.on.change({ document });
  }
  const mended = await seen();
  documents.forEach(document => vscode.on.close(document));
  fs.writeFileSync(process.env.SAID, JSON.stringify([before, mended, vscode.told.size]));
})();
"""
# What the problem matchers make of lines: the file, line, column and message of each, and nothing of other lines.
MATCHER = """
const fs = require("fs");
const lines = JSON.parse(process.env.LINES);
const matchers = require(process.env.EXTENSION + "/package.json").contributes.problemMatchers;
const made = lines.flatMap(line => matchers.flatMap(({ pattern: p }) => {
  const found = new RegExp(p.regexp).exec(line);
  const number = group => (group ? Number(found[group]) : 0);
  return found ? [[found[p.file], number(p.line), number(p.column), p.kind || "", found[p.message]]] : [];
}));
fs.writeFileSync(process.env.SAID, JSON.stringify(made));
"""


class Room:
    """A folder with the program, as x10clock, on the path, and the texts."""

    def __init__(self, folder: str, program: pathlib.Path) -> None:
        self.folder = pathlib.Path(folder)
        self.program = program
        (self.folder / "bin").mkdir()
        (self.folder / "bin/x10clock").symlink_to(program)
        (self.folder / "node/vscode").mkdir(parents=True)
        (self.folder / "node/vscode/index.js").write_text(VSCODE, encoding="utf-8")
        (self.folder / "texts").mkdir()
        self.texts = texts()
        for name, text in self.texts.items():
            (self.folder / "texts" / name).write_bytes(text)
        self.said = {name: explained(program, text) for name, text in self.texts.items()}
        self.lines = {name: self.printed(name) for name in self.texts}

    def printed(self, name: str) -> list[str]:
        """The lines of `explain FILE`, as a task has them: standard output, and then standard error."""
        ran = harness.call([self.program, "explain", name], cwd=self.folder / "texts")
        return (ran.out + ran.err).decode().splitlines()

    def drive(self, driver: str, suffix: str, *words: object, **more: str) -> list[Any]:
        """What an editor writes that runs this driver: the values, one a line."""
        path, said = self.folder / f"driver.{suffix}", self.folder / "said"
        path.write_text(driver.replace("PATIENCE", str(PATIENCE)), encoding="utf-8")
        said.unlink(missing_ok=True)
        env = os.environ | {
            "PATH": f"{self.folder / 'bin'}:{os.environ['PATH']}",
            "HOME": str(self.folder),
            "XDG_CONFIG_HOME": str(self.folder),
            "NODE_PATH": str(self.folder / "node"),
            "EXTENSION": str(TOP / "editors/vscode"),
            "NAMES": json.dumps(list(self.texts)),
            "MENDED": MENDED,
            "SAID": str(said),
            **more,
        }
        ran = harness.call([*words, path], cwd=self.folder / "texts", env=env)
        if ran.status or not said.exists():
            raise OSError(f"{words[0]}: status {ran.status}: {(ran.out + ran.err).decode('utf-8', 'replace')}")
        return [json.loads(line) for line in said.read_text(encoding="utf-8").splitlines()]

    def text(self, name: str) -> str:
        return self.texts[name].decode()


def otherwise(what: str, names: Iterable[str], got: list[Any], wanted: list[Any]) -> list[str]:
    if len(got) != len(wanted):
        return [f"{what}: {len(got)} answers, not {len(wanted)}"]
    rows = zip(names, got, wanted, strict=True)
    return [f"{what}: {name}\n    wanted: {right}\n    got: {left}" for name, left, right in rows if left != right]


def refused(room: Room) -> list[str]:
    return [name for name, said in room.said.items() if not said["accepted"]]


def entries(room: Room, name: str, kind: str) -> list[Any]:
    """The entries for the first lines of what `explain` says of each fault: file, line and column, kind, and what is
    behind them."""
    heads = [line for line in room.lines[name] if line.startswith(name)]
    found = []
    for said, line in zip(all_faults(room.said[name]), heads, strict=True):
        before = f"{name}:{said['line']}:{said['column']}: " if "line" in said else f"{name}: "
        found.append([name, said.get("line", 0), said.get("column", 0), kind, line.removeprefix(before)])
    return found


def quickfix(room: Room, editor: str) -> list[str]:
    """`:make` of vim or neovim, and the settings."""
    quiet = ["-es"] if editor == "vim" else ["--headless"]
    words = [editor, *quiet, "-N", "-n", "-i", "NONE", "-u", "NONE"]
    got = room.drive(VIM_DRIVER, "vim", *words, "--cmd", f"set rtp^={TOP / 'editors/vim'}", "-S")
    made = {name: entries(room, name, "E") for name in refused(room)}
    wanted = [["x10clock", "// %s", 4, made.get(name, [])] for name in room.texts]
    return otherwise(f"{editor} :make", room.texts, got, wanted)


def neovim(room: Room) -> list[str]:
    """The diagnostics of the script for neovim."""
    words = ["nvim", "--headless", "-n", "-i", "NONE", "-u", "NONE", "--cmd", f"set rtp^={TOP / 'editors/vim'}"]
    [(before, mended)] = room.drive(NEOVIM_DRIVER, "lua", *words, "--cmd", "filetype plugin on", "-S")
    wanted = [[in_neovim(room.text(name), one) for one in all_faults(said)] for name, said in room.said.items()]
    wrong = otherwise("neovim", room.texts, before, wanted)
    return wrong + otherwise("neovim, mended", room.texts, mended, [[] for _ in wanted])


def code(room: Room) -> list[str]:
    """The diagnostics of the extension for VS Code."""
    [(before, mended, left)] = room.drive(CODE_DRIVER, "js", "node")
    wanted = [[in_code(room.text(name), one) for one in all_faults(said)] for name, said in room.said.items()]
    wrong = otherwise("vscode", room.texts, before, wanted)
    wrong += otherwise("vscode, mended", room.texts, mended, [[] for _ in wanted])
    return wrong + [f"vscode: diagnostics of {left} closed texts"] * bool(left)


def matchers(room: Room) -> list[str]:
    """The problem matchers of the extension."""
    lines = [line for name in room.texts for line in room.lines[name]]
    [got] = room.drive(MATCHER, "js", "node", LINES=json.dumps(lines))
    wanted = [it for name in refused(room) for it in entries(room, name, "" if "line" in room.said[name] else "file")]
    return otherwise("problem matchers", (it[0] for it in wanted), got, wanted)


def words_of_kinds() -> list[str]:
    """Both scripts have the page's words for what a slot holds."""
    lua = (TOP / "editors/vim/lua/x10clock.lua").read_text(encoding="utf-8")
    script = (TOP / "editors/vscode/extension.js").read_text(encoding="utf-8")
    rows = kinds().items()
    wrong = [f"neovim: not {kind}: {text}" for kind, text in rows if f'  {kind} = "{text}",' not in lua]
    return wrong + [f"vscode: not {kind}: {text}" for kind, text in rows if f'  {kind}: "{text}",' not in script]


def editors(program: pathlib.Path) -> tuple[list[str], list[str]]:
    """What is otherwise in each editor, and which editors were asked."""
    tried = {
        "vim": [lambda room: quickfix(room, "vim")],
        "nvim": [lambda room: quickfix(room, "nvim"), neovim],
        "node": [code, matchers],
    }
    there = [editor for editor in EDITORS if shutil.which(editor)]
    with tempfile.TemporaryDirectory(prefix="x10clock-editors-") as folder:
        room = Room(folder, program)
        wrong = words_of_kinds() + [line for editor in there for trial in tried[editor] for line in trial(room)]
    return wrong, there


def main() -> int:
    parser = argparse.ArgumentParser(description="Holds editors/ against the lexer and against explain.")
    harness.add_program(parser)
    program = parser.parse_args().program
    words, signs = lexer()
    wrong = [f"{rules.name}: {fault}" for rules in (vim(), textmate()) for fault in faults(rules, words, signs)]
    try:
        shown, there = editors(program)
    except (OSError, ValueError) as fault:
        shown, there = [f"editors: {fault!r}"], list(EDITORS)
    print(*wrong, *shown, sep="\n", end="\n" if wrong or shown else "")
    for editor in [editor for editor in EDITORS if editor not in there]:
        print(f"editors: {editor} isn't here (Debian's {EDITORS[editor]}), and is left out")
    print(f"editors: {len(words)} words and {len(signs)} signs, {len(wrong)} coloured otherwise")
    print(f"editors: {len(texts())} texts in {', '.join(there) or 'no editor'}, {len(shown)} shown otherwise")
    return 1 if wrong or shown else 0


if __name__ == "__main__":
    sys.exit(main())
