#!/usr/bin/env python3
"""Holds the release in `dist/` against the program and its sources.

The man page and the completions that `dist/manual.py` writes say what `--help` says: each command, each of its options,
each value of an option that takes names, and nothing else. Those in `dist/` say it of the program there. The files
there are those of `SHA256SUMS`, and the program runs an example in a folder that has nothing else, with nothing on the
path but what copies files and sums them up. `--version` prints the version and the kit of `dist/BUILT`, and each page
that names the program names that version. The wheel there, unpacked, runs the same example by the library that lies
beside it; both have the release's version.

Where the sum in `dist/BUILT` is that of the present sources, and its kit is the present one, the program there is the
built one, byte for byte, and all other files are what `dist/release.sh` makes now. Where sum or kit is another one,
none of this is compared, and the last line says why: the release is of an older version, or by another kit.

    python3 -m tests.program.release [--program PATH]
"""

from __future__ import annotations

import argparse
import hashlib
import json
import pathlib
import re
import shutil
import sys
import tempfile
import zipfile
from collections.abc import Callable, Iterable
from dataclasses import dataclass, field
from typing import Any

from tests import harness
from tests.harness import TOP

DIST = TOP / "dist"
SCRIPTS = {"release.sh", "manual.py", "sources.sh"}
EXAMPLE = TOP / "examples/two-in-step.x10"
PRINTED = "1\n2\n11\n12\nended steps 19\n"
# What becomes of `editors/`.
EDITORS = {
    "vim/compiler/x10clock.vim": "vim/compiler/x10clock.vim",
    "vim/ftdetect/x10clock.vim": "vim/ftdetect/x10clock.vim",
    "vim/ftplugin/x10clock.vim": "vim/ftplugin/x10clock.vim",
    "vim/lua/x10clock.lua": "vim/lua/x10clock.lua",
    "vim/syntax/x10clock.vim": "vim/syntax/x10clock.vim",
    "vscode/extension.js": "vscode/extension.js",
    "vscode/language-configuration.json": "vscode/language-configuration.json",
    "vscode/x10clock.tmLanguage.json": "textmate/x10clock.tmLanguage.json",
}
# The options that each command has, with the values that each may name; those before any command are of "".
Words = dict[str, dict[str, tuple[str, ...]]]


class Fault(Exception):
    """A call failed, or a text has another form."""


@dataclass
class Held:
    wrong: list[str] = field(default_factory=list)

    def wants(self, what: str, got: object, wanted: object) -> None:
        if got != wanted:
            self.wrong.append(f"{what}\n    wanted: {wanted}\n    got: {got}")


def said(*words: object, **how: Any) -> str:
    """What a call prints; it has to end well, and say nothing else."""
    status, out, err = harness.call(words, **how).texts()
    if status or err:
        raise Fault(f"{' '.join(map(str, words))}: status {status}: {err}")
    return out


# The words of the program, and of each text.


def options_of_help(text: str) -> dict[str, tuple[str, ...]]:
    found: dict[str, tuple[str, ...]] = {}
    for line in text.partition("\nOptions:\n")[2].splitlines():
        names = re.match(r" +((?:-\w, )?--\w+)", line)
        listed = re.search(r"\[possible values: (.*)\]$", line)
        values = tuple(listed[1].split(", ")) if listed else ()
        found |= dict.fromkeys(names[1].split(", ") if names else [line], values)
    return found


def words_of_help(program: pathlib.Path) -> Words:
    text = said(program, "--help")
    listed = text.partition("\nCommands:\n")[2].partition("\n\n")[0]
    found = {"": options_of_help(text)}
    for name in re.findall(r"^  (\w+) ", listed, re.MULTILINE):
        found[name] = {} if name == "help" else options_of_help(said(program, name, "--help"))
    return found


def words_of_man(path: pathlib.Path) -> Words:
    text = path.read_text(encoding="utf-8").replace("\\-", "-")
    parts = re.search(r"^\.SH OPTIONS\n(.*?)^\.SH COMMANDS\n(.*?)^\.SH ", text, re.MULTILINE | re.DOTALL)
    if not parts:
        raise Fault(f"{path}: no options, or no commands")
    found: Words = {}
    for part in ["\n" + parts[1], *re.split(r"^\.SS ", parts[2], flags=re.MULTILINE)[1:]]:
        name, _, rest = part.partition("\n")
        found[name] = {}
        for head, line in re.findall(r"^\.TP\n(.*)\n(.*)$", rest, re.MULTILINE):
            values = re.search(r": ((?:\\fB\w+\\fR(?:, )?)+)$", line)
            for option in re.findall(r"\\fB(-.*?)\\fR", head):
                found[name][option] = tuple(re.findall(r"\\fB(\w+)\\fR", values[1])) if values else ()
    return found


# Reads lines, and prints what is offered for the last word of each, which a dot ends.
ASK = """
compopt() { COMPREPLY=(a-file); }
. "$1"
while read -r -a COMP_WORDS; do
    COMP_CWORD=$((${#COMP_WORDS[@]} - 1))
    COMP_WORDS[COMP_CWORD]=${COMP_WORDS[COMP_CWORD]%.}
    _x10clock
    echo "${COMPREPLY[@]}"
done
"""


def offered_by_bash(path: pathlib.Path, lines: Iterable[str]) -> list[list[str]]:
    """What bash offers for the last word of each line; it is empty where the line ends with a blank."""
    asked = "".join(f"{line}.\n" for line in lines)
    return [answer.split() for answer in said("bash", "-c", ASK, "ask", path, given=asked.encode()).splitlines()]


def words_of_bash(path: pathlib.Path) -> Words:
    offered, own, of_help = offered_by_bash(path, ["x10clock ", "x10clock -", "x10clock help "])
    names = [word for word in offered if not word.startswith("-")]
    if of_help != names:
        raise Fault(f"{path}: help offers {of_help}")
    options = offered_by_bash(path, [f"x10clock {name} -" for name in names])
    pairs = [(name, word) for name, words in zip(names, options) for word in words if word.startswith("-")]
    found: Words = {"": dict.fromkeys(own, ())} | {name: {} for name in names}
    for (name, option), values in zip(pairs, offered_by_bash(path, [f"x10clock {a} {b} " for a, b in pairs])):
        found[name][option] = () if values == ["a-file"] else tuple(values)
    return found


def words_of_zsh(path: pathlib.Path) -> Words:
    text = path.read_text(encoding="utf-8")
    names = re.findall(r"^        '(\w+):", text, re.MULTILINE)
    parts = dict(re.findall(r"^        (\w+)\)\n(.*?)^            ;;$", text, re.MULTILINE | re.DOTALL))
    if sorted(parts) != sorted(names):
        raise Fault(f"{path}: commands {names}, and options of {list(parts)}")
    found: Words = {}
    for name, part in {**parts, "": text.partition("_arguments -C")[2].partition("return")[0]}.items():
        found[name] = {}
        specs = re.findall(r"'(?:\(- \*\)|\*)?(--?\w+)=?\[.*?(?<!\\)\](.*?)'(?= \\$|$)", part, re.MULTILINE)
        for option, rest in specs:
            found[name][option] = tuple(rest.partition(":(")[2].removesuffix(")").split())
    return found


def words_of_fish(path: pathlib.Path) -> Words:
    found: Words = {"": {}}
    option = re.compile(r"complete -c x10clock -n (\S+|'.*?')(?: -s (\w))? -l (\w+)(?: -x -a '(.*?)')?")
    for line in path.read_text(encoding="utf-8").splitlines():
        if command := re.match(r"complete -c x10clock -n __fish_use_subcommand -a (\w+) ", line):
            found[command[1]] = {}
        if of_help := re.match(r"complete -c x10clock -n '__fish_seen_subcommand_from help' -a '(.*)'", line):
            if of_help[1].split() != list(found)[1:]:
                raise Fault(f"{path}: help offers {of_help[1]}")
        if spec := option.match(line):
            name = spec[1].strip("'").partition(" ")[2]
            found[name] |= {f"-{spec[2]}": ()} if spec[2] else {}
            found[name][f"--{spec[3]}"] = tuple((spec[4] or "").split())
    return found


TEXTS: dict[str, Callable[[pathlib.Path], Words]] = {
    "x10clock.1": words_of_man,
    "completions/x10clock.bash": words_of_bash,
    "completions/_x10clock": words_of_zsh,
    "completions/x10clock.fish": words_of_fish,
}


def write_texts(program: pathlib.Path, folder: str) -> None:
    """Writes the texts that dist/manual.py makes of a program, which may be the reference, which is slow."""
    words = (sys.executable, DIST / "manual.py", "--program", program, "--to", folder)
    said(*words, seconds=harness.SECONDS_OF_REFERENCE)


def texts_say(held: Held, folder: pathlib.Path, wanted: Words) -> None:
    """Each text has the words of help, and no other."""
    for name, words_of in TEXTS.items():
        got, where = words_of(folder / name), folder / name
        held.wants(f"{where}: commands", sorted(got), sorted(wanted))
        for command in sorted(got.keys() & wanted.keys()):
            what = f"{where}: options of {command}" if command else f"{where}: options before a command"
            held.wants(what, sorted(got[command].items()), sorted(wanted[command].items()))


# The release.


def sums_are_right(held: Held) -> None:
    """The files of dist/ are those that SHA256SUMS lists, with these sums."""
    lines = (DIST / "SHA256SUMS").read_text(encoding="utf-8").splitlines()
    listed = {name: hashed for hashed, _, name in (line.partition("  ") for line in lines)}
    files = (path for path in DIST.rglob("*") if path.is_file() and "__pycache__" not in path.parts)
    there = {str(path.relative_to(DIST)): path for path in files}
    held.wants("the files of SHA256SUMS", sorted(listed), sorted(there.keys() - SCRIPTS - {"SHA256SUMS"}))
    for name in sorted(listed.keys() & there.keys()):
        held.wants(f"dist/{name}: its sum", hashlib.sha256(there[name].read_bytes()).hexdigest(), listed[name])


ALONE = """
cp "$1" x10clock && cp "$2" . && (cd "$3" && sha256sum -c --quiet SHA256SUMS) || exit 1
exec ./x10clock run two-in-step.x10
"""


def runs_alone(held: Held, program: pathlib.Path) -> None:
    """A copy of the program runs an example in a folder with nothing else."""
    with tempfile.TemporaryDirectory(prefix="x10clock-release-") as room:
        path, folder = pathlib.Path(room, "path"), pathlib.Path(room, "folder")
        path.mkdir()
        folder.mkdir()
        for name in ("cp", "sha256sum"):
            (path / name).symlink_to(shutil.which(name) or name)
        words = ["/bin/sh", "-c", ALONE, "sh", program, EXAMPLE, DIST]
        ran = harness.call(words, cwd=folder, env={"PATH": str(path)}).texts()
    held.wants(f"{program.name} run two-in-step.x10", ran, (0, PRINTED, ""))


# Asks the package in the present folder.
ASK_PACKAGE = "import pathlib, sys, x10clock; print(*x10clock.run(pathlib.Path(sys.argv[1])).printed)"


def wheel(version: str) -> pathlib.Path:
    """The package's file."""
    return DIST / f"python/{version.replace(' ', '-')}-py3-none-linux_x86_64.whl"


def package_runs(held: Held, version: str) -> None:
    """The wheel runs an example, by the library that lies beside it."""
    pkg_config = (DIST / "lib/x10clock.pc").read_text(encoding="utf-8")
    held.wants("dist/lib/x10clock.pc", f"\nVersion: {version.partition(' ')[2]}\n" in pkg_config, True)
    with tempfile.TemporaryDirectory(prefix="x10clock-release-") as room:
        with zipfile.ZipFile(wheel(version)) as packed:
            packed.extractall(room)
        ours, inside = DIST / "lib/libx10clock.so", pathlib.Path(room, "x10clock/libx10clock.so")
        held.wants("the wheel's library is dist/lib's", inside.read_bytes() == ours.read_bytes(), True)
        printed = said(sys.executable, "-c", ASK_PACKAGE, EXAMPLE, cwd=room)
    held.wants("the package's run", printed.split(), PRINTED.split()[:4])


def package_is_of_sources(held: Held, version: str) -> None:
    """The header and the wheel's modules are those of the sources."""
    header = (DIST / "lib/x10clock.h").read_bytes() == (TOP / "library/x10clock.h").read_bytes()
    held.wants("dist/lib/x10clock.h is library/x10clock.h", header, True)
    sources = {f"x10clock/{path.name}": path for path in (TOP / "python/x10clock").iterdir() if path.is_file()}
    with zipfile.ZipFile(wheel(version)) as packed:
        names = {name for name in packed.namelist() if not name.endswith((".so", "/METADATA", "/WHEEL", "/RECORD"))}
        held.wants("the wheel's modules", sorted(names), sorted(sources))
        for name in sorted(names & sources.keys()):
            held.wants(f"the wheel's {name}", packed.read(name) == sources[name].read_bytes(), True)


def is_what_sources_give(held: Held, version: str, program: pathlib.Path) -> None:
    """The release is what dist/release.sh makes now."""
    package_is_of_sources(held, version)
    package = json.loads((DIST / "vscode/package.json").read_text(encoding="utf-8"))
    held.wants("dist/vscode/package.json: version", f"x10clock {package['version']}", version)
    source = json.loads((TOP / "editors/vscode/package.json").read_text(encoding="utf-8"))
    held.wants("dist/vscode/package.json", package, source | {"version": package["version"]})
    held.wants("dist/BUILT: version", version, said(program, "-V").strip())
    pairs = {name: TOP / "editors" / source for name, source in EDITORS.items()}
    if program == harness.BUILT:
        pairs[name_of(version)] = program
    with tempfile.TemporaryDirectory(prefix="x10clock-release-") as room:
        write_texts(program, room)
        pairs |= {name: pathlib.Path(room, name) for name in TEXTS}
        for name, source in pairs.items():
            is_same = (DIST / name).read_bytes() == source.read_bytes()
            held.wants(f"dist/{name} is what dist/release.sh makes now", is_same, True)


def pages_name(held: Held, version: str) -> None:
    """Wherever a page has the name of the program's file, it is that of the release."""
    name = version.replace(" ", "-")
    for page in (TOP / "README.md", *sorted((TOP / "docs").glob("*.md"))):
        named = set(re.findall(r"x10clock-\d+\.\d+\.\d+", page.read_text(encoding="utf-8")))
        held.wants(f"{page.relative_to(TOP)}: versions", sorted(named | {name}), [name])


def name_of(version: str) -> str:
    return f"{version.replace(' ', '-')}-x86_64-linux"


def kit() -> str | None:
    """The kit's line, where there is one."""
    return said("rt", "version").strip() if shutil.which("rt") else None


def release(held: Held, program: pathlib.Path) -> str:
    """Holds the release, and gives what to say of it."""
    if not (DIST / "BUILT").is_file():
        return "there is no release"
    lines = (DIST / "BUILT").read_text(encoding="utf-8").splitlines()
    built = {key: value for key, _, value in (line.partition(" ") for line in lines)}
    ours = DIST / name_of(built["version"])
    sums_are_right(held)
    runs_alone(held, ours)
    if (DIST / "lib").exists():
        package_runs(held, built["version"])
    held.wants(f"{ours.name} -V", said(ours, "-V").strip(), built["version"])
    wanted = [built["version"], f"proved with {built['kit']}"]
    held.wants(f"{ours.name} --version", said(ours, "--version").splitlines(), wanted)
    pages_name(held, built["version"])
    texts_say(held, DIST, words_of_help(ours))
    if built["sources"] != said("sh", DIST / "sources.sh").strip():
        return f"{ours.name} is of an older version of the sources"
    if kit() not in (None, built["kit"]):
        return f"{ours.name} is of these sources, by another kit, {built['kit']}"
    is_what_sources_give(held, built["version"], program)
    compared = ", and compared with the built program" if program == harness.BUILT else ""
    return f"{ours.name} is of these sources{compared}"


def main() -> int:
    parser = argparse.ArgumentParser(description="Holds the release in dist/ against the program and its sources.")
    harness.add_program(parser)
    program, held = parser.parse_args().program, Held()
    try:
        words = words_of_help(program)
        with tempfile.TemporaryDirectory(prefix="x10clock-release-") as room:
            write_texts(program, room)
            texts_say(held, pathlib.Path(room), words)
        told = release(held, program)
    except (Fault, OSError, KeyError, ValueError) as fault:
        print(*held.wrong, f"release: {fault!r}", sep="\n")
        return 1
    print(*held.wrong, sep="\n", end="\n" if held.wrong else "")
    count = sum(map(len, words.values()))
    print(f"release: {len(words) - 1} commands, {count} options; {told}; {len(held.wrong)} otherwise")
    return 1 if held.wrong else 0


if __name__ == "__main__":
    sys.exit(main())
