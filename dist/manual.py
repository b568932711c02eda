#!/usr/bin/env python3
"""Writes the man page of the program and its completions for bash, zsh and fish: from what it says of itself (`-V`,
`--help` and the help of each command), and for the man page from README's section "Commands" too, its table of calls
and its statuses.

    python3 dist/manual.py [--program PATH] [--to FOLDER]

crates/x10clock/out/x10clock where nothing else is said, and dist/.
"""

from __future__ import annotations

import argparse
import pathlib
import re
import subprocess
import sys
from collections.abc import Iterator
from dataclasses import dataclass

TOP = pathlib.Path(__file__).resolve().parents[1]
PROGRAM = TOP / "crates/x10clock/out/x10clock"
SECONDS = 60
# The command whose places are names of commands.
HELP = "help"
# The values that are paths, by what help calls them.
PATHS = ("FILE", "FILE2", "LOG", "PATH")
# What help says of an option that may come again.
AGAIN = "once for each"


class Fault(Exception):
    """Something isn't where it was."""


# What the program says of itself.


@dataclass(frozen=True)
class Option:
    names: tuple[str, ...]
    value: str
    text: str
    choices: tuple[str, ...] = ()

    @property
    def is_path(self) -> bool:
        return self.value in PATHS


@dataclass(frozen=True)
class Place:
    name: str
    is_optional: bool
    text: str


@dataclass(frozen=True)
class Command:
    name: str
    text: str
    places: tuple[Place, ...]
    options: tuple[Option, ...]

    @property
    def words(self) -> list[str]:
        return [name for option in self.options for name in option.names]


@dataclass(frozen=True)
class Program:
    version: str
    text: str
    options: tuple[Option, ...]
    commands: tuple[Command, ...]

    @property
    def names(self) -> list[str]:
        return [command.name for command in self.commands]


def said(program: pathlib.Path, *words: str) -> str:
    ran = subprocess.run([program, *words], capture_output=True, text=True, timeout=SECONDS, check=False)
    if ran.returncode or ran.stderr:
        raise Fault(f"{program} {' '.join(words)}: status {ran.returncode} {ran.stderr}")
    return ran.stdout


def rows(text: str, title: str) -> Iterator[tuple[str, str]]:
    """The rows below a title of help: what is named, and what is said of it."""
    below = re.search(rf"^{title}:\n((?:  .*\n)+)", text, re.MULTILINE)
    for line in below[1].splitlines() if below else ():
        found = re.fullmatch(r" {2,6}(\S+(?: \S+)*)  +(\S.*)", line)
        if not found:
            raise Fault(f"help has a row of another form: {line!r}")
        yield found[1], found[2]


def option(names: str, text: str) -> Option:
    found = re.fullmatch(r"((?:-\w, )?--[\w-]+)(?: <(\w+)>)?", names)
    if not found:
        raise Fault(f"help has an option of another form: {names!r}")
    words, _, listed = text.partition(" [possible values: ")
    choices = tuple(listed.removesuffix("]").split(", ")) if listed else ()
    return Option(tuple(found[1].split(", ")), found[2] or "", words, choices)


def options(text: str) -> tuple[Option, ...]:
    return tuple(option(names, words) for names, words in rows(text, "Options"))


def places(text: str) -> tuple[Place, ...]:
    return tuple(Place(name[1:-1], name.startswith("["), words) for name, words in rows(text, "Arguments"))


def command(program: pathlib.Path, name: str, text: str) -> Command:
    if name == HELP:
        return Command(name, text, (Place("COMMAND", True, "The command that help is asked of"),), ())
    told = said(program, name, "--help")
    return Command(name, text, places(told), options(told))


def program_at(path: pathlib.Path) -> Program:
    told = said(path, "--help")
    commands = tuple(command(path, name, text) for name, text in rows(told, "Commands"))
    return Program(said(path, "-V").strip(), told.partition("\n")[0], options(told), commands)


# What README says of the commands.


@dataclass(frozen=True)
class Readme:
    """The calls with what they do, what is said below them, and what the statuses mean."""

    calls: list[tuple[str, str]]
    below: str
    statuses: list[tuple[str, str]]


def readme() -> Readme:
    text = (TOP / "README.md").read_text(encoding="utf-8")
    section = re.search(r"^## Commands\n(.*?)^## ", text, re.MULTILINE | re.DOTALL)
    if not section:
        raise Fault("README has no section Commands")
    calls = re.findall(r"^    (x10clock .*?) {2,}(\S.*)$", section[1], re.MULTILINE)
    statuses = re.findall(r"^\| (\d+) \| (.*) \|$", section[1], re.MULTILINE)
    below = re.search(r"^FILE .*?(?=\n\n)", section[1], re.MULTILINE | re.DOTALL)
    if not calls or not statuses or not below:
        raise Fault("README's section Commands has no calls, nothing of FILE below them, or no statuses")
    return Readme(calls, below[0].replace("\n", " "), statuses)


# The man page.


def roff(text: str) -> str:
    """A text as roff has it; what stands in backquotes is bold."""
    text = text.replace("\\", "\\e").replace("-", "\\-")
    text = re.sub(r"`([^`]*)`", r"\\fB\1\\fR", text)
    return re.sub(r"^(?=[.'])", r"\\&", text, flags=re.MULTILINE)


def man_item(head: str, text: str) -> str:
    return f".TP\n{head}\n{roff(text)}\n"


def man_option(it: Option) -> str:
    names = ", ".join(f"\\fB{roff(name)}\\fR" for name in it.names)
    choices = f": {', '.join(f'`{choice}`' for choice in it.choices)}" if it.choices else ""
    return man_item(f"{names} \\fI{it.value}\\fR" if it.value else names, it.text + choices)


def man_usage(it: Command) -> str:
    words = ["[\\fIOPTION\\fR ..]"] * bool(it.options)
    words += [f"[\\fI{place.name}\\fR]" if place.is_optional else f"\\fI{place.name}\\fR" for place in it.places]
    return " ".join([f"\\fBx10clock {it.name}\\fR", *words])


def man_command(it: Command) -> str:
    places = [man_item(f"\\fI{place.name}\\fR", place.text) for place in it.places]
    items = places + [man_option(option) for option in it.options]
    return f".SS {it.name}\n{man_usage(it)}\n.PP\n{roff(it.text)}\n" + "".join(items)


def man_page(program: Program, readme: Readme) -> str:
    about = program.text[0].lower() + program.text[1:].removesuffix(".")
    parts = {
        "NAME": f"x10clock \\- {roff(about)}\n",
        "SYNOPSIS": "\\fBx10clock\\fR \\fICOMMAND\\fR [\\fIOPTION\\fR ..] \\fIFILE\\fR [\\fILOG\\fR]\n",
        "DESCRIPTION": f"{roff(program.text)}\n.PP\n{roff(readme.below)}\n",
        "OPTIONS": "".join(map(man_option, program.options)),
        "COMMANDS": "".join(map(man_command, program.commands)),
        "EXIT STATUS": "".join(man_item(f"\\fB{status}\\fR", text) for status, text in readme.statuses),
        "EXAMPLES": "".join(man_item(f"\\fB{roff(call)}\\fR", text) for call, text in readme.calls),
    }
    head = f'.\\" dist/manual.py writes this page.\n.TH X10CLOCK 1 "" "{program.version}" "User Commands"\n'
    return head + "".join(f".SH {title}\n{text}" for title, text in parts.items())


# Completions.

BASH = """\
# Completions of {version} for bash, which dist/manual.py writes. Bash finds them in
# ~/.local/share/bash-completion/completions, as x10clock.
_x10clock() {{
    local word=${{COMP_WORDS[COMP_CWORD]}} before=${{COMP_WORDS[COMP_CWORD - 1]}} command='' words='' at
    # `--order=last` is three words here.
    if [[ $word == = ]]; then
        word=''
    elif [[ $before == = ]]; then
        before=${{COMP_WORDS[COMP_CWORD - 2]}}
    fi
    for ((at = 1; at < COMP_CWORD; at++)); do
        if [[ ${{COMP_WORDS[at]}} != -* ]]; then
            command=${{COMP_WORDS[at]}}
            break
        fi
    done
    COMPREPLY=()
    case "$command $before" in
{values}    esac
    case $command in
{commands}    esac
    if [[ -z $command || $command == {help} || $word == -* ]]; then
        mapfile -t COMPREPLY < <(compgen -W "$words" -- "$word")
    else
        compopt -o default
    fi
}}
complete -F _x10clock x10clock
"""


def bash_value(command: Command, it: Option) -> str:
    """What is offered behind an option that takes a value: its names, a file, or nothing for a number."""
    if it.choices:
        offered = f"""mapfile -t COMPREPLY < <(compgen -W "{' '.join(it.choices)}" -- "$word"); return"""
    else:
        offered = "compopt -o default; return" if it.is_path else "return"
    return f'        "{command.name} {it.names[-1]}") {offered} ;;\n'


def bash(program: Program) -> str:
    own = [name for option in program.options for name in option.names]
    commands = [("''", program.names + own)]
    commands += [(it.name, program.names if it.name == HELP else it.words) for it in program.commands]
    return BASH.format(
        version=program.version,
        values="".join(bash_value(command, it) for command in program.commands for it in command.options if it.value),
        commands="".join(f"        {name}) words='{' '.join(words)}' ;;\n" for name, words in commands),
        help=HELP,
    )


ZSH = """\
#compdef x10clock
# Completions of {version} for zsh, which dist/manual.py writes. Zsh finds them in a folder of fpath, as _x10clock.

_x10clock() {{
    local curcontext=$curcontext state line
    typeset -A opt_args
    _arguments -C \\
{options}        ': :_x10clock_commands' \\
        '*::: :->rest' && return
    [[ $state == rest ]] || return
    words=($line[1] "${{words[@]}}")
    ((CURRENT += 1))
    case $line[1] in
{commands}    esac
}}

_x10clock_commands() {{
    local -a commands=(
{names}    )
    _describe -t commands command commands
}}

_x10clock "$@"
"""

ZSH_COMMAND = """\
        {name})
            _arguments \\
                {words}
            ;;
"""


def quoted(text: str) -> str:
    """A text as one word of a shell."""
    return "'" + text.replace("'", "'\\''") + "'"


def zsh_text(text: str) -> str:
    return re.sub(r"([\\\[\]:])", r"\\\1", text)


def zsh_option(it: Option) -> list[str]:
    text = f"[{zsh_text(it.text)}]"
    if len(it.names) > 1:
        # (it stands alone, as --help)
        return [quoted(f"(- *){name}{text}") for name in it.names]
    value = "_files" if it.is_path else f"({' '.join(it.choices)})" if it.choices else " "
    again = "*" if AGAIN in it.text else ""
    return [quoted(f"{again}{it.names[0]}" + (f"={text}:{it.value}:{value}" if it.value else text))]


def zsh_words(it: Command) -> list[str]:
    if it.name == HELP:
        return [quoted(": :_x10clock_commands")]
    places = [f"{'::' if place.is_optional else ':'}{place.name}:_files" for place in it.places]
    return [word for option in it.options for word in zsh_option(option)] + [quoted(place) for place in places]


def zsh(program: Program) -> str:
    own = [word for option in program.options for word in zsh_option(option)]
    calls = [(it.name, " \\\n                ".join(zsh_words(it))) for it in program.commands]
    return ZSH.format(
        version=program.version,
        options="".join(f"        {word} \\\n" for word in own),
        commands="".join(ZSH_COMMAND.format(name=name, words=words) for name, words in calls),
        names="".join(f"        {quoted(f'{it.name}:{zsh_text(it.text)}')}\n" for it in program.commands),
    )


def fish_option(when: str, it: Option) -> str:
    short = "".join(f" -s {name[1:]}" for name in it.names if not name.startswith("--"))
    line = f"complete -c x10clock -n {when}{short} -l {it.names[-1].removeprefix('--')}"
    if it.value:
        line += " -r -F" if it.is_path else f" -x -a {quoted(' '.join(it.choices))}" if it.choices else " -x"
    return f"{line} -d {fish_text(it.text)}\n"


def fish_text(text: str) -> str:
    return "'" + re.sub(r"([\\'])", r"\\\1", text) + "'"


def fish_command(program: Program, it: Command) -> str:
    when = quoted(f"__fish_seen_subcommand_from {it.name}")
    offered = f" -a {quoted(' '.join(program.names))}" if it.name == HELP else " -F"
    return f"complete -c x10clock -n {when}{offered}\n" + "".join(fish_option(when, option) for option in it.options)


def fish(program: Program) -> str:
    none = "__fish_use_subcommand"
    lines = [
        f"# Completions of {program.version} for fish, which dist/manual.py writes. Fish finds them in\n",
        "# ~/.config/fish/completions.\n",
        "complete -c x10clock -f\n",
    ]
    lines += [f"complete -c x10clock -n {none} -a {it.name} -d {fish_text(it.text)}\n" for it in program.commands]
    lines += [fish_option(none, option) for option in program.options]
    return "".join(lines + [fish_command(program, it) for it in program.commands])


# The files.


def written(program: Program) -> dict[str, str]:
    """The files by their names."""
    return {
        "x10clock.1": man_page(program, readme()),
        "completions/x10clock.bash": bash(program),
        "completions/_x10clock": zsh(program),
        "completions/x10clock.fish": fish(program),
    }


def main() -> int:
    parser = argparse.ArgumentParser(allow_abbrev=False)
    parser.add_argument("--program", type=pathlib.Path, default=PROGRAM)
    parser.add_argument("--to", type=pathlib.Path, default=TOP / "dist")
    given = parser.parse_args()
    try:
        files = written(program_at(given.program.resolve()))
    except Fault as fault:
        print(f"manual: {fault}", file=sys.stderr)
        return 1
    for name, text in files.items():
        path = given.to / name
        path.parent.mkdir(parents=True, exist_ok=True)
        path.write_text(text, encoding="utf-8")
    return 0


if __name__ == "__main__":
    sys.exit(main())
