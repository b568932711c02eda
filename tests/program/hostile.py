#!/usr/bin/env python3
"""The built program on files, pipes and devices that fail it, on closed streams, and under limits of the system: each
call has to be answered with its status, within its time, and nothing of the user's may be lost.

    python3 -m tests.program.hostile [--program PATH]

crates/x10clock/out/x10clock where nothing else is said. Needs Linux; what a limit for another user than root shows is
left out where the caller isn't root.
"""

from __future__ import annotations

import argparse
import os
import pathlib
import resource
import signal
import subprocess
import sys
import tempfile
import threading
import time
from collections.abc import Callable, Iterator
from dataclasses import dataclass, field

from tests import harness
from tests.harness import TOP

ROWS = TOP / "tests/program/rows"
IN_STEP = ROWS / "in-step.x10"
MODULE = ROWS / "in-step.json"
PRINTED = (ROWS / "in-step.stdout").read_text()
LOG = "x10log 1\n" + "".join(f"{who} 1\n" for who in (0, 0, 0, 1, 0, 0, 0, 0, 1, 1, 1, 1)) + "end 12\n"
OUTCOMES = "outcome 1 prints 1 2\noutcome 2 prints 2 1\noutcomes 2 complete\n"
DEVICE, MEMORY = "x10clock: device\n", "x10clock: out of memory\n"
# Of these commands nothing is told of a file that can't be opened but that.
FIXED = ("check", "compile", "run", "replay", "chart")
FOLDER, MISSING, OTHER = "it is a folder", "no such file or folder", "the system can't open it"
# What a person is asked before the first step of in-step.x10 and before the second, and what is said where no answer
# comes.
ASKED = """steps 0
act 0 at 2:9 can step
act 0 at 2:9: val c = Clock.make();
who steps?
"""
ASKED_AGAIN = """steps 1
act 0 at 3:5 can step, clock 0 open
act 0 in main, c is clock 0
clock 0 phase 0
act 0 at 3:5: async clocked(c) {
who steps?
"""
OVER = "the input has ended\n"
TOO_LONG = """/dev/zero: F4 TooLong: the text has more than 1048576 bytes
   = usual repair: write a shorter one: a method is written once, however often it is called
"""
LOG_FIRST = "x10clock: FILE is a log; the program comes first, then the log\n"
OVER_FILE = "x10clock: --log would write over FILE\n"
OVER_OUTPUT = "x10clock: --log would write over standard output\n"
OVER_ERROR = "x10clock: --log would write over standard error\n"
MANY = """def main() {
    val c = Clock.make();
    for (i in 1..9000) async clocked(c) { Clock.advanceAll(); }
    Clock.advanceAll();
}
"""
LONG = "def main() { for (i in 1..900000000) ; Console.OUT.println(1); }"
# The least stack, in KB, in which texts as deep as they may be are answered.
LEAST_STACK = 192
LIMITS_OF_MEMORY = (5, 10, 20, 40, 80, 160, 320, 640, 1_280, 3_000)


@dataclass
class Ended:
    status: int
    out: str
    err: str


@dataclass
class Tried:
    """What has been tried, and what went wrong."""

    program: pathlib.Path
    folder: pathlib.Path
    calls: int = 0
    wrong: list[str] = field(default_factory=list)

    def shell(self, script: str, *words: object, given: bytes = b"", limits: Callable[[], None] | None = None) -> Ended:
        """Runs a line of the shell in which `x` is the program; a status below 0 is a signal's death, or none in
        time."""
        self.calls += 1
        line = ["sh", "-c", f'x="{self.program}"; {script}', "sh", *map(str, words)]
        return Ended(*harness.call(line, given, cwd=self.folder, preexec_fn=limits).texts())

    def wants(self, what: str, got: object, wanted: object) -> None:
        if got != wanted:
            self.wrong.append(f"{what}\n    wanted: {wanted}\n    got: {got}")

    def answers(self, script: str, status: int, out: str = "", err: str = "", **how: object) -> None:
        self.wants(script, self.shell(script, **how), Ended(status, out, err))

    def file(self, name: str, text: str | bytes) -> pathlib.Path:
        path = self.folder / name
        path.write_bytes(text.encode() if isinstance(text, str) else text)
        return path


def unopened(command: str, path: str, why: str) -> str:
    """What is told where this file can't be opened."""
    return ("" if command.split()[0] in FIXED else f"x10clock: can't open {path}: {why}\n") + DEVICE


# Where output goes.


def full_devices(tried: Tried) -> None:
    """A device that takes nothing, and a pipe that nobody reads."""
    tried.answers("exec $x run in-step.x10 > /dev/full", 5, err=DEVICE)
    tried.answers("exec $x check in-step.x10 > /dev/full", 5, err=DEVICE)
    tried.answers("exec $x listing in-step.x10 > /dev/full", 5, err=DEVICE)
    tried.answers("exec $x outcomes in-step.x10 > /dev/full", 5, err=DEVICE)
    tried.answers("exec $x outcomes --log /dev/full in-step.x10", 5, OUTCOMES, DEVICE)
    tried.answers(
        "$x outcomes in-step.x10 > list; exec $x outcomes --expect list in-step.x10 > /dev/full", 5, err=DEVICE
    )
    tried.answers("exec $x events in-step.x10 log > /dev/full", 5, err=DEVICE)
    for command in (
        "lanes", "lanes --svg", "lanes --path", "lanes --svg --path", "lanes --rounds", "page", "page --path", "where",
        "races", "span"
    ):  # fmt: skip
        tried.answers(f"exec $x {command} in-step.x10 log > /dev/full", 5, err=DEVICE)
    tried.answers("exec $x page --outcome 2 in-step.x10 > /dev/full", 5, err=DEVICE)
    tried.answers("exec $x why in-step.x10 log 4 > /dev/full", 5, err=DEVICE)
    tried.answers("exec $x races in-step.x10 > /dev/full", 5, err=DEVICE)
    tried.answers("exec $x run --order random --runs 3 in-step.x10 > /dev/full", 5, err=DEVICE)
    tried.answers("exec $x run --order greedy in-step.x10 > /dev/full", 5, err=DEVICE)
    tried.answers("exec $x explain --json in-step.x10 > /dev/full", 5, err=DEVICE)
    tried.answers("exec $x explain --json bad.x10 > /dev/full", 5, err=DEVICE)
    tried.answers("exec $x check no.x10 2> /dev/full", 5)
    tried.answers("exec $x run in-step.x10 > /dev/full 2> /dev/full", 5)
    tried.answers("exec $x run --log /dev/full in-step.x10", 5, PRINTED, DEVICE)
    tried.answers("exec $x run --log no-folder/log in-step.x10", 5, err=DEVICE)
    tried.answers("{ sleep 0.3; $x run in-step.x10; echo $? >&2; } | true; sleep 0.1", 0, err=f"{DEVICE}5\n")


def streams(tried: Tried) -> None:
    """Closed streams: nothing else is opened in their place."""
    tried.answers("exec $x run in-step.x10 >&-", 5, err=DEVICE)
    tried.answers("exec $x run - <&-", 5, err=DEVICE)
    tried.answers("exec $x check bad.x10 2>&-", 5)
    tried.answers("exec $x check bad.x10 >&-", 1, err="x10clock: F2 Syntax at 0\n")
    tried.answers("exec $x --help >&-", 5)
    tried.answers("exec $x walk 2>&-", 5)
    for closed in ("<&-", ">&-", "2>&-", "<&- >&-", "<&- 2>&-", ">&- 2>&-", "<&- >&- 2>&-"):
        tried.file("log", "something that was there before")
        ran = tried.shell(f"exec $x run --log log in-step.x10 {closed}")
        is_shut = ">&-" in closed.replace("2>&-", "")
        tried.wants(f"run --log {closed}", ran.status, 5 if is_shut else 0)
        tried.wants(f"run --log {closed}, its log", (tried.folder / "log").read_text(), "" if is_shut else LOG)
        bad = tried.shell(f"exec $x run --log log bad.x10 {closed}")
        tried.wants(f"run --log {closed}, refused", bad.status, 5 if "2>&-" in closed else 1)
        tried.wants(f"run --log {closed}, refused, its log", (tried.folder / "log").read_text(), "")


def over_file(tried: Tried) -> None:
    """A log that would be written over the program is refused, by whatever name it has, and nothing is lost."""
    text = IN_STEP.read_text()
    os.symlink("kept.x10", tried.folder / "link")
    tried.file("kept.x10", text)
    os.link(tried.folder / "kept.x10", tried.folder / "hard")
    for path, file in [
        ("kept.x10", "kept.x10"),
        ("./kept.x10", "kept.x10"),
        ("link", "kept.x10"),
        ("kept.x10", "link"),
        ("hard", "kept.x10"),
    ]:
        tried.answers(f"exec $x run --log {path} {file}", 2, err=OVER_FILE)
        tried.answers(f"exec $x outcomes --log {path} {file}", 2, err=OVER_FILE)
    for path in ("kept.x10", "/dev/stdin", "/dev/fd/0", "hard"):
        tried.answers(f"exec $x run --log {path} - < kept.x10", 2, err=OVER_FILE)
    tried.wants("the program that was to be written over", (tried.folder / "kept.x10").read_text(), text)
    tried.answers("exec $x run --log /dev/null /dev/null", 1, err="x10clock: F9 NoMain at 0\n")
    tried.answers("exec $x run --log other kept.x10", 0, PRINTED)
    tried.wants("another file", (tried.folder / "other").read_text(), LOG)


def over_streams(tried: Tried) -> None:
    """Nor is a log written over what a standard stream writes to, where that is a file; to a pipe or a device it may
    be."""
    os.symlink("same", tried.folder / "name")
    for command in ("run", "outcomes", "run --order ask"):
        for path in ("same", "name", "/dev/stdout", "/dev/fd/1"):
            tried.file("same", "what was there before\n")
            tried.answers(f"exec $x {command} --log {path} in-step.x10 >> same", 2, err=OVER_OUTPUT)
            tried.wants("what was there before", (tried.folder / "same").read_text(), "what was there before\n")
        for path in ("same", "name", "/dev/stderr", "/dev/fd/2"):
            tried.file("same", "")
            tried.answers(f"exec $x {command} --log {path} in-step.x10 2>> same", 2)
            tried.wants("standard error", (tried.folder / "same").read_text(), OVER_ERROR)
    tried.answers("exec $x run --log /dev/stdout in-step.x10", 0, PRINTED + LOG)
    tried.answers("exec $x run --log /dev/stderr in-step.x10", 0, PRINTED, LOG)
    tried.answers("exec $x run --log /dev/null in-step.x10 > /dev/null", 0)


def shared_path(tried: Tried) -> None:
    """A log that is longer than what was written, for something else writes there, too, is a failure."""
    tried.calls += 1
    path = tried.folder / "shared"
    words = [tried.program, "run", "--order", "ask", "--log", path, "in-step.x10"]
    with subprocess.Popen(
        words, stdin=subprocess.PIPE, stdout=subprocess.PIPE, stderr=subprocess.PIPE, cwd=tried.folder, text=True
    ) as one:
        told = "".join(one.stderr.readline() for _ in ASKED.splitlines())
        tried.answers("exec $x run --log shared in-step.x10", 0, PRINTED)
        out, err = one.communicate("", timeout=harness.SECONDS)
        wanted = (ASKED + OVER + DEVICE, "stopped steps 0\n", 5)
        tried.wants("one that writes less", (told + err, out, one.returncode), wanted)


def fifo(tried: Tried) -> None:
    """A log that goes to a pipe with a name waits for whoever reads it, and gets there whole."""
    os.mkfifo(tried.folder / "fifo")
    tried.answers("exec timeout 1 $x run --log fifo in-step.x10", 124)
    tried.answers("cat fifo > got & exec $x run --log fifo in-step.x10", 0, PRINTED)
    tried.answers("exec $x replay in-step.x10 got", 0, PRINTED)


# Where input comes from.


def strange_files(tried: Tried) -> None:
    for command in (
        "check", "explain", "explain --json", "listing", "compile", "run", "outcomes", "outcomes --sets",
        "outcomes --count", "races",
        "run --order random --runs 2", "run --order greedy", "check --module",
    ):  # fmt: skip
        tried.answers(f"exec $x {command} .", 5, err=unopened(command, ".", FOLDER))
        tried.answers(f"exec $x {command} no-file", 5, err=unopened(command, "no-file", MISSING))
        tried.answers(f"exec $x {command} bad.x10/in", 5, err=unopened(command, "bad.x10/in", OTHER))
    tried.answers(
        "exec $x listing \"$(printf 'a\\033[2Jb')\"", 5, err=unopened("listing", "a\\x1b[2Jb", MISSING)
    )
    tried.answers("exec $x outcomes --log no/log in-step.x10", 5, err=unopened("outcomes", "no/log", MISSING))
    tried.answers("exec $x outcomes --log . in-step.x10", 5, err=unopened("outcomes", ".", FOLDER))
    tried.answers("exec $x outcomes --expect no in-step.x10", 5, err=unopened("outcomes", "no", MISSING))
    if os.geteuid() != 0:
        tried.file("shut", "").chmod(0)
        tried.answers("exec $x listing shut", 5, err=unopened("listing", "shut", "no permission"))
    tried.answers("exec $x check /dev/null", 1, err="x10clock: F9 NoMain at 0\n")
    tried.answers("exec $x check --module /dev/null", 1, err="x10clock: M1 NotJson\n")
    tried.answers("exec $x check /dev/zero", 1, err="x10clock: F4 TooLong at 0\n")
    tried.answers("exec $x check --module /dev/zero", 1, err="x10clock: M3 Limit\n")
    tried.answers("exec $x explain /dev/zero", 1, TOO_LONG, err="x10clock: F4 TooLong at 0\n")
    tried.answers("exec $x explain /dev/zero > /dev/full", 5, err=DEVICE)
    tried.answers("exec $x listing /dev/zero", 1, err="x10clock: F4 TooLong at 0\n")
    tried.answers("exec $x listing --module /dev/zero", 1, err="x10clock: M3 Limit\n")
    tried.answers("exec $x listing /dev/null", 1, err="x10clock: F9 NoMain at 0\n")
    for command in (
        "replay", "chart", "events", "lanes", "lanes --svg", "lanes --path", "lanes --rounds", "page", "page --path",
        "where", "where --at 2", "races", "span", "why"
    ):  # fmt: skip
        step = " 4" if command == "why" else ""
        tried.answers(f"exec $x {command} in-step.x10 .{step}", 5, err=unopened(command, ".", FOLDER))
        tried.answers(f"exec $x {command} in-step.x10 no{step}", 5, err=unopened(command, "no", MISSING))
        tried.answers(f"exec $x {command} in-step.x10 /dev/zero{step}", 3, err="x10clock: L1 Grammar line 1\n")
        tried.answers(f"exec $x {command} in-step.x10 /dev/null{step}", 3, err="x10clock: L2 Truncated\n")
        note = "" if command in FIXED else LOG_FIRST
        tried.answers(f"exec $x {command} log in-step.x10{step}", 1, err=f"{note}x10clock: F2 Syntax at 0\n")
        tried.answers(
            f"{{ echo x10log 1; yes '0 1'; }} | $x {command} - log{step}", 1, err=f"{note}x10clock: F4 TooLong at 0\n"
        )


def strange_names(tried: Tried) -> None:
    """FILE's name moves no terminal, and of a name in the text 60 letters are told in each line."""
    tried.file("a\x1b[2Jb\u202e.x10", "def main() { val n = 1 }")
    head = "a\\x1b[2Jb\\u{202e}.x10:1:24: F2 Syntax: this can't stand here\n"
    ran = tried.shell("exec $x explain a*.x10")
    tried.wants("explain of a strange name", ran.out.splitlines(keepends=True)[0], head)
    method, starts = "n" * 50_000, 1_000
    tried.file("long-name.x10", f"def {method}() {{{' async ;' * starts}}}\ndef main() {{{method}();}}\n")
    told = f"this `async` is started 1 time in one run of {method[:60]}..\n"
    ran = tried.shell("exec $x explain long-name.x10")
    lines = ran.out.count("\n")
    tried.wants("explain of a long name", (ran.status, ran.out.count(told), lines), (0, starts, starts + 1))


def asked(tried: Tried) -> None:
    """Answers that can't be read, that end early, or have no end; and a question stands there before its answer is
    read."""
    run = "run --order ask in-step.x10"
    for given in ("<&-", "< ."):
        tried.answers(f"exec $x {run} {given}", 5, err=ASKED + DEVICE)
    tried.answers(f"exec $x {run} 2> /dev/full", 5)
    tried.answers(f"exec $x {run} 2>&-", 5)
    tried.answers(f"exec $x {run} > /dev/full", 5, err=ASKED + OVER + DEVICE)
    tried.answers(f"exec $x {run} --log /dev/full", 5, "stopped steps 0\n", ASKED + OVER + DEVICE)
    tried.answers(f"exec $x {run} --log no-folder/log", 5, err=DEVICE)
    tried.answers(f"exec $x {run} < /dev/null", 6, "stopped steps 0\n", ASKED + OVER)
    tried.answers(f"head -c 10000000 /dev/zero | $x {run}", 6, "stopped steps 0\n", ASKED + OVER)
    tried.answers(
        f"{{ head -c 10000000 /dev/zero; echo; }} | $x {run}",
        6,
        "stopped steps 0\n",
        ASKED + "none of these: who steps?\n" + OVER,
    )
    tried.answers("exec $x run --order ask .", 5, err=DEVICE)
    for path in ("in-step.x10", "answers", "/dev/stdin"):
        tried.file("answers", "0\n")
        tried.answers(
            f"exec $x {run} --log {path} < answers", 2, err="x10clock: --log would write over FILE or standard input\n"
        )
        tried.wants(f"the answers beside {path}", (tried.folder / "answers").read_text(), "0\n")
    tried.calls += 1
    words = [tried.program, *run.split(), "--log", "played"]
    with subprocess.Popen(
        words, stdin=subprocess.PIPE, stdout=subprocess.PIPE, stderr=subprocess.PIPE, cwd=tried.folder, text=True
    ) as person:
        told = [person.stderr.readline() for _ in ASKED.splitlines()]
        person.stdin.write("0\n")
        person.stdin.flush()
        told += [person.stderr.readline() for _ in ASKED_AGAIN.splitlines()]
        out, err = person.communicate(timeout=harness.SECONDS)
        tried.wants(
            "what a person is asked",
            ("".join(told), out, err, person.returncode),
            (ASKED + ASKED_AGAIN, "stopped steps 1\n", OVER, 6),
        )
    tried.wants("the log of what was played", (tried.folder / "played").read_text(), "x10log 1\n0 1\nend 1\n")


def strange_lists(tried: Tried) -> None:
    """Lists of outcomes that are none, that come in pieces, or that have no end: what is behind the most that is read
    isn't looked at."""
    tried.file("outcomes", OUTCOMES)
    last = OUTCOMES.splitlines(keepends=True)[-1]
    tried.answers("exec $x outcomes --expect outcomes in-step.x10", 0, last)
    tried.answers("exec $x outcomes --expect outcomes - < in-step.x10", 0, last)
    tried.answers(
        "{ head -c 30 outcomes; sleep 0.1; tail -c +31 outcomes; } | $x outcomes --expect /dev/stdin in-step.x10",
        0,
        last,
    )
    tried.answers(
        "head -n 1 outcomes | $x outcomes --expect /dev/stdin in-step.x10", 7, OUTCOMES.splitlines(keepends=True)[1]
    )
    no_list = unopened("outcomes", "no-such-file", "no such file or folder")
    tried.answers("exec $x outcomes --expect . in-step.x10", 5, err=unopened("outcomes", ".", "it is a folder"))
    tried.answers("exec $x outcomes --expect no-such-file in-step.x10", 5, err=no_list)
    tried.answers("exec $x outcomes --expect /dev/null in-step.x10", 7, OUTCOMES.splitlines(keepends=True)[0])
    tried.answers("exec $x outcomes --expect /dev/zero in-step.x10", 3, err="x10clock: L6 NoOutcome line 1\n")
    tried.answers("exec $x outcomes --expect in-step.x10 in-step.x10", 3, err="x10clock: L6 NoOutcome line 1\n")
    tried.answers("exec $x outcomes --expect no-such-file bad.x10", 5, err=no_list)
    tried.answers("exec $x outcomes --expect /dev/zero bad.x10", 1, err="x10clock: F2 Syntax at 0\n")
    tried.answers("yes | $x outcomes --expect /dev/stdin in-step.x10", 3, err="x10clock: L6 NoOutcome line 1\n")
    tried.answers("{ cat outcomes; yes ''; } | $x outcomes --expect /dev/stdin in-step.x10", 0, last)


def pipes(tried: Tried) -> None:
    """Texts that come in pieces, and pipes that end early."""
    text = IN_STEP.read_bytes()
    tried.answers("exec $x run -", 0, PRINTED, given=text)
    tried.answers("{ head -c 20 in-step.x10; sleep 0.1; tail -c +21 in-step.x10; } | $x run -", 0, PRINTED)
    tried.answers("head -c 20 in-step.x10 | $x run -", 1, err="x10clock: F2 Syntax at 20\n")
    tried.answers("head -c 40 log | $x replay in-step.x10 /dev/stdin", 3, err="x10clock: L2 Truncated\n")
    tried.answers("cat log | $x replay in-step.x10 /dev/stdin", 0, PRINTED)


def endless(tried: Tried) -> None:
    """Readers that give the same byte for ever, and entries without end."""
    for byte in range(256):
        script = f"tr '\\0' '\\{byte:03o}' < /dev/zero | $x replay in-step.x10 /dev/stdin"
        tried.answers(script, 3, err="x10clock: L1 Grammar line 1\n")
    most = lambda: resource.setrlimit(resource.RLIMIT_AS, (1 << 28, 1 << 28))
    tried.answers("{ echo x10log 1; yes '0 1'; } | $x replay in-step.x10 /dev/stdin", 4, err=MEMORY, limits=most)


def growing(tried: Tried) -> None:
    """A file that grows while it is read."""
    path, stop = tried.file("growing.x10", "def main() { } "), threading.Event()

    def grow() -> None:
        with path.open("ab") as file:
            while not stop.is_set() and file.tell() < 1 << 28:
                file.write(b" " * 65_536)
                file.flush()

    writer = threading.Thread(target=grow)
    writer.start()
    while path.stat().st_size < 1 << 21:
        time.sleep(0.01)
    tried.answers("exec $x check growing.x10", 1, err="x10clock: F4 TooLong at 0\n")
    stop.set()
    writer.join()


# What the system gives.


def limited(what: int, most: int) -> Callable[[], None]:
    return lambda: resource.setrlimit(what, (most, most))


def small_files(tried: Tried) -> None:
    """A limit on the size of files, its signal ignored: as a full disk."""

    def limits() -> None:
        signal.signal(signal.SIGXFSZ, signal.SIG_IGN)
        resource.setrlimit(resource.RLIMIT_FSIZE, (20, 20))

    tried.answers("exec $x run --log log in-step.x10", 5, PRINTED, DEVICE, limits=limits)
    tried.wants("the log on a full disk", (tried.folder / "log").read_text(), LOG[:20])
    tried.answers("$x replay in-step.x10 log", 3, err="x10clock: L2 Truncated\n")


def little_memory(tried: Tried) -> None:
    """An answer, or none for want of memory; no more than that."""
    many = tried.file("many.x10", MANY)
    words = [
        *(f"{command} {many}" for command in ("check", "listing", "explain --json")),
        *(f"{run} {many}" for run in ("run", "run --log log", "run --order greedy", "run --workers 8", "outcomes")),
        f"run --workers 64 {many}",
        "outcomes --expect /dev/zero in-step.x10",
        *(f"{command} in-step.x10 kept.log" for command in ("replay", "events", "lanes", "page")),
        "--help",
    ]
    whole = {word: tried.shell(f"exec $x {word}") for word in words}
    for word, size in ((word, size) for word in words for size in LIMITS_OF_MEMORY):
        ran = tried.shell(f"exec $x {word}", limits=limited(resource.RLIMIT_AS, size << 20))
        if ran != whole[word]:
            tried.wants(f"{word} in {size} MB", ran, Ended(4, "", MEMORY))


def few_files(tried: Tried) -> None:
    tried.answers("exec $x run in-step.x10", 0, PRINTED, limits=limited(resource.RLIMIT_NOFILE, 4))
    tried.answers("exec $x run --log log in-step.x10", 5, err=DEVICE, limits=limited(resource.RLIMIT_NOFILE, 4))


def few_threads(tried: Tried) -> None:
    """Where no thread can be started, the calling one does it all. Root has no such limit. Two may print in either
    order."""
    nobody = "exec setpriv --reuid 65534 --clear-groups" if os.getuid() == 0 else "exec"
    for most in (1, 2, 4):
        ran = tried.shell(f"{nobody} $x run --workers 8 in-step.x10", limits=limited(resource.RLIMIT_NPROC, most))
        ran.out = "".join(sorted(ran.out.splitlines(keepends=True)))
        tried.wants(f"workers with {most} threads", ran, Ended(0, PRINTED, ""))


def small_stack(tried: Tried) -> None:
    """Texts that are nested as deep as they may be, and deeper, in little stack."""
    blocks = "def main() " + "{ " * 65 + "} " * 65
    branches = "def main() { " + "if (1 == 1) { " * 32 + "} " * 32 + "}"
    hidden = "def main() { " + "clocked finish clocked async " * 31 + "; }"
    sums = "def main() { Console.OUT.println(" + "(" * 20 + "1" + " + 2)" * 20 + "); }"
    brackets = "[" * 127 + "]" * 127
    for name, text in {
        "blocks.x10": blocks,
        "branches.x10": branches,
        "hidden.x10": hidden,
        "sums.x10": sums,
        "brackets.json": brackets,
    }.items():
        form = "--module " if name.endswith("json") else ""
        tried.file(name, text)
        whole = tried.shell(f"exec $x check {form}{name}")
        for size in (LEAST_STACK, 512, 8_192):
            ran = tried.shell(f"exec $x check {form}{name}", limits=limited(resource.RLIMIT_STACK, size << 10))
            tried.wants(f"check {name} in {size} KB of stack", ran, whole)


def mind_signals() -> None:
    """In a child: what a shell in the background or `nohup` has it ignore ends it again."""
    for sign in (signal.SIGINT, signal.SIGHUP):
        signal.signal(sign, signal.SIG_DFL)


def killed(tried: Tried) -> None:
    """A run that is ended by a signal leaves nothing that looks like a whole log."""
    tried.file("long.x10", LONG)
    for sign in (signal.SIGINT, signal.SIGTERM, signal.SIGHUP, signal.SIGKILL):
        tried.calls += 1
        tried.file("log", "something that was there before")
        ran = subprocess.Popen(
            [tried.program, "run", "--log", "log", "long.x10"],
            cwd=tried.folder,
            stdout=subprocess.PIPE,
            preexec_fn=mind_signals,
        )
        time.sleep(0.2)
        ran.send_signal(sign)
        tried.wants(f"{sign.name}", (ran.communicate()[0], ran.returncode), (b"", -sign))
        tried.answers("exec $x replay long.x10 log", 3, err="x10clock: L2 Truncated\n")


def all_of_them() -> Iterator[Callable[[Tried], None]]:
    yield from (
        full_devices,
        streams,
        over_file,
        over_streams,
        shared_path,
        fifo,
        strange_files,
        strange_names,
        asked,
        strange_lists,
        pipes,
        endless,
        growing,
        small_files,
    )
    yield from (little_memory, few_files, few_threads, small_stack, killed)


def main() -> int:
    parser = argparse.ArgumentParser(description="Calls x10clock where files, streams and the system fail it.")
    harness.add_program(parser)
    parser.add_argument("--only")
    given = parser.parse_args()
    wrong, calls = [], 0
    for one in all_of_them():
        if given.only and one.__name__ != given.only:
            continue
        with tempfile.TemporaryDirectory() as folder:
            os.chmod(folder, 0o777)
            tried = Tried(given.program, pathlib.Path(folder))
            tried.file("in-step.x10", IN_STEP.read_bytes())
            tried.file("bad.x10", "main")
            tried.file("log", LOG)
            tried.file("kept.log", LOG)
            begun = time.monotonic()
            one(tried)
            print(f"{one.__name__}: {tried.calls} calls, {time.monotonic() - begun:.1f} s")
            wrong += [f"{one.__name__}: {what}" for what in tried.wrong]
            calls += tried.calls
    print(*wrong, sep="\n", end="\n" if wrong else "", file=sys.stderr)
    print(f"hostile: {calls} calls, {len(wrong)} answered otherwise")
    return 1 if wrong or not calls else 0


if __name__ == "__main__":
    sys.exit(main())
