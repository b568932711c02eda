"""The library libx10clock.so, by ctypes: the one call `x10clock_call` (x10clock.h), and its answers as they are."""

from __future__ import annotations

import ctypes
import functools
import os
import pathlib
from collections.abc import Sequence
from dataclasses import dataclass
from typing import Any, TypeAlias

# A text, its bytes, or the path of a file that holds it.
Program: TypeAlias = "str | bytes | os.PathLike[str]"

LIBRARY = "libx10clock.so"
# How much room a text is given first. Where one is longer the call is made again: its answer is the same.
ROOM = 1 << 14


class Lengths(ctypes.Structure):
    """`struct x10clock_lengths`."""

    _fields_ = [("out", ctypes.c_size_t), ("err", ctypes.c_size_t), ("log", ctypes.c_size_t)]


class Checked(ctypes.Structure):
    """`struct x10clock_checked`: the bounds of a source text that is accepted, or which rule it breaks where."""

    _fields_ = [
        ("steps", ctypes.c_uint64),
        ("at", ctypes.c_size_t),
        ("activities", ctypes.c_uint32),
        ("clocks", ctypes.c_uint32),
        ("family", ctypes.c_uint32),
        ("number", ctypes.c_uint32),
        ("unit", ctypes.c_uint32),
    ]


class Diagnosis(ctypes.Structure):
    """`struct x10clock_diagnosis`: the same, and the line and the column, or 0 where there is none."""

    _fields_ = [
        ("steps", ctypes.c_uint64),
        ("at", ctypes.c_size_t),
        ("line", ctypes.c_size_t),
        ("column", ctypes.c_size_t),
        ("activities", ctypes.c_uint32),
        ("clocks", ctypes.c_uint32),
        ("family", ctypes.c_uint32),
        ("number", ctypes.c_uint32),
        ("unit", ctypes.c_uint32),
    ]


@dataclass(frozen=True)
class Answer:
    """What a call answers: its status, and what the program would write."""

    status: int
    out: bytes
    err: bytes
    log: bytes

    @property
    def line(self) -> str:
        """The last line of standard error, which says what stands against the call."""
        return self.err.decode("utf-8", "replace").rstrip("\n").rpartition("\n")[2]


@functools.cache
def library() -> Any:
    """The library that X10CLOCK_LIBRARY names, or the one beside this file, or the system's."""
    beside = pathlib.Path(__file__).resolve().parent / LIBRARY
    named = os.environ.get("X10CLOCK_LIBRARY")
    loaded = ctypes.CDLL(named or (str(beside) if beside.exists() else LIBRARY))
    size, text = ctypes.c_size_t, ctypes.c_char_p
    room = ctypes.POINTER(ctypes.c_char)
    rooms = [kind for given in (text, text, text, room, room, room) for kind in (given, size)]
    loaded.x10clock_call.argtypes = [*rooms, ctypes.POINTER(Lengths)]
    loaded.x10clock_call.restype = ctypes.c_uint8
    loaded.x10clock_check.argtypes = [text, size, ctypes.POINTER(Checked)]
    loaded.x10clock_check.restype = ctypes.c_uint8
    loaded.x10clock_diagnose.argtypes = [text, size, ctypes.POINTER(Diagnosis)]
    loaded.x10clock_diagnose.restype = ctypes.c_uint8
    return loaded


def held(program: Program) -> bytes:
    """The bytes of a program, a log or a list."""
    if isinstance(program, bytes):
        return program
    if isinstance(program, str):
        return program.encode()
    return pathlib.Path(program).read_bytes()


def name_of(program: Program) -> str:
    """What an answer calls a program: its path, or `-` for a text."""
    return "-" if isinstance(program, (bytes, str)) else os.fspath(program)


def call(words: Sequence[str], program: Program = b"", beside: Program = b"") -> Answer:
    """What the program x10clock answers to these words, where FILE holds `program` and what is read beside it `beside`.

    FILE's path in the words is only a name, and so are those of a log and of a list. A text may have any length.
    """
    if any("\0" in word for word in words):
        raise ValueError("a word has a zero in it")
    asked = b"".join(word.encode() + b"\0" for word in words)
    given = [asked, held(program), held(beside)]
    rooms = [ROOM, ROOM, ROOM]
    while True:
        buffers, lengths = [ctypes.create_string_buffer(room) for room in rooms], Lengths()
        read = [part for text in given for part in (text, len(text))]
        written = [part for buffer, room in zip(buffers, rooms, strict=True) for part in (buffer, room)]
        status = library().x10clock_call(*read, *written, ctypes.byref(lengths))
        wanted = [lengths.out, lengths.err, lengths.log]
        if all(want <= room for want, room in zip(wanted, rooms, strict=True)):
            out, err, log = (buffer[:want] for buffer, want in zip(buffers, wanted, strict=True))
            return Answer(status, bytes(out), bytes(err), bytes(log))
        rooms = [max(want, room) for want, room in zip(wanted, rooms, strict=True)]


def verdict(program: Program) -> tuple[int, Checked]:
    """The verdict on a source text, by `x10clock_check`: the status, and numbers."""
    text, told = held(program), Checked()
    status: int = library().x10clock_check(text, len(text), ctypes.byref(told))
    return status, told


def diagnosis(program: Program) -> tuple[int, Diagnosis]:
    """The verdict on a source text with its line and column, by `x10clock_diagnose`."""
    text, told = held(program), Diagnosis()
    status: int = library().x10clock_diagnose(text, len(text), ctypes.byref(told))
    return status, told
