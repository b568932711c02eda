"""What a call takes: seconds, and memory; the latter also of the called program alone, by GNU time."""

from __future__ import annotations

import os
import subprocess
import tempfile
import time
from collections.abc import Iterable
from dataclasses import dataclass, replace
from typing import IO

GNU_TIME = "/usr/bin/time"


@dataclass(frozen=True)
class Spent:
    """What a call took: seconds of processor time, and those that passed; the most memory in MB; its status; what it
    wrote.

    Memory counts from what the process held that made the call.
    """

    seconds: float
    passed: float
    megabytes: float
    status: int
    out: bytes
    err: bytes


def spent(words: Iterable[object], sink: IO[bytes] | None = None) -> Spent:
    """Makes a call. What it writes to standard output isn't kept where it goes to a file."""
    with tempfile.TemporaryFile() as out, tempfile.TemporaryFile() as err:
        begun = time.monotonic()
        called = subprocess.Popen([str(word) for word in words], stdout=sink or out, stderr=err)
        _, status, usage = os.wait4(called.pid, 0)
        passed = time.monotonic() - begun
        called.returncode = os.waitstatus_to_exitcode(status)
        written = [file.read() for file in (out, err) if file.seek(0) == 0]
    return Spent(usage.ru_utime + usage.ru_stime, passed, usage.ru_maxrss / 1024, called.returncode, *written)


def spent_alone(words: Iterable[object]) -> Spent:
    """The same, but memory doesn't count from what this process held: GNU time makes the call, which holds little."""
    with tempfile.NamedTemporaryFile("r") as told:
        took = spent([GNU_TIME, "-q", "-f", "%M", "-o", told.name, *words])
        return replace(took, megabytes=int(told.read()) / 1024)
