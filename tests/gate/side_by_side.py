"""Runs scripts side by side, as many as there are processors, and prints in their order what each said."""

from __future__ import annotations

import concurrent.futures
import os
import shlex
import subprocess
import time
from collections.abc import Iterable
from dataclasses import dataclass

from tests import harness


@dataclass(frozen=True)
class Ran:
    """A script that was run: the words of its call, whether it passed, what it said, and its seconds."""

    words: str
    has_passed: bool
    said: str
    seconds: float

    def show(self) -> None:
        """Prints the last line of what it said, or all of it where it failed."""
        lines = self.said.splitlines()
        word = "ok" if self.has_passed else "FAILED"
        print(f"{word:6} {self.seconds:7.1f} s  {self.words}", flush=True)
        for line in lines[-1:] if self.has_passed else lines:
            print(f"{'':18}{line}", flush=True)


def run(words: str) -> Ran:
    """Runs a script at the top of the repository. How long it may take is for its own calls to say."""
    begun = time.monotonic()
    pipes = {"stdin": subprocess.DEVNULL, "stdout": subprocess.PIPE, "stderr": subprocess.STDOUT}
    ran = subprocess.run(shlex.split(words), cwd=harness.TOP, check=False, **pipes)
    return Ran(words, ran.returncode == 0, ran.stdout.decode("utf-8", "replace"), time.monotonic() - begun)


def run_all(scripts: Iterable[str]) -> bool:
    """Whether all of them passed."""
    have_passed = True
    with concurrent.futures.ThreadPoolExecutor(len(os.sched_getaffinity(0))) as pool:
        for ran in pool.map(run, scripts):
            ran.show()
            have_passed = have_passed and ran.has_passed
    return have_passed
