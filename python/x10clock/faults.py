"""What stands against a call, as exceptions."""

from __future__ import annotations

from x10clock.library import Answer

DONE, PROGRAM, WORDS, LOG, MEMORY, PARTIAL, REFUTED = 0, 1, 2, 3, 4, 6, 7


class Fault(Exception):
    """A call that came to nothing. `answer` has all that was said; the text says why."""

    def __init__(self, answer: Answer):
        said = answer.err.decode("utf-8", "replace").strip() if answer.status == WORDS else answer.line
        super().__init__(said.removeprefix("x10clock: ") or f"status {answer.status}")
        self.answer = answer


class Refused(Fault):
    """The program is refused, or is to be run and its main takes another number of arguments (A1)."""

    @property
    def rule(self) -> str:
        """The rule that it breaks, as `V11`."""
        return str(self).partition(" ")[0]


class BadLog(Fault):
    """The log or the list of outcomes is refused."""


class BadWords(Fault, ValueError):
    """The words aren't understood, or don't go together."""


class OutOfMemory(Fault, MemoryError):
    """Memory ran out."""


FAULTS: dict[int, type[Fault]] = {PROGRAM: Refused, WORDS: BadWords, LOG: BadLog, MEMORY: OutOfMemory}


def known(answer: Answer) -> Answer:
    """The answer, if it is one, whole or not."""
    if answer.status in (DONE, PARTIAL, REFUTED):
        return answer
    raise FAULTS.get(answer.status, Fault)(answer)
