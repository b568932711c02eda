"""A run turn by turn: who steps next is chosen each time.

In a turn an activity takes steps that no other can see, and then one that others can. Nothing is kept in the library:
the answers so far are the state, and each turn is a run by hand (`run --order ask`) by these, whose log says what was
done. So a turn costs what a run of all turns before it does.
"""

from __future__ import annotations

import re
from collections.abc import Callable, Iterator
from dataclasses import dataclass

from x10clock import programs
from x10clock.faults import known
from x10clock.library import Program, call, held, name_of


@dataclass(frozen=True)
class Moment:
    """How many steps were taken, what was printed, who can take the next one, and the log so far."""

    steps: int
    printed: tuple[int, ...]
    who: tuple[int, ...]
    log: bytes

    @property
    def over(self) -> bool:
        """Whether all have ended."""
        return not self.who


class Stepper:
    """A run of a program, moment by moment. `take` takes a turn, and to iterate does so to the end:

    for moment in Stepper(program):  # the least activity that can, each time
        print(moment.steps, moment.who)
    """

    def __init__(self, program: Program, *arguments: int, choose: Callable[[Moment], int] | None = None):
        self.text, self.name, self.arguments = held(program), name_of(program), arguments
        self.choose = choose or (lambda moment: moment.who[0])
        self.answers: list[int] = []
        self.now = self._moment()

    def take(self, who: int) -> Moment:
        """The moment after a turn of this activity, which has to be one that can step."""
        if who not in self.now.who:
            raise ValueError(f"activity {who} can't step, but {', '.join(map(str, self.now.who)) or 'nobody'}")
        self.answers.append(who)
        self.now = self._moment()
        return self.now

    def back(self, turns: int = 1) -> Moment:
        """The moment before the last turns."""
        del self.answers[max(0, len(self.answers) - turns) :]
        self.now = self._moment()
        return self.now

    def where(self) -> str:
        """Where each activity stands now."""
        return programs.where(self.text, self.now.log, *self.arguments)

    def __iter__(self) -> Iterator[Moment]:
        yield self.now
        while not self.now.over:
            yield self.take(self.choose(self.now))

    def _moment(self) -> Moment:
        """How things are behind the steps so far."""
        given = [f"--arg={number}" for number in self.arguments]
        words = ["run", "--order", "ask", "--log", "log", *given, "--", self.name]
        answer = known(call(words, self.text, "".join(f"{who}\n" for who in self.answers)))
        *numbers, last = answer.out.decode().splitlines()
        asked = answer.err.decode().rpartition("who steps?\n")[0]
        return Moment(int(last.split()[2]), tuple(map(int, numbers)), _who(asked) if answer.status else (), answer.log)


def _who(asked: str) -> tuple[int, ...]:
    """Those who can step: each has a line `act 1 at 7:5: ..` in the last question."""
    question = asked.rpartition("who steps?\n")[2]
    return tuple(int(number) for number in re.findall(r"^act (\d+) at \d+:\d+: ", question, re.MULTILINE))
