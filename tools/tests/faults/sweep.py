"""A fault at each call of a run, one after another."""

from __future__ import annotations

import shlex
import sys
from collections.abc import Iterator
from dataclasses import dataclass
from pathlib import Path

from .kinds import NO_END, NO_MEMORY_TEXT, REFUSED, TOLD, Fault, Program, Ran

PAST_LAST = 3  # runs in a row in which nothing failed end a sweep: threads come to their calls in another order each time
MOST_WRONG = 5  # wrong runs end it too
SHOWN = 80  # bytes of an output
FIRST, STRIDE = 256, 16  # calls that each fail in a sweep that isn't whole; of those after them each sixteenth does


@dataclass(frozen=True)
class Sweep:
    """A row, a command that it is an input of, what that gives, and a fault to be at each of its calls in turn, or at some
    of many."""

    program: Program
    row: str
    words: tuple[str, ...]
    stdin: Path
    own: Ran
    fault: Fault
    is_whole: bool

    def runs(self) -> Iterator[tuple[int, Ran]]:
        """The runs, each with the number of the call that fails."""
        at = past = 0
        while past < PAST_LAST:
            at += 1 if self.is_whole or at < FIRST else STRIDE
            ran = self.program.run(self.words, self.stdin, self.fault.environment(at))
            past = 0 if ran.errors.startswith(TOLD) else past + 1
            yield at, ran

    def line(self, at: int, ran: Ran) -> str:
        """Says which run is wrong, and how to make it again."""
        variables = {"LD_PRELOAD": str(self.program.library), **self.fault.environment(at)}
        words = ["env", *(f"{name}={value}" for name, value in variables.items()), str(self.program.path), *self.words]
        shown = f"{shlex.join(words)} < {shlex.quote(str(self.stdin))}"
        return f"faults: {self.row}, {self.fault.name} {at}: {_shown(ran)}, and not {_shown(self.own)}: {shown}"


@dataclass
class Outcome:
    """How many runs a sweep took, in how many of them a call failed, and how many were wrong."""

    fault: Fault
    runs: int = 0
    failed: int = 0
    wrong: int = 0


def outcome_of(sweep: Sweep) -> Outcome:
    """Makes all runs of a sweep, and tells of the wrong ones on standard error."""
    outcome = Outcome(sweep.fault)
    for at, ran in sweep.runs():
        outcome.runs += 1
        outcome.failed += ran.errors.startswith(TOLD)
        if not sweep.fault.is_right(ran, sweep.own, NO_MEMORY_TEXT.get(sweep.words[0], REFUSED)):
            outcome.wrong += 1
            print(sweep.line(at, ran), file=sys.stderr, flush=True)
        if outcome.wrong == MOST_WRONG:
            break
    return outcome


def _shown(ran: Ran) -> str:
    end = "not at its end" if ran.status == NO_END else f"status {ran.status}"
    return f"{end}, {ran.output[:SHOWN]!r}, {ran.errors[:SHOWN]!r}"
