"""Facts in the words of `bpfspec explain`, with the lines and the names of C in place of those of the unit."""

from __future__ import annotations

from collections.abc import Iterator

from explain.flow import Flow, Joins
from explain.loops import Loops
from explain.pages import Page
from explain.reasons import unit_reasons
from explain.records import Facts, Pair
from explain.records import Loop as LoopFacts
from explain.shown import counted, escaped

from .report import AccessReport, ConflictReport, LoopReport, Program
from .reports import Loop

MOST_ELEMENTS = 64  # of a loop that are shown
STEP = "{place}  {insn:<24}  "
STEP_OF_C = "iteration {index} {what} at {place}{text}"
UNKNOWN_REASONS = {-22: "its flags aren't 0", -7: "it asks for more than 8388608 iterations"}
REASONS = {
    -22: "its flags are {loop.flags}, and have to be 0",
    -7: "it asks for {loop.iterations} iterations, and 8388608 are the most",
}


class PageOfC(Page):
    """The page of a unit that was made of C."""

    def __init__(self, program: Program, facts: Facts) -> None:
        super().__init__(program.unit.text, facts.insns)
        self._program = program

    def place(self, slot: int, insn: str) -> str:
        """The line of C, and the instruction as the unit has it."""
        number = self.number(slot)
        return f"{self._program.place_at(slot)}  {self.instruction(number) if number is not None else insn}"

    def step(self, slot: int, insn: str) -> str:
        """The same in columns."""
        return STEP.format(place=self._program.place_at(slot), insn=insn)

    def state(self, slot: int, words: str) -> str:
        """What is known there: its place has no slot."""
        return words


class LoopsOfC(Loops):
    """The loops of a unit that was made of C."""

    def __init__(self, program: Program, facts: Facts) -> None:
        super().__init__(facts, PageOfC(program, facts), "")
        self._program = program

    def head(self, loop: LoopFacts) -> Iterator[str]:
        """The loop in a line, with the reason if it is refused."""
        yield loop_line(self.report_of(loop))

    def place(self, index: int, slot: int, what: str) -> str:
        """What an iteration does, and the line of C where."""
        line = self._program.line_at(slot)
        text = f": {' '.join(line.text.split())}" if line else ""
        return STEP_OF_C.format(index=index, what=what, place=self._program.place_at(slot), text=text)

    def element_words(self, pair: Pair) -> str:
        """What C calls the element of a pair."""
        return self._program.name_of(self.element(pair))

    def report_of(self, loop: LoopFacts) -> LoopReport:
        """A loop call, with the accesses that show its conflicts."""
        shown = [self._conflict_of(pair) for pair in loop.pairs]
        reason = REASONS[loop.answer].format(loop=loop) if loop.answer in REASONS else ""
        place = self._program.place_at(loop.slot)
        return LoopReport(place, loop.slot, loop.answer, loop.verdict, loop.conflicts or 0, shown, reason)

    def _conflict_of(self, pair: Pair) -> ConflictReport:
        accesses = [
            AccessReport(step.index, step.access.words().removesuffix(" it"), self._program.place_at(step.slot), step.slot)
            for step in self.steps(pair)
        ]
        return ConflictReport(self.element_words(pair), self.element(pair), accesses)


def reason_lines(program: Program, facts: Facts) -> list[str]:
    """Why a unit is refused, and with `--states` what is known before each instruction."""
    return escaped(unit_reasons(facts, PageOfC(program, facts))).splitlines()


def loop_lines(program: Program, facts: Facts) -> list[str]:
    """Which strategy each loop takes, and why it conflicts."""
    return escaped("\n".join(LoopsOfC(program, facts).lines(MOST_ELEMENTS))).splitlines()


def states_of(program: Program, facts: Facts) -> dict[int, str]:
    """What the registers are that the instruction at each slot reads."""
    joins = Joins(Flow(facts, PageOfC(program, facts)))
    return {slot: joins.state(slot) for slot in facts.insns}


def loop_reports(program: Program, loops: list[Loop], facts: Facts | None) -> Iterator[LoopReport]:
    """The loops of a run; with its facts, if there are some, the accesses that show why they conflict."""
    if facts is not None:
        yield from map(LoopsOfC(program, facts).report_of, facts.loops)
        return
    for loop in loops:
        shown = [] if loop.least is None else [ConflictReport(program.name_of(loop.least), loop.least, [])]
        reason = UNKNOWN_REASONS.get(loop.answer, "")
        yield LoopReport(program.place_at(loop.slot), loop.slot, loop.answer, loop.verdict, loop.conflicts, shown, reason)


def loop_line(loop: LoopReport) -> str:
    """A loop call in a line."""
    if loop.answer < 0:
        return f"loop at {loop.place}: refused, since {loop.refused}"
    verdict = loop.verdict
    if loop.conflicts:
        verdict = f"conflict at {loop.shown[0].name}{loop.shown[0].places}"
        others = loop.conflicts - 1
        verdict += f" and {others} more element{'s' * (others > 1)}" if others else ""
    return f"loop at {loop.place}: {counted(loop.answer, 'iteration')}, {verdict}"
