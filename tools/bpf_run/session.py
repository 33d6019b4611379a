"""Has a program compiled, loaded, verified, run and explained, and reports what came of it by the names of C."""

from __future__ import annotations

import sys
from collections.abc import Iterator

from bpf_object.loaded import refuse_long_values
from bpf_object.program import Fault, find_program
from bpf_object.refusal import Refused

from explain.records import Facts, RecordsError
from explain.records import read as read_facts

from . import programs, state
from .compiler import load_file
from .explained import loop_lines, loop_reports, reason_lines, states_of
from .library import Machine, find_library
from .most import NO_VALUES, most_of
from .options import Options
from .programs import Answer, Clock
from .report import FunctionReport, LoopReport, Program, Report, RunReport
from .reports import Function, Loop, Refusal, Run, read_run, read_verify
from .unit_text import SHORT, VALUES, read_unit, split, with_values

EXPLAIN_SECONDS = 60.0  # that a run's conflicts may take to be explained


class Failed(Exception):
    """The program ended with a status that says that nothing came of it."""

    def __init__(self, status: int, words: str) -> None:
        super().__init__(words)
        self.status = status


class Session:
    """What is done for one command line."""

    def __init__(self, options: Options, clock: Clock) -> None:
        self.options = options
        self._clock = clock
        self._bpfspec = find_program()
        self._library = find_library()
        self._verdicts: dict[str, list[Function] | Refusal] = {}
        loaded, _ = load_file(options, clock, self._judge)
        self.program = Program(options.file, options.main or loaded.programs[0], loaded, read_unit(loaded.unit))
        self.report = Report(self.program)
        self.words = state.loaded_words(self.program, options.load)

    def verify(self) -> bool:
        """Has the unit verified; the report then has its functions or why it is refused."""
        found = self._verdict(self.program.unit.text)
        if isinstance(found, Refusal):
            self.report.refusal = found
            facts = self._facts(["--states"] if self.options.states else [], self._judged)
            self.report.reasons = reason_lines(self.program, facts)
            self.report.states = states_of(self.program, facts) if self.options.page is not None else {}
            return False
        self.report.functions = [
            FunctionReport(self._name(f.slot, k), self.program.line_at(f.slot), f.slot, f.count)
            for k, f in enumerate(found)
        ]
        return True

    def find_most(self) -> bool:
        """Finds the most instructions of a run; whether they are within the limit."""
        facts = None
        if self.program.unit.loop_slots or self.options.page is not None:
            facts = self._facts(["--states"], self._judged)
            self.report.states = states_of(self.program, facts)
        counts = [Function(function.slot, function.count) for function in self.report.functions]
        self.report.most = most = most_of(self.program.unit, counts, facts)
        limit = self.options.limit
        if limit is not None and most.instructions > limit:
            self.report.above_limit = limit
        return self.report.above_limit is None

    def runs(self) -> Iterator[RunReport]:
        """Runs it for each argument, the state going on, up to a trap."""
        machine = self._machine()
        for argument in self.options.arguments:
            values = self._values() if machine is None or len(self.words) > SHORT else ""
            found = self._run(argument, values) if machine is None else machine.run(argument)
            trap = self.program.loaded.trap_in(found.words)
            loops = [] if trap else [*self._loops(found.loops, argument, values)]
            report = RunReport(argument, found.value, loops, self.words, found.words, trap)
            self.report.runs.append(report)
            if trap is None:
                self.words = found.words
            yield report
            if trap is not None:
                return

    def explain(self) -> bool:
        """Has all loops explained, as they are for the first argument; False if that run is a trap, with no loops."""
        argument, values = self.options.arguments[0], self._values()
        words = [*self.options.facts_words(argument), *(["--all"] if self.options.all else [])]
        facts = self._facts([*words, *(["--states"] if self.options.states else [])], values)
        self.report.reasons = reason_lines(self.program, facts)
        if self._is_trap(argument, values):
            return False
        self.report.reasons += loop_lines(self.program, facts)
        self.report.loops = [*loop_reports(self.program, [], facts)]
        return True

    def _is_trap(self, argument: int, values: str) -> bool:
        """Whether the run is a trap, which facts don't say; the report then has that run."""
        if self.program.loaded.trap_element is None:
            return False
        found = self._run(argument, values)
        trap = self.program.loaded.trap_in(found.words)
        if trap is not None:
            self.report.runs.append(RunReport(argument, found.value, [], self.words, found.words, trap))
        return trap is not None

    def picture(self, argument: int, words: list[int]) -> str | None:
        """The picture of the first loop that conflicts."""
        text = with_values(self.program.unit.text, split(words, self.program.loaded.sizes))
        asked = (*programs.EXPLAIN, *self.options.facts_words(argument), "--picture")
        answer = programs.run(asked, text, self._clock, EXPLAIN_SECONDS)
        return answer.output if answer and answer.output.startswith("<svg") else None

    def _judge(self, unit: str) -> Fault | None:
        """What `bpfspec verify` says of a unit, for the loader."""
        found = self._verdict(unit)
        if not isinstance(found, Refusal):
            return None
        if found.slot is None or not found.rule.startswith("V"):
            raise Refused(f"bpfspec doesn't read the unit: {found.text}")
        return Fault(found.rule, found.slot)

    def _verdict(self, unit: str) -> list[Function] | Refusal:
        if unit not in self._verdicts:
            found = self._library.verdict(unit) if self._library is not None else None
            if found is None:
                found = read_verify(self._ask(self._bpfspec, "verify", [], unit).output)
            self._verdicts[unit] = found
        return self._verdicts[unit]

    def _machine(self) -> Machine | None:
        """A machine of the library, where there is one and no loop has a verdict."""
        if self._library is None or self.program.unit.loop_slots:
            return None
        return self._library.machine(self.program.unit.text, split(self.words, self.program.loaded.sizes))

    def _run(self, argument: int, values: str) -> Run:
        """A run by the program."""
        answer = self._ask(self._bpfspec, "run", self.options.words(argument), values)
        found = read_run(answer.output)
        if isinstance(found, Refusal):
            raise Failed(answer.status, found.text)
        return found

    def _ask(self, program: tuple[str, ...], command: str, words: list[str], text: str) -> Answer:
        answer = programs.run((*program, command, *words), text, self._clock)
        if answer is None or (answer.status not in (programs.DONE, programs.REFUSED, programs.NO_TEXT)):
            status = answer.status if answer else programs.NO_STREAM
            told = answer.output.strip() if answer else ""
            told = told or f"bpfspec {command} ended with status {status}"
            raise Failed(status if 0 < status < 128 else programs.NO_STREAM, told)
        return answer

    def _facts(self, words: list[str], text: str) -> Facts:
        answer = self._ask(self._bpfspec, "facts", words, text)
        try:
            return read_facts(answer.output)
        except RecordsError as reason:
            raise Failed(programs.NO_STREAM, str(reason)) from None

    @property
    def _judged(self) -> str:
        """The unit with values that are refused, so that it is judged and not run."""
        return self.program.unit.text + NO_VALUES

    def _values(self) -> str:
        """The unit with the values that the run begins with."""
        text = with_values(self.program.unit.text, split(self.words, self.program.loaded.sizes))
        refuse_long_values(len(text) - len(self.program.unit.text) - len(VALUES) - 1)
        return text

    def _name(self, slot: int, number: int) -> str:
        if slot == 0:
            return self.program.name
        label = next((line.label for line in self.program.unit.lines if line.slot == slot), None)
        return label or f"function {number}"

    def _loops(self, loops: list[Loop], argument: int, values: str) -> Iterator[LoopReport]:
        """The loops of a run, with the accesses that show why they conflict, unless it takes too long to find them."""
        facts = None
        if any(loop.conflicts or loop.answer < 0 for loop in loops):
            words = (*self._bpfspec, "facts", *self.options.facts_words(argument))
            answer = programs.run(words, values, self._clock, EXPLAIN_SECONDS)
            if answer is None:
                told = f"bpfrun: a loop takes more than {EXPLAIN_SECONDS:.0f} s to explain: see bpfrun explain"
                print(told, file=sys.stderr)
            else:
                facts = read_facts(answer.output)
        return loop_reports(self.program, loops, facts)
