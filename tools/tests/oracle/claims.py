"""What the facts of a unit claim of its runs, compared with them."""

from __future__ import annotations

from collections.abc import Iterator

from .facts import Facts, Source
from .instructions import Unit
from .machine import Function, Run, Visit


class Claims:
    """The claims of facts, and how many held so far."""

    def __init__(self, unit: Unit, facts: Facts) -> None:
        self._unit = unit
        self._facts = facts
        self.held = 0

    def wrong_in(self, run: Run) -> Iterator[str]:
        """The claims that don't hold in a run up to the fault, which no instruction before it can stop."""
        last = run.last.visits[-1].slot
        if run.is_stuck and last in self._facts.insns and last != self._facts.slot:
            yield f"slot {last} can't be done"
        for function in run.functions:
            yield from self._wrong_in(function)

    def _wrong_in(self, function: Function) -> Iterator[str]:
        before = function.caller
        for time, visit in enumerate(function.visits):
            if visit.slot not in self._facts.insns:  # the run went past the fault
                return
            yield from self._wrong_state(visit)
            if before is not None:
                yield from self._wrong_edge(before, visit)
            for register, source in self._facts.reads.get(visit.slot, {}).items():
                if not self._comes_from(function, time, register, source):
                    yield f"r{register} of slot {visit.slot} doesn't come from {source}"
                self.held += 1
            before = visit

    def _wrong_state(self, visit: Visit) -> Iterator[str]:
        """A visit of a slot that no path leads to, or a value that isn't among those that it may have."""
        if not self._facts.insns[visit.slot].reached:
            yield f"a run comes to slot {visit.slot}"
        for register, known in self._facts.values.get(visit.slot, {}).items():
            if not known.has(visit.registers[register]):
                yield f"before slot {visit.slot} r{register} is {visit.registers[register]}, not {known}"
            self.held += 1

    def _wrong_edge(self, before: Visit, visit: Visit) -> Iterator[str]:
        """A step that is no edge, or a value that isn't among those of the edge."""
        if visit.slot not in self._facts.insns[before.slot].targets:
            yield f"a run goes from slot {before.slot} to slot {visit.slot}"
        for register, known in self._facts.edges.get((before.slot, visit.slot), {}).items():
            if not known.has(visit.registers[register]):
                yield f"from slot {before.slot} to {visit.slot} r{register} is {visit.registers[register]}, not {known}"
            self.held += 1

    def _comes_from(self, function: Function, time: int, register: int, source: Source) -> bool:
        """Whether the value of a register before a visit comes from a source."""
        written = self._last_write(function, 0, time, register)
        if source.kind == "written":
            return written == source.at
        if source.kind == "join":
            joins = [at for at, visit in enumerate(function.visits[: time + 1]) if visit.slot == source.at]
            return bool(joins) and self._last_write(function, joins[-1], time, register) is None
        caller = function.caller.slot if function.caller else None
        return written is None and caller == source.at and (source.kind == "entered") == (caller is not None)

    def _last_write(self, function: Function, start: int, end: int, register: int) -> int | None:
        """The slot of the last visit, from one on and before another, that writes a register."""
        slots = (visit.slot for visit in reversed(function.visits[start:end]))
        return next((slot for slot in slots if register in self._unit.insns[slot].writes), None)
