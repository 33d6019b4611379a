"""What came of a program, by the names of C: the one thing that text, JSON and the page are made of."""

from __future__ import annotations

from bisect import bisect_right
from collections.abc import Sequence
from dataclasses import dataclass, field
from functools import cached_property

from bpf_object.btf import SourceLine
from bpf_object.loaded import Loaded
from bpf_object.variables import Variable

from .c_types import CType, Form, Number, type_of, type_of_variable
from .c_values import Value, decoded, text_of
from .most import Most
from .reports import Refusal
from .unit_text import UnitText

ANSWER_BYTES = 8


@dataclass(frozen=True)
class Program:
    """A program that was loaded."""

    file: str
    name: str  # of the main function
    loaded: Loaded
    unit: UnitText

    @cached_property
    def types(self) -> dict[str, CType]:
        return {name: type_of_variable(variable) for name, variable in self.variables.items()}

    @cached_property
    def variables(self) -> dict[str, Variable]:
        """The variables by their names; of equal names the later ones have their sections' names behind theirs."""
        named: dict[str, Variable] = {}
        for variable in self.loaded.variables:
            if self.loaded.btf is not None and variable.type is None:
                continue  # the compiler made it
            name = variable.name if variable.name not in named else f"{variable.name}@{variable.section}"
            named.setdefault(name, variable)
        return named

    @cached_property
    def _line_slots(self) -> list[int]:
        return sorted(self.loaded.lines)

    def line_at(self, slot: int) -> SourceLine | None:
        """The line of C of an instruction."""
        known = self._line_slots
        at = bisect_right(known, slot)
        return self.loaded.lines[known[at - 1]] if at else None

    def place_at(self, slot: int) -> str:
        """The line of C of an instruction as `file:line`, or its slot where none is known."""
        return place(self.line_at(slot)) or f"slot {slot}"

    def name_of(self, element: int) -> str:
        """What C calls the values of an element."""
        names = (variable.name_of(element) for variable in self.loaded.variables)
        # Of what is rewritten, main's frame alone is in elements that no variable has and several iterations access.
        other = f"element {element}" if not self.loaded.rewrites else f"main's frame, element {element}"
        return next((name for name in names if name), other)

    def values(self, words: Sequence[int]) -> dict[str, Value]:
        """The variables' values."""
        return {name: decoded(variable.bytes_in(words), self.types[name]) for name, variable in self.variables.items()}

    @cached_property
    def _result(self) -> Number:
        """The type of main's result; a signed number of 64 bits where C says nothing."""
        btf = self.loaded.btf
        kind = type_of(btf, btf.result_of(self.name)) if btf else None
        return kind if isinstance(kind, Number) else Number(ANSWER_BYTES, Form.SIGNED)

    def returned(self, number: int) -> Value:
        """What main returned, as the value that C says it is."""
        return decoded(number.to_bytes(ANSWER_BYTES, "little"), self._result)

    def returned_text(self, number: int) -> str:
        """The same in words."""
        return text_of(self.returned(number), self._result)


@dataclass(frozen=True)
class FunctionReport:
    """A function, and the most instructions that it takes."""

    name: str
    line: SourceLine | None
    slot: int
    count: int


@dataclass(frozen=True)
class AccessReport:
    """What an iteration does with an element."""

    iteration: int
    action: str
    place: str
    slot: int


@dataclass(frozen=True)
class ConflictReport:
    """An element that conflicts: what C calls it, and the accesses that show it."""

    name: str
    element: int
    accesses: list[AccessReport]

    @property
    def places(self) -> str:
        """The lines of the accesses, in brackets."""
        known = [*dict.fromkeys(access.place for access in self.accesses)]
        return f" ({' and '.join(known)})" if known else ""


@dataclass(frozen=True)
class LoopReport:
    """A loop call as it came out."""

    place: str
    slot: int
    answer: int
    verdict: str
    conflicts: int = 0
    shown: list[ConflictReport] = field(default_factory=list)
    refused: str = ""  # why it is, where that is known


@dataclass(frozen=True)
class RunReport:
    """A run: main's argument, what it returned, its loops, and the words over all maps before and after it."""

    argument: int
    value: int
    loops: list[LoopReport]
    before: list[int]
    after: list[int]
    trap: str | None = None


@dataclass
class Report:
    """All that came of it. Where a run isn't possible the refusal says why."""

    program: Program
    functions: list[FunctionReport] = field(default_factory=list)
    most: Most | None = None
    refusal: Refusal | None = None
    reasons: list[str] = field(default_factory=list)  # why it is refused, or what its loops do, in words
    above_limit: int | None = None
    runs: list[RunReport] = field(default_factory=list)
    loops: list[LoopReport] = field(default_factory=list)
    states: dict[int, str] = field(default_factory=dict)


def place(line: SourceLine | None) -> str | None:
    """A line as `file:line`."""
    return f"{line.file}:{line.number}" if line else None
