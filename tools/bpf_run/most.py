"""The most instructions that a run takes: main's count, and for each loop call its iterations by its callback's."""

from __future__ import annotations

from dataclasses import dataclass

from explain.records import Facts, Value

from .reports import Function
from .unit_text import UnitText

MOST_ITERATIONS = 8_388_608
WORD = 1 << 32
ITERATIONS, CALLBACK = 1, 2  # the registers of bpf_loop's first two arguments
NO_VALUES = "%%\nnone\n"  # values that are refused, so that the program is judged and not run


@dataclass(frozen=True)
class LoopBound:
    """A loop call: the most iterations that it may ask for, and the slot of its callback."""

    slot: int
    iterations: int
    callback: int | None


@dataclass(frozen=True)
class Most:
    """The most of a whole run."""

    instructions: int
    loops: list[LoopBound]


def most_of(unit: UnitText, functions: list[Function], facts: Facts | None) -> Most:
    """The most, by the abstract values before the loop calls; a unit without any needs none."""
    slots = [slot for slot in unit.loop_slots if facts is not None and facts.insns[slot].reached]
    loops = [_bound(slot, facts.values.get(slot, {})) for slot in slots] if facts is not None else []
    counts = {function.slot: function.count for function in functions}
    greatest = max((count for slot, count in counts.items() if slot), default=0)
    most = counts.get(0, 0)
    for loop in loops:
        most += loop.iterations * counts.get(loop.callback or -1, greatest)
    return Most(most, loops)


def _bound(slot: int, registers: dict[int, Value]) -> LoopBound:
    asked, callback = registers.get(ITERATIONS), registers.get(CALLBACK)
    return LoopBound(slot, _iterations(asked), callback.start if callback is not None else None)


def _iterations(asked: Value | None) -> int:
    """The most that the helper starts: it reads the low 32 bits, and starts none where they ask for too many."""
    if asked is None or asked.low is None or asked.high is None:
        return MOST_ITERATIONS
    if asked.low == asked.high:
        count = asked.low % WORD
        return count if count <= MOST_ITERATIONS else 0
    return min(asked.high, MOST_ITERATIONS)
