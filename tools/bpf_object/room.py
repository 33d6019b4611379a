"""Says of code that there is no room for which lines of C take the most of it, and what helps."""

from __future__ import annotations

from collections import Counter
from collections.abc import Iterable
from typing import Optional

from .btf import SourceLine
from .code import Function, line_text
from .memory import UNKNOWN
from .plans import Touch, Where
from .unit import SLOTS_LIMIT
from .values import Value

TOLD_LINES = 3
BY_NAME = "it isn't known where a pointer there leads: name the variable itself"
ONCE = "each call and each round of a loop takes its own: call it once, or let bpf_loop call it"

SlotsOf = Counter[Optional[SourceLine]]


def too_long(slots: SlotsOf, functions: Iterable[Function]) -> str:
    """What is said of code that is written, by the slots of each line."""
    found = _most(slots)
    told = f"the code takes {sum(slots.values())} slots, of at most {SLOTS_LIMIT}"
    if not found:
        return told
    others = [f"{slots[line]} for {_line_name(line, found[0])}" for line in found[1:]]
    shares = _listed([f"{slots[found[0]]} of them for this line", *others])
    return f"{line_text(found[0])}{told}, {shares}: {_help(found, functions)}"


def too_much(functions: list[Function]) -> str:
    """What is said of code that is too long to be written, by its instructions."""
    found = _most(Counter(insn.line for function in functions for insn in function.insns))
    told = f"the code takes more than {SLOTS_LIMIT} slots"
    if not found:
        return told
    names = _listed(["this line", *(_line_name(line, found[0]) for line in found[1:])])
    return f"{line_text(found[0])}{told}, most of them for {names}: {_help(found, functions)}"


def _most(counts: SlotsOf) -> list[SourceLine]:
    """The lines with the most, the first one first."""
    return [line for line, _ in counts.most_common(TOLD_LINES + 1) if line is not None][:TOLD_LINES]


def _line_name(line: SourceLine, first: SourceLine) -> str:
    return f"line {line.number}" if line.file == first.file else f"{line.file}:{line.number}"


def _listed(parts: list[str]) -> str:
    return " and ".join([", ".join(parts[:-1]), parts[-1]] if parts[1:] else parts)


def _help(lines: list[SourceLine], functions: Iterable[Function]) -> str:
    insns = (insn for function in functions for insn in function.insns)
    is_vague = any(isinstance(insn, Touch) and insn.line in lines and _leads_anywhere(insn) for insn in insns)
    return BY_NAME if is_vague else ONCE


def _leads_anywhere(touch: Touch) -> bool:
    """Whether an access may be in any variable whose address is stored somewhere, or in one of several."""
    base = touch.held[touch.insn.base]
    if touch.plan.where is not Where.FLAT or not isinstance(base, Value):
        return False
    return UNKNOWN in base.things or len(base.real) > 1
