"""Compares what a unit does with what C does."""

from __future__ import annotations

import enum
from collections.abc import Iterator
from dataclasses import dataclass

from bpf_object.load import Loaded, load
from bpf_object.refusal import Refused

from .names import address_bytes, names_of
from .native import Result
from .units import ORDER, RUN, UnitRefused, UnitResult, run_unit, text_of

MASK = (1 << 64) - 1
SHOWN = 3  # differences of one run
BYTES_SHOWN = 16


class Outcome(enum.Enum):
    """What comes of one build."""

    SAME = "same"
    DIFFERS = "differs"
    TRAPPED = "trapped"
    REFUSED = "refused"


@dataclass(frozen=True)
class Judged:
    """The outcome of one build of a program, its reasons, the verdicts of its loops, and by the slots of loop calls
    whether the callback has a list of row operations."""

    name: str
    build: str
    outcome: Outcome
    reasons: tuple[str, ...] = ()
    verdicts: tuple[str, ...] = ()
    lists: tuple[tuple[int, bool], ...] = ()

    def __str__(self) -> str:
        return f"{self.outcome.value}: {self.name} {self.build}: {'; '.join(self.reasons)}"


def judge(name: str, build: str, data: bytes, main: str, natives: dict[int, Result], with_run: bool) -> Judged:
    """Loads an object, runs it with each argument, and compares with what came out natively."""
    try:
        loaded = load(data, main=main)
    except Refused as reason:
        return Judged(name, build, Outcome.REFUSED, (" ".join(str(reason).split()),))
    except Exception as fault:  # a fault of the loader is a difference, whatever it is
        return Judged(name, build, Outcome.DIFFERS, (f"the loader fails: {type(fault).__name__}: {fault}",))
    reasons: list[str] = []
    verdicts: tuple[str, ...] = ()
    lists: dict[int, bool] = {}
    reasons += [f"{name} isn't among the variables" for name in missing_names(data, loaded)]
    hidden = address_bytes(data)
    text = text_of(loaded.unit, loaded.initial)
    for argument, native in natives.items():
        for words in (ORDER, RUN) if with_run else (ORDER,):
            try:
                result = run_unit(text, words, argument)
            except UnitRefused as reason:
                return Judged(name, build, Outcome.REFUSED, (f"{words[0]}: {reason}",))
            verdicts = verdicts or (result.verdicts if words is RUN else ())
            lists |= result.lists
            try:
                found = [*differences(loaded, result, native, hidden)][:SHOWN]
            except Exception as fault:
                found = [f"the loader's table fails: {type(fault).__name__}: {fault}"]
            reasons += [f"{words[0]} --arg {argument}: {difference}" for difference in found]
    return Judged(name, build, outcome_of(reasons), tuple(reasons[:SHOWN]), verdicts, tuple(lists.items()))


def outcome_of(reasons: list[str]) -> Outcome:
    """What comes of a build that differs for these reasons, if any: a trap that C doesn't have is told by itself."""
    if not reasons:
        return Outcome.SAME
    is_trapped = all(": trap " in reason for reason in reasons)
    return Outcome.TRAPPED if is_trapped else Outcome.DIFFERS


def missing_names(data: bytes, loaded: Loaded) -> list[str]:
    """What the object names, and the loader doesn't."""
    names, known = names_of(data), {variable.name for variable in loaded.variables}
    return [name for name in names.maps + names.variables if name not in known]


def differences(loaded: Loaded, result: UnitResult, native: Result, hidden: dict[str, set[int]]) -> Iterator[str]:
    """In what a unit's run differs from the native one, other than in bytes of addresses."""
    element = loaded.trap_element
    if element is not None and result.words[element]:
        yield f"trap {result.words[element]}: {trap_text(loaded, result.words[element])}"
        return
    if (result.answer ^ native.answer) & (1 << native.bits) - 1:
        answer = result.answer & (1 << native.bits) - 1
        yield f"the answer is {answer}, natively {native.known_answer}"
    for variable in loaded.variables:
        expected = native.variables.get(variable.name)
        if expected is not None:
            found = bytes(variable.bytes_in(result.words))
            yield from differing_bytes(variable.name, found, expected, hidden.get(variable.name, set()))


def trap_text(loaded: Loaded, number: int) -> str:
    """What a trap says, with its line of C."""
    if not 0 < number <= len(loaded.traps):
        return "of no such number"
    trap = loaded.traps[number - 1]
    return f"{trap.line.file}:{trap.line.number}: {trap.text}" if trap.line else trap.text


def differing_bytes(name: str, found: bytes, expected: bytes, hidden: set[int]) -> Iterator[str]:
    """In what the bytes of a variable differ that aren't of addresses."""
    if len(found) != len(expected):
        yield f"{name} has {len(found)} bytes, natively {len(expected)}"
        return
    pairs = enumerate(zip(found, expected))
    at = next((k for k, (left, right) in pairs if left != right and k not in hidden), None)
    if at is not None:
        start = at // 8 * 8
        shown = slice(start, start + BYTES_SHOWN)
        yield f"{name} from byte {start} is {found[shown].hex(' ')}, natively {expected[shown].hex(' ')}"
