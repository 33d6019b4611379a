"""The rules of values (V12 to V25), by what the registers are that an instruction reads."""

from __future__ import annotations

from .arithmetic import OPERATORS, computed
from .facts import Known
from .instructions import LOOKUP, Insn, Unit
from .machine import FRAME_BYTES, MOST_OFFSET, WORD, Kind

UNWRITTEN, ARITHMETIC, COMPARISON, STORED, BASE, SIZE, ALIGNMENT, BOUNDS, BYTE, CTX_WRITE, ARGUMENT = range(12, 23)
CALLBACK_RESULT, MAIN_RESULT = 24, 25
RULES_OF_VALUES = {*range(UNWRITTEN, MAIN_RESULT + 1)} - {23}
MEMORY = Kind.FRAME, Kind.CTX, Kind.AREA
LAST_KEY = FRAME_BYTES - 4


def least_broken(unit: Unit, insn: Insn, values: dict[int, Known]) -> int | None:
    """The least rule that an instruction breaks; V20 isn't looked at, of which its registers say nothing."""
    return next((rule for rule in sorted(RULES_OF_VALUES) if rule != BYTE and _breaks(unit, rule, insn, values)), None)


def reads_frame(insn: Insn, values: dict[int, Known]) -> bool:
    """Whether it reads bytes of a frame."""
    return insn.base is not None and insn.name not in ("st", "stx") and values[insn.base].kind in (Kind.FRAME, Kind.CTX)


def _breaks(unit: Unit, rule: int, insn: Insn, values: dict[int, Known]) -> bool:
    """Whether an instruction breaks a rule, if it breaks none before it."""
    if rule == UNWRITTEN:
        return any(not value.is_written for value in values.values())
    if rule == ARITHMETIC:
        return not _computes(insn, values)
    if rule == COMPARISON:
        return insn.is_jump and not _compares(insn, values)
    if rule == STORED:
        operands = [insn.src] if insn.name in ("stx", "atomic") else []
        operands += [0] if insn.operation == "cmpxchg" else []
        return any(not values[register or 0].is_number for register in operands)
    if rule == ARGUMENT:
        return insn.name == "call" and not _takes(insn, values)
    if rule in (CALLBACK_RESULT, MAIN_RESULT):
        return insn.name == "exit" and unit.is_of_main(insn) == (rule == MAIN_RESULT) and not _ends(rule, values[0])
    return insn.base is not None and insn.name != "call" and _breaks_access(unit, rule, insn, values[insn.base])


def _second(insn: Insn, values: dict[int, Known]) -> Known:
    """The second operand."""
    number = insn.imm & WORD
    return Known(None, number, number) if insn.src is None else values[insn.src]


def _computes(insn: Insn, values: dict[int, Known]) -> bool:
    """Whether an instruction is no arithmetic, or takes its operands."""
    if insn.name in ("neg", "le", "be", "swap"):
        return values[insn.dst].is_number
    if insn.name not in (*OPERATORS, "movs"):
        return True
    second = _second(insn, values)
    if insn.name in ("mov", "movs"):
        return second.is_number or (insn.name, insn.bits) == ("mov", 64)
    first = values[insn.dst]
    if first.is_number or not second.is_number or insn.bits == 32 or insn.name not in ("add", "sub"):
        return first.is_number and second.is_number
    if first.kind is Kind.AREA:
        return insn.name == "add" and not first.or_null and first.greatest + second.greatest <= MOST_OFFSET
    is_known = second.least == second.greatest and first.kind in (Kind.FRAME, Kind.CTX)
    return is_known and computed(insn.name, 64, first.least, second.least) <= FRAME_BYTES


def _compares(insn: Insn, values: dict[int, Known]) -> bool:
    """Whether a comparison is one of numbers, or of a lookup's answer with 0."""
    if values[insn.dst].or_null:
        return insn.bits == 64 and insn.src is None and insn.imm == 0 and insn.name in ("jeq", "jne")
    return values[insn.dst].is_number and _second(insn, values).is_number


def _takes(insn: Insn, values: dict[int, Known]) -> bool:
    """Whether a helper takes its arguments."""
    if insn.imm == LOOKUP:
        is_key = values[2].kind in (Kind.FRAME, Kind.CTX) and values[2].least % 4 == 0 and values[2].least <= LAST_KEY
        return values[1].kind is Kind.MAP and is_key
    is_ctx = values[3].kind is Kind.FRAME or values[3].is_number and values[3].greatest == 0
    return values[1].is_number and values[2].kind is Kind.CODE and is_ctx and values[4].is_number


def _ends(rule: int, result: Known) -> bool:
    """Whether a function may end with this: main with a number, a callback with 0 or 1."""
    return result.is_number and (rule == MAIN_RESULT or result.greatest <= 1)


def _breaks_access(unit: Unit, rule: int, insn: Insn, base: Known) -> bool:
    """Whether an access breaks a rule by what its base is."""
    is_area, size = base.kind is Kind.AREA, insn.size
    if rule == BASE:
        return base.kind not in MEMORY or base.or_null
    if rule == SIZE:
        return is_area and size not in (4, 8)
    if rule == ALIGNMENT:
        return (base.least + insn.offset) % size != 0 or base.least < base.greatest and base.step % size != 0
    if rule == BOUNDS:
        room = 8 * unit.sizes[base.map] if is_area else FRAME_BYTES
        return base.least + insn.offset < 0 or base.greatest + insn.offset + size > room
    return rule == CTX_WRITE and base.kind is Kind.CTX and insn.name in ("st", "stx", "atomic")
