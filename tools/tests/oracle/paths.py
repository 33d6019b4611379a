"""The edges between the slots of a unit, by its instructions alone, and what may be unwritten behind them."""

from __future__ import annotations

from dataclasses import dataclass

from .arithmetic import mask
from .facts import Facts, Known
from .instructions import LOOP, Insn, Unit
from .machine import FRAME_BYTES, Kind

UNWRITTEN_FRAME = mask(FRAME_BYTES)  # a bit for each byte


@dataclass(frozen=True)
class Unwritten:
    """The bytes of the own frame and of main's that may be unwritten where control comes to a slot."""

    own: int = UNWRITTEN_FRAME
    callers: int = 0

    def joined(self, other: Unwritten | None) -> Unwritten:
        """What may be so by either way."""
        return Unwritten(self.own | other.own, self.callers | other.callers) if other else self

    def after(self, insn: Insn, values: dict[int, Known]) -> Unwritten:
        """What may be so after an instruction."""
        base = values.get(insn.dst)
        if insn.name not in ("st", "stx") or base is None or base.kind is not Kind.FRAME:
            return self
        return Unwritten(self.own & ~(mask(insn.size) << base.least + insn.offset), self.callers)


def callback_of(insn: Insn, values: dict[int, Known]) -> int | None:
    """The slot of the callback that a call enters."""
    code = values.get(2)
    return code.least if insn.name == "call" and insn.imm == LOOP and code and code.kind is Kind.CODE else None


def targets(insn: Insn) -> list[int]:
    """The slots to which control may go in the same function."""
    ahead = [] if insn.name in ("ja", "exit") else [insn.slot + insn.slots]
    return [*ahead, insn.target] if insn.is_jump or insn.name == "ja" else ahead


def unwritten_at(unit: Unit, facts: Facts, last: int) -> Unwritten:
    """What may be unwritten before a slot on some path, whether its comparisons may hold together or not."""
    before: dict[int, Unwritten] = {0: Unwritten()}
    for slot, insn in unit.insns.items():
        if slot >= last or slot not in before:
            continue
        values = facts.registers(slot)
        after = before[slot].after(insn, values)
        for target in targets(insn):
            before[target] = after.joined(before.get(target))
        callback = callback_of(insn, values)
        if callback is not None:
            before[callback] = Unwritten(callers=after.own).joined(before.get(callback))
    return before[last]
