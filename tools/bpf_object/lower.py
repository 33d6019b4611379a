"""Writes planned instructions as lines of assembler text."""

from __future__ import annotations

from .access_lines import AccessLines, Scratch
from .code import Address, Alu, Branch, End, Exit, Goto, Number, successors
from .lines import Line, Writer, alu_text
from .live import without_dead, writes_of
from .loaded import Trap
from .mend import Rewritten
from .plans import LoopCall, Moved, Touch
from .ranges import OPPOSITE

INVERTED = {op: OPPOSITE[op] for op in OPPOSITE if not op.endswith("set")}


class Lowering:
    """One function of a rewritten program."""

    def __init__(self, rewritten: Rewritten, number: int, name: str, labels: dict[int, str]) -> None:
        self._rewritten = rewritten
        self._number = number
        self._function = rewritten.functions[number]
        self._lives, self._entry_live = without_dead(self._function)
        self._labels = labels  # of the callbacks
        self._can_trap: dict[int, bool] = {}
        self._out = Writer(name)
        impossible = rewritten.traps.number(Trap(None, "a number changed in the frame"))
        self._kept: dict[int, list[tuple[int, int] | None]] = {}
        self._accesses = AccessLines(self._out, Scratch(self._function), impossible)

    def lines(self, can_trap: dict[int, bool]) -> list[Line]:
        """The function's lines; which callbacks can take a trap is known."""
        self._can_trap = can_trap
        self._out.label(self._out.name)
        self._begin()
        order = list(self._function.blocks)
        for label, following in zip(order, [*order[1:], None]):
            self._out.label(self._out.block(label))
            kept = self._kept.get(label, [None])  # by the blocks that lead here, of which all may have left it so
            self._accesses.kept = kept[0] if all(one == kept[0] for one in kept) else None
            block = self._function.blocks[label]
            for insn, live in zip(block.insns, self._lives[label]):
                self._insn(insn, live)
            for leading_to in successors(block.end):
                self._kept.setdefault(leading_to, []).append(self._accesses.kept)
            write_end(self._out, block.end, following)
        tests_traps = any(line.text.endswith(f"{self._out.name}_ended") for line in self._out.lines)
        self._out.finish(1 if self._number else 0)
        if tests_traps:
            self._out.label(f"{self._out.name}_ended")
            self._out.add("mov64 r0, 0", "exit")
        can_trap[self._number] = self._out.can_trap
        return self._out.lines

    def _begin(self) -> None:
        rewritten, number, out = self._rewritten, self._number, self._out
        out.line = self._function.line
        frame = rewritten.layout.spots[rewritten.frames[number].number]
        if number and frame.low < frame.size:
            out.add(f"ldmapval r0, 0, {frame.element * 8}")
            for byte in range(0, frame.size - frame.low, 8):
                out.add(f"st64 [r0+{byte}], 0")
        live = self._entry_live
        if number and live >> 2 & 1:
            self._context()
        for function, register in sorted(rewritten.facts.undefined):
            if function == number and live >> register & 1:
                out.add(f"mov64 r{register}, 0")
        for function, byte in sorted(rewritten.facts.unwritten):
            if function == number:
                out.add(f"st64 [r10{byte - 512:+d}], 0")

    def _context(self) -> None:
        entry = self._rewritten.entries[self._number]
        if self._number in self._rewritten.facts.hidden:
            spot = self._rewritten.layout.spots[self._rewritten.contexts[self._number].number]
            self._out.add(f"ldmapval r2, 0, {spot.element * 8}", "ldx64 r2, [r2+0]")
        else:
            self._out.constant(2, entry.context.range.lo)

    def _insn(self, insn: object, live: int) -> None:
        out = self._out
        out.line = getattr(insn, "line", None)
        if isinstance(insn, Touch):
            self._accesses.write(insn, live)
            return
        self._accesses.forget(writes_of(insn))
        if isinstance(insn, Alu):
            out.add(alu_text(insn))
        elif isinstance(insn, Number):
            out.add(f"lddw r{insn.dst}, {insn.value}")
        elif isinstance(insn, Moved):
            if insn.is_native or insn.number is None:
                out.add(alu_text(insn.insn))
            else:
                out.constant(insn.insn.dst, insn.number)
        elif isinstance(insn, Address):
            if insn.is_native:
                spot = self._rewritten.layout.spots[insn.thing]
                out.add(f"ldmapval r{insn.dst}, 0, {spot.element * 8 + insn.offset - spot.low}")
            else:
                out.constant(insn.dst, insn.number or 0)
        elif isinstance(insn, LoopCall):
            self._loop(insn)

    def _loop(self, insn: LoopCall) -> None:
        out = self._out
        if not insn.is_zero:
            spot = self._rewritten.layout.spots[self._rewritten.contexts[insn.function].number]
            out.add(f"ldmapval r2, 0, {spot.element * 8}", "stx64 [r2+0], r3")
        out.add(f"ldcode r2, {self._labels[insn.function]}", "mov64 r3, 0", "call 181")
        if self._can_trap.get(insn.function):
            out.add("ldmapval r1, 0, 0", "ldx64 r1, [r1+0]", f"jne64 r1, 0, {out.name}_ended")

def write_end(out: Writer, end: End, following: int | None) -> None:
    """The end of a block, in front of the one that follows."""
    out.line = end.line
    if isinstance(end, Goto):
        if end.target != following:
            out.add(f"ja {out.block(end.target)}")
    elif isinstance(end, Branch):
        _write_branch(out, end, following)
    elif isinstance(end, Exit):
        out.add("exit")
    else:
        out.add(f"ja {out.trap(end.trap, end.register)}")


def _write_branch(out: Writer, end: Branch, following: int | None) -> None:
    """Of two successors one may follow."""
    op, taken, other = end.op, end.taken, end.other
    if taken == following and op in INVERTED:
        op, taken, other = INVERTED[op], other, taken
    operand = end.imm if end.src is None else f"r{end.src}"
    out.add(f"{op}{end.width} r{end.dst}, {operand}, {out.block(taken)}")
    if other != following:
        out.add(f"ja {out.block(other)}")


def callback_order(rewritten: Rewritten) -> list[int]:
    """The functions with main last, since it has to know which callbacks can take a trap."""
    return [*(number for number in rewritten.functions if number), 0]
