"""Writes accesses that aren't at a multiple of their size, by the one or two elements that have the bytes."""

from __future__ import annotations

from collections.abc import Callable

from .code import Load, Store
from .lines import Writer

BITS = 64
BYTES = 8


class UnevenLines:
    """One access: a register with an address, the offset of an element from there, and the byte in the element."""

    def __init__(self, out: Writer, take: Callable[[], int], word: int, offset: int, rest: int) -> None:
        self._out = out
        self._take = take
        self._first = f"[r{word}{offset:+d}]"
        self._second = f"[r{word}{offset + BYTES:+d}]"
        self._rest = rest

    def load(self, insn: Load) -> int:
        """Gives the register with what is loaded."""
        out, shift = self._out, 8 * self._rest
        low = self._take()
        if self._rest + insn.size <= BYTES:
            out.add(f"ldx64 r{low}, {self._first}", f"rsh64 r{low}, {shift}")
        else:
            high = self._take()
            out.add(f"ldx64 r{high}, {self._second}", f"ldx64 r{low}, {self._first}", f"rsh64 r{low}, {shift}")
            out.add(f"lsh64 r{high}, {BITS - shift}", f"or64 r{low}, r{high}")
        cut(out, low, insn.size)
        return low

    def store(self, insn: Store) -> None:
        """Changes the bytes by what they differ in from the new ones."""
        change, other = self._take(), self._take()
        here = min(insn.size, BYTES - self._rest)
        self._change(insn, change, other, self._first, 8 * self._rest, 0, here)
        if here < insn.size:
            self._change(insn, change, other, self._second, 0, 8 * here, insn.size - here)

    def _change(self, insn: Store, change: int, other: int, place: str, shift: int, from_bit: int, size: int) -> None:
        out = self._out
        if insn.src is None:
            out.constant(other, (insn.imm % (1 << BITS)) >> from_bit)
        else:
            out.add(f"mov64 r{other}, r{insn.src}")
            if from_bit:
                out.add(f"rsh64 r{other}, {from_bit}")
        out.add(f"ldx64 r{change}, {place}")
        if shift:
            out.add(f"rsh64 r{change}, {shift}")
        out.add(f"xor64 r{change}, r{other}")
        cut(out, change, size)
        if shift:
            out.add(f"lsh64 r{change}, {shift}")
        out.add(f"ldx64 r{other}, {place}", f"xor64 r{other}, r{change}", f"stx64 {place}, r{other}")


def cut(out: Writer, register: int, size: int) -> None:
    """Leaves some low bytes of a register."""
    if size < 4:
        out.add(f"and64 r{register}, {(1 << (8 * size)) - 1}")
    elif size == 4:
        out.add(f"mov32 r{register}, r{register}")
    elif size < BYTES:
        out.add(f"lsh64 r{register}, {BITS - 8 * size}", f"rsh64 r{register}, {BITS - 8 * size}")
