"""Writes planned accesses as lines of assembler text: tests, addresses, and bytes within words."""

from __future__ import annotations

from .code import FRAME, FRAME_BYTES, NUMBER_LIMIT, REGISTERS, Atomic, Function, Load, Store, line_text
from .lines import Writer, access_text
from .live import writes_of
from .plans import Touch, Where
from .ranges import LOW, Range, signed
from .refusal import NoRoom
from .uneven_lines import UnevenLines
from .values import Value

BYTES_OF_HALF = 4
OFFSET_LIMIT = 1 << 15


class NoRegister(Exception):
    """An access needs more registers than hold numbers."""


class Scratch:
    """Registers that hold nothing, or that are put aside in free bytes of the frame."""

    def __init__(self, function: Function) -> None:
        self._function = function
        plans = (insn.plan for insn in function.insns if isinstance(insn, Touch))
        places = (plan.at for plan in plans if plan.where is Where.FRAME)
        self.lowest = (min(places, default=0) + FRAME_BYTES) // 8 * 8

    def place(self, number: int) -> int:
        """The place of the frame for a register that is put aside, counted from 0."""
        byte = self.lowest - 8 * (number + 1)
        if byte < 0:
            told = f"the frame of {self._function.name} has no free bytes for the numbers that the loader needs"
            raise NoRoom(f"{line_text(self._function.line)}{told}: make a local array a global one")
        return byte - FRAME_BYTES


class AccessLines:
    """Writes accesses of one function."""

    def __init__(self, out: Writer, scratch: Scratch, impossible: int) -> None:
        self._out = out
        self._scratch = scratch
        self._impossible = impossible  # the trap of a test that always holds
        self._spare: list[int] = []
        self._live = 0
        self.kept: tuple[int, int] | None = None  # a register with an address, and the byte of the map there
        self._free: list[int] = []
        self._aside: list[int] = []
        self._busy: list[int] = []
        self._touch: Touch

    def write(self, touch: Touch, live: int) -> None:
        """An access, with the registers that are live behind it."""
        insn, plan = touch.insn, touch.plan
        if plan.where is Where.FRAME:
            self._plain(insn, FRAME, plan.at)
        elif touch.is_native:
            self._plain(insn, insn.base, insn.offset)
        else:
            self._begin(touch, live)
            if plan.where is Where.EXACT:
                self._exact(touch)
            else:
                self._flat(touch, live)
            self._restore(touch)
        self.forget(writes_of(touch))

    def _begin(self, touch: Touch, live: int) -> None:
        """Finds the registers that may be used: a load's own too, where it isn't its base."""
        insn = touch.insn
        used = set()
        if touch.plan.where is Where.FLAT:
            used.add(insn.base)
        if isinstance(insn, (Store, Atomic)) and insn.src is not None:
            used.add(insn.src)
        if isinstance(insn, Atomic) and insn.op == "cmpxchg":
            used.add(0)
        own = [insn.dst] if isinstance(insn, Load) and insn.dst not in used else []
        self._free = own + [r for r in REGISTERS if not live >> r & 1 and r not in used and r not in own]
        self._aside = []
        busy = [r for r in REGISTERS[::-1] if r not in self._free and r not in used and not touch.natives >> r & 1]
        self._busy = sorted(busy, key=lambda r: not _is_known(touch, r))
        if self.kept is not None and self.kept[0] in self._free[:-1]:
            self._free.remove(self.kept[0])
            self._free.append(self.kept[0])
        self._spare = [r for r in self._free if r not in own]
        self._touch = touch
        self._live = live

    def _take(self) -> int:
        """A register to be used for a while."""
        if self._free:
            self.forget(1 << self._free[0])
            return self._free.pop(0)
        if not self._busy:
            raise NoRegister
        register = self._busy.pop(0)
        if not _is_known(self._touch, register):
            self._out.add(f"stx64 [r10{self._scratch.place(len(self._aside)):+d}], r{register}")
        self._aside.append(register)
        return register

    def _restore(self, touch: Touch) -> None:
        """Gives the registers that were put aside what they had, and what was known of it."""
        for number, register in enumerate(self._aside):
            held = touch.held[register]
            if isinstance(held, Value) and held.is_exact:
                self._out.constant(register, held.range.lo)
                continue
            self._out.add(f"ldx64 r{register}, [r10{self._scratch.place(number):+d}]")
            if isinstance(held, Value):
                self._know(register, held.range)

    def _know(self, register: int, known: Range) -> None:
        """Tells the verifier again what it forgets of a number in the frame, by what changes no number that is so."""
        if NUMBER_LIMIT <= known.hi <= LOW:
            self._out.add(f"mov32 r{register}, r{register}")
        if known.z:
            self._out.add(f"and64 r{register}, {-(1 << min(known.z, 30))}")
        if known.hi < NUMBER_LIMIT:
            self._out.add(f"jgt64 r{register}, {known.hi}, {self._out.trap(self._impossible, None)}")
        if 0 < known.lo < NUMBER_LIMIT:
            self._out.add(f"jlt64 r{register}, {known.lo}, {self._out.trap(self._impossible, None)}")

    def _plain(self, insn: Load | Store | Atomic, base: int, offset: int) -> None:
        self._out.add(access_text(insn, f"[r{base}{offset:+d}]"))
        if isinstance(insn, Load):
            self._sign(insn, insn.dst)

    def _sign(self, insn: Load, register: int) -> None:
        if insn.signed and insn.size < 8:
            self._out.add(f"mov64s{insn.size * 8} r{insn.dst}, r{register}")
        elif register != insn.dst:
            self._out.add(f"mov64 r{insn.dst}, r{register}")

    def _exact(self, touch: Touch) -> None:
        insn, plan = touch.insn, touch.plan
        if not plan.is_alone and plan.at % insn.size:
            rest = plan.at % 8
            self._uneven(touch, *self._known_address(plan.at - rest), rest)
        elif insn.size >= BYTES_OF_HALF or plan.is_alone:
            self._whole(touch, *self._known_address(plan.at))
        else:
            rest = plan.at % BYTES_OF_HALF
            self._part(touch, *self._known_address(plan.at - rest), rest)

    def forget(self, written: int) -> None:
        """Registers are written; one of them may be that with an address that is used again."""
        if self.kept is not None and written >> self.kept[0] & 1:
            self.kept = None

    def _known_address(self, byte: int) -> tuple[int, int]:
        """A register with an address in the map, and the offset from there to a byte.

        The register of the access before is used again, as long as nothing else is put in it.
        """
        if self.kept is not None and abs(byte - self.kept[1]) < OFFSET_LIMIT and self.kept[0] in self._free:
            self._free.remove(self.kept[0])
            return self.kept[0], byte - self.kept[1]
        others = [r for r in self._spare if r in self._free]
        if others:
            self._free.remove(others[-1])
            self.kept = others[-1], byte
            self._out.add(f"ldmapval r{others[-1]}, 0, {byte}")
            return others[-1], 0
        word = self._take()
        self._out.add(f"ldmapval r{word}, 0, {byte}")
        return word, 0

    def _flat(self, touch: Touch, live: int) -> None:
        insn, plan = touch.insn, touch.plan
        base, offset = insn.base, plan.offset
        is_free = not live >> base & 1 and getattr(insn, "src", None) != base or getattr(insn, "dst", None) == base
        if plan.is_moved:
            base = self._sum(insn.base, insn.offset)
            is_free = True
        self._test(touch, base)
        if plan.is_uneven and plan.byte is not None:
            self._uneven(touch, self._address(base, is_free), offset - plan.byte, plan.byte)
        elif plan.scale:
            self._spread(touch, base, offset, is_free)
        elif insn.size >= BYTES_OF_HALF:
            self._whole(touch, self._address(base, is_free), offset)
        elif plan.byte is not None:
            rest = plan.byte % BYTES_OF_HALF
            self._part(touch, self._address(base, is_free), offset - rest, rest)
        else:
            self._byte_anywhere(touch, base, offset)

    def _uneven(self, touch: Touch, word: int, offset: int, rest: int) -> None:
        lines = UnevenLines(self._out, self._take, word, offset, rest)
        if isinstance(touch.insn, Load):
            self._sign(touch.insn, lines.load(touch.insn))
        elif isinstance(touch.insn, Store):
            lines.store(touch.insn)

    def _sum(self, base: int, offset: int) -> int:
        """A register with the sum of another one and a number."""
        register = self._take()
        self._out.add(f"mov64 r{register}, r{base}")
        if offset:
            self._out.add(f"{'add' if offset > 0 else 'sub'}64 r{register}, {abs(offset)}")
        return register

    def _test(self, touch: Touch, base: int) -> None:
        plan = touch.plan
        if plan.low is not None:
            self._out.add(f"jlt64 r{base}, {plan.low}, {self._out.trap(plan.bound_trap, base)}")
        if plan.high is not None:
            self._out.add(f"jgt64 r{base}, {plan.high}, {self._out.trap(plan.bound_trap, base)}")
        if plan.align:
            rest = self._take()
            self._out.add(f"mov64 r{rest}, r{base}", f"and64 r{rest}, {-plan.align}")
            self._out.add(f"jne64 r{rest}, r{base}, {self._out.trap(plan.trap, base)}")
            if rest not in self._aside:
                self._free.insert(0, rest)
            else:
                self._free.append(rest)

    def _address(self, base: int, is_free: bool) -> int:
        """A register with the address of the byte of the map that another one has as a number."""
        word = self._take()
        self._out.add(f"ldmapval r{word}, 0, 0", f"add64 r{word}, r{base}")
        if is_free and base not in self._aside and base != getattr(self._touch.insn, "dst", None):
            self._free.append(base)
        return word

    def _spread(self, touch: Touch, base: int, offset: int, is_free: bool) -> None:
        if not is_free:
            base = self._sum(base, 0)
        self._out.add(f"lsh64 r{base}, {touch.plan.scale}")
        offset <<= touch.plan.scale
        if not -OFFSET_LIMIT <= offset < OFFSET_LIMIT:
            self._out.add(f"{'add' if offset > 0 else 'sub'}64 r{base}, {abs(offset)}")
            offset = 0
        self._whole(touch, self._address(base, True), offset)

    def _whole(self, touch: Touch, word: int, offset: int) -> None:
        """An access of a whole element, or of half of one."""
        insn, plan = touch.insn, touch.plan
        if isinstance(insn, Atomic) or insn.size == 8 or not plan.is_alone:
            self._plain(insn, word, offset)
        elif isinstance(insn, Load):
            self._out.add(f"ldx32 r{insn.dst}, [r{word}{offset:+d}]")
            if insn.size < BYTES_OF_HALF:
                self._out.add(f"and64 r{insn.dst}, {mask_of(insn.size)}")
            self._sign(insn, insn.dst)
        else:
            self._store_alone(touch, insn, f"[r{word}{offset:+d}]")

    def _store_alone(self, touch: Touch, insn: Store, place: str) -> None:
        if insn.src is None:
            number = insn.imm & mask_of(insn.size)
            if number < 1 << 31:
                self._out.add(f"st64 {place}, {number}")
            else:
                copy = self._take()
                self._out.add(f"mov32 r{copy}, {signed(number, 32)}", f"stx64 {place}, r{copy}")
        else:
            self._out.add(f"stx64 {place}, r{insn.src if touch.is_cut else self._cut(insn)}")

    def _cut(self, insn: Store) -> int:
        """A register with the low bytes of what is stored; what is stored itself where it isn't read further on."""
        own = insn.src or 0
        is_last = not self._live >> own & 1 and own != insn.base
        copy = own if is_last else self._take()
        if insn.size == BYTES_OF_HALF:
            self._out.add(f"mov32 r{copy}, r{own}")
        else:
            if copy != own:
                self._out.add(f"mov64 r{copy}, r{own}")
            self._out.add(f"and64 r{copy}, {mask_of(insn.size)}")
        return copy

    def _part(self, touch: Touch, word: int, offset: int, rest: int) -> None:
        """One or two bytes at a known place of half an element."""
        insn = touch.insn
        shift, place = 8 * rest, f"[r{word}{offset:+d}]"
        if isinstance(insn, Load):
            self._out.add(f"ldx32 r{insn.dst}, {place}")
            if shift:
                self._out.add(f"rsh64 r{insn.dst}, {shift}")
            self._out.add(f"and64 r{insn.dst}, {mask_of(insn.size)}")
            self._sign(insn, insn.dst)
        elif isinstance(insn, Store):
            self._put(insn, place, shift)

    def _put(self, insn: Store, place: str, shift: int) -> None:
        half = self._take()
        mask = signed(~(mask_of(insn.size) << shift), 32)
        self._out.add(f"ldx32 r{half}, {place}", f"and32 r{half}, {mask}")
        if insn.src is None:
            number = signed((insn.imm & mask_of(insn.size)) << shift, 32)
            if number:
                self._out.add(f"or32 r{half}, {number}")
        else:
            copy = self._cut(insn)
            if shift:
                self._out.add(f"lsh64 r{copy}, {shift}")
            self._out.add(f"or64 r{half}, r{copy}")
        self._out.add(f"stx32 {place}, r{half}")

    def _byte_anywhere(self, touch: Touch, base: int, offset: int) -> None:
        """One or two bytes at any place of an element."""
        insn = touch.insn
        shift = self._sum(base, offset)
        self._out.add(f"and64 r{shift}, -8")
        word = self._address(shift, False)
        self._out.add(f"mov64 r{shift}, r{base}")
        if offset:
            self._out.add(f"add64 r{shift}, {offset}")
        self._out.add(f"lsh64 r{shift}, 3")
        mask = mask_of(insn.size)
        if isinstance(insn, Load):
            self._out.add(f"ldx64 r{word}, [r{word}+0]", f"rsh64 r{word}, r{shift}", f"and64 r{word}, {mask}")
            self._sign(insn, word)
        elif isinstance(insn, Store):  # the bytes are changed by what they differ in from the new ones
            change, new = self._take(), insn.imm if insn.src is None else f"r{insn.src}"
            self._out.add(f"ldx64 r{change}, [r{word}+0]", f"rsh64 r{change}, r{shift}", f"xor64 r{change}, {new}")
            self._out.add(f"and64 r{change}, {mask}", f"lsh64 r{change}, r{shift}", f"ldx64 r{shift}, [r{word}+0]")
            self._out.add(f"xor64 r{shift}, r{change}", f"stx64 [r{word}+0], r{shift}")


def _is_known(touch: Touch, register: int) -> bool:
    held = touch.held[register]
    return isinstance(held, Value) and held.is_exact


def mask_of(size: int) -> int:
    """All bits of some bytes."""
    return (1 << (8 * size)) - 1
