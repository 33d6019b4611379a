"""Units in assembler text: their instructions by slots, and which registers each reads and writes."""

from __future__ import annotations

import re
from dataclasses import dataclass, replace

from .arithmetic import COMPARISONS, OPERATORS

LOOKUP, LOOP = 1, 181  # helpers
READ_BY_HELPERS = {LOOKUP: (1, 2), LOOP: (1, 2, 3, 4)}
REGISTERS = range(11)
WIDE = "lddw", "ldcode", "ldmap", "ldmapval"
WIDTH = re.compile(r"([a-z]+)(\d+)(?:s(\d+))?")
PLACE = re.compile(r"\[r(\d+)([+-]\d+)\]")


@dataclass(frozen=True)
class Insn:
    """An instruction. Of a load the source is the base of the address, of other accesses it is the destination."""

    slot: int
    text: str  # as it is printed
    name: str  # the mnemonic without its width
    bits: int = 0
    dst: int = 0
    src: int | None = None
    imm: int = 0
    offset: int = 0
    target: int = 0
    operation: str = ""  # of an atomic one

    @property
    def slots(self) -> int:
        """How many it takes."""
        return 2 if self.name in WIDE else 1

    @property
    def is_jump(self) -> bool:
        """It is a conditional jump."""
        return self.name in COMPARISONS

    @property
    def is_copy(self) -> bool:
        """It moves a register to another."""
        return self.name == "mov" and self.src is not None

    @property
    def is_in_place(self) -> bool:
        """It makes a register of what that register was."""
        return self.name in OPERATORS and self.name != "mov" or self.name in ("neg", "le", "be", "swap")

    @property
    def base(self) -> int | None:
        """The register of an address that it accesses."""
        if self.name in ("ldx", "ldxs"):
            return self.src
        if self.name == "call" and self.imm == LOOKUP:
            return 2
        return self.dst if self.name in ("st", "stx", "atomic") else None

    @property
    def size(self) -> int:
        """The bytes that it accesses."""
        return 4 if self.name == "call" else self.bits // 8

    @property
    def reads(self) -> frozenset[int]:
        """The registers that it reads."""
        operand = set() if self.src is None else {self.src}
        if self.name == "call":
            return frozenset(READ_BY_HELPERS.get(self.imm, ()))
        if self.name == "exit":
            return frozenset({0})
        if self.name in ("mov", "movs", "ldx", "ldxs"):
            return frozenset(operand)
        if self.name in WIDE or self.name == "ja":
            return frozenset()
        return frozenset({self.dst, *operand, *([0] if self.operation == "cmpxchg" else [])})

    @property
    def writes(self) -> frozenset[int]:
        """The registers that it writes: a call leaves R1 to R5 unwritten, and that counts."""
        if self.name == "call":
            return frozenset(range(6))
        if self.name == "atomic":
            return frozenset({0} if self.operation == "cmpxchg" else self._fetched)
        if self.is_jump or self.name in ("ja", "exit", "st", "stx"):
            return frozenset()
        return frozenset({self.dst})

    @property
    def _fetched(self) -> set[int]:
        """What an atomic operation other than a compare-and-exchange writes."""
        tells = self.operation == "xchg" or self.operation.endswith("_fetch")
        return {self.src} if tells and self.src is not None else set()


@dataclass(frozen=True)
class Unit:
    """The sizes of its maps, and its instructions by their slots."""

    sizes: tuple[int, ...]
    insns: dict[int, Insn]

    def is_of_main(self, insn: Insn) -> bool:
        """Whether an instruction is in front of all callbacks."""
        return all(insn.slot < other.target for other in self.insns.values() if other.name == "ldcode")


def unit_of(lines: list[str]) -> Unit:
    """A unit of these lines, which are without comments."""
    sizes = tuple(map(int, lines[0].split()[1:]))
    labels: dict[str, int] = {}
    texts: list[tuple[int, str]] = []
    slot = 0
    for line in lines[1:]:
        if line.endswith(":"):
            labels[line[:-1]] = slot
        else:
            texts.append((slot, line))
            slot += 2 if line.split()[0] in WIDE else 1
    return Unit(sizes, {at: _insn(at, text, labels) for at, text in texts})


def _insn(slot: int, text: str, labels: dict[str, int]) -> Insn:
    """The instruction of a line."""
    mnemonic, *operands = text.replace(",", "").split()
    if mnemonic in WIDE:
        return _wide(Insn(slot, text, mnemonic), operands, labels)
    if mnemonic in ("call", "exit"):
        return Insn(slot, text, mnemonic, imm=int(operands[0]) if operands else 0)
    if mnemonic == "ja":
        return _jump(Insn(slot, text, mnemonic), operands[-1], labels)
    match = WIDTH.fullmatch(mnemonic)
    assert match, text
    insn = Insn(slot, text, match[1], int(match[2]))
    if insn.is_jump:
        insn = _jump(insn, operands[-1], labels)
        return _with_operand(replace(insn, dst=_register(operands[0])), operands[1])
    if match[3]:
        return replace(insn, name="movs", dst=_register(operands[0]), src=_register(operands[1]), imm=int(match[3]))
    if insn.name == "atomic":
        insn, operands = replace(insn, operation=operands[0]), operands[1:]
    if insn.name in ("ldx", "ldxs"):
        insn, operands = replace(insn, dst=_register(operands[0])), operands[1:]
    if place := PLACE.fullmatch(operands[0]):
        insn = replace(insn, offset=int(place[2]))
        if insn.name in ("ldx", "ldxs"):
            return replace(insn, src=int(place[1]))
        return _with_operand(replace(insn, dst=int(place[1])), operands[1])
    insn = replace(insn, dst=_register(operands[0]))
    return _with_operand(insn, operands[1]) if len(operands) > 1 else insn


def _register(text: str) -> int:
    return int(text.removeprefix("r"))


def _with_operand(insn: Insn, operand: str) -> Insn:
    """An instruction with a second operand: a register or a number."""
    if operand.startswith("r"):
        return replace(insn, src=_register(operand))
    return replace(insn, imm=int(operand))


def _slot_of(insn: Insn, place: str, labels: dict[str, int]) -> int:
    """The slot that a label or a distance names."""
    return labels[place] if place in labels else insn.slot + 1 + int(place)


def _jump(insn: Insn, place: str, labels: dict[str, int]) -> Insn:
    """A jump with its target, and with the distance to it in its text."""
    target = _slot_of(insn, place, labels)
    front = insn.text.removesuffix(place)
    return replace(insn, target=target, text=f"{front}{target - insn.slot - 1:+d}")


def _wide(insn: Insn, operands: list[str], labels: dict[str, int]) -> Insn:
    """A load of two slots."""
    insn = replace(insn, dst=_register(operands[0]))
    if insn.name == "ldcode":
        return _jump(insn, operands[1], labels)
    offset = int(operands[2]) if insn.name == "ldmapval" else 0
    return replace(insn, imm=int(operands[1]), offset=offset)
