"""Lines of assembler text, with the slots that they take and the source lines that they come from."""

from __future__ import annotations

from typing import NamedTuple

from .btf import SourceLine
from .code import Alu, Atomic, Load, Store
from .ranges import signed

LINES_OF_TWO_SLOTS = ("lddw", "ldmapval", "ldcode")
BYTE_ORDERS = ("le", "be", "swap")


class Line(NamedTuple):
    """An instruction, or a label where the text ends with a colon."""

    text: str
    line: SourceLine | None

    @property
    def is_label(self) -> bool:
        return self.text.endswith(":")

    @property
    def slots(self) -> int:
        if self.is_label:
            return 0
        return 2 if self.text.startswith(LINES_OF_TWO_SLOTS) else 1


def alu_text(insn: Alu) -> str:
    """The line of an arithmetic instruction."""
    if insn.op == "neg":
        return f"neg{insn.width} r{insn.dst}"
    if insn.op.startswith(BYTE_ORDERS):
        return f"{insn.op} r{insn.dst}"
    name = f"mov{insn.width}{insn.op[3:]}" if insn.op.startswith("movs") else f"{insn.op}{insn.width}"
    return f"{name} r{insn.dst}, {insn.imm if insn.src is None else f'r{insn.src}'}"


def access_text(insn: Load | Store | Atomic, place: str) -> str:
    """The line of an access of a place; a load's sign is left out."""
    size = insn.size * 8
    if isinstance(insn, Load):
        return f"ldx{size} r{insn.dst}, {place}"
    if isinstance(insn, Atomic):
        return f"atomic{size} {insn.op} {place}, r{insn.src}"
    return f"st{size} {place}, {insn.imm}" if insn.src is None else f"stx{size} {place}, r{insn.src}"


class Writer:
    """Collects the lines of one function."""

    def __init__(self, name: str) -> None:
        self.name = name
        self.lines: list[Line] = []
        self.line: SourceLine | None = None
        self._stubs: dict[tuple, str] = {}

    def add(self, *texts: str) -> None:
        """Instructions."""
        self.lines += [Line(text, self.line) for text in texts]

    def constant(self, register: int, number: int) -> None:
        """A number in a register."""
        if signed(number, 64) == signed(number, 32):
            self.add(f"mov64 r{register}, {signed(number, 32)}")
        else:
            self.add(f"lddw r{register}, {number}")

    def label(self, name: str) -> None:
        """A label of the instruction that follows."""
        self.lines.append(Line(f"{name}:", None))

    def block(self, label: int) -> str:
        """The label of a block."""
        return f"{self.name}_{label}"

    def trap(self, number: int, register: int | None) -> str:
        """The label of the code that takes a trap, with the register that was tested."""
        return self._stubs.setdefault((number, register), f"{self.name}_trap_{len(self._stubs)}")

    @property
    def can_trap(self) -> bool:
        """Whether a trap is taken anywhere."""
        return bool(self._stubs)

    def finish(self, result: int) -> None:
        """Writes the code of the traps, behind all else."""
        self.line = None
        last = list(self._stubs.items())[-1:]
        for (number, register), label in self._stubs.items():
            self.label(label)
            self.add(f"mov64 r2, {0 if register is None else f'r{register}'}", f"mov64 r1, {number}")
            if last and label != last[0][1]:
                self.add(f"ja {self.name}_trapped")
        if self._stubs:
            self.label(f"{self.name}_trapped")
            self.add("ldmapval r3, 0, 0", "stx64 [r3+0], r1", "stx64 [r3+8], r2", f"mov64 r0, {result}", "exit")
