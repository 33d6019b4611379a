"""BPF instructions (RFC 9669): from bytes, and as lines of the assembler text that docs/FORMATS.md defines."""

from __future__ import annotations

import struct
from collections.abc import Iterator
from dataclasses import dataclass
from string import Formatter

from .refusal import Refused

SLOT = struct.Struct("<BBhi")  # opcode, registers, offset, immediate
LAST_REGISTER = 10
WORD = 1 << 32

# Opcodes: a class, and a source or a mode and a size.
LD, LDX, ST, STX, ALU, JMP, JMP32, ALU64 = range(8)
CLASS_MASK = 7
REGISTER_SOURCE = 8
MEM, MEMSX, ATOMIC = 0x60, 0x80, 0xC0
WORD_SIZE, DOUBLE_SIZE = 0x00, 0x18
LDDW = LD | DOUBLE_SIZE
NEG, END, JA, CALL, EXIT = 0x80, 0xD0, 0x00, 0x80, 0x90
END_LE, END_BE = ALU | END, ALU | END | REGISTER_SOURCE
CALL_OPCODE = JMP | CALL
CALL_REGISTER = CALL_OPCODE | REGISTER_SOURCE

# What the source register's field says of a load of two slots, and of a call.
KIND_NUMBER, KIND_CODE, KIND_MAP, KIND_MAP_VALUE = 0, 4, 5, 6
CALL_HELPER, CALL_LOCAL, CALL_BTF = 0, 1, 2

SIZES = {0x00: 32, 0x08: 16, 0x10: 8, 0x18: 64}
OPERATORS = ["add", "sub", "mul", "div", "or", "and", "lsh", "rsh", None, "mod", "xor", "mov", "arsh"]
SIGNED = {"div": "sdiv", "mod": "smod"}  # by offset 1
CONDITIONS = [None, "jeq", "jgt", "jge", "jset", "jne", "jsgt", "jsge", None, None, "jlt", "jle", "jslt", "jsle"]
ATOMICS = {0x00: "add", 0x40: "or", 0x50: "and", 0xA0: "xor"}
FETCH = 1
EXCHANGES = {0xE1: "xchg", 0xF1: "cmpxchg"}


# The words of lines that aren't a field's name, and the fields that they show.
FIELDS_OF = {"near": ["offset"], "far": ["imm"], "number": ["imm", "next_imm"]}


@dataclass(frozen=True)
class Insn:
    """An instruction's fields; the second immediate is that of a load of two slots, and 0 in all others."""

    opcode: int
    dst: int
    src: int
    offset: int
    imm: int
    next_imm: int = 0

    @property
    def slots(self) -> int:
        return 2 if self.opcode == LDDW else 1

    @property
    def distance(self) -> int | None:
        """How far it leads past the slot behind it: a jump, or a load of a code address."""
        if self.opcode & CLASS_MASK in (JMP, JMP32) and self.opcode & 0xF0 not in (CALL, EXIT):
            return self.imm if self.opcode == JMP32 | JA else self.offset
        return self.imm if self.opcode == LDDW and self.src == KIND_CODE else None


@dataclass(frozen=True)
class Form:
    """The lines of an opcode. Where it has several, a field chooses; a field in neither line nor choice is 0."""

    lines: dict[int, str]
    chosen_by: str = ""


def read_insns(code: memoryview, first_slot: int) -> Iterator[tuple[int, Insn]]:
    """The instructions of a section whose first slot is numbered so, each with its slot."""
    slots = [*SLOT.iter_unpack(code)]
    at = 0
    while at < len(slots):
        insn = _insn(slots, at, first_slot + at)
        yield first_slot + at, insn
        at += insn.slots


def line_of(insn: Insn, target: str) -> str:
    """An instruction's line; the target is how the line names the place that it leads to."""
    opcode = f"opcode {insn.opcode:#04x}"
    form = FORMS.get(insn.opcode)
    if insn.opcode == CALL_REGISTER:
        raise Refused(f"a call through a register ({opcode}): of a function pointer, or not compiled with -O2")
    if form is None:
        raise Refused(f"no instruction has {opcode}")
    fields = vars(insn)
    choice = fields[form.chosen_by] if form.chosen_by else 0
    if choice not in form.lines:
        raise Refused(f"{opcode} has no {form.chosen_by} {choice}")
    line = form.lines[choice]
    unused = fields.keys() - {"opcode", form.chosen_by} - _fields_shown(line)
    if any(fields[name] for name in unused):
        raise Refused(f"{opcode} has a field that should be 0, and isn't")
    number = insn.next_imm % WORD * WORD + insn.imm % WORD
    return line.format(**fields, near=target, far=target, number=number)


def _fields_shown(line: str) -> set[str]:
    words = (word for _, word, _, _ in Formatter().parse(line) if word)
    return {field for word in words for field in FIELDS_OF.get(word, [word])}


def _insn(slots: list[tuple[int, ...]], at: int, slot: int) -> Insn:
    opcode, registers, offset, imm = slots[at]
    dst, src = registers & 15, registers >> 4
    if dst > LAST_REGISTER or src > LAST_REGISTER:
        raise Refused(f"slot {slot}: no register r{max(dst, src)}")
    if opcode != LDDW:
        return Insn(opcode, dst, src, offset, imm)
    if at + 1 == len(slots) or slots[at + 1][:3] != (0, 0, 0):
        raise Refused(f"slot {slot}: a load of two slots has no second one")
    return Insn(opcode, dst, src, offset, imm, slots[at + 1][3])


def _arithmetic() -> Iterator[tuple[int, Form]]:
    for operator_class, width in (ALU, 32), (ALU64, 64):
        for code, word in enumerate(OPERATORS):
            for source, operand in (0, "{imm}"), (REGISTER_SOURCE, "r{src}"):
                lines = {0: f"{word}{width} r{{dst}}, {operand}"}
                if word in SIGNED:
                    lines[1] = f"{SIGNED[word]}{width} r{{dst}}, {operand}"
                if word == "mov" and source:
                    bits = (8, 16, 32) if width == 64 else (8, 16)
                    lines |= {n: f"mov{width}s{n} r{{dst}}, r{{src}}" for n in bits}
                if word:
                    yield code << 4 | source | operator_class, Form(lines, "offset")
        yield NEG | operator_class, Form({0: f"neg{width} r{{dst}}"})
    for opcode, word in (END_LE, "le"), (END_BE, "be"), (ALU64 | END, "swap"):
        yield opcode, Form({bits: f"{word}{bits} r{{dst}}" for bits in (16, 32, 64)}, "imm")


def _jumps() -> Iterator[tuple[int, Form]]:
    for jump_class, width in (JMP, 64), (JMP32, 32):
        for code, word in enumerate(CONDITIONS):
            if word:
                opcode = code << 4 | jump_class
                yield opcode, Form({0: f"{word}{width} r{{dst}}, {{imm}}, {{near}}"})
                yield opcode | REGISTER_SOURCE, Form({0: f"{word}{width} r{{dst}}, r{{src}}, {{near}}"})
    yield JMP | JA, Form({0: "ja {near}"})
    yield JMP32 | JA, Form({0: "ja32 {far}"})
    words = {CALL_HELPER: "call", CALL_LOCAL: "call_local", CALL_BTF: "call_btf"}
    yield CALL_OPCODE, Form({kind: f"{word} {{imm}}" for kind, word in words.items()}, "src")
    yield JMP | EXIT, Form({0: "exit"})


def _accesses() -> Iterator[tuple[int, Form]]:
    for size, bits in SIZES.items():
        yield LDX | MEM | size, Form({0: f"ldx{bits} r{{dst}}, [r{{src}}{{offset:+d}}]"})
        if bits < 64:
            yield LDX | MEMSX | size, Form({0: f"ldxs{bits} r{{dst}}, [r{{src}}{{offset:+d}}]"})
        yield ST | MEM | size, Form({0: f"st{bits} [r{{dst}}{{offset:+d}}], {{imm}}"})
        yield STX | MEM | size, Form({0: f"stx{bits} [r{{dst}}{{offset:+d}}], r{{src}}"})
    words = ATOMICS | {imm | FETCH: f"{word}_fetch" for imm, word in ATOMICS.items()} | EXCHANGES
    for size, bits in (WORD_SIZE, 32), (DOUBLE_SIZE, 64):
        lines = {imm: f"atomic{bits} {word} [r{{dst}}{{offset:+d}}], r{{src}}" for imm, word in words.items()}
        yield STX | ATOMIC | size, Form(lines, "imm")


LOADS_OF_TWO_SLOTS = {
    KIND_NUMBER: "lddw r{dst}, {number}",
    KIND_CODE: "ldcode r{dst}, {far}",
    KIND_MAP: "ldmap r{dst}, {imm}",
    KIND_MAP_VALUE: "ldmapval r{dst}, {imm}, {next_imm}",
}
FORMS = dict([*_arithmetic(), *_jumps(), *_accesses(), (LDDW, Form(LOADS_OF_TWO_SLOTS, "src"))])
