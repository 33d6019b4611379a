"""Instructions, by the text of their records: their names, operands, and which registers they read and write.

    insn = parse("stx64 [r1-8], r2")
    insn.kind, insn.name, insn.bits          # "store", "stx", 64
    insn.base, insn.offset, insn.src         # 1, -8, 2
    insn.reads, insn.writes                  # (1, 2), ()
"""

from __future__ import annotations

import re
from functools import lru_cache
from typing import Any, NamedTuple

from .records import RecordsError

MOVSX = "movsx"  # the kind of mov64s8, a move that extends the sign
# The names of each kind, and what its operands are. A `second` operand is `src`, a register, or `imm`, an immediate;
# `base` is an address in memory.
KINDS = {
    "alu": ("add sub mul div sdiv or and lsh rsh mod smod xor arsh", "dst second"),
    "mov": ("mov", "dst second"),
    MOVSX: ("", "dst src"),
    "unary": ("neg le be swap", "dst"),
    "ja": ("ja", "distance"),
    "jump": ("jeq jgt jge jset jne jsgt jsge jlt jle jslt jsle", "dst second distance"),
    "call": ("call call_local call_btf", "imm"),
    "exit": ("exit", ""),
    "load": ("ldx ldxs", "dst base"),
    "store": ("st stx", "base second"),
    "atomic": ("atomic", "base src"),
    "wide": ("lddw ldmapfd ldmapfdval ldvar ldmap ldmapval", "dst imm byte"),
    "code": ("ldcode", "dst distance"),
}
BY_NAME = {name: kind for kind, (names, _) in KINDS.items() for name in names.split()}
IN_PLACE = ("alu", "unary")  # they make `dst` of what it was
READING = (*IN_PLACE, "jump")  # they read `dst`
WRITING = (*IN_PLACE, "mov", MOVSX, "load", "wide", "code")  # they write `dst`
MNEMONIC = re.compile(r"([a-z_]+)(?:(\d+)(s\d+)?)?")
OPERAND = re.compile(r"r(?P<register>\d+)|\[r(?P<base>\d+)(?P<offset>[+-]\d+)\]|(?P<number>[+-]?\d+)")
SIGNED_COMPARISONS = ("jsgt", "jsge", "jslt", "jsle")
HELPERS = {1: "lookup", 181: "loop"}
ARGUMENTS = {"lookup": (1, 2), "loop": (1, 2, 3, 4)}  # the registers that helpers read
KEY = {"base": 2, "bits": 32}  # a lookup reads 4 bytes at r2
CALLER_SAVED = (0, 1, 2, 3, 4, 5)  # a call writes them


class Instruction(NamedTuple):
    """An instruction. What its kind doesn't have is None or 0."""

    kind: str  # a key of KINDS
    name: str  # the mnemonic without its bits; of an atomic operation its second word
    bits: int = 0
    dst: int | None = None
    src: int | None = None
    base: int | None = None  # the register of an address in memory, and the offset from it
    offset: int = 0
    imm: int = 0  # also the number of a map, and that of a helper
    byte: int = 0  # of a map's values
    distance: int = 0  # of a jump, and of a code address, from the slot after the instruction's first
    reads: tuple[int, ...] = ()  # registers, rising
    writes: tuple[int, ...] = ()

    @property
    def helper(self) -> str | None:
        """The helper that it calls, if there is one of that number: lookup or loop."""
        return HELPERS.get(self.imm) if self.name == "call" else None


@lru_cache(maxsize=None)
def parse(text: str) -> Instruction:
    """The instruction of a record's text. If it is none, it raises `RecordsError`."""
    word, _, rest = text.partition(" ")
    try:
        name, bits, extended = MNEMONIC.fullmatch(word).groups("")  # type: ignore[union-attr]
        kind = MOVSX if extended else BY_NAME[name]
        if kind == "atomic":
            name, _, rest = rest.partition(" ")
        fields: dict[str, Any] = {"bits": int(bits or 0)}
        for role, operand in zip(KINDS[kind][1].split(), rest.split(", ")):
            fields.update(_fields(role, operand))
    except (AttributeError, KeyError):
        raise RecordsError(f"a record's instruction isn't one that is known here: {text}") from None
    insn = Instruction(kind, name, **fields)
    if insn.helper == "lookup":
        insn = insn._replace(**KEY)
    return insn._replace(reads=_read_by(insn), writes=_written_by(insn))


def _fields(role: str, operand: str) -> dict[str, int]:
    """The fields that an operand gives to its instruction."""
    found = OPERAND.fullmatch(operand).groupdict()  # type: ignore[union-attr]
    numbers = {name: int(number) for name, number in found.items() if number is not None}
    if role == "base":
        return {"base": numbers["base"], "offset": numbers["offset"]}
    if "register" in numbers:
        return {"src" if role == "second" else role: numbers["register"]}
    return {"imm" if role == "second" else role: numbers["number"]}


def _read_by(insn: Instruction) -> tuple[int, ...]:
    """The registers that an instruction reads."""
    if insn.kind in ("call", "exit"):
        return (0,) if insn.kind == "exit" else ARGUMENTS.get(insn.helper or "", ())
    found = {insn.src, insn.base, insn.dst if insn.kind in READING else None, 0 if insn.name == "cmpxchg" else None}
    return tuple(sorted(register for register in found if register is not None))


def _written_by(insn: Instruction) -> tuple[int, ...]:
    """The registers that an instruction writes."""
    if insn.kind == "call":
        return CALLER_SAVED
    written = insn.dst if insn.kind in WRITING else None
    if insn.name == "cmpxchg":
        written = 0
    elif insn.name == "xchg" or insn.name.endswith("_fetch"):
        written = insn.src
    return () if written is None else (written,)
