"""What the verifier knows of a number, and how an operation or a comparison changes it: docs/FORMATS.md has its rules.

A range says at most what the program's own verifier finds. What is emitted is verified by that one all the same.
"""

from __future__ import annotations

from collections.abc import Callable
from typing import NamedTuple, Optional

BITS = 64
ALL = (1 << 64) - 1
LOW = (1 << 32) - 1


class Range(NamedTuple):
    """The multiples of 2^z from lo to hi."""

    lo: int
    hi: int
    z: int

    @property
    def is_exact(self) -> bool:
        return self.lo == self.hi


def exact(number: int) -> Range:
    """The range of one number."""
    number &= ALL
    return Range(number, number, (number & -number).bit_length() - 1 if number else BITS)


def top(width: int) -> Range:
    """All numbers of a width in bits."""
    return Range(0, (1 << width) - 1, 0)


TOP = top(BITS)


def norm(lo: int, hi: int, z: int) -> Range:
    """The multiples of 2^z within two bounds."""
    z = min(z, BITS)
    lo, hi = -(-lo >> z) << z, hi >> z << z
    return exact(lo) if lo >= hi else Range(lo, hi, z)


def join(a: Range, b: Range) -> Range:
    """The least range that has both."""
    return Range(min(a.lo, b.lo), max(a.hi, b.hi), min(a.z, b.z))


def signed(number: int, bits: int) -> int:
    """A number's low bits as a signed one."""
    number &= (1 << bits) - 1
    return number - (1 << bits) if number >> (bits - 1) else number


def fill(number: int) -> int:
    return (1 << number.bit_length()) - 1


def low32(r: Range) -> Range:
    """What is known of the low half."""
    if r.hi <= LOW:
        return r
    return exact(r.lo & LOW) if r.lo == r.hi else top(32)


def _signed_divided(a: int, b: int) -> int:
    if not b:
        return 0
    quotient = abs(a) // abs(b)
    return quotient if (a < 0) == (b < 0) else -quotient


def _signed_rest(a: int, b: int) -> int:
    return a - _signed_divided(a, b) * b if b else a


NUMBERS: dict[str, Callable[[int, int, int], int]] = {
    "add": lambda a, b, w: a + b,
    "sub": lambda a, b, w: a - b,
    "mul": lambda a, b, w: a * b,
    "div": lambda a, b, w: a // b if b else 0,
    "mod": lambda a, b, w: a % b if b else a,
    "sdiv": lambda a, b, w: _signed_divided(signed(a, w), signed(b, w)),
    "smod": lambda a, b, w: _signed_rest(signed(a, w), signed(b, w)),
    "or": lambda a, b, w: a | b,
    "and": lambda a, b, w: a & b,
    "xor": lambda a, b, w: a ^ b,
    "lsh": lambda a, b, w: a << (b & (w - 1)),
    "rsh": lambda a, b, w: a >> (b & (w - 1)),
    "arsh": lambda a, b, w: signed(a, w) >> (b & (w - 1)),
    "neg": lambda a, b, w: -a,
    "mov": lambda a, b, w: b,
}


def compute(op: str, width: int, a: int, b: int) -> int:
    """The meaning of an arithmetic instruction; b is the operand, and a what the destination has."""
    mask = (1 << width) - 1
    if op in NUMBERS:
        return NUMBERS[op](a & mask, b & mask, width) & mask
    if op.startswith("movs"):
        return signed(b, int(op[4:])) & mask
    if op.startswith("le"):
        return a & ((1 << int(op[2:])) - 1)
    bits = int(op[2:] if op.startswith("be") else op[4:])
    return int.from_bytes((a & ((1 << bits) - 1)).to_bytes(bits // 8, "little"), "big")


def alu(op: str, width: int, a: Range, b: Range) -> Range:
    """The range of the result, by the verifier's table."""
    if op not in NUMBERS and (op[:2] in ("le", "be") or op.startswith("swap")):
        return _byte_order(op, a)
    if width == 32:
        a, b = low32(a), low32(b)
    if op == "mov":
        return b
    if op.startswith("movs"):
        bits = int(op[4:])
        if b.lo == b.hi:
            return exact(compute(op, width, 0, b.lo))
        return b if b.hi < 1 << (bits - 1) else top(width)
    if a.lo == a.hi and (b.lo == b.hi or op == "neg"):
        return exact(compute(op, width, a.lo, b.lo))
    return TABLE[op](width, a, b)


def _byte_order(op: str, a: Range) -> Range:
    bits = int(op.lstrip("lebswap"))
    if a.lo == a.hi:
        return exact(compute(op, 64, a.lo, 0))
    return a if op.startswith("le") and a.hi < 1 << bits else top(bits)


def _within(w: int, lo: int, hi: int, z: int) -> Range:
    """The multiples of 2^z within two bounds, or of all numbers of a width where these pass what it has."""
    return norm(lo, hi, z) if 0 <= lo and hi < 1 << w else norm(0, (1 << w) - 1, z)


def _div(w: int, a: Range, b: Range) -> Range:
    if b.lo != b.hi:
        return norm(0, a.hi, 0)
    return norm(a.lo // b.lo, a.hi // b.lo, 0) if b.lo else exact(0)


def _mod(w: int, a: Range, b: Range) -> Range:
    if b.lo != b.hi:
        return norm(0, a.hi, 0)
    return a if b.lo == 0 or a.hi < b.lo else norm(0, b.lo - 1, 0)


def _lsh(w: int, a: Range, b: Range) -> Range:
    if b.lo != b.hi:
        return norm(0, (1 << w) - 1, a.z)
    s = b.lo & (w - 1)
    return _within(w, a.lo << s, a.hi << s, a.z + s)


def _rsh(w: int, a: Range, b: Range) -> Range:
    if b.lo != b.hi:
        return norm(0, a.hi, 0)
    s = b.lo & (w - 1)
    return norm(a.lo >> s, a.hi >> s, max(a.z - s, 0))


TABLE: dict[str, Callable[[int, Range, Range], Range]] = {
    "add": lambda w, a, b: _within(w, a.lo + b.lo, a.hi + b.hi, min(a.z, b.z)),
    "sub": lambda w, a, b: _within(w, a.lo - b.hi, a.hi - b.lo, min(a.z, b.z)),
    "mul": lambda w, a, b: _within(w, a.lo * b.lo, a.hi * b.hi, a.z + b.z),
    "div": _div,
    "mod": _mod,
    "sdiv": lambda w, a, b: top(w),
    "smod": lambda w, a, b: top(w),
    "or": lambda w, a, b: norm(max(a.lo, b.lo), fill(a.hi | b.hi), min(a.z, b.z)),
    "and": lambda w, a, b: norm(0, min(a.hi, b.hi), max(a.z, b.z)),
    "xor": lambda w, a, b: norm(0, fill(a.hi | b.hi), min(a.z, b.z)),
    "lsh": _lsh,
    "rsh": _rsh,
    "arsh": lambda w, a, b: _rsh(w, a, b) if a.hi < 1 << (w - 1) else top(w),
    "neg": lambda w, a, b: norm(0, (1 << w) - 1, a.z),
}

HOLDS: dict[str, Callable[[int, int, int], bool]] = {
    "jeq": lambda a, b, w: a == b,
    "jne": lambda a, b, w: a != b,
    "jgt": lambda a, b, w: a > b,
    "jge": lambda a, b, w: a >= b,
    "jlt": lambda a, b, w: a < b,
    "jle": lambda a, b, w: a <= b,
    "jset": lambda a, b, w: bool(a & b),
    "jnset": lambda a, b, w: not a & b,
    "jsgt": lambda a, b, w: signed(a, w) > signed(b, w),
    "jsge": lambda a, b, w: signed(a, w) >= signed(b, w),
    "jslt": lambda a, b, w: signed(a, w) < signed(b, w),
    "jsle": lambda a, b, w: signed(a, w) <= signed(b, w),
}
OPPOSITE = {"jeq": "jne", "jgt": "jle", "jge": "jlt", "jset": "jnset", "jsgt": "jsle", "jsge": "jslt"}
OPPOSITE.update({opposite: op for op, opposite in OPPOSITE.items()})

Pair = Optional[tuple[Range, Range]]


def refine(op: str, width: int, a: Range, b: Range) -> Pair:
    """What is known of two operands where the comparison holds, or nothing where it can't."""
    if width == 32 and (a.hi > LOW or b.hi > LOW):
        x, y = low32(a), low32(b)
        return None if x.is_exact and y.is_exact and not HOLDS[op](x.lo, y.lo, 32) else (a, b)
    if op in REFINED:
        return REFINED[op](a, b)
    if a.lo == a.hi and b.lo == b.hi and not HOLDS[op](a.lo, b.lo, width):
        return None
    return a, b


def _equal(a: Range, b: Range) -> Pair:
    z = max(a.z, b.z)
    lo, hi = -(-max(a.lo, b.lo) >> z) << z, min(a.hi, b.hi) >> z << z
    return None if lo > hi else (norm(lo, hi, z), norm(lo, hi, z))


def _unequal(a: Range, b: Range) -> Pair:
    if a.lo == a.hi and b.lo == b.hi:
        return None if a.lo == b.lo else (a, b)
    if b.lo == b.hi:
        return _without(a, b.lo), b
    if a.lo == a.hi:
        return a, _without(b, a.lo)
    return a, b


def _without(r: Range, number: int) -> Range:
    if r.lo == number:
        return norm(r.lo + (1 << r.z), r.hi, r.z)
    if r.hi == number:
        return norm(r.lo, r.hi - (1 << r.z), r.z)
    return r


def _greater(a: Range, b: Range) -> Pair:
    if a.hi <= b.lo:
        return None
    return norm(max(a.lo, b.lo + 1), a.hi, a.z), norm(b.lo, min(b.hi, a.hi - 1), b.z)


def _not_less(a: Range, b: Range) -> Pair:
    if a.hi < b.lo:
        return None
    return norm(max(a.lo, b.lo), a.hi, a.z), norm(b.lo, min(b.hi, a.hi), b.z)


def _swapped(found: Pair) -> Pair:
    return (found[1], found[0]) if found else None


REFINED: dict[str, Callable[[Range, Range], Pair]] = {
    "jeq": _equal,
    "jne": _unequal,
    "jgt": _greater,
    "jge": _not_less,
    "jlt": lambda a, b: _swapped(_greater(b, a)),
    "jle": lambda a, b: _swapped(_not_less(b, a)),
}
