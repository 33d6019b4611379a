"""What operators make of words, the numbers below 2^64 (RFC 9669, sections 4.1 to 4.3)."""

from __future__ import annotations

from collections.abc import Callable


def mask(bits: int) -> int:
    """The greatest number of so many bits."""
    return (1 << bits) - 1


def signed(bits: int, number: int) -> int:
    """The lowest bits of a number, as a signed one."""
    low = number & mask(bits)
    return low - (1 << bits) if low >> bits - 1 else low


def _quotient(a: int, b: int) -> int:
    """A quotient that is cut towards 0; 0 where the divisor is 0."""
    if b == 0:
        return 0
    quotient = abs(a) // abs(b)
    return quotient if (a < 0) == (b < 0) else -quotient


def _remainder(a: int, b: int) -> int:
    """What such a quotient leaves; the dividend where the divisor is 0."""
    return a - b * _quotient(a, b)


OPERATORS: dict[str, Callable[[int, int, int], int]] = {  # by bits, and two numbers below 2^bits
    "add": lambda bits, a, b: a + b,
    "sub": lambda bits, a, b: a - b,
    "mul": lambda bits, a, b: a * b,
    "div": lambda bits, a, b: _quotient(a, b),
    "sdiv": lambda bits, a, b: _quotient(signed(bits, a), signed(bits, b)),
    "mod": lambda bits, a, b: _remainder(a, b),
    "smod": lambda bits, a, b: _remainder(signed(bits, a), signed(bits, b)),
    "or": lambda bits, a, b: a | b,
    "and": lambda bits, a, b: a & b,
    "xor": lambda bits, a, b: a ^ b,
    "lsh": lambda bits, a, b: a << b % bits,
    "rsh": lambda bits, a, b: a >> b % bits,
    "arsh": lambda bits, a, b: signed(bits, a) >> b % bits,
    "mov": lambda bits, a, b: b,
}
COMPARISONS: dict[str, Callable[[int, int, int], bool]] = {
    "jeq": lambda bits, a, b: a == b,
    "jne": lambda bits, a, b: a != b,
    "jgt": lambda bits, a, b: a > b,
    "jge": lambda bits, a, b: a >= b,
    "jlt": lambda bits, a, b: a < b,
    "jle": lambda bits, a, b: a <= b,
    "jset": lambda bits, a, b: a & b != 0,
    "jsgt": lambda bits, a, b: signed(bits, a) > signed(bits, b),
    "jsge": lambda bits, a, b: signed(bits, a) >= signed(bits, b),
    "jslt": lambda bits, a, b: signed(bits, a) < signed(bits, b),
    "jsle": lambda bits, a, b: signed(bits, a) <= signed(bits, b),
}


def computed(operator: str, bits: int, a: int, b: int) -> int:
    """What an operator makes of two words: at 32 bits of their lower halves, with the upper half cleared."""
    return OPERATORS[operator](bits, a & mask(bits), b & mask(bits)) & mask(bits)


def holds(comparison: str, bits: int, a: int, b: int) -> bool:
    """Whether a comparison holds of two words: at 32 bits of their lower halves."""
    return COMPARISONS[comparison](bits, a & mask(bits), b & mask(bits))


def extended(bits: int, low: int, number: int) -> int:
    """The lowest bits of a number, with their sign, as a number of more bits."""
    return signed(low, number) & mask(bits)


def swapped(bits: int, number: int) -> int:
    """The lowest bytes of a number in the other order."""
    return int.from_bytes((number & mask(bits)).to_bytes(bits // 8, "little"), "big")
