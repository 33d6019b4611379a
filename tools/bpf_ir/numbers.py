"""Operations on numbers that the back end doesn't have, by those that it has.

A quotient's sign and a remainder's are those of C. By zero, those of up to 64 bits are as BPF defines the unsigned
ones: 0, and the dividend.
"""

from __future__ import annotations

import re
from collections.abc import Callable
from functools import partial

from .text import Body, Instruction, split_operands

WORD, HALF = 64, 32
LONGEST = 128
MASK = (1 << HALF) - 1
ARITHMETIC = re.compile(r"(sdiv|srem|udiv|urem|mul|shl|lshr|ashr)(?: exact| nuw| nsw)* i(\d+) (.*)")
CALL = re.compile(r"(?:tail |notail |musttail )?call [^@]*@llvm\.([a-z.]+)\.i(\d+)\((.*)\)(?: #\d+)?")
LITERAL = re.compile(r"-?\d+")
SHIFTS = ("shl", "lshr", "ashr")


def rewrite_number(instruction: Instruction, body: Body) -> bool:
    """Replaces an operation, and says whether it is one of those."""
    result = instruction.result
    if result is None:
        return False
    if found := ARITHMETIC.fullmatch(instruction.words):
        bits = int(found[2])
        left, right = split_operands(found[3])
        return _arithmetic(body, found[1], bits, left, right, result)
    if found := CALL.fullmatch(instruction.words):
        make = INTRINSICS.get(found[1])
        operands = [operand.split()[-1] for operand in split_operands(found[3])]
        return make is not None and make(body, int(found[2]), operands, result)
    return False


def _arithmetic(body: Body, operation: str, bits: int, left: str, right: str, result: str) -> bool:
    if bits > LONGEST or bits <= WORD and operation not in ("sdiv", "srem"):
        return False
    if operation in SHIFTS:
        return not LITERAL.fullmatch(right) and _long_shift(body, operation, bits, left, right, result)
    if operation == "mul":
        return _long_product(body, bits, left, right, result)
    if bits > WORD:
        return _long_quotient(body, operation, bits, left, right, result)
    if power := _power(right):
        return _quotient_by_power(body, operation, bits, left, power, result)
    return _quotient(body, operation, bits, left, right, result)


def _power(operand: str) -> int:
    """Which power of two from 2 on an operand is, or 0."""
    value = int(operand) if LITERAL.fullmatch(operand) else 0
    return value.bit_length() - 1 if value > 1 and value & (value - 1) == 0 else 0


# Signed division of up to 64 bits.


def _quotient_by_power(body: Body, operation: str, bits: int, left: str, power: int, result: str) -> bool:
    """A shift, before which a negative dividend is raised, so that it rounds towards 0."""
    value = _widened(body, "sext", bits, left)
    sign = body.make(f"ashr i64 {value}, {WORD - 1}")
    raised = body.make(f"add i64 {value}, {body.make(f'lshr i64 {sign}, {WORD - power}')}")

    def make(name: str | None) -> str:
        if operation == "sdiv":
            return body.make(f"ashr i64 {raised}, {power}", name)
        multiple = body.make(f"and i64 {raised}, {-(1 << power)}")
        return body.make(f"sub i64 {value}, {multiple}", name)

    _narrowed(body, WORD, bits, make, result)
    return True


def _quotient(body: Body, operation: str, bits: int, left: str, right: str, result: str) -> bool:
    """That of the absolute values, which is unsigned, with its sign."""
    sign, dividend = _absolute(body, WORD, _widened(body, "sext", bits, left))
    other, divisor = _absolute(body, WORD, _widened(body, "sext", bits, right))
    if operation == "sdiv":
        sign = body.make(f"xor i64 {sign}, {other}")
    unsigned = body.make(f"u{operation[1:]} i64 {dividend}, {divisor}")
    _narrowed(body, WORD, bits, lambda name: _with_sign(body, WORD, unsigned, sign, name), result)
    return True


def _absolute(body: Body, bits: int, value: str) -> tuple[str, str]:
    """A number's sign, which is 0 or -1, and what it is without."""
    if LITERAL.fullmatch(value):
        return ("-1" if int(value) < 0 else "0"), str(abs(int(value)))
    sign = body.make(f"ashr i{bits} {value}, {bits - 1}")
    return sign, _with_sign(body, bits, value, sign)


def _with_sign(body: Body, bits: int, value: str, sign: str, result: str | None = None) -> str:
    """A number where a sign is 0, and its negation where that is -1."""
    flipped = body.make(f"xor i{bits} {value}, {sign}")
    return body.make(f"sub i{bits} {flipped}, {sign}", result)


def _widened(body: Body, extension: str, bits: int, value: str, to: int = WORD) -> str:
    if bits == to:
        return value
    if LITERAL.fullmatch(value):
        return value if extension == "sext" else str(int(value) % (1 << bits))
    return body.make(f"{extension} i{bits} {value} to i{to}")


def _narrowed(body: Body, wide: int, bits: int, make: Callable[[str | None], str], result: str) -> None:
    """What is made, in the bits of the result."""
    if bits == wide:
        make(result)
    else:
        body.make(f"trunc i{wide} {make(None)} to i{bits}", result)


# Products and quotients of more than 64 bits.


def _product(body: Body, left: str, right: str) -> tuple[str, str]:
    """The low and the high word of the product of two unsigned words."""
    low_left, high_left = _halves(body, left)
    low_right, high_right = _halves(body, right)
    carried = body.make(f"lshr i64 {body.make(f'mul i64 {low_left}, {low_right}')}, {HALF}")
    middle = body.make(f"add i64 {body.make(f'mul i64 {high_left}, {low_right}')}, {carried}")
    low_middle, high_middle = _halves(body, middle)
    other = body.make(f"add i64 {body.make(f'mul i64 {low_left}, {high_right}')}, {low_middle}")
    high = body.make(f"add i64 {body.make(f'mul i64 {high_left}, {high_right}')}, {high_middle}")
    high = body.make(f"add i64 {high}, {body.make(f'lshr i64 {other}, {HALF}')}")
    return body.make(f"mul i64 {left}, {right}"), high


def _halves(body: Body, value: str) -> tuple[str, str]:
    if LITERAL.fullmatch(value):
        number = int(value) % (1 << WORD)
        return str(number & MASK), str(number >> HALF)
    return body.make(f"and i64 {value}, {MASK}"), body.make(f"lshr i64 {value}, {HALF}")


def _words(body: Body, bits: int, value: str) -> tuple[str, str]:
    if LITERAL.fullmatch(value):
        number = int(value) % (1 << LONGEST)
        return str(number % (1 << WORD)), str(number >> WORD)
    high = body.make(f"lshr i{bits} {value}, {WORD}")
    return body.make(f"trunc i{bits} {value} to i64"), body.make(f"trunc i{bits} {high} to i64")


def _long_product(body: Body, bits: int, left: str, right: str, result: str) -> bool:
    low_left, high_left = _words(body, bits, left)
    low_right, high_right = _words(body, bits, right)
    low, high = _product(body, low_left, low_right)
    high = body.make(f"add i64 {high}, {body.make(f'mul i64 {low_left}, {high_right}')}")
    high = body.make(f"add i64 {high}, {body.make(f'mul i64 {high_left}, {low_right}')}")
    _join_words(body, bits, low, high, result)
    return True


def _join_words(body: Body, bits: int, low: str, high: str, result: str) -> None:
    long_low = body.make(f"zext i64 {low} to i{LONGEST}")
    long_high = body.make(f"shl i{LONGEST} {body.make(f'zext i64 {high} to i{LONGEST}')}, {WORD}")
    _narrowed(body, LONGEST, bits, lambda name: body.make(f"or i{LONGEST} {long_low}, {long_high}", name), result)


def _long_shift(body: Body, operation: str, bits: int, left: str, right: str, result: str) -> bool:
    """Either word shifted, with what comes over from the other one; by 64 and more the words change places."""
    low, high = _words(body, LONGEST, _widened(body, "sext" if operation == "ashr" else "zext", bits, left, LONGEST))
    count = body.make(f"trunc i{bits} {right} to i64")
    within = body.make(f"and i64 {count}, {WORD - 1}")
    against = body.make(f"xor i64 {within}, {WORD - 1}")
    is_far = body.make(f"icmp uge i64 {count}, {WORD}")
    is_left = operation == "shl"
    near, far = (low, high) if is_left else (high, low)  # the word that nothing comes over to, and the other one
    moved_near = body.make(f"{operation} i64 {near}, {within}")
    moved_far = body.make(f"{'shl' if is_left else 'lshr'} i64 {far}, {within}")
    over = body.make(f"{'lshr' if is_left else 'shl'} i64 {near}, 1")
    over = body.make(f"{'lshr' if is_left else 'shl'} i64 {over}, {against}")
    joined = body.make(f"or i64 {moved_far}, {over}")
    filled = body.make(f"ashr i64 {high}, {WORD - 1}") if operation == "ashr" else "0"
    new_near = body.make(f"select i1 {is_far}, i64 {filled}, i64 {moved_near}")
    new_far = body.make(f"select i1 {is_far}, i64 {moved_near}, i64 {joined}")
    low, high = (new_near, new_far) if is_left else (new_far, new_near)
    _join_words(body, bits, low, high, result)
    return True


def _long_quotient(body: Body, operation: str, bits: int, left: str, right: str, result: str) -> bool:
    """Bit by bit from the highest: a bit of the quotient is 1 where the divisor fits into the rest."""
    extension = "sext" if operation[0] == "s" else "zext"
    dividend, divisor = (_widened(body, extension, bits, value, LONGEST) for value in (left, right))
    sign, other = "0", "0"
    if operation[0] == "s":
        sign, dividend = _absolute(body, LONGEST, dividend)
        other, divisor = _absolute(body, LONGEST, divisor)
    before, loop, end = body.block, body.fresh(), body.fresh()
    at, rest, ahead = (f"%{body.fresh()}" for _ in range(3))
    next_at, next_rest, next_ahead = (f"%{body.fresh()}" for _ in range(3))
    body.add(f"br label %{loop}")
    body.begin(loop)
    body.make(f"phi i32 [ 0, %{before} ], [ {next_at}, %{loop} ]", at)
    body.make(f"phi i128 [ 0, %{before} ], [ {next_rest}, %{loop} ]", rest)
    body.make(f"phi i128 [ {dividend}, %{before} ], [ {next_ahead}, %{loop} ]", ahead)
    bit = body.make(f"lshr i128 {ahead}, {LONGEST - 1}")
    grown = body.make(f"or i128 {body.make(f'shl i128 {rest}, 1')}, {bit}")
    is_carried = body.make(f"icmp slt i128 {rest}, 0")
    fits = body.make(f"or i1 {is_carried}, {body.make(f'icmp uge i128 {grown}, {divisor}')}")
    less = body.make(f"sub i128 {grown}, {divisor}")
    body.make(f"select i1 {fits}, i128 {less}, i128 {grown}", next_rest)
    shifted = body.make(f"shl i128 {ahead}, 1")
    body.make(f"or i128 {shifted}, {body.make(f'zext i1 {fits} to i128')}", next_ahead)
    body.make(f"add i32 {at}, 1", next_at)
    body.add(f"br i1 {body.make(f'icmp ult i32 {next_at}, {LONGEST}')}, label %{loop}, label %{end}")
    body.begin(end)
    is_quotient = operation.endswith("div")
    sign = body.make(f"xor i128 {sign}, {other}") if is_quotient else sign
    unsigned = next_ahead if is_quotient else next_rest
    _narrowed(body, LONGEST, bits, lambda name: _with_sign(body, LONGEST, unsigned, sign, name), result)
    return True


# Intrinsics.


def _overflowing_product(body: Body, bits: int, operands: list[str], result: str, is_signed: bool) -> bool:
    """The product of two words, and whether it is too large for one."""
    if bits != WORD:
        return False
    left, right = operands
    low, high = _product(body, left, right)
    if is_signed:
        for one, another in ((left, right), (right, left)):
            sign = body.make(f"ashr i64 {one}, 63")
            high = body.make(f"sub i64 {high}, {body.make(f'and i64 {sign}, {another}')}")
    expected = body.make(f"ashr i64 {low}, 63") if is_signed else "0"
    overflows = body.make(f"icmp ne i64 {high}, {expected}")
    pair = body.make(f"insertvalue {{ i64, i1 }} undef, i64 {low}, 0")
    body.make(f"insertvalue {{ i64, i1 }} {pair}, i1 {overflows}, 1", result)
    return True


def _leading_zeros(body: Body, bits: int, operands: list[str], result: str) -> bool:
    """All bits below the highest one are set, and counted."""
    if bits > WORD:
        return False
    value = _widened(body, "zext", bits, operands[0])
    for log in range((bits - 1).bit_length()):
        value = body.make(f"or i64 {value}, {body.make(f'lshr i64 {value}, {1 << log}')}")
    counted = body.make(f"call i64 @llvm.ctpop.i64(i64 {value})")
    _narrowed(body, WORD, bits, lambda name: body.make(f"sub i64 {bits}, {counted}", name), result)
    return True


def _trailing_zeros(body: Body, bits: int, operands: list[str], result: str) -> bool:
    """The bits below the lowest one are counted."""
    if bits > WORD:
        return False
    value = _widened(body, "zext", bits, operands[0])
    if bits < WORD:
        value = body.make(f"or i64 {value}, {1 << bits}")
    below = body.make(f"and i64 {body.make(f'xor i64 {value}, -1')}, {body.make(f'add i64 {value}, -1')}")
    _narrowed(body, WORD, bits, lambda name: body.make(f"call i64 @llvm.ctpop.i64(i64 {below})", name), result)
    return True


INTRINSICS: dict[str, Callable[[Body, int, list[str], str], bool]] = {
    "ctlz": _leading_zeros,
    "cttz": _trailing_zeros,
    "umul.with.overflow": partial(_overflowing_product, is_signed=False),
    "smul.with.overflow": partial(_overflowing_product, is_signed=True),
}
DECLARED = "declare i64 @llvm.ctpop.i64(i64)"
