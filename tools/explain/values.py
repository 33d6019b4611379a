"""Abstract values, registers and maps in words."""

from __future__ import annotations

from .records import Value
from .shown import counted

SIGN = 1 << 63
GREATEST = (1 << 64) - 1
GREATEST_32 = (1 << 32) - 1
ZERO_SHIFT = 64  # of 0 alone
ELEMENT_BYTES = 8
WORDS = {
    "unwritten": "not written",
    "number": "{range}",
    "frame": "the frame pointer{minus}",
    "main_frame": "main's frame pointer{minus}",
    "map": "map {map}",
    "area": "in map {map}, at byte {range}",
    "area_or_null": "in map {map}, at byte {range}, or null",
    "callback": "the callback at slot {start}",
}


def signed(number: int) -> int:
    """The signed value of a number of 64 bits."""
    return number - (GREATEST + 1) if number >= SIGN else number


def number_words(number: int) -> str:
    """A number of 64 bits; from 2^63 on its signed value too."""
    return str(number) if number < SIGN else f"{number} (signed, {signed(number)})"


def range_words(least: int, greatest: int, shift: int) -> str:
    """Numbers from one to another, multiples of 2^shift: `7`, `0 to 7992 in steps of 8`, `any number`."""
    if least == greatest:
        return number_words(least)
    step = 1 if shift >= ZERO_SHIFT else 1 << shift
    if least == 0 and greatest > GREATEST - step:
        return "any number" if step == 1 else f"any multiple of {step}"
    if least == 0 and greatest == GREATEST_32:
        return "any number below 2^32"
    steps = "" if step == 1 else f" in steps of {step}"
    return f"{number_words(least)} to {number_words(greatest)}{steps}"


def known(register: int, value: Value) -> str:
    """What a register is: `r3 is 0 to 7`."""
    numbers = "" if value.low is None else range_words(value.low, value.high or 0, value.shift or 0)
    minus = f" minus {-value.offset}" if value.offset else ""
    return f"r{register} is " + WORDS[value.kind].format(range=numbers, minus=minus, map=value.map, start=value.start)


def elements(map_number: int, count: int) -> str:
    """How many elements a map has, and how many bytes these have."""
    return f"map {map_number} has {counted(count, 'element')}, {count * ELEMENT_BYTES} bytes"


def width(value: Value) -> int:
    """How far apart a value's least and greatest number are: 0 of one that is no range, and the most of none."""
    if value.low is not None and value.high is not None:
        return value.high - value.low
    return GREATEST if value.kind == "unwritten" else 0
