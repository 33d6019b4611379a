"""What is known of numbers by how they come of those that a loop's first block finds.

A number is within a range, or an address, or a counted one: what a place held where a round began, and what was added.
A number that rises or falls in each round, and a test of it, say how often the loop's first block is come to.
"""

from __future__ import annotations

from enum import Enum
from typing import NamedTuple, Union

from .ranges import ALL, HOLDS, LOW, TOP, Range, alu, exact, join, low32, signed, top

ADDRESS = 1 << 40  # stands for that of a thing's first byte, since it isn't known yet
ADDED_LIMIT = 1 << 31  # of what is added to a counted number
RISING = ("jlt", "jle", "jslt", "jsle")  # tests that a rising number ends
FALLING = ("jgt", "jge", "jsgt", "jsge")


class Cast(Enum):
    """The part of a number that is meant."""

    WHOLE = "all bits"
    LOW = "the low half"
    SIGNED = "the low half as a signed number"
    HIGH = "the low half, moved to the high one"

    def of(self, number: int) -> int:
        """The part, as a number of 64 bits."""
        if self is Cast.LOW:
            return number & LOW
        if self is Cast.SIGNED:
            return signed(number, 32) & ALL
        return (number << 32) & ALL if self is Cast.HIGH else number & ALL


class Plain(NamedTuple):
    """A number, or the address of a byte of a thing."""

    range: Range
    thing: int | None = None

    def at(self, number: int) -> int:
        """One of its numbers, as it is compared."""
        return number if self.thing is None else (number + ADDRESS) & ALL


class Slot(NamedTuple):
    """Bytes of the frame, which hold a number."""

    offset: int  # from the frame's end
    size: int


Place = Union[int, Slot]  # what holds a number: a register, or bytes of the frame


class Counted(NamedTuple):
    """What a place held where a round of a loop began, with what was added to it since."""

    loop: int  # its first block
    place: Place
    low: int = 0  # the least that was added
    high: int = 0
    cast: Cast = Cast.WHOLE

    def plus(self, low: int, high: int, width: int) -> Counted | None:
        """The sum with a number from low to high, where it is one of these."""
        if width == 64 and self.cast is not Cast.WHOLE or width == 32 and self.cast not in (Cast.WHOLE, Cast.LOW):
            return None
        found = self._replace(low=self.low + low, high=self.high + high)
        if found.low <= -ADDED_LIMIT or found.high >= ADDED_LIMIT:
            return None
        return found._replace(cast=Cast.LOW) if width == 32 else found


Known = Union[Plain, Counted]
ANY = Plain(TOP)


def number(value: int) -> Plain:
    """A number that is known."""
    return Plain(exact(value))


def join_known(a: Known, b: Known) -> Known:
    """What is known where two paths meet."""
    if a == b:
        return a
    if isinstance(a, Counted) and isinstance(b, Counted):
        if (a.loop, a.place, a.cast) == (b.loop, b.place, b.cast):
            return a._replace(low=min(a.low, b.low), high=max(a.high, b.high))
        return ANY
    if isinstance(a, Plain) and isinstance(b, Plain) and a.thing == b.thing:
        return Plain(join(a.range, b.range), a.thing)
    return ANY


def range_of(known: Known) -> Range:
    """The range of a number, where nothing is known of the round."""
    if isinstance(known, Counted):
        return top(32) if known.cast is Cast.LOW else TOP
    return known.range if known.thing is None else TOP


def cut(known: Known) -> Known:
    """The low half of a number."""
    return combine("mov", 32, ANY, known)


def combine(op: str, width: int, a: Known, b: Known) -> Known:
    """The result of an arithmetic instruction."""
    found = _moved(op, width, b) if op.startswith("mov") else None
    found = found or (_sum(op, width, a, b) if op in ("add", "sub") else None)
    found = found or (_shifted(op, width, a, b) if op in ("lsh", "rsh", "arsh") else None)
    return found or Plain(alu(op, width, range_of(a), range_of(b)))


def _moved(op: str, width: int, b: Known) -> Known | None:
    if op == "mov" and width == 64:
        return b
    if isinstance(b, Counted) and b.cast in (Cast.WHOLE, Cast.LOW):
        if op == "mov":
            return b._replace(cast=Cast.LOW)
        if op == "movs32" and width == 64:
            return b._replace(cast=Cast.SIGNED)
    return None


def _sum(op: str, width: int, a: Known, b: Known) -> Known | None:
    if isinstance(b, Counted) or isinstance(b, Plain) and b.thing is not None:
        if op == "sub":
            return None
        a, b = b, a
    added = _added(op, width, b)
    if added is None:
        return None
    if isinstance(a, Counted):
        return a.plus(*added, width)
    if a.thing is not None and width == 64 and a.range.is_exact and added[0] == added[1]:
        return Plain(exact(a.range.lo + added[0]), a.thing)
    return None


def _added(op: str, width: int, b: Known) -> tuple[int, int] | None:
    """The least and the most that a sum adds."""
    if isinstance(b, Counted) or b.thing is not None:
        return None
    known = low32(b.range) if width == 32 else b.range
    low, high = (signed(known.lo, width),) * 2 if known.is_exact else (known.lo, known.hi)
    return (low, high) if op == "add" else (-high, -low)


def _shifted(op: str, width: int, a: Known, b: Known) -> Known | None:
    """Two shifts by 32 cut a number, or make a signed one of it."""
    if width != 64 or not isinstance(a, Counted) or b != number(32):
        return None
    if op == "lsh":
        return a._replace(cast=Cast.HIGH) if a.cast in (Cast.WHOLE, Cast.LOW, Cast.SIGNED) else None
    if a.cast is not Cast.HIGH:
        return None
    return a._replace(cast=Cast.LOW if op == "rsh" else Cast.SIGNED)


class Counter(NamedTuple):
    """What a number is where a loop begins, and what a round makes of it."""

    start: Plain
    step: Counted

    def at(self, start: int, step: int, rounds: int) -> int:
        """The number where a round begins, behind so many others."""
        return self.step.cast.of(start + step * rounds)


class Test(NamedTuple):
    """A comparison of a counted number with another one; the loop goes on where it holds."""

    op: str
    width: int
    counted: Counted
    counter: Counter
    bound: Plain
    is_same: bool  # the bound is one number in all rounds


def trips(test: Test) -> int | None:
    """How often the loop's first block is come to, at most, where the test tells it."""
    if test.counter.start.thing != test.bound.thing or not _is_kept(test.counter):
        return None
    start, bound = test.counter.start.range, test.bound.range
    step, counted = test.counter.step, test.counted
    is_exact = step.low == step.high and counted.low == counted.high and start.is_exact and bound.is_exact
    if not is_exact and not _is_monotone(test):
        return None
    if step.low > 0:
        return _first_end(test, start.lo, step.low, counted.low, bound.hi)
    if step.high < 0:
        return _first_end(test, start.hi, step.high, counted.high, bound.lo)
    return None


def _is_kept(counter: Counter) -> bool:
    """Whether the step's cast leaves the number that the loop begins with as it is."""
    cast, start = counter.step.cast, counter.start.range
    return cast is Cast.WHOLE or counter.start.thing is None and cast.of(start.lo) == start.lo and (
        start.is_exact or start.hi <= LOW >> 1
    )


def _is_monotone(test: Test) -> bool:
    """Whether the test surely ends the loop before the number passes what its width has."""
    start, bound = test.counter.start.range, test.bound.range
    step, counted = test.counter.step, test.counted
    least, most = (signed(bound.lo, 64),) * 2 if bound.is_exact else (bound.lo, bound.hi)
    casts = (step.cast, counted.cast)
    is_narrow = test.width == 32 or casts != (Cast.WHOLE, Cast.WHOLE)
    distance = max(abs(step.low), abs(step.high)) + max(abs(counted.low), abs(counted.high))
    if Cast.HIGH in casts or max(start.hi, most) + distance > (LOW if is_narrow else ALL) >> 1:
        return False
    is_even = counted.low == counted.high and step.low == step.high and abs(step.low) == 1
    if step.low > 0:
        is_met = is_even and start.hi + counted.high <= least
        return test.op in RISING and least >= 0 or test.op == "jne" and test.is_same and is_met
    is_signed = test.op.startswith("js") and (test.width == 32 or Cast.LOW not in casts)
    is_met = is_even and start.lo + counted.low >= most
    has_room = is_signed or least - distance >= 0
    return test.op in FALLING and has_room or test.op == "jne" and test.is_same and is_met


def _first_end(test: Test, start: int, step: int, added: int, bound: int) -> int | None:
    """How often the first block is come to until the test fails, by numbers that are known."""
    start, bound = test.counter.start.at(start), test.bound.at(bound)
    is_narrow = test.width == 32 or {test.counter.step.cast, test.counted.cast} != {Cast.WHOLE}
    goal = bound >> 32 if test.counted.cast is Cast.HIGH else bound
    distance = (goal - start - added) * (1 if step > 0 else -1) & (LOW if is_narrow else ALL)
    near = distance // abs(step)
    for rounds in sorted({0, 1, *(max(near + more, 0) for more in (-1, 0, 1, 2))}):
        found = test.counted.cast.of(test.counter.at(start, step, rounds) + added)
        mask = LOW if test.width == 32 else ALL
        if not HOLDS[test.op](found & mask, bound & mask, test.width):
            return rounds + 1
    return None


def range_in(counted: Counted, counter: Counter, rounds: int) -> Plain | None:
    """The range of a counted number in all rounds of a loop, where it stays within what its width has."""
    start, step = counter.start, counter.step
    if start.thing is not None or not _is_kept(counter):
        return None
    low = start.range.lo + min(step.low, 0) * rounds + counted.low
    high = start.range.hi + max(step.high, 0) * rounds + counted.high
    return Plain(Range(low, high, 0)) if 0 <= low and high <= LOW >> 1 else None
