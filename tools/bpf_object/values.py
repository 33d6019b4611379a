"""What is known of registers and of a frame at a place of a program: numbers, and whose addresses they are."""

from __future__ import annotations

from functools import reduce
from typing import NamedTuple, Optional, Union

from .memory import ARGUMENT, UNKNOWN
from .ranges import TOP, Range, alu, exact, join, top

Things = frozenset[int]
NOTHING: Things = frozenset()
VAGUE: Things = frozenset({UNKNOWN, ARGUMENT})  # that a number may be an address of, or not


class Value(NamedTuple):
    """A number, and the things that it may be an address in."""

    range: Range
    things: Things = NOTHING

    @property
    def is_exact(self) -> bool:
        return self.range.lo == self.range.hi

    @property
    def real(self) -> Things:
        """The things that it is surely derived from."""
        return self.things - VAGUE if self.things else NOTHING


class Handle(NamedTuple):
    """A map or a function, which is no number."""

    is_map: bool
    number: int


Held = Optional[Union[Value, Handle]]
Slot = tuple[int, Value]  # bytes, and what they hold

ANY = Value(TOP)
LOADED: Things = frozenset({UNKNOWN})


class State:
    """What is known before an instruction."""

    __slots__ = ("regs", "slots", "written")

    def __init__(self, regs: list[Held], slots: dict[int, Slot], written: int) -> None:
        self.regs = regs
        self.slots = slots  # by their first byte in the frame
        self.written = written  # a bit for each byte of the frame

    def copy(self) -> State:
        """The same, to be changed."""
        return State(self.regs[:], self.slots.copy(), self.written)

    def store(self, byte: int, size: int, value: Value | None) -> None:
        """Bytes of the frame are written."""
        for first in [first for first, (s, _) in self.slots.items() if first < byte + size and byte < first + s]:
            del self.slots[first]
        if value is not None:
            self.slots[byte] = (size, cut(value, size))
        self.written |= ((1 << size) - 1) << byte

    def load(self, byte: int, size: int) -> Value:
        """What bytes of the frame hold."""
        found = self.slots.get(byte)
        if found and found[0] == size:
            return found[1]
        return Value(top(size * 8), LOADED)

    def is_written(self, byte: int, size: int) -> bool:
        """Whether all of some bytes of the frame were written."""
        mask = ((1 << size) - 1) << byte
        return self.written & mask == mask


def cut(value: Value, size: int) -> Value:
    """What some low bytes of a number are."""
    if size == 8 or value.range.hi < 1 << (8 * size):
        return value
    if value.is_exact:
        return Value(exact(value.range.lo & ((1 << (8 * size)) - 1)), value.things)
    return Value(top(8 * size))


def join_held(a: Held, b: Held) -> Held:
    """What a register holds where two paths meet."""
    if a == b:
        return a
    if isinstance(a, Value) and isinstance(b, Value):
        return Value(join(a.range, b.range), a.things | b.things)
    return None


def result(op: str, width: int, a: Value, b: Value) -> Value:
    """What an arithmetic instruction gives of two numbers."""
    return Value(alu(op, width, a.range, b.range), things_of(op, a, b))


def things_of(op: str, a: Value, b: Value) -> Things:
    """The things that a result may be an address in."""
    if op.startswith("mov"):
        return b.things
    if not a.things and not b.things:
        return NOTHING
    if op == "sub":
        if b.real:
            return NOTHING  # a distance
        return a.things if a.real else a.things | b.things
    if op in ("add", "and", "or", "xor"):
        if a.real and not b.real:
            return a.things
        return b.things if b.real and not a.real else a.things | b.things
    return a.things if op in ("lsh", "rsh", "arsh") else NOTHING


def join_states(states: list[State]) -> State:
    """What is known where paths meet; a state that is alone is changed further on."""
    if len(states) == 1:
        return states[0]
    first = states[0]
    regs = first.regs[:]
    written = first.written
    for state in states[1:]:
        for at in range(10):
            if regs[at] is not state.regs[at]:
                regs[at] = join_held(regs[at], state.regs[at])
        written &= state.written
    places = sorted({byte for state in states for byte in state.slots})
    slots = {byte: slot for byte in places for slot in [_join_slots(byte, states)] if slot}
    return State(regs, slots, written)


def _join_slots(byte: int, states: list[State]) -> Slot | None:
    """What 8 or fewer bytes of the frame hold; an address that is there on some paths isn't forgotten."""
    found = [state.slots.get(byte) for state in states]
    first = found[0]
    if all(slot is first or slot == first for slot in found):
        return first
    known = [slot for slot in found if slot is not None]
    sizes = {size for size, _ in known}
    things = frozenset().union(*(value.things for _, value in known))
    if len(known) == len(found) and len(sizes) == 1:
        ranges = [value.range for _, value in known]
        return known[0][0], Value(reduce(join, ranges), things)
    real = [slot for slot in known if slot[1].real]
    return (real[0][0], Value(top(8 * real[0][0]), things | LOADED)) if real else None


EXACT_ZERO = Value(exact(0))
