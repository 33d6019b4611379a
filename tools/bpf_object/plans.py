"""How an access is done: in the frame, at a known byte of the map, or at an address that is tested first."""

from __future__ import annotations

from enum import Enum
from typing import NamedTuple

from .btf import SourceLine
from .code import Alu, Atomic, Load, Store
from .values import Held


class Where(Enum):
    """What an access leads to."""

    FRAME = "a place of the frame"
    EXACT = "a known byte of the map"
    FLAT = "an address that is a number"


class Plan(NamedTuple):
    """An access as it will be done."""

    where: Where
    at: int = 0  # the byte in the map, or the frame's byte from its top
    scale: int = 0  # the address times 2^scale is the byte in the map
    is_alone: bool = False  # an element of its own holds the value
    offset: int = 0  # added to the base
    is_moved: bool = False  # the offset is added to a copy of the base, which is tested
    low: int | None = None  # the least address in the base
    high: int | None = None
    align: int = 0  # what the address in the base is a multiple of
    byte: int | None = None  # the address's rest by 8, where it is known
    is_uneven: bool = False  # the address isn't a multiple of the size
    trap: int = 0
    bound_trap: int = 0


class Touch(NamedTuple):
    """An access with its plan."""

    insn: Load | Store | Atomic
    plan: Plan
    line: SourceLine | None = None
    is_cut: bool = False  # what is stored has no bits above its size
    is_native: bool = False  # the base is an address in the map, and no number
    held: tuple[Held, ...] = ()  # what is known of the registers behind it
    natives: int = 0  # the registers with addresses in the map that are no numbers, as bits
    was_sum: bool = False  # a load, an operation and a store, done at once


class Moved(NamedTuple):
    """A number added to an address in the map, and the sum where it is known."""

    insn: Alu
    number: int | None
    line: SourceLine | None = None
    is_native: bool = False


class LoopCall(NamedTuple):
    """A call of `bpf_loop` with a known callback."""

    function: int
    is_zero: bool  # ctx is left out, since the callback knows it
    line: SourceLine | None = None
