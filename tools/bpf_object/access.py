"""Plans each access: where it leads, and what has to be tested before."""

from __future__ import annotations

from collections.abc import Iterable
from typing import Union

from .btf import SourceLine
from .btf import Kind as TypeKind
from .code import FRAME_BYTES, Atomic, Load, Stop, Store, line_text
from .facts import Facts
from .layout import Layout, Spot
from .loaded import Trap
from .memory import ARGUMENT, ELEMENT_BYTES, UNKNOWN, Kind, Memory, Thing
from .plans import Plan, Where
from .ranges import ALL, Range, alu, exact, norm
from .refusal import Refused
from .values import State, Value

Access = Union[Load, Store, Atomic]


class Traps:
    """The traps of a unit, by their numbers from 1."""

    def __init__(self) -> None:
        self._numbers: dict[Trap, int] = {}

    @property
    def all(self) -> list[Trap]:
        """The traps in the order of their numbers."""
        return [*self._numbers]

    def number(self, trap: Trap) -> int:
        """The number of a trap; equal ones have one."""
        return self._numbers.setdefault(trap, len(self._numbers) + 1)


class Planner:
    """Plans the accesses of a program by what is known of its registers."""

    def __init__(self, memory: Memory, layout: Layout, facts: Facts, traps: Traps) -> None:
        self.memory = memory
        self.layout = layout
        self.facts = facts
        self.traps = traps

    def plan(self, insn: Access, state: State, frame: Thing) -> Plan | Stop:
        """The plan of an access by a function that has a frame; what the tests tell is put into the state."""
        base = state.regs[insn.base]
        if not isinstance(base, Value):
            if base is None:
                raise Refused(f"{line_text(insn.line)}an access through r{insn.base}, which has no value there")
            raise Refused(f"{line_text(insn.line)}a map or a function is accessed as if it were a variable")
        self.facts.use(base.real)
        if base.is_exact:
            return self._exact(insn, base, frame)
        return self._flat(insn, base, state)

    def _things(self, base: Value, line: SourceLine | None) -> list[Thing]:
        """The things that an address may lead to."""
        found = set(base.real)
        if not found and ARGUMENT in base.things:
            raise Refused(f"{line_text(line)}what main's argument leads to is accessed: there is no packet or context")
        if not found or UNKNOWN in base.things:
            found |= self.facts.escaped
        return [self.memory.things[number] for number in sorted(found)]

    def _exact(self, insn: Access, base: Value, frame: Thing) -> Plan | Stop:
        address = (base.range.lo + insn.offset) & ALL
        things = self._things(base, insn.line)
        for thing in things:
            spot = self.layout.spots.get(thing.number)
            byte = (address - spot.address) & ALL if spot else ALL
            if spot and byte + insn.size <= spot.size:
                return self._exact_in(insn, thing, spot, byte, frame)
        text = f"an access outside {names(things)}" if things else "an access of an address that is no variable's"
        number = base.range.lo + insn.offset
        if number < ELEMENT_BYTES * 2:
            text = "an access of an address that is 0"
        return self._stop(insn, text)

    def _stop(self, insn: Access, text: str) -> Stop:
        return Stop(self.traps.number(Trap(insn.line, text)), None, insn.line)

    def _exact_in(self, insn: Access, thing: Thing, spot: Spot, byte: int, frame: Thing) -> Plan | Stop:
        is_even = byte % insn.size == 0
        if spot.is_native and byte < spot.low:
            if thing is frame and is_even:
                return Plan(Where.FRAME, byte - FRAME_BYTES)
            self.facts.move(thing.number)
            self.facts.take(thing.number, byte)
        self.facts.access((thing.number,), insn.size, is_even, False)
        at = spot.byte_in_map(byte, insn.size)
        if at is None or not is_even and isinstance(insn, Atomic):
            return self._stop(insn, f"an access of {thing.name} that isn't at a multiple of its size")
        return Plan(Where.EXACT, at, spot.scale, bool(spot.scale))

    def _flat(self, insn: Access, base: Value, state: State) -> Plan | Stop:
        things = self._things(base, insn.line)
        if not things:
            return self._stop(insn, "an access of an address that is no variable's")
        self.facts.together(thing.number for thing in things)
        for thing in things:
            if thing.kind == Kind.FRAME:
                self.facts.move(thing.number)
        self.facts.access([thing.number for thing in things], insn.size, True, True)
        spots = [self.layout.spots[thing.number] for thing in things if thing.number in self.layout.spots]
        if len(spots) < len(things) or len({spot.scale for spot in spots}) > 1:
            return self._stop(insn, "an access that isn't laid out")  # of a round that isn't the last
        return self._tested(insn, base, things, spots, state)

    def _tested(self, insn: Access, base: Value, things: list[Thing], spots: list[Spot], state: State) -> Plan | Stop:
        known, size, scale, offset = base.range, insn.size, spots[0].scale, insn.offset
        least = min(spot.address + min(spot.low, spot.size) for spot in spots)
        most = max(spot.address + spot.size for spot in spots) - size
        log = size.bit_length() - 1
        is_uneven = known.z >= 3 and bool((known.lo + offset) % size)
        is_moved = bool(offset % size) and not is_uneven
        if is_uneven:
            self.facts.access([thing.number for thing in things], size, False, True)
        if is_uneven and (scale or isinstance(insn, Atomic)):
            return self._stop(insn, f"an access of {names(things)} that isn't at a multiple of its size")
        if is_moved:
            known, offset = moved(known, offset), 0
        if known.hi + offset > ALL:
            self.facts.keep_room([thing.number for thing in things], offset)
        low = least - offset if known.lo + offset < least else None
        high = most - offset if known.hi + offset > most else None
        align = size if known.z < log else 0
        if known.lo > most - offset or known.hi < least - offset:
            return self._stop(insn, f"an access outside {names(things)}")
        lo = max(known.lo, low) if low is not None else known.lo
        hi = min(known.hi, high) if high is not None else known.hi
        tested = norm(lo, hi, max(known.z, log))
        if not is_moved:
            state.regs[insn.base] = Value(tested, base.things)
        byte = (tested.lo + offset) % ELEMENT_BYTES if tested.z >= 3 else None
        trap = self._trap(insn, things, spots, offset, names(things)) if low is not None or high is not None else 0
        uneven = self.traps.number(Trap(insn.line, f"an access of {names(things)} that isn't aligned")) if align else 0
        place = (Where.FLAT, 0, scale, bool(scale), offset, is_moved)
        return Plan(*place, low, high, align, byte, is_uneven, uneven, trap)

    def _trap(self, insn: Access, things: list[Thing], spots: list[Spot], offset: int, name: str) -> int:
        text = f"an access outside {name}"
        if len(things) != 1 or things[0].kind not in (Kind.GLOBAL, Kind.MAP):
            return self.traps.number(Trap(insn.line, text))
        size, count = self._element(things[0], spots[0])
        return self.traps.number(Trap(insn.line, text, name, spots[0].address - offset, size, count))

    def _element(self, thing: Thing, spot: Spot) -> tuple[int, int]:
        """The bytes from one element of an array to the next, and how many there are."""
        if thing.entries:
            return spot.stride, thing.entries
        btf = self.memory.btf
        if btf and thing.type and thing.type.kind == TypeKind.ARRAY:
            element, count = btf.element(thing.type)
            return btf.size(element), count
        return 0, 0


def names(things: Iterable[Thing]) -> str:
    """What the user calls these things."""
    found = {thing.name if thing.kind in (Kind.GLOBAL, Kind.MAP) else "a local variable" for thing in things}
    return " and ".join(sorted(found))


def moved(known: Range, offset: int) -> Range:
    """The range of a number and an offset, added as the emitted code does it."""
    return alu("add", 64, known, exact(offset)) if offset >= 0 else alu("sub", 64, known, exact(-offset))
