"""Where each thing lies: one table from a thing's bytes to elements of the unit's one map, which all else uses.

Element 0 is never a thing's, so that no address is 0. An address is a number: that of the byte in the map. Where all
accesses of a thing have one size below 8, each value has an element of its own; then the address times the number of
elements in one is that of the byte in the map. Where the program computes addresses before the begin of a thing,
elements in front of it are left out, so that these are above 0 too.
"""

from __future__ import annotations

from collections.abc import Iterator
from dataclasses import dataclass

from .code import FRAME_BYTES
from .facts import Facts
from .maps import ELEMENTS_LIMIT
from .memory import ARGUMENT, ELEMENT_BYTES, FLAG, FLAG_WORDS, UNKNOWN, Kind, Memory, Thing
from .refusal import Refused
from .variables import Piece, Variable

FRAMES_AT = 1 << 21  # addresses of frames that aren't in the map
SCALES = {1: 3, 2: 2, 4: 1, 8: 0}  # by the bytes of values that an element holds


@dataclass(frozen=True)
class Spot:
    """A thing's place."""

    thing: int
    address: int  # of its first byte; all addresses in it follow
    size: int
    element: int = 0  # of its byte `low`, where it is in the map
    low: int = 0  # the first byte in the map
    scale: int = 0  # the address times 2^scale is the byte in the map
    stride: int = 0  # of a map: bytes from one value to the next
    is_native: bool = False  # a frame that isn't in the map, but for bytes from `low` on

    def byte_in_map(self, byte: int, size: int) -> int | None:
        """The byte in the map of one of its bytes, where the access of a size there is taken."""
        if self.scale:
            unit = ELEMENT_BYTES >> self.scale
            if size != unit or byte % unit:
                return None
            return self.element * ELEMENT_BYTES + (byte << self.scale)
        return self.element * ELEMENT_BYTES + byte - self.low


class Layout:
    """The places of all things."""

    def __init__(self, memory: Memory, facts: Facts, spread: set[int]) -> None:
        self._memory = memory
        self._facts = facts
        self._spread = spread
        self.elements = 0
        self.spots: dict[int, Spot] = {}
        self._frames = 0
        for thing in sorted(memory.things, key=lambda thing: thing.kind == Kind.FRAME):
            if thing.kind not in (Kind.UNKNOWN, Kind.ARGUMENT) and self._is_needed(thing):
                self.spots[thing.number] = self._frame(thing) if thing.kind == Kind.FRAME else self._spot(thing)
        if self.elements > ELEMENTS_LIMIT:
            raise Refused(f"the program's variables take {self.elements} elements, of at most {ELEMENTS_LIMIT}")

    def _is_needed(self, thing: Thing) -> bool:
        return thing.kind not in (Kind.GAP, Kind.HIDDEN) or thing.number in self._facts.used or thing.number == FLAG

    def _spot(self, thing: Thing) -> Spot:
        group = self._facts.group(thing.number)
        sizes = self._facts.sizes.get(thing.number, set())
        unit = min(sizes) if group in self._spread and sizes else ELEMENT_BYTES
        stride = -(-thing.value_size // unit) * unit
        size = thing.entries * stride or thing.size
        self._leave_room(thing, unit)
        element = self._take(-(-size // unit))
        return Spot(thing.number, element * unit, size, element, scale=SCALES[unit], stride=stride)

    def _frame(self, thing: Thing) -> Spot:
        if thing.number not in self._facts.moved:
            self._frames += 1
            address = FRAMES_AT + self._frames * 2 * FRAME_BYTES
            return Spot(thing.number, address, thing.size, low=thing.size, is_native=True)
        low = self._facts.taken.get(thing.number, 0)
        self.elements = max(self.elements, low // ELEMENT_BYTES)
        self._leave_room(thing, ELEMENT_BYTES)
        element = self._take((thing.size - low) // ELEMENT_BYTES)
        return Spot(thing.number, element * ELEMENT_BYTES - low, thing.size, element, low, is_native=True)

    def _leave_room(self, thing: Thing, unit: int) -> None:
        self.elements = max(self.elements, -(-self._facts.room.get(thing.number, 0) // unit))

    def _take(self, elements: int) -> int:
        first = self.elements
        self.elements += elements
        return first

    def is_as(self, other: Layout) -> bool:
        """Whether all things lie as in another layout."""
        return self.elements == other.elements and self.spots == other.spots

    def initial(self) -> list[int]:
        """The elements' values at the begin."""
        words = [0] * self.elements
        for thing in self._memory.things:
            if thing.data and thing.number in self.spots:
                data = bytearray(thing.data)
                for byte, (target, within) in thing.pointers.items():
                    address = self.spots[target].address + within
                    data[byte : byte + ELEMENT_BYTES] = address.to_bytes(ELEMENT_BYTES, "little")
                self.variable(thing).put(words, bytes(data))
        return words

    def variable(self, thing: Thing) -> Variable:
        """A thing as its user sees it; a map's values follow one another."""
        pieces = tuple(self._pieces(thing, self.spots[thing.number]))
        size = thing.entries * thing.value_size if thing.entries else thing.size
        btf = self._memory.btf
        return Variable(thing.name, thing.section, thing.type, size, pieces, btf, thing.entries, thing.value_size)

    def _pieces(self, thing: Thing, spot: Spot) -> Iterator[Piece]:
        unit = ELEMENT_BYTES >> spot.scale
        if not thing.entries or spot.stride == thing.value_size:
            yield Piece(0, thing.entries * thing.value_size or thing.size, spot.element, unit)
            return
        for entry in range(thing.entries):
            element = spot.element + entry * spot.stride // unit
            yield Piece(entry * thing.value_size, thing.value_size, element, unit)

    def variables(self) -> list[Variable]:
        """The global variables and the maps, in the order of the object."""
        shown = (Kind.GLOBAL, Kind.MAP)
        return [self.variable(thing) for thing in self._memory.things if thing.kind in shown]


def spread_groups(memory: Memory, facts: Facts, taken_sizes: set[int]) -> set[int]:
    """The groups of things whose accesses have one of some sizes below 8, as many as there are elements for."""
    members: dict[int, list[Thing]] = {}
    for thing in memory.things:
        if thing.number not in (UNKNOWN, ARGUMENT, FLAG):
            members.setdefault(facts.group(thing.number), []).append(thing)
    found = {group: things for group, things in members.items() if _is_spread(things, facts, taken_sizes)}
    taken = FLAG_WORDS + sum(-(-thing.size // ELEMENT_BYTES) for thing in memory.things)
    chosen: set[int] = set()
    for group, things in sorted(found.items(), key=lambda item: sum(thing.size for thing in item[1])):
        unit = min(min(facts.sizes[thing.number]) for thing in things if thing.number in facts.sizes)
        taken += sum(-(-thing.size // unit) for thing in things)
        if taken > ELEMENTS_LIMIT:
            break
        chosen.add(group)
    return chosen


def _is_spread(things: list[Thing], facts: Facts, taken_sizes: set[int]) -> bool:
    sizes: set[int] = set()
    for thing in things:
        number = thing.number
        if thing.kind == Kind.FRAME or thing.pointers or number in facts.escaped or number in facts.uneven:
            return False
        sizes |= facts.sizes.get(number, set())
    return len(sizes) == 1 and sizes <= taken_sizes
