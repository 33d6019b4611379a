"""What a program does with the addresses of things, which decides how they are laid out. Facts only grow."""

from __future__ import annotations

from collections.abc import Iterable
from dataclasses import dataclass, field

from .values import VAGUE, Things

Followed = tuple[frozenset, ...]


@dataclass
class Facts:
    """What is met of the things of a program in all its paths."""

    escaped: set[int] = field(default_factory=set)  # whose address is stored somewhere
    moved: set[int] = field(default_factory=set)  # frames that have to lie in the map
    taken: dict[int, int] = field(default_factory=dict)  # of a frame the lowest byte whose address leads further
    room: dict[int, int] = field(default_factory=dict)  # the least address of a thing, so that none is below 0
    used: set[int] = field(default_factory=set)
    sizes: dict[int, set[int]] = field(default_factory=dict)  # of the accesses of a thing
    uneven: set[int] = field(default_factory=set)  # things with an access that isn't at a multiple of its size
    varied: set[int] = field(default_factory=set)  # things with an access at an address that isn't one alone
    hidden: set[int] = field(default_factory=set)  # callbacks that are given several ctx
    undefined: set[tuple[int, int]] = field(default_factory=set)  # a function, and a register that is read unwritten
    unwritten: set[tuple[int, int]] = field(default_factory=set)  # a function, and 8 bytes of its frame likewise
    _groups: dict[int, int] = field(default_factory=dict)

    def forget(self, functions: set[int], things: set[int]) -> None:
        """Functions are other ones now, and things are gone."""
        self.hidden -= functions
        self.undefined = {fact for fact in self.undefined if fact[0] not in functions}
        self.unwritten = {fact for fact in self.unwritten if fact[0] not in functions}
        for known in (self.escaped, self.moved, self.used):
            known -= things

    def followed(self) -> Followed:
        """The facts that change how a program is followed, where its layout is the same."""
        sets = (self.escaped, self.undefined, self.unwritten, self.hidden)
        return tuple(frozenset(known) for known in sets)

    def escape(self, things: Things) -> None:
        """An address in these things is stored where it isn't followed."""
        self.escaped |= things - VAGUE

    def move(self, frame: int) -> None:
        """A frame is needed in the map."""
        self.moved.add(frame)

    def use(self, things: Iterable[int]) -> None:
        """Things that have to have a place."""
        self.used.update(things)

    def take(self, frame: int, byte: int) -> None:
        """The address of a byte of a frame leads where it isn't followed."""
        byte = max(0, byte) // 8 * 8
        self.taken[frame] = min(byte, self.taken.get(frame, byte))

    def keep_room(self, things: Iterable[int], size: int) -> None:
        """Addresses of so many bytes below these things are computed."""
        for thing in things:
            self.room[thing] = max(size, self.room.get(thing, 0))

    def access(self, things: Iterable[int], size: int, is_even: bool, is_varied: bool) -> None:
        """An access of some bytes, at an address that may not be one alone."""
        for thing in things:
            self.sizes.setdefault(thing, set()).add(size)
            if not is_even:
                self.uneven.add(thing)
            if is_varied:
                self.varied.add(thing)

    def hide(self, callback: int) -> None:
        """A callback is given several ctx."""
        self.hidden.add(callback)

    def leave_undefined(self, function: int, register: int) -> None:
        """A register is read before it is written."""
        self.undefined.add((function, register))

    def leave_unwritten(self, function: int, byte: int) -> None:
        """A byte of a frame is read before it is written."""
        self.unwritten.add((function, byte // 8 * 8))

    def together(self, things: Iterable[int]) -> None:
        """One instruction may be led to any of these things, or compares their addresses."""
        roots = sorted({self.group(thing) for thing in things})
        for root in roots[1:]:
            self._groups[root] = roots[0]

    def group(self, thing: int) -> int:
        """A thing that stands for all of its group."""
        while thing in self._groups:
            thing = self._groups[thing]
        return thing
