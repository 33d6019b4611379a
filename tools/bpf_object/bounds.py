"""Finds how many rounds the loops of a function have at most, where a counter and a test tell it.

The blocks are followed once, in an order in which only jumps back to a loop's first block are left out. What a loop
writes is a counted number where a round begins; so what it holds at the round's end tells by how much it rises.
"""

from __future__ import annotations

from typing import NamedTuple

from .code import FRAME, FRAME_BYTES, LOOKUP, LOOP, Address, Alu, Atomic, Block, Branch, Call, Function, Insn, Load
from .code import Number, Store, backward, finished, loop_of, order_of, reads, successors, writes
from .counted import ANY, Counted, Known, Place, Plain, Slot, combine, cut, join_known, number
from .counted import Counter, Test, range_in, trips
from .inline import live_in_of
from .live import live_after
from .ranges import OPPOSITE, TOP, exact, refine, top

FRAME_THING = -1  # the frame, as what an address is in
MOST_ROUNDS = 1 << 23  # more aren't told apart from those that aren't known

Visits = dict[int, int]  # how often first blocks of loops are come to at most, by their labels, where that is known
State = dict[Place, Known]
KEY = 2  # the register with the address of a lookup's key, which isn't written


class Way(NamedTuple):
    """A way out of a loop: a comparison that is done in each round, and goes on where it holds."""

    op: str
    width: int
    a: Known
    b: Known
    is_same: bool  # b is one number in all rounds


class LoopFacts:
    """What is found of one loop."""

    def __init__(self, labels: set[int]) -> None:
        self.labels = labels
        self.before: State = {}
        self.ends: list[State] = []
        self.ways: list[Way] = []
        self.rounds: int | None = None
        self.is_open = True  # its rounds aren't found yet


class Bounds:
    """The loops of a function, by their first blocks."""

    def __init__(self, function: Function) -> None:
        self._function = function
        self._order = order_of(function)
        self._place = {label: at for at, label in enumerate(self._order)}
        self._lowest = lowest_taken(function)
        self.loops = {header: LoopFacts(labels) for header, labels in self._find().items()}
        self._arriving: dict[int, list[State]] = {function.entry: [{}]}
        for label in self._order:
            self._follow(label)

    def rounds(self, header: int) -> int | None:
        """How often a loop's first block is come to, at most, each time that the loop begins."""
        loop = self.loops.get(header)
        if loop is None:
            return None
        if loop.is_open:
            loop.is_open = False
            found = [trips(test) for way in loop.ways for test in self._tests(header, way)]
            known = [rounds for rounds in found if rounds is not None and rounds <= MOST_ROUNDS]
            loop.rounds = min(known, default=None)
        return loop.rounds

    def visits(self, outer: int) -> Visits:
        """How often the first blocks of a loop and of those in it are come to, at most, where that is known."""
        found: Visits = {}
        for header in self.loops[outer].labels & self.loops.keys() if outer in self.loops else ():
            product: int | None = 1
            for other, loop in self.loops.items():
                if header in loop.labels and other in self.loops[outer].labels:
                    rounds = self.rounds(other)
                    product = product * rounds if product is not None and rounds is not None else None
            if product is not None:
                found[header] = product
        return found

    def _find(self) -> dict[int, set[int]]:
        """The blocks of each loop; nothing where one is entered by another block than its first."""
        headers = {header for _, header in backward(self._function)}
        found = {header: loop_of(self._function, header) for header in self._order if header in headers}
        places = ((self._place[header], self._place[label]) for header, labels in found.items() for label in labels)
        return {} if any(inside < first for first, inside in places) else found

    def _follow(self, label: int) -> None:
        state = _join(self._arriving.pop(label, []))
        if state is None:
            return
        if label in self.loops:
            self.loops[label].before = dict(state)
            self._begin_round(label, state)
        block = self._function.blocks[label]
        for insn in block.insns:
            self._step(insn, state)
        if isinstance(block.end, Branch):
            self._branch(label, block.end, state)
        else:
            for following in successors(block.end):
                self._lead(label, following, dict(state))

    def _begin_round(self, header: int, state: State) -> None:
        for place in self._written(self.loops[header].labels, state):
            state[place] = Counted(header, place)

    def _written(self, labels: set[int], state: State) -> set[Place]:
        """The places that some blocks write, of the registers and of what a state knows."""
        insns = [insn for label in labels for insn in self._function.blocks[label].insns]
        written: set[Place] = {register for insn in insns for register in writes(insn)}
        return written | {place for place in state for insn in insns if _is_written(place, insn)}

    def _step(self, insn: Insn, state: State) -> None:
        if isinstance(insn, Alu):
            state[insn.dst] = self._result(insn, state)
        elif isinstance(insn, Number):
            state[insn.dst] = number(insn.value)
        elif isinstance(insn, Address):
            state[insn.dst] = Plain(exact(insn.offset), insn.thing)
        elif isinstance(insn, Load):
            known = Plain(TOP if insn.signed else top(insn.size * 8))
            is_slot = insn.base == FRAME and not insn.signed
            state[insn.dst] = state.get(Slot(insn.offset, insn.size), known) if is_slot else known
        else:
            for register in writes(insn):
                state[register] = ANY
            self._write_frame(insn, state)

    def _result(self, insn: Alu, state: State) -> Known:
        b = number(insn.imm) if insn.src is None else _held(insn.src, state)
        if insn.op in ("sub", "xor") and insn.src == insn.dst:
            return number(0)
        return combine(insn.op, insn.width, _held(insn.dst, state), b)

    def _write_frame(self, insn: Insn, state: State) -> None:
        for place in [place for place in state if _is_written(place, insn)]:
            del state[place]
        is_store = isinstance(insn, Store) and insn.base == FRAME and insn.size >= 4
        if is_store and insn.offset + insn.size <= self._lowest:
            stored = number(insn.imm) if insn.src is None else _held(insn.src, state)
            state[Slot(insn.offset, insn.size)] = stored if insn.size == 8 else cut(stored)

    def _branch(self, label: int, end: Branch, state: State) -> None:
        a, b = _held(end.dst, state), number(end.imm) if end.src is None else _held(end.src, state)
        for op, following, other in ((end.op, end.taken, end.other), (OPPOSITE[end.op], end.other, end.taken)):
            self._note_way(label, end, op, following, other, a, b)
            changed = dict(state)
            if isinstance(a, Plain) and isinstance(b, Plain) and a.thing is b.thing is None:
                found = refine(op, end.width, a.range, b.range)
                if found is None:
                    continue
                changed[end.dst] = Plain(found[0])
                if end.src is not None:
                    changed[end.src] = Plain(found[1])
            self._lead(label, following, changed)

    def _note_way(self, label: int, end: Branch, op: str, following: int, other: int, a: Known, b: Known) -> None:
        """A test belongs to each loop that it may end, where each round comes to it."""
        for header, loop in self.loops.items():
            if label in loop.labels and other not in loop.labels and self._is_in_each_round(label, header):
                written = self._written(loop.labels, {})
                loop.ways.append(Way(op, end.width, a, b, end.src is None or end.src not in written))
                if end.src is not None:
                    loop.ways.append(Way(SWAPPED.get(op, op), end.width, b, a, end.dst not in written))

    def _is_in_each_round(self, label: int, header: int) -> bool:
        """Whether all ways through a loop lead over a block of it."""
        if header == label:
            return True
        labels, blocks = self.loops[header].labels, self._function.blocks
        others = finished(header, lambda at: labels.intersection(successors(blocks[at].end)), {label})
        return all(header not in successors(blocks[at].end) for at in others)

    def _lead(self, label: int, following: int, state: State) -> None:
        if self._place[following] > self._place[label]:
            self._arriving.setdefault(following, []).append(state)
        elif following in self.loops:
            self.loops[following].ends.append(state)

    def _tests(self, header: int, way: Way) -> list[Test]:
        """A way out as a counter's test, where its number is counted in the loop itself."""
        a = way.a
        if not isinstance(a, Counted) or a.loop != header:
            return []
        counter = self._counter(a)
        bound = self._plain(way.b)
        return [Test(way.op, way.width, a, counter, bound, way.is_same)] if counter and bound else []

    def _counter(self, counted: Counted) -> Counter | None:
        """What a counted number is where its loop begins, and by how much it rises."""
        loop = self.loops[counted.loop]
        start = self._plain(loop.before.get(counted.place, ANY))
        ends = [state.get(counted.place, ANY) for state in loop.ends]
        step = ends[0] if ends else ANY
        for end in ends[1:]:
            step = join_known(step, end)
        if start is None or not isinstance(step, Counted):
            return None
        is_own = (step.loop, step.place) == (counted.loop, counted.place)
        return Counter(start, step) if is_own else None

    def _plain(self, known: Known) -> Plain | None:
        """The range of a number, by the rounds of the loop that counts it where it is counted."""
        if isinstance(known, Plain):
            return known
        rounds = self.rounds(known.loop)
        counter = self._counter(known) if rounds else None
        return range_in(known, counter, rounds) if counter and rounds else None


SWAPPED = {"jlt": "jgt", "jgt": "jlt", "jle": "jge", "jge": "jle"}
SWAPPED.update({"jslt": "jsgt", "jsgt": "jslt", "jsle": "jsge", "jsge": "jsle"})


def _held(register: int, state: State) -> Known:
    return Plain(exact(0), FRAME_THING) if register == FRAME else state.get(register, ANY)


def _is_written(place: Place, insn: Insn) -> bool:
    """Whether an instruction writes to a place of the frame; a loop call may write all of it."""
    if not isinstance(place, Slot) or not isinstance(insn, (Store, Atomic)):
        return isinstance(place, Slot) and isinstance(insn, Call) and insn.helper == LOOP
    return insn.base == FRAME and place.offset < insn.offset + insn.size and insn.offset < place.offset + place.size


def _join(states: list[State]) -> State | None:
    """What is known where paths meet."""
    if not states:
        return None
    joined = states[0]
    for state in states[1:]:
        joined = {place: join_known(known, state[place]) for place, known in joined.items() if place in state}
    return joined


def lowest_taken(function: Function) -> int:
    """The lowest byte whose address may lead to a store, counted from the frame's end; those below are safe."""
    live_in = live_in_of(function)
    return min((_lowest_in(block, live_in) for block in function.blocks.values()), default=0)


def _lowest_in(block: Block, live_in: dict[int, int]) -> int:
    lowest = 0
    held: dict[int, int] = {}  # the registers with an address in the frame, and its byte
    for insn in block.insns:
        used = [register for register in _leading_on(insn) if register in held or register == FRAME]
        lowest = min([lowest, *(held.get(register, -FRAME_BYTES) for register in used)])
        sums = _sum_of(insn, held)
        for register in writes(insn):
            held.pop(register, None)
        held.update(sums)
    read = live_after(block, live_in)
    return min([lowest, *(byte for register, byte in held.items() if read >> register & 1)])


def _leading_on(insn: Insn) -> tuple[int, ...]:
    """The registers that an instruction reads, without those whose address it only makes another of or loads from."""
    is_sum = isinstance(insn, Alu) and insn.width == 64 and (insn.op == "mov" or insn.op == "add" and insn.src is None)
    if is_sum or isinstance(insn, Load):
        return ()
    if isinstance(insn, (Store, Atomic)) and insn.base == FRAME:
        return reads(insn)[1:]
    if isinstance(insn, Call) and insn.helper == LOOKUP:
        return tuple(register for register in reads(insn) if register != KEY)
    return reads(insn)


def _sum_of(insn: Insn, held: dict[int, int]) -> dict[int, int]:
    """The register with an address in the frame that an instruction makes, if it does."""
    if not isinstance(insn, Alu):
        return {}
    if insn.op == "mov" and insn.src is not None and (insn.src == FRAME or insn.src in held):
        return {insn.dst: held.get(insn.src, 0)}
    return {insn.dst: held[insn.dst] + insn.imm} if insn.op == "add" and insn.dst in held else {}
