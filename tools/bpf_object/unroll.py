"""Copies a function's blocks along all its paths, so that no jump leads backwards, and plans each instruction.

A loop is copied round by round until nothing leads to another one, by what is known of the numbers that it counts.
Where a round limit is given, what would lead further is a trap. A lookup becomes a comparison and an address.
"""

from __future__ import annotations

from collections.abc import Sequence
from dataclasses import dataclass

from .access import Access, Planner
from .analysis import LOOP_LIMIT, Analysis, constant
from .code import FRAME, LOOKUP, RESULT, Alu, Atomic, Block, Branch, Call, End, Exit, Function, Goto, Load, Stop, Store
from .code import line_text
from .course import WITHIN, Course, Way
from .graph import Graph
from .loaded import Trap
from .ranges import OPPOSITE, Range, exact
from .refusal import Refused
from .values import EXACT_ZERO, Handle, Held, State, Value, join_states

TRIAL_ROUNDS = 2
Edge = tuple[int, str]  # a block, and the field of its end that has a label
Arrival = tuple[Edge, State]
Exits = list[tuple[int, Edge, State]]


Loop = tuple[int, int]  # a function's number, and the label of a loop's first block


class TooMany(Exception):
    """More instructions are copied than there is room for: the loop that went on, and the functions so far."""

    def __init__(self, loop: Loop | None, functions: Sequence[Function] = ()) -> None:
        super().__init__("too many instructions")
        self.loop = loop
        self.functions = [*functions]


@dataclass
class Limits:
    """How much is copied at most."""

    budget: int  # instructions of the whole program
    rounds: dict[Loop, int]  # of a loop; one that isn't here has all of its rounds copied
    is_trial: bool = False  # all loops have few rounds, and nothing is refused

    def longest(self, copied: dict[Loop, int]) -> Loop | None:
        """The loop with the most rounds, of those that have all of theirs copied."""
        found = [(rounds, loop) for loop, rounds in copied.items() if loop not in self.rounds and rounds > TRIAL_ROUNDS]
        return max(found)[1] if found else None


@dataclass
class _Open:
    """A loop that is being copied."""

    loop: Loop
    labels: frozenset[int]
    rounds: int = 0
    is_counted: bool = False  # in this round it was known that a way out isn't taken


class Unroller:
    """One function."""

    def __init__(self, analysis: Analysis, planner: Planner, function: Function, limits: Limits) -> None:
        self._analysis = analysis
        self._planner = planner
        self._source = function
        self._graph = Graph(function)
        self._limits = limits
        self._open: list[_Open] = []
        self._ways: list[Way] = []  # that the copied rounds go, where a loop is open that has all its rounds copied
        self._whole_loops = 0  # that are open
        self.cut: set[Loop] = set()
        self.counted: set[Loop] = set()  # those of them that surely have more rounds, or may by a known count
        self.endless: str | None = None  # why a loop never comes to its end
        self.copied: dict[Loop, int] = {}  # the most rounds of each loop
        self.spent: dict[Loop, int] = {}  # the instructions that all its rounds took
        self.result = Function(function.name, 0, {}, function.line)

    def run(self, entry: State) -> Function:
        """The copy, whose entry is its first block."""
        self.result.blocks[0] = Block([], Goto(-1, None))
        labels = frozenset(self._source.blocks)
        self._region(labels, {self._source.entry: [((0, "target"), entry)]}, None)
        return self.result

    def _region(self, labels: frozenset[int], incoming: dict[int, list[Arrival]], header: int | None) -> Exits:
        """Copies what the incoming edges lead to, and gives the edges that leave, or lead to the header."""
        exits: Exits = []
        for part in self._graph.parts(labels, header):
            if part.is_loop:
                entries = {label: incoming.pop(label) for label in part.labels & incoming.keys()}
                if not entries:
                    continue
                leaving = self._loop(part.labels, entries)
            elif part.first in incoming:
                leaving = self._copy(part.first, incoming.pop(part.first))
            else:
                continue
            for target, edge, state in leaving:
                if target in labels and target != header:
                    incoming.setdefault(target, []).append((edge, state))
                else:
                    exits.append((target, edge, state))
        return exits

    def _loop(self, labels: frozenset[int], incoming: dict[int, list[Arrival]]) -> Exits:
        header = min(incoming)
        loop = (self._analysis.number, header)
        limit = TRIAL_ROUNDS if self._limits.is_trial else self._limits.rounds.get(loop)
        exits: Exits = []
        this = _Open(loop, labels)
        self._open.append(this)
        course = Course()
        self._whole_loops += limit is None
        while incoming:
            if limit is not None and this.rounds >= limit:
                self._cut(header, incoming, limit, not exits)
                if this.is_counted:
                    self.counted.add(loop)
                break
            this.is_counted = False
            budget, ways = self._limits.budget, len(self._ways)
            again: list[Arrival] = []
            for target, edge, state in self._region(labels, incoming, header):
                if target == header:
                    again.append((edge, state))
                else:
                    exits.append((target, edge, state))
            incoming = {header: again} if again else {}
            this.rounds += 1
            if again and limit is None:
                course.end_round(budget - self._limits.budget, self._ways[ways:])
                more = course.rounds_within(self._limits.budget)  # as if they were copied: it surely goes on for longer
                this.rounds += more
                self._limits.budget -= more * course.size
        self._open.pop()
        self._whole_loops -= limit is None
        self.copied[loop] = max(self.copied.get(loop, 0), this.rounds)
        return exits

    def _cut(self, header: int, incoming: dict[int, list[Arrival]], rounds: int, is_always: bool) -> None:
        line = self._source.blocks[header].line
        if is_always:
            text = "a loop takes more rounds than 4096 slots have room for: make it a function that bpf_loop calls"
            self.endless = f"{line_text(line)}{text}"
        self.cut.add((self._analysis.number, header))
        trap = self._planner.traps.number(Trap(line, f"the loop goes on after {rounds} rounds"))
        label = self._new(Stop(trap, None, line))
        for arrivals in incoming.values():
            for edge, _ in arrivals:
                self._lead(edge, label)

    def _new(self, end: End) -> int:
        label = len(self.result.blocks)
        self.result.blocks[label] = Block([], end)
        return label

    def _lead(self, edge: Edge, label: int) -> None:
        block = self.result.blocks[edge[0]]
        block.end = block.end._replace(**{edge[1]: label})

    def _copy(self, label: int, arrivals: list[Arrival]) -> Exits:
        """Copies one block; each lookup in it parts the rest of the block into two copies."""
        first = self._new(Exit())
        for edge, _ in arrivals:
            self._lead(edge, first)
        states = [state for _, state in arrivals]
        self._take_differences(states)
        exits: Exits = []
        work = [(first, 0, join_states(states))]
        while work:
            target, index, state = work.pop()
            work += self._copy_rest(label, target, index, state, exits)
        return exits

    def _take_differences(self, states: list[State]) -> None:
        """Addresses in frames that aren't the same on all paths aren't followed further."""
        if len(states) < 2:
            return
        for held in zip(*(state.regs[:FRAME] for state in states)):
            self._take_where_different(held)
        if any(state.slots for state in states):
            for byte in {byte for state in states for byte in state.slots}:
                self._take_where_different([state.slots[byte][1] if byte in state.slots else None for state in states])

    def _take_where_different(self, held: Sequence[Held]) -> None:
        first = held[0]
        if all([value is first or value == first for value in held]):
            return
        for value in held:
            if isinstance(value, Value) and value.things and value.is_exact:
                for thing in value.real:
                    self._analysis.take(thing, value.range.lo)

    def _copy_rest(
        self, label: int, target: int, index: int, state: State, exits: Exits
    ) -> list[tuple[int, int, State]]:
        source = self._source.blocks[label]
        block = self.result.blocks[target]
        for at in range(index, len(source.insns)):
            insn = source.insns[at]
            if isinstance(insn, Alu):
                block.insns += self._analysis.alu(insn, state)
                continue
            if isinstance(insn, Call) and insn.helper == LOOKUP:
                return self._lookup(insn, target, at + 1, state)
            if self._whole_loops and isinstance(insn, (Load, Store, Atomic)):
                self._note_access(insn, state.regs[insn.base])
            done = self._analysis.step(insn, state)
            if done and isinstance(done[-1], Stop):
                block.insns += done[:-1]
                block.end = done[-1]
                return []
            block.insns += done
        self._count(len(block.insns))
        self._end(source.end, target, state, exits)
        return []

    def _count(self, insns: int) -> None:
        self._limits.budget -= insns + 1
        for one in self._open:
            self.spent[one.loop] = self.spent.get(one.loop, 0) + insns + 1
        if self._limits.budget < 0:
            unlimited = [(one.rounds, one.loop) for one in self._open if one.loop not in self._limits.rounds]
            raise TooMany(max(unlimited)[1] if unlimited else None)

    def _end(self, end: End, target: int, state: State, exits: Exits) -> None:
        block = self.result.blocks[target]
        if isinstance(end, Goto):
            block.end = end
            exits.append((end.target, (target, "target"), state))
        elif isinstance(end, Exit):
            self._exit(end, block, state)
        elif isinstance(end, Stop):
            trap = self._planner.traps.number(Trap(end.line, f"the loop goes on after {LOOP_LIMIT} rounds"))
            block.end = end._replace(trap=trap)
        elif isinstance(end, Branch):
            a, b = state.regs[end.dst], EXACT_ZERO if end.src is None else state.regs[end.src]
            taken, other = self._analysis.compare(end, state)
            if self._whole_loops:
                self._note_test(end, a, b, taken is not None, other is not None)
            if taken is None or other is None or end.taken == end.other:
                following = end.other if taken is None else end.taken
                if self._open and end.taken + end.other - following not in self._open[-1].labels:
                    self._open[-1].is_counted = True
                block.end = Goto(following, end.line)
                exits.append((following, (target, "target"), taken or other or state))
            else:
                block.end = end
                exits.append((end.taken, (target, "taken"), taken))
                exits.append((end.other, (target, "other"), other))

    def _note_test(self, end: Branch, a: Held, b: Held, is_taken: bool, is_other: bool) -> None:
        """Keeps what a branch compares, and where it can lead."""
        if not isinstance(a, Value) or not isinstance(b, Value):
            return
        operands = end.width, a.range, exact(end.imm) if end.src is None else b.range
        if is_taken:
            self._ways.append(Way(end.op, *operands))
        if is_other:
            self._ways.append(Way(OPPOSITE[end.op], *operands))

    def _note_access(self, insn: Access, base: Held) -> None:
        """Keeps an access, which is a trap where it leads outside the variables that it is of."""
        if not isinstance(base, Value) or not base.things or base.things != base.real:
            return
        spots = [self._planner.layout.spots.get(thing) for thing in base.real]
        if None in spots:
            return
        first = min([spot.address for spot in spots])
        last = max([spot.address + spot.size for spot in spots]) - insn.size
        bounds = Range(max(first - insn.offset, 0), max(last - insn.offset, 0), 0)
        self._ways.append(Way(WITHIN, 64, base.range, bounds))

    def _exit(self, end: Exit, block: Block, state: State) -> None:
        """A callback ends with 0 or 1, where all but 0 ends the loop."""
        value = self._analysis.value(RESULT, state, end)
        block.end = end
        if self._analysis.number and value.range.hi > 1:
            done, stopped = self._new(end), self._new(end)
            self.result.blocks[done].insns.append(constant(RESULT, 0, end.line))
            self.result.blocks[stopped].insns.append(constant(RESULT, 1, end.line))
            block.end = Branch("jeq", 64, RESULT, None, 0, done, stopped, end.line)

    def _lookup(self, insn: Call, target: int, index: int, state: State) -> list[tuple[int, int, State]]:
        held = state.regs[1]
        if not isinstance(held, Handle) or not held.is_map:
            raise Refused(f"{line_text(insn.line)}a lookup of a map that isn't one alone")
        thing = self._planner.memory.things[held.number]
        spot = self._planner.layout.spots[held.number]
        self._planner.facts.use((held.number,))
        block = self.result.blocks[target]
        done = self._analysis.step(Load(4, False, RESULT, 2, 0, insn.line), state)
        block.insns += done
        self._count(len(block.insns))
        if done and isinstance(done[-1], Stop):
            block.insns.pop()
            block.end = done[-1]
            return []
        state.regs[1:6] = [None] * 5
        key = self._analysis.value(RESULT, state, insn)
        if key.range.hi < thing.entries:
            return [self._found(insn, target, index, state, spot.stride, spot.address, held.number)]
        missing = self._new(Goto(-1))
        self.result.blocks[missing].insns.append(constant(RESULT, 0, insn.line))
        absent = state.copy()
        absent.regs[RESULT] = EXACT_ZERO
        if key.range.lo >= thing.entries:
            block.end = Goto(missing, insn.line)
            return [(missing, index, absent)]
        found = self._new(Goto(-1))
        test = Branch("jge", 64, RESULT, None, thing.entries, missing, found, insn.line)
        block.end = test
        inside = self._analysis.compare(test, state)[1] or state
        step = self._found(insn, found, index, inside, spot.stride, spot.address, held.number)
        return [(missing, index, absent), step]

    def _found(
        self, insn: Call, target: int, index: int, state: State, stride: int, address: int, thing: int
    ) -> tuple[int, int, State]:
        """The address of a value, from the key that r0 has."""
        log = stride.bit_length() - 1
        times = Alu("lsh", 64, RESULT, None, log, insn.line) if stride == 1 << log else None
        steps = [times or Alu("mul", 64, RESULT, None, stride, insn.line)]
        steps.append(Alu("add", 64, RESULT, None, address, insn.line))
        block = self.result.blocks[target]
        for step in steps:
            block.insns += self._analysis.step(step, state)
        held = state.regs[RESULT]
        state.regs[RESULT] = Value(held.range if isinstance(held, Value) else exact(0), frozenset((thing,)))
        return target, index, state
