"""What is known of a unit up to its fault: its edges, the abstract values before slots and on edges, and the sources of
registers. All tables are of one forward pass: edges lead to later slots alone.

    flow = Flow(facts, page)         # the page shows where an instruction is
    flow.insns[8]                    # the instruction that starts at slot 8, parsed
    flow.into[2]                     # [0, 1]: the slots from which edges lead to slot 2, rising
    flow.before(8, 3)                # the abstract value of r3 before slot 8
    flow.before(2, 0, origin=1)      # the abstract value of r0 on the edges from slot 1 to slot 2
    flow.source(8, 3)                # Source("written", 7): where the value of r3 before slot 8 comes from
    flow.source(2, 0, origin=1)      # where that of r0 on those edges comes from
"""

from __future__ import annotations

from typing import NamedTuple

from .operands import Instruction, parse
from .pages import Page
from .records import FRAME_POINTER, UNWRITTEN, Facts, Value
from .values import known, width

REGISTERS = 11
R10 = 10
MOST_EDGES = 6  # into a slot that are shown
CLASH = "r{register} is written on each path to here, but at slot {slot} paths meet that left different things in it:"
CLASH_RULE = (
    "where paths meet, numbers may differ, and places in one map's values; anything else has to be the same, or can't "
    "be read from there on"
)


class Source(NamedTuple):
    """Where the value of a register comes from: an instruction `written` it, a call `entered` a callback with it, paths
    `join`, or main had it at the `start`."""

    kind: str
    slot: int = 0


class Flow:
    """A unit up to its fault."""

    def __init__(self, facts: Facts, page: Page) -> None:
        self.facts = facts
        self.page = page
        self.insns = {slot: parse(record.insn) for slot, record in facts.insns.items()}
        self.into: dict[int, list[int]] = {slot: [] for slot in self.insns}
        for slot, record in facts.insns.items():
            for target in {record.ahead, record.aside} & self.into.keys():
                self.into[target].append(slot)
        self._sources: dict[int, list[Source]] = {}  # before each slot, by register
        for slot in self.insns:
            self._sources[slot] = self._sources_before(slot)

    def place(self, slot: int) -> str:
        """The instruction that starts at a slot with its place."""
        return self.page.place(slot, self.facts.text(slot))

    def step(self, slot: int) -> str:
        """The same in columns."""
        return self.page.step(slot, self.facts.text(slot))

    def before(self, slot: int, register: int, origin: int | None = None) -> Value:
        """The abstract value of a register before a slot, or on the edges to it from an origin. Only joins have values
        of their own on edges."""
        is_reached, values = self.facts.insns[slot].reached, self.facts.values.get(slot, {})
        if origin is not None and len(self.into[slot]) > 1:
            is_reached, values = True, self.facts.edges.get((origin, slot), {})
        if register == R10:
            return FRAME_POINTER if is_reached else UNWRITTEN
        return values.get(register, UNWRITTEN)

    def source(self, slot: int, register: int, origin: int | None = None) -> Source:
        """Where the value of a register before a slot, or on the edges to it from an origin, comes from."""
        if origin is None:
            return self._sources[slot][register]
        return self.written_along(origin, slot, register) or self._sources[origin][register]

    def written_along(self, origin: int, target: int, register: int) -> Source | None:
        """The source of a register on the edges from one slot to another, if the instruction of the former writes it or
        enters a callback."""
        insn = self.insns[origin]
        if insn.kind == "call" and target != origin + 1:
            return Source("entered", origin)
        return Source("written", origin) if register in insn.writes else None

    def _sources_before(self, slot: int) -> list[Source]:
        """The sources of all registers before a slot, by those before the slots that came earlier."""
        origins = self.into[slot]
        if slot == 0 or not origins:
            return [Source("start")] * REGISTERS
        if len(origins) > 1:
            return [Source("join", slot)] * REGISTERS
        return [self.source(slot, register, origins[0]) for register in range(REGISTERS)]


class Fault(NamedTuple):
    """An instruction that breaks the rule of a code, with what is known of the unit up to it."""

    flow: Flow
    code: str
    slot: int
    insn: Instruction

    def before(self, register: int) -> Value:
        """The abstract value of a register before it."""
        return self.flow.before(self.slot, register)


class Joins:
    """What a register is on the edges into joins, and why it can't be read after them.

    A register can't be read after a join since some path doesn't write it, or since each path does and they leave
    different things in it. Which of the two it is follows for all joins from those before them, in one pass.
    """

    def __init__(self, flow: Flow) -> None:
        self.flow = flow
        self._tables: dict[int, dict[int, int | None]] = {}  # by register

    def clash(self, slot: int, register: int, origin: int | None = None) -> int | None:
        """The last join where paths left different things in a register that can't be read before a slot, or on the
        edges to it from an origin; None if some path doesn't write it, or if it can be read."""
        source = self.flow.source(slot, register, origin)
        if source.kind != "join" or self.flow.before(slot, register, origin).kind != "unwritten":
            return None
        if register not in self._tables:
            self._tables[register] = self._table(register)
        return self._tables[register][source.slot]

    def words(self, slot: int, register: int, origin: int | None = None) -> str:
        """What a register is there."""
        if self.clash(slot, register, origin) is not None:
            return f"r{register} is different things on different paths"
        return known(register, self.flow.before(slot, register, origin))

    def edge_back(self, target: int, register: int) -> int:
        """The slot whose edges into a join say the most of a register: the first on which it isn't written since some
        path doesn't write it, or else the first on which it has the most values."""
        origins = self.flow.into[target]
        for origin in origins:
            is_unwritten = self.flow.before(target, register, origin).kind == "unwritten"
            if is_unwritten and self.clash(target, register, origin) is None:
                return origin
        return max(origins, key=lambda origin: width(self.flow.before(target, register, origin)))

    def operands(self, slot: int) -> str:
        """What the registers are that the instruction at a slot reads: `r1 is 5, r2 is not written`."""
        return ", ".join(self.words(slot, register) for register in self.flow.insns[slot].reads)

    def state(self, slot: int) -> str:
        """The same of any slot, as `--states` has it."""
        if not self.flow.facts.insns[slot].reached:
            return "no path leads here"
        return self.operands(slot) or "it reads no register"

    def link_lines(self, target: int, register: int) -> list[str]:
        """What a register is on the edges into a join, as a link of a chain."""
        shown, rest = self.flow.into[target][:MOST_EDGES], self.flow.into[target][MOST_EDGES:]
        lines = [f"    from {self.flow.step(origin)}{self.words(target, register, origin)}" for origin in shown]
        return [*lines, "    .."] if rest else lines

    def clash_lines(self, target: int, register: int) -> list[str]:
        """That paths left different things in a register at a join: what, and where each was written."""
        origins = self.flow.into[target]
        lines = [CLASH.format(register=register, slot=target)]
        for origin in origins[:MOST_EDGES]:
            lines.append(f"  from {self.flow.step(origin)}{self.words(target, register, origin)}")
            source = self.flow.source(target, register, origin)
            if source.kind == "written" and source.slot != origin:
                lines.append(f"    by {self.flow.step(source.slot)}which wrote it")
        if len(origins) > MOST_EDGES:
            lines.append("  ..")
        return [*lines, CLASH_RULE]

    def pointer_kind(self, target: int, register: int) -> str | None:
        """The kind of the first value of a register on the edges into a join that is neither a number nor unwritten."""
        kinds = (self.flow.before(target, register, origin).kind for origin in self.flow.into[target])
        return next((kind for kind in kinds if kind not in ("number", "unwritten")), None)

    def _table(self, register: int) -> dict[int, int | None]:
        """For each join the last one, up to it, where paths left different things in a register, if none of them misses
        the write; else None."""
        table: dict[int, int | None] = {}
        for target, origins in self.flow.into.items():
            if len(origins) > 1:
                found: list[int | None] = []
                for origin in origins:
                    if self.flow.before(target, register, origin).kind == "unwritten":
                        source = self.flow.source(target, register, origin)
                        found.append(table[source.slot] if source.kind == "join" else None)
                table[target] = None if None in found else max(filter(None, found), default=target)
        return table
