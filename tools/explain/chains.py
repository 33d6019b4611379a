"""The chain of instructions that a register's value comes from, with the comparisons that narrow it.

It goes back from a slot to an instruction that makes the value of no register. At a join it follows the edge that says
the most. An instruction that only copies is left out, unless a comparison narrows one of the two registers and not the
other.
"""

from __future__ import annotations

from typing import Optional

from .flow import Flow, Joins
from .operands import IN_PLACE, MOVSX, SIGNED_COMPARISONS, Instruction
from .values import known, width

MOST_LINKS = 24  # of a chain that are shown
MOST_COMPARISONS = 8  # of a chain that are shown
MOST_EDGES = 512  # that are followed back between links

STARTS = {1: "main's argument: any number", 10: "the frame pointer"}  # what main starts with
ENTRIES = {
    1: "the index, below the number of iterations: {index}",
    2: "the callback's ctx: {ctx}",
    10: "the callback's own frame",
}
NO_ENTRY = "a callback starts with r1, r2 and r10 alone"
MADE_BY = {
    "load": "what memory has: any number of its size",
    "atomic": "what memory had: any number of its size",
    **dict.fromkeys(("mov", "wide", "code"), "a constant"),
}


# The value of a register before a slot, or on the edges to it from an origin: the slot, the register and the origin.
Place = tuple[int, int, Optional[int]]


class Chain:
    """A chain in the making: its lines, and what was found on the way back. It is made once, for one register."""

    def __init__(self, flow: Flow, joins: Joins) -> None:
        self.lines: list[str] = []
        self.is_signed = False  # whether a signed comparison, or an extension of the sign, was found
        self._flow = flow
        self._joins = joins
        # By register: the slot of a later comparison that narrows it, or what is made of it, and the register there.
        self._compared: dict[int, tuple[int, int]] = {}
        self._comparisons = 0
        self._edges = 0

    def follow(self, slot: int, register: int) -> None:
        """Adds the lines of the value that a register has before a slot."""
        self.lines.append(f"r{register} comes from")
        place: Place | None = (slot, register, None)
        for _ in range(MOST_LINKS):
            if place is None:
                return
            place = self._link(*place)
        if place is not None:
            self.lines.append("  ..")

    def _link(self, slot: int, register: int, origin: int | None) -> Place | None:
        """Adds the way back to the source of a value, and that source; returns the value that it is made of."""
        if origin is None:
            self._go_back(slot, register)
        else:
            self._go_back_along(origin, slot, register)
        kind, at = self._flow.source(slot, register, origin)
        if kind == "join":
            self.lines.append(f"  {known(register, self._flow.before(at, register))} at slot {at}, where paths meet:")
            self.lines += self._joins.link_lines(at, register)
            return at, register, self._joins.edge_back(at, register)
        if kind == "written":
            return self._written(at, register)
        if kind == "entered":
            index, ctx = (known(argument, self._flow.before(at, argument)) for argument in (1, 3))
            self._add(at, ENTRIES.get(register, NO_ENTRY).format(index=index, ctx=ctx))
        else:
            self.lines.append(f"  {STARTS.get(register, f'r{register} is written by no instruction before')}")
        return None

    def _written(self, slot: int, register: int) -> Place | None:
        """Adds the instruction that wrote a register, and returns the register that it made it of."""
        insn = self._flow.insns[slot]
        if insn.kind == MOVSX or insn.name in ("ldxs", "arsh"):
            self.is_signed = True
        if insn.kind not in IN_PLACE:  # what is compared later isn't what the register was before
            self._compared.pop(register, None)
        made_of = self._made_of(slot, insn)
        if made_of is None:
            self._add(slot, made_anew(insn, register))
            return None
        if insn.kind == "mov":
            self._copy(slot, made_of, register)
        else:
            self._add(slot, known(made_of, self._flow.before(slot, made_of)))
        return slot, made_of, None

    def _made_of(self, slot: int, insn: Instruction) -> int | None:
        """The register that an instruction makes another of: of two operands the one that has more values."""
        if insn.kind not in (*IN_PLACE, "mov", MOVSX):
            return None
        operands = sorted(insn.reads, key=[insn.dst, insn.src].index)  # the first counts if both have as many values
        return max(operands, key=lambda register: width(self._flow.before(slot, register)), default=None)

    def _go_back(self, slot: int, register: int) -> None:
        """Adds what is between a slot and the source of a register's value there."""
        at = slot
        while self._edges < MOST_EDGES:
            self._edges += 1
            origins = self._flow.into[at]
            if len(origins) != 1 or self._flow.written_along(origins[0], at, register):
                return
            self._pass(origins[0], at, register)
            at = origins[0]

    def _go_back_along(self, origin: int, target: int, register: int) -> None:
        """The same from the edges into a join, whose own lines say already what the register is on them."""
        insn = self._flow.insns[origin]
        if self._flow.written_along(origin, target, register):
            return
        if insn.kind == "jump":
            self._note_others(origin, target, register, insn)
        else:
            self._pass(origin, target, register)
        self._go_back(origin, register)

    def _pass(self, origin: int, target: int, register: int) -> None:
        """Adds what an instruction that doesn't write a register says of it."""
        insn = self._flow.insns[origin]
        if insn.kind == "jump":
            self._note_others(origin, target, register, insn)
            if register in insn.reads:
                self._compare(origin, target, register, insn)
        elif insn.kind == "mov" and insn.src == register and insn.dst is not None:
            self._copy(origin, insn.dst, register)
        elif insn.kind == "mov" and insn.src is not None and insn.dst is not None:
            if (found := self._take(insn.dst)) is not None:  # what is compared later of the copy is so of this one
                self._compared[insn.src] = found
        elif insn.kind not in IN_PLACE:
            for other in [*self._compared]:
                if self._flow.written_along(origin, target, other):
                    del self._compared[other]

    def _compare(self, origin: int, target: int, register: int, insn: Instruction) -> None:
        """Adds a comparison that narrows a register, or is of signed numbers, unless enough are shown."""
        what = known(register, self._flow.before(origin, register))
        if self._narrows(origin, target, register):
            what += f"; behind it {known(register, self._flow.before(target, register, origin))}"
        elif insn.name in SIGNED_COMPARISONS:
            self.is_signed = True
            what += ": a comparison of signed numbers narrows nothing"
        else:
            return
        if self._comparisons < MOST_COMPARISONS:
            self._comparisons += 1
            self._add(origin, what)

    def _note_others(self, origin: int, target: int, register: int, insn: Instruction) -> None:
        """Notes which other registers a comparison narrows."""
        for other in insn.reads:
            if other != register and self._narrows(origin, target, other):
                self._compared[other] = origin, other

    def _narrows(self, origin: int, target: int, register: int) -> bool:
        """Whether a register has fewer values on the edges from one slot to another than before the former."""
        return width(self._flow.before(target, register, origin)) < width(self._flow.before(origin, register))

    def _copy(self, slot: int, other: int, register: int) -> None:
        """Adds a copy, if a later comparison narrows the other register, and not this one."""
        found = self._take(other)
        if found is not None:
            at, compared = found
            self._add(slot, f"slot {at} compares r{compared}, which doesn't narrow r{register}")

    def _take(self, register: int) -> tuple[int, int] | None:
        """A later comparison of a register, which is used once. After too long a way back there is none: the register
        may be written where the way wasn't followed."""
        found = self._compared.pop(register, None)
        return found if self._edges < MOST_EDGES else None

    def _add(self, slot: int, what: str) -> None:
        """Adds an instruction, and what is said of it."""
        self.lines.append(f"  {self._flow.step(slot)}{what}")


def made_anew(insn: Instruction, register: int) -> str:
    """What is said of an instruction that makes a register of no other."""
    if insn.kind != "call":
        return MADE_BY.get(insn.kind, "")
    if register:
        return "a call leaves r1 to r5 unwritten"
    return f"what {'bpf_map_lookup_elem' if insn.imm == 1 else 'bpf_loop'} answers"
