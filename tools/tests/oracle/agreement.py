"""The facts of a unit, compared with the unit itself: what its instructions read and break, its edges and joins."""

from __future__ import annotations

from collections.abc import Iterator

from .facts import UNWRITTEN, Facts, Known, Registers, Source
from .instructions import Unit
from .machine import FRAME_BYTES, Kind
from .paths import callback_of, targets, unwritten_at
from .rules import BYTE, RULES_OF_VALUES, least_broken, reads_frame


def wrong_of(unit: Unit, facts: Facts) -> Iterator[str]:
    """What is wrong with the facts of a unit."""
    slots = [slot for slot in unit.insns if facts.slot is None or slot <= facts.slot]
    if [*facts.insns] != slots:
        yield f"the slots are {[*facts.insns]}, not {slots}"
        return
    for slot in slots:
        if facts.insns[slot].text != unit.insns[slot].text:
            yield f"slot {slot} is {unit.insns[slot].text}, not {facts.insns[slot].text}"
        yield from _wrong_edges(unit, facts, slot)
        if not facts.insns[slot].reached:
            continue
        if facts.reads.get(slot, {}).keys() != unit.insns[slot].reads:
            yield f"slot {slot} reads {sorted(unit.insns[slot].reads)}, not {[*facts.reads.get(slot, {})]}"
        for register, source in facts.reads.get(slot, {}).items():
            if not _may_come_from(unit, facts, slot, register, source):
                yield f"r{register} of slot {slot} can't come from {source}"
        yield from _wrong_rule(unit, facts, slot)
        yield from _wrong_inflow(unit, facts, slot)
    yield from _wrong_unwritten(unit, facts)


def _wrong_edges(unit: Unit, facts: Facts, slot: int) -> Iterator[str]:
    """Edges that aren't the instruction's; or edges from the fault, or from where no path leads."""
    insn, known = unit.insns[slot], facts.insns[slot]
    may_lead = {*targets(insn), callback_of(insn, facts.registers(slot))}
    if not may_lead.issuperset(known.targets):
        yield f"slot {slot} leads to {may_lead}, not to {known.targets}"
    if known.targets and (slot == facts.slot or not known.reached):
        yield f"slot {slot} leads nowhere, and not to {known.targets}"


def _may_come_from(unit: Unit, facts: Facts, slot: int, register: int, source: Source) -> bool:
    """Whether a source is an instruction that writes the register, a join, or a call whose callback the slot may be in."""
    at = source.at
    if at is None or at > slot:
        return source.kind == "start"
    if source.kind == "written":
        return at < slot and register in unit.insns[at].writes
    if source.kind == "join":
        return len(facts.inflow(at)) > 1
    callback = callback_of(unit.insns[at], facts.registers(at))
    return source.kind == "entered" and callback is not None and callback <= slot


def _wrong_rule(unit: Unit, facts: Facts, slot: int) -> Iterator[str]:
    """By what the registers are, the rule of the refusal is the least that is broken at its slot, and none is before."""
    insn, registers = unit.insns[slot], facts.registers(slot)
    read = {register: registers[register] for register in insn.reads}
    rule = least_broken(unit, insn, read)
    if slot != facts.slot:
        if rule is not None:
            yield f"by its values slot {slot} breaks V{rule}"
    elif facts.rule == BYTE:
        if not reads_frame(insn, read) or rule is not None and rule < BYTE:
            yield f"by its values slot {slot} breaks V{rule}, and not V{BYTE}"
    elif facts.rule in RULES_OF_VALUES and rule != facts.rule:
        yield f"by its values slot {slot} breaks V{rule}, and not V{facts.rule}"


def _wrong_inflow(unit: Unit, facts: Facts, slot: int) -> Iterator[str]:
    """Registers that aren't known after the instructions before, or that are and weren't left or written by them; and where
    edges join a register that isn't the join of all."""
    inflow, registers = facts.inflow(slot), facts.registers(slot)
    shown = {before for before, to in facts.edges if to == slot}
    if shown and (len(inflow) < 2 or not shown.issubset(inflow)):
        yield f"edges lead to slot {slot} from {inflow}, not from {shown}"
    if not inflow and facts.values.get(slot, {}).keys() != {1}:
        yield f"main starts with r1, not with {[*facts.values.get(slot, {})]}"
    for before in inflow:
        known = facts.values if len(inflow) < 2 else facts.edges
        found = known.get(slot if len(inflow) < 2 else (before, slot), {})
        if found.keys() != _known_after(unit, facts, before, slot):
            yield f"from slot {before} to {slot} {[*found]} are known"
    edges: list[Registers] = [facts.edges.get((before, slot), {}) for before in inflow]
    for register in range(10) if len(inflow) > 1 else ():
        joined = _joined([edge.get(register, UNWRITTEN) for edge in edges])
        if joined != registers[register]:
            yield f"r{register} of slot {slot} is {registers[register]}, and of its edges {joined}"


def _known_after(unit: Unit, facts: Facts, before: int, slot: int) -> set[int]:
    """The registers that are known on an edge, by those before its instruction and what that writes."""
    insn = unit.insns[before]
    if insn.name == "call" and slot != before + 1:
        return {1, 2}
    written = {0} if insn.name == "call" else insn.writes
    return {*facts.values.get(before, {})} - insn.writes | written


def _wrong_unwritten(unit: Unit, facts: Facts) -> Iterator[str]:
    """Bytes that the access of the fault doesn't read, or that each path writes; and V20 without any."""
    if (facts.rule == BYTE) != bool(facts.unwritten):
        yield f"{len(facts.unwritten)} bytes are unwritten"
    if not facts.unwritten or facts.slot is None:
        return
    insn, unwritten = unit.insns[facts.slot], unwritten_at(unit, facts, facts.slot)
    base = facts.registers(facts.slot)[insn.base or 0]
    for byte in facts.unwritten:
        bits = unwritten.callers if byte.kind is Kind.CTX else unwritten.own
        if byte.kind is not base.kind or not 0 <= byte.at - base.least - insn.offset < insn.size:
            yield f"slot {facts.slot} doesn't read byte {byte.at - FRAME_BYTES}"
        elif not bits >> byte.at & 1:
            yield f"byte {byte.at - FRAME_BYTES} is written on each path to slot {facts.slot}"


def _joined(edges: list[Known]) -> Known:
    """What a register is where edges join."""
    kinds = {(known.kind, known.map) for known in edges}
    least, greatest = min(known.least for known in edges), max(known.greatest for known in edges)
    may_differ = edges[0].kind in (None, Kind.AREA)
    if len(kinds) > 1 or not all(known.is_written for known in edges) or not may_differ and least != greatest:
        return UNWRITTEN
    step = min(known.step for known in edges)
    return Known(edges[0].kind, least, greatest, step, edges[0].map, any(known.or_null for known in edges))
