"""Makes one atomic operation of a load, a sum and a store, so that a loop which only sums up becomes a reduction.

It is done for words of main's frame that a callback reaches through ctx, where it does nothing else with them.
"""

from __future__ import annotations

from typing import NamedTuple

from .code import Alu, Atomic, Block, Load, Store
from .live import Lives, reads_of, without_dead, writes_of
from .mend import Rewritten
from .plans import Touch, Where

OPERATIONS = ("add", "or", "and", "xor")


class Sum(NamedTuple):
    """Three instructions of a block, by their places, and what they do."""

    label: int
    load: int
    operation: int
    store: int
    op: str
    size: int


def sum_up(rewritten: Rewritten, number: int) -> None:
    """Rewrites the sums of a callback."""
    words = _words(rewritten)
    if not words:
        return
    function = rewritten.functions[number]
    lives, _ = without_dead(function)
    for found in _sums(function.blocks, lives, words).values():
        for one in found:
            _replace(function.blocks[one.label], one)
    for block in function.blocks.values():
        block.insns = [insn for insn in block.insns if insn is not None]


def _words(rewritten: Rewritten) -> range:
    """The words of the map in which sums are looked for: main's frame, where no access may lead to any word of it."""
    frame = rewritten.frames[0].number
    spot = rewritten.layout.spots[frame]
    if frame in rewritten.facts.varied:
        return range(0)
    return range(spot.element * 8, spot.element * 8 + spot.size - spot.low, 8)


def _sums(blocks: dict[int, Block], lives: Lives, words: range) -> dict[int, list[Sum]]:
    """The sums of each word with which nothing else is done."""
    touches: dict[int, set[tuple[int, int]]] = {}
    sums: dict[int, list[Sum]] = {}
    for label, block in blocks.items():
        for at, insn in enumerate(block.insns):
            word = _word(insn)
            if word not in words:
                continue
            touches.setdefault(word, set()).add((label, at))
            found = _sum_at(block, label, at, lives[label])
            if found:
                sums.setdefault(word, []).append(found)
    return {word: found for word, found in sums.items() if _is_all(found, touches[word])}


def _word(insn: object) -> int:
    """The word of the map that an instruction accesses, or -1."""
    if isinstance(insn, Touch) and insn.plan.where is Where.EXACT:
        return insn.plan.at // 8 * 8
    return -1


def _is_all(found: list[Sum], touches: set[tuple[int, int]]) -> bool:
    parts = {place for one in found for place in ((one.label, one.load), (one.label, one.store))}
    return parts == touches and len({(one.op, one.size) for one in found}) == 1


def _sum_at(block: Block, label: int, at: int, live: list[int]) -> Sum | None:
    """The sum whose load is at a place of a block, where neither the old value nor the new one is used further."""
    touch = block.insns[at]
    if not isinstance(touch.insn, Load) or touch.insn.size < 4 or touch.insn.signed:
        return None
    old = touch.insn.dst
    for later in range(at + 1, len(block.insns)):
        insn = block.insns[later]
        if isinstance(insn, Alu) and old in (insn.dst, insn.src):
            is_sum = insn.op in OPERATIONS and insn.dst != insn.src and (insn.width == 64 or touch.insn.size == 4)
            is_last = insn.dst == old or not live[later] >> old & 1
            return _stored(block, label, at, later, live) if is_sum and is_last else None
        if (reads_of(insn) | writes_of(insn)) >> old & 1 or _word(insn) == _word(touch):
            return None
    return None


def _stored(block: Block, label: int, at: int, operation: int, live: list[int]) -> Sum | None:
    """The sum whose load and operation are at these places, where the store follows."""
    touch, alu = block.insns[at], block.insns[operation]
    operand = _operand(touch, alu)
    for later in range(operation + 1, len(block.insns)):
        insn = block.insns[later]
        if isinstance(insn, Touch) and isinstance(insn.insn, Store) and insn.insn.src == alu.dst:
            is_same = insn.plan.where is Where.EXACT and insn.plan.at == touch.plan.at
            is_last = is_same and insn.insn.size == touch.insn.size and not live[later] >> alu.dst & 1
            return Sum(label, at, operation, later, alu.op, touch.insn.size) if is_last else None
        used = 1 << alu.dst
        if (reads_of(insn) | writes_of(insn)) & used or writes_of(insn) >> operand & 1 or _word(insn) == _word(touch):
            return None
    return None


def _operand(touch: Touch, alu: Alu) -> int:
    """The register with what is added; where that is a number, the one that had the old value."""
    return alu.dst if alu.src in (None, touch.insn.dst) else alu.src


def _replace(block: Block, one: Sum) -> None:
    """Leaves the load and the operation out, and puts the atomic operation where the store is."""
    store, alu = block.insns[one.store], block.insns[one.operation]
    register = _operand(block.insns[one.load], alu)
    atomic = Atomic(one.size, one.op, store.insn.base, store.insn.offset, register, store.line)
    block.insns[one.store] = store._replace(insn=atomic, was_sum=True)
    block.insns[one.load] = None
    block.insns[one.operation] = Alu("mov", 64, alu.dst, None, alu.imm, alu.line) if alu.src is None else None
