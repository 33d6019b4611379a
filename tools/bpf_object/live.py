"""Which registers are read further on, and what need not be done because nothing reads its result.

The functions here are those that `unroll` makes: no jump of them leads backwards.
"""

from __future__ import annotations

from .code import Address, Alu, Atomic, Block, Function, Load, Number, Store, order_of, reads, successors, writes
from .plans import LoopCall, Moved, Touch, Where

Lives = dict[int, list[int]]  # of a block: the registers that are live behind each instruction, as bits


def bits(registers: tuple[int, ...]) -> int:
    """Registers as bits."""
    found = 0
    for register in registers:
        found |= 1 << register
    return found


def live_after(block: Block, live_in: dict[int, int]) -> int:
    """The registers that the end of a block reads, or what it leads to."""
    live = bits(reads(block.end))
    for following in successors(block.end):
        live |= live_in[following]
    return live


def reads_of(insn: object) -> int:
    """The registers that a planned instruction reads."""
    if isinstance(insn, Alu):
        own = 0 if insn.op.startswith("mov") else 1 << insn.dst
        return own if insn.src is None else own | 1 << insn.src
    if isinstance(insn, Touch):
        access = insn.insn
        found = 0
        if insn.is_native or insn.plan.where is Where.FLAT:
            found = 1 << access.base
        if isinstance(access, Store) and access.src is not None:
            found |= 1 << access.src
        if isinstance(access, Atomic):
            found |= 1 << access.src | (access.op == "cmpxchg")
        return found
    if isinstance(insn, Moved):
        return bits(reads(insn.insn)) if insn.is_native or insn.number is None else 0
    if isinstance(insn, LoopCall):
        return bits((1, 4)) if insn.is_zero else bits((1, 3, 4))
    return bits(reads(insn))  # type: ignore[arg-type]


def writes_of(insn: object) -> int:
    """The registers that a planned instruction writes."""
    if isinstance(insn, (Alu, Address, Number)):
        return 1 << insn.dst
    if isinstance(insn, (Touch, Moved)):
        return bits(writes(insn.insn))
    if isinstance(insn, LoopCall):
        return bits((0, 1, 2, 3, 4, 5))
    return bits(writes(insn))  # type: ignore[arg-type]


def is_pure(insn: object) -> bool:
    """Whether an instruction only writes its register."""
    if isinstance(insn, Touch):
        return isinstance(insn.insn, Load) and insn.plan.where is Where.FRAME
    return isinstance(insn, (Alu, Number, Address, Moved))


def without_dead(function: Function) -> tuple[Lives, int]:
    """Leaves out what nothing reads, and gives what is live behind each instruction that is left, and at the begin.

    An atomic operation whose old value nothing reads becomes one that doesn't fetch it.
    """
    live_in: dict[int, int] = {}
    lives: Lives = {}
    for label in reversed(order_of(function)):
        block = function.blocks[label]
        live = live_after(block, live_in)
        kept, behind = [], []
        for insn in reversed(block.insns):
            written = writes_of(insn)
            if is_pure(insn) and not written & live:
                continue
            if isinstance(insn, Touch) and isinstance(insn.insn, Atomic) and not written & live:
                insn = _plain(insn, insn.insn)
            kept.append(insn)
            behind.append(live)
            live = live & ~written | reads_of(insn)
        block.insns = kept[::-1]
        lives[label] = behind[::-1]
        live_in[label] = live
    function.blocks = {label: function.blocks[label] for label in order_of(function)}
    return lives, live_in[function.entry]


def _plain(touch: Touch, atomic: Atomic) -> Touch:
    if not atomic.op.endswith("_fetch"):
        return touch
    return touch._replace(insn=atomic._replace(op=atomic.op[: -len("_fetch")]))
