"""Finds the addresses that can stay what the verifier calls addresses, and need not become numbers.

A web is what definitions and uses of a register have in common: those that reach one use, and those that an address is
copied or moved between. It stays native where each of its definitions is an address of the map or made of one, and each
use an access that needs no test.
"""

from __future__ import annotations

from .code import Address, Alu, Branch, Exit, Function, order_of, reads, successors
from .live import bits, reads_of, writes_of
from .plans import Moved, Touch, Where

Defs = frozenset[int]
ENTRY = 0  # stands for what a register has where the function begins
REGISTERS = 11


class Webs:
    """The webs of one function."""

    def __init__(self, function: Function) -> None:
        self._function = function
        self._parent: list[int] = [ENTRY]
        self._bad: list[bool] = [True]
        self._defs: dict[tuple[int, int], int] = {}  # of a block and a place in it
        self._bases: dict[tuple[int, int], int] = {}
        self._held: dict[tuple[int, int], list[Defs]] = {}
        self._natives_of: dict[Defs, bool] = {}
        self._joined: dict[Defs, int] = {}
        self._follow()

    def apply(self) -> None:
        """Marks the instructions of the webs that stay native."""
        for label, block in self._function.blocks.items():
            for at, insn in enumerate(block.insns):
                web = self._defs.get((label, at))
                if isinstance(insn, (Address, Moved)) and web is not None and self._is_native(web):
                    block.insns[at] = insn._replace(is_native=True)
                if isinstance(insn, Touch):
                    base = self._bases.get((label, at))
                    is_native = base is not None and self._is_native(base)
                    block.insns[at] = insn._replace(is_native=is_native, natives=self._natives(label, at))

    def _natives(self, label: int, at: int) -> int:
        """The registers that have native addresses at an access."""
        found = 0
        for register, webs in enumerate(self._held[label, at]):
            is_native = self._natives_of.get(webs)
            if is_native is None:
                is_native = self._natives_of[webs] = any(map(self._is_native, webs))
            found |= is_native << register
        return found

    def _is_native(self, web: int) -> bool:
        return not self._bad[self._find(web)]

    def _find(self, web: int) -> int:
        while self._parent[web] != web:
            self._parent[web] = self._parent[self._parent[web]]
            web = self._parent[web]
        return web

    def _join(self, webs: Defs) -> int:
        if webs not in self._joined:
            first, *others = {self._find(web) for web in webs}
            for other in others:
                self._parent[other] = first
                self._bad[first] |= self._bad[other]
            self._joined[webs] = first
        return self._find(self._joined[webs])

    def _spoil_all(self, registers: int, regs: list[Defs]) -> None:
        for register in range(REGISTERS):
            if registers >> register & 1:
                self._bad[self._join(regs[register])] = True

    def _follow(self) -> None:
        arriving: dict[int, list[list[Defs]]] = {}
        start: list[Defs] = [frozenset((ENTRY,))] * REGISTERS
        for label in order_of(self._function):
            block = self._function.blocks[label]
            states = arriving.pop(label, [start])
            regs = states[0][:] if len(states) == 1 else [frozenset().union(*webs) for webs in zip(*states)]
            for at, insn in enumerate(block.insns):
                self._insn(label, at, insn, regs)
            end = block.end
            if isinstance(end, (Branch, Exit)):
                self._spoil_all(bits(reads(end)), regs)
            for following in successors(end):
                arriving.setdefault(following, []).append(regs)

    def _insn(self, label: int, at: int, insn: object, regs: list[Defs]) -> None:
        if isinstance(insn, Touch):
            self._touch(label, at, insn, regs)
        elif isinstance(insn, Address):
            regs[insn.dst] = frozenset((self._define(label, at, False),))
        elif isinstance(insn, Moved):
            if insn.insn.src is not None:
                self._spoil_all(1 << insn.insn.src, regs)
            web = self._define(label, at, False)
            self._join(frozenset((self._join(regs[insn.insn.dst]), web)))
            regs[insn.insn.dst] = frozenset((web,))
        elif isinstance(insn, Alu) and insn.op == "mov" and insn.width == 64 and insn.src is not None:
            web = self._define(label, at, False)
            self._join(frozenset((self._join(regs[insn.src]), web)))
            regs[insn.dst] = frozenset((web,))
        else:
            self._spoil_all(reads_of(insn), regs)
            self._overwrite(label, at, writes_of(insn), regs)

    def _define(self, label: int, at: int, is_bad: bool) -> int:
        self._defs[label, at] = web = len(self._parent)
        self._parent.append(web)
        self._bad.append(is_bad)
        return web

    def _overwrite(self, label: int, at: int, written: int, regs: list[Defs]) -> None:
        for register in range(REGISTERS):
            if written >> register & 1:
                regs[register] = frozenset((self._define(label, at, True),))

    def _touch(self, label: int, at: int, touch: Touch, regs: list[Defs]) -> None:
        self._held[label, at] = regs[:]
        base = touch.insn.base
        others = reads_of(touch._replace(is_native=True)) & ~(1 << base)
        if bits(reads(touch.insn)[1:]) >> base & 1:
            others |= 1 << base  # it is stored too
        self._spoil_all(others, regs)
        if touch.plan.where is not Where.FRAME:
            if is_plain(touch):
                self._bases[label, at] = self._join(regs[base])
            elif touch.plan.where is Where.FLAT:
                self._spoil_all(1 << base, regs)
        self._overwrite(label, at, writes_of(touch), regs)


def is_plain(touch: Touch) -> bool:
    """Whether an access can be done as it stands, where its base is an address in the map."""
    plan = touch.plan
    if touch.insn.size < 4 or plan.scale or plan.is_alone or getattr(touch.insn, "signed", False):
        return False
    if plan.where is Where.EXACT:
        return plan.at % touch.insn.size == 0
    return plan.low is None and plan.high is None and not plan.align and not plan.is_moved and not plan.is_uneven
