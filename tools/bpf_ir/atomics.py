"""Accesses that the back end has no atomic instruction for become plain ones: iterations of a loop see none between.

What two iterations of a loop call access is a conflict, which has them run in order. A trap is an access at no place.
"""

from __future__ import annotations

import re

from .text import Body, Instruction

ORDER = r'(?: syncscope\("[^"]*"\))? (?:unordered|monotonic|acquire|release|acq_rel|seq_cst)'
LOAD = re.compile(rf"load atomic (?:volatile )?(.*?){ORDER}(, align \d+)")
STORE = re.compile(rf"store atomic (?:volatile )?(.*?){ORDER}(, align \d+)")
CHANGE = re.compile(rf"atomicrmw (?:volatile )?(\w+) (\S+) (.*), i(\d+) (\S+?){ORDER}(, align \d+)?")
TRAP = re.compile(r"(?:tail )?call void @llvm\.trap\(\)")
PLAIN = ("add", "sub", "and", "or", "xor")
CHOICES = {"max": "sgt", "min": "slt", "umax": "ugt", "umin": "ult"}
SHORTEST = 32  # bits of what atomic instructions change


def rewrite_atomic(instruction: Instruction, body: Body) -> bool:
    """Replaces such an access, and says whether it was one."""
    words = instruction.words
    if found := LOAD.match(words):
        body.make(f"load volatile {found[1]}{found[2]}", instruction.result)
    elif found := STORE.match(words):
        body.add(f"store volatile {found[1]}{found[2]}")
    elif found := CHANGE.match(words):
        return _change(body, found, instruction.result)
    elif TRAP.match(words):
        body.add(f"store volatile i8 0, {'ptr' if body.is_opaque else 'i8*'} null, align 1")
    else:
        return words.startswith("fence ")
    return True


def _change(body: Body, found: re.Match[str], result: str | None) -> bool:
    operation, pointer, address, bits, operand, align = found.groups()
    if int(bits) >= SHORTEST and operation in (*PLAIN, "xchg"):
        return False
    of = f"i{bits}"
    old = body.make(f"load volatile {of}, {pointer} {address}{align or ''}", result)
    if operation in PLAIN:
        new = body.make(f"{operation} {of} {old}, {operand}")
    elif operation == "nand":
        new = body.make(f"xor {of} {body.make(f'and {of} {old}, {operand}')}, -1")
    elif operation == "xchg":
        new = operand
    else:
        is_old = body.make(f"icmp {CHOICES[operation]} {of} {old}, {operand}")
        new = body.make(f"select i1 {is_old}, {of} {old}, {of} {operand}")
    body.add(f"store volatile {of} {new}, {pointer} {address}{align or ''}")
    return True
