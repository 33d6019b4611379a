"""The form that a program is rewritten in: functions of blocks, whose instructions name what they lead to.

Registers are those of BPF. An address is that of a thing of `memory`, so that where the thing lies can be chosen later.
"""

from __future__ import annotations

from collections import deque
from collections.abc import Callable, Iterable, Iterator
from dataclasses import dataclass, field
from typing import Any, NamedTuple, Union

from .btf import SourceLine

FRAME = 10  # the register that points past the frame's last byte
FRAME_BYTES = 512
RESULT, ARGUMENTS, SAVED = 0, (1, 2, 3, 4, 5), (6, 7, 8, 9)
REGISTERS = range(10)
LOOKUP, LOOP = 1, 181
NUMBER_LIMIT = 1 << 31  # of an immediate


class Alu(NamedTuple):
    """Arithmetic; the operand is a register, or the number where that is none."""

    op: str
    width: int
    dst: int
    src: int | None
    imm: int
    line: SourceLine | None = None


class Number(NamedTuple):
    """A number of 64 bits."""

    dst: int
    value: int
    line: SourceLine | None = None


class Address(NamedTuple):
    """The address of a byte of a thing."""

    dst: int
    thing: int
    offset: int
    line: SourceLine | None = None
    number: int | None = None  # where the thing has a place
    is_native: bool = False  # an address in the map, and no number


class MapOf(NamedTuple):
    """A map, as a lookup takes it."""

    dst: int
    thing: int
    line: SourceLine | None = None


class CodeOf(NamedTuple):
    """A function, as a loop call takes it."""

    dst: int
    function: int
    line: SourceLine | None = None


class Load(NamedTuple):
    """A load of some bytes."""

    size: int
    signed: bool
    dst: int
    base: int
    offset: int
    line: SourceLine | None = None


class Store(NamedTuple):
    """A store of some bytes of a register, or of a number where that is none."""

    size: int
    base: int
    offset: int
    src: int | None
    imm: int
    line: SourceLine | None = None


class Atomic(NamedTuple):
    """An atomic operation, by its word."""

    size: int
    op: str
    base: int
    offset: int
    src: int
    line: SourceLine | None = None


class Call(NamedTuple):
    """A call of a helper."""

    helper: int
    line: SourceLine | None = None


class CallLocal(NamedTuple):
    """A call of another function."""

    function: int
    line: SourceLine | None = None


Insn = Union[Alu, Number, Address, MapOf, CodeOf, Load, Store, Atomic, Call, CallLocal]


class Goto(NamedTuple):
    """The end of a block that has one successor."""

    target: int
    line: SourceLine | None = None


class Branch(NamedTuple):
    """The end of a block that has two."""

    op: str
    width: int
    dst: int
    src: int | None
    imm: int
    taken: int
    other: int
    line: SourceLine | None = None


class Exit(NamedTuple):
    """The end of the function."""

    line: SourceLine | None = None


class Stop(NamedTuple):
    """The end of the program by a trap of a number."""

    trap: int
    register: int | None = None  # what the test was of
    line: SourceLine | None = None


End = Union[Goto, Branch, Exit, Stop]


@dataclass
class Block:
    """Instructions that are done one after another, and where they lead."""

    insns: list
    end: End

    @property
    def line(self) -> SourceLine | None:
        """The line of C that it begins at."""
        return self.insns[0].line if self.insns else self.end.line


class Kept(NamedTuple):
    """The words of main's frame in which a callback that was a loop of main keeps what goes from round to round."""

    top: int  # the byte of the frame under which they lie

    @property
    def way(self) -> int:
        """The place of the number of the exit that was taken."""
        return self.top - 8 - FRAME_BYTES

    @property
    def part(self) -> int:
        """The place of the number of the inner loop that goes on, or of 0."""
        return self.top - 16 - FRAME_BYTES

    @property
    def count(self) -> int:
        """The place of the number of rounds that are done."""
        return self.top - 24 - FRAME_BYTES

    def load(self, register: int, line: SourceLine | None) -> Load:
        """What gives a register what was kept of it."""
        return Load(8, False, register, FRAME, self.top - 8 * (register + 4) - FRAME_BYTES, line)

    def store(self, register: int, line: SourceLine | None) -> Store:
        """What keeps a register."""
        return Store(8, FRAME, self.top - 8 * (register + 4) - FRAME_BYTES, register, 0, line)

    @property
    def bottom(self) -> int:
        """The lowest byte of the frame that they take."""
        return self.top - 8 * (len(REGISTERS) + 3)


@dataclass
class Function:
    """A function: its blocks by their labels."""

    name: str
    entry: int = 0
    blocks: dict[int, Block] = field(default_factory=dict)
    line: SourceLine | None = None
    frame_of: int | None = None  # the function whose frame register 10 means, where that isn't its own
    kept: Kept | None = None  # where it was a loop of main; of main itself, the lowest one of all of these
    needed: dict[int, tuple[int, ...]] = field(default_factory=dict)  # of each end the registers that are read behind
    step: int = 0  # its block that leads to what a round does
    parts: int = 0  # the inner loops that are left and gone on with round by round
    visits: dict[int, int] = field(default_factory=dict)  # how often first blocks of loops are come to, at most

    @property
    def insns(self) -> Iterator[Any]:
        """The instructions of all blocks, without the blocks' ends."""
        return (insn for block in self.blocks.values() for insn in block.insns)

    @property
    def size(self) -> int:
        return sum(len(block.insns) + 1 for block in self.blocks.values())


def successors(end: End) -> tuple[int, ...]:
    """The labels that the end of a block leads to."""
    if isinstance(end, Goto):
        return (end.target,)
    return (end.taken, end.other) if isinstance(end, Branch) else ()


def renamed(end: End, labels: dict[int, int]) -> End:
    """The end of a block with other labels."""
    if isinstance(end, Goto):
        return end._replace(target=labels[end.target])
    if isinstance(end, Branch):
        return end._replace(taken=labels[end.taken], other=labels[end.other])
    return end


def reads(insn: Insn | End) -> tuple[int, ...]:
    """The registers that an instruction reads."""
    if isinstance(insn, Alu):
        operand = () if insn.src is None else (insn.src,)
        return operand if insn.op.startswith("mov") else (insn.dst, *operand)
    if isinstance(insn, Load):
        return (insn.base,)
    if isinstance(insn, Store):
        return (insn.base,) if insn.src is None else (insn.base, insn.src)
    if isinstance(insn, Atomic):
        return (insn.base, insn.src, RESULT) if insn.op == "cmpxchg" else (insn.base, insn.src)
    if isinstance(insn, Branch):
        return (insn.dst,) if insn.src is None else (insn.dst, insn.src)
    if isinstance(insn, Call):
        return (1, 2) if insn.helper == LOOKUP else (1, 2, 3, 4)
    if isinstance(insn, CallLocal):
        return ARGUMENTS
    if isinstance(insn, Stop):
        return () if insn.register is None else (insn.register,)
    return (RESULT,) if isinstance(insn, Exit) else ()


def writes(insn: Insn | End) -> tuple[int, ...]:
    """The registers that an instruction writes, or leaves without a value."""
    if isinstance(insn, (Alu, Number, Address, MapOf, CodeOf, Load)):
        return (insn.dst,)
    if isinstance(insn, Atomic):
        if insn.op == "cmpxchg":
            return (RESULT,)
        return (insn.src,) if insn.op == "xchg" or insn.op.endswith("_fetch") else ()
    return (RESULT, *ARGUMENTS) if isinstance(insn, (Call, CallLocal)) else ()


def order_of(function: Function) -> list[int]:
    """The labels that the entry leads to, each behind all that lead to it where no jump goes backwards.

    Of two successors the one that follows in the code, which isn't jumped to, comes first.
    """
    return [*finished(function.entry, lambda label: successors(function.blocks[label].end), set())][::-1]


def finished(start: int, following: Callable[[int], Iterable[int]], seen: set[int]) -> Iterator[int]:
    """The labels that one leads to over such as weren't seen, each after those that it leads to."""
    seen.add(start)
    stack = [(start, iter(following(start)))]
    while stack:
        label, rest = stack[-1]
        other = next((other for other in rest if other not in seen), None)
        if other is None:
            stack.pop()
            yield label
        else:
            seen.add(other)
            stack.append((other, iter(following(other))))


def backward(function: Function) -> Iterator[tuple[int, int]]:
    """The edges that lead backwards in that order, each with the label that it comes from."""
    place = {label: at for at, label in enumerate(order_of(function))}
    for label, at in place.items():
        for following in successors(function.blocks[label].end):
            if place[following] <= at:
                yield label, following


def loop_of(function: Function, header: int) -> set[int]:
    """The blocks of the loop that begins at one."""
    place = {label: at for at, label in enumerate(order_of(function))}
    leads: dict[int, list[int]] = {}
    for label in place:
        for following in successors(function.blocks[label].end):
            leads.setdefault(following, []).append(label)
    labels = {header}
    for label in leads.get(header, []):
        if place[label] >= place[header] and label not in labels:
            deque(finished(label, lambda label: leads.get(label, []), labels), 0)
    return labels


def line_text(line: SourceLine | None) -> str:
    """The place of a line of C, as it stands in front of a message."""
    return f"{line.file}:{line.number}: " if line else ""
