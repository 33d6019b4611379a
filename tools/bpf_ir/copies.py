"""Loops in the place of calls of C's functions of memory, which the back end has none of."""

from __future__ import annotations

import re
from collections.abc import Callable
from dataclasses import dataclass
from functools import partial

from .text import Body, Instruction, closing, split_operands

NAMES = "memcpy|memmove|memset|memcmp|bcmp|strlen"
CALL = re.compile(rf"(?:tail |notail |musttail )?call [^@(]*@(?:llvm\.)?({NAMES})\b[\w.]*\(")
ATTRIBUTES = re.compile(
    r"(?:noundef|nonnull|nocapture|readonly|readnone|writeonly|noalias|zeroext|signext|returned|immarg|nofree|noalias"
    r"|align \d+|align\(\d+\)|dereferenceable\(\d+\)|dereferenceable_or_null\(\d+\)|captures\([^)]*\)) "
)
ALIGNED = re.compile(r"\balign[ (](\d+)")
LITERAL = re.compile(r"\d+")
MULTIPLE = re.compile(r"(shl|mul)(?: nuw| nsw)* i64 .*, (\d+)")
WORD_BYTES = 8
STORES = 64  # that the back end makes of a copy
MOVES = 8  # which are in registers all at once


@dataclass(frozen=True)
class Operand:
    """An operand of a call."""

    type: str
    value: str
    align: int


class Copies:
    """The rule for a module. It remembers what is a multiple of what."""

    def __init__(self) -> None:
        self._multiples: dict[str, int] = {}

    def rewrite(self, instruction: Instruction, body: Body) -> bool:
        """Replaces a call of such a function, and says whether it was one."""
        if instruction.result and (found := MULTIPLE.fullmatch(instruction.words)):
            factor = 1 << min(int(found[2]), 3) if found[1] == "shl" else int(found[2]) & -int(found[2])
            self._multiples[instruction.result] = factor
        call = CALL.match(instruction.words)
        if not call:
            return False
        start = call.end() - 1
        inside = instruction.words[start + 1 : closing(instruction.words, start)]
        operands = [_operand(text) for text in split_operands(inside)]
        make = MAKERS.get((call[1], len(operands))) or MAKERS.get((call[1], 0))
        if make is None:
            return False
        step = 1
        if "@llvm." in call[0]:
            pointers = operands[: 1 if call[1] == "memset" else 2]
            length, aligns = operands[2].value, [pointer.align for pointer in pointers]
            if _is_short(call[1], length, aligns):
                return False
            step = self._step(length, aligns)
        make(body, operands, step, instruction.result)
        return True

    def _step(self, length: str, aligns: list[int]) -> int:
        """The bytes that are copied at once."""
        factor = int(length) & -int(length) if LITERAL.fullmatch(length) else self._multiples.get(length, 1)
        return min(WORD_BYTES, factor or WORD_BYTES, *aligns)


def _is_short(name: str, length: str, aligns: list[int]) -> bool:
    """Whether the back end copies so many bytes by itself."""
    most = min(*aligns, WORD_BYTES) * (MOVES if name == "memmove" else STORES)
    return bool(LITERAL.fullmatch(length)) and int(length) <= most


def _operand(text: str) -> Operand:
    type_, _, rest = text.partition(" ")
    align = ALIGNED.match(rest) or ALIGNED.search(rest.split("%")[0].split("@")[0])
    while found := ATTRIBUTES.match(rest):
        rest = rest[found.end() :]
    return Operand(type_, rest, int(align[1]) if align else 1)


def _access(body: Body, pointer: Operand, index: str, step: int) -> str:
    """The type and the name of the address of what is accessed at once."""
    address = body.make(f"getelementptr i8, {pointer.type} {pointer.value}, i64 {index}")
    if pointer.type == "ptr" or step == 1:
        return f"{pointer.type} {address}"
    return f"i{8 * step}* {body.make(f'bitcast i8* {address} to i{8 * step}*')}"


def _length(body: Body, length: Operand) -> str:
    if length.type == "i64" or LITERAL.fullmatch(length.value):
        return length.value
    return body.make(f"zext {length.type} {length.value} to i64")


def _loop(body: Body, length: str, step: int, round_: Callable[[str], None]) -> None:
    """A loop over the bytes that are there; its round is given how many are behind it."""
    if length == "0":
        return
    before, loop, end = body.block, body.fresh(), body.fresh()
    at, following = f"%{body.fresh()}", f"%{body.fresh()}"
    if LITERAL.fullmatch(length):
        body.add(f"br label %{loop}")
    else:
        body.add(f"br i1 {body.make(f'icmp eq i64 {length}, 0')}, label %{end}, label %{loop}")
    body.begin(loop)
    body.make(f"phi i64 [ 0, %{before} ], [ {following}, %{loop} ]", at)
    round_(at)
    body.make(f"add nuw i64 {at}, {step}", following)
    body.add(f"br i1 {body.make(f'icmp ult i64 {following}, {length}')}, label %{loop}, label %{end}")
    body.begin(end)


def _copy(body: Body, operands: list[Operand], step: int, result: str | None, is_move: bool = False) -> None:
    """A move goes from the last byte to the first where the target has the greater address."""
    to, source = operands[:2]
    length = _length(body, operands[2])
    bits = f"i{8 * step}"
    if is_move:
        is_greater = body.make(f"icmp ugt {to.type} {to.value}, {source.value}")
        last = body.make(f"sub i64 {length}, {step}")

    def round_(at: str) -> None:
        if is_move:
            mirrored = body.make(f"sub i64 {last}, {at}")
            at = body.make(f"select i1 {is_greater}, i64 {mirrored}, i64 {at}")
        value = body.make(f"load {bits}, {_access(body, source, at, step)}, align {step}")
        body.add(f"store {bits} {value}, {_access(body, to, at, step)}, align {step}")

    _loop(body, length, step, round_)
    _give(body, to, result)


def _set(body: Body, operands: list[Operand], step: int, result: str | None) -> None:
    to, byte = operands[:2]
    length = _length(body, operands[2])
    bits = f"i{8 * step}"
    value = byte.value if byte.type == "i8" else body.make(f"trunc {byte.type} {byte.value} to i8")
    if step > 1 and value != "0":
        repeated = int("01" * step, 16)
        value = body.make(f"mul {bits} {body.make(f'zext i8 {value} to {bits}')}, {repeated}")

    def round_(at: str) -> None:
        body.add(f"store {bits} {value}, {_access(body, to, at, step)}, align {step}")

    _loop(body, length, step, round_)
    _give(body, to, result)


def _give(body: Body, to: Operand, result: str | None) -> None:
    """The function's own result is its first operand."""
    if result:
        body.make(f"getelementptr i8, {to.type} {to.value}, i64 0", result)


def _compare(body: Body, operands: list[Operand], step: int, result: str | None) -> None:
    """The difference of the first bytes that differ, or 0."""
    left, right = operands[:2]
    length = _length(body, operands[2])
    before, loop, differ, equal, end = body.block, *(body.fresh() for _ in range(4))
    at, following = f"%{body.fresh()}", f"%{body.fresh()}"
    body.add(f"br i1 {body.make(f'icmp eq i64 {length}, 0')}, label %{end}, label %{loop}")
    body.begin(loop)
    body.make(f"phi i64 [ 0, %{before} ], [ {following}, %{equal} ]", at)
    one, another = (
        body.make(f"zext i8 {body.make(f'load i8, {_access(body, pointer, at, 1)}, align 1')} to i32")
        for pointer in (left, right)
    )
    body.add(f"br i1 {body.make(f'icmp eq i32 {one}, {another}')}, label %{equal}, label %{differ}")
    body.begin(equal)
    body.make(f"add nuw i64 {at}, 1", following)
    body.add(f"br i1 {body.make(f'icmp ult i64 {following}, {length}')}, label %{loop}, label %{end}")
    body.begin(differ)
    difference = body.make(f"sub i32 {one}, {another}")
    body.add(f"br label %{end}")
    body.begin(end)
    body.make(f"phi i32 [ 0, %{before} ], [ 0, %{equal} ], [ {difference}, %{differ} ]", result)


def _measure(body: Body, operands: list[Operand], step: int, result: str | None) -> None:
    """The bytes before the first that is 0."""
    before, loop, end = body.block, body.fresh(), body.fresh()
    at, following = result or f"%{body.fresh()}", f"%{body.fresh()}"
    body.add(f"br label %{loop}")
    body.begin(loop)
    body.make(f"phi i64 [ 0, %{before} ], [ {following}, %{loop} ]", at)
    byte = body.make(f"load i8, {_access(body, operands[0], at, 1)}, align 1")
    body.make(f"add nuw i64 {at}, 1", following)
    body.add(f"br i1 {body.make(f'icmp eq i8 {byte}, 0')}, label %{end}, label %{loop}")
    body.begin(end)


MAKERS: dict[tuple[str, int], Callable[[Body, list[Operand], int, str | None], None]] = {
    ("memcpy", 0): _copy,
    ("memmove", 0): partial(_copy, is_move=True),
    ("memset", 0): _set,
    ("memcmp", 3): _compare,
    ("bcmp", 3): _compare,
    ("strlen", 1): _measure,
}
