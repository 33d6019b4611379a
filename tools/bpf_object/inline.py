"""Puts functions in at their calls, and loops of callbacks in at theirs, so that main and its callbacks are left.

A function that is put in has the bytes of the frame below those of its caller. Of the registers that it has to leave as
they were, it is given those that its caller doesn't need there; others are kept in the frame meanwhile.
"""

from __future__ import annotations

from collections.abc import Iterable, Iterator
from dataclasses import replace

from .btf import SourceLine
from .code import FRAME, FRAME_BYTES, LOOP, RESULT, SAVED, Alu, Atomic, Block, Branch, Call, CallLocal, CodeOf, Exit
from .code import Function, Goto, Load, Store, line_text, order_of, reads, renamed, writes
from .live import bits, live_after
from .refusal import NoRoom, Refused

SIZE_LIMIT = 20000  # instructions of a function, with all that is put in
COUNT_LIMIT = 1 << 23  # iterations of a loop call
TOO_BIG, INVALID = -7, -22  # answers of a loop call that isn't done


def inline(functions: dict[int, Function]) -> dict[int, Function]:
    """Main and its callbacks, without calls among them."""
    inliner = Inliner(functions)
    done = {0: inliner.whole(0, False)}
    waiting = callbacks_in(done[0], done[0].blocks)
    while waiting:
        number = waiting.pop(0)
        if number not in done:
            done[number] = inliner.whole(number, True)
            waiting += callbacks_in(done[number], done[number].blocks)
    return done


def inline_loop(functions: dict[int, Function], number: int) -> tuple[dict[int, Function], list[int]] | None:
    """The functions with a callback as loops of main, and the first blocks of these.

    It is nothing where main doesn't name the callback right at its calls.
    """
    main = functions[0]
    done = replace(main, blocks=dict(main.blocks))
    headers: list[int] = []
    try:
        for label in order_of(main):
            block = done.blocks[label]
            loops = [at for at, insn in enumerate(block.insns) if isinstance(insn, Call) and insn.helper == LOOP]
            for at in reversed(loops):  # the last one first, so that the others keep their places
                if _loop_callback(block, at) == number:
                    headers.append(_Site(done, label, at, functions[number]).put_in(True))
    except Refused:
        return None
    if number in callbacks_in(done, done.blocks):
        return None
    others = {other: function for other, function in functions.items() if other not in (0, number)}
    return {0: done, **others}, headers


def callbacks_in(function: Function, labels: Iterable[int]) -> list[int]:
    """The callbacks that some blocks name."""
    insns = (insn for label in labels for insn in function.blocks[label].insns)
    return [insn.function for insn in insns if isinstance(insn, CodeOf)]


class Inliner:
    """Puts the functions of a program in."""

    def __init__(self, functions: dict[int, Function]) -> None:
        self._functions = functions
        self._open: list[int] = []  # those that are being put in

    def whole(self, number: int, is_callback: bool) -> Function:
        """A function with all that it calls; a callback's own loop calls too."""
        source = self._functions[number]
        if number in self._open:
            raise Refused(f"{line_text(source.line)}{source.name} calls itself")
        self._open.append(number)
        function = replace(source, blocks=dict(source.blocks))
        is_done = False
        while not is_done:
            call = next(_calls(function, is_callback), None)
            is_done = call is None
            if call:
                self._put_in(function, *call, is_callback)
            if function.size > SIZE_LIMIT:
                raise Refused(f"{line_text(source.line)}{source.name} is too long with all that it calls")
        self._open.pop()
        return function

    def _put_in(self, function: Function, label: int, at: int, is_callback: bool) -> None:
        block = function.blocks[label]
        insn = block.insns[at]
        called = insn.function if isinstance(insn, CallLocal) else _loop_callback(block, at)
        _Site(function, label, at, self.whole(called, is_callback)).put_in(isinstance(insn, Call))


def _calls(function: Function, is_callback: bool) -> Iterator[tuple[int, int]]:
    """The calls in whose place functions are put, by their blocks and their places there."""
    for label in order_of(function):
        for at, insn in enumerate(function.blocks[label].insns):
            if isinstance(insn, CallLocal) or is_callback and isinstance(insn, Call) and insn.helper == LOOP:
                yield label, at


def _loop_callback(block: Block, at: int) -> int:
    """The function that a loop call in a callback names, right in front of it."""
    for insn in reversed(block.insns[:at]):
        if isinstance(insn, CodeOf) and insn.dst == 2:
            return insn.function
        if 2 in writes(insn):
            break
    line = block.insns[at].line
    raise Refused(f"{line_text(line)}a callback calls bpf_loop with a callback that isn't named there")


def _without_name(insns: list) -> list:
    """What is done in front of a loop call that is put in, without the callback's name where nothing else reads it."""
    named = max(at for at, insn in enumerate(insns) if isinstance(insn, CodeOf) and insn.dst == 2)
    is_read = any(2 in reads(insn) for insn in insns[named + 1 :])
    return insns if is_read else [*insns[:named], *insns[named + 1 :]]


class _Site:
    """A call, and the function that is put in for it."""

    def __init__(self, function: Function, label: int, at: int, body: Function) -> None:
        self._function = function
        self._block = function.blocks[label]
        self._label = label
        self._at = at
        self._body = body
        self._line: SourceLine | None = self._block.insns[at].line
        self._next = max(function.blocks) + 1
        live = _live_before(self._block, at + 1, live_in_of(function))
        targets = sorted(SAVED, key=lambda register: live >> register & 1)  # those that hold nothing first
        self._registers = {register: register for register in range(11)}
        self._registers.update(zip(sorted(_saved_used(body)), targets))
        self._kept = [target for target in targets[: len(_saved_used(body))] if live >> target & 1]
        self._lowest = lowest_byte(function)

    def put_in(self, is_loop: bool) -> int:
        """Parts the block at the call, and puts the body between; gives the first block of the loop, if it is one."""
        rest = self._new_label()
        words = len(self._kept) + (3 if is_loop else 0)
        bottom = self._lowest - 8 * words
        shares = self._body.frame_of is not None and self._body.frame_of == self._function.frame_of
        under = FRAME_BYTES if shares else bottom  # where the body's frame ends
        if min(bottom, under - (FRAME_BYTES - lowest_byte(self._body))) < 0:
            name = self._function.name
            raise NoRoom(f"{line_text(self._line)}the frames of {name} and what it calls pass 512 bytes")
        places = [self._lowest - 8 * (n + 1) - FRAME_BYTES for n in range(words)]
        keep = [Store(8, FRAME, place, register, 0, self._line) for register, place in zip(self._kept, places)]
        restore = [Load(8, False, register, FRAME, place, self._line) for register, place in zip(self._kept, places)]
        self._function.blocks[rest] = Block([*restore, *self._block.insns[self._at + 1 :]], self._block.end)
        front = self._block.insns[: self._at]
        front = [*(_without_name(front) if is_loop else front), *keep]
        if is_loop:
            header = self._new_label()
            end = self._loop(header, rest, places[len(self._kept) :], under, front)
        else:
            header = self._copy(rest, under)
            end = Goto(header, self._line)
        self._function.blocks[self._label] = Block(front, end)
        return header

    def _new_label(self) -> int:
        self._next += 1
        self._function.blocks[self._next] = Block([], Exit())
        return self._next

    def _copy(self, rest: int, bottom: int) -> int:
        """Copies the body, with its frame below a byte; each end leads on. Gives the first block."""
        labels = {label: self._new_label() for label in self._body.blocks}
        for label, block in self._body.blocks.items():
            insns: list = []
            for insn in block.insns:
                insns += self._moved(insn, bottom - FRAME_BYTES)
            end = Goto(rest, block.end.line) if isinstance(block.end, Exit) else renamed(block.end, labels)
            if isinstance(end, Branch):
                src = None if end.src is None else self._registers[end.src]
                end = end._replace(dst=self._registers[end.dst], src=src)
            self._function.blocks[labels[label]] = Block(insns, end)
        return labels[self._body.entry]

    def _moved(self, insn, shift: int) -> list:
        names = self._registers
        if isinstance(insn, (Load, Store, Atomic)):
            offset = insn.offset + (shift if insn.base == FRAME else 0)
            insn = insn._replace(base=names[insn.base], offset=offset)
        fields = {field: getattr(insn, field, None) for field in ("dst", "src")}
        found = insn._replace(**{field: names[number] for field, number in fields.items() if number is not None})
        if isinstance(insn, Alu) and insn.src == FRAME:
            if insn.op != "mov" or insn.width != 64:
                raise Refused(f"{line_text(insn.line)}an address of a frame is used in another way than clang does")
            return [found, Alu("add", 64, found.dst, None, shift, insn.line)]
        return [found]

    def _loop(self, test: int, rest: int, places: list[int], bottom: int, front: list) -> Branch:
        """The callback's rounds, with the count, the round and ctx in the frame."""
        line = self._line
        count, at, context = places
        front += [Store(8, FRAME, context, 3, 0, line), Alu("mov", 32, 1, 1, 0, line)]
        front += [Store(8, FRAME, count, 1, 0, line), Store(8, FRAME, at, None, 0, line)]
        valid, more, behind, done = (self._new_label() for _ in range(4))
        invalid, too_big = self._answer(INVALID, rest), self._answer(TOO_BIG, rest)
        blocks = self._function.blocks
        blocks[valid] = Block([], Branch("jgt", 64, 1, None, COUNT_LIMIT, too_big, test, line))
        head = [Load(8, False, 1, FRAME, at, line), Load(8, False, 2, FRAME, count, line)]
        blocks[test] = Block(head, Branch("jge", 64, 1, 2, 0, done, more, line))
        first = self._copy(behind, bottom)
        blocks[more] = Block([Load(8, False, 2, FRAME, context, line)], Goto(first, line))
        step = [Load(8, False, 1, FRAME, at, line), Alu("add", 64, 1, None, 1, line), Store(8, FRAME, at, 1, 0, line)]
        blocks[behind] = Block(step, Branch("jeq", 64, RESULT, None, 0, test, done, line))
        blocks[done] = Block([Load(8, False, RESULT, FRAME, at, line)], Goto(rest, line))
        return Branch("jeq", 64, 4, None, 0, valid, invalid, line)

    def _answer(self, number: int, rest: int) -> int:
        label = self._new_label()
        self._function.blocks[label] = Block([Alu("mov", 64, RESULT, None, number, self._line)], Goto(rest, self._line))
        return label


def _saved_used(function: Function) -> set[int]:
    return {register for insn in function.insns for register in writes(insn) if register in SAVED}


def live_in_of(function: Function) -> dict[int, int]:
    """The registers that are read from each block on, before they are written."""
    live_in = dict.fromkeys(function.blocks, 0)
    order = order_of(function)[::-1]
    before = None
    while before != live_in:
        before = dict(live_in)
        for label in order:
            live_in[label] = _live_before(function.blocks[label], 0, live_in)
    return live_in


def _live_before(block: Block, at: int, live_in: dict[int, int]) -> int:
    live = live_after(block, live_in)
    for insn in reversed(block.insns[at:]):
        live = live & ~bits(writes(insn)) | bits(reads(insn))
    return live


def lowest_byte(function: Function) -> int:
    """The lowest byte of the frame that a function names by constants or keeps registers in, at a multiple of 8."""
    lowest = function.kept.bottom if function.kept else FRAME_BYTES
    for block in function.blocks.values():
        addresses: dict[int, int] = {}  # the registers with an address in the frame, and its byte
        for insn in block.insns:
            if isinstance(insn, (Load, Store, Atomic)) and insn.base == FRAME:
                lowest = min(lowest, FRAME_BYTES + insn.offset)
            if isinstance(insn, Alu) and insn.op == "mov" and insn.src == FRAME:
                addresses[insn.dst] = FRAME_BYTES
            elif isinstance(insn, Alu) and insn.op == "add" and insn.src is None and insn.dst in addresses:
                addresses[insn.dst] += insn.imm
                lowest = min(lowest, addresses[insn.dst])
            else:
                for register in writes(insn):
                    addresses.pop(register, None)
    return max(lowest // 8 * 8, 0)
