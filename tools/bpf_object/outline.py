"""Makes a callback of a loop in main, for the loops that there is no room to copy.

The callback does one round. What registers hold from one round to the next lies in main's frame meanwhile, which the
callback reaches, so that it has to be in the map. A loop in such a callback, for which there is no room either, is
parted: each of its rounds ends the callback, and the next iteration goes on with it.

An iteration that isn't run behind the one before, as where a loop is tried by several workers, ends the loop at once.
"""

from __future__ import annotations

from dataclasses import replace

from .bounds import Visits
from .code import FRAME, LOOP, REGISTERS, RESULT, Alu, Block, Branch, Call, CodeOf, End, Exit, Function, Goto, Kept
from .code import Load, Stop, Store, loop_of, order_of, renamed, successors, writes
from .inline import Inliner, callbacks_in, live_in_of, lowest_byte

MOST_ROUNDS = 1 << 23  # that a loop call does


def outline(functions: dict[int, Function], header: int, visits: Visits) -> dict[int, Function] | None:
    """The functions with one more, or nothing where the loop can't be made one; its own visits are its rounds."""
    main = functions[0]
    labels = loop_of(main, header)
    order = order_of(main)
    enters = [label for label in order if label not in labels and set(successors(main.blocks[label].end)) & labels]
    inner = labels - {header}
    if main.entry in inner or any(set(successors(main.blocks[label].end)) & inner for label in enters):
        return None
    named = callbacks_in(main, labels)
    if any(functions[callback].frame_of is None for callback in named):
        return None  # the user's own loop calls stay main's
    is_shared = main.kept is not None and not named
    site = _Site(main, header, labels, main.kept if is_shared else Kept(lowest_byte(main)))
    if site.kept.bottom < 0:
        return None
    number = max(functions) + 1
    done = dict(functions)
    done[number] = replace(site.body(), visits=visits)
    done[0] = site.main(number, enters, visits.get(header, MOST_ROUNDS))
    done[number] = Inliner(done).whole(number, True)
    return done


def part(functions: dict[int, Function], number: int, header: int) -> dict[int, Function]:
    """The functions with one of the loops of a callback parted, which was a loop of main itself."""
    more = functions[number].visits.get(header, MOST_ROUNDS)
    blocks = {label: _with_more(block, number, more) for label, block in functions[0].blocks.items()}
    return {**functions, 0: replace(functions[0], blocks=blocks), number: _parted(functions[number], header)}


def _with_more(block: Block, number: int, more: int) -> Block:
    """A block, where the call of a callback does more rounds if it is there."""
    insns = list(block.insns)
    for at, (count, insn) in enumerate(zip(insns, insns[1:])):
        if isinstance(insn, CodeOf) and insn.function == number:
            insns[at] = count._replace(imm=min(count.imm + more, MOST_ROUNDS))
    return Block(insns, block.end)


def _parted(function: Function, header: int) -> Function:
    kept = function.kept
    assert kept is not None
    if not function.parts:
        function = _with_all_kept(function, kept)
    line = function.blocks[header].line
    live = live_in_of(function)[header]
    registers = [register for register in REGISTERS if live >> register & 1]
    choice, again, leave = (max(function.blocks) + n for n in (1, 2, 3))
    number = function.parts + 1
    blocks = {label: Block(block.insns, _led(block.end, header, leave)) for label, block in function.blocks.items()}
    step = blocks[function.step]
    chosen = Branch("jeq", 64, 1, None, number, again, successors(step.end)[0])
    blocks[choice] = Block([Load(8, False, 1, FRAME, kept.part, line)], chosen)
    blocks[function.step] = Block(step.insns, Goto(choice, line))
    loads = [kept.load(register, line) for register in registers]
    blocks[again] = Block([Store(8, FRAME, kept.part, None, 0, line), *loads], Goto(header, line))
    stores = [*(kept.store(register, line) for register in registers), Store(8, FRAME, kept.part, None, number, line)]
    blocks[leave] = Block([*stores, Alu("mov", 64, RESULT, None, 0, line)], Exit(line))
    return replace(function, blocks=blocks, parts=number)


def _with_all_kept(function: Function, kept: Kept) -> Function:
    """A callback whose ends keep all registers that are read behind them, since the words are used within it too."""
    blocks = dict(function.blocks)
    for label, registers in function.needed.items():
        block = blocks[label]
        stores = [kept.store(register, block.end.line) for register in registers]
        blocks[label] = Block([*stores, *(insn for insn in block.insns if insn not in stores)], block.end)
    return replace(function, blocks=blocks)


class _Site:
    def __init__(self, main: Function, header: int, labels: set[int], kept: Kept) -> None:
        self._main = main
        self._header = header
        self._labels = labels
        self._live = live_in_of(main)
        self._next = max(main.blocks) + 1
        self._line = main.blocks[header].line
        edges = [(label, to) for label in sorted(labels) for to in successors(main.blocks[label].end)]
        self._exits = sorted({to for _, to in edges if to not in labels})
        self._written = {r for label in labels for insn in main.blocks[label].insns for r in writes(insn)}
        self.kept = kept  # the same words as those of another loop, which isn't in this one

    def _registers(self, label: int) -> list[int]:
        return [register for register in REGISTERS if self._live[label] >> register & 1]

    def _loads(self, label: int) -> list[Load]:
        return [self.kept.load(register, self._line) for register in self._registers(label)]

    def _stores(self, label: int) -> list[Store]:
        return [self.kept.store(r, self._line) for r in self._registers(label) if r in self._written]

    def _number(self, register: int, number: int) -> Alu:
        return Alu("mov", 64, register, None, number, self._line)

    def body(self) -> Function:
        """One round."""
        name = f"{self._main.name}_round"
        entry, step, start, stale, again = (self._next + n for n in range(5))
        function = Function(name, entry, {}, self._line, 0, self.kept, step=step)
        blocks = function.blocks
        count = Load(8, False, 2, FRAME, self.kept.count, self._line)
        blocks[entry] = Block([count], Branch("jeq", 64, 1, 2, 0, step, stale, self._line))
        counted = [Alu("add", 64, 1, None, 1, self._line), Store(8, FRAME, self.kept.count, 1, 0, self._line)]
        blocks[step] = Block(counted, Goto(start, self._line))
        blocks[stale] = Block([self._number(RESULT, 1)], Exit(self._line))
        blocks[start] = Block(self._loads(self._header), Goto(self._header, self._line))
        function.needed[again] = tuple(self._registers(self._header))
        blocks[again] = Block([*self._stores(self._header), self._number(RESULT, 0)], Exit(self._line))
        leading = {label: label for label in self._labels}
        leading[self._header] = again
        for number, label in enumerate(self._exits, 1):
            out = leading[label] = again + number
            function.needed[out] = tuple(self._registers(label))
            way = Store(8, FRAME, self.kept.way, None, number, self._line)
            blocks[out] = Block([*self._stores(label), way, self._number(RESULT, 1)], Exit(self._line))
        for label in self._labels:
            block = self._main.blocks[label]
            blocks[label] = Block(block.insns, renamed(block.end, leading))
        return function

    def main(self, number: int, enters: list[int], rounds: int) -> Function:
        """Main with a loop call of so many rounds in place of the loop."""
        main = self._main
        blocks = {label: block for label, block in main.blocks.items() if label not in self._labels}
        call, self._next = self._next, self._next + 1
        for label in enters:
            blocks[label] = Block(blocks[label].insns, _led(blocks[label].end, self._header, call))
        insns: list = [self.kept.store(register, self._line) for register in self._registers(self._header)]
        begun = (self.kept.way, self.kept.part, self.kept.count)
        insns += [Store(8, FRAME, place, None, 0, self._line) for place in begun]
        insns += [self._number(1, min(rounds, MOST_ROUNDS)), CodeOf(2, number, self._line)]
        insns += [self._number(3, 0), self._number(4, 0)]
        insns += [Call(LOOP, self._line), Load(8, False, 1, FRAME, self.kept.way, self._line)]
        blocks[call] = Block(insns, Goto(call, self._line))
        last = call
        for way, label in enumerate(self._exits, 1):
            found, following = self._next, self._next + 1
            self._next += 2
            blocks[found] = Block(self._loads(label), Goto(label, self._line))
            blocks[last].end = Branch("jeq", 64, 1, None, way, found, following, self._line)
            blocks[following] = Block([], Stop(0, None, self._line))
            last = following
        if last == call:
            blocks[call].end = Stop(0, None, self._line)
        entry = call if main.entry == self._header else main.entry
        lowest = min((kept for kept in (main.kept, self.kept) if kept is not None), key=lambda kept: kept.bottom)
        return Function(main.name, entry, blocks, main.line, None, lowest)


def _led(end: End, label: int, instead: int) -> End:
    return renamed(end, {to: instead if to == label else to for to in successors(end)})
