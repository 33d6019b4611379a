#!/usr/bin/env python3
"""Tests each step of the loader, by running a program's form before and after it. It needs no clang and no bpfspec."""

from __future__ import annotations

import random
import re
import sys
import unittest
from pathlib import Path
from typing import Optional
from unittest.mock import patch

sys.path[:0] = [str(Path(__file__).resolve().parents[1]), str(Path(__file__).resolve().parent)]

from bpf_object.code import (  # noqa: E402
    LOOP,
    Address,
    Alu,
    Atomic,
    Block,
    Branch,
    Call,
    CallLocal,
    CodeOf,
    Exit,
    Function,
    Goto,
    Load,
    Store,
    backward,
)
from bpf_object.bounds import Bounds  # noqa: E402
from bpf_object.btf import SourceLine  # noqa: E402
from bpf_object.emit import Emitted  # noqa: E402
from bpf_object.fit import fit  # noqa: E402
from bpf_object.inline import inline, lowest_byte  # noqa: E402
from bpf_object.memory import Kind, Memory  # noqa: E402
from bpf_object.mend import Mender  # noqa: E402
from bpf_object.outline import outline  # noqa: E402
from bpf_object.ranges import ALL, HOLDS, NUMBERS, Range, alu, compute, exact, norm, refine  # noqa: E402
from bpf_object.refusal import NoRoom  # noqa: E402
from bpf_object.counted import FALLING, RISING  # noqa: E402
from loader.forms import After, Before  # noqa: E402

SEED = 7
TRIES = 3000
RUN = Mender.run


def mov(dst: int, number: int) -> Alu:
    return Alu("mov", 64, dst, None, number)


def copy(dst: int, src: int) -> Alu:
    return Alu("mov", 64, dst, src, 0)


def op(name: str, dst: int, src: int) -> Alu:
    return Alu(name, 64, dst, src, 0)


def imm(name: str, dst: int, number: int) -> Alu:
    return Alu(name, 64, dst, None, number)


class NoObject:
    """An object without sections."""

    sections: list = []

    def section(self, name: str) -> None:
        return None


def memory_of(**sizes: int) -> Memory:
    """Global variables of some sizes, from thing 3 on."""
    memory = Memory(NoObject(), None)  # type: ignore[arg-type]
    for name, size in sizes.items():
        memory.add(Kind.GLOBAL, name, size).data = bytes((7 * at + 3) % 251 for at in range(size))
    return memory


class Same(unittest.TestCase):
    """A program's answer and variables are the same in both forms."""

    def compare(self, memory: Memory, functions: dict, argument: int = 5) -> str:
        before = Before(memory, functions)
        answer = before.run(0, [argument])
        loaded = fit(memory, inline(functions), ({1, 2, 4}, set())).loaded(["main"])
        after = After(loaded.unit, loaded.initial[0])
        self.assertEqual(after.run(0, [argument]), answer)
        for variable, thing in zip(loaded.variables, memory.things[3:]):
            found = bytes(before.read(before.address(thing.number) + at, 1) for at in range(thing.size))
            self.assertEqual(variable.bytes_in(after.words), found, variable.name)
            words = list(after.words)
            variable.put(words, found)
            self.assertEqual(variable.bytes_in(words), found)
        return loaded.unit


class Ranges(unittest.TestCase):
    """Ranges have all numbers that an operation gives."""

    def setUp(self) -> None:
        self.random = random.Random(SEED)

    def number_in(self, r: Range) -> int:
        return r.lo if r.lo == r.hi else self.random.randrange(r.lo, r.hi + 1) >> r.z << r.z

    def range(self) -> Range:
        bits = self.random.choice((3, 8, 16, 32, 40, 64))
        lo, hi = sorted(self.random.randrange(1 << bits) for _ in range(2))
        return norm(lo, hi, self.random.choice((0, 0, 1, 3)))

    def test_arithmetic(self) -> None:
        for _ in range(TRIES):
            name, width = self.random.choice([*NUMBERS]), self.random.choice((32, 64))
            a, b = self.range(), self.random.choice((self.range(), exact(self.random.randrange(70))))
            x, y = self.number_in(a), self.number_in(b)
            found, got = alu(name, width, a, b), compute(name, width, x, y)
            self.assertTrue(found.lo <= got <= found.hi and (got >> found.z << found.z == got or found.z == 64), name)

    def test_comparisons(self) -> None:
        for _ in range(TRIES):
            name, a, b = self.random.choice([*HOLDS]), self.range(), self.range()
            x, y = self.number_in(a), self.number_in(b)
            if HOLDS[name](x, y, 64):
                found = refine(name, 64, a, b)
                self.assertIsNotNone(found, name)
                for r, number in zip(found or (), (x, y)):
                    self.assertTrue(r.lo <= number <= r.hi, name)


class Rounds(unittest.TestCase):
    """A loop's rounds are at least those that it does, and as many where a counter tells them."""

    def rounds(self, start: list, steps: list, end: Branch) -> Optional[int]:
        """The most rounds of a loop whose block is 1, and that goes on to 1."""
        blocks = {0: Block(start, Goto(1)), 1: Block(steps, end), 2: Block([], Exit())}
        return Bounds(Function("main", 0, blocks)).rounds(1)

    def done(self, start: int, step: int, test: str, width: int, bound: int) -> Optional[int]:
        """The rounds that the loop of a counter does, where they aren't many."""
        at = start
        for count in range(1, 200):
            at = (at + step) & ALL
            mask = ALL >> (64 - width)
            if not HOLDS[test](at & mask, bound & mask, width):
                return count
        return None

    def test_counters(self) -> None:
        chosen = random.Random(SEED)
        for _ in range(TRIES):
            start, bound = chosen.randrange(-40, 40), chosen.randrange(-40, 40)
            step, test = chosen.choice((-3, -2, -1, 1, 2, 3)), chosen.choice([*HOLDS])
            width = chosen.choice((32, 64))
            done = self.done(start & ALL, step, test, width, bound)
            end = Branch(test, width, 6, None, bound, 1, 2)
            found = self.rounds([mov(6, start)], [imm("add", 6, step)], end)
            is_met = test in (RISING if step > 0 else FALLING)
            if is_met and done is not None:
                self.assertEqual(found, done, (start, step, test, width, bound))
            elif found is not None and found < 200:
                self.assertLessEqual(done or 0, found, (start, step, test, width, bound))
                self.assertIsNotNone(done, (start, step, test, width, bound))

    def test_low_half_and_frame(self) -> None:
        low = [copy(2, 6), imm("lsh", 2, 32), imm("rsh", 2, 32)]
        end = Branch("jne", 64, 2, None, 100, 1, 2)
        self.assertEqual(self.rounds([mov(6, 0)], [imm("add", 6, 1), *low], end), 100)
        slot = [Load(4, False, 6, 10, -4), imm("add", 6, 1), Store(4, 10, -4, 6, 0), *low]
        self.assertEqual(self.rounds([Store(4, 10, -4, None, 0)], slot, end), 100)
        taken = [copy(3, 10), imm("add", 3, -4), Store(8, 3, 0, 1, 0)]
        self.assertIsNone(self.rounds([Store(4, 10, -4, None, 0)], [*slot, *taken], end))

    def test_unknown(self) -> None:
        end = Branch("jlt", 64, 6, 7, 0, 1, 2)
        self.assertIsNone(self.rounds([mov(6, 0)], [imm("add", 6, 1)], end))
        byte = [mov(6, 0), Load(1, False, 7, 1, 0)]
        self.assertEqual(self.rounds(byte, [imm("add", 6, 1)], end), 255)
        self.assertIsNone(self.rounds(byte, [imm("add", 6, 1)], Branch("jne", 64, 6, 7, 0, 1, 2)))
        self.assertIsNone(self.rounds([copy(6, 1)], [imm("add", 6, 1)], Branch("jne", 64, 6, None, 9, 1, 2)))


class Steps(Same):
    """Each step keeps what a program does."""

    def test_sizes_and_places(self) -> None:
        for size in (1, 2, 4, 8):
            for other in (size, 8):
                with self.subTest(size=size, other=other):
                    insns = [Address(6, 3, 0), copy(7, 1), imm("and", 7, 3), imm("mul", 7, size), op("add", 6, 7)]
                    insns += [Load(size, False, 8, 6, size), imm("add", 8, 1), Store(size, 6, 0, 8, 0)]
                    insns += [Address(5, 3, 8), Store(other, 5, 8, None, -2), Load(other, False, 0, 5, 0)]
                    self.compare(memory_of(a=64), {0: Function("main", 0, {0: Block(insns, Exit())})})

    def test_uneven(self) -> None:
        for at in range(1, 16):
            for size in (2, 4, 8):
                with self.subTest(at=at, size=size):
                    insns = [Address(6, 3, at), Load(size, False, 0, 6, 0), copy(2, 0), imm("xor", 2, -1)]
                    insns += [Store(size, 6, 1, 2, 0), Store(size, 6, 9, None, -7)]
                    self.compare(memory_of(a=40), {0: Function("main", 0, {0: Block(insns, Exit())})})

    def test_address_below_the_begin(self) -> None:
        for distance in (8, 24, 1000):
            known = [Address(6, 3, 0), imm("add", 6, -distance), copy(7, 1), imm("lsh", 7, 3), op("add", 6, 7)]
            unknown = [Address(6, 3, 0), copy(7, 1), imm("lsh", 7, 3), op("add", 6, 7), imm("add", 6, -distance)]
            turned = [Address(7, 3, 0), imm("sub", 7, distance), copy(6, 1), imm("lsh", 6, 3), op("add", 6, 7)]
            for insns in known, unknown, turned:
                body = [*insns, Load(8, False, 0, 6, distance), Store(8, 6, distance + 8, 0, 0)]
                functions = {0: Function("main", 0, {0: Block(body, Exit())})}
                for argument in (0, 1, 4):
                    self.compare(memory_of(a=48), functions, argument)

    def test_loop_downwards(self) -> None:
        for size in (1, 2, 8):
            start = Block([mov(6, 9), mov(0, 0), Address(7, 3, 10 * size)], Goto(1))
            body = [copy(2, 1), imm("mul", 2, size), op("add", 2, 7), Load(size, False, 3, 2, 9 * size)]
            body += [op("add", 0, 3), Store(size, 2, 8 * size, 6, 0), imm("sub", 7, 2 * size), imm("sub", 6, 1)]
            round_ = Block(body, Branch("jne", 64, 6, None, -1, 1, 2))
            function = Function("main", 0, {0: start, 1: round_, 2: Block([], Exit())})
            for argument in (0, 3):
                self.compare(memory_of(a=24 * size), {0: function}, argument)

    def test_alignment_is_known_of_what_was_put_aside(self) -> None:
        insns = [Address(9, 4, 0), copy(2, 1), imm("lsh", 2, 3), op("add", 9, 2), Address(8, 3, 0), op("add", 8, 1)]
        insns += [mov(register, register) for register in (3, 4, 5, 6, 7)]
        insns += [Atomic(8, "add_fetch", 9, 0, register) for register in (3, 4, 5, 6, 7)]
        insns += [copy(0, 1), Store(1, 8, 0, 0, 0), Load(8, False, 9, 9, 8), op("add", 0, 9)]
        insns += [op("add", 0, register) for register in (1, 2, 3, 4, 5, 6, 7)]
        insns += [Load(1, False, 1, 8, 1), op("add", 0, 1)]
        unit = self.compare(memory_of(a=16, b=64), {0: Function("main", 0, {0: Block(insns, Exit())})}, 3)
        aside = re.search(r"ldx64 r(\d), \[r10-\d+\]\n +and64 r\1, -8\n", unit)
        self.assertIsNotNone(aside, unit)

    def test_function_put_in(self) -> None:
        called = [copy(6, 2), copy(7, 2), Store(8, 10, -8, 6, 0), Load(8, False, 8, 1, 0), copy(9, 8)]
        called += [op("add", 6, 7), op("mul", 9, 6), copy(0, 9), Store(8, 1, 8, 7, 0)]
        insns = [copy(6, 1), mov(7, 11), mov(8, 13), copy(9, 10), imm("add", 9, -16), Store(8, 10, -16, 8, 0)]
        insns += [copy(1, 9), copy(2, 6), CallLocal(1), op("add", 7, 0), copy(1, 9), mov(2, 3), CallLocal(1)]
        insns += [op("add", 0, 6), op("add", 0, 7), op("add", 0, 8), Load(8, False, 3, 9, 8), op("add", 0, 3)]
        functions = {0: Function("main", 0, {0: Block(insns, Exit())}), 1: Function("f", 0, {0: Block(called, Exit())})}
        self.compare(memory_of(a=8), functions)

    def loop(self, rounds: int) -> Function:
        """Adds and stores bytes in a loop of some rounds."""
        start = Block([mov(6, 0), mov(0, 0), Address(7, 3, 0)], Goto(1))
        body = [Load(1, False, 2, 7, 0), op("add", 0, 2), op("xor", 2, 6), Store(1, 7, 0, 2, 0), imm("add", 7, 1)]
        round_ = Block([*body, imm("add", 6, 1)], Branch("jlt", 64, 6, None, rounds, 1, 2))
        return Function("main", 0, {0: start, 1: round_, 2: Block([], Exit())})

    def test_loop_is_copied(self) -> None:
        memory = memory_of(a=40)
        self.compare(memory, {0: self.loop(40)})
        done = Mender(memory, {0: self.loop(40)}, {1}).run(8000, {})
        self.assertEqual([*backward(done.functions[0])], [])
        self.assertEqual(done.copied, {(0, 1): 40})

    def test_loop_is_a_callback(self) -> None:
        functions = outline({0: self.loop(40)}, 1, Bounds(self.loop(40)).visits(1))
        assert functions
        self.assertEqual([*functions], [0, 1])
        self.compare(memory_of(a=40), {0: self.loop(40)})
        unit = self.compare(memory_of(a=2000), {0: self.loop(2000)})
        self.assertIn("call 181", unit)
        self.assertIn("mov64 r1, 2000\n", unit)

    def test_loop_of_a_callback_is_parted(self) -> None:
        body = [Load(1, False, 3, 7, 0), op("add", 3, 1), op("xor", 3, 6), Store(1, 7, 0, 3, 0), imm("add", 7, 1)]
        start = Block([mov(6, 0), Address(7, 3, 0)], Goto(1))
        round_ = Block([*body, imm("add", 6, 1)], Branch("jlt", 64, 6, None, 600, 1, 2))
        callback = Function("f", 0, {0: start, 1: round_, 2: Block([mov(0, 0)], Exit())})
        call = [mov(1, 3), CodeOf(2, 1), mov(3, 0), mov(4, 0), Call(LOOP), mov(0, 9)]
        unit = self.compare(memory_of(a=600), {0: Function("main", 0, {0: Block(call, Exit())}), 1: callback})
        self.assertIn("main_round", unit)
        self.assertRegex(unit, r"mov64 r1, \d{4}\n")

    def test_frame_of_function_put_in(self) -> None:
        called = [copy(2, 10), imm("add", 2, -24), Store(8, 2, 0, 1, 0), Load(8, False, 0, 10, -24)]
        main = Function("main", 0, {0: Block([Store(8, 10, -8, None, 3), CallLocal(1)], Exit())})
        functions = inline({0: main, 1: Function("f", 0, {0: Block(called, Exit())})})
        self.assertEqual(lowest_byte(functions[0]), 512 - 8 - 24)
        addresses = [copy(2, 10), imm("add", 2, -8), imm("add", 2, -24), mov(2, 0), imm("add", 2, -400)]
        self.assertEqual(lowest_byte(Function("main", 0, {0: Block(addresses, Exit())})), 512 - 32)

    def sums(self, rest: list) -> str:
        insns = [Load(8, False, 3, 2, 0), op("add", 3, 1), Store(8, 2, 0, 3, 0), *rest, mov(0, 0)]
        main = [Store(8, 10, -8, None, 3), mov(1, 9), CodeOf(2, 1), copy(3, 10), imm("add", 3, -8), mov(4, 0)]
        main += [Call(LOOP), Load(8, False, 3, 10, -8), op("add", 0, 3)]
        functions = {0: Function("main", 0, {0: Block(main, Exit())}), 1: Function("f", 0, {0: Block(insns, Exit())})}
        return self.compare(memory_of(a=8), functions)

    def test_sum_is_atomic(self) -> None:
        self.assertIn("atomic64 add", self.sums([]))
        used = [Load(8, False, 4, 2, 0), Address(5, 3, 0), Store(8, 5, 0, 4, 0)]
        self.assertNotIn("atomic64 add", self.sums(used))

    def test_dead_fetch_is_plain(self) -> None:
        insns = [Address(6, 3, 0), mov(2, 5), Atomic(8, "add_fetch", 6, 0, 2), mov(0, 1)]
        unit = self.compare(memory_of(a=8), {0: Function("main", 0, {0: Block(insns, Exit())})})
        self.assertIn("atomic64 add ", unit)

    def test_no_room(self) -> None:
        lines = [SourceLine("x.c", number, "") for number in (7, 9)]
        for count, told in (
            (5999, "takes 6001 slots, of at most 4096, 3999 of them for this line and 2000 for line 9: "),
            (8999, "takes more than 4096 slots, most of them for this line and line 9: "),
        ):
            insns = [mov(0, 0), *(Alu("add", 64, 0, 1, 0, lines[at % 3 == 0]) for at in range(count))]
            seen = patch.object(Mender, "run", autospec=True, side_effect=RUN)
            with self.assertRaises(NoRoom) as refused, seen as run:
                fit(memory_of(), {0: Function("main", 0, {0: Block(insns, Exit())})}, ({1, 2, 4}, set()))
            self.assertEqual(run.call_count, 1)  # nothing has an element of its own, so the other choice is the same
            self.assertEqual(str(refused.exception).partition("each call")[0], f"x.c:7: the code {told}")

    def test_trap(self) -> None:
        insns = [Address(6, 3, 0), imm("lsh", 1, 3), op("add", 6, 1), Load(8, False, 0, 6, 0)]
        memory = memory_of(a=64)
        functions = {0: Function("main", 0, {0: Block(insns, Exit())})}
        self.compare(memory, functions, 7)
        loaded = Emitted(memory, Mender(memory, functions, set()).run(100, {})).loaded(["main"])
        for argument in (8, 1 << 40, ALL):
            after = After(loaded.unit, loaded.initial[0])
            after.run(0, [argument])
            self.assertIn("a", loaded.trap_in(after.words) or "")


if __name__ == "__main__":
    unittest.main()
