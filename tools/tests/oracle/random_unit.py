"""Random functions of units, in assembler text: numbers and addresses, and what is done with them."""

from __future__ import annotations

import random
from collections.abc import Callable, Iterator
from contextlib import contextmanager

NUMBER, FRAME, CTX = "number", "frame", "ctx"  # kinds of values: an address of an area and one to test name the map
REGISTERS = range(10)
KEPT = 6, 7, 8, 9  # by calls
WORDS = 6  # of 8 bytes, that a function uses of its frame
BINARY = "add sub mul div sdiv or and lsh rsh mod smod xor arsh".split()
UNARY = "neg64 neg32 le16 le32 be16 be32 be64 swap32 swap64".split()
EXTENDING = "mov64s8 mov64s16 mov64s32 mov32s8 mov32s16".split()
UNSIGNED = "jgt jge jlt jle jeq jne".split()
OTHER_JUMPS = "jset jsgt jsge jslt jsle".split()
MORE_THAN_SHOWN = 26  # links of a chain
FETCHES = "add_fetch or_fetch and_fetch xor_fetch xchg cmpxchg".split()


class RandomFunction:
    """Lines of a function, and which kind of value each register has where they end."""

    def __init__(self, rng: random.Random, sizes: list[int], name: str) -> None:
        self.lines: list[str] = []
        self.kinds: dict[int, str] = {1: NUMBER}
        self.random = rng
        self.sizes = sizes
        self.out = f"{name}_out"
        self.written: set[int] = set()  # words of the frame, counted from its end
        self._name = name
        self._labels = 0

    def add(self, *lines: str) -> None:
        self.lines += lines

    def label(self) -> str:
        self._labels += 1
        return f"{self._name}_{self._labels}"

    def any_of(self, *kinds: str) -> int | None:
        """A register of one of these kinds, if there is one."""
        found = [register for register, kind in self.kinds.items() if kind in kinds]
        return self.random.choice(found) if found else None

    def free(self, *others: int | None) -> int:
        """A register to be written: mostly one that has nothing, and none of the others."""
        registers = [register for register in REGISTERS if register not in others]
        unwritten = [register for register in registers if register not in self.kinds]
        return self.random.choice(unwritten if unwritten and self.random.random() < 0.7 else registers)

    def write(self, register: int, kind: str, *lines: str) -> int:
        """Lines that leave a value of a kind in a register."""
        self.add(*lines)
        self.kinds[register] = kind
        return register

    def immediate(self) -> int:
        """A number of 32 bits, mostly a small one."""
        rng = self.random
        least, greatest = rng.choice(((0, 9), (0, 70), (-9, 600_000), (-(2**31), 2**31 - 1)))
        return rng.randint(least, greatest)

    def number(self) -> int:
        """A register of a number."""
        rng, found = self.random, self.any_of(NUMBER)
        if found is not None and rng.random() < 0.7:
            return found
        made = rng.choice((self._constant, self._loaded, self._loaded, self._of_frame, self._fetched, self._looked_up))
        return made()

    def _constant(self) -> int:
        """A constant."""
        register = self.free()
        if self.random.random() < 0.2:
            return self.write(register, NUMBER, f"lddw r{register}, {self.random.getrandbits(64)}")
        return self.write(register, NUMBER, f"mov64 r{register}, {self.immediate()}")

    def area(self, register: int, number: int, element: int) -> int:
        """The address of an element in a register."""
        return self.write(register, f"area {number}", f"ldmapval r{register}, {number}, {8 * element}")

    def any_area(self, *others: int) -> int:
        """The address of some element."""
        number = self.random.randrange(len(self.sizes))
        return self.area(self.free(*others), number, self.random.randrange(self.sizes[number]))

    def _loaded(self) -> int:
        """A number that a map has."""
        base, rng = self.any_area(), self.random
        register = self.free()
        return self.write(register, NUMBER, f"{rng.choice(('ldx64', 'ldx32', 'ldxs32'))} r{register}, [r{base}+0]")

    def _of_frame(self) -> int:
        """A number that the frame has."""
        rng, register = self.random, self.free()
        if not self.written:
            self.store_word()
        name = rng.choice(("ldx8", "ldx16", "ldx32", "ldx64", "ldxs8", "ldxs16", "ldxs32"))
        return self.write(register, NUMBER, f"{name} r{register}, [r10-{8 * rng.choice(sorted(self.written))}]")

    def _fetched(self) -> int:
        """What an atomic operation tells."""
        rng, name = self.random, self.random.choice(FETCHES)
        operand = self._constant()
        if name == "cmpxchg":
            self.write(0, NUMBER, f"mov64 r0, {rng.randint(0, 9)}")
        base = self.any_area(operand, 0)
        self.add(f"atomic{rng.choice((32, 64))} {name} [r{base}+0], r{operand}")
        if operand not in self.kinds or self.kinds[operand] != NUMBER:
            return self._constant()
        return 0 if name == "cmpxchg" else operand

    def store_word(self, word: int | None = None) -> int:
        """Writes a word of the frame."""
        rng, word = self.random, word or self.random.randint(1, WORDS)
        source = self.any_of(NUMBER)
        if source is None or rng.random() < 0.3:
            self.add(f"st64 [r10-{8 * word}], {rng.randint(0, 9)}")
        elif rng.random() < 0.2:
            base = self.free(source)
            self.write(base, FRAME, f"mov64 r{base}, r10", f"add64 r{base}, -{8 * word}")
            self.add(f"stx64 [r{base}+0], r{source}")
        else:
            self.add(f"stx64 [r10-{8 * word}], r{source}")
        self.written.add(word)
        return word

    def called(self, answer: str) -> None:
        """A call leaves an answer, and R1 to R5 unwritten."""
        self.kinds = {register: kind for register, kind in self.kinds.items() if register in KEPT} | {0: answer}

    def look_up(self) -> int:
        """An answer of a lookup that isn't tested yet; gives the map."""
        rng, number = self.random, self.random.randrange(len(self.sizes))
        word = self.store_word()
        self.add(f"ldmap r1, {number}", "mov64 r2, r10", f"add64 r2, -{8 * word}", "call 1")
        self.called(f"null {number}")
        if rng.random() < 0.3:
            kept = rng.choice(KEPT)
            self.write(kept, f"null {number}", f"mov64 r{kept}, r0")
        return number

    def _looked_up(self) -> int:
        """A number at the address that a lookup answers."""
        number = self.look_up()
        register = self.free(0)
        self.write(0, f"area {number}", f"jeq64 r0, 0, {self.out}")
        return self.write(register, NUMBER, f"ldx64 r{register}, [r0+0]")

    def condition(self, target: str) -> None:
        """Jumps to a target in some runs."""
        rng, register = self.random, self.number()
        name = rng.choice(UNSIGNED + OTHER_JUMPS)
        operand = self.any_of(NUMBER) if rng.random() < 0.2 else None
        second = rng.randint(0, 20) if operand is None else f"r{operand}"
        self.add(f"{name}{rng.choice((64, 64, 32))} r{register}, {second}, {target}")

    @contextmanager
    def sometimes(self) -> Iterator[None]:
        """What is written within is done in some runs; whatever has been written there may be lost behind it."""
        past = self.label()
        self.condition(past)
        kinds, written = dict(self.kinds), set(self.written)
        yield
        self.add(f"{past}:")
        self.kinds = {register: kind for register, kind in kinds.items() if self.kinds.get(register) == kind}
        self.written &= written

    def step(self, register: int) -> int:
        """Something done with a number; gives the register where the number is now."""
        rng, how = self.random, self.random.random()
        if how < 0.25:
            self._operation(register)
        elif how < 0.5:
            copy = self.free(register)
            name = "mov64" if rng.random() < 0.85 else rng.choice(("mov32", *EXTENDING))
            self.write(copy, NUMBER, f"{name} r{copy}, r{register}")
            if rng.random() < 0.7:
                self.narrow(rng.choice((register, copy)), rng.randint(0, 100))
            return rng.choice((register, copy))
        elif how < 0.75:
            self.narrow(register, rng.randint(0, 100))
        elif how < 0.9:
            self._meet(register)
        else:
            self._beside()
        return register

    def _operation(self, register: int) -> None:
        """An operation on a number, mostly by another number that is small."""
        rng, how, width = self.random, self.random.random(), self.random.choice((64, 64, 32))
        if how < 0.15:
            self.add(f"{rng.choice(UNARY)} r{register}")
        elif how < 0.35 and (other := self.any_of(NUMBER)) is not None:
            self.add(f"{rng.choice(BINARY)}{width} r{register}, r{other}")
        else:
            operator = rng.choice(BINARY)
            number = rng.randint(0, 8) if "sh" in operator else self.immediate()
            self.add(f"{operator}{width} r{register}, {number}")

    def narrow(self, register: int, most: int) -> None:
        """A comparison of a number with another one, behind which it may be a smaller one."""
        rng, name = self.random, self.random.choice(UNSIGNED[:4] * 3 + UNSIGNED[4:] + OTHER_JUMPS)
        width, second = rng.choice((64, 64, 64, 32)), str(most)
        if rng.random() < 0.25:
            other = self.free(register)
            self.write(other, NUMBER, f"mov64 r{other}, {most}")
            second = f"r{other}"
        if rng.random() < 0.7:
            self.add(f"{name}{width} r{register}, {second}, {self.out}")
            return
        past = self.label()
        self.add(f"{name}{width} r{register}, {second}, {past}", f"ja {self.out}", f"{past}:")

    def _meet(self, register: int) -> None:
        """In some runs the register gets another number, or one of several others."""
        rng = self.random
        if rng.random() < 0.1:
            self._switch(register)
            return
        with self.sometimes():
            other = self.any_of(NUMBER)
            if other is None or other == register or rng.random() < 0.6:
                self.write(register, NUMBER, f"mov64 r{register}, {self.immediate()}")
            else:
                self.write(register, NUMBER, f"mov64 r{register}, r{other}")
            if rng.random() < 0.3:
                self._operation(register)

    def _switch(self, register: int) -> None:
        """The register gets one of several numbers."""
        rng, end = self.random, self.label()
        for _ in range(rng.randint(2, 8)):
            other = self.label()
            self.add(f"jne64 r{register}, {rng.randint(0, 9)}, {other}")
            self.add(f"mov64 r{register}, {rng.randint(0, 99)}", f"ja {end}", f"{other}:")
        self.add(f"{end}:")

    def _beside(self) -> None:
        """Something that has nothing to do with the number."""
        if self.random.random() < 0.5:
            self.store_word()
        else:
            with self.sometimes():
                self.store_word()

    def steps(self) -> int:
        """A number that some steps lead to."""
        register = self.number()
        for _ in range(self.random.choice((0, 1, 2, 3, 4, 5, 6, 8))):
            register = self.step(register)
            if self.kinds.get(register) != NUMBER:
                register = self.number()
        for _ in range(MORE_THAN_SHOWN if self.random.random() < 0.02 else 0):
            self._operation(register)
        return register

    def bounded(self, most: int) -> int:
        """A number from 0 to a greatest one, at least if nothing is wrong with how it is bounded."""
        rng, register = self.random, self.steps()
        how = rng.random()
        if how < 0.35:
            name, bound = rng.choice((("jgt", most), ("jge", most + 1)))
            self.add(f"{name}64 r{register}, {bound}, {self.out}")
        elif how < 0.5:
            bits = max(most.bit_length(), 1)
            self.add(f"and64 r{register}, {(1 << bits) - 1 if rng.random() < 0.5 else most}")
        elif how < 0.6:
            self.add(f"mod64 r{register}, {most + 1}")
        elif how < 0.7:
            copy = self.free(register)
            self.write(copy, NUMBER, f"mov64 r{copy}, r{register}", f"jgt64 r{copy}, {most}, {self.out}")
            register = rng.choice((register, copy))
        elif how < 0.8:
            self.add(f"{rng.choice(('jsgt64', 'jgt32', 'jset64'))} r{register}, {most}, {self.out}")
        elif how < 0.9:
            with self.sometimes():
                self.write(register, NUMBER, f"mov64 r{register}, {rng.randint(0, most + 1)}")
            self.narrow(register, most)
        return register

    def pieces(self, count: int) -> None:
        """Some pieces that nothing is wrong with."""
        usual: list[Callable[[], object]] = [self.steps, self.steps, self.number, self.store_word, self._test]
        for _ in range(count):
            self.random.choice(usual)()

    def _test(self) -> None:
        """Something is done in some runs alone."""
        with self.sometimes():
            self.steps()

    def end(self, result: str = "0") -> None:
        """The function's end, and that to which comparisons lead."""
        self.add(f"mov64 r0, {result}", "exit", f"{self.out}:", "mov64 r0, 0", "exit")
