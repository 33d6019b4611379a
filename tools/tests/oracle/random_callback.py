"""Random callbacks of loop calls, in assembler text: the verifier takes each, and most of their iterations commute."""

from __future__ import annotations

import random
from collections.abc import Callable

NUMBERS = 2_048  # below which are the numbers that an index is compared with
# Maps: what is loaded, elements and halves of iterations' own, and what is reduced; and the elements of each.
DATA, OWN, OWN_HALVES, COUNTS, HALVES = range(5)
SIZES = {DATA: 64, OWN: 1_024, OWN_HALVES: 512, COUNTS: 64, HALVES: 64}
FRAME_WORDS = 4  # of 8 bytes, that a callback uses of its own frame, and of main's from byte 8 of ctx on
INDEX, CTX, ADDRESS, SUM = 6, 7, 8, 9  # the registers of these; the sum is of any numbers, and is stored at the end
VALUES = 0, 1, 2, 3, 4, 5  # the registers of numbers that change
LEFT_BY_HELPERS = 1, 2, 3, 4, 5  # those that are unwritten after a call

WIDTHS = 32, 64
BINARY = "add sub mul div sdiv or and lsh rsh mod smod xor mov arsh".split()
UNARY = [f"neg{width}" for width in WIDTHS]
UNARY += [f"{order}{bits}" for order in ("le", "be", "swap") for bits in (16, 32, 64)]
EXTENDING = "mov64s8 mov64s16 mov64s32 mov32s8 mov32s16".split()
JUMPS = "jeq jgt jge jset jne jsgt jsge jlt jle jslt jsle".split()
LOADS = "ldx8 ldx16 ldx32 ldx64 ldxs8 ldxs16 ldxs32".split()
REDUCES = "add", "or", "and", "xor"
FETCHES = *(f"{operator}_fetch" for operator in REDUCES), "xchg", "cmpxchg"
FAR = 1, 31, 32, 33, 64, 127, 128, 129, 1000  # how many iterations away another's element is
# How many iterations after a store the element is loaded: from the least to the greatest, and how often so.
DISTANCES = {(1, 20): 3, (21, 63): 2, (64, 127): 3, (128, 255): 3, (256, 700): 1}
DEEPEST = 3  # ifs in ifs


class RandomCallback:
    """The lines of a random callback, whose first lines put the index and ctx into their registers."""

    def __init__(self, rng: random.Random, name: str = "") -> None:
        self.lines: list[str] = []
        self._random = rng
        self._name = name  # with which its labels begin
        self._labels = 0
        self._depth = 0
        self._usual = {number: rng.choice(("add", "add", *REDUCES)) for number in (OWN_HALVES, COUNTS, HALVES)}
        self._wild = rng.choice((0, 0, 0, 0, 0.1, 0.4))  # how many accesses are of any kind, at any element
        self._maps = [COUNTS] if rng.random() < 0.15 else [*SIZES]
        self._turned = rng.choice((0, 0, 0, 0, 1, 127, SIZES[OWN] - 1))  # how elements of their own are turned round
        self._times = rng.choice((1, 1, 1, 1, 3, 40_503))  # and by what their numbers are multiplied
        self._strides = {OWN: rng.choice((8, 8, 8, 16, 24)), OWN_HALVES: rng.choice((4, 4, 4, 8, 12, 16))}
        self._fields = {
            number: rng.randrange(0, stride, 8 if number == OWN else 4) for number, stride in self._strides.items()
        }
        self._own = rng.choice((4_096, 4_096, 4_096, 256, 128, 64, 32))  # how many elements of their own, at most
        least, greatest = rng.choices([*DISTANCES], [*DISTANCES.values()])[0]
        self._distance = rng.randint(least, greatest) if rng.random() < 0.35 else 0  # 0: no iteration loads another's
        self._ends = rng.choice((0, 0, 0.1))  # how many pieces end the iteration
        self._breaks = rng.random() < 0.2
        others = [piece for piece in (self._own_frame, self._main_frame, self._lookup) if rng.random() < 0.3]
        usual: list[Callable[[], None]] = [self._arithmetic] * 3 + [self._access] * 4 + [self._branch] * 3
        self._pieces = usual + others + [self._carry] * (2 if self._distance else 0)
        self._write()

    def _write(self) -> None:
        """All lines."""
        self._add(f"mov64 r{SUM}, r{INDEX}", f"mul64 r{SUM}, {self._random.randint(1, 1 << 30)}")
        self._set_values(VALUES, f"r{INDEX}", f"r{SUM}")
        if self._own_frame in self._pieces or self._lookup in self._pieces:
            self._add(*(f"stx64 [r10-{8 * word + 8}], r{self._source()}" for word in range(FRAME_WORDS)))
        if self._distance:
            self._carry()
        for _ in range(self._random.randint(1, 5)):
            self._piece()
        if OWN in self._maps:
            self._add(f"stx64 [r{ADDRESS}+{self._own_element(OWN)}], r{SUM}")
        else:
            byte, operator = 8 * self._random.randrange(SIZES[COUNTS]), self._usual[COUNTS]
            self._add(f"ldmapval r{ADDRESS}, {COUNTS}, {byte}", f"atomic64 {operator} [r{ADDRESS}+0], r{SUM}")
        self._add("mov64 r0, 0")
        if self._breaks:
            self._seldom(f"{self._name}end")
            self._add("mov64 r0, 1")
        self._add(f"{self._name}end:", "exit")

    def _add(self, *lines: str) -> None:
        self.lines += lines

    def _label(self) -> str:
        self._labels += 1
        return f"{self._name}at_{self._labels}"

    def _value(self) -> int:
        """A register of a number that may be changed."""
        return self._random.choice(VALUES)

    def _source(self) -> int:
        """A register of a number, often the index."""
        return self._random.choice((INDEX, INDEX, SUM, *VALUES))

    def _number(self) -> int:
        """An immediate."""
        rng = self._random
        return rng.choice((rng.randint(-9, 9), rng.randint(-300, 70_000), rng.randint(-(2**31), 2**31 - 1)))

    def _set_values(self, values: tuple[int, ...], *others: str) -> None:
        """Each of these registers becomes a number, or what another has."""
        self._add(*(f"mov64 r{value}, {self._random.choice((*others, self._number()))}" for value in values))

    def _piece(self) -> None:
        """A piece of the callback: within an if, mostly a short one."""
        rng = self._random
        if self._depth and (rng.random() < 0.6 or self._depth == DEEPEST):
            rng.choice((self._arithmetic, self._access))()
        elif rng.random() < self._ends:
            self._end()
        else:
            rng.choice(self._pieces)()

    def _arithmetic(self) -> None:
        """Some operations on registers alone."""
        for _ in range(self._random.randint(1, 3)):
            self._operation()

    def _operation(self) -> None:
        """An operation on registers alone."""
        rng, dst = self._random, self._value()
        how, width = rng.random(), rng.choice(WIDTHS)
        if how < 0.1:
            self._add(f"{rng.choice(UNARY)} r{dst}", f"add64 r{SUM}, r{dst}")
        elif how < 0.2:
            self._add(f"{rng.choice(EXTENDING)} r{dst}, r{self._source()}", f"xor64 r{SUM}, r{dst}")
        elif how < 0.25:
            self._add(f"lddw r{dst}, {rng.getrandbits(64)}")
        else:
            operator = rng.choice(BINARY)
            number = rng.randrange(width) if "sh" in operator else self._number()
            self._add(f"{operator}{width} r{dst}, {rng.choice((f'r{self._source()}', number))}")

    def _condition(self, target: str) -> None:
        """Jumps to a target in some iterations: by turns, from one on or up to it, or by a comparison of any words."""
        rng, tested = self._random, self._value()
        how, jump = rng.random(), f"{rng.choice(JUMPS)}{rng.choice(WIDTHS)}"
        if how < 0.4:
            mask = rng.choice((1, 3, 7, 255))
            self._add(f"mov64 r{tested}, r{rng.choice((INDEX, SUM))}", f"and64 r{tested}, {mask}")
            self._add(f"{jump} r{tested}, {rng.randint(1, min(mask, 6))}, {target}")
        elif how < 0.6:
            self._add(f"{jump} r{INDEX}, {rng.randrange(1, NUMBERS)}, {target}")
        elif how < 0.65:  # the verifier may know which way it goes: then the callback has no list
            self._add(f"{jump} r{self._source()}, {self._number()}, {target}")
        else:
            self._add(f"mov64 r{tested}, r{self._source()}", f"add64 r{tested}, r{SUM}")
            self._add(f"{jump} r{tested}, {rng.choice((f'r{self._source()}', self._number()))}, {target}")

    def _seldom(self, target: str) -> None:
        """Jumps to a target, mostly in nearly all iterations. R0 is kept."""
        rng, tested = self._random, self._random.choice(VALUES[1:])
        if rng.random() < 0.5:
            self._add(f"{rng.choice(('jne64', 'jlt64'))} r{INDEX}, {rng.randrange(NUMBERS)}, {target}")
        else:
            mask = rng.choice((255, 1023, 4095))
            self._add(f"mov64 r{tested}, r{rng.choice((INDEX, SUM))}", f"and64 r{tested}, {mask}")
            self._add(f"jne64 r{tested}, {rng.randrange(256)}, {target}")

    def _branch(self) -> None:
        """An if of one or two conditions, an if with an else, or a chain of ifs."""
        rng, end = self._random, self._label()
        arms = 1 if self._depth else rng.choice((1, 1, 1, 1, 1, 2, 2, 3, 4))
        for _ in range(arms - 1):
            other = self._label()
            self._condition(other)
            self._arm()
            self._add(f"ja {end}", f"{other}:")
        if arms == 1 or rng.random() < 0.5:
            for _ in range(rng.choice((1, 1, 1, 2))):
                self._condition(end)
        self._arm()
        self._add(f"{end}:")

    def _arm(self) -> None:
        """What the iterations do that go this way."""
        self._depth += 1
        for _ in range(self._random.choice((1, 1, 1, 2))):
            self._piece()
        self._depth -= 1

    def _end(self) -> None:
        """Some iterations end here, or one breaks the loop."""
        past, breaks = self._label(), self._breaks and self._random.random() < 0.3
        if breaks:
            self._seldom(past)
        else:
            self._condition(past)
        self._add(f"mov64 r0, {int(breaks)}", self._random.choice(("exit", f"ja {self._name}end")), f"{past}:")

    def _access(self) -> None:
        """One access of a map, or some at one address: mostly such that iterations commute."""
        rng = self._random
        if rng.random() < self._wild:
            self._any_element(rng.choice(self._maps), 64)
            self._any_access()
            return
        number = rng.choice(self._maps)
        if number in (OWN, OWN_HALVES):
            self._own_accesses(64 if number == OWN else 32, self._own_element(number))
            return
        width = rng.choice(WIDTHS) if number == DATA else 32 if number == HALVES else 64
        offset = self._any_element(number, width)
        self._usual_access(number, width, offset)

    def _carry(self) -> None:
        """A load of what an earlier iteration stored, or a store of what a later one loads."""
        rng, number = self._random, self._random.choice(self._maps)
        if number not in (OWN, OWN_HALVES):
            number = OWN
        width = 64 if number == OWN else 32
        if rng.random() < 0.8:
            self._load(width, f"[r{ADDRESS}+{self._own_element(number, -self._distance)}]")
        else:
            self._access_at(width, f"[r{ADDRESS}+{self._own_element(number, self._distance)}]")

    def _own_element(self, number: int, distance: int = 0) -> int:
        """The address of an element, or of a half, that no other iteration near has; or where accesses are wild, others
        too; or that of the iteration at a distance. Gives the offset of what is accessed there."""
        rng, scratch, stride = self._random, self._value(), self._strides[number]
        elements = 1 << (8 * SIZES[number] // stride).bit_length() - 1
        self._add(f"mov64 r{scratch}, r{INDEX}")
        if rng.random() < self._wild:
            distance += rng.choice((-1, 1)) * rng.choice(FAR)
        if distance:
            self._add(f"add64 r{scratch}, {distance}")
        if self._times > 1:
            self._add(f"mul64 r{scratch}, {self._times}")
        if self._turned:
            self._add(f"xor64 r{scratch}, {self._turned}")
        self._address(number, scratch, min(elements, self._own) - 1, stride)
        return self._fields[number]

    def _own_accesses(self, width: int, offset: int) -> None:
        """What an iteration does at an element of its own, or a half: a load and then a store, or anything."""
        rng, address = self._random, f"[r{ADDRESS}+{offset}]"
        if rng.random() < 0.5:
            self._load(width, address)
            self._arithmetic()
            self._add(f"stx{width} {address}, r{self._source()}")
        else:
            for _ in range(rng.choice((1, 1, 2, 3))):
                if width == 32:
                    self._access_at(width, address)
                else:
                    self._any_access()

    def _any_element(self, number: int, width: int) -> int:
        """The address of an element, by a number that is masked. Gives the offset of what is accessed there."""
        rng, scratch, size = self._random, self._value(), SIZES[number]
        if rng.random() < 0.15:
            self._add(f"ldmapval r{ADDRESS}, {number}, {8 * rng.randrange(size)}")
            return rng.randrange(0, 8, width // 8)
        stride = rng.choice((8, 8, 8, 16, 24, *((4, 4, 12) if width == 32 else ())))
        bits = (8 * size // stride).bit_length() - 1
        self._add(f"mov64 r{scratch}, r{self._source()}")
        if rng.random() < 0.3:
            self._add(f"{rng.choice(('add', 'mul', 'rsh', 'xor'))}64 r{scratch}, {rng.randint(1, 40)}")
        self._address(number, scratch, (1 << bits - rng.choice((0, 0, 0, 1, 2))) - 1, stride)
        return rng.randrange(0, stride, width // 8)

    def _address(self, number: int, scratch: int, mask: int, stride: int) -> None:
        """The address of an element of a map: by a number in a register, which is masked, and so many bytes each."""
        shift = stride.bit_length() - 1
        if stride != 1 << shift:
            self._add(f"and64 r{scratch}, {mask}", f"mul64 r{scratch}, {stride}")
        elif self._random.random() < 0.5:
            self._add(f"and64 r{scratch}, {mask}", f"lsh64 r{scratch}, {shift}")
        else:
            self._add(f"lsh64 r{scratch}, {shift}", f"and64 r{scratch}, {mask * stride}")
        self._add(f"ldmapval r{ADDRESS}, {number}, 0", f"add64 r{ADDRESS}, r{scratch}")

    def _usual_access(self, number: int, width: int, offset: int) -> None:
        """A load of the data, or a reduce by the operator that is usual for a map."""
        address = f"[r{ADDRESS}+{offset}]"
        if number == DATA:
            self._load(width, address)
        elif self._random.random() < 0.3:
            self._plain_reduce(self._usual[number], width, address)
        else:
            self._add(f"atomic{width} {self._usual[number]} {address}, r{self._source()}")

    def _plain_reduce(self, operator: str, width: int, address: str) -> None:
        """A load, an operator and a store at an address: mostly with no access between, and of a register that nothing
        else takes."""
        rng, reduced = self._random, self._value()
        self._add(f"ldx{width} r{reduced}, {address}")
        if rng.random() < 0.1:
            self._access_at(width, address)
        self._add(f"{operator}{rng.choice((width, width, *WIDTHS))} r{reduced}, r{self._source()}")
        self._add(f"stx{width} {address}, r{reduced}")
        if rng.random() < 0.9:
            self._set_values((reduced,))

    def _any_access(self) -> None:
        """An access of any kind of the element at the address, or of a half of it."""
        width = self._random.choice((64, 64, 32))
        self._access_at(width, f"[r{ADDRESS}+{self._random.randrange(0, 8, width // 8)}]")

    def _access_at(self, width: int, address: str) -> None:
        """An access of any kind at an address."""
        how = self._random.random()
        if how < 0.3:
            self._load(width, address)
        elif how < 0.5:
            self._add(f"stx{width} {address}, r{self._source()}")
        elif how < 0.6:
            self._add(f"st{width} {address}, {self._number()}")
        else:
            self._atomic(width, address)

    def _load(self, width: int, address: str) -> None:
        """A load from a map, sometimes one that extends the sign."""
        name = "ldxs32" if width == 32 and self._random.random() < 0.3 else f"ldx{width}"
        loaded = self._value()
        self._add(f"{name} r{loaded}, {address}")
        if self._random.random() < 0.5:
            self._add(f"add64 r{SUM}, r{loaded}")

    def _atomic(self, width: int, address: str) -> None:
        """Any atomic operation: one with a fetch changes the register of its operand."""
        name = self._random.choice((*REDUCES, *FETCHES))
        operand = self._source() if name in REDUCES else self._value()
        self._add(f"atomic{width} {name} {address}, r{operand}")

    def _own_frame(self) -> None:
        """A store to the callback's frame, an atomic operation on it, or a load from it."""
        rng, how = self._random, self._random.random()
        bits = rng.choice(WIDTHS if 0.3 <= how < 0.4 else (8, 16, 32, 64))
        address = f"[r10-{rng.randrange(bits // 8, 8 * FRAME_WORDS + 1, bits // 8)}]"
        if how < 0.2:
            self._add(f"stx{bits} {address}, r{self._source()}")
        elif how < 0.3:
            self._add(f"st{bits} {address}, {self._number()}")
        elif how < 0.4:
            self._atomic(bits, address)
        else:
            name = f"ldxs{bits}" if bits < 64 and rng.random() < 0.5 else f"ldx{bits}"
            self._add(f"{name} r{self._value()}, {address}")

    def _main_frame(self) -> None:
        """A load from main's frame, though not of where a call's iterations start."""
        name = self._random.choice(LOADS)
        size = int(name.strip("ldxs")) // 8
        self._add(f"{name} r{self._value()}, [r{CTX}+{self._random.randrange(8, 8 * FRAME_WORDS + 8, size)}]")

    def _lookup(self) -> None:
        """A lookup, the null check, and an access. The key may be past the map's end."""
        rng, key, number = self._random, self._value(), self._random.choice(self._maps)
        null, at = self._label(), rng.randrange(4, 8 * FRAME_WORDS + 1, 4)
        self._add(f"mov64 r{key}, r{INDEX if number == OWN else self._source()}")
        if rng.random() < 0.8:
            self._add(f"and64 r{key}, {SIZES[number] * rng.choice((1, 1, 2)) - 1}")
        self._add(f"stx32 [r10-{at}], r{key}", f"ldmap r1, {number}", "mov64 r2, r10", f"add64 r2, -{at}", "call 1")
        self._set_values(LEFT_BY_HELPERS, f"r{INDEX}", f"r{SUM}")
        self._add(f"jeq64 r0, 0, {null}", f"mov64 r{ADDRESS}, r0", "mov64 r0, 0")
        if number == OWN or rng.random() < self._wild:
            self._any_access()
        else:
            self._usual_access(number, 32 if number in (OWN_HALVES, HALVES) else 64, 0)
        self._add(f"{null}:", f"mov64 r0, {self._number()}")
