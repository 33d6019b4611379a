"""Random units that the verifier refuses, mostly: in main or a callback one thing is done that can't be."""

from __future__ import annotations

import random
from collections.abc import Callable

from .random_unit import BINARY, CTX, FRAME, KEPT, NUMBER, REGISTERS, UNARY, RandomFunction

SIZES = 1, 2, 3, 5, 7, 8, 9, 16, 33, 64  # of maps
FAR = 600  # bytes, further than a frame is long
MORE_THAN_SHOWN = 14  # ways that meet, of which some may never be taken


class RandomRefusal:
    """The lines of a random unit."""

    def __init__(self, rng: random.Random) -> None:
        self._random = rng
        self._sizes = [rng.choice(SIZES) for _ in range(rng.randint(1, 3))]
        self._main = self._function = RandomFunction(rng, self._sizes, "main")
        self._ctx_words = 0  # of main's frame that ctx points to
        self._spare: list[str] = []  # a callback that a call names which isn't made
        callback = self._write_main()
        self.lines = [f"maps {' '.join(map(str, self._sizes))}", *self._main.lines, *callback, *self._spare]

    def _write_main(self) -> list[str]:
        """Main, which may call a loop; gives the lines of its callback."""
        rng, main = self._random, self._main
        main.pieces(rng.choice((0, 1, 1, 2)))
        if rng.random() < 0.55:
            self._plant()
            main.end()
            return []
        self._call_loops()
        if rng.random() < 0.15:
            self._plant()
        main.end()
        return self._callback()

    def _call_loops(self) -> None:
        """Calls of bpf_loop with one callback, in some runs or in all."""
        rng, main = self._random, self._main
        self._ctx_words = rng.choice((0, 1, 2, 3))
        for word in range(1, self._ctx_words + 1):
            main.store_word(word)
        for _ in range(rng.choice((1, 1, 1, 2, 3))):
            if rng.random() < 0.3:
                with main.sometimes():
                    self._call_loop(self._ctx_words)
            else:
                self._call_loop(self._ctx_words if rng.random() < 0.93 else 0)

    def _call_loop(self, words: int) -> None:
        """A call of bpf_loop, with an address of so many words of the frame, or 0."""
        rng, main = self._random, self._main
        count = main.bounded(rng.randint(1, 20)) if rng.random() < 0.5 else None
        main.add(f"mov64 r1, {rng.randint(1, 20)}" if count is None else f"mov64 r1, r{count}")
        main.add(*_loop_arguments("callback", words), "call 181")
        main.called(NUMBER)

    def _callback(self) -> list[str]:
        """A callback, in which most of what can't be done is."""
        rng = self._random
        callback = self._function = RandomFunction(rng, self._sizes, "callback")
        callback.add("callback:")
        callback.kinds = {1: NUMBER, 2: CTX if self._ctx_words else NUMBER}
        if rng.random() < 0.8:
            kept = rng.choice(KEPT)
            callback.write(kept, callback.kinds[2], f"mov64 r{kept}, r2")
        callback.pieces(rng.choice((0, 0, 1, 2)))
        if rng.random() < 0.85:
            self._plant()
        callback.end(rng.choice(("0", "1")))
        return callback.lines

    def _plant(self) -> None:
        """Something that can't be done, mostly; at times only in some runs."""
        rng = self._random
        usual: list[Callable[[], None]] = [
            *[self._unwritten_register] * 4, *[self._arithmetic] * 5, self._comparison, self._stored, self._base,
            self._size, *[self._alignment] * 2, *[self._bounds] * 7, *[self._unwritten_byte] * 2,
            *[self._argument] * 2, *[self._result] * 2,
        ]  # fmt: skip
        if self._function is not self._main:
            usual += [*[self._ctx] * 8, *[self._result] * 3]
        plant = rng.choice(usual)
        if rng.random() < 0.15:
            with self._function.sometimes():
                plant()
        else:
            plant()

    def _address(self, *others: int | None) -> int:
        """A register of an address."""
        rng, function = self._random, self._function
        how, register = rng.random(), function.free(*others)
        if how < 0.5:
            return self._area(*(other for other in others if other is not None))
        if how < 0.75 or others:
            function.write(register, FRAME, f"mov64 r{register}, r10")
            if rng.random() < 0.7:
                function.add(f"add64 r{register}, -{8 * rng.randint(1, 6)}")
            return register
        if how < 0.9:
            function.look_up()
            return 0
        return function.write(register, "map", f"ldmap r{register}, 0")

    def _area(self, *others: int) -> int:
        """A register of an address in a map's values, which may be one of several, or a copy."""
        rng, function = self._random, self._function
        register, number = function.free(*others), rng.randrange(len(self._sizes))
        function.area(register, number, rng.randrange(self._sizes[number]))
        for _ in range(rng.choice((0, 0, 0, 1, 2, 3))):
            how = rng.random()
            if how < 0.5:
                past = function.label()
                function.condition(past)
                function.area(register, number, rng.randrange(self._sizes[number]))
                function.add(f"{past}:")
            elif how < 0.8:
                copy = function.free(register, *others)
                register = function.write(copy, f"area {number}", f"mov64 r{copy}, r{register}")
            else:
                function.add(f"add64 r{register}, {8 * rng.randint(0, 2)}")
        return register

    def _use(self, register: int) -> None:
        """A register is read."""
        rng, function = self._random, self._function
        other = function.free(register)
        function.add(
            rng.choice(
                (
                    f"mov64 r{other}, r{register}",
                    f"{rng.choice(BINARY)}64 r{register}, {rng.randint(0, 9)}",
                    f"{rng.choice(UNARY)} r{register}",
                    f"jgt64 r{register}, 3, {function.out}",
                    f"stx64 [r10-8], r{register}",
                    f"ldx64 r{other}, [r{register}+0]",
                    f"st32 [r{register}+0], 1",
                )
            )
        )

    def _unwritten_register(self) -> None:
        """A register is read that isn't written, is so on some ways alone, or on which ways left different things."""
        rng, function = self._random, self._function
        how, register = rng.random(), function.free()
        if how < 0.1:
            register = rng.choice(REGISTERS)
        elif how < 0.4:
            with function.sometimes():
                function.write(register, NUMBER, f"mov64 r{register}, {rng.randint(0, 9)}")
        elif how < 0.5:
            function.look_up()
            register = rng.randint(1, 5)
        else:
            self._clash(register)
        if rng.random() < 0.4:
            function.add(f"st64 [r10-{8 * rng.randint(1, 6)}], 3")
        if rng.random() < 0.2:
            past = function.label()
            function.condition(past)
            function.store_word()
            function.add(f"{past}:")
        self._use(register)

    def _thing(self, register: int) -> None:
        """Something is left in a register."""
        rng, function = self._random, self._function
        number = rng.randrange(len(self._sizes))
        things = [
            [f"mov64 r{register}, {rng.randint(0, 9)}"],
            [f"ldmapval r{register}, {number}, {8 * rng.randrange(self._sizes[number])}"],
            [f"ldmap r{register}, {number}"],
            [f"mov64 r{register}, r10", f"add64 r{register}, -{8 * rng.randint(1, 6)}"],
        ]
        function.add(*rng.choice(things))

    def _clash(self, register: int) -> None:
        """On different ways different things are left in a register."""
        rng, function = self._random, self._function
        end = function.label()
        for _ in range(rng.choice((1, 1, 1, 2, 2, MORE_THAN_SHOWN))):
            other = function.label()
            function.condition(other)
            self._thing(register)
            function.add(f"ja {end}", f"{other}:")
        self._thing(register)
        function.add(f"{end}:")
        function.kinds.pop(register, None)
        if rng.random() < 0.25:
            past = function.label()
            function.condition(past)
            function.look_up()
            function.add(f"{past}:")

    def _arithmetic(self) -> None:
        """Arithmetic on an address."""
        rng, function = self._random, self._function
        how = rng.random()
        if how < 0.5:
            number = function.steps() if rng.random() < 0.6 else function.bounded(600_000)
            address = self._address(number)
            operator = rng.choice(("add64", "add64", "add64", "sub64"))
            pair = (number, address) if rng.random() < 0.15 else (address, number)
            function.add(f"{operator} r{pair[0]}, r{pair[1]}")
            return
        address = self._address()
        if how < 0.75:
            function.add(f"{rng.choice(('add64', 'sub64'))} r{address}, {rng.choice((-8, 8, FAR, -FAR, 600_000))}")
        elif how < 0.85:
            function.add(f"{rng.choice(UNARY)} r{address}")
        elif how < 0.95:
            function.add(f"{rng.choice(BINARY)}{rng.choice((32, 64))} r{address}, {rng.randint(1, 9)}")
        else:
            function.add(f"mov64s8 r{function.free()}, r{address}")

    def _comparison(self) -> None:
        """A comparison of an address."""
        rng, function = self._random, self._function
        number = function.steps()
        address = self._address(number)
        name = rng.choice(("jeq64", "jne64", "jgt64", "jeq32", "jset64"))
        pair = rng.choice(((address, number), (number, address)))
        second = f"r{pair[1]}" if rng.random() < 0.6 else str(rng.randint(0, 2))
        function.add(f"{name} r{pair[0]}, {second}, {function.out}")

    def _stored(self) -> None:
        """An address is stored, or is an operand of an atomic operation."""
        rng, function = self._random, self._function
        address = self._address()
        if rng.random() < 0.5:
            function.add(f"stx64 [r10-8], r{address}")
            return
        base = function.any_area(address, 0)
        operand = function.free(address, base, 0)
        function.add(f"mov64 r{operand}, 3", f"mov64 r0, r{address}")
        operand = rng.choice((operand, address))
        function.add(f"atomic64 {rng.choice(('add', 'cmpxchg', 'xchg'))} [r{base}+0], r{operand}")

    def _base(self) -> None:
        """An access at what is no address of memory."""
        rng, function = self._random, self._function
        register = function.steps()
        if rng.random() < 0.5:
            function.look_up()
            register = 0
        elif rng.random() < 0.3:
            function.write(register, "map", f"ldmap r{register}, 0")
        self._access(register, rng.choice((0, 8)), 64)

    def _access(self, base: int, offset: int, bits: int) -> None:
        """An access at an address."""
        rng, function = self._random, self._function
        how = rng.random()
        if how < 0.6:
            function.add(f"ldx{bits} r{function.free()}, [r{base}{offset:+}]")
        elif how < 0.9 or bits < 32:
            function.add(f"st{bits} [r{base}{offset:+}], 5")
        else:
            operand = function.free(base)
            function.add(f"mov64 r{operand}, 1", f"atomic{bits} add [r{base}{offset:+}], r{operand}")

    def _size(self) -> None:
        """An access of a map's values of a size that there isn't."""
        self._access(self._function.any_area(), 0, self._random.choice((8, 16)))

    def _element(self, most: int, scale: int) -> tuple[int, int]:
        """The address of an element that is found by a number, and the size of its map."""
        rng, function = self._random, self._function
        number = rng.randrange(len(self._sizes))
        size = self._sizes[number]
        index = function.bounded(max(size + most, 1))
        shift = scale.bit_length() - 1
        how = f"lsh64 r{index}, {shift}" if rng.random() < 0.6 else f"mul64 r{index}, {scale}"
        function.add(how)
        address = function.area(function.free(index), number, 0)
        function.add(f"add64 r{address}, r{index}")
        if rng.random() < 0.3:
            copy = function.free(address)
            address = function.write(copy, f"area {number}", f"mov64 r{copy}, r{address}")
        return address, size

    def _alignment(self) -> None:
        """An access at no multiple of its size."""
        rng = self._random
        if rng.random() < 0.3:
            self._access(10, -8 * rng.randint(1, 6) + rng.choice((1, 2, 4)), 64)
            return
        address, _ = self._element(-1, rng.choice((1, 2, 4)))
        self._access(address, rng.choice((0, 0, 2, 4)), rng.choice((32, 64)))

    def _bounds(self) -> None:
        """An access that may lie outside."""
        rng, function = self._random, self._function
        how = rng.random()
        if how < 0.1:
            self._access(10, rng.choice((0, 8, -FAR, -520)), 64)
        elif how < 0.2:
            address = function.any_area()
            self._access(address, rng.choice((-8, 8 * max(self._sizes))), rng.choice((32, 64)))
        else:
            address, _ = self._element(rng.choice((-1, 0, 0, 1, 3)), 8)
            self._access(address, rng.choice((0, 0, 0, 8, -8)), rng.choice((32, 64, 64)))

    def _unwritten_byte(self) -> None:
        """A byte of the frame is read that isn't written on every way."""
        rng, function = self._random, self._function
        at = 8 * rng.randint(7, 9)
        if rng.random() < 0.5:
            with function.sometimes():
                function.add(f"st64 [r10-{at}], 4")
        elif rng.random() < 0.5:
            function.add(f"st{rng.choice((8, 16, 32))} [r10-{at}], 4")
        if rng.random() < 0.3:
            function.add("ldmap r1, 0", "mov64 r2, r10", f"add64 r2, -{at}", "call 1")
        else:
            self._access(10, -at, 64)

    def _ctx(self) -> None:
        """Something that can't be done with ctx, or else outside of bounds."""
        rng, function = self._random, self._function
        ctx = function.any_of(CTX)
        if ctx is None:
            self._bounds()
            return
        how = rng.random()
        if how < 0.3:
            self._access(ctx, 0, 32)
            function.add(f"st64 [r{ctx}+0], 1")
        elif how < 0.5:
            self._access(ctx, rng.choice((8 * self._ctx_words, -8, 8 * self._ctx_words - 4, FAR)), rng.choice((32, 64)))
        elif how < 0.7:
            number = function.steps()
            function.add(f"add64 r{ctx}, r{number}")
        else:
            self._use(ctx)

    def _argument(self) -> None:
        """A helper is given what it doesn't take."""
        rng, function = self._random, self._function
        address = self._address()
        if function is not self._main or rng.random() < 0.5:
            function.add(f"mov64 r2, r{address}", f"ldmap r1, {rng.randrange(len(self._sizes))}")
            if rng.random() < 0.3:
                function.add(f"mov64 r1, {rng.randint(0, 9)}")
            function.add("call 1")
            return
        wrong = rng.choice((1, 2, 3, 3, 4))
        self._spare = ["spare:", "mov64 r0, 0", "exit"]
        function.add(f"mov64 r{KEPT[0]}, r{address}", "mov64 r1, 4", *_loop_arguments("spare", 0))
        function.add(f"mov64 r{wrong}, {rng.choice((f'r{KEPT[0]}', 7))}", "call 181")

    def _result(self) -> None:
        """A function ends with what it can't end with."""
        rng, function = self._random, self._function
        register = function.steps() if function is not self._main or rng.random() < 0.3 else self._address()
        function.add(f"mov64 r0, r{register}", "exit")


def _loop_arguments(callback: str, words: int) -> list[str]:
    """R2 to R4 of a call of bpf_loop, with an address of so many words of the frame, or 0."""
    ctx = ["mov64 r3, r10", f"add64 r3, -{8 * words}"] if words else ["mov64 r3, 0"]
    return [f"ldcode r2, {callback}", *ctx, "mov64 r4, 0"]
