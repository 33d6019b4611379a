"""Random programs in C with no undefined behaviour: bytes, words, bit-fields, structures, guards, ctx, atomics."""

from __future__ import annotations

from collections.abc import Callable
from dataclasses import replace

from .random_text import ASSIGNMENTS, BYTES, CONSTANTS, LENGTHS, PLAIN, SCALARS, SHORT_LENGTHS
from .random_text import Expressions, Place, Scope, Structure

FUNCTIONS = ("static", "static inline __attribute__((always_inline))", "static __attribute__((noinline))")
ROUNDS = (1, 2, 3, 4, 7, 8, 10, 16, 20, 32)
Statement = Callable[[Scope, int], None]


class RandomProgram(Expressions):
    """A program of a seed; its tag ends all its names, so that several can stand in one file."""

    def __init__(self, seed: int, tag: str) -> None:
        super().__init__(seed, tag)
        self.main = f"main{tag}"
        self._structures: list[Structure] = []
        self._maps: list[tuple[str, Structure, int]] = []
        self._globals = Scope()
        self._write()

    def _write(self) -> None:
        for _ in range(self._random.randrange(1, 4)):
            self._structures.append(self._structure())
        for _ in range(self._random.randrange(3, 8)):
            self._random.choice((self._scalar, self._array, self._structured))()
        if self._chance(0.3):
            self._map()
        for _ in range(self._random.randrange(3)):
            self._function()
        if self._chance(0.3):
            self._procedure()
        context = self._random.choice(self._structures) if self._chance(0.7) else None
        self._main(context, [self._callback(context) for _ in range(self._random.randrange(1, 4))])

    # Types and variables.

    def _structure(self) -> Structure:
        name = self._name("shape")
        members: list[Place] = []
        widths: list[int] = []
        self._open(f"struct {name} {{")
        for number in range(self._random.randrange(1, 6)):
            kind = self._random.random()
            if kind < 0.15:
                self._line(f"u32 m{number} : {self._random.randrange(1, 24)};")
                members.append(Place(f".m{number}", "u32", has_address=False))
                widths.append(0)
                continue
            of = self._random.choice(PLAIN if kind < 0.9 else ("_Bool",))
            lengths = (self._random.choice(SHORT_LENGTHS),) if kind < 0.4 else ()
            self._line(f"{of} m{number}{brackets(lengths)};")
            members.append(Place(f".m{number}" + "[@]" * len(lengths), of, lengths))
            widths.append(BYTES[of])
        if self._chance(0.2):
            self._line("union { u64 whole; u8 bytes[8]; u16 halves[4]; u32 words[2]; };")
            members.append(Place(".whole", "u64", has_address=False))
            parts = (("bytes", "u8", 8), ("halves", "u16", 4), ("words", "u32", 2))
            members += [Place(f".{part}[@]", of, (count,), has_address=False) for part, of, count in parts]
            widths.append(8)
        self._close("};")
        return Structure(name, tuple(members), is_tight=len(set(widths)) == 1 and 0 not in widths)

    def _scalar(self) -> None:
        name = self._name("global")
        of = self._random.choice(SCALARS)
        value = self._random.choice(CONSTANTS)
        self._line(f"{of} {name} = {int(bool(value)) if of == '_Bool' else f'({of}){value}u'};")
        self._globals.places.append(Place(name, of))

    def _array(self) -> None:
        name = self._name("global")
        of = self._random.choice(PLAIN)
        lengths = tuple(self._random.choice(LENGTHS) for _ in range(self._random.choice((1, 1, 1, 2))))
        is_constant = self._chance(0.2)
        values = ", ".join(str(self._random.randrange(128)) for _ in range(self._random.randrange(1, 1 + lengths[-1])))
        values = f"{{{values}}}" if len(lengths) == 2 else values
        start = f" = {{{values}}}" if is_constant or self._chance(0.5) else ""
        self._line(f"{'const ' * is_constant}{of} {name}{brackets(lengths)}{start};")
        marks = "[@]" + "[#]" * (len(lengths) - 1)
        self._globals.places.append(Place(name + marks, of, lengths, is_constant))

    def _structured(self) -> None:
        name = self._name("global")
        shape = self._random.choice(self._structures)
        lengths = (self._random.choice(LENGTHS),) if self._chance(0.6) else ()
        self._line(f"struct {shape.name} {name}{brackets(lengths)};")
        objects = [f"{name}[{k}]" for k in range(lengths[0])] if lengths else [name]
        self._globals.objects += [(text, shape) for text in objects]
        self._globals.places += shape.members_of(name + "[@]" * len(lengths), lengths)

    def _map(self) -> None:
        name = self._name("map")
        shape = self._random.choice(self._structures)
        length = self._random.choice(LENGTHS)
        self._line(f"struct {{ __uint(type, BPF_MAP_TYPE_ARRAY); __uint(max_entries, {length});")
        self._line(f'    __type(key, u32); __type(value, struct {shape.name}); }} {name} SEC(".maps");')
        self._maps.append((name, shape, length))

    def _locals(self, scope: Scope) -> None:
        """Variables of the frame, all with a value at first."""
        for _ in range(self._random.randrange(3)):
            name = self._name("local")
            of = self._random.choice(PLAIN)
            if self._chance(0.25):
                length = self._random.choice(SHORT_LENGTHS)
                self._line(f"{of} {name}[{length}] = {{{self._random.randrange(100)}}};")
                scope.places.append(Place(f"{name}[@]", of, (length,), is_shared=False))
            else:
                self._line(f"{of} {name} = {self._number(scope, 32, 1)};")
                scope.places.append(Place(name, of, is_shared=False))

    # Functions.

    def _function(self) -> None:
        """A function of two numbers that reads global variables, and changes none."""
        name = self._name("function")
        scope = Scope([Place("a", "u32", is_shared=False), Place("b", "u32", is_shared=False)])
        if self._chance(0.5):
            scope.places += [replace(place, is_constant=True) for place in self._globals.places if self._chance(0.5)]
        self._open(f"{self._random.choice(FUNCTIONS)} u32 {name}(u32 a, u32 b) {{")
        self._statements(scope, self._random.randrange(1, 3), 2)
        self._line(f"return {self._number(scope, 32, 2)};")
        self._close()
        self._globals.functions.append(name)

    def _procedure(self) -> None:
        """A function of the address of a structure, which it changes, and of a number."""
        name = self._name("procedure")
        shape = self._random.choice(self._structures)
        scope = Scope([*shape.members_of("p->"), Place("a", "u32", is_shared=False)])
        self._open(f"{self._random.choice(FUNCTIONS)} u32 {name}(struct {shape.name} *p, u32 a) {{")
        self._statements(scope, self._random.randrange(1, 4), 2)
        self._line(f"return {self._number(scope, 32, 1)};")
        self._close()
        self._globals.procedures.append((name, shape))

    def _callback(self, context: Structure | None) -> str:
        """Writes a callback, and gives the call of it, with a place for ctx."""
        name = self._name("callback")
        rounds = self._random.choice(ROUNDS)
        scope = replace(self._globals.deeper(), bounds={"i": rounds}, is_callback=True)
        self._open(f"static long {name}(u32 i, void *ctx) {{")
        if context and self._chance(0.85):
            self._line(f"struct {context.name} *c = ctx;")
            scope.places += context.members_of("c->") * 2
            scope.objects = [*scope.objects, ("*c", context)]
        self._locals(scope)
        self._statements(scope, self._random.randrange(2, 5), 3)
        self._line(f"return {self._random.choice(('0', '0', self._condition(scope, 1)))};")
        self._close()
        return f"bpf_loop({rounds}, {name}, {{}}, 0)"

    def _main(self, context: Structure | None, calls: list[str]) -> None:
        scope = self._globals.deeper()
        scope.places.append(Place("argument", "u64", is_shared=False))
        self._open(f'SEC("xdp") {self._random.choice(("long", "u64", "int"))} {self.main}(u64 argument) {{')
        if context:
            self._line(f"struct {context.name} c = {{0}};")
            scope.places += context.members_of("c")
            scope.objects = [*scope.objects, ("c", context)]
        self._line("u64 done = 0;")
        self._locals(scope)
        self._statements(scope, self._random.randrange(1, 3), 2)
        for call in calls:
            self._line(f"done += {call.format('&c' if context else '0')};")
            self._statements(scope, self._random.randrange(2), 2)
        self._line(f"return done * 1000003 + {self._number(scope, 64, 2)};")
        self._close()

    # Statements.

    def _statements(self, scope: Scope, count: int, depth: int) -> None:
        for _ in range(count):
            kinds: list[Statement] = [self._assignment] * 3 + [self._atomic, self._copy]
            if depth > 0:
                kinds += [self._if, self._if, self._guarded, self._switch, self._pointer, self._call, self._lookup]
                if scope.loops < 2:
                    kinds.append(self._for)
            self._random.choice(kinds)(scope, depth)

    def _assignment(self, scope: Scope, depth: int) -> None:
        place = self._random.choice([place for place in scope.places if not place.is_constant])
        text = self._indexed(scope, place)
        width = 64 if place.type.endswith("64") else 32
        operator = self._random.choice(ASSIGNMENTS)
        if place.type == "_Bool":
            self._line(f"{text} = {self._condition(scope, 1)};")
        elif operator == "=":
            self._line(f"{text} = {self._number(scope, width, 2)};")
        elif place.type.startswith("s") or operator == "*=":  # what is promoted to a signed number could overflow
            self._line(f"{text} = (u{width}){text} {operator[0]} {self._number(scope, width, 1)};")
        elif self._chance(0.2):
            self._line(f"{text}{self._random.choice(('++', '--'))};")
        else:
            self._line(f"{text} {operator} {self._number(scope, width, 2)};")

    def _atomic(self, scope: Scope, depth: int) -> None:
        found = [place for place in self._places_with_address(scope) if place.is_shared]
        found = [place for place in found if place.type in ("u32", "u64")]
        if not found:
            return self._assignment(scope, depth)
        place = self._random.choice(found)
        operator = "add" if place.type == "u32" else self._random.choice(("add", "add", "sub", "or", "and", "xor"))
        value = self._number(scope, 32 if place.type == "u32" else 64, 1)
        call = f"__sync_fetch_and_{operator}(&{self._indexed(scope, place)}, {value});"
        if place.type == "u64" and self._chance(0.2):
            name = self._name("old")
            call = f"u64 {name} = {call}"
            scope.places.append(Place(name, "u64", is_shared=False))
        self._line(call)

    def _copy(self, scope: Scope, depth: int) -> None:
        """A whole structure is copied, or all its bytes are made one number."""
        found = [(text, shape) for text, shape in scope.objects if shape.is_tight]
        if not found:
            return self._assignment(scope, depth)
        text, shape = self._random.choice(found)
        others = [other for other, of in found if of is shape and other != text]
        if others and self._chance(0.7):
            self._line(f"{text} = {self._random.choice(others)};")
        else:
            self._line(f"__builtin_memset(&{text}, {self._random.randrange(2)}, sizeof({text}));")

    def _call(self, scope: Scope, depth: int) -> None:
        """A procedure is called with the address of a structure."""
        found = [(name, text) for name, shape in scope.procedures for text, of in scope.objects if of is shape]
        if not found:
            return self._assignment(scope, depth)
        name, text = self._random.choice(found)
        result = self._name("answer")
        self._line(f"u32 {result} = {name}(&{text}, {self._number(scope, 32, 1)});")
        scope.places.append(Place(result, "u32", is_shared=False))

    def _lookup(self, scope: Scope, depth: int) -> None:
        """A value of a map is looked up, and changed where there is one."""
        if not self._maps or not (scope.objects or scope.is_callback):
            return self._assignment(scope, depth)
        name, shape, length = self._random.choice(self._maps)
        key, value = self._name("key"), self._name("value")
        self._open("{")
        self._line(f"u32 {key} = {self._number(scope, 32, 1)} % {length + self._random.randrange(3)};")
        self._line(f"struct {shape.name} *{value} = bpf_map_lookup_elem(&{name}, &{key});")
        self._open(f"if ({value}) {{")
        within = scope.deeper()
        within.places += shape.members_of(f"{value}->") * 2
        self._statements(within, self._random.randrange(1, 3), depth - 1)
        self._close()
        self._close()

    def _if(self, scope: Scope, depth: int) -> None:
        self._open(f"if ({self._condition(scope, 2)}) {{")
        self._statements(scope.deeper(), self._random.randrange(1, 3), depth - 1)
        if scope.is_callback and self._chance(0.1):
            self._line(f"return {self._random.randrange(2)};")
        if self._chance(0.4):
            self._else()
            self._statements(scope.deeper(), 1, depth - 1)
        self._close()

    def _guarded(self, scope: Scope, depth: int) -> None:
        """A number in a variable, and what is done with it as an index where it is small enough."""
        name = self._name("at")
        length = self._random.choice(LENGTHS)
        self._open("{")
        if self._chance(0.3):
            self._line(f"{self._random.choice(('u8', 'u16', 'u64'))} {name} = {self._number(scope, 32, 1)};")
        else:
            self._line(f"u32 {name} = {self._number(scope, 32, 1)} % {length + self._random.randrange(4)};")
        self._open(f"if ({name} {self._random.choice((f'< {length}', f'<= {length - 1}'))}) {{")
        within = scope.deeper()
        within.bounds[name] = length
        self._statements(within, self._random.randrange(1, 3), depth - 1)
        self._close()
        self._close()

    def _for(self, scope: Scope, depth: int) -> None:
        name = self._name("k")
        rounds = self._random.randrange(2, 6)
        within = scope.deeper()
        within.bounds[name] = rounds
        within.loops += 1
        self._open(f"for (u32 {name} = 0; {name} < {rounds}; {name}++) {{")
        if self._chance(0.15):
            self._line(f"if ({self._condition(within, 1)}) {self._random.choice(('break', 'continue'))};")
        self._statements(within, 1, min(depth - 1, 1))
        self._close()

    def _switch(self, scope: Scope, depth: int) -> None:
        self._open(f"switch ({self._number(scope, 32, 1)} % 5) {{")
        labels = [f"case {number}" for number in self._random.sample(range(5), self._random.randrange(1, 5))]
        for label in [*labels, *["default"] * self._random.randrange(2)]:
            self._open(f"{label}: {{")
            self._statements(scope.deeper(), 1, depth - 2)
            if self._chance(0.85):
                self._line("break;")
            self._close()
        self._close()

    def _pointer(self, scope: Scope, depth: int) -> None:
        """A pointer to a place, or to one of two, and what is done by it."""
        found = self._places_with_address(scope)
        if not found:
            return self._assignment(scope, depth)
        place = self._random.choice(found)
        address = f"&{self._indexed(scope, place)}"
        if self._chance(0.4):
            other = self._random.choice([other for other in found if other.type == place.type])
            address = f"{self._condition(scope, 1)} ? {address} : &{self._indexed(scope, other)}"
        name = self._name("pointer")
        self._open("{")
        self._line(f"{place.type} *{name} = {address};")
        within = scope.deeper()
        within.places += [Place(f"(*{name})", place.type, is_shared=False)] * 4
        self._statements(within, self._random.randrange(1, 3), depth - 1)
        self._close()

    def _places_with_address(self, scope: Scope) -> list[Place]:
        return [place for place in scope.places if place.has_address and not place.is_constant]


def brackets(lengths: tuple[int, ...]) -> str:
    """The lengths of an array as C has them behind its name."""
    return "".join(f"[{length}]" for length in lengths)
