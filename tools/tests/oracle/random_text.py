"""What random programs are made of: places, structures, scopes, and the lines that are written."""

from __future__ import annotations

import random
from dataclasses import dataclass, field, replace

SCALARS = ("u8", "u16", "u32", "u64", "s8", "s16", "s32", "s64", "_Bool")
PLAIN = ("u8", "u8", "u16", "u16", "u32", "u32", "u64", "s8", "s16", "s32", "s64")
BYTES = {"_Bool": 1, "u8": 1, "s8": 1, "u16": 2, "s16": 2, "u32": 4, "s32": 4, "u64": 8, "s64": 8}
LENGTHS = (2, 3, 4, 5, 7, 8, 10, 16, 24, 32)
SHORT_LENGTHS = LENGTHS[:5]
CONSTANTS = (0, 1, 2, 3, 5, 7, 8, 15, 31, 64, 100, 127, 128, 255, 256, 1000, 32767, 32768, 65535, 65536, 0x7FFFFFFF)
DIVISORS = (-1, 2, -2, 3, -3, 7, 8, -10, 100, -1000, 4096, 32767)
TURNS, LOWERED = 15, 5  # of so many seeds, the first ones have operations that clang's back end may not have
ASSIGNMENTS = ("=", "=", "=", "+=", "-=", "^=", "|=", "&=", "*=")
INDENT = "    "
TYPEDEFS = """
typedef unsigned char u8;
typedef unsigned short u16;
typedef unsigned int u32;
typedef unsigned long long u64;
typedef signed char s8;
typedef short s16;
typedef int s32;
typedef long long s64;
"""


@dataclass(frozen=True)
class Place:
    """An lvalue: its text, where `@` and then `#` stand for indexes below its lengths."""

    text: str
    type: str
    lengths: tuple[int, ...] = ()
    is_constant: bool = False
    has_address: bool = True  # a field of bits has none, and of a member of a union none is taken
    is_shared: bool = True  # in a map, or in main's frame where callbacks see it: atomics may be there


@dataclass(frozen=True)
class Structure:
    """A structure: its name, and its members as places whose text begins with a dot."""

    name: str
    members: tuple[Place, ...]
    is_tight: bool  # without padding, so that all bytes of a copy are defined

    def members_of(self, owner: str, lengths: tuple[int, ...] = ()) -> list[Place]:
        """The members of a structure, or of those of an array: `owner` is `x`, `x[@]` or `x->`."""
        dot = 1 if owner.endswith(">") else 0
        return [
            replace(
                member,
                text=owner + (member.text.replace("@", "#") if lengths else member.text)[dot:],
                lengths=lengths + member.lengths,
            )
            for member in self.members
        ]


@dataclass
class Scope:
    """What a statement may use."""

    places: list[Place] = field(default_factory=list)
    bounds: dict[str, int] = field(default_factory=dict)  # numbers, and the bounds that they are below
    functions: list[str] = field(default_factory=list)  # of two numbers of 32 bits; they change nothing
    objects: list[tuple[str, Structure]] = field(default_factory=list)  # whole structures
    procedures: list[tuple[str, Structure]] = field(default_factory=list)  # of an address and a number
    is_callback: bool = False
    loops: int = 0

    def deeper(self) -> Scope:
        """A scope within: what is declared there isn't known outside."""
        return replace(self, places=[*self.places], bounds=dict(self.bounds))


class Writer:
    """Lines of a program, by a random sequence of its own."""

    def __init__(self, seed: int, tag: str) -> None:
        self._random = random.Random(seed)
        self._is_lowered = seed % TURNS < LOWERED
        self._tag = tag
        self._lines: list[str] = []
        self._depth = 0
        self._names = 0

    @property
    def text(self) -> str:
        """All lines."""
        return "".join(f"{line}\n" for line in self._lines)

    def _chance(self, part: float) -> bool:
        return self._random.random() < part

    def _name(self, what: str) -> str:
        self._names += 1
        return f"{what}{self._names}{self._tag}"

    def _line(self, text: str) -> None:
        self._lines.append(INDENT * self._depth + text)

    def _open(self, text: str) -> None:
        self._line(text)
        self._depth += 1

    def _else(self) -> None:
        self._close("} else {")
        self._depth += 1

    def _close(self, text: str = "}") -> None:
        self._depth -= 1
        self._line(text)


class Expressions(Writer):
    """Expressions without effects. All arithmetic is of unsigned numbers, so that nothing overflows."""

    def _number(self, scope: Scope, width: int, depth: int) -> str:
        """An unsigned number of 32 or 64 bits."""
        kind = self._random.random()
        if depth <= 0 or kind < 0.15:
            return self._leaf(scope, width)
        left, right = (self._number(scope, width, depth - 1) for _ in range(2))
        if self._is_lowered and self._chance(0.15):
            return self._lowered(left, right, width)
        if kind < 0.5:
            return f"({left} {self._random.choice('+-*&|^')} {right})"
        if kind < 0.62:
            count = self._random.choice((str(self._random.randrange(width)), f"({right} & {width - 1})"))
            return f"({left} {self._random.choice(('<<', '>>'))} {count})"
        if kind < 0.67:
            return f"(u{width})((s{width}){left} >> {self._random.randrange(width)})"
        if kind < 0.75:
            return f"({left} {self._random.choice('/%')} ({right} | 1))"
        if kind < 0.8:
            return f"(u{width})({self._condition(scope, depth - 1)})"
        if kind < 0.87:
            return f"({self._condition(scope, depth - 1)} ? {left} : {right})"
        if kind < 0.93:
            of = self._random.choice(PLAIN)
            return f"(u{width})({of}){self._number(scope, self._random.choice((32, 64)), depth - 1)}"
        if kind < 0.96 or not scope.functions:
            return f"__builtin_bswap{width}({left})"
        return f"(u{width}){self._random.choice(scope.functions)}((u32){left}, (u32){right})"

    def _lowered(self, left: str, right: str, width: int) -> str:
        """Signed division without overflow, a count of bits, or a part of a long product or quotient."""
        kind = self._random.random()
        long = "ll" if width == 64 else ""
        if kind < 0.6:
            of = self._random.choice(("s8", "s16", f"s{width}", f"s{width}"))
            divisor = self._random.choice((f"({of})({right} | 1)", str(self._random.choice(DIVISORS))))
            return f"(u{width})(({of})({left} | 1) {self._random.choice('/%')} {divisor})"
        if kind < 0.8:
            return f"(u{width})__builtin_{self._random.choice(('clz', 'ctz', 'popcount'))}{long}({left} | 1)"
        if kind < 0.9:
            return f"(u{width})((unsigned __int128){left} * {right} >> {self._random.choice((1, 32, 64, 90))})"
        if kind < 0.95:
            return f"(u{width})((__int128)(s64){left} * (s64){right} >> ({right} & 63))"
        return f"(u{width})((unsigned __int128){left} * 0x9e3779b97f4a7c15 {self._random.choice('/%')} ({right} | 1))"

    def _leaf(self, scope: Scope, width: int) -> str:
        if not scope.places or self._chance(0.3):
            if scope.bounds and self._chance(0.5):
                return f"(u{width}){self._random.choice([*scope.bounds])}"
            return f"{self._random.choice(CONSTANTS)}{'u' if width == 32 else 'ull'}"
        return f"(u{width}){self._indexed(scope, self._random.choice(scope.places))}"

    def _condition(self, scope: Scope, depth: int) -> str:
        width = self._random.choice((32, 32, 64))
        left, right = (self._number(scope, width, depth - 1) for _ in range(2))
        operator = self._random.choice(("<", "<=", ">", ">=", "==", "!=", "&"))
        sign = f"(s{width})" if operator != "&" and self._chance(0.4) else ""
        found = f"({sign}{left} {operator} {sign}{right})"
        found = f"({found} != 0)" if operator == "&" else found
        if depth > 1 and self._chance(0.3):
            found = f"({found} {self._random.choice(('&&', '||'))} {self._condition(scope, depth - 1)})"
        return found

    def _indexed(self, scope: Scope, place: Place) -> str:
        """The text of a place with its indexes."""
        text = place.text
        for mark, length in zip("@#", place.lengths):
            text = text.replace(mark, self._index(scope, length))
        return text

    def _index(self, scope: Scope, length: int) -> str:
        """A number below a length: one that is known to be, or by a mask, or by a remainder."""
        below = [name for name, bound in scope.bounds.items() if bound <= length]
        kind = self._random.random()
        if below and kind < 0.55:
            return self._random.choice(below)
        if kind < 0.65:
            return str(self._random.randrange(length))
        plain = [place for place in scope.places if not place.lengths]
        number = self._number(replace(scope, places=plain, functions=[]), self._random.choice((32, 32, 64)), 1)
        return f"{number} & {length - 1}" if length & (length - 1) == 0 else f"{number} % {length}"
