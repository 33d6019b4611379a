"""Large local variables become variables of the module: the functions that are taken don't call themselves."""

from __future__ import annotations

import re
from collections.abc import Iterator

from .text import DEFINE, END, NAME, NotRead, closing, split_operands

ALLOCA = re.compile(rf"^  ({NAME}) = alloca (.*?)(?:, align (\d+))?(?:, ![\w.]+ !\d+)*$")
FUNCTION = re.compile(r'@("[^"]*"|[-\w.$]+)\(')
STRUCTURE = re.compile(rf"^({NAME}) = type (.*)$")
ARRAY = re.compile(r"\[(\d+) x (.*)\]$")
INTEGER = re.compile(r"i(\d+)$")
LARGEST = 256  # bytes of a frame that may stay; what is kept there for want of registers has the others
MARKS = re.compile(r"@llvm\.(?:lifetime|dbg)\.|^ *#dbg_")


class Types:
    """The sizes of the types of a module."""

    def __init__(self, lines: list[str]) -> None:
        self._named = {found[1]: found[2] for found in map(STRUCTURE.match, lines) if found}

    def size(self, of: str) -> tuple[int, int]:
        """The bytes of a type, and to what it is aligned."""
        if of in self._named:
            return self.size(self._named[of])
        if of == "ptr" or of.endswith("*"):
            return 8, 8
        if found := INTEGER.match(of):
            size = 1 << max((int(found[1]) - 1).bit_length() - 3, 0)  # a power of two
            return size, size
        if found := ARRAY.match(of):
            size, align = self.size(found[2])
            return int(found[1]) * size, align
        if of.startswith("{") or of.startswith("<{"):
            return self._structure(of)
        raise NotRead(f"a type that isn't known: {of}")

    def _structure(self, of: str) -> tuple[int, int]:
        is_packed = of.startswith("<")
        at, most = 0, 1
        for member in split_operands(of.strip("<>").strip()[1:-1]):
            size, align = self.size(member)
            align = 1 if is_packed else align
            at = -(-at // align) * align + size
            most = max(most, align)
        return -(-at // most) * most, most


def moved(lines: list[str], largest: int = LARGEST) -> Iterator[str]:
    """The lines of a module, where no frame has more bytes than that for variables."""
    types = Types(lines)
    variables: list[str] = []
    function: list[str] = []
    for line in lines:
        if function:
            function.append(line)
            if line == END:
                yield from _moved_of(function, types, largest, variables)
                function = []
        elif line.startswith(DEFINE):
            function = [line]
        else:
            yield line
    if function:
        raise NotRead("a function without an end")
    yield from variables


def _moved_of(function: list[str], types: Types, largest: int, variables: list[str]) -> list[str]:
    found = [match for match in map(ALLOCA.match, function) if match and "," not in _after_type(match[2])]
    sizes = {match[1]: types.size(match[2])[0] for match in found}
    left = sum(sizes.values())
    names: dict[str, str] = {}
    owner = FUNCTION.search(function[0])
    for match in sorted(found, key=lambda match: -sizes[match[1]]):
        if left <= largest:
            break
        left -= sizes[match[1]]
        own = owner[1].strip('"') if owner else ""
        names[match[1]] = name = f'@"{own}.{match[1][1:].strip(chr(34))}"'
        variables.append(f"{name} = internal global {match[2]} zeroinitializer, align {max(8, int(match[3] or 8))}")
    if not names:
        return function
    pattern = re.compile("(?:" + "|".join(re.escape(name) for name in names) + r")(?![-\w.$\"])")
    kept = [line for line in function if not ((match := ALLOCA.match(line)) and match[1] in names)]
    return [
        pattern.sub(lambda found: names[found[0]], line)
        for line in kept
        if not (MARKS.search(line) and pattern.search(line))
    ]


def _after_type(text: str) -> str:
    """What follows an alloca's type: a count where its length isn't known beforehand."""
    return text[closing(text, 0) + 1 :] if text[0] in "[{<" else text
