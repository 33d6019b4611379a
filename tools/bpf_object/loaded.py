"""What a loader gives: a unit, and all that its numbers mean in C."""

from __future__ import annotations

from collections.abc import Sequence
from dataclasses import dataclass, field

from .btf import Btf, SourceLine
from .code import line_text
from .ranges import signed
from .refusal import Refused
from .variables import Variable

SECTION_LIMIT = 1 << 20  # bytes of the values, as docs/FORMATS.md has it


@dataclass(frozen=True)
class Trap:
    """A test that the loader put in front of an access, and what it means that it was taken."""

    line: SourceLine | None
    text: str
    name: str = ""  # the array that the index is outside of, where that is known
    start: int = 0  # the address that its element 0 would have in the tested register
    size: int = 0  # bytes from one element to the next
    count: int = 0

    def told_text(self) -> str:
        """The trap in words, without what was tested."""
        return line_text(self.line) + self.text

    def told(self, address: int) -> str:
        """The trap in words, with the index where the tested address tells it."""
        if not self.size:
            return self.told_text()
        index = signed(address - self.start, 64) // self.size
        return f"{line_text(self.line)}index {index} of {self.name}[{self.count}]"


@dataclass(frozen=True)
class Loaded:
    """A unit that was made of an object."""

    unit: str  # assembler text with comments, without the maps' values
    sizes: tuple[int, ...]
    initial: list[list[int]]
    variables: list[Variable]
    lines: dict[int, SourceLine]
    loops: dict[int, SourceLine | None]
    traps: list[Trap] = field(default_factory=list)
    trap_element: int | None = None
    rewrites: list[str] = field(default_factory=list)
    programs: list[str] = field(default_factory=list)
    btf: Btf | None = None

    @property
    def text(self) -> str:
        """The unit with its maps' values where any isn't 0."""
        if not any(any(words) for words in self.initial):
            return self.unit
        values = "".join(f"map {number}: {' '.join(map(str, words))}\n" for number, words in enumerate(self.initial))
        refuse_long_values(len(values))
        return f"{self.unit}%%\n{values}"

    def trap_in(self, words: Sequence[int]) -> str | None:
        """The trap that was taken, in words, by all elements after a run; nothing where none was."""
        if self.trap_element is None or not words[self.trap_element]:
            return None
        number = words[self.trap_element]
        if number > len(self.traps):
            return f"trap {number}"
        return self.traps[number - 1].told(words[self.trap_element + 1])


def refuse_long_values(size: int) -> None:
    """Refuses values whose text takes more bytes than a section of an input may have."""
    if size > SECTION_LIMIT:
        raise Refused(f"the variables' values take {size} bytes as decimal numbers, of at most {SECTION_LIMIT}")
