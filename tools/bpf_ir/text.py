"""LLVM's IR as text: its functions, their instructions, and what instructions are replaced by."""

from __future__ import annotations

import re
from collections.abc import Callable, Iterator
from dataclasses import dataclass, field

LABEL = re.compile(r'^("[^"]*"|[-\w.$]+):')
DEFINE = "define "
END = "}"
NAME = r'[%@](?:"[^"]*"|[-\w.$]+)'
RESULT = re.compile(rf"^  (?:({NAME}) = )?(.*)$")
DEBUG = re.compile(r", !dbg (!\d+)")
ATTACHED = re.compile(r"(?:, ![\w.]+ !\d+)+$")
OPAQUE = re.compile(r"^@llvm\.(?:compiler\.)?used = .*\bptr\b|^  .*\bptr [%@]")
OPEN, CLOSE = "([{<", ")]}>"


class NotRead(Exception):
    """This isn't IR as clang writes it."""


@dataclass(frozen=True)
class Instruction:
    """An instruction in one line: the name of its result, its words, and its line of C."""

    result: str | None
    words: str
    debug: str | None


@dataclass
class Body:
    """The lines that take the place of a function's; `block` is the block that the last one is in."""

    block: str
    lines: list[tuple[str, bool]] = field(default_factory=list)  # and whether clang wrote it
    ends: dict[str, str] = field(default_factory=dict)  # of a block that was split, the block that now has its end
    debug: str | None = None
    is_opaque: bool = False  # whether pointers have no type of what they point to
    _origin: str = ""
    _count: int = 0

    def keep(self, line: str) -> None:
        """A line of clang's."""
        if label := LABEL.match(line):
            self.block = self._origin = label[1]
        self.lines.append((line, True))

    def add(self, words: str) -> None:
        """An instruction without a result."""
        self.lines.append((f"  {words}{self._attached()}", False))

    def make(self, words: str, result: str | None = None) -> str:
        """An instruction with a result, whose name it gives."""
        name = result or f"%{self.fresh()}"
        self.add(f"{name} = {words}")
        return name

    def fresh(self) -> str:
        """A name that no other has."""
        self._count += 1
        return f"lowered.{self._count}"

    def begin(self, label: str) -> None:
        """Begins a block, in which what follows the split one's instruction may stand."""
        self.lines.append((f"{label}:", False))
        self.block = self.ends[self._origin] = label

    def finished(self) -> Iterator[str]:
        """All lines, where clang's phis name the blocks that now lead to them."""
        for line, is_clangs in self.lines:
            if is_clangs and " = phi " in line:
                for old, new in self.ends.items():
                    line = line.replace(f", %{old} ]", f", %{new} ]")
            yield line

    def _attached(self) -> str:
        return f", !dbg {self.debug}" if self.debug else ""


Rule = Callable[[Instruction, Body], bool]


def rewritten(lines: list[str], rule: Rule) -> Iterator[str]:
    """The lines of a module, where a rule replaces instructions: it is true of those that it has replaced."""
    body: Body | None = None
    is_opaque = any(OPAQUE.search(line) for line in lines)
    for line in lines:
        if body is None:
            yield line
            if line.startswith(DEFINE):
                body = Body("", is_opaque=is_opaque)
        elif line == END:
            yield from body.finished()
            yield line
            body = None
        else:
            instruction = read_instruction(line)
            body.debug = instruction.debug if instruction else None
            if instruction is None or not rule(instruction, body):
                body.keep(line)
    if body is not None:
        raise NotRead("a function without an end")


def read_instruction(line: str) -> Instruction | None:
    """The instruction of a line that has a whole one."""
    found = RESULT.match(line)
    if not found:
        return None
    debug = DEBUG.search(line)
    return Instruction(found[1], ATTACHED.sub("", found[2]), debug[1] if debug else None)


def split_operands(text: str) -> list[str]:
    """What commas part, outside of all brackets."""
    parts, depth, start = [], 0, 0
    for at, char in enumerate(text):
        if char in OPEN:
            depth += 1
        elif char in CLOSE:
            depth -= 1
        elif char == "," and depth == 0:
            parts.append(text[start:at].strip())
            start = at + 1
    last = text[start:].strip()
    return [*parts, last] if last else parts


def closing(text: str, start: int) -> int:
    """Where the bracket is closed that is opened at a place."""
    depth = 0
    for at in range(start, len(text)):
        depth += (text[at] in OPEN) - (text[at] in CLOSE)
        if depth == 0:
            return at
    raise NotRead("a bracket that isn't closed")
