"""The lines of a unit's text, their comments, and the line of each instruction.

    page = Page(text, facts.insns)   # the section of the unit, and the slots at which its instructions start
    page.number(33)                  # 32: the line of the instruction that starts at slot 33, or None
    page.instruction(32)             # "stx64 [r1+0], r2", without its comment, cut at 200 bytes
    page.comment(32)                 # "reservoir.c:18: if (j < K)", cut; "" if no comment belongs to the line
    page.place(33, "stx64 [r1+0], r2")   # "line 32: stx64 [r1+0], r2    ; reservoir.c:18: if (j < K)"
    page.step(33, "stx64 [r1+0], r2")    # "slot  33  stx64 [r1+0], r2          ", in columns
    page.state(33, "r1 is 5")        # "slot 33: r1 is 5"

The page of a unit in hex form is `Page("", ())`: it has no lines, and its places are slots.
"""

from __future__ import annotations

import re
from collections.abc import Iterable

from .shown import BLANKS, cut, trimmed

LABEL = re.compile(r"[A-Za-z_][A-Za-z0-9_]{0,31}:")  # of a line of its own
COMMENT = ";"
SLOT_FRONT = "slot "  # begins the comments that the loader of C programs writes


def lines_of(text: str) -> list[str]:
    """The lines of a text, which end at newlines alone. One after the last newline counts if it isn't empty."""
    lines = text.split("\n")
    return lines if lines[-1] else lines[:-1]


def before_comment(line: str) -> str:
    """A line up to its first semicolon."""
    return line.partition(COMMENT)[0]


def content_of(line: str) -> str:
    """What a line says: without its comment, and without the spaces and tabs around it."""
    return before_comment(line).strip(BLANKS)


class Page:
    """The lines of a unit's text, the comment that belongs to each, and the line of each instruction."""

    def __init__(self, text: str, slots: Iterable[int]) -> None:
        """The text, and the slots at which its instructions start, which rise."""
        self.lines = lines_of(text)
        self.comments = [""] * len(self.lines)
        self.numbers = dict(zip(slots, self._read()))

    def _read(self) -> list[int]:
        """Hands comments down to the lines below them, and gives the numbers of the lines that are instructions."""
        numbers: list[int] = []
        above, has_head = "", False
        for at, line in enumerate(self.lines):
            content = content_of(line)
            own = trimmed(line.partition(COMMENT)[2])
            self.comments[at] = own or above
            if not content:
                above = own
            elif not has_head:
                above, has_head = "", True
            elif not LABEL.fullmatch(content):
                numbers.append(at + 1)
        return numbers

    def number(self, slot: int) -> int | None:
        """The number of the line of the instruction that starts at a slot, from 1; None if the page has none."""
        return self.numbers.get(slot)

    def instruction(self, number: int) -> str:
        """The instruction of a line as it is written, without its comment, cut at 200 bytes."""
        return cut(trimmed(before_comment(self.lines[number - 1])))

    def comment(self, number: int) -> str:
        """The comment that belongs to a line, without the slot at its front, cut at 200 bytes.

        It is the line's own, or else that of the comment line above it, if only instructions and labels are between
        the two. It is empty if there is none.
        """
        comment = self.comments[number - 1] if 0 < number <= len(self.lines) else ""
        if comment.startswith(SLOT_FRONT) and ", " in comment:
            comment = comment.partition(", ")[2]
        return cut(comment)

    def place(self, slot: int, insn: str) -> str:
        """The line of the instruction that starts at a slot, with its number and its comment; on a page without lines
        the slot and the instruction."""
        number = self.number(slot)
        if number is None:
            return f"slot {slot}: {insn}"
        comment = self.comment(number)
        return f"line {number}: {self.instruction(number)}{f'    ; {comment}' if comment else ''}"

    def step(self, slot: int, insn: str) -> str:
        """A slot and its instruction in columns, with two spaces at least after them."""
        return f"slot {slot:>3}  {insn:<24}  "

    def state(self, slot: int, words: str) -> str:
        """What is known before the instruction at a slot."""
        return f"slot {slot}: {words}"
