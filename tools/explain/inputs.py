"""Inputs: the sections of a text, the line at which one is refused, and what shows that a text isn't one of a unit."""

from __future__ import annotations

import re
from typing import NamedTuple

from .pages import before_comment, lines_of
from .records import Refusal
from .shown import cut, indented, more, trimmed

LONGEST = 3_145_728  # bytes of an input
MARK = re.compile(r"^%%(?:\n|\Z)", re.MULTILINE)
BYTE_ORDER_MARK = "\ufeff"

# What an input is whose first bytes are these.
UTF_16 = "the input begins with a byte order mark of UTF-16: save the file as UTF-8 without a mark"
FOREIGN = {
    b"\x7fELF": "this is an object of clang: tools/bpfrun or tools/elf2unit reads it",
    b"\xff\xfe": UTF_16,
    b"\xfe\xff": UTF_16,
}

# How lines of C begin that no unit has; and comments, which other assemblers have too.
C_WORDS = "static int long void char unsigned struct typedef enum extern const __u64 __u32"
C_LINES = ("#include", "#define", "#pragma", "SEC(", *(f"{word} " for word in C_WORDS.split()))
C_COMMENTS = ("//", "/*")


class Sections(NamedTuple):
    """The sections of an input, each of which ends at a line that is exactly `%%`. One that is missing is empty."""

    unit: str
    maps: str  # the values of the maps
    events: str  # the bounds and events of a replay


def sections_of(text: str) -> Sections:
    """The sections of a text."""
    unit, maps, events, *_ = [*MARK.split(text, 2), "", ""]
    return Sections(unit, maps, events)


def not_a_text(data: bytes) -> str | None:
    """Why an input is no text, or None if it is one."""
    for beginning, words in FOREIGN.items():
        if data.startswith(beginning):
            return words
    if len(data) > LONGEST:
        return f"an input has at most {LONGEST} bytes"
    try:
        data.decode("utf-8")
    except UnicodeDecodeError:
        return "the input isn't UTF-8"
    return None


def refusal_words(refusal: Refusal) -> str:
    """What is refused, and where, as `verify` prints it: `refused A1 at unit line 3`."""
    if refusal.code == "no_loop":
        return "refused no loop"
    places = {f"{refusal.section} line": refusal.line, "slot": refusal.slot, "event": refusal.event}
    place = next((f" at {kind} {number}" for kind, number in places.items() if number is not None), "")
    return f"refused {refusal.code}{place}"


class FaultLine:
    """The line at which a section is refused, by its number. The first is line 1; line 0 is the whole section."""

    def __init__(self, section: str, number: int | None) -> None:
        self.section = section
        self.number = number or 0
        self.lines = lines_of(section)
        self.whole = self.lines[self.number - 1] if 0 < self.number <= len(self.lines) else ""
        self.uncommented = before_comment(self.whole)
        self.content = trimmed(self.uncommented)
        before = self.lines[: max(self.number - 1, 0)]
        self.place = sum(1 for line in before if trimmed(before_comment(line)))  # without empty lines and comments
        self.is_first = self.place == 0

    def reasons(self, expected: list[str | None], code: str) -> str:
        """The line, what was expected there, and where to read more."""
        line = f"line {self.number}: {cut(trimmed(self.whole))}" if self.number else None
        return indented(line, *expected, more(code))

    def hidden(self) -> str | None:
        """What can't be seen in the line, if there is such a thing before its comment."""
        if self.number == 1 and self.section.startswith(BYTE_ORDER_MARK):
            return "line 1 begins with a byte order mark: save the file as UTF-8 without it"
        _, carriage_return, rest = self.uncommented.partition("\r")
        if rest:
            return "the line has a carriage return: lines end with a newline alone"
        if carriage_return:
            front = f"line {self.number} ends with a carriage return"
            return f"{front}: the file has the line ends of DOS; dos2unix removes them"
        if not self.uncommented.isascii():
            return "the line has a character that isn't ASCII, perhaps a space or a dash"
        return None

    def foreign(self) -> str | None:
        """That the section is C, by a line that no unit has, or by a comment and a brace; or what can't be seen."""
        beginnings = C_LINES + C_COMMENTS if "{" in self.section else C_LINES
        is_c = self.is_first and any(line.startswith(beginnings) for line in self.lines)
        return "this looks like C: tools/bpfrun run FILE.c compiles and runs it" if is_c else self.hidden()
