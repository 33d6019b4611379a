"""What a unit's text has: the slot of each line, the functions' names, and its loop calls."""

from __future__ import annotations

from collections.abc import Iterator, Sequence
from dataclasses import dataclass

COMMENT = ";"
VALUES = "%%"
LOOP = "call 181"
SHORT = 1 << 15  # words whose text is never too long for an input


@dataclass(frozen=True)
class UnitLine:
    """A line of a unit with an instruction: its number from 1, its slot, its text without a comment, its first label."""

    number: int
    slot: int
    text: str
    label: str | None


@dataclass(frozen=True)
class UnitText:
    """A unit's text, without values."""

    text: str
    lines: tuple[UnitLine, ...]

    @property
    def loop_slots(self) -> list[int]:
        return [line.slot for line in self.lines if line.text == LOOP]


def read_unit(text: str) -> UnitText:
    """The lines of a unit that the loader made."""
    return UnitText(text, tuple(_lines(text)))


def with_values(unit: str, maps: Sequence[Sequence[int]]) -> str:
    """A unit with values of its maps, as the program reads it."""
    lines = (f"map {number}: {' '.join(map(str, values))}\n" for number, values in enumerate(maps))
    return f"{unit}{VALUES}\n{''.join(lines)}"


def split(words: Sequence[int], sizes: Sequence[int]) -> list[list[int]]:
    """Words over all maps as those of each map."""
    maps, at = [], 0
    for size in sizes:
        maps.append([*words[at : at + size]])
        at += size
    return maps


def _lines(text: str) -> Iterator[UnitLine]:
    slot, label = -1, None
    for number, line in enumerate(text.splitlines(), 1):
        code = line.partition(COMMENT)[0].strip()
        if not code:
            continue
        if slot < 0:
            slot = 0  # behind the line of sizes
        elif code.endswith(":"):
            label = label or code[:-1]
        else:
            yield UnitLine(number, slot, code, label)
            slot += 2 if code.startswith("ld") and not code.startswith("ldx") else 1
            label = None
