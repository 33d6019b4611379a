"""Definitions and types, the names in their texts, and comments."""

from __future__ import annotations

import re
from collections.abc import Iterable
from dataclasses import dataclass, field

NAME = re.compile(r"[^\W\d]\w*'*(?:\.[^\W\d]\w*'*)*")


@dataclass(frozen=True)
class Item:
    """A definition of a file in specs/, or a type of one in src/."""

    crate: str
    file: str  # below the crate's folder
    name: str
    text: str = field(compare=False)  # without comments

    @property
    def is_type(self) -> bool:
        """Whether it is a type of the code."""
        return self.file.startswith("src/")

    @property
    def is_definition(self) -> bool:
        """Whether it is one of specs/."""
        return self.file.startswith("specs/")

    @property
    def lines(self) -> int:
        """How many lines it takes, without comments and empty lines."""
        return sum(bool(line.strip()) for line in self.text.splitlines())


def names_in(text: str) -> set[str]:
    """The names in a text; a name with a dot, as `faults.Missing`, is one."""
    return set(NAME.findall(text))


def without_comments(text: str, mark: str) -> str:
    """The text without what follows a mark in each line."""
    return "\n".join(line.partition(mark)[0].rstrip() for line in text.splitlines())


def comment_above(lines: list[str], number: int, mark: str) -> str:
    """The lines right above the one of a number that begin with a mark, joined."""
    first = number
    while first and lines[first - 1].startswith(mark):
        first -= 1
    return joined(lines[first:number], mark)


def joined(lines: Iterable[str], mark: str) -> str:
    """Lines as one, without the mark that each begins with."""
    return " ".join(" ".join(line.strip().removeprefix(mark) for line in lines).split())
