"""Definitions and their comments."""

from __future__ import annotations

import re
from collections.abc import Iterator
from dataclasses import dataclass
from itertools import takewhile
from pathlib import PurePath

from base.items import Item, comment_above, joined
from base.reach import Crates
from base.specs import Imports

DEFINES = re.compile(r"(?:(?:abbrev|unfoldable) pub|pub (?:record|data)) (\S+)")
MARK = "--"
# How many definitions may share the comment of one above them.
MOST_SHARING = 2
# How a comment begins that goes on from the definition above it.
SPEAKS_OF_ABOVE = re.compile(r"(?:the same|so|such|these|those|and|it|its)\b")


@dataclass
class Definitions:
    """A file of definitions."""

    crate: str
    file: str  # below specs/, without its ending
    about: str  # the comment that it begins with
    comments: dict[str, str]  # by name, in order; empty where there is none
    imports: Imports

    def only(self, names: set[Item]) -> dict[str, str]:
        """The comments of those of its definitions that are among the names, or that a comment below speaks of."""
        taken: dict[str, str] = {}
        is_meant = False
        for name, comment in reversed(self.comments.items()):
            if is_meant or Item(self.crate, f"specs/{self.file}.antt", name, "") in names:
                taken[name] = comment
                is_meant = bool(SPEAKS_OF_ABOVE.match(comment))
        return dict(reversed(taken.items()))


def read_definitions(crates: Crates, crate: str) -> list[Definitions]:
    """The files of definitions of a crate, by name."""
    folder = crates.folder / crate / "specs"
    return [_read(crates, crate, path.relative_to(folder)) for path in sorted(folder.rglob("*.antt"))]


def _read(crates: Crates, crate: str, path: PurePath) -> Definitions:
    lines = (crates.folder / crate / "specs" / path).read_text(encoding="utf-8").splitlines()
    about = joined(takewhile(lambda line: line.startswith(MARK), lines), MARK)
    imports = crates.specs(crate, f"specs/{path.as_posix()}").imports
    return Definitions(crate, path.with_suffix("").as_posix(), about, dict(_comments(lines)), imports)


def _comments(lines: list[str]) -> Iterator[tuple[str, str]]:
    """The definitions, each with its comment. One that has none shares that of a near one above."""
    comment, sharing = "", 0
    for number, line in enumerate(lines):
        if found := DEFINES.match(line):
            has_rank = number and lines[number - 1].startswith("infix")
            own = comment_above(lines, number - bool(has_rank), MARK)
            sharing = 0 if own else sharing + 1
            comment = own or (comment if sharing <= MOST_SHARING else "")
            yield found.group(1), comment
