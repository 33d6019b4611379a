"""The crates of the repository in the groups of crates.txt, and the table of them."""

from __future__ import annotations

import re
from collections.abc import Iterable
from dataclasses import dataclass, field
from itertools import takewhile
from pathlib import Path

from base.items import joined

# What is tried, measured or shown by these isn't promised.
BESIDE = ("tests_", "bench_", "example_")
HEAD = ["|Floor|Crate|What it is|", "|---|---|---|"]
MARK = "//!"
ROOTS = "lib.rt", "main.rt"
SENTENCE = re.compile(r"\.(?: |$)")
# A sentence that is longer ends at its last comma, semicolon or colon up to there.
MOST_CHARACTERS = 90
CLAUSE = re.compile(rf"(.{{1,{MOST_CHARACTERS}}})[,;:] ")


@dataclass
class Group:
    """Crates under one heading."""

    title: str
    crates: list[str] = field(default_factory=list)


def read_groups(file: Path) -> list[Group]:
    """The groups of a list of crates: each begins with a comment, and has the crates up to the next."""
    groups = [Group("")]
    for line in file.read_text(encoding="utf-8").splitlines():
        if line.startswith("#"):
            title = line.removeprefix("#").strip()
            groups.append(Group(title[:1].upper() + title[1:]))
        elif line and not line.startswith(BESIDE):
            groups[-1].crates.append(re.split(r"[ :]", line)[0])
    return [group for group in groups if group.crates]


def crate_table(folder: Path, groups: Iterable[Group]) -> list[str]:
    """A row for each crate of a folder, the lowest floor first. Last are the crates that nothing else depends on."""
    beside = sorted(path.name for path in folder.iterdir() if path.name.startswith(BESIDE))
    floors = [*groups, Group("Tests, benchmarks and an example", beside)]
    return [*HEAD, *(row for floor in floors for row in _rows(folder, floor))]


def _rows(folder: Path, floor: Group) -> list[str]:
    """The rows of a floor, of which the first has its title."""
    titles = [floor.title, *[""] * len(floor.crates)]
    return [f"|{title}|`{crate}`|{_about(folder / crate / 'src')}|" for title, crate in zip(titles, floor.crates)]


def _about(sources: Path) -> str:
    """The first sentence of the comment that a crate begins with, or what of it a short row has room for."""
    root = next(path for name in ROOTS if (path := sources / name).is_file())
    lines = root.read_text(encoding="utf-8").splitlines()
    sentence = SENTENCE.split(joined(takewhile(lambda line: line.startswith(MARK), lines), MARK), maxsplit=1)[0]
    found = CLAUSE.match(sentence) if len(sentence) > MOST_CHARACTERS else None
    return found.group(1) if found else sentence
