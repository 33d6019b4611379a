"""The commands that a page shows, each with what it prints there."""

from __future__ import annotations

import re
from dataclasses import dataclass
from itertools import takewhile
from pathlib import Path

INDENT, COMMAND = "    ", "    $ "
FENCE, SOURCE_FENCE = "```", "```c"
SOURCE_NAME = re.compile(r"// (\w+\.c)")  # a block fenced as C that begins so is a file of that name
ELLIPSIS = "..."


@dataclass(frozen=True)
class Command:
    """A command of a page, and what it prints, as the page shows it."""

    page: Path
    line: int
    text: str
    output: str

    def prints(self, output: str) -> bool:
        """Whether this output is what the page shows. There `...` stands for lines, or for a part of a line."""
        return re.fullmatch(_pattern(self.output), output) is not None


@dataclass(frozen=True)
class Source:
    """A file that a page shows, for the commands after it."""

    name: str
    text: str


def read_page(page: Path, text: str) -> list[Command | Source]:
    """The commands and the files that a page of this text shows, in order."""
    lines = text.splitlines()
    found: list[Command | Source] = []
    for number, line in enumerate(lines):
        rest = lines[number + 1 :]
        if line.startswith(COMMAND):
            found.append(Command(page, number + 1, line[len(COMMAND) :], _output(rest)))
        elif line == SOURCE_FENCE and (name := SOURCE_NAME.fullmatch(rest[0])):
            found.append(Source(name.group(1), "".join(f"{line}\n" for line in rest[: rest.index(FENCE)])))
    return found


def _output(lines: list[str]) -> str:
    """The indented lines up to the next command, or up to the first that isn't indented."""
    of_command = takewhile(lambda line: line.startswith(INDENT) and not line.startswith(COMMAND), lines)
    return "".join(f"{line[len(INDENT) :]}\n" for line in of_command)


def _pattern(shown: str) -> str:
    """The regular expression of an output."""
    escaped = (re.escape(line).replace(re.escape(ELLIPSIS), ".*") + "\n" for line in shown.splitlines())
    return "".join("(?:.*\n)*" if line == ".*\n" else line for line in escaped)
