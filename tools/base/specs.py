"""Files of definitions: what each defines, and what it imports."""

from __future__ import annotations

import re
from collections.abc import Iterator
from dataclasses import dataclass, field
from pathlib import Path

from .items import Item, without_comments

USE = re.compile(r"(?:ghost )?use Rattle\.(.+?);?$")
DEFINES = re.compile(r"(?:abbrev|unfoldable|opaque|pub)\s+(?:pub\s+)?(?:(?:record|data|abbrev|unfoldable)\s+)?(\S+)")
CONSTRUCTOR = re.compile(r"  (?:pub )?([^\W\d]\w*'*) :")
STD = "std"


# Where a name is looked for: the parts of a path as `array_maps.specs.MapList`, without `Rattle`.
Place = tuple[str, ...]


@dataclass
class Imports:
    """What a file may call by a short name."""

    names: dict[str, tuple[Place, str]] = field(default_factory=dict)  # a name here: its place, and its name there
    places: dict[str, Place] = field(default_factory=dict)  # a name here for a whole place

    def read(self, line: str) -> None:
        """Reads one line, where it is an import."""
        if not (found := USE.fullmatch(line.strip())):
            return
        whole = "{" not in line
        for path in _paths(found.group(1)):
            there, _, here = path.partition(" as ")
            *parts, name = there.split(".")
            if whole:
                self.places[here or name] = (*parts, name)
            else:
                self.names[here or name] = (tuple(parts), name)


def _paths(text: str) -> Iterator[str]:
    """The paths of an import: `a.{b.{c, d as e}, f}` imports `a.b.c`, `a.b.d as e` and `a.f`."""
    if not text.endswith("}"):
        yield text
        return
    before, _, inside = text[:-1].partition("{")
    depth, part = 0, ""
    for character in inside + ",":
        depth += {"{": 1, "}": -1}.get(character, 0)
        if character != "," or depth:
            part += character
            continue
        yield from (before + path for path in _paths(part.strip()))
        part = ""


@dataclass
class SpecFile:
    """A file of definitions."""

    imports: Imports
    items: dict[str, Item]  # by name, and by the names of its constructors


def read_specs(crates: Path, crate: str, file: str) -> SpecFile:
    """Reads a file of definitions, where there is one."""
    path = crates / crate / file
    text = path.read_text(encoding="utf-8") if path.is_file() else ""
    imports = Imports()
    for line in text.splitlines():
        imports.read(line)
    items: dict[str, Item] = {}
    for block in _blocks(without_comments(text, "--")):
        found = DEFINES.match(block)
        if found:
            item = Item(crate, file, found.group(1), block)
            constructors = CONSTRUCTOR.findall(block) if block.startswith("pub data") else []
            items.update(dict.fromkeys([item.name, *constructors], item))
    return SpecFile(imports, items)


def _blocks(text: str) -> Iterator[str]:
    """The definitions of a text: each begins at a line that defines a name, and takes the lines up to the next."""
    block: list[str] = []
    for line in text.splitlines():
        if DEFINES.match(line) or line.startswith(("use ", "infix")):
            yield "\n".join(block)
            block = []
        block.append(line)
    yield "\n".join(block)
