"""Types of the code: what a clause means that speaks of a value of theirs."""

from __future__ import annotations

import re
from collections.abc import Iterator
from dataclasses import dataclass
from pathlib import Path

from .items import Item, without_comments
from .specs import Imports

TYPE = re.compile(r"^pub (?:struct|enum) (\w+)")
MODEL = re.compile(r"^impl.* Model for (\w+)")
FIELD = re.compile(r"^    (?:pub(?:\(crate\))? |ghost )?(\w+):")
VIEWS = ("ghost Value", "ghost view")
RUST_USE = re.compile(r"^(?:pub )?use ([\w:]+)::(?:\{([^}]*)\}|(\w+));", re.MULTILINE)


@dataclass
class SourceFile:
    """A file of code: its types, and what it imports."""

    imports: Imports  # of definitions
    crates: dict[str, str]  # of a type that another file has, or another crate: that crate
    items: dict[str, Item]


def read_source(crates: Path, crate: str, file: str) -> SourceFile:
    """Reads the types of a file of code, where there is one."""
    path = crates / crate / file
    text = path.read_text(encoding="utf-8") if path.is_file() else ""
    imports = Imports()
    for found in re.findall(r"ghost use [^;]*;", text):
        imports.read(" ".join(found.split()))
    items = {name: Item(crate, file, name, block) for name, block in _types(without_comments(text, "//"))}
    return SourceFile(imports, dict(_imported(crate, text)), items)


def find_type(crates: Path, crate: str, name: str) -> SourceFile | None:
    """The file of a crate that has a public type."""
    for path in sorted((crates / crate / "src").rglob("*.rt")):
        if re.search(rf"^pub (?:struct|enum) {name}\b", path.read_text(encoding="utf-8"), re.MULTILINE):
            return read_source(crates, crate, str(path.relative_to(crates / crate)))
    return None


def imported_from(crates: Path, crate: str, name: str) -> str:
    """The crate that a crate has a name from: its own where it declares it."""
    root = crates / crate / "src" / "lib.rt"
    text = root.read_text(encoding="utf-8") if root.is_file() else ""
    return dict(_imported(crate, text)).get(name, crate)


def _imported(crate: str, text: str) -> Iterator[tuple[str, str]]:
    modules = re.findall(r"^(?:pub )?mod (\w+);", text, re.MULTILINE)
    for path, names, name in RUST_USE.findall(text):
        source = path.split("::")[0]
        for each in (names or name).split(","):
            yield each.strip(), crate if source == "crate" or path in modules else source


def _types(text: str) -> Iterator[tuple[str, str]]:
    """The types of a text, each with what is said of its values in contracts: its view, where it has a model."""
    lines = text.splitlines()
    views: dict[str, str] = {}
    blocks: dict[str, str] = {}
    for number, line in enumerate(lines):
        if found := TYPE.match(line):
            blocks[found.group(1)] = _block(lines[number:])
        elif found := MODEL.match(line):
            views[found.group(1)] = _views(_block(lines[number:]))
    return ((name, _seen(block, views.get(name, ""))) for name, block in blocks.items())


def _seen(block: str, view: str) -> str:
    """Of a type with a view the fields that occur in it, and the view; else all of the type."""
    if not view:
        return block
    shown = set(re.findall(r"\.(\w+)", view))
    fields = ((FIELD.match(line), line) for line in block.splitlines())
    return "\n".join([*(line for field, line in fields if not field or field.group(1) in shown), view])


def _block(lines: list[str]) -> str:
    """The lines up to the brace that closes the first."""
    if lines[0].endswith(";"):
        return lines[0]
    return "\n".join(lines[: lines.index("}") + 1])


def _views(block: str) -> str:
    """What a model says of values: without the invariant, which holds of each."""
    statements = re.findall(r"^    (ghost .*?;)\n", block + "\n", re.MULTILINE | re.DOTALL)
    return "\n".join(statement for statement in statements if statement.startswith(VIEWS))
