"""What is reached from a contract."""

from __future__ import annotations

import re
from collections.abc import Iterator
from functools import lru_cache, partial
from pathlib import Path

from .items import NAME, Item, names_in
from .specs import STD, Imports, Place, read_specs
from .types import SourceFile, find_type, imported_from, read_source

VARIANTS = "TheVariants"
HOLE = "◌"  # of an operand, in the name of an operator
CLAUSE = re.compile(r"^    (?:ensures|requires)\b.*?\}$", re.MULTILINE | re.DOTALL)


class Crates:
    """The crates of the repository, and what their names stand for."""

    def __init__(self, top: Path) -> None:
        self.folder = top / "crates"
        self.specs = lru_cache(maxsize=None)(partial(read_specs, self.folder))
        self.source = lru_cache(maxsize=None)(partial(read_source, self.folder))

    def reached(self, crate: str, function: str) -> list[Item]:
        """All definitions and types that the contract of a public function cites, and theirs in turn."""
        found: dict[Item, None] = {}
        waiting = list(self.cited_by_contract(crate, function))
        while waiting:
            item = waiting.pop()
            if item not in found:
                found[item] = None
                waiting += self.cited_by(item)
        return sorted(found, key=lambda item: (item.crate, item.file, item.name))

    def cited_by_contract(self, crate: str, function: str) -> Iterator[Item]:
        """What the clauses of a function cite, and the types of its parameters."""
        for path in sorted((self.folder / crate / "src").rglob("*.rt")):
            text = path.read_text(encoding="utf-8")
            head = re.search(rf"^pub fn {function}\b.*?^{{$", text, re.MULTILINE | re.DOTALL)
            if head:
                source = self.source(crate, str(path.relative_to(self.folder / crate)))
                yield from self._types_in(source, crate, CLAUSE.sub("", head.group()))
                for clause in CLAUSE.findall(head.group()):
                    yield from self._named(source.imports, {}, clause)

    def cited_by(self, item: Item) -> Iterator[Item]:
        """What an item cites."""
        if item.is_type:
            source = self.source(item.crate, item.file)
            yield from self._types_in(source, item.crate, item.text)
            yield from self._named(source.imports, {}, item.text)
        else:
            specs = self.specs(item.crate, item.file)
            yield from self._named(specs.imports, specs.items, item.text)

    def _named(self, imports: Imports, own: dict[str, Item], text: str) -> Iterator[Item]:
        """The items of the names in a text: of its own file, or imported. An operator counts as named wherever it is
        imported or defined."""
        operators = {name for name in (*own, *imports.names) if HOLE in name}
        for name in operators | names_in(text):
            first = name.partition(".")[0]
            if first in own:
                yield own[first]
            yield from self._imported(imports, name)

    def cited(self, imports: Imports, text: str) -> tuple[Item, ...]:
        """The definitions that a text cites by imports, in order, each once."""
        found = (item for word in NAME.findall(text) for item in self._imported(imports, word))
        return tuple(dict.fromkeys(item for item in found if item.is_definition))

    def imported(self, imports: Imports) -> Iterator[Item]:
        """The definitions that are imported by name."""
        items = (item for place, name in imports.names.values() for item in self._at(place, name))
        return (item for item in items if item.is_definition)

    def _imported(self, imports: Imports, word: str) -> Iterator[Item]:
        """What a word stands for by imports; one with a dot is a name at a place."""
        first, _, rest = word.partition(".")
        if first in imports.names:
            yield from self._at(*imports.names[first])
        if first in imports.places and rest:
            yield from self._at(imports.places[first], rest.partition(".")[0])

    def _at(self, place: Place, name: str) -> Iterator[Item]:
        """The item of a name at a place."""
        if place[0] == STD:
            return
        crate, kind, *rest = place
        if kind == "specs" and rest[:1] == ["declared"]:
            yield from self._declared(crate, [part for part in rest[1:] if part != VARIANTS])
        else:
            items = self.specs(crate, f"{kind}/{'/'.join(rest)}.antt").items
            if name in items:
                yield items[name]

    def _declared(self, crate: str, path: list[str]) -> Iterator[Item]:
        """The type of a path of modules that ends with its name."""
        items = self.source(crate, f"src/{'/'.join(path[:-1])}.rt").items
        if path[-1] in items:
            yield items[path[-1]]

    def _types_in(self, source: SourceFile, crate: str, text: str) -> Iterator[Item]:
        """The public types that a piece of code names, of this repository."""
        for name in names_in(text):
            if name in source.items:
                yield source.items[name]
            elif name in source.crates:
                yield from self._type(source.crates[name], name)

    def _type(self, crate: str, name: str) -> Iterator[Item]:
        """The type of a name that a crate has, its own or from another."""
        file = find_type(self.folder, crate, name)
        if file:
            yield file.items[name]
        elif imported_from(self.folder, crate, name) != crate:
            yield from self._type(imported_from(self.folder, crate, name), name)
