"""Public calls: what their comments say, and which definitions their contracts cite."""

from __future__ import annotations

import re
from collections.abc import Iterator
from dataclasses import dataclass
from itertools import takewhile
from pathlib import Path, PurePath

from base.items import Item, joined
from base.reach import Crates
from base.types import SourceFile

CALL = re.compile(r"( *)(pub )?(?:extern \"C\" )?fn (\w+)")
OWNER = re.compile(r"(?:impl(?:<[^>]*>)?|(pub trait)) (\w+)[^{]*\{$")
CLAUSE = re.compile(r"^ +(requires|ensures) (\w* ?)\{", re.MULTILINE)
MODEL = re.compile(r"^impl[^\n]* Model for (\w+).*?^}", re.MULTILINE | re.DOTALL)
MARK = "///"
# The calls that these pages name in code spans are listed.
PAGES = "PROOF.md", "LIBRARY.md", "C_LIBRARY.md"
CODE = re.compile(r"`([^`\n]+)`")
WORD = re.compile(r"[A-Za-z_]\w*(?:::\w+)*")


@dataclass(frozen=True)
class Clause:
    """A clause of a contract."""

    keyword: str  # requires or ensures
    name: str  # empty where it has none
    text: str
    cites: tuple[Item, ...]


@dataclass(frozen=True)
class Call:
    """A public function, with its type's name in front where it has one."""

    name: str
    about: str  # the first paragraph of its comment
    clauses: tuple[Clause, ...]

    def cites(self) -> Iterator[Item]:
        """All definitions that its contract cites."""
        return (name for clause in self.clauses for name in clause.cites)

    def is_named(self, words: set[str]) -> bool:
        """Whether it is among the words, with its type's name or without."""
        return self.name in words or self.name.rpartition("::")[2] in words


def sources(crates: Crates, crate: str) -> list[str]:
    """The files of a crate's code, below its folder, the one of its root first."""
    folder = crates.folder / crate
    paths = sorted((folder / "src").rglob("*.rt"), key=lambda path: (path.name != "lib.rt", path))
    return [path.relative_to(folder).as_posix() for path in paths]


def read_calls(crates: Crates, crate: str) -> list[Call]:
    """The public calls of a crate, file by file."""
    path = crates.folder / crate / "src" / "lib.rt"
    root = path.read_text(encoding="utf-8") if path.is_file() else ""
    calls = ((file, call) for file in sources(crates, crate) for call in _calls_in(crates, crate, file))
    # The root of a crate names what a file offers, or makes all of that file public.
    offered = r"\b{}\b|^pub mod {};"
    names = ((call, call.name.partition("::")[0], PurePath(file).stem) for file, call in calls)
    return [call for call, name, module in names if re.search(offered.format(name, module), root, re.MULTILINE)]


def _calls_in(crates: Crates, crate: str, file: str) -> Iterator[Call]:
    lines = (crates.folder / crate / file).read_text(encoding="utf-8").splitlines()
    source = crates.source(crate, file)
    owner, is_trait = "", False
    for number, line in enumerate(lines):
        if found := OWNER.match(line):
            owner, is_trait = found.group(2), bool(found.group(1))
        elif line == "}":
            owner, is_trait = "", False
        elif (found := CALL.match(line)) and (found.group(2) or is_trait):
            name = f"{owner}::{found.group(3)}" if owner else found.group(3)
            yield Call(name, _about(lines[:number]), tuple(_clauses(crates, source, _head(lines[number:]))))


def _about(above: list[str]) -> str:
    """The first paragraph of the comment that stands above, with attributes perhaps between."""
    block = list(takewhile(lambda line: line and not line.endswith("{"), reversed(above)))[::-1]
    comment = (line.strip() for line in block if line.strip().startswith(MARK))
    return joined(takewhile(lambda line: line != MARK, comment), MARK)


def _head(lines: list[str]) -> str:
    """A call's signature and contract, of the lines from its first on."""
    indent = lines[0][: len(lines[0]) - len(lines[0].lstrip())]
    ends = {f"{indent}{{", f"{indent}{{}}"}
    taken: list[str] = []
    for line in lines:
        if line in ends:
            break
        taken.append(line)
        if line.startswith((f"{indent}pub", f"{indent}fn", f"{indent})")) and line.endswith((" {", "{}", ";")):
            break
        if line.endswith("};"):
            break
    return "\n".join(taken)


def _clauses(crates: Crates, source: SourceFile, head: str) -> Iterator[Clause]:
    found = list(CLAUSE.finditer(head))
    ends = [clause.start() for clause in found[1:]] + [len(head)]
    for clause, end in zip(found, ends):
        text = " ".join(head[clause.end() : end].split()).removesuffix(";").removesuffix("}").strip()
        yield Clause(clause.group(1), clause.group(2).strip(), text, crates.cited(source.imports, text))


def cited_by_types(crates: Crates, crate: str) -> Iterator[Item]:
    """The definitions that say what the values of a crate's public types are, and what holds of each."""
    for file in sources(crates, crate):
        source = crates.source(crate, file)
        models = MODEL.finditer((crates.folder / crate / file).read_text(encoding="utf-8"))
        texts = [item.text for item in source.items.values()]
        texts += [model.group() for model in models if model.group(1) in source.items]
        yield from (name for text in texts for name in crates.cited(source.imports, text))


def read_named(docs: Path) -> set[str]:
    """The words in code spans of the pages of guarantees and of both libraries, with their `::`."""
    texts = [(docs / name).read_text(encoding="utf-8") for name in PAGES if (docs / name).is_file()]
    return {word for text in texts for code in CODE.findall(text) for word in WORD.findall(code)}
