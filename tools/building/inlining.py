"""The attributes on inlining that the sources give functions, which the module of `rt try` leaves out."""

from __future__ import annotations

import re
from collections.abc import Iterator
from pathlib import Path

from .crates import Repository

IMPL = re.compile(r"impl(?:<[^>]*>)? (?:[\w:<>' ,]+ for )?&?(\w+)")
ATTRIBUTE = re.compile(r"\s*#\[(inline(?:\((?:always|never)\))?|cold)\]")
FUNCTION = re.compile(r"\s*(?:pub(?:\([^)]*\))? )?(?:const )?fn (\w+)")
AT_TOP = re.compile(r"(?:pub(?:\([^)]*\))? )?(?:const )?fn ")
OF_LLVM = {"inline": "inlinehint", "inline(always)": "alwaysinline", "inline(never)": "noinline", "cold": "cold"}
DEFINED = re.compile(r'^(define [^\n]*@"([^"\n]+)"\([^\n]*?)( #\d+ \{)$', re.M)
ARGUMENTS = re.compile(r"<[^>]*>")  # of a generic's name

# A function by its crate, its type or else its module, and its name.
Name = tuple[str, str, str]


def hinted(text: str, repository: Repository, libraries: list[str]) -> str:
    """The module with these attributes on its functions."""
    folders = {crate: repository.top / "crates" / crate / "src" for crate in libraries}
    files = ((crate, path) for crate, folder in folders.items() for path in sorted(folder.rglob("*.rt")))
    hints = {name: hint for crate, path in files for name, hint in _of_file(crate, path)}
    return DEFINED.sub(lambda found: f"{found[1]}{_of_function(found[2], hints)}{found[3]}", text)


def _of_function(path: str, hints: dict[Name, str]) -> str:
    """What a function of the module is given: its path has its type, or a generic's instance after its name."""
    parts = ARGUMENTS.sub("", path).split("::")
    for end in (len(parts), len(parts) - 1):
        if end >= 3 and (hint := hints.get((parts[0], parts[end - 2], parts[end - 1]))):
            return f" {hint}"
    return ""


def _of_file(crate: str, path: Path) -> Iterator[tuple[Name, str]]:
    """The functions of a file that have such an attribute."""
    within, hint = path.stem, None
    for line in path.read_text(encoding="utf-8").splitlines():
        if found := IMPL.match(line):
            within = found[1]
        elif AT_TOP.match(line):
            within = path.stem
        if found := ATTRIBUTE.match(line):
            hint = OF_LLVM[found[1]]
        elif found := FUNCTION.match(line):
            if hint:
                yield (crate, within, found[1]), hint
            hint = None
