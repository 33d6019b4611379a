"""The guarantees of docs/PROOF.md, and the edits that break each: the prover must refuse them."""

from __future__ import annotations

from collections.abc import Iterable, Iterator
from dataclasses import dataclass, field
from pathlib import Path

GUARANTEES = "Guarantees"  # the heading of docs/PROOF.md that the tables of guarantees follow
CLAUSE = "Guarantee"  # the first column of such a table
UNTRIED = "Guarantees without a mutant"  # the heading of a table in docs/WRONG_BODIES.md
# rt reads the lines `file: `, `old: ` and `new: ` alone; `does: ` is for readers of the file.
PROMISE = "promise: "


class Untold(Exception):
    """An edit without a guarantee, or a guarantee without an edit."""


@dataclass(frozen=True)
class Edit:
    """An edit that the prover must refuse."""

    crate: str
    name: str
    promise: str  # words of a guarantee of docs/PROOF.md

    @property
    def path(self) -> str:
        """Its file, from the top."""
        return f"crates/{self.crate}/must-fail/{self.name}.edit"


def read_edits(crates: Path, crate: str) -> list[Edit]:
    """The edits of a crate, by name."""
    return [_read(crate, path) for path in sorted((crates / crate / "must-fail").glob("*.edit"))]


def _read(crate: str, path: Path) -> Edit:
    lines = path.read_text(encoding="utf-8").splitlines()
    promises = [line.removeprefix(PROMISE) for line in lines if line.startswith(PROMISE)]
    edit = Edit(crate, path.stem, "".join(promises[:1]))
    if len(promises) != 1:
        raise Untold(f"{edit.path} has not one line `{PROMISE}..`")
    return edit


@dataclass
class Promise:
    """A guarantee of docs/PROOF.md: a row of a table, under its heading, and the edits that break it."""

    heading: str
    clause: str
    edits: list[Edit] = field(default_factory=list)


def read_promises(page: str) -> list[Promise]:
    """The guarantees of docs/PROOF.md, in order."""
    rows = _first_cells(page)
    return [Promise(part, cell) for section, part, head, cell in rows if (section, head) == (GUARANTEES, CLAUSE)]


def read_untried(page: str) -> list[str]:
    """Words of each guarantee that docs/WRONG_BODIES.md lists as one without an edit."""
    return [cell for section, _, _, cell in _first_cells(page) if section == UNTRIED]


def _first_cells(page: str) -> Iterator[tuple[str, str, str, str]]:
    """The first cell of each row of each table, after the headings above it and the first cell of the table's head."""
    section = part = head = ""
    is_head = True
    for line in page.splitlines():
        if line.startswith("## "):
            section, part = line.removeprefix("## "), ""
        elif line.startswith("### "):
            part = line.removeprefix("### ")
        if not line.startswith("|"):
            is_head = True
            continue
        cell = line.split("|")[1].strip()
        if is_head:
            head, is_head = cell, False
        elif cell.strip(":-"):
            yield section, part, head, cell


def assign(promises: list[Promise], edits: Iterable[Edit], untried: Iterable[str]) -> None:
    """Gives each guarantee its edits, in the order of its words. One without an edit is listed, and no other is."""
    for edit in edits:
        _only(promises, edit.promise, edit.path).edits.append(edit)
    listed = [_only(promises, words, f"`{UNTRIED}`") for words in untried]
    for promise in promises:
        promise.edits.sort(key=lambda edit: promise.clause.index(edit.promise))
        if bool(promise.edits) == (promise in listed):
            lists = "lists a guarantee with" if promise.edits else "doesn't list a guarantee without"
            raise Untold(f"docs/WRONG_BODIES.md {lists} an edit under `{UNTRIED}`: {promise.clause}")


def _only(promises: list[Promise], words: str, place: str) -> Promise:
    """The guarantee that has these words."""
    found = [promise for promise in promises if words in promise.clause]
    if len(found) != 1:
        raise Untold(f"{place}: {len(found)} guarantees of docs/PROOF.md have the words `{words}`, and not one")
    return found[0]
