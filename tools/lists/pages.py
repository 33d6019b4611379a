"""The pages that are made."""

from __future__ import annotations

import os
from functools import cached_property, partial
from pathlib import Path

from base.items import Item
from base.reach import Crates

from .calls import Call, cited_by_types, read_calls, read_named
from .crates import Group, crate_table, read_groups
from .definitions import Definitions, read_definitions
from .promises import assign, read_edits, read_promises, read_untried
from .shown import by_crate, shown_calls, shown_definitions, shown_promises

KEPT = "crates/README.md"  # the page that is kept in the repository
HEADLINE = ("spec_run", "run")
HEADS = Path(__file__).with_name("heads")  # how each page begins; `{root}` is the path from it to the repository


class Lists:
    """What the pages list, read from the crates."""

    def __init__(self, top: Path) -> None:
        self.crates = Crates(top)
        self.docs = top / "docs"
        self.groups: list[Group] = read_groups(top / "crates.txt")

    def kept_page(self) -> str:
        """The text of crates/README.md."""
        return _page(KEPT, "..", crate_table(self.crates.folder, self.groups))

    def write(self, folder: Path) -> list[Path]:
        """Writes the pages that aren't kept to a folder, and returns their paths."""
        root = os.path.relpath(self.docs.parent, folder)
        lists = {
            "DEFINITIONS.md": self.definitions_page(root),
            "CONTRACTS.md": self.contracts_page(),
            "MUTANTS.md": self.mutants_page(),
        }
        for name, lines in lists.items():
            (folder / name).write_text(_page(name, root, lines), encoding="utf-8")
        return [folder / name for name in lists]

    @cached_property
    def calls(self) -> dict[str, list[Call]]:
        """The public calls of each crate."""
        return {crate: read_calls(self.crates, crate) for group in self.groups for crate in group.crates}

    @cached_property
    def definitions(self) -> dict[str, list[Definitions]]:
        """The definitions of each crate."""
        return {crate: read_definitions(self.crates, crate) for group in self.groups for crate in group.crates}

    def cited(self) -> set[Item]:
        """The definitions that are cited from outside of their file, and those that the main theorem uses."""
        names = {name for calls in self.calls.values() for call in calls for name in call.cites()}
        for crate, files in self.definitions.items():
            names.update(cited_by_types(self.crates, crate))
            standing = (file for file in files if not file.file.endswith("Rows"))  # those have worked values alone
            names.update(name for file in standing for name in self.crates.imported(file.imports))
        return names.union(item for item in self.crates.reached(*HEADLINE) if not item.is_type)

    def definitions_page(self, root: str) -> list[str]:
        """The definitions by crate and file. Links go by the path from the page to the repository."""
        cited = self.cited()

        def of(crate: str) -> list[str]:
            files = self.definitions[crate]
            return [line for file in files for line in shown_definitions(file, file.only(cited), root)]

        return by_crate(self.groups, of)

    def contracts_page(self) -> list[str]:
        """The public calls by crate: those that a page for users, or that of the guarantees, names."""
        is_named = partial(Call.is_named, words=read_named(self.docs))
        return by_crate(self.groups, lambda crate: shown_calls(filter(is_named, self.calls[crate])))

    def mutants_page(self) -> list[str]:
        """The edits by guarantee, once each edit has its guarantee and each guarantee an edit or its row."""
        promises = read_promises((self.docs / "PROOF.md").read_text(encoding="utf-8"))
        crates = [crate for group in self.groups for crate in group.crates]
        edits = [edit for crate in crates for edit in read_edits(self.crates.folder, crate)]
        assign(promises, edits, read_untried((self.docs / "WRONG_BODIES.md").read_text(encoding="utf-8")))
        return shown_promises(promises)


def _page(name: str, root: str, lines: list[str]) -> str:
    """The text of a page: its head, and then the lines. Links go by the path from the page to the repository."""
    head = (HEADS / Path(name).name).read_text(encoding="utf-8")
    return "\n".join([head.replace("{root}", root), *lines]).rstrip("\n") + "\n"
