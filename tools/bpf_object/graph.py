"""The loops of a function's blocks."""

from __future__ import annotations

from collections.abc import Iterator
from typing import NamedTuple

from .code import Function, finished, successors


class Part(NamedTuple):
    """A loop, or a single block."""

    labels: frozenset[int]
    first: int
    is_loop: bool


class Graph:
    """The blocks of a function, parted into loops and single blocks."""

    def __init__(self, function: Function) -> None:
        self._next = {label: successors(block.end) for label, block in function.blocks.items()}
        self._parts: dict[tuple[frozenset[int], int | None], list[Part]] = {}

    def parts(self, labels: frozenset[int], header: int | None) -> list[Part]:
        """The loops and single blocks of some labels, in an order that the edges among them follow.

        Edges that lead to the header are left out.
        """
        key = (labels, header)
        if key not in self._parts:
            parts = self._find(labels, header)
            self._parts[key] = [Part(frozenset(part), part[0], self._is_loop(part, header)) for part in parts]
        return self._parts[key]

    def _is_loop(self, part: list[int], header: int | None) -> bool:
        """Whether a part leads to itself."""
        return len(part) > 1 or (part[0] in self._next[part[0]] and part[0] != header)

    def _find(self, labels: frozenset[int], header: int | None) -> Iterator[list[int]]:
        """Kosaraju's algorithm: each part has first the label that was come to first."""
        following = {label: [n for n in self._next[label] if n in labels and n != header] for label in labels}
        leads: dict[int, list[int]] = {label: [] for label in labels}
        for label, others in following.items():
            for other in others:
                leads[other].append(label)
        seen: set[int] = set()
        order = [label for root in sorted(labels) if root not in seen for label in finished(root, following.get, seen)]
        taken: set[int] = set()
        for root in reversed(order):
            if root not in taken:
                yield [*finished(root, leads.get, taken)][::-1]
