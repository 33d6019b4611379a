"""Foresees that a loop whose rounds are alike goes on for longer than there is room: these need not be copied."""

from __future__ import annotations

from typing import NamedTuple

from .ranges import ALL, Range, exact, refine

SEEN_ROUNDS = 3  # that have to be alike
FLIPPING = ("jne", "jset", "jnset")  # tests that may fail for one round, and hold before and behind it
WITHIN = "within"  # that an access may be in the bytes of a variable: what leads outside is a trap


class Way(NamedTuple):
    """A comparison that may hold, and what it compares."""

    op: str
    width: int
    a: Range
    b: Range


class Round(NamedTuple):
    """A copied round: its instructions, and where its tests can lead."""

    size: int
    ways: list[Way]


class Course:
    """The last rounds of a loop."""

    def __init__(self) -> None:
        self._rounds: list[Round] = []
        self._count = 0
        self._next_look = SEEN_ROUNDS  # at that round

    def end_round(self, size: int, ways: list[Way]) -> None:
        """A round is copied."""
        self._rounds = [*self._rounds[1 - SEEN_ROUNDS :], Round(size, ways)]
        self._count += 1

    @property
    def size(self) -> int:
        """The instructions of the last round."""
        return self._rounds[-1].size

    def rounds_within(self, room: int) -> int:
        """How many more rounds there is room for, where the loop surely goes on as before for longer; else 0."""
        if self._count < self._next_look or len({one.size for one in self._rounds}) > 1:
            return 0
        self._next_look = self._count + self._count // 2
        kinds = [[(way.op, way.width) for way in one.ways] for one in self._rounds]
        if any(kind != kinds[0] for kind in kinds):
            return 0
        more = room // self.size
        return more if all(_stays(ways, more + 1) for ways in zip(*(one.ways for one in self._rounds))) else 0


def _stays(seen: tuple[Way, ...], rounds: int) -> bool:
    """Whether a comparison may hold in so many more rounds, if what it compares changes as in those that were seen."""
    last = seen[-1]
    steps = _steps([way.a for way in seen]), _steps([way.b for way in seen])
    if steps[0] is None or steps[1] is None:
        return False
    if steps == ((0, 0), (0, 0)):
        return True
    for ahead in range(1 if last.op in FLIPPING else rounds, rounds + 1):
        a, b = _moved(last.a, steps[0], ahead), _moved(last.b, steps[1], ahead)
        if a is None or b is None or not _may_hold(last, a, b):
            return False
    return True


def _may_hold(way: Way, a: Range, b: Range) -> bool:
    if way.op == WITHIN:
        return a.lo <= b.hi and b.lo <= a.hi
    return refine(way.op, way.width, a, b) is not None


def _steps(seen: list[Range]) -> tuple[int, int] | None:
    """By how much both bounds of a number change from round to round, where it is the same in all."""
    found = {(later.lo - one.lo, later.hi - one.hi) for one, later in zip(seen, seen[1:])}
    return found.pop() if len(found) == 1 else None


def _moved(known: Range, steps: tuple[int, int], ahead: int) -> Range | None:
    """What a number will be some rounds ahead, where it stays one of 64 bits."""
    low, high = known.lo + steps[0] * ahead, known.hi + steps[1] * ahead
    if not 0 <= low <= high <= ALL:
        return None
    return exact(low) if low == high else Range(low, high, 0)
