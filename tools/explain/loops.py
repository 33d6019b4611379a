"""The loops of an accepted unit: which execution strategy each takes, and why elements conflict.

    loop 0 at 5: answer 1000, conflict 32 least 1
      way: watched then 1 block then in order, 1 worker: an iteration read what was written
      element 1 (map 0 at 1): buckets
        iteration    0 writes it    line 30: stx64 [r2+0], r3
        iteration   16 reads it     line 21: ldx64 r4, [r2+0]    ; 10_tokens.c:13: __u64 t = b->tokens + ..
      and 31 elements more

Of an element that is reduced, the first access is shown too that isn't a reduce by the same operator, and what helps.
"""

from __future__ import annotations

import re
from bisect import bisect_right
from collections import defaultdict
from collections.abc import Iterator, Sequence
from itertools import accumulate
from typing import NamedTuple

from .pages import Page, lines_of
from .records import Cell, Facts, Loop, Pair
from .shown import counted, cut_name

CONFLICT, REFUSED, PARALLEL = "conflict", "refused", "parallel"  # verdicts
SUMS, WATCHED, READS_WRITTEN = "sums", "watched", "reads_written"  # strategies, and the reason of one
TOO_MANY = -7  # the answer of a call that asks for too many iterations
BREAKS = "breaks it"
ENDING = 2  # the number of the step that ends a reduction, after a write and a read
REASONS = {
    "only_reduces": "iterations only reduce elements",
    "reads_nothing_written": "no iteration read what an earlier one wrote",
    "lrpd": "judged by the lrpd test",
    "work": "private copies pay",
    READS_WRITTEN: "an iteration read what was written",
}

READS, WRITES, REDUCES, FETCHES, EXCHANGES = "reads", "writes", "reduces", "fetches", "exchanges"
APART = "u64 in place of u32, or the variables in elements apart"
HALF_WRITTEN = f"a store to one half keeps the other: {APART}"
FETCHED = "it tells what was there: without use of that, __atomic_fetch_{}(.., __ATOMIC_RELAXED) is a reduce"
READ_APART = "what is reduced is read after the loop, or in a loop of its own"
ONE_OPERATOR = "a reduction has one operator for all, and one width"
# What an access does to the whole of an element or a half of it, and what helps where a reduction ends at it.
WORDS = {
    (READS, True): ("reads it", READ_APART),
    (READS, False): ("reads half of it", READ_APART),
    (WRITES, True): ("writes it", "what is reduced is set before the loop, or in a loop of its own"),
    (WRITES, False): ("stores half of it", HALF_WRITTEN),
    (REDUCES, True): ("reduces it by {}", ONE_OPERATOR),
    (REDUCES, False): ("reduces half of it by {}", f"{ONE_OPERATOR}: {APART}"),
    (FETCHES, True): ("fetches it, and {}s", FETCHED),
    (EXCHANGES, True): ("fetches it, and stores", "it tells what was there, and is no reduce"),
}

# Comments that name maps and variables; of a variable more may follow after a comma.
MOST_LISTED = 64  # variables of a map that the loader from C lists
MOST_NUMBER = (1 << 32) - 1
NUMBER = r"\+?0*([0-9]{1,10})"  # it may begin with a plus
HEAD = re.compile(f"; map {NUMBER}: (.*)", re.DOTALL)
VARIABLE = re.compile(f";   ((?:(?! from ).)*) from (?:byte {NUMBER} of )?element {NUMBER}(?:, .*)?", re.DOTALL)


class Access(NamedTuple):
    """What an instruction does at an element; `whole` is false if at 32 bits of it or fewer."""

    kind: str
    whole: bool
    operator: str = ""  # of a reduce or a fetch

    def words(self) -> str:
        """What it does, in words."""
        return WORDS[self.kind, self.whole][0].format(self.operator)


class Step(NamedTuple):
    """What an iteration does at an element, and the slot where."""

    index: int
    slot: int
    access: Access


class Names:
    """The names that the comments in front of a unit's text give to maps and to their elements:

    ; map 0: .bss
    ;   total from element 0
    ;   small from byte 4 of element 1
    """

    def __init__(self, text: str) -> None:
        self._maps: dict[int, str] = {}
        listed: dict[int, list[tuple[str, int, int]]] = defaultdict(list)
        of_map: list[tuple[str, int, int]] = []  # names, and the element and the byte of it in which each begins
        for line in lines_of(text):
            if (head := HEAD.fullmatch(line)) and int(head[1]) <= MOST_NUMBER:
                of_map = listed[int(head[1])]
                if not head[2].startswith(".") and ";" not in head[2]:  # it isn't a section of a program from C
                    self._maps.setdefault(int(head[1]), head[2])
            if (found := VARIABLE.fullmatch(line)) and max(int(found[2] or 0), int(found[3])) <= MOST_NUMBER:
                of_map.append((found[1], int(found[3]), int(found[2] or 0)))
        self._variables = {number: _Variables(found) for number, found in listed.items()}

    def at(self, map_number: int, element: int) -> str:
        """The name of a map that is no section, or the variables at an element, after a colon; empty if none is."""
        if map_number in self._maps:
            return f": {cut_name(self._maps[map_number])}"
        found = self._variables[map_number].at(element) if map_number in self._variables else []
        return f": {' and '.join(map(cut_name, found))}" if found else ""


class _Variables:
    """The variables of a map in the order of their list."""

    def __init__(self, variables: list[tuple[str, int, int]]) -> None:
        self._listed = variables
        self._inside: dict[int, list[str]] = defaultdict(list)  # those that begin in an element after its first byte
        for name, element, byte in variables:
            if byte:
                self._inside[element].append(name)
        starts = [(element, byte) for _, element, byte in variables]
        self._least = [*accumulate(reversed(starts), min)][::-1]  # the least start from each place of the list on

    def at(self, element: int) -> list[str]:
        """The names at an element: of the last variable in the list that begins with it or before it, and of those
        inside it. If the list may have been cut, its last variable has no elements but the one that it begins in."""
        inside = self._inside.get(element, [])
        last = bisect_right(self._least, (element, 0)) - 1
        if last < 0:
            return inside
        name, start, _ = self._listed[last]
        return [] if last >= MOST_LISTED - 1 and start < element else [name, *inside]


class Loops:
    """The loops of an accepted unit, in words."""

    def __init__(self, facts: Facts, page: Page, text: str) -> None:
        """The records, the page of the unit's text and that text, which is empty in hex form."""
        self._facts = facts
        self._page = page
        self._names = Names(text)
        self._fronts = [0, *accumulate(facts.maps)]  # the elements of all maps before each map

    def lines(self, most: int) -> Iterator[str]:
        """The explanation of each loop call, in the order in which main makes them, and of so many of its elements."""
        for loop in self._facts.loops:
            yield from self.head(loop)
            if loop.verdict == REFUSED:
                continue
            if loop.way is not None:
                yield f"  way: {way_words(loop)}"
            for pair in loop.pairs[:most]:
                yield from self._conflict(pair)
            others = (loop.conflicts or 0) - len(loop.pairs[:most])
            if others > 0:
                yield f"  and {counted(others, 'element')} more"
            if loop.break_iteration is not None and loop.break_slot is not None:
                yield f"  {self.place(loop.break_iteration, loop.break_slot, BREAKS)}"

    def head(self, loop: Loop) -> Iterator[str]:
        """The line of a loop as `run` prints it, and why it is refused, if it is."""
        yield f"loop {loop.loop} at {loop.slot}: answer {loop.answer}, {self.verdict(loop)}"
        if loop.verdict == REFUSED:
            yield f"  {self.refusal(loop)}"

    def verdict(self, loop: Loop) -> str:
        """The outcome of a loop: `parallel`, `refused` or `conflict 6 least 1`."""
        if loop.verdict != CONFLICT:
            return loop.verdict
        return f"{CONFLICT} {loop.conflicts} least {min(map(self.element, loop.pairs), default=0)}"

    def element(self, record: Pair | Cell) -> int:
        """The number among the elements of all maps of the element of a record."""
        return self._fronts[record.map] + record.element

    def place(self, index: int, slot: int, what: str) -> str:
        """What an iteration does, and the line where."""
        return f"iteration {index:>4} {what:<12} {self._page.place(slot, self._facts.text(slot))}"

    def refusal(self, loop: Loop) -> str:
        """Why a call is refused."""
        if loop.answer == TOO_MANY:
            return f"it asks for {loop.iterations} iterations (r1), and 8388608 are the most"
        return f"its flags are {loop.flags} (r4), and have to be 0"

    def element_words(self, pair: Pair) -> str:
        """An element, by its number over all maps and in its own, and by the names of its variables."""
        names = self._names.at(pair.map, pair.element)
        return f"element {self.element(pair)} (map {pair.map} at {pair.element}){names}"

    def steps(self, pair: Pair) -> list[Step]:
        """What the iterations of a pair do at its element: the one that writes it, the one that reads it and, if either
        reduces it, the one that ends the reduction."""
        places = (pair.writer, pair.writer_slot), (pair.reader, pair.reader_slot), (pair.end or 0, pair.end_slot)
        accesses = ((index, slot, access_of(self._facts.text(slot))) for index, slot in places)
        steps = [Step(index, slot or 0, access) for index, slot, access in accesses if access is not None]
        return steps[:ENDING] if reduction_of(steps) is None else steps

    def _conflict(self, pair: Pair) -> Iterator[str]:
        """Why an element conflicts, and what helps."""
        yield f"  {self.element_words(pair)}"
        steps = self.steps(pair)
        reduction = reduction_of(steps)
        for number, step in enumerate(steps):
            if number == ENDING and reduction is not None:
                halves = "" if reduction.whole else " of halves"
                yield f"    the first access that isn't a reduce by {reduction.operator}{halves}:"
            yield f"    {self.place(step.index, step.slot, step.access.words())}"
        if reduction is None and len(steps) == ENDING:
            yield from (f"    {advice}" for advice in pair_advice(*(step.access for step in steps)))
        elif len(steps) > ENDING:
            ending = steps[ENDING].access
            yield f"      {WORDS[ending.kind, ending.whole][1].format(ending.operator)}"


def reduction_of(steps: Sequence[Step]) -> Access | None:
    """The reduce of one of the first two steps, that of the earlier iteration if both reduce."""
    return next((step.access for step in sorted(steps[:ENDING]) if step.access.kind == REDUCES), None)


def way_words(loop: Loop) -> str:
    """The steps of a loop, its workers, and the reason: `watched, 1 worker: no iteration ..`."""
    workers, way = loop.workers or 1, loop.way
    reason = REASONS.get(loop.reason or "", "")
    if way == SUMS and workers == 1:
        way, reason = "in order", f"{reason}, several workers don't pay"
    elif way not in (SUMS, WATCHED):
        before = f"{WATCHED} then " if loop.reason == READS_WRITTEN else ""
        after = "" if loop.verdict == PARALLEL else " then in order"
        way = f"{before}{counted(loop.blocks or 1, 'block')}{after}"
    return f"{way}, {counted(workers, 'worker')}: {reason}"


def access_of(insn: str | None) -> Access | None:
    """What an instruction, as `disasm` prints it, does at an element; None if it accesses none."""
    name, _, rest = (insn or "").partition(" ")
    whole = name.endswith("64")
    if name.startswith("ldx"):
        return Access(READS, whole)
    if name.startswith("st"):
        return Access(WRITES, whole)
    if not name.startswith("atomic"):
        return None
    operator, _, fetches = rest.partition(" ")[0].partition("_")
    if operator in ("xchg", "cmpxchg"):
        return Access(EXCHANGES, True)
    return Access(FETCHES, True, operator) if fetches else Access(REDUCES, whole, operator)


def pair_advice(writer: Access, reader: Access) -> Iterator[str]:
    """What helps against a writer and a reader of which neither is a reduce; nothing in most cases."""
    if reader.kind == FETCHES:
        yield FETCHED.format(reader.operator)
    elif reader == (WRITES, False, ""):
        yield HALF_WRITTEN
    elif reader == (READS, False, "") and writer == (WRITES, False, ""):
        yield f"where these are two variables: {APART}"
