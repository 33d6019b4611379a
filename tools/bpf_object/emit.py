"""Makes a unit of a program that was rewritten: its text, what its slots and elements mean, and what was rewritten."""

from __future__ import annotations

import re
from collections import Counter
from collections.abc import Iterator

from .btf import SourceLine
from .code import Function, line_text
from .layout import Layout
from .lines import Line
from .loaded import Loaded
from .lower import Lowering, callback_order
from .memory import FLAG, Kind, Memory
from .mend import Rewritten
from .plans import Touch, Where
from .room import SlotsOf
from .sums import sum_up
from .unit import printable
from .webs import Webs

LABEL_LIMIT = 16  # characters of a function's name in labels
FLAG_ELEMENT = 0  # the element of the trap that was taken


class Emitted:
    """A unit, and what it is made of. Its lines are written where they are asked for."""

    def __init__(self, memory: Memory, rewritten: Rewritten) -> None:
        self._memory = memory
        self._rewritten = rewritten
        self._names = label_names(rewritten.functions)
        self._parts: dict[int, list[Line]] = {}
        self._can_trap: dict[int, bool] = {}

    @property
    def slots(self) -> int:
        """The slots that it takes, which may be more than there are."""
        return sum(self._slots_of(number) for number in callback_order(self._rewritten))

    def slots_of_lines(self) -> SlotsOf:
        """The slots that each line of C takes."""
        found: SlotsOf = Counter()
        for number in callback_order(self._rewritten):
            for line in self._lines_of(number):
                found[line.line] += line.slots
        return found

    def callbacks_within(self, limit: float) -> bool:
        """Whether its callbacks take fewer slots than that."""
        return sum(map(self._slots_of, callback_order(self._rewritten)[:-1])) < limit

    def _slots_of(self, number: int) -> int:
        return sum(line.slots for line in self._lines_of(number))

    def _lines_of(self, number: int) -> list[Line]:
        """The lines of a function; main's are written behind those of all callbacks."""
        if number not in self._parts:
            Webs(self._rewritten.functions[number]).apply()
            if number:
                sum_up(self._rewritten, number)
            lowering = Lowering(self._rewritten, number, self._names[number], self._names)
            self._parts[number] = lowering.lines(self._can_trap)
        return self._parts[number]

    def loaded(self, programs: list[str]) -> Loaded:
        """All that is known of it."""
        rewritten = self._rewritten
        lines = {number: self._lines_of(number) for number in callback_order(rewritten)}
        text, sources, loops = text_of([line for number in sorted(lines) for line in lines[number]])
        has_traps = any(self._can_trap.values())
        header = _header(self._memory, rewritten.layout, rewritten, has_traps)
        return Loaded(
            unit="".join(f"{line}\n" for line in [*header, *text]),
            sizes=(rewritten.layout.elements,),
            initial=[rewritten.layout.initial()],
            variables=rewritten.layout.variables(),
            lines=sources,
            loops=loops,
            traps=rewritten.traps.all,
            trap_element=FLAG_ELEMENT if has_traps else None,
            rewrites=[*_of_things(self._memory, rewritten), *_of_loops(rewritten), *_at_lines(rewritten)],
            programs=programs,
            btf=self._memory.btf,
        )


def label_names(functions: dict[int, Function]) -> dict[int, str]:
    """A label for each function, which isn't one of a block: those end with `_` and a number, or with a word."""
    names: dict[int, str] = {}
    for number in sorted(functions):
        name = re.sub(r"[^A-Za-z0-9_]", "_", functions[number].name)[:LABEL_LIMIT]
        name = name if re.match(r"[A-Za-z_]", name) else f"f{name}"
        is_clear = name not in names.values() and not re.search(r"_(\d+|trap|ended)$", name)
        names[number] = name if is_clear else f"{name[:LABEL_LIMIT - 6]}_f{number}"
    return names


def text_of(lines: list[Line]) -> tuple[list[str], dict[int, SourceLine], dict[int, SourceLine | None]]:
    """The text of some lines, with their source lines; where these begin, and the loop calls, by their slots."""
    slot = 0
    sources: dict[int, SourceLine] = {}
    loops: dict[int, SourceLine | None] = {}
    wanted = {line.text.rpartition(" ")[2] for line in lines if not line.is_label}
    text: list[str] = []
    shown: SourceLine | None = None
    for line in lines:
        if line.is_label:
            if line.text[:-1] in wanted or slot == 0:
                text.append(line.text)
            continue
        if line.line and line.line != shown:
            shown = line.line
            sources[slot] = line.line
            text.append(f"    ; slot {slot}, {printable(f'{shown.file}:{shown.number}: {shown.text}')}")
        if line.text == "call 181":
            loops[slot] = line.line
        text.append(f"    {line.text}")
        slot += line.slots
    return text, sources, loops


def _header(memory: Memory, layout: Layout, rewritten: Rewritten, has_traps: bool) -> list[str]:
    header = ["; map 0: all variables; the loader rewrote the program, and chose their places"]
    if has_traps:
        header.append(";   element 0 is 0, or the number of the trap that ended the program; element 1 what it tested")
        header += [f";   trap {n}: {printable(trap.told_text())}" for n, trap in enumerate(rewritten.traps.all, 1)]
    for thing in memory.things:
        spot = layout.spots.get(thing.number)
        if spot is None or thing.number == FLAG or thing.kind == Kind.GAP:
            continue
        if thing.kind == Kind.FRAME:
            if spot.low < spot.size:
                header.append(f";   local variables of {printable(thing.name)} from element {spot.element}")
            continue
        apart = f", an element for each {8 >> spot.scale} bytes" if spot.scale else ""
        header.append(f";   {printable(thing.name)} from element {spot.element}{apart}")
    return [*header, f"maps {layout.elements}"]


def _of_things(memory: Memory, rewritten: Rewritten) -> Iterator[str]:
    yield "all variables and maps are in one map, and addresses in it are numbers where the verifier needs it"
    for thing in memory.things:
        spot = rewritten.layout.spots.get(thing.number)
        if spot is None:
            continue
        if spot.scale:
            size = 8 >> spot.scale
            yield f"{thing.name or thing.section}: an element for each {size} byte{'s' if size > 1 else ''}"
        if thing.kind == Kind.FRAME and spot.low < spot.size:
            what = f"{line_text(thing.line)}local variables of {thing.name}"
            yield f"{what}, {spot.size - spot.low} bytes of its frame, are in the map"
        if thing.kind == Kind.HIDDEN and thing.function in rewritten.facts.hidden:
            yield f"{thing.name} is handed on in the map, since it isn't the same in all calls"


def _of_loops(rewritten: Rewritten) -> Iterator[str]:
    for loop, rounds in sorted(rewritten.copied.items()):
        number, header = loop
        line = rewritten.sources[number].blocks[header].line
        end = ", and a trap behind the last" if loop in rewritten.cut else ""
        yield f"{line_text(line)}the loop's rounds are copied, {rounds} of them{end}"
    for number, function in rewritten.sources.items():
        if number and function.kept is not None:
            parts = ", and so are those of a loop in it" if function.parts else ""
            yield f"{line_text(function.line)}the loop's rounds are iterations of a loop call{parts}"


def _at_lines(rewritten: Rewritten) -> Iterator[str]:
    found: set[tuple[str, int, str]] = set()
    for function in rewritten.functions.values():
        for insn in function.insns:
            if isinstance(insn, Touch) and insn.plan.where is not Where.FRAME:
                place = (insn.line.file, insn.line.number) if insn.line else ("", 0)
                found |= {(*place, text) for text in _texts(insn, rewritten)}
    for file, number, text in sorted(found):
        yield f"{file}:{number}: {text}" if file else text


def _texts(touch: Touch, rewritten: Rewritten) -> Iterator[str]:
    plan, size = touch.plan, touch.insn.size
    if plan.low is not None or plan.high is not None:
        trap = rewritten.traps.all[plan.bound_trap - 1]
        yield f"a test, and a trap at {trap.text}"
    if plan.align:
        yield f"a test, and a trap at {rewritten.traps.all[plan.trap - 1].text}"
    if size < 4 and not plan.is_alone:
        yield f"{size} byte{'s' if size > 1 else ''} by shifts and masks of an element"
    if plan.where is Where.FLAT and not touch.is_native:
        yield "an address that is a number"
    if touch.was_sum:
        yield "a sum by an atomic operation, since nothing else is done with it"
