"""A unit with the instructions of the object, one for one: its maps, and its code with all addresses put in."""

from __future__ import annotations

import re
from collections.abc import Iterator
from contextlib import contextmanager
from dataclasses import replace
from typing import Any

from .btf import Btf, SourceLine, source_lines
from .elf import R_BPF_64_32, R_BPF_64_64, STT_FUNC, STT_OBJECT, Object, Relocation, Section, Symbol
from .insns import CALL_LOCAL, CALL_OPCODE, KIND_CODE, KIND_MAP, KIND_MAP_VALUE, KIND_NUMBER, LDDW, SLOT, Insn, line_of
from .insns import read_insns
from .loaded import Loaded
from .maps import ELEMENT_BYTES, ArrayMap, declared_maps, maps_of
from .refusal import Refused
from .variables import Piece, Variable

SLOTS_LIMIT = 4096
COMMENT_LIMIT = 100  # characters of a source line
VARIABLES_LIMIT = 64  # that are listed of a map
LABEL = re.compile(r"(?!at_)[A-Za-z_][A-Za-z0-9_]{0,31}")
TEXT = ".text"
LOOP_HELPER = 181


def types_of(obj: Object) -> Btf | None:
    """The types of an object, where it was compiled with them."""
    section = obj.section(".BTF")
    return Btf(section.data) if section else None


def lines_of(obj: Object, btf: Btf | None, section: Section) -> dict[int, SourceLine]:
    """The source lines of a section's code, by the slots that they begin at."""
    extension = obj.section(".BTF.ext")
    found = source_lines(extension.data, btf.strings, section.name) if btf and extension else {}
    return {byte // SLOT.size: line for byte, line in found.items() if line.text}


class Program:
    """The code of an object: main's section, then `.text`, with slots counted over both."""

    def __init__(self, obj: Object, btf: Btf | None, maps: list[ArrayMap]) -> None:
        self._obj = obj
        self._maps = maps
        self._starts: dict[int, int] = {}  # the first slot of each section, by the section's number
        self._insns: dict[int, Insn] = {}  # by their slots
        self._sections = [*code_sections(obj)]
        for section in self._sections:
            self._place(section)
        slots = ((self._starts[section.index], lines_of(obj, btf, section)) for section in self._sections)
        self.sources = {first + slot: line for first, lines in slots for slot, line in lines.items()}
        for section in self._sections:
            self._relocate(section)
        self._labels = self._label_slots()

    def lines(self) -> Iterator[str]:
        """The lines of the code: labels, instructions, and source lines where they begin."""
        shown = None
        for slot, insn in self._insns.items():
            if slot in self._labels:
                yield f"{self._labels[slot]}:"
            source = self.sources.get(slot)
            if source and (source.file, source.number) != shown:
                shown = source.file, source.number
                yield f"    ; slot {slot}, {printable(f'{source.file}:{source.number}: {source.text}')}"
            with self._at(slot):
                yield f"    {line_of(insn, self._target(insn, slot))}"

    def loops(self) -> dict[int, SourceLine | None]:
        """The slot of each call of `bpf_loop`, and the source line that it is part of."""
        calls = (s for s, insn in self._insns.items() if (insn.opcode, insn.imm) == (CALL_OPCODE, LOOP_HELPER))
        return {slot: self._source_at(slot) for slot in calls}

    def _source_at(self, slot: int) -> SourceLine | None:
        return next((self.sources[s] for s in range(slot, -1, -1) if s in self.sources), None)

    def _place(self, section: Section) -> None:
        first = sum(insn.slots for insn in self._insns.values())
        slots = len(section.data) // SLOT.size
        if len(section.data) % SLOT.size:
            raise Refused(f"{section.name} is cut in an instruction")
        if first + slots > SLOTS_LIMIT:
            raise Refused(f"the code takes {first + slots} slots, of at most {SLOTS_LIMIT}")
        self._starts[section.index] = first
        self._insns.update(read_insns(section.data, first))

    @contextmanager
    def _at(self, slot: int) -> Iterator[None]:
        """Puts the slot, and the source line where it is known, in front of a reason."""
        try:
            yield
        except Refused as reason:
            source = self._source_at(slot)
            place = f"slot {slot}, {source.file}:{source.number}" if source else f"slot {slot}"
            raise Refused(f"{place}: {reason}") from None

    def _relocate(self, section: Section) -> None:
        for relocation in self._obj.relocations(section):
            slot = self._starts[section.index] + relocation.offset // SLOT.size
            if relocation.offset % SLOT.size or relocation.offset >= section.size or slot not in self._insns:
                raise Refused(f"a relocation of byte {relocation.offset} of {section.name}, where none can be")
            with self._at(slot):
                self._insns[slot] = self._relocated(self._insns[slot], slot, relocation)

    def _relocated(self, insn: Insn, slot: int, relocation: Relocation) -> Insn:
        is_load = insn.opcode == LDDW and insn.src == KIND_NUMBER and insn.next_imm == 0
        if relocation.type == R_BPF_64_64 and is_load:
            return self._load(insn, slot, relocation.symbol)
        if relocation.type == R_BPF_64_32 and insn.opcode == CALL_OPCODE and insn.src == CALL_LOCAL:
            place = relocation.symbol.value + (insn.imm + 1) * SLOT.size
            return replace(insn, imm=self._code_slot(relocation.symbol, place) - slot - 1)
        raise Refused(f"a relocation of type {relocation.type} at opcode {insn.opcode:#04x}")

    def _load(self, insn: Insn, slot: int, symbol: Symbol) -> Insn:
        """The load of an address: of code, of a map, or of a byte of a map's values."""
        section = self._obj.section_of(symbol)
        place = symbol.value + insn.imm
        if section.index in self._starts:
            return replace(insn, src=KIND_CODE, imm=self._code_slot(symbol, place) - slot - 1)
        for number, array in enumerate(self._maps):
            if array.section is section and array.is_declared and array.offset == place:
                return replace(insn, src=KIND_MAP, imm=number)
            if array.section is section and not array.is_declared:
                if not 0 <= place < section.size:
                    raise Refused(f"the address of byte {place} of {section.name}, which has {section.size}")
                return replace(insn, src=KIND_MAP_VALUE, imm=number, next_imm=place)
        raise Refused(f"the address of {self._obj.describe(symbol)} in {section.name}, which is no map and no code")

    def _code_slot(self, symbol: Symbol, place: int) -> int:
        """The slot of the instruction at a byte of a symbol's section."""
        section = self._obj.section_of(symbol)
        slot = self._starts.get(section.index, 0) + place // SLOT.size
        if section.index not in self._starts or not 0 <= place < section.size or place % SLOT.size:
            raise Refused(f"{self._obj.describe(symbol)} is no function of this object")
        if slot not in self._insns:
            raise Refused(f"slot {slot}, which {self._obj.describe(symbol)} leads to, is within an instruction")
        return slot

    def _label_slots(self) -> dict[int, str]:
        """The labels: functions by their names where those can be labels, and all that is led to."""
        slots: dict[str, int] = {}
        for section in self._sections:
            for symbol in self._obj.symbols_in(section, STT_FUNC):
                slot = self._starts[section.index] + symbol.value // SLOT.size
                if slot in self._insns and LABEL.fullmatch(symbol.name):
                    slots.setdefault(symbol.name, slot)
        labels = {slot: name for name, slot in slots.items()}
        for slot, insn in self._insns.items():
            target = slot + 1 + (insn.distance or 0)
            if insn.distance is not None and target in self._insns:
                labels.setdefault(target, f"at_{target}")
        return labels

    def _target(self, insn: Insn, slot: int) -> str:
        """The place that an instruction leads to: a label where there is one, else a distance."""
        distance = insn.distance or 0
        return self._labels.get(slot + 1 + distance, f"{distance:+d}")


def code_sections(obj: Object) -> Iterator[Section]:
    """The sections of main and of its callbacks."""
    mains = [section for section in obj.sections if section.is_code and section.name != TEXT]
    if not mains:
        raise Refused('no section of a main function: write SEC("xdp") in front of it')
    if len(mains) > 1:
        raise Refused(f"several sections of main functions, where one is taken: {mains[0].name}, {mains[1].name}")
    names = [symbol.name for symbol in obj.symbols_in(mains[0], STT_FUNC)]
    if len(names) > 1:
        raise Refused(f"several functions in {mains[0].name}, where main alone is taken: {names[0]}, {names[1]}")
    yield mains[0]
    callbacks = obj.section(TEXT)
    if callbacks and callbacks.is_code:
        yield callbacks


def map_lines(obj: Object, maps: list[ArrayMap]) -> Iterator[str]:
    """The lines of a unit's maps, and comments that name them."""
    for number, array in enumerate(maps):
        yield f"; map {number}: {printable(array.name)}"
        if not array.is_declared:
            for symbol in obj.symbols_in(array.section, STT_OBJECT)[:VARIABLES_LIMIT]:
                yield f";   {printable(symbol.name)} from {_place(symbol.value)}"
    if not maps:
        yield "; the program has no map, and a unit has at least one"
    sizes = [array.elements for array in maps] or [1]
    yield " ".join(["maps", *map(str, sizes)])


def _place(byte: int) -> str:
    element, within = divmod(byte, ELEMENT_BYTES)
    return f"byte {within} of element {element}" if within else f"element {element}"


def printable(text: str) -> str:
    """A text in one line: blanks as single spaces, no other character that isn't printed."""
    return "".join(c if c.isprintable() else "?" for c in " ".join(text.split()))[:COMMENT_LIMIT]


def load_as_is(obj: Object, programs: list[str]) -> Loaded:
    """The object as a unit, without a change."""
    btf = types_of(obj)
    maps = maps_of(obj, btf)
    program = Program(obj, btf, maps)
    code = [*program.lines()]
    return loaded_of(obj, btf, maps, code, lines=program.sources, loops=program.loops(), programs=programs)


def loaded_of(obj: Object, btf: Btf | None, maps: list[ArrayMap], code: list[str], **known: Any) -> Loaded:
    """A unit with the maps of the object, of the lines of its code and what else is known of it."""
    return Loaded(
        unit="".join(f"{line}\n" for line in [*map_lines(obj, maps), *code]),
        sizes=tuple(array.elements for array in maps) or (1,),
        initial=[array.values for array in maps] or [[0]],
        variables=[*_variables(obj, btf, maps)],
        btf=btf,
        **known,
    )


def main_functions(obj: Object) -> list[str]:
    """The names of the functions that have a section of their own kind, as by `SEC`."""
    sections = (section for section in obj.sections if section.is_code and section.name != TEXT)
    return [symbol.name for section in sections for symbol in obj.symbols_in(section, STT_FUNC)]


def _variables(obj: Object, btf: Btf | None, maps: list[ArrayMap]) -> Iterator[Variable]:
    """The global variables and the maps, where each section is a map of its own."""
    first = 0
    types = {declared.name: declared.type for declared in declared_maps(obj, btf)}
    for array in maps:
        if array.is_declared:
            size = array.elements * ELEMENT_BYTES
            piece = Piece(0, size, first)
            name = array.section.name
            yield Variable(array.name, name, types.get(array.name), size, (piece,), btf, array.elements, ELEMENT_BYTES)
        else:
            kinds = dict(btf.variables(array.section.name)) if btf else {}
            for symbol in obj.symbols_in(array.section, STT_OBJECT):
                element, skip = divmod(symbol.value, ELEMENT_BYTES)
                size = max(0, min(symbol.size, array.section.size - symbol.value))
                piece = Piece(0, size, first + element, skip=skip)
                kind = kinds.get(symbol.name)
                yield Variable(symbol.name, array.section.name, kind, size, (piece,), btf)
        first += array.elements
