"""The things that a program has addresses of: variables, maps, frames. `layout` gives each its place."""

from __future__ import annotations

from dataclasses import dataclass, field
from enum import Enum
from typing import Any

from .btf import Btf, SourceLine, Type
from .elf import R_BPF_64_ABS64, STT_FUNC, STT_OBJECT, Object, Section
from .maps import DECLARED, ELEMENTS_LIMIT, GLOBAL, Declared, declared_maps
from .refusal import Refused

ELEMENT_BYTES = 8
UNKNOWN = 0  # the thing that stands for all whose address was stored
ARGUMENT = 1  # what main's argument would be the address of
FLAG_WORDS = 2  # its number, and what was tested
FLAG = 2  # the words of the trap that was taken


class Kind(Enum):
    """What a thing is."""

    UNKNOWN = "what a stored address leads to"
    ARGUMENT = "what main's argument leads to"
    GLOBAL = "a global variable"
    GAP = "bytes of a section that no symbol names"
    MAP = "a map"
    FRAME = "a function's frame"
    HIDDEN = "a word of the loader's own"


@dataclass
class Thing:
    """Bytes that an address may lead to, and no other's address."""

    number: int
    kind: Kind
    name: str
    size: int  # bytes
    section: str = ""
    offset: int = 0  # in its section
    type: Type | None = None
    data: bytes = b""
    pointers: dict[int, tuple[int, int]] = field(default_factory=dict)  # by byte: the thing and its byte
    entries: int = 0  # of a map
    value_size: int = 0
    function: int = -1  # whose frame it is
    line: SourceLine | None = None


class Memory:
    """All things of an object, by their numbers."""

    def __init__(self, obj: Object, btf: Btf | None) -> None:
        self._obj = obj
        self.btf = btf
        self.things = [
            Thing(UNKNOWN, Kind.UNKNOWN, "", 0),
            Thing(ARGUMENT, Kind.ARGUMENT, "", 0),
            Thing(FLAG, Kind.HIDDEN, "the trap", FLAG_WORDS * ELEMENT_BYTES),
        ]
        self._sections: dict[int, list[tuple[int, Thing]]] = {}  # the first byte of each thing
        self._read_maps()
        for section in obj.sections:
            if section.is_data and f"{section.name}.".startswith(GLOBAL):
                self._read_section(section)
        for section in obj.sections:
            if section.index in self._sections and section.name != DECLARED:
                self._read_pointers(section)

    def add(self, kind: Kind, name: str, size: int, **more: Any) -> Thing:
        """One thing more."""
        self.things.append(Thing(len(self.things), kind, name, size, **more))
        return self.things[-1]

    def at(self, section: Section, byte: int) -> Thing | None:
        """The thing at a byte of a section; one past the last byte is the last thing's."""
        found = [thing for first, thing in self._sections.get(section.index, []) if first <= byte]
        if not found or byte > found[-1].offset + found[-1].size:
            return None
        return found[-1]

    def _read_maps(self) -> None:
        section = self._obj.section(DECLARED)
        if section is None:
            return
        things = [self._map_thing(declared, section) for declared in declared_maps(self._obj, self.btf)]
        self._sections[section.index] = [(thing.offset, thing) for thing in things]

    def _map_thing(self, declared: Declared, section: Section) -> Thing:
        stride = -(-declared.value_size // ELEMENT_BYTES) * ELEMENT_BYTES
        if declared.entries * stride > ELEMENTS_LIMIT * ELEMENT_BYTES:
            raise Refused(f"map {declared.name} has {declared.entries} values of {declared.value_size} bytes: too many")
        of_map = {"entries": declared.entries, "value_size": declared.value_size, "type": declared.type}
        size = declared.entries * stride
        return self.add(Kind.MAP, declared.name, size, section=DECLARED, offset=declared.offset, **of_map)

    def _read_section(self, section: Section) -> None:
        if section.size > ELEMENTS_LIMIT * ELEMENT_BYTES:
            raise Refused(f"{section.name} has {section.size} bytes, of at most {ELEMENTS_LIMIT * ELEMENT_BYTES}")
        kinds = dict(self.btf.variables(section.name)) if self.btf else {}
        data = bytes(section.data).ljust(section.size, b"\0")
        things = self._sections[section.index] = []
        at = 0
        for symbol in self._obj.symbols_in(section, STT_OBJECT):
            end = min(symbol.value + symbol.size, section.size)
            if symbol.value < at or end <= symbol.value:
                continue  # another name of the same bytes
            if symbol.value > at:
                things.append((at, self._gap(section, at, symbol.value, data)))
            thing = self._place(Kind.GLOBAL, symbol.name, section, symbol.value, end, data)
            thing.type = kinds.get(symbol.name)
            things.append((symbol.value, thing))
            at = end
        if at < section.size:
            things.append((at, self._gap(section, at, section.size, data)))

    def _gap(self, section: Section, start: int, end: int, data: bytes) -> Thing:
        """Bytes without a name, which keep their alignment: constants of several sizes may lie in them."""
        return self._place(Kind.GAP, section.name, section, start // ELEMENT_BYTES * ELEMENT_BYTES, end, data)

    def _place(self, kind: Kind, name: str, section: Section, start: int, end: int, data: bytes) -> Thing:
        return self.add(kind, name, end - start, section=section.name, offset=start, data=data[start:end])

    def _read_pointers(self, section: Section) -> None:
        for relocation in self._obj.relocations(section):
            thing = self.at(section, relocation.offset)
            target_section = self._obj.section_of(relocation.symbol)
            name = self._obj.describe(relocation.symbol)
            if relocation.type != R_BPF_64_ABS64 or thing is None or relocation.symbol.type == STT_FUNC:
                raise Refused(f"{section.name} holds the address of {name}, which can't be called or used from there")
            byte = relocation.offset - thing.offset
            addend = int.from_bytes(thing.data[byte : byte + ELEMENT_BYTES], "little")
            target = self.at(target_section, relocation.symbol.value + addend)
            if target is None or target.kind == Kind.MAP or byte + ELEMENT_BYTES > thing.size or byte % ELEMENT_BYTES:
                raise Refused(f"{section.name} holds the address of {name}, which isn't taken")
            thing.pointers[byte] = (target.number, relocation.symbol.value + addend - target.offset)
