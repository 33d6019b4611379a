"""The maps of an object: those that are declared in `.maps`, and the sections of its global variables."""

from __future__ import annotations

from collections.abc import Iterator
from dataclasses import dataclass

from .btf import Btf, Kind, Type
from .elf import STT_OBJECT, Object, Section
from .refusal import Refused

MAPS_LIMIT = 16
ELEMENTS_LIMIT = 65536  # of all maps together
KEY_BYTES = 4
ELEMENT_BYTES = 8

DECLARED = ".maps"
GLOBAL = (".data.", ".rodata.", ".bss.")  # and the same without the last point

BPF_MAP_TYPE_ARRAY = 2
OTHER_MAP_TYPES = {
    1: "a hash map",
    3: "an array of programs",
    4: "a perf event array",
    5: "a per-CPU hash map",
    6: "a per-CPU array",
    7: "a map of stack traces",
    9: "an LRU hash map",
    10: "a per-CPU LRU hash map",
    11: "an LPM trie",
    12: "an array of maps",
    13: "a hash map of maps",
    22: "a queue",
    23: "a stack",
    27: "a ring buffer",
}
MEMBERS = {"type", "max_entries", "key", "key_size", "value", "value_size", "map_flags", "pinning"}


@dataclass(frozen=True)
class Declared:
    """A map of `.maps`, with values of any size."""

    name: str
    offset: int
    entries: int
    value_size: int
    type: Type | None


@dataclass(frozen=True)
class ArrayMap:
    """A map: one that is declared at a byte of `.maps`, or a section of global variables."""

    name: str
    section: Section
    offset: int
    elements: int

    @property
    def is_declared(self) -> bool:
        return self.section.name == DECLARED

    @property
    def values(self) -> list[int]:
        """The elements as the object has them: little-endian words, filled up with zeros."""
        data = b"" if self.is_declared else bytes(self.section.data)
        words = (data[at : at + ELEMENT_BYTES] for at in range(0, self.elements * ELEMENT_BYTES, ELEMENT_BYTES))
        return [int.from_bytes(word, "little") for word in words]


def maps_of(obj: Object, btf: Btf | None) -> list[ArrayMap]:
    """The maps of an object in the order of their numbers: declared ones, then sections."""
    maps = [*_declared_maps(obj, btf), *_section_maps(obj)]
    _test_number(len(maps))
    elements = sum(array.elements for array in maps)
    if elements > ELEMENTS_LIMIT:
        raise Refused(f"the maps have {elements} elements together, of at most {ELEMENTS_LIMIT}")
    return maps


def declared_maps(obj: Object, btf: Btf | None) -> list[Declared]:
    """The maps of `.maps` in the order of their places."""
    section = obj.section(DECLARED)
    if section is None:
        return []
    if btf is None:
        raise Refused("the object has maps, and no .BTF that says of what size: compile it with -g")
    offsets = {symbol.name: symbol.value for symbol in obj.symbols_in(section, STT_OBJECT)}
    variables = [*btf.variables(DECLARED)]
    maps = []
    for name, structure in variables:
        if name not in offsets:
            raise Refused(f"map {name} has no place in {DECLARED}")
        try:
            maps.append(_declared(btf, name, offsets[name], structure))
        except Refused as reason:
            raise Refused(f"map {name}: {reason}") from None
    return sorted(maps, key=lambda declared: declared.offset)


def _declared_maps(obj: Object, btf: Btf | None) -> list[ArrayMap]:
    maps = declared_maps(obj, btf)
    _test_number(len(maps))
    section = obj.section(DECLARED)
    for declared in maps:
        if declared.value_size != ELEMENT_BYTES:
            size = declared.value_size
            raise Refused(f"map {declared.name}: has values of {size} bytes, and only those of 8 are taken")
    return [ArrayMap(m.name, section, m.offset, m.entries) for m in maps] if section else []


def _declared(btf: Btf, name: str, offset: int, structure: Type) -> Declared:
    """A declared map, which has to be an array."""
    if structure.kind != Kind.STRUCT:
        raise Refused("isn't declared as a structure")
    members = dict(btf.members(structure))
    map_type = btf.array_length(_member(members, "type"))
    if map_type != BPF_MAP_TYPE_ARRAY:
        raise Refused(f"is {OTHER_MAP_TYPES.get(map_type, f'a map of type {map_type}')}, and only arrays are taken")
    if unknown := members.keys() - MEMBERS:
        raise Refused(f"has {min(unknown)}, which isn't taken")
    key_size = _part_size(btf, members, "key")
    if key_size != KEY_BYTES:
        raise Refused(f"has keys of {key_size} bytes, and only those of {KEY_BYTES} are taken")
    entries = btf.array_length(_member(members, "max_entries"))
    if not 0 < entries <= ELEMENTS_LIMIT:
        raise Refused(f"has {entries} elements, where 1 to {ELEMENTS_LIMIT} are taken")
    value_size = _part_size(btf, members, "value")
    if value_size <= 0:
        raise Refused("has values without a size")
    return Declared(name, offset, entries, value_size, members.get("value"))


def _part_size(btf: Btf, members: dict[str, Type], part: str) -> int:
    if f"{part}_size" in members:
        return btf.array_length(members[f"{part}_size"])
    return btf.size(_member(members, part))


def _member(members: dict[str, Type], name: str) -> Type:
    if name not in members:
        raise Refused(f"has no {name}")
    return members[name]


def _section_maps(obj: Object) -> Iterator[ArrayMap]:
    sections = [section for section in obj.sections if section.is_data and f"{section.name}.".startswith(GLOBAL)]
    _test_number(len(sections))
    for section in sections:
        if obj.relocations(section):
            raise Refused(f"{section.name} holds addresses, which no map can")
        yield ArrayMap(section.name, section, 0, -(-section.size // ELEMENT_BYTES))


def _test_number(maps: int) -> None:
    if maps > MAPS_LIMIT:
        raise Refused(f"{maps} maps, of at most {MAPS_LIMIT}")
