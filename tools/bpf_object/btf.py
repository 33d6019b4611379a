"""BTF, the types of a BPF object: the members of its maps, and the source line of each instruction."""

from __future__ import annotations

import struct
from collections.abc import Iterator
from dataclasses import dataclass
from enum import IntEnum

from .elf import Strings
from .refusal import Refused

MAGIC = 0xEB9F
VERSION = 1
HEADER = struct.Struct("<HBxIIIII")  # magic, version, header's size, types' and strings' offset and size
TYPE = struct.Struct("<III")  # name; kind and number of entries; size or another type
KIND_SHIFT, KIND_MASK = 24, 31
ENTRIES_MASK = 0xFFFF
FLAG_SHIFT = 31
PLACE_MASK, WIDTH_SHIFT = 0xFFFFFF, 24  # of a member, where the flag says that it has a width
ARRAY = struct.Struct("<III")  # type of an element, type of the index, length
MEMBER = struct.Struct("<III")  # name, type, offset
VARIABLE = struct.Struct("<III")  # type, offset, size: a variable of a section

EXT_HEADER = struct.Struct("<HBxIIIII")  # magic, version, header's size, functions' and lines' offset and size
EXT_CORE = struct.Struct("<II")  # behind it, where the header has room: CO-RE relocations' offset and size
RECORD_SIZE = struct.Struct("<I")
LINES_OF_SECTION = struct.Struct("<II")  # section's name, number of records
LINE = struct.Struct("<IIII")  # byte of the section, file's name, text, line and column
COLUMN_BITS = 10

CHAIN_LIMIT = 64  # names of one type in front of another, or arrays of arrays
MEMBERS_LIMIT = 64
POINTER_SIZE = 8


class Kind(IntEnum):
    INT = 1
    PTR = 2
    ARRAY = 3
    STRUCT = 4
    UNION = 5
    ENUM = 6
    FWD = 7
    TYPEDEF = 8
    VOLATILE = 9
    CONST = 10
    RESTRICT = 11
    FUNC = 12
    FUNC_PROTO = 13
    VAR = 14
    DATASEC = 15
    FLOAT = 16
    DECL_TAG = 17
    TYPE_TAG = 18
    ENUM64 = 19


KINDS = {int(kind): kind for kind in Kind}

NAMES_OF_TYPES = {Kind.TYPEDEF, Kind.VOLATILE, Kind.CONST, Kind.RESTRICT, Kind.TYPE_TAG}
SIZED = {Kind.INT, Kind.STRUCT, Kind.UNION, Kind.ENUM, Kind.FLOAT, Kind.ENUM64}
# Bytes behind a type: once, and for each entry.
BEHIND = {Kind.INT: 4, Kind.ARRAY: ARRAY.size, Kind.VAR: 4, Kind.DECL_TAG: 4}
BEHIND_EACH = {
    Kind.STRUCT: MEMBER.size,
    Kind.UNION: MEMBER.size,
    Kind.ENUM: 8,
    Kind.FUNC_PROTO: 8,
    Kind.DATASEC: VARIABLE.size,
    Kind.ENUM64: 12,
}


@dataclass(frozen=True)
class Type:
    """A type: its size or the type that it is made of, and the entries behind it."""

    name: str
    kind: Kind
    size_or_type: int
    behind: memoryview
    has_bits: bool = False  # members have a width beside their place


@dataclass(frozen=True)
class Field:
    """A member of a structure or a union: where it begins, and its width where it is a bit-field."""

    name: str
    bit: int
    bits: int
    type: Type


@dataclass(frozen=True)
class SourceLine:
    """A line of a source file."""

    file: str
    number: int
    text: str


class Btf:
    """The types of an object: type 0 is void, and has no entry."""

    def __init__(self, data: memoryview) -> None:
        magic, version, header_size, types, types_size, strings, strings_size = _unpack(HEADER, data, 0)
        if magic != MAGIC or version != VERSION:
            raise Refused(".BTF is of no version known here")
        self.strings = Strings(_part(data, header_size + strings, strings_size))
        self._types = [*self._read_types(_part(data, header_size + types, types_size))]

    def variables(self, section: str) -> Iterator[tuple[str, Type]]:
        """The name and the type of each variable of a section."""
        for datasec in self._types:
            if datasec.kind == Kind.DATASEC and datasec.name == section:
                for variable_type, _, _ in VARIABLE.iter_unpack(datasec.behind):
                    variable = self._type(variable_type)
                    if variable.kind != Kind.VAR:
                        raise Refused(f"a variable of {section} isn't one by its type")
                    yield variable.name, self._plain(variable.size_or_type)

    def result_of(self, function: str) -> Type | None:
        """The type of what a function returns; nothing where that isn't known, or is void."""
        found = next((kind for kind in self._types if kind.kind == Kind.FUNC and kind.name == function), None)
        prototype = self._type(found.size_or_type) if found else None
        if prototype is None or prototype.kind != Kind.FUNC_PROTO or not prototype.size_or_type:
            return None
        return self._plain(prototype.size_or_type)

    def members(self, structure: Type) -> Iterator[tuple[str, Type]]:
        """The name of each member of a structure, and the type that the member points to."""
        if len(structure.behind) > MEMBERS_LIMIT * MEMBER.size:
            raise Refused("has too many members")
        for name, member_type, _ in MEMBER.iter_unpack(structure.behind):
            pointer = self._plain(member_type)
            if pointer.kind != Kind.PTR:
                raise Refused(f"has {self.strings.at(name)}, which is no pointer")
            yield self.strings.at(name), self._plain(pointer.size_or_type)

    def fields(self, structure: Type) -> Iterator[Field]:
        """The members of a structure or a union, as C lays them out."""
        for name, member_type, place in MEMBER.iter_unpack(structure.behind):
            bit, bits = (place & PLACE_MASK, place >> WIDTH_SHIFT) if structure.has_bits else (place, 0)
            yield Field(self.strings.at(name), bit, bits, self._plain(member_type))

    def element(self, array: Type) -> tuple[Type, int]:
        """The type of an array's elements, and how many there are."""
        element, _, count = ARRAY.unpack(array.behind)
        return self._plain(element), count

    def array_length(self, array: Type) -> int:
        """The length of an array, which is how `__uint` has a number."""
        if array.kind != Kind.ARRAY:
            raise Refused("has a number that isn't the length of an array")
        return ARRAY.unpack(array.behind)[2]

    def size(self, sized: Type) -> int:
        """How many bytes a type takes."""
        length = 1
        for _ in range(CHAIN_LIMIT):
            if sized.kind == Kind.PTR:
                return length * POINTER_SIZE
            if sized.kind in SIZED:
                return length * sized.size_or_type
            if sized.kind != Kind.ARRAY:
                break
            element, _, count = ARRAY.unpack(sized.behind)
            length *= count
            sized = self._plain(element)
        raise Refused("has a type without a size")

    def _type(self, number: int) -> Type:
        if not 0 < number <= len(self._types):
            raise Refused(f"type {number} of {len(self._types)} in .BTF")
        return self._types[number - 1]

    def _plain(self, number: int) -> Type:
        """A type without typedefs and qualifiers."""
        for _ in range(CHAIN_LIMIT):
            found = self._type(number)
            if found.kind not in NAMES_OF_TYPES:
                return found
            number = found.size_or_type
        raise Refused("a type that is a name of itself")

    def _read_types(self, data: memoryview) -> Iterator[Type]:
        offset = 0
        while offset < len(data):
            name, info, size_or_type = _unpack(TYPE, data, offset)
            kind = KINDS.get(info >> KIND_SHIFT & KIND_MASK)
            if kind is None:
                raise Refused(f"kind {info >> KIND_SHIFT & KIND_MASK} of types in .BTF isn't known here")
            size = BEHIND.get(kind, 0) + BEHIND_EACH.get(kind, 0) * (info & ENTRIES_MASK)
            behind = _part(data, offset + TYPE.size, size)
            yield Type(self.strings.at(name), kind, size_or_type, behind, bool(info >> FLAG_SHIFT))
            offset += TYPE.size + size


def source_lines(data: memoryview, strings: Strings, section: str) -> dict[int, SourceLine]:
    """The source lines of a section's code, as .BTF.ext has them, by the bytes of the section that they begin at."""
    return {
        at: SourceLine(strings.at(file).rpartition("/")[2], place >> COLUMN_BITS, strings.at(text))
        for at, file, text, place in _lines(data, strings, section)
    }


def _lines(data: memoryview, strings: Strings, section: str) -> Iterator[tuple[int, ...]]:
    magic, version, header_size, _, _, lines, lines_size = _unpack(EXT_HEADER, data, 0)
    if magic != MAGIC or version != VERSION:
        raise Refused(".BTF.ext is of no version known here")
    if header_size >= EXT_HEADER.size + EXT_CORE.size and _unpack(EXT_CORE, data, EXT_HEADER.size)[1]:
        raise Refused("the program has CO-RE relocations, which a kernel's types would be needed for")
    part = _part(data, header_size + lines, lines_size)
    if not part:
        return
    (record_size,) = _unpack(RECORD_SIZE, part, 0)
    if record_size < LINE.size:
        raise Refused("the records of lines in .BTF.ext are too short")
    offset = RECORD_SIZE.size
    while offset < len(part):
        name, count = _unpack(LINES_OF_SECTION, part, offset)
        records = _part(part, offset + LINES_OF_SECTION.size, count * record_size)
        if strings.at(name) == section:
            yield from (LINE.unpack_from(records, at) for at in range(0, len(records), record_size))
        offset += LINES_OF_SECTION.size + len(records)


def _unpack(form: struct.Struct, data: memoryview, offset: int) -> tuple[int, ...]:
    return form.unpack(_part(data, offset, form.size))


def _part(data: memoryview, offset: int, size: int) -> memoryview:
    if offset + size > len(data):
        raise Refused(f".BTF or .BTF.ext is cut short: byte {offset + size} of {len(data)}")
    return data[offset : offset + size]
