"""Sections, symbols and relocations of an ELF object. Every number that leads to another place is tested first."""

from __future__ import annotations

import struct
from collections.abc import Iterator
from dataclasses import dataclass

from .refusal import Refused

OBJECT_LIMIT = 1 << 20  # bytes
SECTION_LIMIT = 4096
NAME_LIMIT = 255  # bytes; a longer name is cut

# Elf64_Ehdr, behind its identification: type, machine, version, entry, program headers, section headers, flags, own
# size, size and number of program headers, size and number of section headers, section of section names.
IDENTIFICATION = b"\x7fELF\x02\x01\x01"  # 64 bits, little endian, version 1
HEADER = struct.Struct("<16xHHIQQQIHHHHHH")
ET_REL = 1
EM_BPF = 247

# Elf64_Shdr: name, type, flags, address, offset, size, link, info, alignment, size of an entry.
SECTION_HEADER = struct.Struct("<IIQQQQIIQQ")
SHT_NULL = 0
SHT_PROGBITS = 1
SHT_SYMTAB = 2
SHT_STRTAB = 3
SHT_RELA = 4
SHT_NOBITS = 8
SHT_REL = 9
SHF_ALLOC = 2
SHF_EXECINSTR = 4

# Elf64_Sym: name, type and binding, visibility, section, value, size.
SYMBOL = struct.Struct("<IBxHQQ")
STT_OBJECT = 1
STT_FUNC = 2
STT_SECTION = 3
SYMBOL_TYPE_MASK = 15

# Elf64_Rel: offset; the type in the low and the symbol in the high half.
RELOCATION = struct.Struct("<QII")
R_BPF_64_64 = 1  # an address in a load of two slots
R_BPF_64_ABS64 = 2  # an address in a section of data
R_BPF_64_32 = 10  # a call


@dataclass(frozen=True)
class Strings:
    """A table of strings that end at a zero byte."""

    data: memoryview

    def at(self, offset: int) -> str:
        """The string at an offset; what isn't UTF-8 of it is replaced."""
        if offset >= len(self.data):
            raise Refused(f"a name at byte {offset} of a table of {len(self.data)}")
        return bytes(self.data[offset : offset + NAME_LIMIT]).partition(b"\0")[0].decode(errors="replace")


@dataclass(frozen=True)
class Section:
    """A section, and its bytes where the object has them."""

    index: int
    name: str
    type: int
    flags: int
    size: int
    link: int
    info: int
    data: memoryview

    @property
    def is_code(self) -> bool:
        return self.type == SHT_PROGBITS and bool(self.flags & SHF_EXECINSTR) and self.size > 0

    @property
    def is_data(self) -> bool:
        """Whether a program that runs has the section in memory, other than as code."""
        wanted = self.type in (SHT_PROGBITS, SHT_NOBITS) and self.flags & SHF_ALLOC and self.size > 0
        return bool(wanted) and not self.flags & SHF_EXECINSTR


@dataclass(frozen=True)
class Symbol:
    """A symbol; its section is the number that the object has there, which may be of none."""

    strings: Strings
    name_offset: int
    type: int
    section: int
    value: int
    size: int = 0

    @property
    def name(self) -> str:
        return self.strings.at(self.name_offset)


@dataclass(frozen=True)
class Relocation:
    """What to write at a byte of a section: by its type, of the place that a symbol names."""

    offset: int
    type: int
    symbol: Symbol


Part = tuple[str, int, bytes, tuple[tuple[int, int, str, int], ...]]  # a section, and what it refers to


class Object:
    """An object file for BPF."""

    def __init__(self, data: bytes) -> None:
        self._data = memoryview(data)
        self.sections = self._read_sections()
        self.symbols = self._read_symbols()

    def section(self, name: str) -> Section | None:
        """The section of a name, if there is one."""
        found = [section for section in self.sections if section.name == name and section.type != SHT_NULL]
        if len(found) > 1:
            raise Refused(f"{len(found)} sections are named {name}")
        return found[0] if found else None

    def section_of(self, symbol: Symbol) -> Section:
        """The section that a symbol lies in."""
        if not 0 < symbol.section < len(self.sections):
            raise Refused(f"{symbol.name or 'a symbol'} is used, and isn't defined in this object")
        return self.sections[symbol.section]

    def describe(self, symbol: Symbol) -> str:
        """A symbol's name, or that of its section."""
        if symbol.type == STT_SECTION or not symbol.name:
            return self.section_of(symbol).name
        return symbol.name

    def symbols_in(self, section: Section, symbol_type: int) -> list[Symbol]:
        """The symbols of a type in a section, by their values."""
        found = (s for s in self.symbols if s.section == section.index and s.type == symbol_type)
        return sorted(found, key=lambda symbol: symbol.value)

    def relocations(self, target: Section) -> list[Relocation]:
        """The relocations of a section, each of a byte of its own."""
        tables = [s for s in self.sections if s.type in (SHT_REL, SHT_RELA) and s.info == target.index]
        if not tables:
            return []
        table = tables[0]
        if len(tables) > 1 or table.type == SHT_RELA or len(table.data) > target.size * RELOCATION.size:
            raise Refused(f"the relocations of {target.name} are in no form that clang gives them")
        if table.link >= len(self.sections) or self.sections[table.link].type != SHT_SYMTAB:
            raise Refused(f"the relocations of {target.name} name no symbol table")
        found = {offset: self._relocation(*rest, offset, target) for offset, *rest in _entries(RELOCATION, table)}
        return list(found.values())

    def parts(self) -> list[Part]:
        """What a program that runs has of it: two objects with the same parts do the same."""
        return [
            (section.name, section.size, bytes(section.data), tuple(map(self._reference, self.relocations(section))))
            for section in self.sections
            if section.is_code or section.is_data
        ]

    def _reference(self, one: Relocation) -> tuple[int, int, str, int]:
        return one.offset, one.type, self.describe(one.symbol), one.symbol.value

    def _relocation(self, relocation_type: int, symbol: int, offset: int, target: Section) -> Relocation:
        if symbol >= len(self.symbols):
            raise Refused(f"a relocation of {target.name} names symbol {symbol} of {len(self.symbols)}")
        return Relocation(offset, relocation_type, self.symbols[symbol])

    def _read_sections(self) -> list[Section]:
        if len(self._data) > OBJECT_LIMIT:
            raise Refused(f"more than {OBJECT_LIMIT} bytes")
        if bytes(self._data[: len(IDENTIFICATION)]) != IDENTIFICATION or len(self._data) < HEADER.size:
            raise Refused("no ELF object of 64 bits in little endian")
        kind, machine, _, _, _, offset, _, _, _, _, entry_size, count, names = HEADER.unpack_from(self._data)
        if kind != ET_REL or machine != EM_BPF:
            raise Refused("no object of clang -target bpf -c")
        if entry_size != SECTION_HEADER.size or not 0 < count <= SECTION_LIMIT or names >= count:
            raise Refused("the table of sections is broken")
        headers = [*SECTION_HEADER.iter_unpack(self._bytes(offset, count * entry_size, "the table of sections"))]
        name_table = Strings(self._section_bytes(headers[names], "the names of sections"))
        return [self._read_section(index, header, name_table) for index, header in enumerate(headers)]

    def _read_section(self, index: int, header: tuple[int, ...], names: Strings) -> Section:
        name_offset, section_type, flags, _, _, size, link, info, _, _ = header
        name = names.at(name_offset)
        return Section(index, name, section_type, flags, size, link, info, self._section_bytes(header, name))

    def _section_bytes(self, header: tuple[int, ...], name: str) -> memoryview:
        _, section_type, _, _, offset, size, *_ = header
        if section_type in (SHT_NULL, SHT_NOBITS):
            return self._data[:0]
        return self._bytes(offset, size, name)

    def _bytes(self, offset: int, size: int, name: str) -> memoryview:
        if offset + size > len(self._data):
            raise Refused(f"the object is cut short: {name} ends at byte {offset + size} of {len(self._data)}")
        return self._data[offset : offset + size]

    def _read_symbols(self) -> list[Symbol]:
        tables = [section for section in self.sections if section.type == SHT_SYMTAB]
        if len(tables) != 1:
            raise Refused(f"{len(tables)} symbol tables, where there should be one")
        link = tables[0].link
        if link >= len(self.sections) or self.sections[link].type != SHT_STRTAB:
            raise Refused("the symbols have no table of names")
        strings = Strings(self.sections[link].data)
        return [
            Symbol(strings, name, info & SYMBOL_TYPE_MASK, section, value, size)
            for name, info, section, value, size in _entries(SYMBOL, tables[0])
        ]


def _entries(entry: struct.Struct, section: Section) -> Iterator[tuple[int, ...]]:
    if len(section.data) % entry.size:
        raise Refused(f"{section.name} is cut in an entry")
    return entry.iter_unpack(section.data)
