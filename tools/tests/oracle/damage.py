"""Damage to objects, by a random sequence."""

from __future__ import annotations

import random
import struct
from collections.abc import Callable

from bpf_object.elf import HEADER, RELOCATION, SECTION_HEADER, SHT_NOBITS, SHT_REL, SHT_SYMTAB, SYMBOL, Object, Section

NUMBERS = (0, 1, 2, 7, 8, 0x7F, 0xFF, 0x7FFF, 0x8000, 0xFFFF, 0x7FFFFFFF, 0x80000000, 0xFFFFFFFF)
LONG_NUMBERS = (*NUMBERS, 1 << 32, 1 << 40, (1 << 63) - 1, 1 << 63, (1 << 64) - 8, (1 << 64) - 1)
SECTION_HEADERS_AT = 40  # of an ELF header: the offset of the section headers
Damage = Callable[[random.Random, bytearray], None]


def damaged(seed: int, whole: bytes) -> bytes:
    """An object with one to three kinds of damage."""
    source = random.Random(seed)
    data = bytearray(whole)
    for _ in range(source.choice((1, 1, 1, 2, 3))):
        source.choice(KINDS)(source, data)
    return bytes(data)


def _flip(source: random.Random, data: bytearray) -> None:
    for _ in range(source.choice((1, 1, 2, 8, 64))):
        data[source.randrange(len(data))] = source.randrange(256)


def _flip_bit(source: random.Random, data: bytearray) -> None:
    data[source.randrange(len(data))] ^= 1 << source.randrange(8)


def _flip_in_section(source: random.Random, data: bytearray) -> None:
    section = _section(source, data)
    for _ in range(source.choice((1, 1, 2, 4))):
        if section:
            data[_start(data, section) + source.randrange(section.size)] = source.randrange(256)


def _number_in_section(source: random.Random, data: bytearray) -> None:
    section = _section(source, data)
    if section and section.size >= 4:
        at = _start(data, section) + source.randrange(section.size // 4) * 4
        struct.pack_into("<I", data, at, source.choice(NUMBERS))


def _cut(source: random.Random, data: bytearray) -> None:
    del data[source.randrange(1, len(data)) :]


def _take_out(source: random.Random, data: bytearray) -> None:
    at = source.randrange(len(data))
    del data[at : at + source.choice((1, 4, 8, 16, 64))]
    data.extend(b"\0" * (HEADER.size - len(data)))


def _put_in(source: random.Random, data: bytearray) -> None:
    at = source.randrange(len(data))
    data[at:at] = bytes(source.randrange(256) for _ in range(source.choice((1, 4, 8, 64))))


def _section_header(source: random.Random, data: bytearray) -> None:
    """A field of a section's header becomes another number."""
    try:
        count = len(Object(bytes(data)).sections)
    except Exception:  # what is damaged already isn't read again
        return _flip(source, data)
    (start,) = struct.unpack_from("<Q", data, SECTION_HEADERS_AT)
    at = start + source.randrange(count) * SECTION_HEADER.size
    fields = list(SECTION_HEADER.unpack_from(data, at))
    number = source.randrange(len(fields))
    near = (fields[number] + source.choice((-8, -1, 1, 8))) & 0xFFFFFFFF
    is_long = number in (2, 3, 4, 5, 8, 9)
    fields[number] = source.choice((near, source.choice(LONG_NUMBERS if is_long else NUMBERS)))
    SECTION_HEADER.pack_into(data, at, *fields)


def _relocation(source: random.Random, data: bytearray) -> None:
    """A relocation gets another offset, type or symbol."""
    section = _section(source, data, SHT_REL)
    if not section or section.size < RELOCATION.size:
        return _flip(source, data)
    at = _start(data, section) + source.randrange(section.size // RELOCATION.size) * RELOCATION.size
    offset, kind, symbol = RELOCATION.unpack_from(data, at)
    what = source.randrange(3)
    if what == 0:
        offset = source.choice((offset + source.choice((-8, -4, 1, 4, 8)), source.choice(LONG_NUMBERS))) & (1 << 64) - 1
    elif what == 1:
        kind = source.choice((0, 1, 2, 3, 4, 10, 11, 0xFFFFFFFF))
    else:
        symbol = source.choice((symbol + 1, source.randrange(32), source.choice(NUMBERS))) & 0xFFFFFFFF
    RELOCATION.pack_into(data, at, offset, kind, symbol)


def _symbol(source: random.Random, data: bytearray) -> None:
    """A symbol gets another name, type, section, value or size."""
    section = _section(source, data, SHT_SYMTAB)
    if not section or section.size < SYMBOL.size:
        return _flip(source, data)
    at = _start(data, section) + source.randrange(section.size // SYMBOL.size) * SYMBOL.size
    name, kind, index, value, size = SYMBOL.unpack_from(data, at)
    what = source.randrange(5)
    if what == 0:
        name = source.choice(NUMBERS)
    elif what == 1:
        kind = source.randrange(256)
    elif what == 2:
        index = source.choice((source.randrange(24), 0xFFF1, 0xFFF2, 0xFFFF))
    elif what == 3:
        value = source.choice((value + source.choice((-8, -1, 1, 4, 8)), source.choice(LONG_NUMBERS))) & (1 << 64) - 1
    else:
        size = source.choice(LONG_NUMBERS)
    SYMBOL.pack_into(data, at, name, kind, index, value, size)


def _section(source: random.Random, data: bytearray, kind: int | None = None) -> Section | None:
    """A section that has bytes, of a kind if one is given."""
    try:
        found = [section for section in Object(bytes(data)).sections if section.size and section.type != SHT_NOBITS]
    except Exception:  # what is damaged already isn't read again
        return None
    return source.choice([section for section in found if kind in (None, section.type)] or [None])


def _start(data: bytearray, section: Section) -> int:
    """The byte at which a section begins."""
    (start,) = struct.unpack_from("<Q", data, SECTION_HEADERS_AT)
    return SECTION_HEADER.unpack_from(data, start + section.index * SECTION_HEADER.size)[4]


KINDS: tuple[Damage, ...] = (
    _flip,
    _flip_bit,
    _flip_in_section,
    _flip_in_section,
    _number_in_section,
    _number_in_section,
    _cut,
    _take_out,
    _put_in,
    _section_header,
    _section_header,
    _relocation,
    _relocation,
    _symbol,
    _symbol,
)
