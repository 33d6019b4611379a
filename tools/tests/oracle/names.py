"""What a program in C names: its main functions, its maps and its global variables, by the symbols of its object."""

from __future__ import annotations

import re
from dataclasses import dataclass

from bpf_object.elf import STT_FUNC, STT_OBJECT, Object

MAPS = ".maps"
TEXT = ".text"
DATA = re.compile(r"\.(data|rodata|bss)(\..*)?")
ADDRESS_BYTES = 8
NAME = re.compile(r"[A-Za-z_][A-Za-z0-9_]*")


@dataclass(frozen=True)
class Names:
    """Names in the order of the object. A name with a dot is clang's own, and none that C could say."""

    mains: tuple[str, ...]
    maps: tuple[str, ...]
    variables: tuple[str, ...]

    def joined(self, other: Names) -> Names:
        """The names of two builds of one program."""
        pairs = zip((self.mains, self.maps, self.variables), (other.mains, other.maps, other.variables))
        return Names(*(tuple(dict.fromkeys(left + right)) for left, right in pairs))


def names_of(data: bytes) -> Names:
    """The names of an object."""
    obj = Object(data)
    mains: list[str] = []
    maps: list[str] = []
    variables: list[str] = []
    for symbol in obj.symbols:
        if not NAME.fullmatch(symbol.name) or not 0 < symbol.section < len(obj.sections):
            continue
        section = obj.sections[symbol.section]
        if symbol.type == STT_FUNC and section.name != TEXT:
            mains.append(symbol.name)
        elif symbol.type == STT_OBJECT and section.name == MAPS:
            maps.append(symbol.name)
        elif symbol.type == STT_OBJECT and DATA.fullmatch(section.name):
            variables.append(symbol.name)
    return Names(tuple(mains), tuple(maps), tuple(variables))


def address_bytes(data: bytes) -> dict[str, set[int]]:
    """The bytes of each variable where the object has addresses: these are other numbers natively."""
    obj = Object(data)
    found: dict[str, set[int]] = {}
    for section in obj.sections:
        if not DATA.fullmatch(section.name):
            continue
        places = [relocation.offset for relocation in obj.relocations(section)]
        for symbol in obj.symbols_in(section, STT_OBJECT):
            within = [at - symbol.value for at in places if symbol.value <= at < symbol.value + symbol.size]
            found[symbol.name] = {at + k for at in within for k in range(ADDRESS_BYTES)}
    return found
