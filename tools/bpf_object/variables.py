"""What C names of a program's memory, as `flows[2].bytes`, and where in the elements of the maps its bytes lie."""

from __future__ import annotations

from collections.abc import Iterator, Sequence
from dataclasses import dataclass, field

from .btf import Btf, Kind, Type
from .refusal import Refused

ELEMENT_BYTES = 8
NAMES_LIMIT = 2  # that are told of one element; of more the first and the last
DEPTH_LIMIT = 16
BYTE_BITS = 8


@dataclass(frozen=True)
class Piece:
    """Bytes of a variable in elements that follow one another, each of which holds some of its low bytes."""

    byte: int  # the first one's place in the variable
    length: int
    element: int  # of the first byte, over all maps
    held: int = ELEMENT_BYTES  # bytes that an element holds
    skip: int = 0  # bytes of the first element that lie in front

    def find(self, element: int) -> tuple[int, int] | None:
        """The bytes of the variable that an element holds: the first, and how many."""
        first = (element - self.element) * self.held - self.skip
        start, end = max(first, 0), min(first + self.held, self.length)
        return (self.byte + start, end - start) if start < end else None

    def spans(self) -> Iterator[tuple[int, int, int, int]]:
        """For each element: its number, the byte in it, the byte of the variable, and how many bytes."""
        at, element, within = 0, self.element, self.skip
        while at < self.length:
            size = min(self.held - within, self.length - at)
            yield element, within, self.byte + at, size
            at, element, within = at + size, element + 1, 0


@dataclass(frozen=True)
class Variable:
    """A global variable, or a map that is declared in `.maps`: then its type is that of a value."""

    name: str
    section: str
    type: Type | None
    size: int  # bytes, of all values of a map
    pieces: tuple[Piece, ...]
    btf: Btf | None = field(default=None, repr=False, compare=False)
    entries: int = 0  # values of a map, and 0 where it is a global variable
    stride: int = 0  # bytes from one value of a map to the next

    def bytes_in(self, words: Sequence[int]) -> bytes:
        """The variable's bytes as C has them, from all elements over all maps."""
        data = bytearray(self.size)
        for piece in self.pieces:
            for element, within, byte, size in piece.spans():
                word = words[element].to_bytes(ELEMENT_BYTES, "little")
                data[byte : byte + size] = word[within : within + size]
        return bytes(data)

    def put(self, words: list[int], data: bytes) -> None:
        """Writes the variable's bytes into the elements."""
        for piece in self.pieces:
            for element, within, byte, size in piece.spans():
                word = bytearray(words[element].to_bytes(ELEMENT_BYTES, "little"))
                word[within : within + size] = data[byte : byte + size].ljust(size, b"\0")
                words[element] = int.from_bytes(word, "little")

    def name_of(self, element: int) -> str | None:
        """What C calls the values in an element, or nothing where it isn't of this variable."""
        found = next(filter(None, (piece.find(element) for piece in self.pieces)), None)
        return self._names(*found) if found else None

    def _names(self, byte: int, size: int) -> str:
        names = self._names_in_value(byte, size)
        if len(names) > NAMES_LIMIT:
            return f"{names[0]} to {names[-1]}"
        return " and ".join(names)

    def _names_in_value(self, byte: int, size: int) -> list[str]:
        name, within = self.name, byte
        if self.entries:
            entry, within = divmod(byte, self.stride)
            name = f"{self.name}[{entry}]"
        if self.type is None or self.btf is None:
            return [f"{name}+{within}" if within else name]
        return names_of_bytes(self.btf, self.type, name, within, size) or [f"{name}+{within}"]


def names_of_bytes(btf: Btf, kind: Type, name: str, first: int, size: int) -> list[str]:
    """The names of the values that have any of some bytes of a variable, in their order."""
    names: dict[str, None] = {}
    try:
        for byte in range(first, first + size):
            found = name_of_byte(btf, kind, byte)
            if found is not None:
                names.setdefault(name + found)
    except Refused:
        return []
    return list(names)


def name_of_byte(btf: Btf, kind: Type, byte: int) -> str | None:
    """The rest of the name, behind the variable's own, or nothing where a byte is between two values."""
    name = ""
    for _ in range(DEPTH_LIMIT):
        if kind.kind == Kind.ARRAY:
            element, _ = btf.element(kind)
            size = btf.size(element)
            if not size:
                return None
            name += f"[{byte // size}]"
            kind, byte = element, byte % size
        elif kind.kind in (Kind.STRUCT, Kind.UNION):
            found = _member_at(btf, kind, byte)
            if found is None:
                return None
            member, start, kind = found
            name += f".{member}" if member else ""
            byte -= start
        else:
            return name
    return name


def _member_at(btf: Btf, structure: Type, byte: int) -> tuple[str, int, Type] | None:
    """The member that a byte lies in: its name, its first byte and its type."""
    for member in btf.fields(structure):
        start = member.bit // BYTE_BITS
        if member.bits:
            end = -(-(member.bit + member.bits) // BYTE_BITS)
            if start <= byte < end:
                return member.name, byte, member.type
        elif start <= byte < start + btf.size(member.type):
            return member.name, start, member.type
    return None
