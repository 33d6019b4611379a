"""The types of C as a tree, made of an object's BTF."""

from __future__ import annotations

from collections.abc import Iterator
from dataclasses import dataclass
from enum import Enum
from typing import Union

from bpf_object.btf import POINTER_SIZE, Btf, Kind, Type
from bpf_object.refusal import Refused
from bpf_object.variables import Variable

BYTE_BITS = 8
NUMBER_SIZES = (1, 2, 4, 8)
ENCODING_SHIFT, SIGNED, CHARACTER, BOOLEAN = 24, 1, 2, 4
DEPTH_LIMIT = 32
VALUES_OF_BYTE, VALUES_AT_LEAST = 8, 1024  # that are taken, so that a type that is no type of C takes no time


class Form(Enum):
    """How a number is printed."""

    SIGNED = "signed"
    UNSIGNED = "unsigned"
    BOOLEAN = "boolean"
    POINTER = "pointer"


@dataclass(frozen=True)
class Number:
    """A number of up to 8 bytes, or what is printed as one: a pointer, an enum with its names."""

    size: int
    form: Form
    names: tuple[tuple[int, str], ...] = ()
    is_char: bool = False

    @property
    def is_byte(self) -> bool:
        return self.size == 1 and not self.names and self.form in (Form.SIGNED, Form.UNSIGNED)


@dataclass(frozen=True)
class Array:
    """An array; its elements begin so many bytes after each other, where that isn't their size."""

    element: CType
    count: int
    stride: int = 0

    @property
    def step(self) -> int:
        return self.stride or self.element.size

    @property
    def size(self) -> int:
        return self.step * self.count


@dataclass(frozen=True)
class Member:
    """A member of a structure, by bits; a member without a name is a structure whose members are those of the outer."""

    name: str
    at: int
    bits: int
    type: CType


@dataclass(frozen=True)
class Structure:
    """A structure, or a union, whose members lie over each other."""

    size: int
    members: tuple[Member, ...]


CType = Union[Number, Array, Structure]


def words_of(size: int) -> CType:
    """The type of bytes of which none is known: a number, or several of 8 bytes, or of one where 8 divides them not."""
    if size in NUMBER_SIZES:
        return Number(size, Form.UNSIGNED)
    number = Number(POINTER_SIZE if size % POINTER_SIZE == 0 else 1, Form.UNSIGNED)
    return Array(number, size // number.size)


def type_of(btf: Btf | None, plain: Type | None, size: int = 0) -> CType | None:
    """The tree of a type, in a variable of so many bytes if it may have more than the type.

    None where none is known, or where it has more values than its bytes can be.
    """
    if btf is None or plain is None:
        return None
    trees = _Trees(btf)
    made = trees.made(plain)
    if made.type.size < size:
        made = trees.filled(plain, size)
    return made.type if made.values <= VALUES_OF_BYTE * made.type.size + VALUES_AT_LEAST else None


def type_of_variable(variable: Variable) -> CType:
    """The type of a variable's bytes; of a map they are an array of its values."""
    size = variable.stride if variable.entries else variable.size
    kind = type_of(variable.btf, variable.type, 0 if variable.entries else size)
    if kind is None or kind.size > size or not kind.size:
        kind = words_of(size)
    return Array(kind, variable.entries, variable.stride) if variable.entries else kind


@dataclass(frozen=True)
class _Made:
    """A tree, and how many values are in it."""

    type: CType
    values: int


class _Trees:
    """Makes the trees of an object's types, each once."""

    def __init__(self, btf: Btf) -> None:
        self._btf = btf
        self._known: dict[int, _Made] = {}

    def made(self, plain: Type, depth: int = 0) -> _Made:
        """The tree of a type that lies so deep in others."""
        if depth > DEPTH_LIMIT:
            raise Refused("a type lies deeper in others than is taken")
        if id(plain) not in self._known:
            self._known[id(plain)] = self._made(plain, depth)
        return self._known[id(plain)]

    def filled(self, plain: Type, size: int) -> _Made:
        """The tree of a type in more bytes, which are the elements of an array without a length at its end."""
        made, fields = self.made(plain), [*self._btf.fields(plain)] if plain.kind == Kind.STRUCT else []
        if not fields or fields[-1].type.kind != Kind.ARRAY:
            return made
        element, count = self._btf.element(fields[-1].type)
        inner = self.made(element)
        if count or not inner.type.size:
            return made
        count = max(size - fields[-1].bit // BYTE_BITS, 0) // inner.type.size
        array = Array(inner.type, count)
        last = Member(fields[-1].name, fields[-1].bit, array.size * BYTE_BITS, array)
        whole = Structure(size, (*made.type.members[:-1], last))
        return _Made(whole, made.values + count * max(inner.values, 1))

    def _made(self, plain: Type, depth: int) -> _Made:
        if plain.kind == Kind.ARRAY:
            element, count = self._btf.element(plain)
            inner = self.made(element, depth + 1)
            return _Made(Array(inner.type, count), count * max(inner.values, 1))
        if plain.kind in (Kind.STRUCT, Kind.UNION):
            fields = [(field, self.made(field.type, depth + 1)) for field in self._btf.fields(plain)]
            members = tuple(
                Member(field.name, field.bit, field.bits or inner.type.size * BYTE_BITS, inner.type)
                for field, inner in fields
            )
            whole = Structure(plain.size_or_type, members)
            return _Made(whole, sum(max(inner.values, 1) for _, inner in fields))
        return _Made(_number(self._btf, plain), 1)


def _number(btf: Btf, plain: Type) -> CType:
    size = plain.size_or_type
    if plain.kind == Kind.PTR:
        return Number(POINTER_SIZE, Form.POINTER)
    if plain.kind == Kind.INT and size in NUMBER_SIZES:
        encoding = int.from_bytes(plain.behind, "little") >> ENCODING_SHIFT
        if encoding & BOOLEAN:
            return Number(size, Form.BOOLEAN)
        form = Form.SIGNED if encoding & SIGNED else Form.UNSIGNED
        return Number(size, form, is_char=bool(encoding & CHARACTER) or plain.name == "char")
    if plain.kind in (Kind.ENUM, Kind.ENUM64) and size in NUMBER_SIZES:
        names = tuple(_enum_names(btf, plain))
        is_signed = any(value < 0 for value, _ in names)
        return Number(size, Form.SIGNED if is_signed else Form.UNSIGNED, names)
    return words_of(btf.size(plain))


def _enum_names(btf: Btf, plain: Type) -> Iterator[tuple[int, str]]:
    step = 8 if plain.kind == Kind.ENUM else 12
    for at in range(0, len(plain.behind), step):
        entry = plain.behind[at : at + step]
        value = int.from_bytes(entry[4:], "little", signed=True)
        yield value, btf.strings.at(int.from_bytes(entry[:4], "little"))
