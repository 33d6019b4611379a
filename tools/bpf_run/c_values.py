"""Values of C: bytes as values that JSON has, those as bytes again, and both in words."""

from __future__ import annotations

from collections.abc import Iterable, Iterator
from itertools import groupby
from typing import Any

from bpf_object.refusal import Refused

from .c_types import BYTE_BITS, Array, CType, Form, Member, Number, Structure

WIDTH = 120  # of a line of text
REPEATS = 10  # equal elements in a row from which their number is told
TEXT_LIMIT = 4096  # characters
BYTES_OF_TEXT = 3  # from which bytes that aren't declared as characters are a text, where all are printed

Value = Any  # int, bool, str, list of values, dict of values by name
ESCAPES = {"\n": "\\n", "\t": "\\t", "\r": "\\r", '"': '\\"', "\\": "\\\\"}


def decoded(data: bytes, kind: CType) -> Value:
    """The value that bytes are."""
    if isinstance(kind, Number):
        return _decoded_number(int.from_bytes(data[: kind.size], "little"), kind, kind.size * BYTE_BITS)
    if isinstance(kind, Structure):
        return {name: value for member in kind.members for name, value in _decoded_member(data, member)}
    text = _text_of(data[: kind.size], kind.element)
    if text is not None:
        return text
    step = kind.step
    return [decoded(data[at * step : (at + 1) * step], kind.element) for at in range(kind.count)]


def encoded(value: Value, kind: CType, data: bytes, place: str) -> bytes:
    """The bytes with a value put into them; `place` names it where it isn't one of its type."""
    if isinstance(kind, Number):
        number = _encoded_number(value, kind, kind.size * BYTE_BITS, place)
        return number.to_bytes(kind.size, "little")
    if isinstance(kind, Structure):
        return _encoded_structure(value, kind, data, place)
    if isinstance(value, str) and isinstance(kind.element, Number) and kind.element.is_byte:
        text = value.encode("latin-1", "replace")
        if len(text) > kind.count:
            raise Refused(f"{place} has {kind.count} bytes, and the text {len(text)}")
        return text.ljust(kind.count, b"\0")
    if not isinstance(value, list) or len(value) != kind.count:
        raise Refused(f"{place} is an array of {kind.count}, and its value isn't")
    step, size = kind.step, kind.element.size
    parts = bytearray(data[: kind.size])
    for at, part in enumerate(value):
        start = at * step
        parts[start : start + size] = encoded(part, kind.element, data[start : start + size], f"{place}[{at}]")
    return bytes(parts)


def lines_of(name: str, value: Value, kind: CType) -> Iterator[str]:
    """A variable in lines: one where it fits, else one for each row of an array or member of a structure."""
    line = f"{name} = {text_of(value, kind)}"
    if len(line) <= WIDTH or isinstance(value, (int, str)):
        yield line
        return
    yield f"{name} = {{"
    if isinstance(value, dict):
        for member, inner in _members_by_name(kind):
            yield from (f"  {line}" for line in lines_of(f".{member}", value[member], inner))
    else:
        yield from _rows(value, kind)
    yield "}"


def text_of(value: Value, kind: CType) -> str:
    """A value in one line, as a debugger prints it."""
    if isinstance(value, str) and isinstance(kind, Array):
        return f'"{"".join(ESCAPES.get(c, c) for c in value)}"'
    if isinstance(value, bool):
        return "true" if value else "false"
    if isinstance(value, dict):
        return f"{{{', '.join(f'.{n} = {text_of(value[n], inner)}' for n, inner in _members_by_name(kind))}}}"
    if isinstance(value, list) and isinstance(kind, Array):
        return f"{{{', '.join(_elements(value, kind.element))}}}"
    return str(value)


def _runs(texts: Iterable[str]) -> Iterator[tuple[str, int]]:
    """Texts without those that repeat the one before, each with how often it is there in a row."""
    return ((text, sum(1 for _ in group)) for text, group in groupby(texts))


def _elements(values: list[Value], kind: CType) -> Iterator[str]:
    for text, count in _runs(text_of(value, kind) for value in values):
        yield from [text] * count if count < REPEATS else [f"{text} <repeats {count} times>"]


def _rows(values: list[Value], kind: CType) -> Iterator[str]:
    """The elements of an array in lines, each with the index that it begins at."""
    inner = kind.element if isinstance(kind, Array) else kind
    at, line = 0, ""
    for text, count in _runs(text_of(value, inner) for value in values):
        if count >= REPEATS:
            yield from filter(None, (line, f"  [{at}..{at + count - 1}] {text}"))
            at, line = at + count, ""
            continue
        for at in range(at, at + count):
            if line and isinstance(inner, Number) and len(line) + len(text) + 2 <= WIDTH:
                line += f", {text}"
            else:
                yield from filter(None, (line,))
                line = f"  [{at}] {text}"
        at += 1
    yield from filter(None, (line,))


def _members_by_name(kind: CType) -> Iterator[tuple[str, CType]]:
    if isinstance(kind, Structure):
        for member in kind.members:
            if member.name:
                yield member.name, member.type
            else:
                yield from _members_by_name(member.type)


def _decoded_member(data: bytes, member: Member) -> Iterator[tuple[str, Value]]:
    start = member.at // BYTE_BITS
    if isinstance(member.type, Number):
        part = data[start : -(-(member.at + member.bits) // BYTE_BITS)]
        number = int.from_bytes(part, "little") >> member.at % BYTE_BITS & (1 << member.bits) - 1
        if member.name:
            yield member.name, _decoded_number(number, member.type, member.bits)
        return
    value = decoded(data[start : start + member.type.size], member.type)
    if member.name:
        yield member.name, value
    else:
        yield from value.items()


def _decoded_number(number: int, kind: Number, bits: int) -> Value:
    if kind.form is Form.SIGNED and number >> bits - 1:
        number -= 1 << bits
    if kind.form is Form.BOOLEAN and number < 2:
        return bool(number)
    if kind.form is Form.POINTER:
        return hex(number)
    return dict(kind.names).get(number, number)


def _encoded_number(value: Value, kind: Number, bits: int, place: str) -> int:
    if isinstance(value, str):
        value = _number_of(value, kind, place)
    if not isinstance(value, int):
        raise Refused(f"{place} is a number, and its value isn't")
    if not -(1 << bits - 1) <= value < 1 << bits:
        raise Refused(f"{place} has {bits} bits, and {value} doesn't fit them")
    return value & (1 << bits) - 1


def _number_of(word: str, kind: Number, place: str) -> int:
    names = {name: number for number, name in reversed(kind.names)}  # the first of a name counts
    try:
        return names[word] if word in names else int(word, 0)
    except ValueError:
        raise Refused(f"{place} is a number, and its value is {word[:40]!r}") from None


def _encoded_structure(value: Value, kind: Structure, data: bytes, place: str) -> bytes:
    if not isinstance(value, dict):
        raise Refused(f"{place} has members, and its value none")
    names = {name for name, _ in _members_by_name(kind)}
    if unknown := sorted(value.keys() - names):
        raise Refused(f"{place} has no member {unknown[0][:40]}")
    bits, put = int.from_bytes(data, "little"), 0
    for member in kind.members:
        given = value if not member.name else value.get(member.name)
        if given is None or (not member.name and not value.keys() & {n for n, _ in _members_by_name(member.type)}):
            continue
        mask = (1 << member.bits) - 1
        part = _encoded_member(given, member, data, place)
        common = put & mask << member.at
        if common and (bits ^ part << member.at) & common:
            raise Refused(f"{place} is a union whose members are given other values: leave all but one out")
        bits = bits & ~(mask << member.at) | part << member.at
        put |= mask << member.at
    return bits.to_bytes(kind.size, "little")


def _encoded_member(given: Value, member: Member, data: bytes, place: str) -> int:
    if isinstance(member.type, Number):
        return _encoded_number(given, member.type, member.bits, f"{place}.{member.name}")
    start = member.at // BYTE_BITS
    if not member.name and isinstance(member.type, Structure):
        names = {name for name, _ in _members_by_name(member.type)}
        given, inner = {name: part for name, part in given.items() if name in names}, place
    else:
        inner = f"{place}.{member.name}"
    return int.from_bytes(encoded(given, member.type, data[start : start + member.type.size], inner), "little")


def _text_of(data: bytes, kind: CType) -> str | None:
    """The text that bytes are, or None: printed characters and zeros alone after the first, and a few where they aren't
    declared as characters."""
    if not isinstance(kind, Number) or not kind.is_byte:
        return None
    text, _, rest = data.partition(b"\0")
    least, escapes = (0, ESCAPES) if kind.is_char else (BYTES_OF_TEXT, {})
    is_text = len(text) >= least and not any(rest) and all(32 <= c < 127 or chr(c) in escapes for c in text)
    return text.decode("ascii") if is_text and len(text) <= TEXT_LIMIT else None
