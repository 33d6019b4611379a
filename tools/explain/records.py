"""The records of `bpfspec facts`, read.

    facts = read(output)             # all that the command printed
    facts.refusal                    # Refusal(section="unit", code="V19", .., slot=8, ..) or None
    facts.insns[4].insn              # "lsh64 r2, 3", by slots, which rise
    facts.values[8][3]               # the abstract value of r3 before slot 8; an unwritten register has none
    facts.edges[1, 2][0]             # the abstract value of r0 on the edge from slot 1 into the join at slot 2
    facts.loops[0].pairs             # the pairs of iterations of the first loop that conflict

A record is JSON on a line. The classes below have those fields of docs/FORMATS.md
that are used. An output without its last record,
`end`, is discarded: `RecordsError`. So is one of another version; if memory ran out, it is `MemoryRanOut`. Kinds of
records and fields that aren't known here are passed over.
"""

from __future__ import annotations

import json
from collections import defaultdict
from collections.abc import Callable
from typing import Any, NamedTuple

VERSION = 1
NO_MEMORY = 4  # the status of `bpfspec facts` if memory runs out: then the record `end` is alone
NO_MEMORY_LINE = "refused memory"  # what it prints in place of records if memory runs out while it reads its words
MEMORY_RAN_OUT = "memory ran out"


class RecordsError(Exception):
    """The records can't be made or used; the text is one line that says why."""


class MemoryRanOut(RecordsError):
    """The program that makes the records had too little memory."""


class Value(NamedTuple):
    """The abstract value of a register. A field that its kind doesn't have is None."""

    kind: str  # a key of VALUE_FIELDS; unwritten has no record
    low: int | None = None  # of a number, or of the byte in the values of a map
    high: int | None = None
    shift: int | None = None  # all are multiples of 2^shift; 64 of 0 alone
    map: int | None = None
    offset: int | None = None  # from r10, or from r10 of main, in bytes: -512 to 0
    start: int | None = None  # the slot of a callback


UNWRITTEN = Value("unwritten")
FRAME_POINTER = Value("frame", offset=0)
VALUE_FIELDS = {
    "number": ("low", "high", "shift"),
    **dict.fromkeys(("frame", "main_frame"), ("offset",)),
    "map": ("map",),
    **dict.fromkeys(("area", "area_or_null"), ("low", "high", "shift", "map")),
    "callback": ("start",),
}


class Header(NamedTuple):
    """What was asked for."""

    form: str  # text, hex
    argument: int
    states: bool


class Refusal(NamedTuple):
    """What is refused, and why."""

    section: str  # unit, maps, events
    code: str  # A1 to A7, I1 to I7, V1 to V25, P1, no_loop, S1 to S3, E1 to E3
    name: str
    line: int | None  # of A, from 1; 0 is the whole text
    slot: int | None  # of I and V
    event: int | None  # of E, from 0; of E3 how many there are


class Function(NamedTuple):
    """A function of an accepted unit, and its worst-case instruction count."""

    function: int
    slot: int
    count: int


class Insn(NamedTuple):
    """An instruction, as it is disassembled, and the slots to which its edges lead."""

    slot: int
    insn: str
    reached: bool
    ahead: int | None  # the next slot
    aside: int | None  # the target of a jump, or the first slot of a callback


class Unwritten(NamedTuple):
    """A byte that an access reads and that isn't written on every path."""

    frame: str  # own, main
    offset: int  # from r10, or r10 of main: -512 to -1


class Pair(NamedTuple):
    """Two iterations of a loop that conflict at an element: one writes it, a later one reads what is written."""

    map: int
    element: int
    writer: int
    writer_slot: int
    reader: int
    reader_slot: int
    end: int | None  # the iteration whose plain access ends a reduction
    end_slot: int | None


class Grid(NamedTuple):
    """The two spans of iterations of a loop that a picture shows."""

    loop: int
    lower: int
    lower_past: int
    upper: int
    upper_past: int


class Cell(NamedTuple):
    """What an iteration does at an element: the slots of a write, a read and a reduction."""

    iteration: int
    map: int
    element: int
    write: int | None
    read: int | None
    reduce: int | None


class Loop(NamedTuple):
    """A call of bpf_loop by main that a run makes, its outcome, and the records that follow it."""

    loop: int
    slot: int
    iterations: int
    flags: int
    answer: int
    verdict: str  # parallel, conflict, refused
    conflicts: int | None
    way: str | None  # sums, watched, blocks
    blocks: int | None
    workers: int | None
    reason: str | None
    break_iteration: int | None
    break_slot: int | None
    pairs: list[Pair]
    cells: list[Cell]


class Facts:
    """All records of one input, by slots where they have one."""

    def __init__(self, header: Header) -> None:
        self.header = header
        self.refusal: Refusal | None = None
        self.functions: list[Function] = []
        self.maps: list[int] = []  # how many elements each map has
        self.insns: dict[int, Insn] = {}  # by slots, which rise: up to the first fault, or all
        self.values: dict[int, dict[int, Value]] = defaultdict(dict)  # before a slot, by register
        self.edges: dict[tuple[int, int], dict[int, Value]] = defaultdict(dict)  # from a slot into a join, by register
        self.unwritten: list[Unwritten] = []
        self.loops: list[Loop] = []
        self.grid: Grid | None = None  # with `--grid`, of the first loop that conflicts
        self.status = 0

    def text(self, slot: int | None) -> str:
        """The text of the instruction that starts at a slot; empty if there is none."""
        return self.insns[slot].insn if slot in self.insns else ""


Record = dict[str, Any]
WORDS = frozenset({"argument", "flags", "low", "high"})  # fields of 64 bits, which are decimal strings


def _row(kind: Any, record: Record) -> Any:
    """A record as a class that has a part of its fields."""
    return kind(*[int(record[name]) if name in WORDS else record[name] for name in kind._fields])


def _value(record: Record) -> dict[int, Value]:
    """The value of a record, by its register."""
    kind = record["kind"]
    fields = {name: int(record[name]) if name in WORDS else record[name] for name in VALUE_FIELDS[kind]}
    return {record["register"]: Value(kind, **fields)}


# How a record is added to the facts, by its kind.
ADDERS: dict[str, Callable[[Facts, Record], object]] = {
    "refusal": lambda facts, record: setattr(facts, "refusal", _row(Refusal, record)),
    "function": lambda facts, record: facts.functions.append(_row(Function, record)),
    "map": lambda facts, record: facts.maps.append(record["elements"]),
    "insn": lambda facts, record: facts.insns.update({record["slot"]: _row(Insn, record)}),
    "value": lambda facts, record: facts.values[record["slot"]].update(_value(record)),
    "edge": lambda facts, record: facts.edges[record["slot"], record["to"]].update(_value(record)),
    "unwritten": lambda facts, record: facts.unwritten.append(_row(Unwritten, record)),
    "loop": lambda facts, record: facts.loops.append(_row(Loop, {**record, "pairs": [], "cells": []})),
    "pair": lambda facts, record: facts.loops[record["loop"]].pairs.append(_row(Pair, record)),
    "grid": lambda facts, record: setattr(facts, "grid", _row(Grid, record)),
    "cell": lambda facts, record: facts.loops[record["loop"]].cells.append(_row(Cell, record)),
    "end": lambda facts, record: setattr(facts, "status", record["status"]),
}


def read(output: str) -> Facts:
    """The records that `bpfspec facts` printed. If they can't be used, it raises `RecordsError`."""
    records = _parsed(output)
    record = records[0]
    try:
        facts = Facts(_row(Header, record))
        for record in records[1:]:
            if record["record"] in ADDERS:
                ADDERS[record["record"]](facts, record)
    except (KeyError, TypeError, ValueError, AttributeError, IndexError):
        words = "a record of the list of facts lacks a field, or has one of another type"
        raise RecordsError(f"{words}: {json.dumps(record)}") from None
    return facts


def _parsed(output: str) -> list[Any]:
    """All lines as one array, which is twice as fast as line by line. The first is the header of this version, and the
    last is the end."""
    lines = output.rstrip("\n")
    if lines == NO_MEMORY_LINE:
        raise MemoryRanOut(MEMORY_RAN_OUT)
    try:
        records: list[Any] = json.loads("[" + lines.replace("}\n{", "},{") + "]") if lines.endswith("}") else [{}]
        version, end, status = (records[at].get(name) for at, name in ((0, "version"), (-1, "record"), (-1, "status")))
    except (ValueError, RecursionError, AttributeError):
        raise RecordsError("the list of facts isn't JSON, a record a line") from None
    if end != "end":
        raise RecordsError("the list of facts has no end: the program that makes it was interrupted")
    if status == NO_MEMORY:
        raise MemoryRanOut(MEMORY_RAN_OUT)
    if records[0].get("record") != "header" or version != VERSION:
        raise RecordsError(f"the list of facts isn't of version {VERSION}")
    return records
