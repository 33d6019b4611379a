"""What `bpfspec facts --states` prints of a unit, read."""

from __future__ import annotations

import json
from dataclasses import dataclass, field
from typing import NamedTuple, Optional

from .machine import FRAME_BYTES, WORD, Address, Kind, Value

KINDS = {
    "frame": Kind.FRAME,
    "main_frame": Kind.CTX,
    "map": Kind.MAP,
    "area": Kind.AREA,
    "area_or_null": Kind.AREA,
    "callback": Kind.CODE,
}


@dataclass(frozen=True)
class Known:
    """The abstract value of a register: numbers, addresses of a kind, or what isn't written."""

    kind: Optional[Kind]  # None is a number
    least: int = 0
    greatest: int = WORD
    step: int = 1  # a power of 2 that each number is a multiple of
    map: int = 0
    or_null: bool = False
    is_written: bool = True

    @property
    def is_number(self) -> bool:
        """It is a number."""
        return self.is_written and self.kind is None

    def has(self, value: Value) -> bool:
        """Whether a value is among those that it stands for. What isn't written may be anything, or nothing."""
        if not self.is_written:
            return True
        if isinstance(value, Address):
            return value.kind is self.kind and value.map == self.map and self._has_number(value.at)
        return value is not None and (self._has_number(value) if self.kind is None else self.or_null and value == 0)

    def _has_number(self, number: int) -> bool:
        return self.least <= number <= self.greatest and number % self.step == 0


UNWRITTEN = Known(None, is_written=False)
FRAME_POINTER = Known(Kind.FRAME, FRAME_BYTES, FRAME_BYTES)
Registers = dict[int, Known]  # without those that aren't written


class Insn(NamedTuple):
    """What is known of an instruction: whether a path leads there, and the slots to which its edges lead."""

    text: str
    reached: bool
    targets: tuple[int, ...]


class Source(NamedTuple):
    """Where the value of a register comes from."""

    kind: str
    at: Optional[int]


@dataclass
class Facts:
    """The records of a unit. A rule and a slot are None of an accepted one."""

    rule: Optional[int] = None
    slot: Optional[int] = None
    insns: dict[int, Insn] = field(default_factory=dict)
    values: dict[int, Registers] = field(default_factory=dict)
    reads: dict[int, dict[int, Source]] = field(default_factory=dict)
    edges: dict[tuple[int, int], Registers] = field(default_factory=dict)
    unwritten: list[Address] = field(default_factory=list)

    def registers(self, slot: int) -> Registers:
        """All registers before a slot."""
        return {**dict.fromkeys(range(10), UNWRITTEN), **self.values.get(slot, {}), 10: FRAME_POINTER}

    def inflow(self, slot: int) -> list[int]:
        """The slots from which edges lead to one."""
        return [before for before, insn in self.insns.items() if slot in insn.targets]


def facts_of(lines: list[str]) -> Facts:
    """The records of these lines."""
    facts = Facts()
    for record in map(json.loads, lines):
        _take(facts, record)
    return facts


def _take(facts: Facts, record: dict) -> None:
    kind, slot = record["record"], record.get("slot")
    if kind == "refusal":
        facts.rule, facts.slot = int(record["code"].lstrip("V")), slot
    elif kind == "insn":
        targets = tuple(dict.fromkeys(at for at in (record["ahead"], record["aside"]) if at is not None))
        facts.insns[slot] = Insn(record["insn"], record["reached"], targets)
    elif kind == "value":
        facts.values.setdefault(slot, {})[record["register"]] = _known(record)
    elif kind == "edge":
        facts.edges.setdefault((slot, record["to"]), {})[record["register"]] = _known(record)
    elif kind == "read":
        facts.reads.setdefault(slot, {})[record["register"]] = Source(record["source"], record["at"])
    elif kind == "unwritten":
        frame = Kind.FRAME if record["frame"] == "own" else Kind.CTX
        facts.unwritten.append(Address(frame, FRAME_BYTES + record["offset"]))


def _known(record: dict) -> Known:
    """The value that a record has."""
    name = record["kind"]
    kind = KINDS.get(name)
    if kind in (Kind.FRAME, Kind.CTX):
        at = FRAME_BYTES + record["offset"]
        return Known(kind, at, at)
    if kind is Kind.MAP:
        return Known(kind, 0, 0, map=record["map"])
    if kind is Kind.CODE:
        return Known(kind, record["start"], record["start"])
    low, high, step = int(record["low"]), int(record["high"]), 1 << record["shift"]
    return Known(kind, low, high, step, record.get("map", 0), name == "area_or_null")
