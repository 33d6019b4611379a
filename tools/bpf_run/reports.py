"""What the program prints, read: the answer and the loops of a run, functions, and a refusal."""

from __future__ import annotations

import re
from dataclasses import dataclass

from bpf_object.refusal import Refused

ACCEPTED = "accepted\n"
RETURN = re.compile(r"return (\d+)")
LOOP = re.compile(r"loop (\d+) at (\d+): answer (-?\d+), (.*)")
CONFLICT = re.compile(r"conflict (\d+) least (\d+)")
MAP = re.compile(r"map \d+: ([\d ]+)")
FUNCTION = re.compile(r"function (\d+) at (\d+) count (\d+)")
REFUSAL = re.compile(r"refused (\S+)(?: at (?:slot|unit line) (\d+))?")


@dataclass(frozen=True)
class Loop:
    """A loop call as it came out: how many elements conflict and the least of them, where some do."""

    number: int
    slot: int
    answer: int
    verdict: str
    conflicts: int = 0
    least: int | None = None


@dataclass(frozen=True)
class Run:
    """What a run gave: its return value, its loops, and the words over all maps."""

    value: int
    loops: list[Loop]
    words: list[int]


@dataclass(frozen=True)
class Function:
    """A function of a unit, and the most instructions that it takes."""

    slot: int
    count: int


@dataclass(frozen=True)
class Refusal:
    """A rule that a unit breaks, and where."""

    rule: str
    slot: int | None
    text: str


def read_run(output: str) -> Run | Refusal:
    """The output of `run` or `order`."""
    if refusal := read_refusal(output):
        return refusal
    value, loops, words = None, [], []
    for line in output.splitlines():
        if match := RETURN.fullmatch(line):
            value = int(match[1])
        elif match := LOOP.fullmatch(line):
            loops.append(_loop(match))
        elif match := MAP.fullmatch(line):
            words += map(int, match[1].split())
    if value is None:
        raise Refused(f"bpfspec printed no answer: {output[:80]!r}")
    return Run(value, loops, words)


def read_verify(output: str) -> list[Function] | Refusal:
    """The output of `verify`: functions by their numbers, or a refusal."""
    if refusal := read_refusal(output):
        return refusal
    if not output.startswith(ACCEPTED):
        raise Refused(f"bpfspec printed no verdict: {output[:80]!r}")
    return [Function(int(match[2]), int(match[3])) for match in map(FUNCTION.fullmatch, output.splitlines()) if match]


def read_refusal(output: str) -> Refusal | None:
    """The refusal that an output begins with."""
    line = output.partition("\n")[0]
    match = REFUSAL.match(line)
    return Refusal(match[1], int(match[2]) if match[2] else None, line) if match else None


def _loop(match: re.Match[str]) -> Loop:
    verdict, conflicts, least = match[4], 0, None
    if found := CONFLICT.fullmatch(verdict):
        verdict, conflicts, least = "conflict", int(found[1]), int(found[2])
    return Loop(int(match[1]), int(match[2]), int(match[3]), verdict, conflicts, least)
