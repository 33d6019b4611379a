"""The files in examples/ that a command makes, each with that command.

    NAME.bpf        beside NAME.o: what `tools/elf2unit` makes of it
    NAME.out        beside NAME.o: what `run` prints; else what `order` prints, or where the input has events `replay`
    NAME.run.out    what `run` prints, by each way
    NAME.svg        what `explain --picture` prints
"""

from __future__ import annotations

from collections.abc import Iterator
from pathlib import Path

from .shown import Command

WAYS = "pays", "blocks"
PARTED = "%%"  # a line between two sections of an input
RUN_OUT, OUT, PICTURE, UNIT, HEX, OBJECT = ".run.out", ".out", ".svg", ".bpf", ".hex", ".o"


def stored(top: Path) -> Iterator[Command]:
    """The commands of each such file below examples/, and the file as what each of them prints."""
    for path in sorted((top / "examples").rglob("*")):
        for command in _commands(top, path):
            yield Command(path.relative_to(top), 1, command, path.read_text(encoding="utf-8"))


def _commands(top: Path, path: Path) -> list[str]:
    """What makes a file: nothing, one command, or one by each way."""
    name = path.name
    if name.endswith(RUN_OUT):
        return _by_each_way(_input(top, path.with_name(name[: -len(RUN_OUT)])))
    has_object = path.with_suffix(OBJECT).is_file()
    if name.endswith(UNIT) and has_object:
        return [f"tools/elf2unit {path.with_suffix(OBJECT).relative_to(top)}"]
    if name.endswith(OUT) and has_object:
        return _by_each_way(_input(top, path))
    if name.endswith(OUT):
        unit = path.with_suffix(UNIT)
        has_events = unit.is_file() and unit.read_text(encoding="utf-8").splitlines().count(PARTED) > 1
        return [f"./bpfspec {'replay' if has_events else 'order'}{_input(top, path)}"]
    if name.endswith(PICTURE):
        return [f"./bpfspec explain --picture{_input(top, path)}"]
    return []


def _by_each_way(given: str) -> list[str]:
    return [f"./bpfspec run --way {way}{given}" for way in WAYS]


def _input(top: Path, path: Path) -> str:
    """The words that hand over the unit of a file's name: its text, or else its hex form."""
    unit = path.with_suffix(UNIT)
    return f" < {unit.relative_to(top)}" if unit.is_file() else f" --hex < {path.with_suffix(HEX).relative_to(top)}"
