"""Runs the repository's examples by the module for Python, and compares what comes of each with what is beside it.

BPFSPEC_LIBRARY names the folder of the library. Each fault is a line; the last line has the count of examples.
"""

from __future__ import annotations

import sys
from pathlib import Path

EXAMPLES = Path(__file__).resolve().parents[3] / "examples"
sys.path.insert(0, str(EXAMPLES / "c"))

from bpfspec import Machine  # noqa: E402: it is found by the line above


def machine_of(example: Path) -> Machine:
    """The machine of an example's program, with the maps that stand after it, or zeroes."""
    unit, _, rest = example.read_text().partition("%%\n")
    maps = rest.partition("%%\n")[0]
    machine = Machine(unit, hexadecimal=example.suffix == ".hex")
    for number, line in enumerate(maps.splitlines()):
        machine.set_words(number, map(int, line.partition(":")[2].split()))
    return machine


def lines_of(machine: Machine) -> list[str]:
    """A run of it, told as `bpfspec order` does, without the verdicts of loops."""
    lines = [f"return {machine.run()}"]
    lines += [f"loop {k} at {slot}: answer {answer}" for k, (slot, answer) in enumerate(machine.loops())]
    number = 0
    while True:
        try:
            words = machine.words(number)
        except IndexError:
            return lines
        lines.append(f"map {number}: {' '.join(map(str, words))}")
        number += 1


def main() -> int:
    """Runs all examples, and gives the status."""
    count = faults = 0
    for example in sorted([*EXAMPLES.glob("*.bpf"), *EXAMPLES.glob("*.hex")]):
        beside = [example.with_suffix(suffix) for suffix in (".out", ".run.out")]
        for told in filter(Path.exists, beside):
            expected = [line.partition(",")[0] for line in told.read_text().splitlines()]
            if not expected[0].startswith("return"):
                continue  # a replay's
            with machine_of(example) as machine:
                found = lines_of(machine)
            count += 1
            if found != expected:
                faults += 1
                print(f"{example.name}: {found} isn't {expected}")
    print(f"{count} examples")
    return 1 if faults or not count else 0


if __name__ == "__main__":
    sys.exit(main())
