#!/usr/bin/env python3
"""Tests that an access outside of a variable of C is a trap of its unit, at its line.

    tools/tests/traps.py [PROGRAM.c ...]

Each program of tools/tests/traps has a line that ends with `// trap`. With the argument 7 it goes outside there, and
the unit has to trap at this line. With 0 it doesn't, and the unit does what C does. The status is 1 where anything else
comes.
"""

from __future__ import annotations

import argparse
import sys
import tempfile
from collections.abc import Iterator
from pathlib import Path

sys.path.insert(0, str(Path(__file__).resolve().parents[1]))

from bpf_object.load import load  # noqa: E402
from bpf_object.refusal import Refused  # noqa: E402
from oracle.builds import TESTS, Build, builds, has_clang  # noqa: E402
from oracle.compare import Outcome, judge  # noqa: E402
from oracle.names import names_of  # noqa: E402
from oracle.native import compile_native, run_native  # noqa: E402
from oracle.units import ORDER, UnitRefused, make_ready, run_unit, text_of  # noqa: E402

MARK = "// trap"
WITHIN, OUTSIDE = 0, 7


def main() -> int:
    """Tries all programs, and prints what was wrong."""
    parser = argparse.ArgumentParser(prog="traps.py", description=(__doc__ or "").partition("\n")[0])
    parser.add_argument("programs", nargs="*", type=Path, help="sources in C, instead of those of the folder")
    sources = parser.parse_args().programs or sorted((TESTS / "traps").glob("*.c"))
    if not has_clang():
        print("no clang here that knows BPF: nothing is tested")
        return 0
    make_ready()
    tried, wrong = 0, 0
    for source in sources:
        for build in builds(is_quick=True):
            tried += 1
            for reason in faults(source.resolve(), build):
                wrong += 1
                print(f"wrong: {source.name} {build}: {reason}", flush=True)
    print(f"{tried} builds of programs that go outside, {wrong} wrong")
    return 1 if wrong else 0


def faults(source: Path, build: Build) -> Iterator[str]:
    """What is wrong with one build of a program."""
    with tempfile.TemporaryDirectory(prefix="traps_") as name:
        folder = Path(name)
        data = build.compile(source, folder / "x.o")
        names = names_of(data)
        native = run_native(compile_native(source, names, folder), 0, 1, WITHIN)
    judged = judge(source.name, str(build), data, names.mains[0], {WITHIN: native}, with_run=False)
    if judged.outcome is not Outcome.SAME:
        yield f"within: {judged.outcome.value}: {'; '.join(judged.reasons)}"
        return
    expected = next(n for n, line in enumerate(source.read_text().splitlines(), 1) if line.rstrip().endswith(MARK))
    found = trap_line(data, names.mains[0])
    if found != expected:
        yield f"outside: {found}, where line {expected} should trap"


def trap_line(data: bytes, main_function: str) -> int | str:
    """The line of C at which a program traps, or what comes instead."""
    try:
        loaded = load(data, main=main_function)
        words = run_unit(text_of(loaded.unit, loaded.initial), ORDER, OUTSIDE).words
    except (Refused, UnitRefused) as reason:
        return str(reason)
    number = 0 if loaded.trap_element is None else words[loaded.trap_element]
    if not 0 < number <= len(loaded.traps):
        return "no trap" if number == 0 else f"trap {number} of {len(loaded.traps)}"
    line = loaded.traps[number - 1].line
    return line.number if line else "a trap of no line"


if __name__ == "__main__":
    sys.exit(main())
