#!/usr/bin/env python3
"""Tries that random_refusals.py finds what is wrong: nothing in the facts of a unit, and something in each change of them.

The program is that of $BPFSPEC, else `./bpfspec`.
"""

from __future__ import annotations

import json
import os
import random
import subprocess
import sys
import unittest
from collections.abc import Iterator
from pathlib import Path

sys.path[:0] = [str(Path(__file__).resolve().parents[1]), str(Path(__file__).resolve().parent)]

import random_refusals

TOP = Path(__file__).resolve().parents[2]
PROGRAM = os.environ.get("BPFSPEC", str(TOP / "bpfspec")).split()
LIMIT = 3600  # seconds, as the launcher may have to build the program
SEED = 1
UNITS = [
    "maps 7 | mov64 r0, 0 | jgt64 r1, 7, out | lsh64 r1, 3 | ldmapval r3, 0, 0 | add64 r3, r1 | ldx64 r0, [r3+0] | out: | exit",
    "maps 8 | mov64 r2, 3 | jeq64 r1, 0, join | ldmapval r2, 0, 8 | ldx64 r2, [r2+0] | and64 r2, 15 | join: | lsh64 r2, 3"
    " | ldmapval r3, 0, 0 | add64 r3, r2 | ldx64 r0, [r3+0] | exit",
    "maps 8 | st64 [r10-8], 0 | ldmapval r2, 0, 0 | jeq64 r1, 0, join | mov64 r2, r10 | add64 r2, -8 | join:"
    " | ldx64 r0, [r2+0] | exit",
    "maps 1 | st64 [r10-8], 0 | mov64 r1, 4 | ldcode r2, body | mov64 r3, r10 | add64 r3, -8 | mov64 r4, 0 | call 181 | exit"
    " | body: | add64 r2, r1 | mov64 r0, 0 | exit",
    "maps 1 | st32 [r10-4], 0 | ldmap r1, 0 | mov64 r2, r10 | add64 r2, -4 | call 1 | mov64 r0, r1 | exit",
    "maps 1 | st32 [r10-8], 0 | ldx64 r0, [r10-8] | exit",
]
LEFT_OUT = "insn", "value", "read", "edge"  # without one of these something is wrong
Record = dict[str, object]


def changed(record: Record) -> Iterator[Record]:
    """A record with another field that has to be found wrong."""
    kind = record["record"]
    if kind == "refusal":
        yield {**record, "code": "V16" if record["code"] != "V16" else "V17"}
    if kind == "insn":
        yield {**record, "insn": "mov64 r9, 9"}
        if record["ahead"] is not None:
            yield {**record, "ahead": None}
    if kind == "read":
        yield {**record, "source": "entered" if record["source"] != "entered" else "start"}
        yield {**record, "register": 9}
    if kind in ("value", "edge") and record["kind"] == "number" and record["low"] == record["high"]:
        yield {**record, "low": str(int(str(record["low"])) + 1), "high": str(int(str(record["low"])) + 1), "shift": 0}
    if kind == "unwritten":
        yield {**record, "offset": -512}
        yield {**record, "frame": "main"}


class Changes(unittest.TestCase):
    def test_changes(self) -> None:
        for unit in UNITS:
            lines = unit.split(" | ")
            records = self.records(lines)
            self.assertEqual(self.wrong(lines, records), [])
            for number, record in enumerate(records):
                before, after = records[:number], records[number + 1 :]
                others: list[list[Record]] = [[]] if record["record"] in LEFT_OUT else []
                others += [[other] for other in changed(record)]
                for other in others:
                    with self.subTest(f"{record} by {other}"):
                        self.assertTrue(self.wrong(lines, [*before, *other, *after]))

    def records(self, lines: list[str]) -> list[Record]:
        """The facts of a unit."""
        text = "".join(f"{line}\n" for line in lines)
        words = [*PROGRAM, "facts", "--states"]
        done = subprocess.run(words, input=text, capture_output=True, text=True, timeout=LIMIT, check=False)
        return [*map(json.loads, done.stdout.splitlines())]

    def wrong(self, lines: list[str], records: list[Record]) -> list[str]:
        """What is wrong with these facts."""
        return random_refusals.compared(random.Random(SEED), lines, [*map(json.dumps, records)]).wrong


if __name__ == "__main__":
    unittest.main()
