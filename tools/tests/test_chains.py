#!/usr/bin/env python3
"""Tries which links `explain` shows of the chain back from a value that breaks a rule, and in which columns.

The program is that of $BPFSPEC, else `./bpfspec`. Lines that are wanted are as in test_reasons.py.
"""

from __future__ import annotations

import sys
import unittest
from pathlib import Path

sys.path[:0] = [str(Path(__file__).resolve().parent)]

from test_reasons import HELPS, Reasons, explained


class Deciding(Reasons):
    """The comparison that narrows a range, and the copy that isn't narrowed, stand in the chain."""

    def test_one_too_many(self) -> None:
        head = ["maps 7", "mov64 r0, 0", "jgt64 r1, 7, out", "lsh64 r1, 3", "ldmapval r3, 0, 0", "add64 r3, r1"]
        self.tells(
            [*head, "ldx64 r0, [r3+0]", "out:", "exit"],
            "refused V19 at slot 6",
            "  line 7: ldx64 r0, [r3+0]",
            "  r3 is in map 0, at byte 0 to 56 in steps of 8; map 0 has 7 elements, 56 bytes, so 8 bytes at +0 from"
            " there may lie outside",
            "  r3 comes from",
            "    slot   5  add64 r3, r1              r1 is 0 to 56 in steps of 8",
            "    slot   2  lsh64 r1, 3               r1 is 0 to 7",
            "    slot   1  jgt64 r1, 7, +5           r1 is any number; behind it r1 is 0 to 7",
            "    main's argument: any number",
            HELPS + "compare the very register..",
        )

    def test_a_copy_of_the_compared_register(self) -> None:
        head = ["maps 8", "mov64 r0, 0", "and64 r1, 15", "mov64 r2, r1", "jgt64 r1, 7, out", "lsh64 r2, 3"]
        self.has(
            [*head, "ldmapval r3, 0, 0", "add64 r3, r2", "ldx64 r0, [r3+0]", "out:", "exit"],
            "refused V19 at slot 8",
            "  r3 comes from",
            "    slot   7  add64 r3, r2              r2 is 0 to 120 in steps of 8",
            "    slot   4  lsh64 r2, 3               r2 is 0 to 15",
            "    slot   2  mov64 r2, r1              slot 3 compares r1, which doesn't narrow r2",
            "    slot   1  and64 r1, 15              r1 is any number",
            "    main's argument: any number",
        )

    def test_a_comparison_of_the_copy(self) -> None:
        head = ["maps 8", "mov64 r0, 0", "and64 r1, 15", "mov64 r2, r1", "add64 r2, 1", "jgt64 r2, 7, out"]
        self.has(
            [*head, "lsh64 r1, 3", "ldmapval r3, 0, 0", "add64 r3, r1", "ldx64 r0, [r3+0]", "out:", "exit"],
            "refused V19 at slot 9",
            "    slot   5  lsh64 r1, 3               r1 is 0 to 15",
            "    slot   2  mov64 r2, r1              slot 4 compares r2, which doesn't narrow r1",
            "    slot   1  and64 r1, 15              r1 is any number",
        )

    def test_a_comparison_of_another_value(self) -> None:
        head = ["maps 8", "mov64 r0, 0", "and64 r1, 15", "mov64 r2, r1", "mov64 r1, 9", "jgt64 r1, r2, out"]
        told = explained(*head, "lsh64 r2, 3", "ldmapval r3, 0, 0", "add64 r3, r2", "ldx64 r0, [r3+0]", "out:", "exit")
        self.assertIn("    slot   4  jgt64 r1, r2, +5          r2 is 0 to 15; behind it r2 is 9 to 15", told)
        self.assertFalse([line for line in told if "doesn't narrow" in line])

    def test_a_copy_that_is_written_again(self) -> None:
        head = ["maps 8", "mov64 r0, 0", "mov64 r2, r1", "add64 r1, 1", "mov64 r2, r1", "mov64s16 r5, r2"]
        self.tells(
            [*head, "jgt64 r2, 7, out", "ldmapval r3, 0, 0", "add64 r3, r5", "ldx64 r0, [r3+0]", "out:", "exit"],
            "refused V13 at slot 8",
            "  line 9: add64 r3, r5",
            "  r3 is in map 0, at byte 0, r5 is any number",
            "  a number can be added to an address in a map's values..",
            "  r5 comes from",
            "    slot   4  mov64s16 r5, r2           r2 is any number",
            "    slot   2  add64 r1, 1               r1 is any number",
            "    main's argument: any number",
            HELPS + "..",
        )

    def test_a_register_that_is_written_again_far_back(self) -> None:
        head = ["maps 8", "mov64 r0, 0", "and64 r1, 15", "mov64 r2, r1", "ldmapval r4, 0, 0", "ldx64 r1, [r4+0]"]
        body = [*["mov64 r0, 0"] * 600, "jgt64 r1, 7, out", "lsh64 r2, 3", "ldmapval r3, 0, 0", "add64 r3, r2"]
        told = explained(*head, *body, "ldx64 r0, [r3+0]", "out:", "exit")
        self.assertIn("    slot   1  and64 r1, 15              r1 is any number", told)
        self.assertFalse([line for line in told if "doesn't narrow" in line])


class Columns(Reasons):
    """At least two blanks are between an instruction and what is told of it."""

    def test_numbers(self) -> None:
        for number in (10**14, 10**15, 10**16, 2**64 - 1):
            load = f"lddw r1, {number}"
            self.has(
                ["maps 8", load, "ldmapval r3, 0, 0", "add64 r3, r1", "mov64 r0, 0", "exit"],
                "refused V13 at slot 4",
                f"    slot   0  {load}  a constant",
            )

    def test_atomics(self) -> None:
        head = ["maps 8", "ldmapval r2, 0, 0", "mov64 r1, 1", "atomic64 add_fetch [r2+0], r1", "add64 r2, r1"]
        self.has(
            [*head, "mov64 r0, 0", "exit"],
            "refused V13 at slot 4",
            "    slot   3  atomic64 add_fetch [r2+0], r1  what memory had: any number of its size",
        )


if __name__ == "__main__":
    unittest.main()
