#!/usr/bin/env python3
"""Tries what `explain` tells of elements that are reduced, and accessed in another way.

The program is that of $BPFSPEC, else `./bpfspec`.
"""

from __future__ import annotations

import subprocess
import sys
import unittest
from pathlib import Path

TOP = Path(__file__).resolve().parent.parent.parent
PROGRAM = [sys.executable, str(TOP / "tools" / "explain")]
LIMIT = 3600  # seconds, as the launcher may have to build the program
MAIN = "mov64 r1, 100", "ldcode r2, callback", "mov64 r3, 0", "mov64 r4, 0", "call 181", "exit"
RELAXED = "__atomic_fetch_add(.., __ATOMIC_RELAXED)"
WIDER = "u64 in place of u32, or the variables in elements apart"
# The first instruction of a callback's own is in line 11: after `maps`, main, the label and two that each begins with.
BEGIN = "callback:", "mov64 r3, 5", "ldmapval r2, 0, 0"
END = "mov64 r0, 0", "exit"


def explained(*accesses: str, header: tuple[str, ...] = ()) -> list[str]:
    """What is told of a loop of 100 iterations that does this, below the line of the loop and that of its way."""
    lines = [*header, "maps 2", *MAIN, *BEGIN, *accesses, *END]
    text = "".join(f"{line}\n" for line in lines)
    done = subprocess.run(PROGRAM, input=text, capture_output=True, text=True, timeout=LIMIT, cwd=TOP, check=False)
    told = done.stdout.splitlines()
    return told[next(number for number, line in enumerate(told) if line.startswith("loop ")) + 2 :]


class Causes(unittest.TestCase):
    def test_a_load_in_one_iteration(self) -> None:
        told = explained("atomic64 add [r2+0], r3", "jne64 r1, 50, done", "ldx64 r4, [r2+0]", "done:")
        self.assertEqual(
            told,
            [
                "  element 0 (map 0 at 0)",
                "    iteration    0 reduces it by add line 11: atomic64 add [r2+0], r3",
                "    iteration    1 reduces it by add line 11: atomic64 add [r2+0], r3",
                "    the first access that isn't a reduce by add:",
                "    iteration   50 reads it     line 13: ldx64 r4, [r2+0]",
                "      what is reduced is read after the loop, or in a loop of its own",
            ],
        )

    def test_a_store_before_all_reduces(self) -> None:
        told = explained("jne64 r1, 0, add", "st64 [r2+0], 7", "add:", "atomic64 add [r2+0], r3")
        self.assertEqual(
            told,
            [
                "  element 0 (map 0 at 0)",
                "    iteration    0 writes it    line 12: st64 [r2+0], 7",
                "    iteration    1 reduces it by add line 14: atomic64 add [r2+0], r3",
                "    the first access that isn't a reduce by add:",
                "    iteration    0 writes it    line 12: st64 [r2+0], 7",
                "      what is reduced is set before the loop, or in a loop of its own",
            ],
        )

    def test_two_operators(self) -> None:
        told = explained("atomic64 add [r2+0], r3", "atomic64 xor [r2+0], r3")
        self.assertEqual(
            told[1:],
            [
                "    iteration    0 reduces it by add line 11: atomic64 add [r2+0], r3",
                "    iteration    1 reduces it by add line 11: atomic64 add [r2+0], r3",
                "    the first access that isn't a reduce by add:",
                "    iteration    0 reduces it by xor line 12: atomic64 xor [r2+0], r3",
                "      a reduction has one operator for all, and one width",
            ],
        )

    def test_two_widths(self) -> None:
        half = "half:", "atomic32 add [r2+4], r3", "done:"
        told = explained("jeq64 r1, 3, half", "atomic64 add [r2+0], r3", "ja done", *half)
        self.assertEqual(
            told[3:],
            [
                "    the first access that isn't a reduce by add:",
                "    iteration    3 reduces half of it by add line 15: atomic32 add [r2+4], r3",
                f"      a reduction has one operator for all, and one width: {WIDER}",
            ],
        )

    def test_halves_by_or_are_as_the_whole(self) -> None:
        self.assertEqual(explained("atomic64 or [r2+0], r3", "atomic32 or [r2+4], r3"), [])

    def test_a_fetch(self) -> None:
        told = explained("atomic64 add_fetch [r2+0], r3")
        self.assertEqual(
            told[1:],
            [
                "    iteration    0 fetches it, and adds line 11: atomic64 add_fetch [r2+0], r3",
                "    iteration    1 fetches it, and adds line 11: atomic64 add_fetch [r2+0], r3",
                f"    it tells what was there: without use of that, {RELAXED} is a reduce",
            ],
        )

    def test_two_variables_of_one_element(self) -> None:
        pair = ";   low from element 0", ";   high from byte 4 of element 0"
        header = "; map 0: .bss", *pair, ";   next from element 1"
        high = "high:", "stx32 [r2+4], r3", "done:"
        told = explained("jeq64 r1, 7, high", "stx32 [r2+0], r3", "ja done", *high, header=header)
        self.assertEqual(
            told,
            [
                "  element 0 (map 0 at 0): low and high",
                "    iteration    0 stores half of it line 16: stx32 [r2+0], r3",
                "    iteration    1 stores half of it line 16: stx32 [r2+0], r3",
                f"    a store to one half keeps the other: {WIDER}",
            ],
        )

    def test_names_of_elements(self) -> None:
        section = "; map 0: .bss", ";   first from element 0"
        headers = {
            (*section, ";   rest from element 1"): ": rest",
            section: ": first",
            ("; map 0: counts",): ": counts",
            ("; map 1: counts",): "",
        }
        for header, names in headers.items():
            told = explained("atomic64 xchg [r2+8], r3", header=header)
            self.assertEqual(told[0], f"  element 1 (map 0 at 1){names}")


if __name__ == "__main__":
    unittest.main()
