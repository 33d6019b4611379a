#!/usr/bin/env python3
"""Compares what the interpreter of random_refusals.py makes of random callbacks with what `order` does.

The program is that of $BPFSPEC, else `./bpfspec`.
"""

from __future__ import annotations

import random
import sys
import unittest
from pathlib import Path

sys.path[:0] = [str(Path(__file__).resolve().parents[1]), str(Path(__file__).resolve().parent)]

from oracle.instructions import unit_of
from oracle.machine import DONE_ITERATIONS, Machine
from oracle.random_callback import CTX, FRAME_WORDS, INDEX, SIZES, RandomCallback
from oracle.units import ORDER, make_ready, run_unit, text_of

CALLBACKS = 20


def unit(rng: random.Random, first: int) -> list[str]:
    """A loop call of a few iterations, with the index moved by a number so that it isn't always a small one."""
    lines = [f"maps {' '.join(map(str, SIZES.values()))}"]
    for word in range(FRAME_WORDS + 1):
        lines += [f"lddw r3, {rng.getrandbits(64)}", f"stx64 [r10-{8 * word + 8}], r3"]
    lines += [f"mov64 r1, {DONE_ITERATIONS}", "ldcode r2, callback", "mov64 r3, r10"]
    lines += [f"add64 r3, -{8 * FRAME_WORDS + 8}", "mov64 r4, 0", "call 181", "exit", "callback:"]
    return [*lines, f"mov64 r{INDEX}, r1", f"add64 r{INDEX}, {first}", f"mov64 r{CTX}, r2", *RandomCallback(rng).lines]


class Callbacks(unittest.TestCase):
    def test_callbacks(self) -> None:
        make_ready()
        for seed in range(CALLBACKS):
            with self.subTest(seed):
                rng = random.Random(seed)
                lines = unit(rng, rng.randint(0, 4_000))
                words = [[rng.getrandbits(rng.choice((3, 32, 64))) for _ in range(size)] for size in SIZES.values()]
                ordered = run_unit(text_of("\n".join([*lines, ""]), words), ORDER, 0)
                run = Machine(unit_of(lines), words, None, lambda count: 0).run(0)
                self.assertEqual(run.answer, ordered.answer)
                self.assertEqual([word for of_map in words for word in of_map], list(ordered.words))


if __name__ == "__main__":
    unittest.main()
