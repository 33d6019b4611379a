#!/usr/bin/env python3
"""Compares the way that `explain` tells of each loop with the way that `run --stats` tells that it went.

The program is that of $BPFSPEC, else `./bpfspec`.
"""

from __future__ import annotations

import os
import re
import subprocess
import sys
import unittest
from pathlib import Path

TOP = Path(__file__).resolve().parent.parent.parent
RUN = os.environ.get("BPFSPEC", str(TOP / "bpfspec")).split()
EXPLAIN = [sys.executable, str(TOP / "tools" / "explain")]
LIMIT = 3600  # seconds, as the launcher may have to build the programs
WENT = re.compile(r"(loop \d+ at \d+): [^,]*, (.*?)(?:, list)?, \S+ ms: (.*)")
LOOP = re.compile(r"(loop \d+ at \d+): .*")
WAY = re.compile(r"  way: (.*)")
EXAMPLES = sorted((TOP / "examples").glob("**/*.bpf"))
# These loops add up, and store: both few and many iterations, with little and with much to do in each.
MAIN = "maps {size} | mov64 r1, {n} | ldcode r2, callback | mov64 r3, 0 | mov64 r4, 0 | call 181 | exit | callback:"
SUM = "ldmapval r2, 0, 0 | atomic64 add [r2+0], r1 | mov64 r0, 0 | exit"
STORE = (
    "mov64 r3, r1 | {work} | and64 r1, 7 | lsh64 r1, 3 | ldmapval r2, 0, 0 | add64 r2, r1 | stx64 [r2+0], r3 | "
    "mov64 r0, 0 | exit"
)
LOOPS = [
    *(f"{MAIN.format(size=1, n=n)} | {SUM}" for n in (0, 1, 100, 2_000_000)),
    *(
        f"{MAIN.format(size=8, n=n)} | {STORE.format(work=' | '.join(['mul64 r3, 3'] * work))}"
        for n in (0, 100, 40_000)
        for work in (1, 200)
    ),
]


def printed(words: list[str], text: str) -> tuple[list[str], list[str]]:
    """The lines that a program prints, on standard output and on standard error."""
    done = subprocess.run(words, input=text, capture_output=True, text=True, timeout=LIMIT, cwd=TOP, check=False)
    return done.stdout.splitlines(), done.stderr.splitlines()


def ways_of_run(text: str, options: list[str]) -> list[str]:
    """Each loop call that isn't refused, with its way and the reason, by `run --stats`."""
    _, lines = printed([*RUN, "run", "--stats", *options], text)
    return [f"{match[1]}: {match[2]}: {match[3]}" for match in map(WENT.fullmatch, lines) if match]


def ways_of_explain(text: str, options: list[str]) -> list[str]:
    """The same by `explain`."""
    lines, _ = printed([*EXPLAIN, *options], text)
    pairs = ((LOOP.fullmatch(line), WAY.fullmatch(below)) for line, below in zip(lines, lines[1:]))
    return [f"{loop[1]}: {way[1]}" for loop, way in pairs if loop and way]


class Ways(unittest.TestCase):
    def compare(self, text: str) -> list[str]:
        """Compares by both tests, and gives the ways."""
        found = []
        for test in "lrpd", "flow":
            options = ["--test", test]
            ways = ways_of_run(text, options)
            self.assertEqual(ways_of_explain(text, options), ways)
            found += ways
        return found

    def test_examples(self) -> None:
        ways = []
        for path in EXAMPLES:
            with self.subTest(path.name):
                ways += self.compare(path.read_text())
        self.assertTrue(ways)

    def test_loops(self) -> None:
        ways = set()
        for unit in LOOPS:
            with self.subTest(unit):
                text = unit.replace(" | ", "\n") + "\n"
                ways |= {line.split(": ", 1)[1] for line in self.compare(text)}
        for way in "in order, 1 worker", "sums, 2 workers", "watched, 1 worker", "4 blocks, 2 workers":
            self.assertTrue(any(told.startswith(f"{way}: ") for told in ways), (way, ways))


if __name__ == "__main__":
    unittest.main()
