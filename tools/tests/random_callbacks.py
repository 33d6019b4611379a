#!/usr/bin/env python3
"""Compares what random loops leave when their iterations go together with what they leave one by one.

    tools/tests/random_callbacks.py PROGRAM [SEED [COUNT]]

PROGRAM stands for `./bpfspec`. A callback has arithmetic, branches, early ends, breaks, accesses of elements, of fields
and of halves of all kinds, loads of what an iteration at a distance left, its own frame, main's, and lookups. Each unit
has eight. By `order`, a loop call of 512 iterations or more takes many of them together where it may, and a shorter one
takes none: what short calls leave has to come out of the one call too, the same answer of each loop, and the same maps.
Each unit goes by `run` too: with one, two and four workers, in blocks, and by the test `lrpd`. But for the last they
have to say the same of each loop.

COUNT is of callbacks, 10,000 if it isn't given. Each difference is on standard error, and so is each unit that is
refused, since all have to be accepted. One line on standard output has the counts. The status is 0 where nothing was
wrong, else 1. That iterations go together at all is what tools/check_shortcuts looks at.
"""

from __future__ import annotations

import os
import random
import re
import subprocess
import sys
from concurrent.futures import ProcessPoolExecutor
from dataclasses import dataclass
from functools import partial
from itertools import zip_longest

from oracle.random_callback import CTX, DATA, FRAME_WORDS, INDEX, SIZES, RandomCallback

LIMIT = 60  # seconds of a run
LOOPS = 8  # of a unit
FEWEST, MOST, LONGEST = 2_048, 6_000, 20_000  # iterations of a loop call that go together, of most here, and of any
MANY, MANY_EVERY = 15_900, 16  # more elements of the first map in one unit of so many: halves then share stamps
PRIME = 20_011  # that all answers so far are multiplied by
CALLS = 511, 509, 503, 499  # iterations of each call of a loop that is to go one by one: the first that does
DONE, REFUSED = 0, 1  # statuses
TOGETHER, ONE_BY_ONE = "order", "order, one by one"
ORDER = ("order",)
SAME_REPORT = "blocks", "one worker", "two workers", "four workers"  # these say the same of each loop
RUNS = {
    "blocks": ("run", "--workers", "2", "--way", "blocks"),
    "one worker": ("run", "--workers", "1"),
    "two workers": ("run", "--workers", "2"),
    "four workers": ("run", "--workers", "4"),
    "lrpd": ("run", "--test", "lrpd"),
}
LOOP = re.compile(r"loop \d+ at (\d+): answer (\d+), (.*)")
START = 8 * FRAME_WORDS + 8  # how far below the end of main's frame ctx is, with the first iteration of a call


class Loops:
    """The random loops of a seed, over the same maps."""

    def __init__(self, seed: int) -> None:
        rng = random.Random(seed)
        self._iterations = [iterations(rng) for _ in range(LOOPS)]
        self._maps = [[random_word(rng) for _ in range(size)] for size in SIZES.values()]
        if seed % MANY_EVERY == 0:
            self._maps[DATA] += [0] * MANY
        self._frame = [random_word(rng) for _ in range(FRAME_WORDS)]
        self._callbacks = [RandomCallback(rng, f"c{number}_").lines for number in range(LOOPS)]

    def most(self, answers: list[int]) -> int:
        """How many iterations a call may have so that what it answers says whether its loop went on, by what each loop
        answers: a loop that breaks at the last iteration of a call answers the number of its iterations."""
        is_fit = (all(answer % most for answer in answers) for most in CALLS)
        return next((most for most, fits in zip(CALLS, is_fit) if fits), CALLS[0])

    def unit(self, most: int) -> str:
        """The unit that runs them by calls of at most so many iterations, and gives how many ran of each."""
        text = [f"maps {' '.join(str(len(words)) for words in self._maps)}", "mov64 r9, 0"]
        for number, word in enumerate(self._frame):
            text += [f"lddw r1, {word}", f"stx64 [r10-{8 * (FRAME_WORDS - number)}], r1"]
        for number, all_of_it in enumerate(self._iterations):
            text += [f"mul64 r9, {PRIME}"]
            for first in range(0, all_of_it, most):
                count = min(most, all_of_it - first)
                text += [f"st64 [r10-{START}], {first}", f"mov64 r1, {count}", f"ldcode r2, callback_{number}"]
                text += ["mov64 r3, r10", f"add64 r3, -{START}", "mov64 r4, 0", "call 181", "add64 r9, r0"]
                text += [f"jne64 r0, {count}, broken_{number}"]
            text += [f"broken_{number}:"]
        text += ["mov64 r0, r9", "exit"]
        for number, lines in enumerate(self._callbacks):
            text += [f"callback_{number}:", f"mov64 r{INDEX}, r1", f"mov64 r{CTX}, r2"]
            text += ["ldx64 r1, [r2+0]", f"add64 r{INDEX}, r1"] if most < LONGEST else []
            text += lines
        values = [f"map {number}: {' '.join(map(str, words))}" for number, words in enumerate(self._maps)]
        return "\n".join([*text, "%%", *values, ""])


def iterations(rng: random.Random) -> int:
    """How many iterations a loop has: mostly so many that they go together."""
    spans = {(1, FEWEST): 10, (FEWEST, FEWEST + 600): 60, (FEWEST, MOST): 29, (FEWEST, LONGEST): 1}
    least, greatest = rng.choices([*spans], [*spans.values()])[0]
    return rng.randint(least, greatest)


def random_word(rng: random.Random) -> int:
    """A word, often a small one."""
    return rng.getrandbits(rng.choice((3, 8, 32, 64)))


@dataclass(frozen=True)
class Answer:
    """What came of a run: its status, what the program returned, what is said of each loop, and the maps."""

    status: int
    returned: str
    loops: list[str]
    maps: str

    def answers(self) -> list[int]:
        """What each loop answered."""
        return [int(loop[2]) for loop in map(LOOP.fullmatch, self.loops) if loop]

    def difference(self, wanted: Answer) -> str:
        """What is other than it should be, but for loops; nothing where nothing is."""
        if self.status != wanted.status:
            return f"status {self.status}, not {wanted.status}: {self.returned[:80]}"
        if self.returned != wanted.returned:
            return f"{self.returned}, not {wanted.returned}"
        if self.maps == wanted.maps:
            return ""
        for line, wanted_line in zip_longest(self.maps.splitlines(), wanted.maps.splitlines(), fillvalue=""):
            words = zip_longest(line.split(), wanted_line.split(), fillvalue="nothing")
            for number, (word, wanted_word) in enumerate(words):
                if word != wanted_word:
                    return f"{wanted_line[:6]} word {number} is {word}, not {wanted_word}"
        return "maps differ"


def answer(program: str, words: tuple[str, ...], text: str) -> Answer:
    """Runs a unit."""
    ran = subprocess.run([program, *words], input=text, capture_output=True, text=True, timeout=LIMIT)
    head, mark, maps = (ran.stdout or ran.stderr).partition("map 0:")
    returned, *loops = head.splitlines() or [""]
    return Answer(ran.returncode, returned, loops, mark + maps)


def faults(program: str, seed: int) -> list[str]:
    """What is wrong with the answers to the loops of a seed."""
    loops = Loops(seed)
    text = loops.unit(LONGEST)
    together = answer(program, ORDER, text)
    alone = answer(program, ORDER, loops.unit(loops.most(together.answers())))
    if together.status == alone.status == REFUSED:
        return [together.returned]
    wrong = [f"{ONE_BY_ONE}: status {alone.status}"] if alone.status != DONE else []
    runs = {name: answer(program, words, text) for name, words in RUNS.items()}
    blocks = runs[SAME_REPORT[0]].loops
    wrong += [f"{name}: {one}, not {other}" for name in SAME_REPORT for one, other in zip(runs[name].loops, blocks)
              if one != other]
    wrong += [f"{name}: answers {one.answers()}, not {together.answers()}" for name, one in runs.items()
              if one.answers() != together.answers()]
    found = {TOGETHER: together, **runs}
    return wrong + [f"{name}: {difference}" for name, one in found.items() if (difference := one.difference(alone))]


def main(program: str, seed: int, count: int) -> int:
    """Compares so many loops."""
    wrong = 0
    seeds = range(seed, seed + -(-count // LOOPS))
    with ProcessPoolExecutor(len(os.sched_getaffinity(0))) as pool:
        for number, found in zip(seeds, pool.map(partial(faults, program), seeds, chunksize=4)):
            wrong += bool(found)
            for line in found:
                print(f"seed {number}, {line}", file=sys.stderr, flush=True)
    print(f"{len(seeds) * LOOPS} callbacks in {len(seeds)} units, {wrong} units wrong")
    return 1 if wrong else 0


if __name__ == "__main__":
    sys.exit(main(sys.argv[1], *(int(word) for word in [*sys.argv[2:], "0", "10000"][:2])))
