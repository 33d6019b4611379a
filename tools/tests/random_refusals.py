#!/usr/bin/env python3
"""Compares the facts of random programs that are refused with what happens in runs of them.

    tools/tests/random_refusals.py PROGRAM [SEED [COUNT]]

PROGRAM is the program bpfspec, whose `facts --states` are read. A program has arithmetic, comparisons, branches, accesses
of maps and frames, lookups and loops, and in main or a callback something that can't be done: an index that isn't bounded,
or by one too little, a copy that isn't narrowed, a register that some paths leave unwritten. Of each seed programs are made
until one is refused. An interpreter runs it with arguments and maps that are made from its numbers, main first and a few
iterations of each loop call, until control reaches the slot of the fault. In each run:

- no instruction before the fault is one that can't be done;
- each register has, before each instruction and along each edge into a join, a value among those of its record;
- each step is an edge, and each slot that it leads to is one that a path leads to;
- each register that is read comes from where its record says: it was written there last, or main or the callback began
  with it, or it is as it was where paths join.

And of the program itself: the slots are those up to the fault, with their instructions and edges; the rule is the least
that is broken by the values at its slot, and at no slot before one is; where paths join a register is the join of all
edges, and the registers that are known on an edge are those that its instruction left or wrote; each byte that isn't
written is so on some path of jumps.

Each difference is on standard error, with the program and its facts. Standard output has the counts. The status is 0 where
nothing was wrong, else 1.
"""

from __future__ import annotations

import os
import random
import subprocess
import sys
from collections import Counter
from collections.abc import Iterator
from concurrent.futures import ProcessPoolExecutor
from dataclasses import dataclass, field
from functools import partial

from oracle.agreement import wrong_of
from oracle.claims import Claims
from oracle.facts import Facts, facts_of
from oracle.instructions import Unit, unit_of
from oracle.machine import WORD, Machine
from oracle.random_refusal import RandomRefusal

LIMIT = 60  # seconds of a command
RUNS, MOST_RUNS = 12, 40  # of a program, and of one whose fault no run came to
MOST_TRIES = 50  # programs of a seed


@dataclass
class Outcome:
    """What came of the program of a seed."""

    lines: list[str]
    rule: int = 0
    runs: int = 0
    reached: int = 0
    held: int = 0
    wrong: list[str] = field(default_factory=list)


class Inputs:
    """Random arguments and words of maps, mostly near the numbers of a unit."""

    def __init__(self, rng: random.Random, unit: Unit) -> None:
        self._random = rng
        self._sizes = unit.sizes
        self._near = sorted({0, 1, *(insn.imm for insn in unit.insns.values())})

    def word(self) -> int:
        """A word."""
        rng = self._random
        if rng.random() < 0.75:
            return rng.choice(self._near) + rng.choice((0, 0, 1, -1)) & WORD
        return rng.getrandbits(rng.choice((1, 3, 5, 8, 16, 32, 64)))

    def maps(self) -> list[list[int]]:
        """The words of all maps."""
        return [[self.word() for _ in range(size)] for size in self._sizes]

    def first(self, count: int) -> int:
        """The iteration of a loop of so many that is the first to be done."""
        return self._random.choice((0, 0, self._random.randrange(count), count - 1))


def printed(program: str, lines: list[str]) -> list[str]:
    """The records of a unit."""
    words, text = [program, "facts", "--states"], "".join(f"{line}\n" for line in lines)
    return subprocess.run(words, input=text, capture_output=True, text=True, timeout=LIMIT, check=False).stdout.splitlines()


def refused(program: str, rng: random.Random) -> tuple[list[str], list[str]]:
    """A random unit that is refused, and its records."""
    for _ in range(MOST_TRIES):
        lines = RandomRefusal(rng).lines
        records = printed(program, lines)
        if any(record.startswith('{"record":"refusal"') for record in records):
            return lines, records
    raise RuntimeError(f"{MOST_TRIES} programs, and none is refused")


def differences(rng: random.Random, unit: Unit, facts: Facts, outcome: Outcome) -> Iterator[str]:
    """What is wrong with facts by the unit; or else by its runs."""
    wrong = [*wrong_of(unit, facts)]
    if wrong:
        yield from wrong
        return
    claims, inputs = Claims(unit, facts), Inputs(rng, unit)
    while outcome.runs < (RUNS if outcome.reached else MOST_RUNS):
        argument = inputs.word()
        run = Machine(unit, inputs.maps(), facts.slot, inputs.first).run(argument)
        outcome.runs += 1
        outcome.reached += run.is_there
        for wrong in claims.wrong_in(run):
            yield f"with argument {argument}: {wrong}"
    outcome.held = claims.held


def compared(rng: random.Random, lines: list[str], records: list[str]) -> Outcome:
    """Compares the facts of a unit with the unit and with its runs."""
    outcome, unit, facts = Outcome(lines), unit_of(lines), facts_of(records)
    outcome.rule = facts.rule or 0
    outcome.wrong = [*differences(rng, unit, facts, outcome)]
    return outcome


def outcome_of(program: str, seed: int) -> Outcome:
    """Compares the facts of the program of a seed."""
    rng = random.Random(seed)
    lines, records = refused(program, rng)
    outcome = compared(rng, lines, records)
    if outcome.wrong:
        outcome.wrong += records
    return outcome


def main(program: str, seed: int, count: int) -> int:
    """Compares so many programs."""
    seeds = range(seed, seed + count)
    rules: Counter[int] = Counter()
    runs = reached = held = wrong = reach = 0
    with ProcessPoolExecutor(len(os.sched_getaffinity(0))) as pool:
        for number, outcome in zip(seeds, pool.map(partial(outcome_of, program), seeds, chunksize=8)):
            rules[outcome.rule] += 1
            runs, held = runs + outcome.runs, held + outcome.held
            reached, reach = reached + outcome.reached, reach + bool(outcome.reached)
            if outcome.wrong:
                wrong += 1
                print("\n".join([f"seed {number}", *outcome.lines, *outcome.wrong]), file=sys.stderr)
    by_rule = ", ".join(f"V{rule} {times}" for rule, times in sorted(rules.items()))
    print(f"{count} refused programs, of {reach} a run came to the fault: {by_rule}")
    print(f"{runs} runs, {reached} to the fault, {held} claims held; {wrong} programs wrong")
    return 1 if wrong else 0


if __name__ == "__main__":
    sys.exit(main(sys.argv[1], *(int(word) for word in [*sys.argv[2:], "0", "1000"][:2])))
