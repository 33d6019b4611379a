#!/usr/bin/env python3
"""Compares the facts of random loops with a plain reading of the definitions.

    tools/tests/random_causes.py PROGRAM [SEED [COUNT]]

PROGRAM is the program bpfspec, whose `facts --all` are read. A loop accesses a few elements by loads, stores, halves of
both, atomic operations with and without a fetch, and exchanges, each in some of its iterations; it may break. The records
`loop` and `pair` that it has to have are made from the list of what each iteration does: which way the loop goes, which
elements conflict, by which least pair of iterations, and which access is the first that isn't a reduce by the operator of
the first one.

Each difference is on standard error. One line on standard output has the counts. The status is 0 where there was none.
"""

from __future__ import annotations

import json
import random
import subprocess
import sys
from collections.abc import Callable
from dataclasses import dataclass

Record = dict[str, object]
MOST_PAIRS = 64
LIMIT = 60  # seconds of a command
OPERATORS = "add", "or", "and", "xor"


@dataclass(frozen=True)
class Kind:
    """What an instruction does at an element, or at a half of it."""

    word: str  # load, store, reduce, fetch, xchg or cmpxchg
    is_half: bool
    operator: str = ""

    @property
    def reads(self) -> bool:
        """It isn't a plain write: a store of a half reads the other one."""
        return self.word != "store" or self.is_half

    @property
    def writes(self) -> bool:
        """It leaves a word."""
        return self.word != "load"

    @property
    def reduces_by(self) -> str:
        """The operator of a reduce: halves are added by one of their own."""
        if self.word != "reduce":
            return ""
        return "addh" if self.is_half and self.operator == "add" else self.operator

    def instruction(self, address: str) -> str:
        """The instruction at an address."""
        width = 32 if self.is_half else 64
        if self.word == "load":
            return f"ldx{width} r4, {address}"
        if self.word == "store":
            return f"stx{width} {address}, r5"
        name = {"reduce": self.operator, "fetch": f"{self.operator}_fetch"}.get(self.word, self.word)
        return f"atomic{width} {name} {address}, r5"


@dataclass(frozen=True)
class Step:
    """An access of a callback, in the iterations that it is made in."""

    element: int
    high: bool
    kind: Kind
    when: str  # the lines of the text that lead past it
    is_made: Callable[[int], bool]


@dataclass(frozen=True)
class Place:
    """An access as it was made: by which iteration, at which slot, and what it does."""

    iteration: int
    slot: int
    kind: Kind


@dataclass
class Unit:
    """A random unit: its text, the kinds of its instructions that access an element, what its counted iterations do at each
    element, in order, how many iterations it asks for, and the slot of its exit if one breaks."""

    text: list[str]
    kinds: list[Kind]
    iterations: list[dict[int, list[Place]]]
    asked: int
    broke: int | None


def random_kind(rng: random.Random) -> Kind:
    """A kind, by weights that let some elements be reduced alone."""
    words = ["load", "store", "reduce", "fetch", "xchg", "cmpxchg"]
    word = rng.choices(words, [3, 3, 9, 2, 1, 1])[0]
    operator = rng.choice(OPERATORS) if rng.random() < 0.3 else "add"
    return Kind(word, rng.random() < 0.3, operator if word in ("reduce", "fetch") else "")


def random_step(rng: random.Random, elements: int, usual: list[Kind], n: int) -> Step:
    """An access in all iterations, in one, or in some."""
    element = rng.randrange(elements)
    kind = usual[element] if rng.random() < 0.6 else random_kind(rng)
    high = kind.is_half and rng.random() < 0.5
    how = rng.randrange(3)
    if how == 0:
        return Step(element, high, kind, "", lambda index: True)
    if how == 1:
        one = rng.randrange(n)
        return Step(element, high, kind, f"jne64 r6, {one}, past", lambda index: index == one)
    mask = rng.choice((1, 3, 7))
    some = rng.randrange(min(mask + 1, n))  # in one iteration at least: the verifier skips what is never reached
    lines = f"mov64 r7, r6 | and64 r7, {mask} | jne64 r7, {some}, past"
    return Step(element, high, kind, lines, lambda index: index & mask == some)


def random_unit(rng: random.Random) -> Unit:
    """A random unit."""
    elements, n = rng.randint(1, 4), rng.choice((1, 2, 3, 9, 60))
    usual = [random_kind(rng) for _ in range(elements)]
    steps = [random_step(rng, elements, usual, n) for _ in range(rng.randint(1, 6))]
    text = [f"maps {elements}", f"mov64 r1, {n}", "ldcode r2, callback", "mov64 r3, 0", "mov64 r4, 0", "call 181"]
    text += ["exit", "callback:", "mov64 r6, r1", "ldmapval r9, 0, 0", "mov64 r0, 0"]
    slots = []
    for number, step in enumerate(steps):
        text += [line.replace("past", f"past_{number}") for line in step.when.split(" | ") if line]
        text += ["mov64 r5, 5"]
        slots.append(slots_of(text))
        text += [step.kind.instruction(f"[r9+{8 * step.element + 4 * step.high}]"), f"past_{number}:"]
    text += ["mov64 r0, 0"]
    breaks = rng.randrange(n) if rng.random() < 0.2 else n
    if breaks < n:
        text += [f"jne64 r6, {breaks}, done", "mov64 r0, 1", "done:"]
    broke = slots_of(text) if breaks < n else None
    iterations: list[dict[int, list[Place]]] = []
    for index in range(min(n, breaks + 1)):
        done: dict[int, list[Place]] = {}
        for step, slot in zip(steps, slots):
            if step.is_made(index):
                done.setdefault(step.element, []).append(Place(index, slot, step.kind))
        iterations.append(done)
    return Unit([*text, "exit"], [step.kind for step in steps], iterations, n, broke)


def slots_of(text: list[str]) -> int:
    """How many slots the instructions of a text take."""
    insns = [line for line in text[1:] if not line.endswith(":")]
    return len(insns) + sum(line.startswith(("ldcode", "ldmapval")) for line in insns)


def least_pair(unit: Unit, element: int, test: str) -> tuple[Place, Place] | None:
    """The writer and the reader of the least pair that fails a test."""
    writers, readers = [], []
    for done in unit.iterations:
        accesses = done.get(element, [])
        writers += [access for access in accesses if access.kind.writes][:1]
        readers += [access for access in accesses[:1] if access.kind.reads]
    pairs = [(r.iteration, w.iteration, w, r) for w in writers for r in readers if fails(test, w, r)]
    return min(pairs, key=lambda pair: pair[:2])[2:] if pairs else None


def fails(test: str, writer: Place, reader: Place) -> bool:
    """Whether a writer and a reader fail a test."""
    if test == "flow":
        return writer.iteration < reader.iteration
    return writer.iteration != reader.iteration


def first_other(unit: Unit, element: int) -> Place | None:
    """The first access that isn't a reduce by the operator of the first one."""
    accesses = [access for done in unit.iterations for access in done.get(element, [])]
    for access in accesses:
        by = access.kind.reduces_by
        if not by or by != accesses[0].kind.reduces_by:
            return access
    return None


def pair_of(unit: Unit, element: int, test: str) -> Record | None:
    """The record of an element that conflicts."""
    end, pair = first_other(unit, element), least_pair(unit, element, test)
    if end is None or pair is None:
        return None
    writer, reader = pair
    return {
        **{"record": "pair", "loop": 0, "map": 0, "element": element},
        **{"writer": writer.iteration, "writer_slot": writer.slot},
        **{"reader": reader.iteration, "reader_slot": reader.slot},
        **{"end": end.iteration, "end_slot": end.slot},
    }


def reads_written(unit: Unit) -> bool:
    """Whether an iteration reads, changes or reduces an element that was written before, by an earlier one or by it."""
    written: set[int] = set()
    for done in unit.iterations:
        for element, accesses in done.items():
            for access in accesses:
                if access.kind.reads and element in written:
                    return True
                if access.kind.writes:
                    written.add(element)
    return False


def way(unit: Unit, test: str) -> Record:
    """Which way such a loop of few iterations goes, and why."""
    adds_up = all(kind.word == "reduce" and not kind.is_half for kind in unit.kinds)
    if adds_up and len({kind.operator for kind in unit.kinds}) == 1:
        return {"way": "sums", "blocks": None, "workers": 1, "reason": "only_reduces"}
    if test == "lrpd":
        return {"way": "blocks", "blocks": 1, "workers": 1, "reason": "lrpd"}
    if reads_written(unit):
        return {"way": "blocks", "blocks": 1, "workers": 1, "reason": "reads_written"}
    return {"way": "watched", "blocks": None, "workers": 1, "reason": "reads_nothing_written"}


def expected(unit: Unit, test: str) -> list[Record]:
    """The records of the loop."""
    pairs = [pair for element in range(4) if (pair := pair_of(unit, element, test))]
    count = len(unit.iterations)
    loop = {
        **{"record": "loop", "loop": 0, "slot": 5, "iterations": unit.asked, "flags": "0", "answer": count},
        **{"verdict": "conflict" if pairs else "parallel", "conflicts": len(pairs), **way(unit, test)},
        **{"break_iteration": count - 1 if unit.broke else None, "break_slot": unit.broke},
    }
    return [loop, *pairs[:MOST_PAIRS]]


def facts(program: str, unit: Unit, test: str) -> list[Record]:
    """Those that the program prints."""
    words = [program, "facts", "--all", "--test", test]
    text = "".join(f"{line}\n" for line in unit.text)
    done = subprocess.run(words, input=text, capture_output=True, text=True, timeout=LIMIT, check=False)
    records = map(json.loads, done.stdout.splitlines())
    return [record for record in records if record["record"] in ("loop", "pair")]


def main(program: str, seed: int, count: int) -> int:
    """Compares so many loops."""
    wrong = conflicts = 0
    for number in range(seed, seed + count):
        rng = random.Random(number)
        unit, test = random_unit(rng), rng.choice(("flow", "lrpd"))
        wanted, found = expected(unit, test), facts(program, unit, test)
        conflicts += len(wanted) > 1
        if wanted != found:
            wrong += 1
            shown = ["wanted:", *map(json.dumps, wanted), "found:", *map(json.dumps, found)]
            print("\n".join([f"seed {number}, --test {test}", *unit.text, *shown]), file=sys.stderr)
    print(f"{count} loops, {conflicts} with conflicts; {wrong} differ")
    return 1 if wrong else 0


if __name__ == "__main__":
    sys.exit(main(sys.argv[1], *(int(word) for word in [*sys.argv[2:], "0", "1000"][:2])))
