"""The programs in which calls fail: each as an input of `bpfspec`, with what `run` prints of it."""

from __future__ import annotations

from collections.abc import Iterable, Iterator
from dataclasses import dataclass

WORKERS = 1, 2, 4, 16
BLOCKS = 1, 4, 64
BY_BLOCKS = (1, 1), (2, 4), (16, 64)  # workers and blocks of a plan that asks for blocks

CALL_LOOP = "ldcode r2, callback", "mov64 r3, 0", "mov64 r4, 0", "call 181"
ELEMENT = "mov64 r2, r1", "lsh64 r2, 3", "ldmapval r3, 0, 0", "add64 r3, r2"  # r3 becomes the address of element r1
GO_ON, BREAK, EXIT = "mov64 r0, 0", "mov64 r0, 1", "exit"

LONG = 20_000  # iterations
WORK = ("mov64 r5, 0",) * 400  # instructions of an iteration, so that a long loop is worth threads
LATE = 15_000  # the iteration that breaks in a long loop
MANY = 65_536  # elements, the most that maps have
FEW = 128  # elements, so few that a long loop over them is worth threads
DIAMONDS = 2_042  # that fill a unit up to its 4,096 slots

# The command lines that each row is an input of where not each row is swept by each line. Every line is here, and
# together they grow memory at nearly all places of the program at which any row does by any line.
FEW_LINES = {
    "many elements": ("run --way blocks --workers 2 --blocks 4", "run --test lrpd", "run --stats"),
    "many slots": ("verify", "asm", "disasm", "run --way blocks --workers 16 --blocks 64"),
    "long conflict": (
        *("run --workers 1 --blocks 64", "run --workers 2 --blocks 4", "run --workers 4 --blocks 64"),
        "run --test lrpd",
    ),
    "long break": (
        *("run --workers 2 --blocks 64", "run --workers 4 --blocks 4", "run --workers 16 --blocks 4"),
        *("run --workers 16 --blocks 64", "verify"),
    ),
    "one break": ("run --way blocks --workers 1 --blocks 1", "run --stats", "replay", "disasm", "facts --states"),
    "two breaks": (
        *("run --workers 4 --blocks 1", "run --way blocks --workers 16 --blocks 64"),
        *("run --test lrpd --way blocks", "replay"),
    ),
    "two loops from zeros": ("run --workers 2 --blocks 1", "run --way blocks --workers 2 --blocks 4", "order", "disasm"),
    "two loops from fives": ("run --workers 1 --blocks 1", "run --test lrpd --way blocks", "run --stats", "facts --test lrpd"),
    "copy forward": (
        *("run --workers 1 --blocks 4", "run --way blocks --workers 2 --blocks 4", "run --stats"),
        *("replay --test lrpd", "facts --all --grid"),
    ),
    "halves": ("run --workers 16 --blocks 1", "run --way blocks --workers 1 --blocks 1", "order", "asm"),
}


@dataclass(frozen=True)
class Row:
    """A program, its values and events of its first loop, and what `run` prints of it."""

    name: str
    unit: str
    values: str
    events: str
    prints: str

    def text(self) -> str:
        """The whole input."""
        return f"{self.unit}%%\n{self.values}%%\n{self.events}"

    def in_order(self) -> str:
        """What `order` prints."""
        lines = self.prints.splitlines()
        return _text(f"{line.rpartition(', ')[0]}, in order" if line.startswith("loop") else line for line in lines)


def commands() -> Iterator[tuple[str, ...]]:
    """The command lines that every row is an input of. `disasm` takes what `asm` prints of it."""
    for workers in WORKERS:
        yield from (("run", "--workers", str(workers), "--blocks", str(blocks)) for blocks in BLOCKS)
    for workers, blocks in BY_BLOCKS:
        yield ("run", "--way", "blocks", "--workers", str(workers), "--blocks", str(blocks))
    yield from (("run", "--test", "lrpd"), ("run", "--test", "lrpd", "--way", "blocks"), ("run", "--stats"))
    yield from (("replay",), ("replay", "--test", "lrpd"))
    yield from (("verify",), ("order",), ("asm",), ("disasm",))
    yield from (("facts", "--all", "--grid"), ("facts", "--states"), ("facts", "--test", "lrpd"))


def few_commands(row: Row) -> list[tuple[str, ...]]:
    """Those of `commands` that the row is an input of where not each row is swept by each."""
    return [tuple(line.split()) for line in FEW_LINES[row.name]]


def rows() -> list[Row]:
    """All rows, those first whose sweeps take longest. Both tests judge each alike."""
    return [
        _many_elements(),
        _many_slots(),
        _long_conflict(),
        _long_break(),
        _one_break(),
        _two_breaks(),
        _two_loops("zeros", (0, 0)),
        _two_loops("fives", (5, 5)),
        _copy_forward(),
        _halves(),
    ]


def _one_break() -> Row:
    callback = *ELEMENT, "st64 [r3+0], 1", GO_ON, "jne64 r1, 5, done", BREAK, "done:"
    prints = _report(6, "parallel", [1] * 6 + [0] * 10)
    return Row("one break", _unit(16, _loop(16), callback), "", _events(16, breaks_at=5), prints)


def _two_breaks() -> Row:
    """The later break is posted first, and the loop still ends at the earlier one."""
    callback = *ELEMENT, "st64 [r3+0], 1", GO_ON, "jeq64 r1, 3, hit", "jne64 r1, 12, done", "hit:", BREAK, "done:"
    events = """bounds 0 4 8 12 16
c0 c1 l1 t1 t1 t1 t1 c1 l1 t1 t1 t1 t1 c1 l1 t1 p1 c1 s1 l0 t0 t0 t0 t0 p0 c0 s0
"""
    prints = _report(4, "parallel", [1] * 4 + [0] * 12)
    return Row("two breaks", _unit(16, _loop(16), callback), "", events, prints)


def _two_loops(name: str, start: tuple[int, int]) -> Row:
    """Memory may run out in the second loop, after the first was committed."""
    calls = "mov64 r6, 3", "mov64 r1, r6", *CALL_LOOP, "mov64 r1, r6", *CALL_LOOP
    callback = "ldmapval r3, 0, 8", "atomic64 add [r3+0], r1", GO_ON
    prints = f"""return 3
loop 0 at 6: answer 3, parallel
loop 1 at 12: answer 3, parallel
{_values([start[0], start[1] + 6])}"""
    return Row(f"two loops from {name}", _unit(2, calls, callback), _values(start), _events(3), prints)


def _copy_forward() -> Row:
    """What the workers did is thrown away, and the loop runs in order."""
    callback = *ELEMENT, "ldx64 r4, [r3+0]", "stx64 [r3+8], r4", GO_ON
    prints = _report(4, "conflict 3 least 1", [9] * 5)
    return Row("copy forward", _unit(5, _loop(4), callback), _values([9, 0, 0, 0, 0]), _events(4), prints)


def _halves() -> Row:
    """Both halves of an element are added to apart: the low one wraps to 3, the high one comes to 6."""
    adds = "mov64 r4, 1", "atomic32 add [r3+0], r4", "atomic32 add [r3+4], r1"
    prints = _report(4, "parallel", [6 << 32 | 3])
    unit = _unit(1, _loop(4), ("ldmapval r3, 0, 0", *adds, GO_ON))
    return Row("halves", unit, _values([(1 << 32) - 1]), _events(4), prints)


def _long_break() -> Row:
    done = "stx64 [r3+0], r1", GO_ON, f"jne64 r1, {LATE}, done", BREAK, "done:"
    element = "mov64 r2, r1", f"and64 r2, {FEW - 1}", "lsh64 r2, 3", "ldmapval r3, 0, 0", "add64 r3, r2"
    left = [LATE - (LATE - e) % FEW for e in range(FEW)]
    prints = _report(LATE + 1, "parallel", left)
    return Row("long break", _unit(FEW, _loop(LONG), (*WORK, *element, *done)), "", _events(LONG, breaks_at=LATE), prints)


def _long_conflict() -> Row:
    sums = "ldmapval r3, 0, 0", "ldx64 r4, [r3+0]", "add64 r4, r1", "stx64 [r3+0], r4", GO_ON
    prints = _report(LONG, "conflict 1 least 0", [sum(range(LONG))])
    return Row("long conflict", _unit(1, _loop(LONG), (*WORK, *sums)), "", _events(LONG), prints)


def _many_elements() -> Row:
    unit = _unit(MANY, _loop(LONG), (*WORK, *ELEMENT, "stx64 [r3+0], r1", GO_ON))
    left = [*range(LONG), *[7] * (MANY - LONG)]
    return Row("many elements", unit, _values([7] * MANY), _events(LONG), _report(LONG, "parallel", left))


def _many_slots() -> Row:
    """A callback of jumps and labels, each over one instruction, adds its index to the element at its end."""
    diamonds = [line for k in range(DIAMONDS) for line in (f"jeq64 r1, {k}, at_{k}", GO_ON, f"at_{k}:")]
    callback = GO_ON, *diamonds, "ldmapval r3, 0, 0", "atomic64 add [r3+0], r1"
    return Row("many slots", _unit(1, _loop(4), callback), "", _events(4), _report(4, "parallel", [6]))


def _loop(iterations: int) -> tuple[str, ...]:
    return f"mov64 r1, {iterations}", *CALL_LOOP


def _unit(elements: int, calls: Iterable[str], callback: Iterable[str]) -> str:
    return _text([f"maps {elements}", *calls, EXIT, "callback:", *callback, EXIT])


def _values(values: Iterable[int]) -> str:
    return f"map 0: {' '.join(map(str, values))}\n"


def _report(answer: int, verdict: str, values: Iterable[int]) -> str:
    return f"return {answer}\nloop 0 at 5: answer {answer}, {verdict}\n{_values(values)}"


def _events(iterations: int, breaks_at: int | None = None) -> str:
    """Two workers do two blocks, the later one first. The iteration that breaks is in one of them, if there is one."""
    middle = iterations // 2
    words = ["c0", "c1", *_block(1, middle, iterations, breaks_at), *_block(0, 0, middle, breaks_at), "c0 s0 c1 s1"]
    return f"bounds 0 {middle} {iterations}\n{' '.join(words)}\n"


def _block(worker: int, start: int, end: int, breaks_at: int | None) -> list[str]:
    """A worker's look, and its turns up to the end or to the break, which it posts."""
    if breaks_at is None or not start <= breaks_at < end:
        return [f"l{worker}", *[f"t{worker}"] * (end - start)]
    return [f"l{worker}", *[f"t{worker}"] * (breaks_at + 1 - start), f"p{worker}"]


def _text(lines: Iterable[str]) -> str:
    return "".join(f"{line}\n" for line in lines)
