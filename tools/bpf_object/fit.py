"""Finds how many rounds of its loops a program has room for."""

from __future__ import annotations

from collections.abc import Callable, Iterable

from .bounds import Bounds
from .code import Alu, Block, Branch, Function, loop_of, order_of, successors, writes
from .counted import FALLING, RISING
from .emit import Emitted
from .inline import callbacks_in, inline_loop
from .memory import Memory
from .mend import Mender, Rewritten
from .outline import MOST_ROUNDS, outline, part
from .refusal import NoRoom, Refused
from .room import too_long, too_much
from .unit import SLOTS_LIMIT
from .unroll import Loop, TooMany

BUDGET = 8000  # instructions that are copied at most, before those that nothing reads are left out
FIRST_ROUNDS = 2
ENOUGH = 0.9  # of the slots, where no more rounds are tried
ENOUGH_ROUNDS = 64  # of a loop whose rounds aren't known: callbacks with fewer become loops of main
TRIES = 8

Try = Callable[[dict[Loop, int]], tuple[Rewritten, Emitted]]


def fit(memory: Memory, functions: dict[int, Function], choices: Iterable[set[int]]) -> Emitted:
    """The unit by the first of some choices of what is spread that has room for its loops, or for the most of them."""
    first: NoRoom | None = None
    best: tuple[int, Emitted] | None = None
    for sizes in choices:
        fitting = _Fit(memory, functions, sizes)
        try:
            done, emitted = fitting.run()
        except NoRoom as reason:
            first = first or reason
            if not fitting.mender.was_spread:
                break  # the next choice does the same
            continue
        if fitting.is_enough(done) or not fitting.mender.spread:
            return emitted
        rounds = min(done.copied[loop] for loop in done.cut)
        if best is None or rounds > best[0]:
            best = rounds, emitted
    if best is None:
        raise first or NoRoom("the code is too long")
    return best[1]


class _Fit:
    """Finds which loops are copied, and which are callbacks, by what there is room for."""

    def __init__(self, memory: Memory, functions: dict[int, Function], sizes: set[int]) -> None:
        self._memory = memory
        self._functions = functions
        self._limited: set[Loop] = set()  # the loops of which fewer rounds are copied
        self._rounds: dict[Loop, int] = {}  # of the loops that end by themselves
        self._given = functions  # before any loop of main is made a callback
        self._bounds = Bounds(functions[0])  # of the loops of main as it is given
        self._headers: list[int] = []  # of the loops that are made callbacks, of which none is in another
        self._parted: set[int] = set()  # the headers of loops in callbacks that were parted
        self.mender = Mender(memory, functions, sizes)

    def _attempt(self, rounds: dict[Loop, int]) -> tuple[Rewritten, Emitted]:
        done = self.mender.run(BUDGET, rounds)
        return done, Emitted(self._memory, done)

    def run(self) -> tuple[Rewritten, Emitted]:
        """The unit with all rounds of all loops, or else with as many as there is room for of those that go on."""
        done, emitted = self._fitting()
        best = _most_rounds(self._attempt, self._limited, done, emitted) if done.cut else (done, emitted)
        if self.is_enough(best[0]):
            return best
        try:
            return self._with_loops_of_main(best[0].cut)
        except Refused:
            if best[0].endless is not None:
                raise NoRoom(best[0].endless) from None
            return best

    def _fitting(self) -> tuple[Rewritten, Emitted]:
        """The unit with few rounds of the loops that there is no room for."""
        while True:
            try:
                done, emitted = self._attempt(dict.fromkeys(self._limited, FIRST_ROUNDS))
            except TooMany as reason:
                alike = self._alike(reason.loop)
                if not alike:
                    raise NoRoom(too_much(reason.functions)) from None
                self._limit(alike)
                continue
            if emitted.slots <= SLOTS_LIMIT:
                return done, emitted
            self._rounds.update((loop, rounds) for loop, rounds in done.copied.items() if loop not in self._limited)
            longest = self._longest(done, emitted)
            if not longest:
                raise NoRoom(too_long(emitted.slots_of_lines(), done.functions.values()))
            self._limit(longest)

    def _alike(self, loop: Loop | None) -> list[Loop]:
        """A loop of main that takes too many rounds, and the copies of it behind: they likely do so too."""
        if loop is None or loop[0]:
            return [loop] if loop else []
        main = self._functions[0]
        place = {label: at for at, label in enumerate(order_of(main))}
        line = main.blocks[loop[1]].line
        inside = loop_of(main, loop[1])
        headers = {
            to
            for label in place
            for to in successors(main.blocks[label].end)
            if place[loop[1]] < place[to] <= place[label]
        }
        others = [header for header in headers if header not in inside and line and main.blocks[header].line == line]
        loops = {header: loop_of(main, header) for header in others}
        apart = {header for header, labels in loops.items() if not labels & inside}
        outermost = (one for one in sorted(apart) if not any(one in loops[other] for other in apart - {one}))
        return [loop, *((0, header) for header in outermost)]

    def _longest(self, done: Rewritten, emitted: Emitted) -> list[Loop]:
        """The loops with the most rounds, main's before all others, as many as have to be shorter."""
        counts = [(n, loop) for loop, n in done.copied.items() if loop not in self._limited and n >= FIRST_ROUNDS]
        of_main = [one for one in counts if not one[1][0]]
        if len(of_main) not in (0, len(counts)) and not emitted.callbacks_within(ENOUGH * SLOTS_LIMIT):
            of_main = []
        if not of_main:
            return [max(counts)[1]] if counts else []
        insns = sum(function.size for function in done.functions.values())
        left: float = emitted.slots
        chosen: list[Loop] = []
        inside: set[int] = set()
        for rounds, loop in sorted(of_main, reverse=True):
            labels = loop_of(self._functions[0], loop[1])
            if labels & inside:
                continue
            chosen.append(loop)
            inside |= labels
            left -= emitted.slots / insns * done.spent.get(loop, 0) * (1 - 1 / rounds)
            if left <= ENOUGH * SLOTS_LIMIT:
                break
        return chosen

    def is_enough(self, done: Rewritten) -> bool:
        """Whether each loop that is cut likely ends by itself before."""
        most = {loop: self._rounds.get(loop, self._enough(loop)) for loop in done.cut}
        is_long = all(done.copied[loop] >= rounds for loop, rounds in most.items())
        return done.endless is None and not done.counted and is_long

    def _enough(self, loop: Loop) -> int:
        """The rounds that are likely enough of a loop: those of one that counts to a number may be all of its."""
        number, header = loop
        return MOST_ROUNDS if number and _counts(self._functions[number], header) else ENOUGH_ROUNDS

    def _with_loops_of_main(self, cut: set[Loop]) -> tuple[Rewritten, Emitted]:
        """The unit in which the callbacks of some loops, or in them, are loops of main: these can be parted."""
        changed = self._given
        headers = sorted(header for number, header in cut if not number)
        if any(header not in changed[0].blocks for header in headers):
            raise NoRoom("a loop is too long")
        callbacks = {number for number, _ in cut if number}
        for header in headers:
            callbacks.update(callbacks_in(changed[0], loop_of(changed[0], header)))
        for number in sorted(callbacks & changed.keys()):
            found = inline_loop(changed, number)
            if found is None:
                raise NoRoom("a loop is too long")
            changed = found[0]
            headers += found[1]
        self._given, self._bounds, self._headers = changed, Bounds(changed[0]), []
        for header in headers:
            if not any(header in loop_of(changed[0], outer) for outer in self._headers):
                outlined = self._outlined([header])
                if outlined is None:
                    raise NoRoom("a loop is too long")
                self._begin_with(outlined)
        return self.run()

    def _outlined(self, more: list[int]) -> dict[int, Function] | None:
        """The functions with more loops of main as callbacks, instead of those in them."""
        headers = self._headers
        if any(header not in self._given[0].blocks for header in more):
            raise NoRoom("a loop around another one that begins where it does is too long")
        for header in more:
            inside = loop_of(self._given[0], header)
            headers = [*(other for other in headers if other not in inside), header]
        functions: dict[int, Function] | None = self._given
        for one in headers:
            functions = outline(functions, one, self._bounds.visits(one)) if functions else None
        if functions is not None:
            self._headers = headers
        return functions

    def _limit(self, loops: list[Loop]) -> None:
        """Loops are made callbacks, where they are main's, or parted; or else fewer rounds of one are copied."""
        number, header = loop = loops[0]
        changed = None
        if number == 0:
            changed = (len(loops) > 1 and self._outlined([other for _, other in loops])) or self._outlined([header])
        elif self._functions[number].kept is not None:
            changed = part(self._functions, number, header)
            self._parted.add(header)
        if changed is None:
            self._limited.add(loop)
        else:
            self._begin_with(changed if number else self._with_parts(changed))

    def _with_parts(self, functions: dict[int, Function]) -> dict[int, Function]:
        """The functions, where the loops of callbacks are parted that were so before."""
        for header in sorted(self._parted):
            for number, function in functions.items():
                if number and function.kept is not None and _is_loop(function, header):
                    functions = part(functions, number, header)
                    break
        return functions

    def _begin_with(self, functions: dict[int, Function]) -> None:
        self._functions = functions
        self.mender.begin_with(functions)
        self._rounds.clear()
        self._limited.clear()


def _counts(function: Function, header: int) -> bool:
    """Whether a loop goes on while what changes in it is below or above a register that doesn't."""
    blocks = [function.blocks[label] for label in loop_of(function, header)]
    changed = {register for block in blocks for insn in block.insns for register in writes(insn)}
    for block in blocks:
        test = block.end
        if isinstance(test, Branch) and test.src is not None and test.op in RISING + FALLING:
            if (_origin(block, test.dst) in changed) != (_origin(block, test.src) in changed):
                return True
    return False


def _origin(block: Block, register: int) -> int:
    """The register that what one holds at the end of a block was copied from."""
    for insn in reversed(block.insns):
        if register in writes(insn):
            if not isinstance(insn, Alu) or insn.op != "mov" or insn.src is None:
                break
            register = insn.src
    return register


def _is_loop(function: Function, header: int) -> bool:
    return header in function.blocks and any(
        header in successors(function.blocks[label].end) for label in loop_of(function, header)
    )


def _most_rounds(attempt: Try, limited: set[Loop], done: Rewritten, emitted: Emitted) -> tuple[Rewritten, Emitted]:
    """The unit with the most rounds that are found to fit, by secants between one that fits and one that doesn't."""
    known: list[tuple[int, int]] = [(FIRST_ROUNDS, emitted.slots)]
    over: int | None = None
    best = done, emitted
    for _ in range(TRIES):
        rounds = _guess(known, over)
        if rounds <= known[-1][0]:
            break
        try:
            done, found = attempt(dict.fromkeys(limited, rounds))
        except TooMany:
            over = rounds
            continue
        if found.slots > SLOTS_LIMIT:
            over = rounds
            continue
        known.append((rounds, found.slots))
        best = done, found
        if not done.cut or found.slots > ENOUGH * SLOTS_LIMIT:
            break
    return best


def _guess(known: list[tuple[int, int]], over: int | None) -> int:
    """The next number of rounds to try."""
    rounds, slots = known[-1]
    if len(known) == 1:
        guess = rounds * 2
    else:
        before, fewer = known[-2]
        each = max(1.0, (slots - fewer) / (rounds - before))
        guess = rounds + max(1, int((0.97 * SLOTS_LIMIT - slots) / each))
    return min(guess, (rounds + over) // 2) if over is not None else guess
