"""Rewrites a program until what is known of it, and how its things are laid out, agree."""

from __future__ import annotations

from copy import deepcopy
from dataclasses import dataclass

from .access import Planner, Traps
from .analysis import Analysis, Entry, Results
from .code import FRAME_BYTES, Function
from .facts import Facts
from .layout import Layout, spread_groups
from .memory import ARGUMENT, Kind, Memory, Thing
from .ranges import TOP, exact
from .refusal import Refused
from .unroll import Limits, Loop, TooMany, Unroller
from .values import State, Value

TRIES = 64  # more than facts ever take
TRIAL_BUDGET = 1 << 16  # instructions


@dataclass
class Rewritten:
    """A program whose instructions have plans, and what they were planned by."""

    functions: dict[int, Function]
    entries: dict[int, Entry]
    frames: dict[int, Thing]
    contexts: dict[int, Thing]
    layout: Layout
    facts: Facts
    traps: Traps
    cut: set[Loop]
    counted: set[Loop]
    copied: dict[Loop, int]
    spent: dict[Loop, int]
    sources: dict[int, Function]
    endless: str | None = None


class Mender:
    """Plans a program again and again, with all that was met before."""

    def __init__(self, memory: Memory, functions: dict[int, Function], sizes: set[int]) -> None:
        self._memory = memory
        self._sizes = sizes  # of values that may have an element each
        self._functions = functions
        self._known: dict[tuple[int, str], tuple[Thing, Thing]] = {}  # of functions, the frames and words of ctx
        self._frames, self._contexts = self._things(functions)
        self.facts = Facts()
        for thing in memory.things:
            for target, _ in thing.pointers.values():
                self.facts.use((target,))
                self.facts.escape(frozenset((target,)))
        self.spread: set[int] = set()  # the groups of things whose values have an element each
        self.was_spread = False  # whether any value had an element of its own in any round
        self._is_tried = False
        self._layout: Layout | None = None  # of the round before
        self._results: dict[int, Results] = {}  # of the functions, by that layout

    def begin_with(self, functions: dict[int, Function]) -> None:
        """Goes on with other functions, and with what was met of all things that are left."""
        changed = {number for number, function in self._functions.items() if functions.get(number) is not function}
        gone = {self._frames[number].number for number in self._functions.keys() - functions.keys()}
        self.facts.forget(changed, gone | {self._contexts[number].number for number in changed})
        self._functions = functions
        self._frames, self._contexts = self._things(functions)
        self._is_tried = False
        self._layout = None

    def _things(self, functions: dict[int, Function]) -> tuple[dict[int, Thing], dict[int, Thing]]:
        """The frames of functions, and the words in which their ctx is handed on."""
        for number, function in functions.items():
            key = (number, function.name)
            if key not in self._known:
                frame = self._memory.add(Kind.FRAME, function.name, FRAME_BYTES, function=number, line=function.line)
                context = self._memory.add(Kind.HIDDEN, f"ctx of {function.name}", 8, function=number)
                self._known[key] = frame, context
        found = {number: self._known[number, function.name] for number, function in functions.items()}
        return {number: one[0] for number, one in found.items()}, {number: one[1] for number, one in found.items()}

    def run(self, budget: int, rounds: dict[Loop, int]) -> Rewritten:
        """The program with plans that agree with its layout, the first time by few rounds of its loops before."""
        if not self._is_tried:
            self._settle(TRIAL_BUDGET, {}, True)
            self._is_tried = True
        return self._settle(budget, rounds, False)

    def _settle(self, budget: int, rounds: dict[Loop, int], is_trial: bool) -> Rewritten:
        for _ in range(TRIES):
            followed = self.facts.followed()
            layout = Layout(self._memory, self.facts, self.spread)
            done = self._round(layout, Limits(budget, rounds, is_trial))
            is_followed = self.facts.followed() == followed  # a round with all that is known by now would be the same
            if is_followed and Layout(self._memory, self.facts, self.spread).is_as(layout):
                spread = spread_groups(self._memory, self.facts, self._sizes)
                if spread == self.spread:
                    done.facts = deepcopy(self.facts)  # as they are now
                    return done
                self.spread = spread
                self.was_spread |= bool(spread)
        raise Refused("the program's variables have no layout that all its accesses agree with")

    def _round(self, layout: Layout, limits: Limits) -> Rewritten:
        if self._layout is None or not layout.is_as(self._layout):
            self._layout, self._results = layout, {number: Results() for number in self._functions}
        traps = Traps()
        planner = Planner(self._memory, layout, self.facts, traps)
        known = (self._frames, self._contexts, layout, self.facts, traps)
        done = Rewritten({}, {}, *known, set(), set(), {}, {}, self._functions)
        waiting: list[int] = [0]
        while waiting:
            number = waiting.pop(0)
            function = self._functions[number]
            analysis = Analysis(planner, number, function, self._frames[number], self._results[number])
            unroller = Unroller(analysis, planner, function, limits)
            try:
                done.functions[number] = unroller.run(self._entry(number, layout, done.entries))
            except TooMany as reason:
                loop = reason.loop or limits.longest({**done.copied, **unroller.copied})
                raise TooMany(loop, [*done.functions.values(), unroller.result]) from None
            done.cut |= unroller.cut
            done.counted |= unroller.counted
            done.copied.update(unroller.copied)
            done.spent.update(unroller.spent)
            done.endless = done.endless or unroller.endless
            for callback, entry in analysis.entries.items():
                done.entries[callback] = entry
                waiting.append(callback)
        return done

    def _entry(self, number: int, layout: Layout, entries: dict[int, Entry]) -> State:
        frame_of = self._functions[number].frame_of
        frame = self._frames[number if frame_of is None else frame_of]
        top_of_frame = Value(exact(layout.spots[frame.number].address + FRAME_BYTES), frozenset((frame.number,)))
        argument, context = Value(TOP, frozenset((ARGUMENT,))), None
        if number:
            entry = entries[number]
            argument, context = Value(entry.count), entry.context
            if not context.is_exact:
                self.facts.hide(number)
                self.facts.use((self._contexts[number].number,))
                context = Value(TOP, context.things)
        state = State([None, argument, context, *[None] * 7, top_of_frame], {}, 0)
        for function, register in self.facts.undefined:
            if function == number:
                state.regs[register] = Value(exact(0))
        for function, byte in self.facts.unwritten:
            if function == number:
                state.store(byte, 8, Value(exact(0)))
        return state
