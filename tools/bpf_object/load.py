"""Loads an object of clang: as it is where the verifier takes it so, and else rewritten until it does."""

from __future__ import annotations

import gc
import struct
from collections.abc import Callable, Iterator
from contextlib import contextmanager
from functools import partial

from .code import Function, line_text
from .elf import Object
from .fit import fit
from .inline import inline
from .loaded import Loaded
from .memory import Memory
from .plain import plain
from .program import Verify
from .program import verify as ask
from .read import Reader
from .refusal import Refused
from .unit import load_as_is, main_functions, types_of

# What no object should lead to, since all is tested before it is used; still no object gets a trace.
UNFORESEEN = (struct.error, ArithmeticError, LookupError, MemoryError, RecursionError)
UNFORESEEN += (TypeError, ValueError, AttributeError)
SPREAD_SIZES = ({1, 2, 4}, set())  # of values that have an element each: that takes more slots


def load(data: bytes, main: str | None = None, as_is: bool = False, verify: Verify | None = None) -> Loaded:
    """The unit of an object, by the main function of a name where there are several."""
    judge = verify or ask
    try:
        with _without_collector():
            obj = Object(data)
            programs = main_functions(obj)
            if as_is:
                return load_as_is(obj, programs)
            name = _chosen(programs, main)
            return _accepted(partial(load_as_is, obj, programs), judge) or _rewritten(obj, name, programs, judge)
    except UNFORESEEN as reason:
        raise Refused(f"no object of clang: {type(reason).__name__}: {reason}") from None


@contextmanager
def _without_collector() -> Iterator[None]:
    """Leaves out the search for cycles, of which a loader makes few: it takes a seventh of the time."""
    is_on = gc.isenabled()
    gc.disable()
    try:
        yield
    finally:
        if is_on:
            gc.enable()


def _chosen(programs: list[str], main: str | None) -> str:
    if not programs:
        raise Refused('no section of a main function: write SEC("xdp") in front of it')
    if main is not None and main not in programs:
        raise Refused(f"no main function {main}; there are {', '.join(programs)}")
    if main is None and len(programs) > 1:
        raise Refused(f"several main functions: name one of {', '.join(programs)} by --main")
    return main or programs[0]


def _accepted(make: Callable[[], Loaded], judge: Verify) -> Loaded | None:
    """What is made of an object, where something is and the verifier accepts it."""
    try:
        loaded = make()
    except Refused:
        return None
    return loaded if judge(loaded.unit) is None else None


def _rewritten(obj: Object, main: str, programs: list[str], judge: Verify) -> Loaded:
    """The unit of a program in another order, or else one whose accesses are planned anew."""
    memory = Memory(obj, types_of(obj))
    functions = inline(Reader(obj, memory, main).functions)
    in_order = _accepted(partial(plain, obj, memory, functions, programs), judge)
    return in_order or _planned(memory, functions, programs, judge)


def _planned(memory: Memory, functions: dict[int, Function], programs: list[str], judge: Verify) -> Loaded:
    loaded = fit(memory, functions, SPREAD_SIZES).loaded(programs)
    fault = judge(loaded.unit)
    if fault is not None:
        line = next((loaded.lines[slot] for slot in range(fault.slot, -1, -1) if slot in loaded.lines), None)
        raise Refused(f"{line_text(line)}refused {fault.rule} at slot {fault.slot} of the rewritten program")
    return loaded
