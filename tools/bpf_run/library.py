"""The library for C in place of the program: it verifies units, and runs those without a loop call, in this process.

It runs in order, and tells of no loop whether it conflicts: the program runs the others.
"""

from __future__ import annotations

import importlib.util
import os
from collections.abc import Sequence
from pathlib import Path
from types import ModuleType

from bpf_object.refusal import Refused

from .programs import TOOLS
from .reports import Function, Refusal, Run

FOLDER = "BPFSPEC_LIBRARY"  # the variable of the environment that names the library's folder
MODULE = "bpfspec.py"
CALLBACK = "ldcode "
ARGUMENT_END = 1 << 64


class Machine:
    """A unit that was loaded; each run goes on from the words that the one before left."""

    def __init__(self, module: ModuleType, unit: str, maps: Sequence[Sequence[int]]) -> None:
        self._machine = module.Machine(unit)
        self._maps = range(len(maps))
        for number, words in enumerate(maps):
            self._machine.set_words(number, words)

    def run(self, argument: int) -> Run:
        """A run with an argument."""
        value = self._machine.run(argument % ARGUMENT_END)
        return Run(value, [], [word for number in self._maps for word in self._machine.words(number)])


class Library:
    """The library, by its module for Python."""

    def __init__(self, module: ModuleType) -> None:
        self._module = module

    def verdict(self, unit: str) -> list[Function] | Refusal | None:
        """What `bpfspec verify` says of a unit; None where it says more than the library does."""
        try:
            with self._module.Machine(unit) as machine:
                return None if CALLBACK in unit else [Function(0, machine.count(0))]
        except self._module.Refused as reason:
            return Refusal(f"V{reason.number}", reason.place, str(reason)) if reason.kind == "V" else None
        except MemoryError:
            return None

    def machine(self, unit: str, maps: Sequence[Sequence[int]]) -> Machine | None:
        """A machine of an accepted unit, with the words of its maps; None where there is no memory for it."""
        try:
            return Machine(self._module, unit, maps)
        except MemoryError:
            return None


def find_library() -> Library | None:
    """That of $BPFSPEC_LIBRARY, else of this installation, unless $BPFSPEC names another program; None without one."""
    named = os.environ.get(FOLDER)
    if named:
        return _opened(Path(named))
    is_installed = (TOOLS.parent / "programs").is_dir()
    folder = TOOLS.parent / "library"
    if not is_installed or os.environ.get("BPFSPEC") or not (folder / MODULE).is_file():
        return None
    return _opened(folder)


def _opened(folder: Path) -> Library:
    spec = importlib.util.spec_from_file_location("bpfspec", folder / MODULE)
    try:
        module = importlib.util.module_from_spec(spec)
        spec.loader.exec_module(module)
    except (OSError, ImportError, AttributeError) as reason:
        raise Refused(f"{folder}: no library for C: {reason}") from None
    return Library(module)
