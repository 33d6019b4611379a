"""The two steps: before the optimizer, and behind it."""

from __future__ import annotations

from functools import partial

from . import frames, functions
from .atomics import rewrite_atomic
from .copies import Copies
from .numbers import DECLARED, rewrite_number
from .text import Body, Instruction, rewritten


def before_optimizer(text: str) -> str:
    """What the front end wrote, where all functions that stay can be called."""
    return _joined([*functions.put_in(text.splitlines())])


def behind_optimizer(text: str, largest: int = frames.LARGEST) -> str:
    """What the optimizer wrote, with operations that the back end has, and frames of so many bytes."""
    copies = Copies()

    def rule(instruction: Instruction, body: Body) -> bool:
        return any(rewrite(instruction, body) for rewrite in (rewrite_number, copies.rewrite, rewrite_atomic))

    lines = [*rewritten([*frames.moved(text.splitlines(), largest)], rule)]
    if not any(line.startswith("declare") and "@llvm.ctpop.i64(" in line for line in lines):
        lines.append(DECLARED)
    return _joined(lines)


def _joined(lines: list[str]) -> str:
    return "".join(f"{line}\n" for line in lines)


# With small frames no variable that has an address is in one.
STEPS = {
    "functions": before_optimizer,
    "operations": behind_optimizer,
    "small-frames": partial(behind_optimizer, largest=0),
}
