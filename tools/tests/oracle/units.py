"""Runs of units by the program `bpfspec`."""

from __future__ import annotations

import os
import re
import subprocess
from collections.abc import Iterable, Sequence
from dataclasses import dataclass

from .builds import REPOSITORY

RUN_SECONDS = 60
ORDER = ("order",)
RUN = ("run", "--workers", "4", "--blocks", "8", "--stats")
RETURN = re.compile(r"return (\d+)")
LOOP = re.compile(r"loop (\d+) at (\d+): answer -?\d+, (.*)")
STATS = re.compile(r"loop \d+ at (\d+): .*?(, list)?, \S+ ms: .*")
MAP = re.compile(r"map \d+: (.*)")
CONFLICT = "conflict"


class UnitRefused(Exception):
    """The program gives no result; the text is what it says."""


@dataclass(frozen=True)
class UnitResult:
    """What a run of a unit prints: the answer, a verdict for each loop call, and the elements over all maps; by `run`
    also whether the callback has a list of row operations, by the slot of each call."""

    answer: int
    verdicts: tuple[str, ...]
    words: tuple[int, ...]
    lists: dict[int, bool]


def program() -> str:
    """The program that is asked: $BPFSPEC, or the repository's own."""
    return os.environ.get("BPFSPEC") or str(REPOSITORY / "bpfspec")


def make_ready() -> None:
    """Lets the repository's own program be built, where it isn't yet: that takes longer than a run may."""
    subprocess.run([program(), "--version"], stdout=subprocess.DEVNULL, check=True)


def ask(words: Sequence[str], text: str) -> tuple[str, str]:
    """What the program prints of a text, on standard output and on standard error."""
    try:
        done = subprocess.run(
            [program(), *words], input=text, capture_output=True, text=True, timeout=RUN_SECONDS, errors="replace"
        )
    except subprocess.TimeoutExpired:
        raise UnitRefused(f"it takes more than {RUN_SECONDS} seconds by {words[0]}") from None
    if done.returncode:
        raise UnitRefused((done.stdout + done.stderr).strip() or f"{words[0]} ended with {done.returncode}")
    return done.stdout, done.stderr


def run_unit(text: str, words: Sequence[str], argument: int) -> UnitResult:
    """Runs a unit with its values, by `order` or `run`."""
    lines, stats = (told.splitlines() for told in ask([*words, "--arg", str(argument)], text))
    answer = RETURN.fullmatch(lines[0])
    if not answer:
        raise UnitRefused(lines[0])
    verdicts = [found.group(3) for found in map(LOOP.fullmatch, lines) if found]
    elements = [int(word) for found in map(MAP.fullmatch, lines) if found for word in found.group(1).split()]
    lists = {int(found[1]): bool(found[2]) for found in map(STATS.fullmatch, stats) if found}
    return UnitResult(int(answer.group(1)), tuple(verdicts), tuple(elements), lists)


def text_of(unit: str, initial: Iterable[Iterable[int]]) -> str:
    """A unit with its maps' values behind it."""
    values = "".join(f"map {k}: {' '.join(map(str, words))}\n" for k, words in enumerate(initial))
    return f"{unit}%%\n{values}"
