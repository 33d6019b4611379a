"""The shell lines that do what bpfrun does, by the programs under it."""

from __future__ import annotations

import os
import shlex
import shutil
from collections.abc import Iterable, Iterator

from bpf_object.program import find_program

from .clang import Files, Step
from .compiler import load_file
from .options import Options
from .programs import EXPLAIN, TOOLS, Clock

FOLDER, UNIT = "$d", "$d/unit"


def lines_of(options: Options, clock: Clock) -> Iterator[str]:
    """The lines of a shell script."""
    bpfspec = find_program()
    way = load_file(options, clock)[1]
    yield "d=$(mktemp -d)"
    files = Files(options.file, FOLDER)
    yield from map(_step, way.steps(files) if way else ())
    yield f"{_line(_unit_words(options, files.target if way else options.file))} > {UNIT}"
    yield f"{_line((*bpfspec, 'verify'))} < {UNIT}"
    if options.command == "explain":
        yield f"{_line((*EXPLAIN, *options.facts_words(options.arguments[0])))} < {UNIT}"
    if options.command == "run":
        yield from _runs(options, bpfspec)
    yield f"rm -r {FOLDER}"


def _unit_words(options: Options, path: str) -> Iterator[str]:
    """The words that make the unit: the loader's own, or with values from a file ours."""
    yield from (str(TOOLS / "elf2unit"),) if options.load is None else (str(TOOLS / "bpfrun"), "unit")
    for name, value in ("main", options.main), ("load", options.load):
        yield from [f"--{name}", value] if value is not None else []
    yield from ["--as-is"] if options.as_is else []
    yield path


def _runs(options: Options, bpfspec: tuple[str, ...]) -> Iterator[str]:
    """A run for each argument, by the values that the one before it left."""
    last = len(options.arguments)
    for number, argument in enumerate(options.arguments, 1):
        line = _line((*bpfspec, "run", *options.words(argument)))
        if number == 1:
            line = f"{line} < {UNIT}"
        else:
            line = f"{{ sed '/^%%$/,$d' {UNIT}; echo %%; grep '^map ' {FOLDER}/{number - 1}; }} | {line}"
        yield line if number == last else f"{line} | tee {FOLDER}/{number}"


def _step(step: Step) -> str:
    streams = f" < {step.source} > {step.target}" if step.source else ""
    return f"{_line(step.words)}{streams}"


def _line(words: Iterable[str]) -> str:
    """A line of the shell, which expands the folder."""
    return " ".join(word if word.startswith(f"{FOLDER}/") else shlex.quote(_short(word)) for word in words)


def _short(word: str) -> str:
    """A path from the folder that we are in, where it is below that, and a program on the path by its name alone."""
    if not os.path.isabs(word):
        return word
    name = os.path.basename(word)
    if shutil.which(name) == word:
        return name
    inner = os.path.relpath(word)
    if inner.startswith(os.pardir):
        return word
    return inner if os.sep in inner else os.path.join(os.curdir, inner)
