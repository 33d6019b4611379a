"""Has a program in C compiled, at once where clang's back end takes it, else by its IR; and loads it."""

from __future__ import annotations

import re
import sys
import tempfile
from collections.abc import Iterator
from dataclasses import dataclass
from pathlib import Path

from bpf_ir.lower import STEPS
from bpf_ir.text import NotRead
from bpf_object.elf import OBJECT_LIMIT, Object
from bpf_object.load import load
from bpf_object.loaded import Loaded
from bpf_object.program import Verify
from bpf_object.refusal import NoRoom, Refused

from .clang import LOWER, MEMORY, TOO_LONG, Files, Said, Step, Way, look_step, say
from .options import Options
from .programs import Clock

ATOMICS = ("-mcpu=v3",)  # it has atomics of 4 bytes, and such as give the old value
DIVISION = ("-mcpu=v4",)  # signed, from clang 18 on
NEEDS = {
    DIVISION: re.compile("unsupported signed division"),
    ATOMICS: re.compile("[Uu]nsupported atomic|usage of the XADD return value|Cannot select.*[Aa]tomic"),
}
OPERATIONS, SMALL_FRAMES = "operations", "small-frames"
NOT_UNROLLED = ("-fno-unroll-loops",)
CALLED = re.compile(rb"\0(?:mem(?:cpy|move|set|cmp)|bcmp|strlen)\0")  # a symbol of C's library
ZEROS = re.compile(rb"call [^\n]*@llvm\.ct[lt]z\.")  # clang 14 and 16 crash on it, fill the memory, or get it wrong
DUMP = "PLEASE submit a bug report"
BUSY = re.compile("(?:on function '@|function body '|declaration ')([^']+)'")
LIMITS = (
    ("LLVM ERROR: out of memory|bad_alloc", f"clang takes more than {MEMORY >> 30} GB of memory"),
    (TOO_LONG, TOO_LONG),
)
PLACE = r"(?:(?P<line>[^\s:]+\.[ch]:\d+)\S* )?"
REASONS = (  # what the back end says of what isn't taken, and what to write
    (r"built-in function '__\w+[sd]f\w*'|floating|soft.?float", "floating point isn't taken: use fixed point"),
    (r"dynamic stack allocation", "an array of a length that isn't constant isn't taken: give it its greatest length"),
    (r"VarArgs", "a function of your own with `...` isn't taken: give it its arguments by number"),
    (r"too many arg|stack arguments|defined with too many args", "a call with more than five arguments isn't taken"),
    (r"BPF stack limit", "the frame has more than 512 bytes: make a large local variable a global one"),
    (r"built-in function '(?P<name>\w+)'", "a call of {name} isn't taken: write a function of your own"),
)
SOURCES = (".c", ".i")
MAGIC = b"\x7fELF"  # of an object


@dataclass(frozen=True)
class Compiled:
    """An object, the way that it was made by, and what clang said."""

    data: bytes
    way: Way
    warnings: str


class NotCompiled(Exception):
    """clang makes no object of a source; the text says why."""


def test_source(path: str, data: bytes) -> None:
    """Refuses what is no source in C by its name."""
    if path.endswith(SOURCES):
        return
    if data.lstrip().startswith(b"maps "):
        raise Refused("this is a unit, which the program itself takes: ./bpfspec run < FILE")
    raise Refused("this is no object of clang, and by its name no source in C: X.c")


def read_file(path: str) -> bytes:
    """The bytes of a file, and one more than an object may have where it has more."""
    with open(path, "rb") as file:
        return file.read(OBJECT_LIMIT + 1)


def compiled(source: str, clock: Clock) -> Compiled:
    """The object that clang makes of a source; what clang says goes to standard error."""
    with tempfile.TemporaryDirectory(prefix="bpfrun-") as folder:
        try:
            made = make(Files(source, folder), (), clock)
        except NotCompiled as reason:
            sys.stderr.write(str(reason))
            raise
    sys.stderr.write(made.warnings)
    return made


def shorter(source: str, way: Way, clock: Clock) -> Iterator[Compiled]:
    """Objects with less code or smaller frames, for a program that there is no room for."""
    for lowering in (OPERATIONS, SMALL_FRAMES):
        other = Way((*way.more, *NOT_UNROLLED), lowering)
        with tempfile.TemporaryDirectory(prefix="bpfrun-") as folder:
            files = Files(source, folder)
            said = _said(files, other, clock)
            if said.is_made:
                yield Compiled(read_file(files.target), other, said.text)


def make(files: Files, words: tuple[str, ...], clock: Clock) -> Compiled:
    """The object that clang makes of a source by some words more, by the first way on which it makes one."""
    way = Way(words)
    said = _first(files, way, clock)
    for more, need in NEEDS.items():
        if not said.is_made and need.search(said.text):
            newer = Way((*words, *more))
            again = _said(files, newer, clock)
            said, way = (again, newer) if again.is_made else (said, way)
    if not said.is_made or CALLED.search(read_file(files.target)):
        for more in dict.fromkeys((way.more, (*words, *ATOMICS))):
            way = Way(more, OPERATIONS)
            said = _said(files, way, clock)
            if said.is_made or not NEEDS[ATOMICS].search(said.text):
                break
    if not said.is_made:
        raise NotCompiled(_reason(said.text))
    return Compiled(read_file(files.target), way, said.text)


def _first(files: Files, way: Way, clock: Clock) -> Said:
    """What comes of a source at once: no object if zeros are counted, which the back end doesn't see as they are."""
    step = look_step(files, way.more)
    look = say(step, files.folder, clock)
    if not look.is_made:
        return look
    with open(step.words[-1], "rb") as file:
        return Said(False, "") if ZEROS.search(file.read()) else _said(files, way, clock)


def _said(files: Files, way: Way, clock: Clock) -> Said:
    """What comes of a way; what the front end warns of is said once."""
    warnings: list[str] = []
    for step in way.steps(files):
        if step.words[0] == LOWER:
            try:
                _rewrite(step)
            except NotRead as reason:
                return Said(False, f"{step.words[0]}: {reason}\n")
        else:
            said = say(step, files.folder, clock)
            if not said.is_made:
                return said
            warnings.append(said.text)
    return Said(True, warnings[0])


def _rewrite(step: Step) -> None:
    """Does what tools/lower_ir does, here."""
    how = {"encoding": "utf-8", "errors": "surrogateescape"}
    text = STEPS[step.words[1]](Path(step.source or "").read_text(**how))
    Path(step.target or "").write_text(text, **how)


def _reason(said: str) -> str:
    """What clang said; of its back end the line of C, and what to write."""
    for pattern, words in REASONS:
        if found := re.search(f"{PLACE}.*?(?:{pattern})", said):
            place = f"{found['line']}: " if found["line"] else ""
            return f"{place}{words.format(**found.groupdict())}\n"
    reason, dump, stack = said.partition(DUMP)
    place = BUSY.search(stack)
    where = f" at function {place[1]}" if place else ""
    for pattern, words in LIMITS:
        if re.search(pattern, said):
            return f"{words}{where}: less code may help\n"
    if not dump or "error" in reason.lower():
        return reason
    return f"{reason}clang crashes{where}: no line tells why, and less code may help to find it\n"


def load_file(options: Options, clock: Clock, judge: Verify | None = None) -> tuple[Loaded, Way | None]:
    """The program, and the way that a source was compiled by: one to less code where there is no room for it."""
    data = read_file(options.file)
    if data.startswith(MAGIC):
        return load(data, options.main, options.as_is, judge), None
    test_source(options.file, data)
    made = compiled(options.file, clock)
    try:
        return load(made.data, options.main, options.as_is, judge), made.way
    except NoRoom as reason:
        tried = [Object(made.data).parts()]
        for other in shorter(options.file, made.way, clock):
            try:
                parts = Object(other.data).parts()
                if parts in tried:
                    continue
                tried.append(parts)
                return load(other.data, options.main, options.as_is, judge), other.way
            except Refused:
                continue
        raise reason
