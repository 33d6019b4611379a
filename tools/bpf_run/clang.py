"""clang: where it is, with which words it compiles a program, and what it says."""

from __future__ import annotations

import os
import platform
import re
import resource
import shutil
import signal
from collections.abc import Iterator
from dataclasses import dataclass
from pathlib import Path

from bpf_object.refusal import Refused

from .programs import TOOLS, Clock, run

TARGET = ("-O2", "-target", "bpf")
FLAGS = ("-O2", "-g", "-target", "bpf", "-fno-strict-aliasing")  # as kernels are built
IR_TARGET = (*TARGET, "-fno-discard-value-names")
FRONT_END = (*FLAGS, "-fno-discard-value-names", "-Xclang", "-disable-llvm-passes", "-S", "-emit-llvm")
OPTIMIZER = (*IR_TARGET, "-S", "-emit-llvm", "-x", "ir")
BACK_END = (*IR_TARGET, "-Xclang", "-disable-llvm-passes", "-c", "-x", "ir")
QUIET = "-fno-crash-diagnostics"
MEMORY = 3 << 30  # bytes of address space
SECONDS = 60  # of processor time: a busy machine may need far more to give them
GRACE = 5  # seconds more, in which clang writes what it was busy with
PATIENCE = 10.0 * SECONDS  # if it uses no processor either
TOO_LONG = f"clang takes more than {SECONDS} s"
LOWER = str(TOOLS / "lower_ir")
NUMBERED = re.compile(r"clang-(\d+)")
HEADERS = TOOLS.parent / "examples" / "from_c"  # bpf.h
SYSTEM = Path("/usr/include") / f"{platform.machine()}-linux-gnu"  # where Debian has <asm/types.h>
STAND_INS = TOOLS / "include"  # for those of libbpf and of Linux, where there are none
OF_C = STAND_INS / "c"  # for those of C's library, which are never for BPF


@dataclass(frozen=True)
class Said:
    """Whether clang made what it was asked for, and what it said."""

    is_made: bool
    text: str


@dataclass(frozen=True)
class Step:
    """A program's words, and the files that it reads and writes where its words don't name them."""

    words: tuple[str, ...]
    source: str | None = None
    target: str | None = None


@dataclass(frozen=True)
class Files:
    """The files of a way from a source to its object."""

    source: str
    folder: str

    @property
    def target(self) -> str:
        return self.named("x.o")

    def named(self, name: str) -> str:
        """A file between the source and the object."""
        return f"{self.folder}/{name}"


def find_clang() -> str:
    """$CLANG, else `clang`, else the clang of the greatest number on the path."""
    own = os.environ.get("CLANG")
    found = shutil.which(own) if own else shutil.which("clang") or _numbered_clang()
    if not found:
        raise Refused(f"there is no {own or 'clang'} on the path: install clang, or name it by $CLANG")
    return found


def _numbered_clang() -> str | None:
    names = {
        int(match[1]): os.path.join(folder, match[0])
        for folder in os.get_exec_path()
        if os.path.isdir(folder)
        for match in map(NUMBERED.fullmatch, os.listdir(folder))
        if match
    }
    return names[max(names)] if names else None


def look_step(files: Files, more: tuple[str, ...]) -> Step:
    """What writes the IR that the back end would get, if a source is compiled at once."""
    words = (*FLAGS, *more, *_header_words(), "-S", "-emit-llvm", files.source, "-o", files.named("looked.ll"))
    return Step((find_clang(), *words))


@dataclass(frozen=True)
class Way:
    """How an object is made: words beside those that all take, and what rewrites the IR, where it is made by that."""

    more: tuple[str, ...] = ()
    lowering: str | None = None

    def steps(self, files: Files) -> Iterator[Step]:
        """What is run: clang, or its front end, optimizer and back end, with what rewrites IR before the last two."""
        clang, own = find_clang(), (*self.more, *_header_words())
        if self.lowering is None:
            yield Step((clang, *FLAGS, *own, "-c", files.source, "-o", files.target))
            return
        read, callable_, optimized, lowered = map(files.named, ("x.ll", "callable.ll", "optimized.ll", "lowered.ll"))
        yield Step((clang, *FRONT_END, *own, files.source, "-o", read))
        yield Step((LOWER, "functions"), read, callable_)
        yield Step((clang, *OPTIMIZER, *self.more, callable_, "-o", optimized))
        yield Step((LOWER, self.lowering), optimized, lowered)
        yield Step((clang, *BACK_END, *self.more, lowered, "-o", files.target))


def _header_words() -> tuple[str, ...]:
    behind = [word for place in (SYSTEM, STAND_INS) if place.is_dir() for word in ("-idirafter", str(place))]
    return ("-I", str(HEADERS), "-isystem", str(OF_C), *behind)


def say(step: Step, folder: str, clock: Clock) -> Said:
    """Runs a step of clang's own, in limited memory and time."""
    with open(os.path.join(folder, "errors"), "w+b") as errors:
        answer = run((*step.words, QUIET), "", clock, PATIENCE, errors, _limit)
        errors.seek(0)
        said = errors.read().decode(errors="replace")
    if answer is None or answer.status == -signal.SIGXCPU:
        said += f"{TOO_LONG}\n"
    return Said(answer is not None and answer.status == 0 and os.path.exists(step.words[-1]), said)


def _limit() -> None:
    """Limits this process, which becomes clang; at the first limit of time clang says what it is busy with."""
    for kind, most, last in (resource.RLIMIT_AS, MEMORY, MEMORY), (resource.RLIMIT_CPU, SECONDS, SECONDS + GRACE):
        if all(own == resource.RLIM_INFINITY or own >= last for own in resource.getrlimit(kind)):
            resource.setrlimit(kind, (most, last))
    os.environ["LLVM_DISABLE_SYMBOLIZATION"] = "1"  # a stack's names take seconds to find, and aren't shown
