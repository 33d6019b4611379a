"""The faults, and what has to come of a run that has one."""

from __future__ import annotations

import os
import re
import resource
import shutil
import subprocess
from dataclasses import dataclass
from pathlib import Path

DONE, NO_MEMORY, NO_DEVICE = 0, 4, 5  # statuses of bpfspec
REFUSED = b"refused memory\n"  # what is printed if memory runs out, and of each command where its words are still read
NO_MEMORY_TEXT = {"facts": b'{"record":"end","status":4}\n'}  # of a command that prints something else then
TOLD = b"!"  # on standard error, by fail.c, where a call was made to fail
NO_END = -1000  # in place of a status, of a run that had to be killed
SOURCE = Path(__file__).resolve().parent / "fail.c"
FLAGS = "-O1 -fno-builtin -fPIC -shared -nostdlib".split()
STATS = re.compile(rb"(?:loop \d+ at|program:) .*\n")  # lines of `--stats`, whose times aren't those of another run
TIME_LIMIT = 20  # seconds of a run, which takes some milliseconds
STACK = 128 * 1024  # bytes of stack, for the main thread and for each other, that are enough for every row


@dataclass(frozen=True)
class Ran:
    """How a run ended, and all that it wrote."""

    status: int
    output: bytes
    errors: bytes = b""


@dataclass(frozen=True)
class Fault:
    """A call of the C library that fails, and how; `tools/tests/faults/fail.c` says what the words mean."""

    call: str
    kind: str
    name: str

    def environment(self, at: int) -> dict[str, str]:
        """The variables that `fail.c` reads, where call number `at` is to fail."""
        return {"FAULT_CALL": self.call, "FAULT_KIND": self.kind, "FAULT_AT": str(at)}

    def is_right(self, ran: Ran, own: Ran, no_memory: bytes) -> bool:
        """Whether a run with this fault gave what it may: `own` is what the same run gives without, and the last what the
        command prints where memory runs out."""
        answer = Ran(ran.status, ran.output)
        if ran.errors != TOLD:
            return ran.errors == b"" and answer == own
        if self.call == "growth":
            return answer in (own, Ran(NO_MEMORY, no_memory), Ran(NO_MEMORY, REFUSED))
        if self.call == "thread" or self.kind in ("short", "interrupted"):
            return answer == own
        is_beginning = ran.status == NO_DEVICE and own.output.startswith(ran.output)
        return is_beginning or self.kind == "breaks" and answer == own  # a last short read is a whole one


FAULTS = (
    Fault("growth", "fails", "growth"),
    Fault("growth", "stays_failed", "all growths from one on"),
    Fault("thread", "fails", "thread"),
    Fault("thread", "stays_failed", "all threads from one on"),
    Fault("read", "fails", "failed read"),
    Fault("read", "short", "short read"),
    Fault("read", "breaks", "broken read"),
    Fault("read", "interrupted", "interrupted read"),
    Fault("write", "fails", "failed write"),
    Fault("write", "short", "short write"),
    Fault("write", "breaks", "broken write"),
    Fault("write", "interrupted", "interrupted write"),
)


@dataclass(frozen=True)
class Program:
    """A program, and the library that makes its calls fail."""

    path: Path
    library: Path

    def run(self, words: tuple[str, ...], stdin: Path, fault: dict[str, str]) -> Ran:
        """Runs it once, with the fault that these variables name; without one on a small stack."""
        environment = {"LD_PRELOAD": str(self.library), **fault}
        command = [str(self.path), *words]
        before = None if fault else _small_stack
        with open(stdin, "rb") as file:
            try:
                ran = subprocess.run(
                    command, stdin=file, capture_output=True, env=environment, timeout=TIME_LIMIT, preexec_fn=before
                )
            except subprocess.TimeoutExpired as late:
                return Ran(NO_END, late.stdout or b"", late.stderr or b"")
        return Ran(ran.returncode, ran.stdout, STATS.sub(b"", ran.stderr))


def _small_stack() -> None:
    resource.setrlimit(resource.RLIMIT_STACK, (STACK, STACK))


def build_library(library: Path) -> None:
    """Makes the library that is loaded before the program."""
    subprocess.run([*compiler(), *FLAGS, "-o", str(library), str(SOURCE)], check=True)


def compiler() -> list[str]:
    """The compiler of the kit that `rt` is of, which brings no headers; else that of the machine."""
    clang = Path(os.path.realpath(shutil.which("rt") or "")).parent.parent / "toolchain" / "bin" / "clang"
    return [str(clang), "-fuse-ld=lld"] if clang.is_file() else ["cc"]
