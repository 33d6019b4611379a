"""Objects for BPF of a program in C, by clang with several levels and instruction sets."""

from __future__ import annotations

import functools
import os
import shutil
import subprocess
import tempfile
from collections.abc import Iterator
from dataclasses import dataclass
from pathlib import Path

from bpf_run import compiler
from bpf_run.clang import Files
from bpf_run.programs import Clock

TESTS = Path(__file__).resolve().parents[1]
REPOSITORY = TESTS.parents[1]
STAND_INS = REPOSITORY / "tools" / "include"
HEADERS = (STAND_INS, REPOSITORY / "examples" / "from_c")
LEVELS = ("-O1", "-O2", "-Os")
QUICK_LEVELS = ("-O2",)
CPUS = ("v2", "v3", "v4")
QUICK_CPUS = ("v2", "v3")
CLANG_SECONDS = 60
PROCESSES = 4


class _Silent(Clock):
    """A clock that tells nothing."""

    def tell(self) -> None:
        """Nothing."""


class ClangFailed(Exception):
    """Clang makes no object of a program; the text is the first line that it says."""


@dataclass(frozen=True)
class Build:
    """How clang compiles."""

    level: str
    cpu: str

    def __str__(self) -> str:
        return f"{self.level} -mcpu={self.cpu}"

    def compile(self, source: Path, target: Path) -> bytes:
        """The object that clang makes of a source file, which it leaves at the target."""
        words = (self.level, f"-mcpu={self.cpu}", "-w", *(f"-I{folder}" for folder in HEADERS))
        with tempfile.TemporaryDirectory(prefix="build-") as folder:
            try:
                data = compiler.make(Files(str(source), folder), words, _Silent()).data
            except compiler.NotCompiled as reason:
                raise ClangFailed(next(iter(str(reason).splitlines()), "clang makes nothing of it")) from None
        target.write_bytes(data)
        return data


def has_clang() -> bool:
    """Whether there is a clang here that knows BPF."""
    return bool(_known_cpus())


def builds(is_quick: bool) -> Iterator[Build]:
    """The builds that are tried, of those that this clang knows."""
    for level in QUICK_LEVELS if is_quick else LEVELS:
        for cpu in QUICK_CPUS if is_quick else CPUS:
            if cpu in _known_cpus():
                yield Build(level, cpu)


def turned_builds(number: int) -> Iterator[Build]:
    """A build for each quick instruction set, at a level that changes with the number of a program."""
    known = [cpu for cpu in QUICK_CPUS if cpu in _known_cpus()]
    yield from (Build(LEVELS[(number + at) % len(LEVELS)], cpu) for at, cpu in enumerate(known))


def processes() -> int:
    """How many programs are tried at once."""
    return min(PROCESSES, len(os.sched_getaffinity(0)))


@functools.lru_cache(maxsize=None)
def _known_cpus() -> frozenset[str]:
    if not shutil.which("clang"):
        return frozenset()
    words = ["clang", "-target", "bpf", "--print-supported-cpus"]
    done = subprocess.run(words, capture_output=True, text=True, errors="replace", timeout=CLANG_SECONDS)
    return frozenset(word for line in (done.stdout + done.stderr).splitlines() for word in line.split() if word in CPUS)
