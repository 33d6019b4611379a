"""The Rattle kit whose command `rt` is on the path, and its tools."""

from __future__ import annotations

import ctypes
import os
import re
import shutil
import signal
import subprocess
from collections.abc import Iterable, Sequence
from dataclasses import dataclass
from pathlib import Path

TARGET = "x86_64-unknown-linux-gnu"
PRCTL = ctypes.CDLL(None).prctl  # found here, since a child between fork and exec may not look for it
PR_SET_PDEATHSIG = 1
STARTED: list[subprocess.Popen[bytes]] = []

Words = Sequence["str | os.PathLike[str]"]


class Failed(Exception):
    """A step of a build went wrong; its words say how."""


@dataclass(frozen=True)
class Kit:
    """The folder of a kit, and its name."""

    folder: Path
    name: str

    @staticmethod
    def find() -> Kit:
        """The kit of the command `rt`."""
        rt = shutil.which("rt")
        if rt is None:
            raise Failed("there is no command rt on the path: it comes with the Rattle kit, which README.md names")
        folder = Path(rt).resolve().parent.parent
        return Kit(folder, (folder / "KIT-ID").read_text().strip())

    @property
    def clang(self) -> Path:
        return self.folder / "toolchain" / "bin" / "clang"

    def sources(self, libraries: Iterable[str]) -> list[str]:
        """The words that hand over these libraries of the kit, and those that they use, as sources."""
        words, names = [], list(dict.fromkeys(libraries))
        for name in names:  # grows meanwhile
            described = (self.folder / "rlibs" / f"{name}.rlib" / "format").read_text()
            uses = re.findall(r"^dep (\w+)$", described, re.M)
            names += [it for it in uses if it not in names]
            words += ["--lib", f"{name}:{','.join(uses)}={self.folder}/rattle/{name}/src/lib.rt"]
        return words

    def link(self, objects: Sequence[Path], program: Path) -> None:
        """Links objects with the kit's C library."""
        libraries = [self.folder / "c" / name for name in ("libos_c.a", "liblibc_c.a")]
        words = ["--target", TARGET, "--toolchain", self.folder / "toolchain", "-o", program, *objects, *libraries]
        run([self.folder / "bin" / "rattle-link", *words])


def ends_with_its_parent(by: signal.Signals = signal.SIGKILL) -> None:
    """Has the system end the calling process by a signal when its parent ends, however that ends."""
    PRCTL(PR_SET_PDEATHSIG, by)


def start(words: Words, folder: Path | None = None) -> subprocess.Popen[bytes]:
    """Starts a command that ends with this process; its output and its errors come by one pipe."""
    how = {"stdin": subprocess.DEVNULL, "stdout": subprocess.PIPE, "stderr": subprocess.STDOUT, "cwd": folder}
    child = subprocess.Popen(words, preexec_fn=ends_with_its_parent, **how)
    STARTED.append(child)
    return child


def end_all() -> None:
    """Ends all commands that were started and haven't ended."""
    for child in STARTED:
        child.kill()


def said_by(words: Words, folder: Path | None = None) -> tuple[int, str]:
    """Runs a command to its end: its status, and what it said."""
    child = start(words, folder)
    said = child.communicate()[0].decode(errors="replace").rstrip()
    return child.returncode, said


def run(words: Words, folder: Path | None = None) -> None:
    """Runs a command that may not fail."""
    status, said = said_by(words, folder)
    if status:
        raise Failed(f"{Path(words[0]).name} ended with status {status}:\n{said}")
