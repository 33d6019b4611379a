"""Proves the program, or the library for C, and builds it, as `rt ci` does it, in a copy of the crates that it needs."""

from __future__ import annotations

import shutil
import tempfile
import threading
import time
from pathlib import Path

from .crates import LEFT_OUT, Repository
from .kit import Failed, Kit, run, start
from .rooms import Room, tell
from .unproved import LEVELS

PROVED = "proved here"
DONE = b"== "  # begins what `rt ci` prints of a crate once that is proved
DISK = "2.5 GB"


def prove(top: Path, name: str, folder: Path) -> None:
    """Proves and builds into a folder."""
    kit, repository = Kit.find(), Repository.read(top)
    needed = repository.needed([name])
    room = Room(folder, repository, name)
    with tempfile.TemporaryDirectory(prefix="work-", dir=folder.parent) as made:
        work = Path(made)
        _copy(repository, needed, work)
        tell(f"proves {len(needed)} crates and builds {name}, in {work} ({DISK}): half an hour or more")
        _run_gate(work, len(needed))
        for level in LEVELS:
            _keep(top, work / "crates" / name, level, room.made / level / name)
    room.keep(kit.name, PROVED, is_changed=False)


def _keep(top: Path, crate: Path, level: str, file: Path) -> None:
    """Keeps what `rt ci` built, a program for the first level; the others, and a library, are compiled from its proofs."""
    built = crate / "out" / crate.name
    if level == LEVELS[0] and built.is_file():
        file.parent.mkdir(parents=True, exist_ok=True)
        shutil.copy(built, file)
    else:
        tell(f"compiles {crate.name} for {level}")
        run([top / "tools" / "build_for", level, crate, file])


def _copy(repository: Repository, needed: list[str], work: Path) -> None:
    """A repository of the needed crates alone, without what was made of them and the must-fail edits."""
    (work / ".git").mkdir()
    shutil.copy(repository.top / "HANDLES", work)
    (work / "crates.txt").write_text("".join(f"{repository.lines[name]}\n" for name in needed))
    for name in needed:
        folder = repository.top / "crates" / name
        shutil.copytree(folder, work / "crates" / name, ignore=lambda at, _: LEFT_OUT if Path(at) == folder else ())


def _run_gate(work: Path, count: int) -> None:
    """Runs `rt ci`, and tells of each crate that is done, and each minute how long it has taken."""
    begun, done, said = time.monotonic(), 0, []
    ended = threading.Event()

    def minutes() -> str:
        return f"{int(time.monotonic() - begun) // 60} min, {done} of {count} done"

    def tell_each_minute() -> None:
        while not ended.wait(60):
            tell(minutes())

    teller = threading.Thread(target=tell_each_minute, daemon=True)
    teller.start()
    child = start(["rt", "ci"], work)
    for line in child.stdout or ():
        said.append(line)
        if line.startswith(DONE):
            done += 1
            tell(f"{minutes()}: {line[len(DONE) :].decode(errors='replace').strip()}")
    ended.set()
    if child.wait():
        raise Failed(b"".join(said).decode(errors="replace").rstrip())
