"""The folders of the cache that ./bpfspec runs from.

    ROOM/unproved/NAME, ROOM/proved/NAME   a program, or the library for C, of each level of processor
        LEVEL/NAME     the program, or the archive
        files          the sources that it was built from; last changed when the build began
        kit            the name of the kit
        how            what `--version` tells: whether it was proved
        changed        is there where sources weren't as committed
"""

from __future__ import annotations

import fcntl
import os
import shutil
import sys
import time
from collections.abc import Iterator
from contextlib import contextmanager
from pathlib import Path

from .crates import Repository


class Waited(Exception):
    """Another build of the same was under way, and has ended."""


@contextmanager
def alone(folder: Path, what: str) -> Iterator[None]:
    """Keeps other builds of the same folder waiting. Where there is one, waits for its end, and raises Waited."""
    folder.parent.mkdir(parents=True, exist_ok=True)
    with open(folder.with_name(f"{folder.name}.lock"), "a+", encoding="utf-8") as file:
        try:
            fcntl.flock(file, fcntl.LOCK_EX | fcntl.LOCK_NB)
        except BlockingIOError:
            file.seek(0)
            tell(f"waits for process {file.read().strip() or '?'}, which {what}")
            fcntl.flock(file, fcntl.LOCK_EX)
            raise Waited from None
        file.truncate(0)
        file.write(str(os.getpid()))
        file.flush()
        yield


def tell(line: str) -> None:
    """Tells the user what goes on, on standard error."""
    print(f"bpfspec: {line}", file=sys.stderr, flush=True)


class Room:
    """A folder that is being filled, with the sources as they are from now on."""

    def __init__(self, folder: Path, repository: Repository, name: str) -> None:
        self.folder = folder
        self.made = folder.with_name(f"{folder.name}.new")
        shutil.rmtree(self.made, ignore_errors=True)
        self.made.mkdir(parents=True)
        self._sources = list(repository.sources(repository.needed([name])))
        self._begun = self._second_after(repository.top)

    def _second_after(self, top: Path) -> int:
        """The next second in which no source was changed, once it has come: a change from then on shows."""
        newest = max((top / path).stat().st_mtime for path in self._sources)
        while int(newest) < time.time() < int(newest) + 1:
            time.sleep(0.1)
        return int(time.time())

    def keep(self, kit: str, how: str, is_changed: bool) -> None:
        """Puts what was made in the place of what is there."""
        (self.made / "kit").write_text(f"{kit}\n")
        (self.made / "how").write_text(f"{how}\n")
        if is_changed:
            (self.made / "changed").touch()
        files = self.made / "files"
        files.write_text("".join(f"{path}\n" for path in self._sources))
        os.utime(files, (self._begun, self._begun))
        shutil.rmtree(self.folder, ignore_errors=True)
        self.made.rename(self.folder)
