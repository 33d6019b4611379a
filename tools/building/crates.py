"""The repository's crates, and what each of them is built from."""

from __future__ import annotations

import re
import subprocess
from collections.abc import Iterable, Iterator
from dataclasses import dataclass
from pathlib import Path

SOURCES = ".rt", ".antt"
LEFT_OUT = "out", "must-fail"  # folders of a crate that no program is built from
OWN = "crates", "crates.txt", "HANDLES"


@dataclass(frozen=True)
class Repository:
    """The crates that crates.txt lists, each with its line and the libraries that it names, those of the kit too."""

    top: Path
    lines: dict[str, str]
    uses: dict[str, tuple[str, ...]]

    @staticmethod
    def read(top: Path) -> Repository:
        """Reads crates.txt."""
        texts = (line.partition("#")[0].strip() for line in (top / "crates.txt").read_text().splitlines())
        lines = {re.split(r"[ :]", text)[0]: text for text in texts if ":" in text}
        return Repository(top, lines, {name: tuple(text.partition(":")[2].split()) for name, text in lines.items()})

    def needed(self, names: Iterable[str]) -> list[str]:
        """These crates and all that they stand on, each after those."""
        found: dict[str, None] = {}

        def need(name: str) -> None:
            if name in self.uses and name not in found:
                for below in self.uses[name]:
                    need(below)
                found[name] = None

        for name in names:
            need(name)
        return list(found)

    def root(self, name: str) -> Path:
        """The root file of a crate."""
        folder = self.top / "crates" / name / "src"
        program = folder / "main.rt"
        return program if program.is_file() else folder / "lib.rt"

    def sources(self, names: Iterable[str]) -> Iterator[Path]:
        """crates.txt, and the sources of these crates with their specs and proofs, relative to the top."""
        yield Path("crates.txt")
        for name in names:
            for path in sorted((self.top / "crates" / name).rglob("*")):
                inside = path.relative_to(self.top)
                if path.suffix in SOURCES and not set(inside.parts[2:-1]).intersection(LEFT_OUT):
                    yield inside


def is_committed(top: Path) -> bool:
    """Whether the crates are as the commit has them that is checked out. Without git they are not."""
    tracked = ["ls-files", "--error-unmatch", "crates.txt", "HANDLES"]
    changed = ["diff", "--quiet", "HEAD", "--", *OWN]
    others = ["ls-files", "--others", "--exclude-standard", "--", *(f"crates/*{suffix}" for suffix in SOURCES)]
    try:
        ran = [subprocess.run(["git", *words], cwd=top, capture_output=True, check=False) for words in (tracked, changed, others)]
    except OSError:
        return False
    return not any(it.returncode for it in ran) and not ran[-1].stdout
