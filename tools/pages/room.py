"""The folder in which commands of pages run: the repository, with built programs in place of its own script."""

from __future__ import annotations

import os
import re
import shlex
import shutil
import subprocess
from pathlib import Path

LIMIT = 120  # seconds of a command
COPIED = ("tools", "examples", "docs")  # what finds other files by its own place; of the rest there are links
LEFT_OUT = (".git", "bpfspec")
PROGRESS = re.compile(r"^\d+ s\n", re.MULTILINE)
PROGRAM_VARIABLE = "BPFSPEC"  # that names another program
ENDED = 124  # the status of one that is ended then, as of timeout(1)
SCRIPT = """#!/usr/bin/env bash
if [[ ${{1-}} == explain ]]; then shift && BPFSPEC={program} exec python3 "${{0%/*}}/tools/explain" "$@"; fi
exec {program} "$@"
"""


class Room:
    """A folder that looks like the repository. Files that a page has in /tmp are in it too."""

    def __init__(self, folder: Path, top: Path, program: Path) -> None:
        self.folder = folder
        for entry in top.iterdir():
            if entry.name in COPIED:
                shutil.copytree(entry, folder / entry.name, ignore=shutil.ignore_patterns("__pycache__"))
            elif entry.name not in LEFT_OUT:
                (folder / entry.name).symlink_to(entry)
        script = folder / "bpfspec"
        script.write_text(SCRIPT.format(program=shlex.quote(str(program))), encoding="utf-8")
        script.chmod(0o755)

    def run(self, command: str) -> tuple[str, int]:
        """What a command writes to both its outputs, without lines that tell how long it has taken, and its status."""
        words = ["bash", "-o", "pipefail", "-c", self.inside(command)]
        environment = {name: value for name, value in os.environ.items() if name != PROGRAM_VARIABLE}
        environment["LC_ALL"] = "C.UTF-8"
        streams = {"stdin": subprocess.DEVNULL, "stdout": subprocess.PIPE, "stderr": subprocess.STDOUT}
        try:
            done = subprocess.run(words, **streams, cwd=self.folder, env=environment, timeout=LIMIT)
        except subprocess.TimeoutExpired:
            return "", ENDED
        return PROGRESS.sub("", done.stdout.decode(errors="backslashreplace")), done.returncode

    def inside(self, words: str) -> str:
        """The same with its paths of /tmp in this folder."""
        return words.replace("/tmp/", f"{self.folder}/")

    def take(self, path: Path, name: str) -> None:
        """Copies a file of the repository to a name that a page has."""
        shutil.copy(path, self.folder / self.inside(name))
