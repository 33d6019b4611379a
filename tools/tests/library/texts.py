"""Compares what the library prints of inputs with what the program prints.

The inputs are the repository's examples and the blocks of docs/REFUSALS.md. BPFSPEC_LIBRARY names the folder of the
library, BPFSPEC the program. Each fault is a line; the last line has the count of texts.
"""

from __future__ import annotations

import os
import re
import subprocess
import sys
from collections.abc import Iterator
from pathlib import Path

TOP = Path(__file__).resolve().parents[3]
EXAMPLES = TOP / "examples"
sys.path.insert(0, str(EXAMPLES / "c"))

from bpfspec import Printed, printed_facts, verify  # noqa: E402: it is found by the line above

BLOCK = re.compile(r"^```(?:refused|taken)\n(.*?)^```$", re.MULTILINE | re.DOTALL)
LIMIT = 60  # seconds of a program
OPTIONS: tuple[dict[str, object], ...] = (
    {},
    {"argument": 7, "lrpd": True, "every": True},
    {"states": True},
    {"argument": 7, "grid": True},
)
WORDS = {"hexadecimal": "--hex", "states": "--states", "every": "--all", "grid": "--grid"}


def inputs() -> Iterator[tuple[bytes, bool]]:
    """Each input, and whether it is in hex form."""
    for path in sorted([*EXAMPLES.glob("*.bpf"), *EXAMPLES.glob("*.hex")]):
        yield path.read_bytes(), path.suffix == ".hex"
    for block in BLOCK.findall((TOP / "docs" / "REFUSALS.md").read_text()):
        lines = block.splitlines(keepends=True)
        command = next((line for line in lines if line.startswith("$ ")), "")
        text = "".join(line for line in lines if not line.startswith(("$ ", "=>")))
        yield text.encode(), "--hex" in command
    yield b"\xff", False
    yield b"maps 1\n" + bytes(3_145_728), False


def words_of(options: dict[str, object]) -> list[str]:
    """The words of the command line that ask for these options."""
    words = [word for name, word in WORDS.items() if options.get(name)]
    if options.get("lrpd"):
        words += ["--test", "lrpd"]
    return [*words, "--arg", str(options.get("argument", 0))]


def by_program(words: list[str], text: bytes) -> Printed:
    """What a program prints of an input."""
    done = subprocess.run(words, input=text, capture_output=True, timeout=LIMIT, check=False)
    return Printed(done.returncode == 0, done.stdout.decode())


def main() -> int:
    """Compares all texts, and gives the status."""
    count = faults = 0
    for text, hexadecimal in inputs():
        words = [os.environ["BPFSPEC"], "verify", *(["--hex"] if hexadecimal else [])]
        pairs = [(verify(text, hexadecimal), by_program(words, text))]
        for more in OPTIONS:
            options = {**more, "hexadecimal": hexadecimal}
            words = [os.environ["BPFSPEC"], "facts", *words_of(options)]
            pairs.append((printed_facts(text, **options), by_program(words, text)))
        count += len(pairs)
        for found, wanted in pairs:
            if found != wanted:
                faults += 1
                print(f"{text[:200]!r}: {found} isn't {wanted}")
    print(f"{count} texts")
    return 1 if faults or not count else 0


if __name__ == "__main__":
    sys.exit(main())
