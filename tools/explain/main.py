"""The program, from the words of its command line to its exit status."""

from __future__ import annotations

import os
import signal
import subprocess
from collections.abc import Sequence
from types import FrameType
from typing import NoReturn

from bpf_object.program import find_program
from bpf_object.refusal import Refused

from .command_line import NAME, Ask, HelpAsked, UsageError, read_words
from .explaining import Explanation
from .inputs import LONGEST
from .records import MemoryRanOut, RecordsError, read

ENDING = signal.SIGINT, signal.SIGTERM, signal.SIGHUP
BY_SIGNAL = 128  # and its number: the status of a program that a signal ended, as shells give it
DONE, USAGE, NO_MEMORY, NO_STREAM, CRASHED = 0, 3, 4, 5, 70
INPUT, OUTPUT, MESSAGES = range(3)
MEMORY_LINE = b"refused memory\n"


def main(words: Sequence[str]) -> int:
    """Explains the standard input as the words ask, and gives the exit status: that of `verify`; 3 if the words ask for
    nothing, 4 if memory runs out, 5 if a read or a write fails, 70 if the program that makes the facts crashes."""
    for number in ENDING:
        if signal.getsignal(number) != signal.SIG_IGN:  # one that is ignored stays so
            signal.signal(number, _end)
    try:
        return _explain(read_words(words))
    except HelpAsked as asked:
        return _write(OUTPUT, str(asked), DONE)
    except UsageError as error:
        return _write(MESSAGES, str(error), USAGE)
    except MemoryError:
        return _write(OUTPUT, MEMORY_LINE, NO_MEMORY)
    except (RecordsError, Refused) as error:
        return _write(MESSAGES, f"{NAME}: {error}\n", CRASHED)


def _end(number: int, _: FrameType | None) -> NoReturn:
    """Ends the program at a signal, and with it the one that makes the facts."""
    raise SystemExit(BY_SIGNAL + number)


def _explain(ask: Ask) -> int:
    """Explains the standard input."""
    try:
        data = _read()
    except OSError:
        return NO_STREAM
    records = _facts_of(ask, data)
    try:
        facts = read(records.decode("ascii", "replace"))
    except MemoryRanOut:
        return _write(OUTPUT, records if ask.json else MEMORY_LINE, NO_MEMORY)
    if ask.json:
        return _write(OUTPUT, records, facts.status)
    explanation = Explanation(ask, data, facts)
    if not ask.sarif:
        return _write(OUTPUT, explanation.text(), facts.status)
    from .sarif import sarif_of  # the other outputs start faster without it

    return _write(OUTPUT, sarif_of(explanation), facts.status)


def _facts_of(ask: Ask, data: bytes) -> bytes:
    """The records that `bpfspec facts` prints of an input. If it can't be run, `RecordsError` is raised."""
    try:
        words = [*find_program(), "facts", *words_of(ask)]
        return subprocess.run(words, input=data, stdout=subprocess.PIPE, check=False).stdout
    except (OSError, ValueError) as error:
        raise RecordsError(f"bpfspec can't be started: {getattr(error, 'strerror', None) or error}") from None


def words_of(ask: Ask) -> list[str]:
    """The words of the command line of `bpfspec facts`. A picture needs the grid, and up to 64 elements of its loop;
    SARIF has neither a picture nor states."""
    is_drawn, has_states = (is_asked and not ask.sarif for is_asked in (ask.picture, ask.states))
    flags = {"--hex": ask.hex, "--states": has_states, "--all": ask.all or is_drawn, "--grid": is_drawn}
    return ["--arg", str(ask.argument), "--test", ask.test, *(word for word, is_asked in flags.items() if is_asked)]


def _read() -> bytes:
    """The standard input, up to a byte past the longest: that shows that it is too long."""
    with open(INPUT, "rb", closefd=False) as file:
        return file.read(LONGEST + 1)


def _write(stream: int, text: str | bytes, status: int) -> int:
    """Writes a text, and gives the status, or that the write failed."""
    data = memoryview(text if isinstance(text, bytes) else text.encode("utf-8", "surrogateescape"))
    try:
        while data:
            data = data[os.write(stream, data) :]
    except OSError:
        return status if stream == MESSAGES else NO_STREAM
    return status
