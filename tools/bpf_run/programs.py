"""The programs that do the work: how one is run so that it tells of the time and ends with us."""

from __future__ import annotations

import os
import signal
import subprocess
import sys
import tempfile
import time
from collections.abc import Callable
from dataclasses import dataclass
from pathlib import Path
from types import FrameType
from typing import IO

from bpf_object.refusal import Refused

TOOLS = Path(__file__).resolve().parent.parent
EXPLAIN = (sys.executable, str(TOOLS / "explain"))
TICK = 0.2  # seconds from one look at the clock to the next
GRACE = 2.0  # seconds that a program has to end
STREAMS = 3  # standard input, output and errors
ENDING = (signal.SIGTERM, signal.SIGHUP, signal.SIGINT)

# The program's exit status, as docs/FORMATS.md has it.
DONE, REFUSED, NO_TEXT, NO_COMMAND, NO_MEMORY, NO_STREAM = range(6)


class Interrupted(Exception):
    """A signal asked for the end."""


@dataclass(frozen=True)
class Answer:
    """What a program printed on standard output, and its status."""

    output: str
    status: int


def fill_streams() -> None:
    """Opens the null device for the standard streams that are closed, whose numbers our own files would get."""
    for number in range(STREAMS):
        try:
            os.fstat(number)
        except OSError:
            os.open(os.devnull, os.O_RDWR)  # as the lowest number that is free
    if sys.stderr is None:
        sys.stderr = open(os.devnull, "w")  # `print` takes None for standard output


def catch_signals() -> None:
    """Lets the signals that end a program end what it runs first; SIGHUP that is ignored, as by nohup, stays so."""
    for number in ENDING:
        if number != signal.SIGHUP or signal.getsignal(number) != signal.SIG_IGN:
            signal.signal(number, _interrupt)


def _interrupt(number: int, _: FrameType | None) -> None:
    for other in ENDING:
        signal.signal(other, signal.SIG_IGN)
    raise Interrupted(signal.Signals(number).name)


class Clock:
    """Tells each second on standard error how long it has taken."""

    def __init__(self) -> None:
        self._start = time.monotonic()
        self._is_terminal = sys.stderr.isatty()
        self._told = 0

    @property
    def seconds(self) -> int:
        return int(time.monotonic() - self._start)

    def tell(self) -> None:
        """Tells a second that has passed."""
        if self.seconds > self._told:
            self._told = self.seconds
            end = "\r" if self._is_terminal else "\n"
            print(f"{self._told} s", end=end, file=sys.stderr, flush=True)

    def clear(self) -> None:
        """Takes what was told from a terminal's line."""
        if self._told and self._is_terminal:
            print("\x1b[K", end="", file=sys.stderr, flush=True)


def run(
    words: tuple[str, ...],
    text: str,
    clock: Clock,
    seconds: float | None = None,
    errors: IO[bytes] | None = None,
    begin: Callable[[], None] | None = None,
) -> Answer | None:
    """Runs a program on a text; None if it takes longer than that. Its errors go to ours, or to a file.

    `begin` is called in the new process before the program.
    """
    with tempfile.TemporaryFile() as file:  # and no pipe, of which `communicate` writes nothing more once it timed out
        file.write(text.encode())
        file.seek(0)
        try:
            child = subprocess.Popen(
                words, stdin=file, stdout=subprocess.PIPE, stderr=errors, start_new_session=True, preexec_fn=begin
            )
        except OSError as reason:
            raise Refused(f"{words[0]}: {reason.strerror}") from None
    try:
        output = _communicate(child, clock, seconds)
    except subprocess.TimeoutExpired:
        return None
    finally:
        _end(child)
        clock.clear()
    return Answer(output.decode(errors="replace"), child.returncode)


def _communicate(child: subprocess.Popen[bytes], clock: Clock, seconds: float | None) -> bytes:
    until = None if seconds is None else time.monotonic() + seconds
    while True:
        try:
            return child.communicate(timeout=TICK)[0]
        except subprocess.TimeoutExpired:
            clock.tell()
            if until is not None and time.monotonic() > until:
                raise


def _end(child: subprocess.Popen[bytes]) -> None:
    """Ends a program that hasn't, with all that it runs, which is its process group."""
    if child.poll() is not None:
        return
    os.killpg(child.pid, signal.SIGTERM)
    try:
        child.wait(GRACE)
    except subprocess.TimeoutExpired:
        os.killpg(child.pid, signal.SIGKILL)
        child.wait()
