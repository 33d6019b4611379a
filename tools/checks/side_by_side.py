"""Commands that run beside each other, with the output of each apart."""

from __future__ import annotations

import os
import shlex
import subprocess
import sys
import tempfile
import time
from collections.abc import Sequence
from dataclasses import dataclass, field
from pathlib import Path
from typing import BinaryIO


@dataclass(frozen=True)
class Check:
    """A command whose status is 0 if all is well."""

    words: str  # as a shell reads them
    seconds: int = 0  # that it takes, roughly: the longest start first
    needs: tuple[Check, ...] = ()  # checks that have to pass before it starts
    spreads: bool = False  # it uses all processors by itself, so it gives way to checks that use one
    is_alone: bool = False  # it starts after all others, and nothing runs beside it


@dataclass
class Started:
    """A check that runs, and what it has written."""

    check: Check
    process: subprocess.Popen[bytes]
    output: BinaryIO
    at: float = field(default_factory=time.monotonic)


@dataclass(frozen=True)
class Ended:
    """What came of a check."""

    title: str
    output: bytes
    has_passed: bool


class SideBySide:
    """Checks, as many of which run at a time as there may."""

    def __init__(self, checks: Sequence[Check], at_once: int) -> None:
        self._checks = checks
        self._at_once = at_once
        self._waiting = sorted(checks, key=self._seconds_to_end, reverse=True)
        self._running: dict[int, Started] = {}  # by the number of the process
        self._ended: dict[Check, Ended] = {}
        self._printed = 0

    def run(self, folder: Path) -> tuple[int, int]:
        """Runs all checks in a folder, prints what each wrote in the order of the list, and returns how many passed and
        how many failed."""
        try:
            while self._waiting or self._running:
                for check in [*self._waiting]:
                    self._start_or_give_up(check, folder)
                if self._running:
                    self._wait()
                self._print()
        finally:
            for started in self._running.values():
                started.process.terminate()
        passed = sum(ended.has_passed for ended in self._ended.values())
        return passed, len(self._checks) - passed

    def _seconds_to_end(self, check: Check) -> int:
        """How long a check takes with those that need it."""
        after = (self._seconds_to_end(other) for other in self._checks if check in other.needs)
        return check.seconds + max(after, default=0)

    def _start_or_give_up(self, check: Check, folder: Path) -> None:
        """Starts a check if it may start now. It never starts if one that it needs has failed."""
        failed = next((need for need in check.needs if need in self._ended and not self._ended[need].has_passed), None)
        if failed is not None:
            self._waiting.remove(check)
            self._ended[check] = Ended("not run", f"it needs what failed: {failed.words}\n".encode(), False)
        elif self._may_start(check):
            self._waiting.remove(check)
            self._start(check, folder)

    def _start(self, check: Check, folder: Path) -> None:
        """Starts a check. What it writes goes to a file of its own."""
        output = tempfile.TemporaryFile()
        words = [*(["nice"] if check.spreads else []), *shlex.split(check.words)]
        try:
            process = subprocess.Popen(words, stdin=subprocess.DEVNULL, stdout=output, stderr=output, cwd=folder)
        except OSError as error:
            output.close()
            self._ended[check] = Ended("not run", f"{error}\n".encode(), False)
        else:
            self._running[process.pid] = Started(check, process, output)

    def _may_start(self, check: Check) -> bool:
        """Whether what a check needs has ended, and there is room for it."""
        if any(need not in self._ended for need in check.needs):
            return False
        if check.is_alone:
            return not self._running and all(other.is_alone for other in self._waiting)
        return len(self._running) < self._at_once

    def _wait(self) -> None:
        """Waits for the next check to end."""
        number, status, used = os.wait4(-1, 0)
        started = self._running.pop(number, None)
        if started is None:
            return
        started.process.returncode = os.waitstatus_to_exitcode(status)
        took, processors = time.monotonic() - started.at, used.ru_utime + used.ru_stime
        started.output.seek(0)
        title = f"{took:.0f} s, {processors:.0f} s of processors"
        with started.output as output:
            self._ended[started.check] = Ended(title, output.read(), status == 0)

    def _print(self) -> None:
        """Prints the checks that ended, up to the first in the list that hasn't."""
        while self._printed < len(self._checks) and self._checks[self._printed] in self._ended:
            check = self._checks[self._printed]
            ended = self._ended[check]
            self._printed += 1
            print(f"== {check.words}: {ended.title}", flush=True)
            sys.stdout.buffer.write(ended.output)
            sys.stdout.buffer.write(b"" if ended.output.endswith(b"\n") or not ended.output else b"\n")
            sys.stdout.buffer.flush()
            if not ended.has_passed:
                print(f"failed: {check.words}", flush=True)
