"""The program `bpfspec`, which judges units: it is found, and asked."""

from __future__ import annotations

import os
import re
import shlex
import shutil
import subprocess
from collections.abc import Callable
from dataclasses import dataclass
from typing import Optional

from .refusal import Refused

TOP = os.path.dirname(os.path.dirname(os.path.dirname(os.path.realpath(__file__))))  # of the repository or installation
TIME_LIMIT = 600  # seconds; the first call may build the program
REFUSAL = re.compile(r"refused (V\d+) at slot (\d+)")


@dataclass(frozen=True)
class Fault:
    """What `bpfspec verify` refuses: a rule, and the slot that breaks it."""

    rule: str
    slot: int


Verify = Callable[[str], Optional[Fault]]


def find_program() -> tuple[str, ...]:
    """The words that run it: those of $BPFSPEC, which may be a file's name; else the program of this repository or
    installation, or the one on the path."""
    named = os.environ.get("BPFSPEC", "")
    if named.strip():
        return (named,) if os.path.isfile(named) else tuple(shlex.split(named))
    for place in (os.path.join(TOP, "programs", "bpfspec"), os.path.join(TOP, "bpfspec")):
        if os.path.isfile(place) and os.access(place, os.X_OK):
            return (place,)
    found = shutil.which("bpfspec")
    if not found:
        raise Refused("there is no program bpfspec: $BPFSPEC names it")
    return (found,)


def verify(unit: str) -> Fault | None:
    """Asks the program whether it takes a unit."""
    status, answer = _ask("verify", unit)
    if status == 0 and answer.startswith("accepted"):
        return None
    found = REFUSAL.fullmatch(answer.strip())
    if found is None:
        raise Refused(f"bpfspec doesn't verify the unit: {answer.strip() or f'status {status}'}")
    return Fault(found[1], int(found[2]))


def in_hex(text: str) -> str:
    """A unit in hex form, by the program, and its values as they are."""
    unit, mark, values = text.partition("\n%%\n")
    status, answer = _ask("asm", f"{unit}\n" if mark else unit)
    if status:
        raise Refused(f"bpfspec doesn't write the unit in hex form: {answer.strip() or f'status {status}'}")
    return answer + mark.lstrip() + values


def _ask(command: str, unit: str) -> tuple[int, str]:
    """The status of a command of the program for a unit, and what it prints."""
    program = find_program()
    try:
        words = [*program, command]
        done = subprocess.run(words, input=unit.encode(), stdout=subprocess.PIPE, timeout=TIME_LIMIT, check=False)
    except OSError as reason:
        raise Refused(f"{program[0]} can't be run: {reason.strerror}") from None
    except subprocess.TimeoutExpired:
        raise Refused(f"{program[0]} took more than {TIME_LIMIT} seconds for a unit") from None
    return done.returncode, done.stdout.decode(errors="replace")
