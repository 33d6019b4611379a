#!/usr/bin/env python3
"""Gives damaged objects to elf2unit: it makes a unit of them, or refuses them in one line, and soon.

    tools/tests/hostile.py [SEED [COUNT]]

Objects of examples/from_c, and of some programs of tools/tests/c where there is a clang, have bytes flipped, cut, taken
out and put in, and headers, relocations and symbols with other numbers. The status of elf2unit has to be 0 or 2; with 2
there is one line on standard error and nothing on standard output; with 0 standard output is a unit that `bpfspec asm`
takes. The status is 1 where anything else comes out.
"""

from __future__ import annotations

import argparse
import importlib.machinery
import importlib.util
import os
import signal
import sys
import tempfile
from collections import Counter
from collections.abc import Iterator
from dataclasses import dataclass
from pathlib import Path
from types import ModuleType

sys.path.insert(0, str(Path(__file__).resolve().parents[1]))

from oracle.builds import REPOSITORY, TESTS, Build, has_clang  # noqa: E402
from oracle.damage import damaged  # noqa: E402
from oracle.units import UnitRefused, ask, make_ready  # noqa: E402

COUNT = 400
SECONDS = 5  # of the processor
WALL_SECONDS = 60  # on a machine that does much else
MEMORY = 1 << 20  # KiB
TAKEN, REFUSED = 0, 2
COMPILED = ("flags", "map_values", "tcp_flags", "two_programs", "pointer_table", "game_of_life", "interpreter")
BUILD = Build("-O2", "v3")
PLAIN = {
    "empty": b"",
    "source": b"#include <linux/bpf.h>\nint main(void) { return 0; }\n",
    "zeros": bytes(4096),
    "beginning": b"\x7fELF\x02\x01\x01",
    "another_machine": b"\x7fELF\x02\x01\x01" + bytes(9) + b"\x01\x00\x3e\x00" + bytes(200),
    "long": b"\x7fELF\x02\x01\x01" + bytes(2 << 20),
}


@dataclass(frozen=True)
class Answer:
    """What elf2unit gave: its status, or the signal that ended it as a negative one, and what it wrote."""

    status: int
    output: bytes
    errors: bytes
    seconds: float  # of the processor
    memory: int  # KiB


def main() -> int:
    """Tries all objects, and prints what was wrong."""
    parser = argparse.ArgumentParser(prog="hostile.py", description=(__doc__ or "").partition("\n")[0])
    parser.add_argument("seed", type=int, nargs="?", default=0)
    parser.add_argument("count", type=int, nargs="?", default=COUNT)
    parser.add_argument("--keep", type=Path, help="a folder for the objects that something was wrong with")
    options = parser.parse_args()
    make_ready()
    elf2unit = load_command(REPOSITORY / "tools" / "elf2unit")
    statuses: Counter[int] = Counter()
    wrong = 0
    with tempfile.TemporaryDirectory(prefix="hostile_") as name:
        folder = Path(name)
        for title, data in objects(options.seed, options.count, folder):
            path = folder / "damaged.o"
            path.write_bytes(data)
            answer = answer_of(elf2unit, path, folder)
            statuses[answer.status] += 1
            reason = fault_of(answer)
            if reason:
                wrong += 1
                print(f"wrong: {title}: {reason}")
                if options.keep:
                    (options.keep / f"{title.replace(' ', '_')}.o").write_bytes(data)
    print(f"{sum(statuses.values())} objects, {statuses[TAKEN]} taken, {statuses[REFUSED]} refused, {wrong} wrong")
    return 1 if wrong else 0


def objects(seed: int, count: int, folder: Path) -> Iterator[tuple[str, bytes]]:
    """What is tried: what is no object at all, and damaged ones."""
    yield from PLAIN.items()
    whole = {path.stem: path.read_bytes() for path in sorted((REPOSITORY / "examples" / "from_c").glob("*.o"))}
    if has_clang():
        for name in COMPILED:
            whole[name] = BUILD.compile(TESTS / "c" / f"{name}.c", folder / "whole.o")
    names = [*whole]
    for number in range(seed, seed + count):
        name = names[number % len(names)]
        yield f"{name} seed {number}", damaged(number, whole[name])


def load_command(path: Path) -> ModuleType:
    """A command as a module, so that each run of it is a fork and not a new interpreter."""
    loader = importlib.machinery.SourceFileLoader(path.name, str(path))
    module = importlib.util.module_from_spec(importlib.util.spec_from_loader(path.name, loader))
    loader.exec_module(module)
    return module


def answer_of(command: ModuleType, path: Path, folder: Path) -> Answer:
    """Runs a command on a file in a process of its own."""
    output, errors = folder / "output", folder / "errors"
    child = os.fork()
    if child == 0:
        run_child(command, path, output, errors)
    _, status, used = os.wait4(child, 0)
    code = -os.WTERMSIG(status) if os.WIFSIGNALED(status) else os.WEXITSTATUS(status)
    return Answer(code, output.read_bytes(), errors.read_bytes(), used.ru_utime + used.ru_stime, used.ru_maxrss)


def run_child(command: ModuleType, path: Path, output: Path, errors: Path) -> None:
    """What the process of a command does; it doesn't return."""
    status = 1
    try:
        for number, file in ((1, output), (2, errors)):
            os.dup2(os.open(file, os.O_WRONLY | os.O_CREAT | os.O_TRUNC, 0o600), number)
        sys.stdout, sys.stderr = open(1, "w", closefd=False), open(2, "w", closefd=False)
        signal.alarm(WALL_SECONDS)
        sys.argv = [str(path.name), str(path)]
        status = command.main()
    except SystemExit as end:
        status = end.code if isinstance(end.code, int) else 1
    except BaseException as fault:  # what an interpreter of its own would print a trace of
        print(f"Traceback: {type(fault).__name__}: {fault}", file=sys.stderr)
    finally:
        sys.stdout.flush()
        sys.stderr.flush()
        os._exit(status)


def fault_of(answer: Answer) -> str | None:
    """What is wrong with an answer, if anything is."""
    errors = answer.errors.decode(errors="replace")
    if answer.status == -signal.SIGALRM:
        return f"no answer within {WALL_SECONDS} seconds"
    if answer.seconds > SECONDS:
        return f"it takes {answer.seconds:.1f} seconds of the processor, of at most {SECONDS}"
    if answer.memory > MEMORY:
        return f"it takes {answer.memory >> 10} MiB, of at most {MEMORY >> 10}"
    if answer.status not in (TAKEN, REFUSED):
        return f"status {answer.status}: {errors.strip()[-300:]}"
    if answer.status == REFUSED:
        if answer.output:
            return "refused, and something on standard output"
        if len(errors.splitlines()) != 1 or not errors.endswith("\n"):
            return f"refused with {len(errors.splitlines())} lines on standard error"
        return None
    try:
        ask(["asm"], answer.output.decode())
    except (UnitRefused, UnicodeDecodeError) as reason:
        return f"a unit that asm doesn't take: {reason}"
    return None


if __name__ == "__main__":
    sys.exit(main())
