"""What a program in C does by the machine's own compiler: `bpf_loop` is a `for`, a map is its values in memory."""

from __future__ import annotations

import subprocess
from collections.abc import Iterable, Iterator, Sequence
from dataclasses import dataclass, replace
from pathlib import Path

from .builds import STAND_INS, TESTS
from .names import Names

FLAGS = ("-w", "-std=gnu11", "-fwrapv", "-fno-strict-aliasing", "-fno-builtin")
LEVEL = "-O1"
SKIPPED = "-"
HEADERS = (TESTS / "native", STAND_INS)
GCC_SECONDS = 120
RUN_SECONDS = 20


class NativeFailed(Exception):
    """The machine's own compiler, or what it made, failed."""


@dataclass(frozen=True)
class Result:
    """What a run of a main function leaves: its answer, the bits of it that C defines, the bytes of what is named."""

    answer: int
    bits: int
    variables: dict[str, bytes]

    @property
    def known_answer(self) -> int:
        return self.answer & (1 << self.bits) - 1


def compile_native(source: Path, names: Names, folder: Path) -> Path:
    """The executable of a source file, with a word for each of its main functions."""
    copy = folder / f"{source.stem}_copy.c"  # in a folder of its own, where no header for BPF lies beside it
    copy.write_bytes(source.read_bytes())
    driver = folder / f"{source.stem}_native.c"
    parts = [replace(names, mains=(main,)) for main in names.mains]
    driver.write_text("".join(f"{line}\n" for line in driver_lines(copy, parts)))
    return gcc(driver, folder / f"{source.stem}_native", LEVEL, (*HEADERS, source.parent))


def gcc(source: Path, target: Path, level: str, headers: Iterable[Path] = HEADERS) -> Path:
    """Compiles with the machine's own compiler."""
    words = ["gcc", level, *FLAGS, *(f"-I{path}" for path in headers), str(source), "-o", str(target)]
    done = subprocess.run(words, capture_output=True, text=True, errors="replace", timeout=GCC_SECONDS)
    if done.returncode:
        errors = [line for line in done.stderr.splitlines() if "error" in line]
        raise NativeFailed(f"gcc makes nothing of it: {next(iter(errors), '')}")
    return target


def driver_lines(source: Path, parts: Sequence[Names]) -> Iterator[str]:
    """A source file that includes programs, and calls the main functions that have an argument among its words.

    Behind each call it prints what is named together with that main function, and an empty line.
    """
    yield f'#include "{source}"'
    yield "#include <native.h>"
    yield "int main(int native_argc, char **native_argv) {"
    for name in dict.fromkeys(name for part in parts for name in part.maps):
        yield f"    native_add_map(&{name}, sizeof(*{name}.max_entries) / sizeof(int), sizeof(*{name}.value));"
    for number, part in enumerate(parts, 1):
        for main in part.mains:
            argument = f"strtoull(native_argv[{number}], 0, 0)"
            yield f"    if (native_argv[{number}][0] != '{SKIPPED}') {{"
            yield f'        printf("return %lld %d\\n", (long long){main}({argument}), 8 * (int)sizeof({main}(0)));'
            yield from (f'        native_print_map("{name}", &{name});' for name in part.maps)
            yield from (f'        native_print("{name}", (void *)&{name}, sizeof({name}));' for name in part.variables)
            yield '        printf("\\n");'
            yield "    }"
    yield "    return 0;"
    yield "}"


def run_native(executable: Path, number: int, mains: int, argument: int) -> Result:
    """Runs one of the main functions of an executable of `compile_native`."""
    return read_result(iter(run_lines(executable, [str(argument) if k == number else SKIPPED for k in range(mains)])))


def run_lines(executable: Path, words: Iterable[str]) -> list[str]:
    """The lines that an executable prints."""
    try:
        done = subprocess.run([str(executable), *words], capture_output=True, text=True, timeout=RUN_SECONDS)
    except subprocess.TimeoutExpired:
        raise NativeFailed(f"it takes more than {RUN_SECONDS} seconds natively") from None
    if done.returncode:
        raise NativeFailed(f"natively it ends with {done.returncode}: {done.stderr.strip()}")
    return done.stdout.splitlines()


def read_result(lines: Iterator[str]) -> Result:
    """Reads the lines of one run, up to an empty one or the end."""
    _, answer, bits = next(lines).split()
    variables = {}
    for line in lines:
        if not line:
            break
        name, _, digits = line.partition(" ")
        variables[name] = bytes.fromhex(digits)
    return Result(int(answer), int(bits), variables)
