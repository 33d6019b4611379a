"""Builds programs, and the library for C, from their sources without proof."""

from __future__ import annotations

import os
import shlex
import subprocess
import tempfile
from collections.abc import Iterator
from concurrent.futures import ThreadPoolExecutor
from pathlib import Path

from pages.stored import stored

from . import library
from .crates import Repository
from .inlining import hinted
from .kit import TARGET, Failed, Kit, run
from .module import Source, for_any_processor, module_of, source_of, without_checks
from .parts import parted

LEVELS = "x86-64-v2", "x86-64-v3"
NAMES = "bpfspec", "bpfspec_c"
LIBRARY = "bpfspec_c"
# A function of large locals isn't put into its callers: the programs and hosts of the library have small stacks too.
HOW = (
    *("-ffunction-sections", "-fdata-sections", "--no-default-config", "-w"),
    *("-mllvm", "-no-trap-after-noreturn", "-mllvm", "-inline-max-stacksize=32768"),
)
WITHOUT_PROOF, WITH_CHECKS = "built without proof", "built without proof, with checks"
LACKING = 127  # the status of a program for a processor that has more than this one
LIMIT = 120  # seconds of a run


def build(top: Path, name: str, folder: Path, levels: tuple[str, ...], keeps_checks: bool) -> str:
    """Builds a program, or the library, into FOLDER/LEVEL/NAME for each of these levels, and says how it was built.
    The checks stay too where they aren't found under the names that are known."""
    kit, repository = Kit.find(), Repository.read(top)
    with tempfile.TemporaryDirectory(prefix="bpfspec-build-") as made:
        room = Path(made)
        text, libraries = _text(repository, name, kit, room)
        without = None if keeps_checks else without_checks(text)
        text = for_any_processor(hinted(without, repository, libraries) if without else text)
        for level, objects in _compile(kit, text, room, levels, "-fPIC" if name == LIBRARY else "-fPIE").items():
            built = room / f"{level}.built"
            if name == LIBRARY:
                run([kit.clang.with_name("llvm-ar"), "rcs", built, *objects])
            else:
                kit.link(objects, built)
                try_program(built, top, name)
            _put(built, folder / level / name)
    return WITHOUT_PROOF if without else WITH_CHECKS


def _text(repository: Repository, name: str, kit: Kit, room: Path) -> tuple[str, list[str]]:
    """The text of the module, and the crates whose functions it has."""
    if name != LIBRARY:
        source = source_of(repository, name)
        return module_of(repository, source, kit), [*source.libraries, name]
    root = room / "library" / "src" / "main.rt"
    root.parent.mkdir(parents=True)
    root.write_text(library.MAIN)
    source = Source("library", root, repository.needed([name]))
    return library.exported(module_of(repository, source, kit)), source.libraries


def _compile(kit: Kit, text: str, room: Path, levels: tuple[str, ...], place_free: str) -> dict[str, list[Path]]:
    """Compiles the parts of a module side by side, and gives the objects of each of these levels."""
    how = [kit.clang, f"--target={TARGET}", place_free, *HOW, "-c", "-x", "ir"]
    objects: dict[str, list[Path]] = {level: [] for level in levels}
    with ThreadPoolExecutor(len(os.sched_getaffinity(0))) as pool:
        compiled = []
        for part, part_text in parted(text):
            module = room / f"{part.name}.ll"
            module.write_text(part_text, encoding="utf-8")
            for level in levels if part.for_each_level else LEVELS[:1]:
                made = room / f"{part.name}-{level}.o"
                compiled.append(pool.submit(run, [*how, f"-march={level}", part.how, module, "-o", made]))
                for user in (level,) if part.for_each_level else levels:
                    objects[user].append(made)
        for step in compiled:
            step.result()
    return objects


def _put(made: Path, place: Path) -> None:
    """Puts a copy of a file in its place at once."""
    place.parent.mkdir(parents=True, exist_ok=True)
    copy = place.with_name(f".{place.name}.{os.getpid()}")
    copy.write_bytes(made.read_bytes())
    copy.chmod(0o755)
    os.replace(copy, place)


def try_program(program: Path, top: Path, name: str) -> None:
    """Runs a program on its examples; says which it gets wrong. One for a better processor than this is taken as it is."""
    for words, given, wanted in _examples(top, name):
        done = subprocess.run([program, *words], input=given, capture_output=True, timeout=LIMIT, check=False)
        if done.returncode == LACKING:
            return
        if done.stdout != wanted:
            what = f"ends by signal {-done.returncode}" if done.returncode < 0 else "doesn't print what it should"
            raise Failed(f"{name} {what} for the words '{' '.join(words)}'")


def _examples(top: Path, name: str) -> Iterator[tuple[list[str], bytes, bytes]]:
    """The words of a run, its input, and what it has to print."""
    crate = top / "crates" / name
    words = crate / "args"
    yield words.read_text().splitlines() if words.is_file() else [], (crate / "stdin").read_bytes(), (crate / "stdout").read_bytes()
    for command in stored(top):
        given, _, path = command.text.partition(" < ")
        program, *run = shlex.split(given)
        if program == "./bpfspec" and run[0] != "explain":
            yield run, (top / path).read_bytes(), command.output.encode()
