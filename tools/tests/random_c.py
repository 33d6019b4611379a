#!/usr/bin/env python3
"""Compares random programs in C, natively and as units: the answer and the bytes of each global variable.

    tools/tests/random_c.py SEED COUNT [--source]

The programs have the seeds SEED, SEED + 1 and so on; the build of each is given by its seed. With --source they are
printed, and not tried. The status is 1 where anything differs, is refused or ends by a trap that C doesn't have.
"""

from __future__ import annotations

import argparse
import sys
import tempfile
from collections import Counter
from collections.abc import Iterator
from concurrent.futures import ProcessPoolExecutor
from itertools import groupby
from pathlib import Path

sys.path.insert(0, str(Path(__file__).resolve().parents[1]))

from oracle.builds import Build, ClangFailed, builds, has_clang, processes  # noqa: E402
from oracle.compare import Judged, Outcome, judge  # noqa: E402
from oracle.names import Names, names_of  # noqa: E402
from oracle.native import Result, driver_lines, gcc, read_result, run_lines  # noqa: E402
from oracle.random_program import RandomProgram  # noqa: E402
from oracle.random_text import TYPEDEFS  # noqa: E402
from oracle.units import make_ready  # noqa: E402

BATCH = 50  # programs of one native executable
GROUP = 5  # programs of one object for BPF
HEADER = f"#include <linux/bpf.h>\n#include <bpf/bpf_helpers.h>\n{TYPEDEFS}"
ARGUMENTS = (0, 1, 7, 255, 65536, (1 << 64) - 1)


def main() -> int:
    """Tries all programs, and prints what came of them."""
    parser = argparse.ArgumentParser(prog="random_c.py", description=(__doc__ or "").partition("\n")[0])
    parser.add_argument("seed", type=int)
    parser.add_argument("count", type=int)
    parser.add_argument("--source", action="store_true", help="print the programs alone")
    options = parser.parse_args()
    seeds = range(options.seed, options.seed + options.count)
    if options.source:
        print(HEADER + "\n".join(RandomProgram(seed, tag_of(seed)).text for seed in seeds), end="")
        return 0
    if not has_clang():
        print("no clang here that knows BPF: nothing is compared")
        return 0
    make_ready()
    batches = [seeds[at : at + BATCH] for at in range(0, len(seeds), BATCH)]
    judged: list[Judged] = []
    with ProcessPoolExecutor(processes()) as pool:
        for found in pool.map(try_batch, batches):
            judged += found
            for one in found:
                if one.outcome is not Outcome.SAME:
                    print(one, flush=True)
    count = Counter(one.outcome for one in judged)
    print(f"{len(judged)} random programs, {count[Outcome.DIFFERS]} differ, {count[Outcome.TRAPPED]} trapped, "
          f"{count[Outcome.REFUSED]} refused")
    return 1 if count[Outcome.SAME] < len(judged) else 0


def tag_of(seed: int) -> str:
    """What ends all names of a program."""
    return f"_{seed}"


def argument_of(seed: int) -> int:
    """The argument that a program is run with."""
    return ARGUMENTS[seed % len(ARGUMENTS)]


def try_batch(seeds: range) -> list[Judged]:
    """What comes of some programs."""
    with tempfile.TemporaryDirectory(prefix="random_c_") as name:
        folder = Path(name)
        objects = dict(compile_groups(seeds, folder))
        natives = native_results(objects, folder)
        return [judge_seed(seed, build, data, natives[seed]) for seed, (build, data) in objects.items()]


def compile_groups(seeds: range, folder: Path) -> Iterator[tuple[int, tuple[Build, bytes]]]:
    """The object that each program is in, and its build; what clang refuses, as by a large frame, is left out."""
    known = [*builds(is_quick=False)]
    for number, group in groupby(seeds, lambda seed: seed // GROUP):
        build, members = known[number % len(known)], [*group]
        for part in (members, *([seed] for seed in members)):
            source = folder / "group.c"
            source.write_text(HEADER + "".join(RandomProgram(seed, tag_of(seed)).text for seed in part))
            try:
                data = build.compile(source, folder / "group.o")
            except ClangFailed:
                continue
            yield from ((seed, (build, data)) for seed in part)
            if part is members:
                break


def native_results(objects: dict[int, tuple[Build, bytes]], folder: Path) -> dict[int, Result]:
    """What each program does natively: one executable has all of them."""
    source = folder / "all.c"
    source.write_text(HEADER + "".join(RandomProgram(seed, tag_of(seed)).text for seed in objects))
    driver = folder / "driver.c"
    names = {seed: own_names(data, seed) for seed, (_, data) in objects.items()}
    driver.write_text("".join(f"{line}\n" for line in driver_lines(source, [*names.values()])))
    executable = gcc(driver, folder / "all", "-O0")
    lines = iter(run_lines(executable, [str(argument_of(seed)) for seed in objects]))
    return {seed: read_result(lines) for seed in objects}


def own_names(data: bytes, seed: int) -> Names:
    """What one program of an object names."""
    names = names_of(data)
    parts = (names.mains, names.maps, names.variables)
    return Names(*(tuple(name for name in part if name.endswith(tag_of(seed))) for part in parts))


def judge_seed(seed: int, build: Build, data: bytes, native: Result) -> Judged:
    """Compares one program."""
    main_name = f"main{tag_of(seed)}"
    return judge(f"seed {seed}", str(build), data, main_name, {argument_of(seed): native}, with_run=seed % 2 == 0)


if __name__ == "__main__":
    sys.exit(main())
