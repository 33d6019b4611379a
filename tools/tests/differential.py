#!/usr/bin/env python3
"""Compares programs in C, natively and as units: the answer and the bytes of each global variable.

    tools/tests/differential.py [--quick] [PROGRAM.c ...]

Each program of tools/tests/c, of examples/from_c and of what is named is compiled by gcc and by clang at -O1, -O2 and
-Os for each instruction set that this clang knows. The unit runs by `order`, and by `run` with several workers. With
--quick it is compiled for v2 at one of these levels and for v3 at the next one, by turns, and runs with one argument.
It counts the loop calls whose callback has a list of row operations, by which iterations may go together: no contract
says that it has. The status is 1 where anything differs, is refused or ends by a trap, or where fewer than 60 in 100 of
the loop calls that ran have a list: callbacks of more than 110 instructions often need more rows than there are.
"""

from __future__ import annotations

import argparse
import sys
import tempfile
from collections import Counter
from concurrent.futures import ProcessPoolExecutor
from functools import partial
from pathlib import Path

sys.path.insert(0, str(Path(__file__).resolve().parents[1]))

from oracle.builds import REPOSITORY, TESTS, Build, ClangFailed, builds, has_clang, processes  # noqa: E402
from oracle.builds import turned_builds  # noqa: E402
from oracle.compare import Judged, Outcome, judge  # noqa: E402
from oracle.names import Names, names_of  # noqa: E402
from oracle.native import NativeFailed, compile_native, run_native  # noqa: E402
from oracle.units import make_ready  # noqa: E402

ARGUMENTS = (0, 7)
QUICK_ARGUMENTS = (7,)
LEAST_LISTS = 0.6  # of all loop calls
FOLDERS = (TESTS / "c", REPOSITORY / "examples" / "from_c")


def main() -> int:
    """Compares all programs, and prints what came of them."""
    parser = argparse.ArgumentParser(prog="differential.py", description=(__doc__ or "").partition("\n")[0])
    parser.add_argument("--quick", action="store_true", help="v2 at one level and v3 at the next, and one argument")
    parser.add_argument("--all", action="store_true", help="print the builds that are the same too")
    parser.add_argument("programs", nargs="*", type=Path, help="sources in C, instead of those of the folders")
    options = parser.parse_args()
    if not has_clang():
        print("no clang here that knows BPF: nothing is compared")
        return 0
    make_ready()
    sources = options.programs or [path for folder in FOLDERS for path in sorted(folder.glob("*.c"))]
    judged: list[Judged] = []
    tried = [[*turned_builds(number)] if options.quick else [*builds(is_quick=False)] for number in range(len(sources))]
    arguments = QUICK_ARGUMENTS if options.quick else ARGUMENTS
    with ProcessPoolExecutor(processes()) as pool:
        for found in pool.map(partial(compare, arguments=arguments), sources, tried):
            for one in found:
                judged.append(one)
                if options.all or one.outcome is not Outcome.SAME:
                    print(one, flush=True)
    for line in verdict_lines(judged):
        print(line)
    count = Counter(one.outcome for one in judged)
    print(
        f"{len(sources)} programs, {len(judged)} builds, {count[Outcome.DIFFERS]} differ, "
        f"{count[Outcome.TRAPPED]} trapped, {count[Outcome.REFUSED]} refused"
    )
    lists = [has_list for one in judged for _, has_list in one.lists]
    for one in judged:
        if without := [slot for slot, has_list in one.lists if not has_list]:
            print(f"no list: {one.name} {one.build}: calls at {', '.join(map(str, without))}")
    print(f"{sum(lists)} of {len(lists)} loop calls have a list")
    return 1 if count[Outcome.SAME] < len(judged) or sum(lists) < LEAST_LISTS * len(lists) else 0


def compare(source: Path, tried: list[Build], arguments: tuple[int, ...]) -> list[Judged]:
    """What comes of each build and each main function of a program."""
    with tempfile.TemporaryDirectory(prefix="differential_") as name:
        folder = Path(name)
        try:
            objects = {build: build.compile(source.resolve(), folder / "x.o") for build in tried}
            names = all_names(objects)
            executable = compile_native(source.resolve(), names, folder)
            natives = {
                main: {n: run_native(executable, number, len(names.mains), n) for n in arguments}
                for number, main in enumerate(names.mains)
            }
        except (ClangFailed, NativeFailed) as reason:
            return [Judged(source.name, "", Outcome.DIFFERS, (str(reason),))]
        return [
            judge(title(source, main, names), str(build), data, main, natives[main], with_run=True)
            for build, data in objects.items()
            for main in names.mains
        ]


def all_names(objects: dict[Build, bytes]) -> Names:
    """What all builds of a program name."""
    joined = Names((), (), ())
    for data in objects.values():
        joined = joined.joined(names_of(data))
    return joined


def title(source: Path, main: str, names: Names) -> str:
    """What a program is called in the lines that are printed: by its folder too, since two have a file of one name."""
    name = f"{source.resolve().parent.name}/{source.name}"
    return name if len(names.mains) == 1 else f"{name} {main}"


def verdict_lines(judged: list[Judged]) -> list[str]:
    """The programs whose loops get other verdicts by another instruction set, at -O2: not wrong, and worth a look."""
    by_name: dict[str, dict[str, Counter[str]]] = {}
    for one in judged:
        if one.verdicts and one.build.startswith("-O2"):
            kinds = Counter(verdict.partition(" ")[0] for verdict in one.verdicts)
            by_name.setdefault(one.name, {})[one.build] = kinds
    return [
        f"verdicts: {name}: " + "; ".join(f"{build}: {dict(kinds)}" for build, kinds in found.items())
        for name, found in by_name.items()
        if len({frozenset(kinds.items()) for kinds in found.values()}) > 1
    ]


if __name__ == "__main__":
    sys.exit(main())
