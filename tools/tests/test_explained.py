#!/usr/bin/env python3
"""Tests of `explain` that need no program which makes facts: its command line, names of elements, and how it ends."""

from __future__ import annotations

import os
import subprocess
import sys
import tempfile
import unittest
from pathlib import Path

TOP = Path(__file__).resolve().parents[2]
sys.path.insert(0, str(TOP / "tools"))

from explain.command_line import Ask, HelpAsked, UsageError, jaro, most_similar, read_words  # noqa: E402
from explain.loops import Access, Names, access_of  # noqa: E402
from explain.pictures import draw_events  # noqa: E402

MEMORY = '{"record":"end","status":4}'
LISTED = "; map 0: .bss\n;   total from element 0\n;   low from element 1\n;   high from byte 4 of element 1, of 2\n"


class CommandLine(unittest.TestCase):
    """What words ask for, and what is wrong with them."""

    def test_options(self) -> None:
        self.assertEqual(read_words([]), Ask())
        asked = read_words(["--hex", "--arg", "+7", "--test=lrpd", "--states", "--all", "--picture"])
        self.assertEqual(asked, Ask(hex=True, argument=7, test="lrpd", states=True, all=True, picture=True))

    def test_help(self) -> None:
        for words, begin in ((["--help"], "Explains why"), (["-V"], "bpfspec explain 0.1.0\n"), (["-hx"], "Explains")):
            with self.assertRaises(HelpAsked) as asked:
                read_words(words)
            self.assertTrue(str(asked.exception).startswith(begin))

    def test_errors(self) -> None:
        plain, end = "\n\nUsage: bpfspec explain [OPTIONS]", "\n\nFor more information, try '--help'.\n"
        similar = "\n\n  tip: a similar argument exists: '--states'\n\nUsage: bpfspec explain --hex --states"
        wanted = "--arg wants a number from 0 to 18446744073709551615, and --test wants flow or lrpd" + plain
        for words, error in (
            (["x"], f"unexpected argument 'x' found{plain}"),
            (["--", "--hex"], f"unexpected argument '--hex' found{plain}"),
            (["--arg", "-5"], f"unexpected argument '-5' found{plain}"),
            (["--hex", "--state"], f"unexpected argument '--state' found{similar}"),
            (["--hex", "--hex"], f"the argument '--hex' cannot be used multiple times{plain}"),
            (["--arg=1", "--arg", "2"], f"the argument '--arg <N>' cannot be used multiple times{plain}"),
            (["--arg", "--hex"], "a value is required for '--arg <N>' but none was supplied"),
            (["--hex=1"], f"unexpected value '1' for '--hex' found; no more were expected{plain[:-9]}--hex"),
            (["--arg="], wanted),
            (["--arg", "18446744073709551616"], wanted),
            (["--test", "Flow"], wanted),
            (["\udcff"], f"a word isn't UTF-8{plain}"),
        ):
            with self.subTest(words=words), self.assertRaises(UsageError) as raised:
                read_words(words)
            self.assertEqual(str(raised.exception), f"error: {error}{end}")

    def test_similar(self) -> None:
        self.assertAlmostEqual(jaro("martha", "marhta"), 0.944, 3)
        self.assertAlmostEqual(jaro("dixon", "dicksonx"), 0.767, 3)
        self.assertEqual((jaro("", "a"), jaro("", ""), jaro("a", "b")), (0.0, 1.0, 0.0))
        self.assertIsNone(most_similar("zzz", ["hex", "all"]))


class Words(unittest.TestCase):
    """Parts of what is printed."""

    def test_names(self) -> None:
        names = Names(LISTED)
        self.assertEqual(names.at(0, 0), ": total")
        self.assertEqual(names.at(0, 1), ": low and high")
        self.assertEqual(names.at(0, 2), ": high")
        self.assertEqual(names.at(1, 0), "")

    def test_names_of_maps(self) -> None:
        self.assertEqual(Names("; map +01: counts\n").at(1, 5), ": counts")
        self.assertEqual(Names("; map 1: a;b\n; map 4294967296: c\n;   x from element 0\n").at(1, 5), ": x")
        long = "é" * 60
        self.assertEqual(Names(f"; map 0: {long}\n").at(0, 0), f": {long[:50]}")

    def test_list_that_was_cut(self) -> None:
        lines = "".join(f";   v{at} from element {at}\n" for at in range(64))
        names = Names(f"; map 0: .data\n{lines}")
        self.assertEqual((names.at(0, 63), names.at(0, 64)), (": v63", ""))

    def test_accesses(self) -> None:
        for insn, words in (
            ("ldx64 r0, [r3+0]", "reads it"),
            ("ldxs16 r0, [r3+0]", "reads half of it"),
            ("st8 [r3+0], 1", "stores half of it"),
            ("atomic64 add [r3+0], r1", "reduces it by add"),
            ("atomic32 xor [r3+0], r1", "reduces half of it by xor"),
            ("atomic64 or_fetch [r3+0], r1", "fetches it, and ors"),
            ("atomic32 cmpxchg [r3+0], r1", "fetches it, and stores"),
        ):
            access = access_of(insn)
            self.assertEqual(access.words() if access else None, words)
        self.assertEqual([access_of(insn) for insn in ("exit", "ldmap r1, 0", "", None)], [None] * 4)
        self.assertEqual(access_of("stx32 [r1+0], r2"), Access("writes", False))

    def test_events(self) -> None:
        picture = draw_events([("c", 0), ("s", 0), ("t", 16)])
        self.assertIn("<title>replay: 3 events</title>", picture)
        self.assertEqual(picture.count('<rect class="w"'), 1)  # that of the legend


class Endings(unittest.TestCase):
    """How the program ends if the one that makes the facts doesn't end well."""

    def run_with(self, script: str, *words: str) -> tuple[int, str, str]:
        """The status and the outputs with a program that is this script."""
        with tempfile.TemporaryDirectory() as folder:
            program = Path(folder, "bpfspec")
            program.write_text(f"#!/bin/sh\n{script}\n", encoding="utf-8")
            program.chmod(0o755)
            return explain(str(program), *words)

    def test_memory(self) -> None:
        for words, output in (([], "refused memory\n"), (["--json"], f"{MEMORY}\n")):
            self.assertEqual(self.run_with(f"echo '{MEMORY}'", *words), (4, output, ""))

    def test_crash(self) -> None:
        header = '{"record":"header","version":1}'
        for script in ("kill -9 $$", f"echo '{header}'; kill -9 $$", "exit 3", "echo nothing", "cat"):
            status, output, errors = self.run_with(script)
            self.assertEqual((status, output, errors.count("\n")), (70, "", 1))

    def test_no_program(self) -> None:
        for program in ("/nowhere/bpfspec", "a 'quote"):
            status, output, errors = explain(program)
            self.assertEqual((status, output), (70, ""))
            self.assertTrue(errors.startswith("bpfspec explain: bpfspec can't be started: "))

    def test_closed_output(self) -> None:
        command = f"{sys.executable} {TOP}/tools/explain --help >&-"
        done = subprocess.run(["sh", "-c", command], capture_output=True, check=False)
        self.assertEqual((done.returncode, done.stderr), (5, b""))


def explain(program: str, *words: str) -> tuple[int, str, str]:
    """The status and the outputs with a program that makes the facts."""
    env = {**os.environ, "BPFSPEC": program}
    done = subprocess.run(
        [sys.executable, TOP / "tools" / "explain", *words], input="maps 1\n", capture_output=True, text=True, env=env
    )
    return done.returncode, done.stdout, done.stderr


if __name__ == "__main__":
    unittest.main()
