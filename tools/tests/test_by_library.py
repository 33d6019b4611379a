#!/usr/bin/env python3
"""Compares what tools/bpfrun does by the library for C with what it does by the program.

    BPFSPEC_LIBRARY=FOLDER python3 tools/tests/test_by_library.py

The folder is of `./bpfspec library`. The program is that of $BPFSPEC, else ./bpfspec.
"""

from __future__ import annotations

import json
import os
import random
import shutil
import subprocess
import unittest
import unittest.mock

from test_bpfrun import BPFRUN, ENVIRONMENT, EXAMPLES, LIMIT, SOURCES, TOP, InFolder, lines_without_time

from bpf_run import compiler
from bpf_run.programs import Clock

FOLDER = os.environ.get("BPFSPEC_LIBRARY", "")
NO_PROGRAM = {"BPFSPEC": "/bin/false"}
Done = tuple[int, str, list[str]]


def bpfrun(*words: object, **variables: str) -> Done:
    """The status, the output and the errors of a command."""
    environment = {**ENVIRONMENT, **variables}
    words = [str(BPFRUN), *map(str, words)]
    done = subprocess.run(words, capture_output=True, text=True, timeout=LIMIT, cwd=TOP, env=environment)
    return done.returncode, done.stdout, lines_without_time(done.stderr)


@unittest.skipUnless(FOLDER, "BPFSPEC_LIBRARY names no folder")
class ByLibrary(InFolder):
    def compared(self, *words: object) -> Done:
        """A command by the library, which is as by the program."""
        by_library = bpfrun(*words)
        self.assertEqual(by_library, bpfrun(*words, BPFSPEC_LIBRARY=""), words)
        return by_library

    def object(self, name: str) -> str:
        """The object of a source of the tests."""
        data = compiler.compiled(str(SOURCES / f"{name}.c"), Clock()).data
        return str(self.file(f"{name}.o", data))

    def test_no_program_is_needed_without_loops(self) -> None:
        plain, saved = self.object("plain"), self.folder / "saved"
        words = ["run", "--arg", 3, "--arg", "-5", "--arg", 0x6B, "--save", saved, "--limit", 1000, plain]
        status, output, errors = bpfrun(*words, **NO_PROGRAM)
        lines = output.splitlines()
        # -5 & 7 is 3 and -5 & 3 is 3, as of 3 and of 107: each is added 4 times.
        self.assertEqual([line for line in lines if line.startswith("return")], ["return -1", "return -2", "return -3"])
        self.assertLessEqual({"sums = {0, 0, 0, 420}", 'name = "Start"'}, {*lines})
        self.assertEqual((status, errors), (0, []))
        self.assertEqual(json.loads(saved.read_text())["stats"], {"seen": 3, "last": -107, "kind": "HUGE"})

    def test_commands_without_loops(self) -> None:
        plain = self.object("plain")
        arguments = [word for number in (1, 2, "-1", 0, 255) for word in ("--arg", number)]
        for words in (
            ["run", plain],
            ["run", *arguments, plain],
            ["run", "--json", *arguments, plain],
            ["run", "--only", "sums", "--workers", 4, "--blocks", 16, "--test", "lrpd", "--arg", 2, plain],
            ["run", "--limit", 5, plain],
            ["run", "--as-is", "--arg", 1, plain],
            ["run", "--main", "second", self.object("two")],
            ["verify", plain],
            ["verify", "--json", plain],
            ["explain", plain],
            ["unit", plain],
        ):
            with self.subTest(words=words):
                self.compared(*words)

    def test_trap(self) -> None:
        saved = self.folder / "saved"
        words = ["run", "--arg", 1, "--arg", 4, "--arg", 2, "--save", saved]
        status, output, _ = self.compared(*words, self.object("plain"))
        self.assertEqual((status, output.splitlines()[-1]), (1, "trap at plain.c:19: index 4 of sums[4]"))
        self.assertFalse(saved.exists())

    def test_state(self) -> None:
        plain, saved = self.object("plain"), self.folder / "saved"
        for number in range(3):
            loaded = ["--load", saved] if number else []
            self.compared("run", *loaded, "--arg", number, plain)
            self.assertEqual(bpfrun("run", *loaded, "--arg", number, "--save", saved, plain)[0], 0)
        self.assertEqual(json.loads(saved.read_text())["stats"]["seen"], 3)

    def test_many_arguments(self) -> None:
        drawn = random.Random(1)
        arguments = [word for _ in range(40) for word in ("--arg", drawn.randrange(-(1 << 63), 1 << 63) & ~4)]
        status, output, _ = self.compared("run", *arguments, self.object("plain"))
        self.assertEqual((status, output.count("return ")), (0, 40))

    def test_large_maps(self) -> None:
        large = self.object("large")
        self.compared("run", "--arg", 59999, "--arg", 60000, large)
        state = self.file("state", json.dumps({"values": [(1 << 64) - 1] * 60000}))
        status, _, errors = self.compared("run", "--load", state, large)
        self.assertEqual(status, 2)
        self.assertIn("as decimal numbers", errors[0])

    def test_with_loops(self) -> None:
        for name in "histogram", "collatz", "token_buckets":
            with self.subTest(name=name):
                self.compared("run", EXAMPLES / f"{name}.o")
                self.compared("run", "--as-is", EXAMPLES / f"{name}.o")

    def test_of_an_installation(self) -> None:
        place = self.folder / "bpfspec"
        for name in "bpf_ir", "bpf_object", "bpf_run", "explain":
            shutil.copytree(TOP / "tools" / name, place / "tools" / name)
        shutil.copytree(FOLDER, place / "library")
        shutil.copy(BPFRUN, place / "tools")
        (place / "programs").mkdir()
        launcher = place / "bpfspec"
        launcher.write_text("#!/bin/false\n")
        launcher.chmod(0o755)
        environment = {name: value for name, value in ENVIRONMENT.items() if not name.startswith("BPFSPEC")}
        words = [str(place / "tools" / "bpfrun"), "run", "--arg", "2", "--only", "sums", self.object("plain")]
        done = subprocess.run(words, capture_output=True, text=True, timeout=LIMIT, env=environment)
        self.assertEqual(done.stdout, "return -1\nsums = {0, 0, 6, 0}\n", done)

    def test_no_library_there(self) -> None:
        status, output, errors = bpfrun("run", EXAMPLES / "sort.o", BPFSPEC_LIBRARY=str(self.folder))
        self.assertEqual((status, output, len(errors)), (2, "", 1))
        self.assertIn("no library for C", errors[0])


if __name__ == "__main__":
    unittest.main()
