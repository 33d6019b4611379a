#!/usr/bin/env python3
"""Runs ./bpfspec in a small repository, with a stand-in for tools/build that builds at once.

    python3 tools/tests/test_launcher.py
"""

from __future__ import annotations

import os
import shutil
import subprocess
import tempfile
import time
import unittest
from pathlib import Path

TOP = Path(__file__).resolve().parents[2]
LEVELS = "x86-64-v2", "x86-64-v3"
# Notes each build, and makes programs that print their words, as tools/build leaves them; `committed` says yes.
BUILD = """#!/bin/bash
[[ $1 == committed ]] && exit 0
echo "$*" >>"$BUILDS"
kind=$1 name=$2 folder=$3
for level in $LEVELS; do
    mkdir -p "$folder/$level"
    printf '#!/bin/bash\\necho %s for %s: "$@"\\n' "$name" "$level" >"$folder/$level/$name"
    chmod +x "$folder/$level/$name"
done
find crates.txt crates -name '*.rt' >"$folder/files"
cat "$KIT" >"$folder/kit"
echo "built $kind" >"$folder/how"
"""
MAKE_LIBRARY = """#!/bin/bash
"$1" archive
echo "in $2"
"""
EXPLAIN = """import os, sys
print(*sys.argv[1:], "by", os.environ["BPFSPEC"])
"""
USAGE, BUILD_FAILED = 3, 70


class Launcher(unittest.TestCase):
    def setUp(self) -> None:
        self.folder = Path(tempfile.mkdtemp())
        self.addCleanup(shutil.rmtree, self.folder)
        self.top = self.folder / "top"
        self.builds = self.folder / "builds"
        self.builds.touch()
        self.source = self.top / "crates" / "bpfspec" / "src" / "main.rt"
        self.source.parent.mkdir(parents=True)
        self.source.write_text("fn main() {}\n")
        (self.top / "crates.txt").write_text("bpfspec:\n")
        before = time.time() - 10
        for path in self.source, self.top / "crates.txt":
            os.utime(path, (before, before))
        shutil.copy(TOP / "bpfspec", self.top)
        self.write_command(self.folder / "words" / "rt", "")
        self.kit = self.folder / "KIT-ID"
        self.kit.write_text("kit 1\n")
        self.write_command(self.top / "tools" / "build", f"cd {self.top}\n{BUILD}")
        self.write_command(self.top / "tools" / "make_library", MAKE_LIBRARY)
        explain = self.top / "tools" / "explain" / "__main__.py"
        explain.parent.mkdir()
        explain.write_text(EXPLAIN)
        self.environment = {
            **os.environ,
            "PATH": f"{self.folder / 'words'}:{os.environ['PATH']}",
            "XDG_CACHE_HOME": str(self.folder / "cache"),
            "BUILDS": str(self.builds),
            "KIT": str(self.kit),
            "LEVELS": " ".join(LEVELS),
            "BPFSPEC_CPU": LEVELS[0],
        }

    def write_command(self, file: Path, script: str) -> None:
        """Writes a script that can be run."""
        file.parent.mkdir(exist_ok=True)
        file.write_text(script if script.startswith("#!") else f"#!/bin/bash\n{script}")
        file.chmod(0o755)

    def run_it(self, *words: str, by: str | None = None, folder: Path | None = None) -> subprocess.CompletedProcess[str]:
        command = [by or str(self.top / "bpfspec"), *words]
        return subprocess.run(
            command, env=self.environment, cwd=folder or self.folder, capture_output=True, text=True, check=False
        )

    def printed(self, *words: str, by: str | None = None, folder: Path | None = None) -> str:
        """What ./bpfspec prints for these words."""
        done = self.run_it(*words, by=by, folder=folder)
        self.assertEqual(done.returncode, 0, done)
        return done.stdout

    def built(self) -> list[str]:
        """What was built so far: its kind and its name, each."""
        return [line.rpartition(" ")[0] for line in self.builds.read_text().splitlines()]

    def test_it_builds_each_program_once_and_after_an_edit(self) -> None:
        self.assertEqual(self.printed("run", "--arg", "1"), "bpfspec for x86-64-v2: run --arg 1\n")
        self.assertEqual(self.printed("run"), "bpfspec for x86-64-v2: run\n")
        self.assertEqual(self.built(), ["unproved bpfspec"])
        self.source.write_text("fn main() { 1 }\n")
        self.printed("verify")
        self.assertEqual(len(self.built()), 2)

    def test_it_builds_anew_with_another_kit(self) -> None:
        self.printed("verify")
        self.kit.write_text("kit 2\n")
        self.printed("verify")
        self.assertEqual(len(self.built()), 2)
        self.kit.unlink()
        self.printed("verify")  # what is built needs no kit
        self.assertEqual(len(self.built()), 2)

    def test_what_is_proved_runs_until_a_source_changes(self) -> None:
        self.printed("verify")
        self.printed("prove")
        self.assertEqual(self.built(), ["unproved bpfspec", "proved bpfspec"])
        self.assertEqual(self.printed("--version").splitlines()[-1], "built proved")
        self.assertIn("proved here already", self.run_it("prove").stderr)
        self.source.write_text("fn main() { 1 }\n")
        self.assertEqual(self.printed("--version").splitlines()[-1], "built unproved")
        self.assertEqual(self.built()[2:], ["unproved bpfspec"])

    def test_what_has_checks_is_built_anew_once_the_sources_are_committed(self) -> None:
        self.printed("verify")
        (changed,) = self.folder.glob("cache/bpfspec/*/unproved/bpfspec/files")
        (changed.parent / "changed").touch()
        self.printed("verify")
        self.assertEqual(len(self.built()), 2)

    def test_it_is_found_through_links(self) -> None:
        self.printed("verify")
        link = self.folder / "link"
        link.symlink_to(self.top / "bpfspec")
        (self.folder / "again").symlink_to("link")
        for path in str(link), str(self.folder / "again"), "./bpfspec":
            self.assertEqual(self.printed("verify", by=path, folder=self.top), "bpfspec for x86-64-v2: verify\n")
        self.assertEqual(len(self.built()), 1)

    def test_help_names_what_the_launcher_has(self) -> None:
        for word in "help", "--help":
            lines = self.printed(word).splitlines()
            self.assertEqual(lines[0], f"bpfspec for x86-64-v2: {word}")
            self.assertTrue(any(line.startswith("  explain ") for line in lines))

    def test_explain_is_a_tool_over_the_program(self) -> None:
        self.printed("verify")
        (program,) = self.folder.glob("cache/bpfspec/*/unproved/bpfspec/x86-64-v2/bpfspec")
        self.assertEqual(self.printed("explain", "--all"), f"--all by {program}\n")
        self.assertEqual(self.printed("explain", "--help"), f"--help by {program}\n")
        self.assertEqual(len(self.built()), 1)

    def test_it_runs_the_program_for_the_processor_that_is_named(self) -> None:
        self.environment["BPFSPEC_CPU"] = LEVELS[1]
        version = "bpfspec for x86-64-v3: --version\nbuilt for x86-64-v3\nbuilt unproved\n"
        self.assertEqual(self.printed("--version"), version)
        (program,) = self.folder.glob("cache/bpfspec/*/unproved/bpfspec/x86-64-v3/bpfspec")
        program.unlink()
        self.assertEqual(self.printed("run"), "bpfspec for x86-64-v2: run\n")
        self.assertEqual(len(self.built()), 1)

    def test_the_library_is_built_apart_and_once(self) -> None:
        for level in LEVELS:
            self.environment["BPFSPEC_CPU"] = level
            self.assertEqual(self.printed("library", "made"), f"bpfspec_c for {level}: archive\nin made\n")
        self.assertEqual(self.built(), ["unproved bpfspec_c"])
        self.printed("prove", "library")
        self.assertEqual(self.built()[1:], ["proved bpfspec_c"])
        for words in ("library",), ("library", "--help"), ("library", "a", "b"):
            done = self.run_it(*words)
            self.assertEqual((done.returncode, done.stderr), (USAGE, "usage: ./bpfspec library FOLDER\n"))
        done = self.run_it("prove", "other")
        self.assertEqual((done.returncode, done.stderr), (USAGE, "usage: ./bpfspec prove [library]\n"))

    def test_a_build_that_fails_ends_it(self) -> None:
        self.write_command(self.top / "tools" / "build", "exit 1")
        self.assertEqual(self.run_it("run").returncode, BUILD_FAILED)

    def test_it_names_the_processor_by_itself(self) -> None:
        del self.environment["BPFSPEC_CPU"]
        lines = Path("/proc/cpuinfo").read_text().splitlines()
        flags = next(line for line in lines if line.startswith("flags")).split()
        cpu = LEVELS[{"avx2", "bmi2", "fma", "movbe"} <= set(flags)]
        self.assertEqual(self.printed("--version").splitlines()[1], f"built for {cpu}")

    def test_another_processor_is_refused(self) -> None:
        for name in "x86-64-v4", "native", "x86-64-v33":
            self.environment["BPFSPEC_CPU"] = name
            done = self.run_it("run")
            self.assertEqual((done.returncode, done.stdout), (USAGE, ""))
            self.assertEqual(done.stderr, f"bpfspec: BPFSPEC_CPU is {name}, and may be x86-64-v2 or x86-64-v3\n")
        self.assertEqual(self.built(), [])


if __name__ == "__main__":
    unittest.main()
