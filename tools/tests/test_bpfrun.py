#!/usr/bin/env python3
"""Runs tools/bpfrun as a user does. What it has to print was worked out from the C by hand.

    python3 tools/tests/test_bpfrun.py

The program is that of $BPFSPEC, else ./bpfspec.
"""

from __future__ import annotations

import contextlib
import io
import json
import os
import shutil
import signal
import subprocess
import sys
import tempfile
import unittest
import unittest.mock
from pathlib import Path

TOP = Path(__file__).resolve().parents[2]
sys.path.insert(0, str(TOP / "tools"))

from bpf_run import clang, compiler  # noqa: E402
from bpf_run.programs import Clock  # noqa: E402

BPFRUN = TOP / "tools" / "bpfrun"
EXAMPLES = TOP / "examples" / "from_c"
SOURCES = TOP / "tools" / "tests" / "bpfrun"
LIMIT = 300  # seconds of a command
CACHE = tempfile.TemporaryDirectory(prefix="bpfrun-tests-")  # of the tools' modules, which are read again and again
ENVIRONMENT = {**os.environ, "PYTHONDONTWRITEBYTECODE": "", "PYTHONPYCACHEPREFIX": CACHE.name}
SHAPES, OUTSIDE, TWO, LONG, REFUSED = (
    f"{CACHE.name}/{name}.o" for name in ("shapes", "outside", "two", "long", "refused")
)


def setUpModule() -> None:
    """Compiles the sources once, so that not each test does."""
    for target in SHAPES, OUTSIDE, TWO, LONG, REFUSED:
        source = SOURCES / Path(target).with_suffix(".c").name
        Path(target).write_bytes(compiler.compiled(str(source), Clock()).data)


def bpfrun(*words: object) -> subprocess.CompletedProcess[str]:
    """Runs a command to its end."""
    words = [str(BPFRUN), *map(str, words)]
    return subprocess.run(words, capture_output=True, text=True, timeout=LIMIT, cwd=TOP, env=ENVIRONMENT)


def lines_without_time(errors: str) -> list[str]:
    """The lines of standard error without those that tell the time."""
    return [line for line in errors.splitlines() if not (line.endswith(" s") and line[:-2].isdigit())]


class InFolder(unittest.TestCase):
    """A test with a folder of its own."""

    def setUp(self) -> None:
        self.folder = Path(tempfile.mkdtemp())
        self.addCleanup(shutil.rmtree, self.folder)

    def file(self, name: str, text: str | bytes = "") -> Path:
        """A file of the folder."""
        path = self.folder / name
        path.write_bytes(text if isinstance(text, bytes) else text.encode())
        return path

    def refused(self, *words: object, status: int = 2) -> str:
        """The one line by which a command is refused."""
        done = bpfrun(*words)
        lines = lines_without_time(done.stderr)
        self.assertEqual((done.returncode, done.stdout, len(lines)), (status, "", 1), done)
        return lines[0]


class Run(unittest.TestCase):
    def test_answer_loops_and_variables(self) -> None:
        done = bpfrun("run", EXAMPLES / "histogram.o")
        # 64 samples that are 0 are counted in bin 0.
        self.assertEqual(
            done.stdout.splitlines(),
            [
                "return 64",
                "loop at histogram.c:30: 64 iterations, parallel",
                "samples = {0 <repeats 64 times>}",
                "bins = {64, 0 <repeats 15 times>}",
            ],
        )
        self.assertEqual((done.returncode, lines_without_time(done.stderr)), (0, []))

    def test_object_as_its_source(self) -> None:
        source, its_object = (bpfrun("run", EXAMPLES / f"string_search.{kind}") for kind in "co")
        self.assertEqual(source.stdout, its_object.stdout)
        self.assertIn("found = 37\n", its_object.stdout)  # where "worst" begins in the text

    def test_conflict(self) -> None:
        done = bpfrun("run", "--only", "dropped", "--only", "passed", EXAMPLES / "token_buckets.o")
        # Packet 16 reads the tokens of bucket 0, which packet 0 wrote; both words of 16 buckets are so.
        conflict = "conflict at buckets[0].tokens (token_buckets.c:20 and token_buckets.c:16) and 31 more elements"
        self.assertEqual(
            done.stdout.splitlines(),
            ["return 996", f"loop at token_buckets.c:31: 1000 iterations, {conflict}", "dropped = 4", "passed = 996"],
        )

    def test_refused_loops(self) -> None:
        run, explain = (bpfrun(word, "--arg", 8388609, REFUSED).stdout.splitlines() for word in ("run", "explain"))
        # One iteration more than the most; and flags of 8388609 - 8388604. Neither loop runs.
        loops = [
            "loop at refused.c:12: refused, since it asks for 8388609 iterations, and 8388608 are the most",
            "loop at refused.c:13: refused, since its flags are 5, and have to be 0",
        ]
        self.assertEqual(run, ["return -22", *loops, "calls = 0"])
        self.assertEqual(explain[-2:], loops)

    def test_types(self) -> None:
        lines = bpfrun("run", "--arg", 3, SHAPES).stdout.splitlines()
        shape = [
            "shape = {",
            "  .in = {{.a = 1, .b = -2, .c = -300}, {.a = 4, .b = 5, .c = 6}}",
            *("  .x = -7", "  .f = 5", "  .g = 17", "  .h = -3", "  .color = GREEN", "  .yes = true"),
            *("  .u = {.whole = 65538, .half = {2, 1}}", "  .pointer = 0x0", '  .name = "hey"', "}"),
        ]
        start = lines.index(shape[0])
        self.assertEqual(lines[start : start + len(shape)], shape)
        self.assertEqual(lines[0], "return -7")
        for line in (
            "grid = {{1, 2, 3}, {-4, -5, -6}}",
            'word = "worst"',
            "flags = {65, 0, 0, 0}",
            'empty = ""',
            "balance = -5",
            "total = 4951",  # 1 + 0 + 1 + .. + 99
            "hist = {7, 7, 7, 7, 6 <repeats 12 times>}",  # 100 = 6 * 16 + 4
        ):
            self.assertIn(line, lines)

    def test_arguments(self) -> None:
        done = bpfrun("run", "--arg", 3, "--arg", "-1", "--arg", "0x10", "--arg=-0x10", "--only", "total", SHAPES)
        lines = [line for line in done.stdout.splitlines() if not line.startswith("loop")]
        # Each run adds 0 + 1 + .. + 99 to what the run before left.
        wanted = "argument 3, return -7, argument -1, return -11, argument 16, return 6, argument -16, return -26"
        self.assertEqual(lines, [*wanted.split(", "), f"total = {1 + 4 * 4950}"])

    def test_workers_blocks_and_test(self) -> None:
        words = ["--workers", 1, "--blocks", 1, "--test", "lrpd", EXAMPLES / "collatz.o"]
        lines = bpfrun("run", *words).stdout.splitlines()
        # From 27 it is 111 steps to 1.
        self.assertEqual([lines[0], *lines[2:]], ["return 111", "x = 1", "steps = 111"])

    def test_main(self) -> None:
        done = bpfrun("run", "--main", "second", TWO)
        self.assertEqual(done.stdout, "return 2\ncalls = 10\n")

    def test_json(self) -> None:
        done = bpfrun("run", "--json", "--arg", 7, SHAPES)
        found = json.loads(done.stdout)
        keys = "file program status accepted refusal functions at_most limit rewrites loops runs"
        self.assertEqual([*found], keys.split())
        (run,) = found["runs"]
        self.assertEqual([*run], ["argument", "return", "trap", "loops", "globals"])
        self.assertEqual((run["argument"], run["return"], run["trap"]), (7, -3, None))
        (loop,) = run["loops"]
        self.assertEqual([*loop], ["line", "slot", "answer", "verdict", "conflicts", "shown"])
        self.assertEqual((loop["answer"], loop["verdict"], loop["conflicts"]), (100, "conflict", 16))
        self.assertEqual(loop["line"]["file"], "shapes.c")
        self.assertEqual([a["iteration"] for a in loop["shown"][0]["accesses"]], [0, 16])
        values = run["globals"]
        self.assertEqual(values["shape"]["color"], "GREEN")
        self.assertEqual((values["grid"], values["word"]), ([[1, 2, 3], [-4, -5, -6]], "worst"))
        self.assertEqual((found["program"], found["status"], found["accepted"]), ("shapes", 0, True))


class Refusals(InFolder):
    def test_trap(self) -> None:
        done = bpfrun("run", "--arg", 16, "--arg", 20, "--arg", 16, OUTSIDE)
        self.assertEqual(done.stdout.splitlines()[-2:], ["argument 20", "trap at outside.c:7: index 16 of squares[16]"])
        self.assertEqual(done.returncode, 1)

    def test_trap_explained(self) -> None:
        done = bpfrun("explain", "--arg", 17, OUTSIDE)
        trap = "trap at outside.c:7: index 16 of squares[16]"
        self.assertEqual((done.returncode, done.stdout.splitlines()[-1]), (1, trap))
        self.assertNotIn("parallel", done.stdout)  # nothing that the run did is kept
        self.assertNotIn("breaks it", done.stdout)
        found = json.loads(bpfrun("explain", "--arg", 17, "--json", OUTSIDE).stdout)
        self.assertEqual((found["status"], found["loops"]), (1, []))
        self.assertEqual(found["runs"][0]["trap"], {"at": "outside.c:7", "text": "index 16 of squares[16]"})

    def test_trap_keeps_no_state(self) -> None:
        state = self.folder / "state"
        self.assertEqual(bpfrun("run", "--arg", 17, "--save", state, OUTSIDE).returncode, 1)
        self.assertFalse(state.exists())

    def test_refused_as_it_is(self) -> None:
        for command in "run", "verify", "explain":
            done = bpfrun(command, "--as-is", OUTSIDE)
            self.assertEqual(done.returncode, 1)
            self.assertEqual(done.stdout.splitlines()[0], "refused V13 at outside.c:7: squares[i] = i * i;")
            self.assertIn("  what usually helps: ", done.stdout)

    def test_limit(self) -> None:
        bound = 64 * 20 + 6  # iterations by the callback's count, and main's
        self.assertEqual(bpfrun("run", "--limit", bound, EXAMPLES / "histogram.o").returncode, 0)
        done = bpfrun("run", "--limit", bound - 1, EXAMPLES / "histogram.o")
        self.assertEqual(done.stdout, f"refused: at most {bound} instructions, and the limit is {bound - 1}\n")
        self.assertEqual(done.returncode, 1)

    def test_bad_inputs(self) -> None:
        for path, words in (
            (self.folder, "Is a directory"),
            (self.folder / "none.c", "No such file or directory"),
            (self.file("empty.c"), "no section of a main function"),
            (self.file("empty.o"), "no object of clang"),
            (self.file("text.o", "hello\n"), "no object of clang"),
            (self.file("x.bpf", "maps 1\nmov64 r0, 0\nexit\n"), "this is a unit"),
            (self.file("cut.o", (EXAMPLES / "sort.o").read_bytes()[:1000]), ""),
            (TWO, "first, second"),
        ):
            with self.subTest(path=path):
                self.assertIn(words, self.refused("run", path))

    def test_error_of_clang(self) -> None:
        done = bpfrun("run", self.file("bad.c", "int main( {\n"))
        self.assertEqual((done.returncode, done.stdout), (2, ""))
        self.assertIn("bad.c:1:11: error:", done.stderr)

    def test_crash_of_clang(self) -> None:
        dump = f"{compiler.DUMP} ..\n1. Code generation\n2. Running pass 'Selection' on function '@work'\n"
        with self.clang_says(dump), contextlib.redirect_stderr(io.StringIO()) as errors:
            self.assertRaises(compiler.NotCompiled, compiler.compiled, "x.c", Clock())
        self.assertEqual(errors.getvalue().partition(":")[0], "clang crashes at function work")

    def test_limits_of_clang(self) -> None:
        stack = f"{compiler.DUMP} ..\n1. {{}} 'work'\n"
        for said, words in (
            (f"LLVM ERROR: out of memory\n{stack.format('Generating code for declaration')}", "3 GB of memory"),
            (f"{stack.format('parsing function body')}{clang.TOO_LONG}\n", "60 s"),
        ):
            with self.clang_says(said), contextlib.redirect_stderr(io.StringIO()) as errors:
                self.assertRaises(compiler.NotCompiled, compiler.compiled, "x.c", Clock())
            self.assertEqual(errors.getvalue().partition(":")[0], f"clang takes more than {words} at function work")

    def test_clang_is_limited(self) -> None:
        source = self.file("x.c")
        for script, words in (
            ("ulimit -v; ulimit -t; exit 1", f"{3 << 20}\n60\n"),  # KB and seconds
            ("kill -XCPU $$", "clang takes more than 60 s: "),
        ):
            program = self.file("clang", f"#!/bin/sh\nexec >&2; {script}\n")
            program.chmod(0o755)
            with unittest.mock.patch.dict(ENVIRONMENT, CLANG=str(program)):
                done = bpfrun("run", source)
            self.assertEqual((done.returncode, done.stdout), (2, ""))
            self.assertIn(words, done.stderr)

    def test_newer_instructions(self) -> None:
        for said, word in (
            ("x.c:1:9: error: unsupported signed division, please convert to unsigned div/mod.", "-mcpu=v4"),  # 19
            ("x.c:1:9: error: Invalid usage of the XADD return value", "-mcpu=v3"),
            ("x.c:1:9: error: unsupported atomic operation, please use 64 bit version", "-mcpu=v3"),
        ):
            with self.subTest(said=said), self.clang_says(said, unless=word):
                self.assertEqual(compiler.compiled("x.c", Clock()).way.more, (word,))

    def clang_says(self, said: str, unless: str = "") -> contextlib.AbstractContextManager[object]:
        """A clang that says something, and makes no object unless it is given a word."""

        def say(step: clang.Step, folder: str, clock: Clock) -> clang.Said:
            is_made = unless in step.words
            if is_made:
                Path(step.words[-1]).write_bytes(b"")
            return clang.Said(is_made, "" if is_made else said)

        return unittest.mock.patch.object(compiler, "say", say)

    def test_usage(self) -> None:
        for words in ([], ["walk", "x.c"], ["run"], ["run", "--arg", "x", "x.c"], ["run", "--workers", "17", "x.c"]):
            done = bpfrun(*words)
            self.assertEqual((done.returncode, done.stdout), (3, ""), words)

    def test_unknown_names(self) -> None:
        self.assertIn("bins", self.refused("run", "--only", "bin", EXAMPLES / "histogram.o"))
        self.assertIn("third", self.refused("run", "--main", "third", TWO))


class CountsOfZeros(InFolder):
    """clang 14's back end crashes on the second of them, and makes 64 of the first, whatever x is."""

    SOURCE = """
        #include "bpf.h"
        __u64 x = 40;
        SEC("xdp") long first(__u64 argument) { return x ? __builtin_ctzll(x) : 64; }
        SEC("xdp") long second(__u64 argument) { return __builtin_ctzll(x) + 100 * __builtin_clz(x + argument); }
    """

    def test_answers(self) -> None:
        source = self.file("zeros.c", self.SOURCE)
        for name, answer in ("first", 3), ("second", 2603):  # 40 is 101000 in binary
            self.assertEqual(bpfrun("run", "--main", name, source).stdout, f"return {answer}\nx = 40\n")

    def test_back_end_sees_none(self) -> None:
        for text, lowering in (self.SOURCE, compiler.OPERATIONS), ('__u64 x; SEC("xdp") int f() { return x; }', None):
            source = self.file("x.c", text if lowering else f'#include "bpf.h"\n{text}')
            self.assertEqual(compiler.compiled(str(source), Clock()).way.lowering, lowering)


class State(InFolder):
    def test_round_trip(self) -> None:
        first, second = self.folder / "first", self.folder / "second"
        self.assertEqual(bpfrun("run", "--save", first, SHAPES).returncode, 0)
        done = bpfrun("run", "--load", first, "--save", second, "--only", "total", SHAPES)
        self.assertEqual(done.stdout.splitlines()[-1], f"total = {1 + 2 * 4950}")
        old, new = (json.loads(path.read_text()) for path in (first, second))
        self.assertEqual({name for name in old if old[name] != new[name]}, {"total", "hist"})

    def test_array_without_a_length(self) -> None:
        text = """
            #include "bpf.h"
            struct { __u32 n; __u32 data[]; } message = {3, {1, 2, 3}};
            SEC("xdp") long add(__u64 argument) { return message.data[1] += argument; }
        """
        source, state = self.file("x.c", text), self.folder / "state"
        self.assertEqual(bpfrun("run", "--arg", 5, "--save", state, source).returncode, 0)
        self.assertEqual(json.loads(state.read_text()), {"message": {"n": 3, "data": [1, 7, 3]}})
        done = bpfrun("run", "--arg", 5, "--load", state, source)
        self.assertEqual(done.stdout, "return 12\nmessage = {.n = 3, .data = {1, 12, 3}}\n")
        done = bpfrun("run", "--load", self.file("values", '{"message": {"n": 4}}'), source)
        self.assertEqual(done.stdout, "return 2\nmessage = {.n = 4, .data = {1, 2, 3}}\n")

    def test_values_of_ones_own(self) -> None:
        values = {"shape": {"x": 9, "color": "BLUE", "u": {"half": [3, 4]}, "name": "you", "h": -1}, "balance": "-0x7"}
        done = bpfrun("run", "--load", self.file("values", json.dumps(values)), "--json", SHAPES)
        found = json.loads(done.stdout)["runs"][0]["globals"]
        shape = found["shape"]
        self.assertEqual((shape["x"], shape["f"], shape["g"], shape["h"]), (9, 5, 17, -1))
        self.assertEqual((shape["color"], shape["name"], shape["u"]["whole"]), ("BLUE", "you", 0x40003))
        self.assertEqual(found["balance"], -7)

    def test_bad_values(self) -> None:
        for text, words in (
            ("{", "isn't JSON"),
            ("[]", "isn't an object of JSON"),
            ('{"none": 1}', "no variable none"),
            ('{"total": "x"}', "total is a number"),
            ('{"total": 36893488147419103232}', "doesn't fit"),
            ('{"hist": [1]}', "hist is an array of 16"),
            ('{"shape": {"y": 1}}', "shape has no member y"),
            ('{"shape": {"h": 64}}', "shape.h has 6 bits"),
            ('{"shape": {"u": {"whole": 1, "half": [2, 0]}}}', "other values"),
            ('{"word": "much too long"}', "word has 8 bytes"),
            ("[" * 100000, "isn't JSON"),
        ):
            with self.subTest(text=text[:40]):
                self.assertIn(words, self.refused("run", "--load", self.file("values", text), SHAPES))


class OtherCommands(InFolder):
    def test_verify(self) -> None:
        done = bpfrun("verify", EXAMPLES / "histogram.o")
        self.assertEqual(
            done.stdout.splitlines(),
            [
                "accepted",
                "histogram at histogram.c:30: at most 6 instructions",
                "count at histogram.c:18: at most 20 instructions",
                "loop at histogram.c:30: at most 64 iterations",
                "at most 1286 instructions",
            ],
        )

    def test_most_of_an_unknown_number(self) -> None:
        done = bpfrun("verify", OUTSIDE)
        self.assertIn("loop at outside.c:12: at most 8388608 iterations", done.stdout.splitlines())

    def test_explain(self) -> None:
        lines = bpfrun("explain", EXAMPLES / "token_buckets.o").stdout.splitlines()
        start = lines.index("  buckets[0].tokens")
        self.assertTrue(lines[start + 1].startswith("    iteration 0 writes it at token_buckets.c:20: "))
        self.assertTrue(lines[start + 2].startswith("    iteration 16 reads it at token_buckets.c:16: "))

    def test_unit(self) -> None:
        done = bpfrun("unit", EXAMPLES / "collatz.o")
        self.assertEqual(done.stdout, (EXAMPLES / "collatz.bpf").read_text())

    def test_dry_run_works_as_a_script(self) -> None:
        state = self.file("state", '{"x": 6}')
        words = ["run", "--arg", 1, "--arg", 2, "--load", state, EXAMPLES / "collatz.o"]
        script = bpfrun(*words, "--dry-run").stdout
        done = subprocess.run(["bash", "-e"], input=script, capture_output=True, text=True, cwd=TOP, timeout=LIMIT)
        # From 6 it is 8 steps to 1: 3, 10, 5, 16, 8, 4, 2, 1.
        self.assertEqual(done.stdout.splitlines()[-4:][0], "return 8", done)
        self.assertEqual(done.stdout.splitlines()[-2:], ["map 0: 1", "map 1: 8"])
        self.assertEqual((done.returncode, done.stderr), (0, ""))

    def test_page(self) -> None:
        page = self.folder / "page.html"
        source = self.file("odd.c", (SOURCES / "outside.c").read_text() + "// <script>alert('&')</script>\n")
        self.assertEqual(bpfrun("run", "--arg", 16, "--page", page, source).returncode, 0)
        text = page.read_text()
        self.assertIn("// &lt;script&gt;alert(&#x27;&amp;&#x27;)&lt;/script&gt;", text)
        self.assertNotIn("<script>alert", text)
        self.assertNotIn("http", text.replace("http-equiv", ""))
        self.assertIn("<td>{0, 1, 4, 9, 16, 25, 36, 49, 64, 81, 100, 121, 144, 169, 196, 225}</td>", text)
        self.assertIn('tabindex="0"', text)

    def test_page_of_a_refusal_and_a_picture(self) -> None:
        page = self.folder / "page.html"
        self.assertEqual(bpfrun("verify", "--as-is", "--page", page, OUTSIDE).returncode, 1)
        self.assertIn("refused V13 at outside.c:7", page.read_text())
        self.assertEqual(bpfrun("run", "--page", page, EXAMPLES / "collatz.o").returncode, 0)
        self.assertIn("data:image/svg+xml;base64,", page.read_text())


class Streams(unittest.TestCase):
    def test_closed(self) -> None:
        for command in "run", "unit", "explain --json":
            for closing, status in (">&-", 5), ("<&- >&-", 5), ("2>&- | tail -n 1", 0):
                with self.subTest(command=command, closing=closing):
                    line = f"{BPFRUN} {command} {EXAMPLES}/collatz.o {closing}; exit ${{PIPESTATUS[0]}}"
                    done = subprocess.run(["bash", "-c", line], capture_output=True, text=True, env=ENVIRONMENT)
                    self.assertEqual((done.returncode, lines_without_time(done.stderr)), (status, []))


class SlowPrograms(InFolder):
    def test_input_is_read_late(self) -> None:
        words = os.environ.get("BPFSPEC", f"{TOP}/bpfspec")
        program = self.file("program", f'#!/bin/sh\nsleep 0.5\nexec {words} "$@"\n')
        program.chmod(0o755)
        with unittest.mock.patch.dict(ENVIRONMENT, BPFSPEC=str(program)):
            done = bpfrun("run", "--arg", 59999, SOURCES / "large.c")  # its values take more bytes than a pipe has
        self.assertEqual(done.stdout, f"return 0\nvalues = {{0 <repeats 59999 times>, {2**64 - 1}}}\n")


class Signals(InFolder):
    def start(self, *words: object) -> subprocess.Popen[str]:
        """A command that runs on."""
        words, pipe = [str(BPFRUN), *map(str, words)], subprocess.PIPE
        child = subprocess.Popen(words, stdout=pipe, stderr=pipe, text=True, env=ENVIRONMENT)
        self.addCleanup(child.kill)
        return child

    def test_it_ends_with_what_it_runs(self) -> None:
        for number in signal.SIGINT, signal.SIGTERM:
            state = self.folder / f"state{number}"
            child = self.start("run", "--arg", 1, "--arg", 8000000, "--save", state, LONG)
            first = child.stdout.readline()
            second = child.stderr.readline()
            child.send_signal(number)
            output, errors = child.communicate(timeout=LIMIT)
            self.assertEqual((first, child.returncode), ("argument 1\n", 130))
            self.assertRegex(second, r"^[1-9] s$")
            # From 1, 8 times x * 6364136223846793005 + 1442695040888963407, of which 64 bits stay.
            self.assertEqual(output.splitlines()[-1], "x = 1206773305466921929")
            self.assertEqual(json.loads(state.read_text()), {"x": 1206773305466921929})
            self.assertIn("1 of 2 runs are done", errors.splitlines()[-1])

    def test_it_ends_what_its_programs_run(self) -> None:
        program = self.file("program", "#!/bin/sh\nsleep 1000 & echo $! >$0.child; wait\n")
        program.chmod(0o755)
        with unittest.mock.patch.dict(ENVIRONMENT, BPFSPEC=str(program)):
            child = self.start("run", LONG)
        child.stderr.readline()  # 1 s
        child.terminate()
        child.communicate(timeout=LIMIT)
        sleeping = Path(f"{program}.child").read_text().strip()
        self.assertEqual(child.returncode, 130)
        self.assertNotIn("sleep", self.command_of(sleeping))

    def command_of(self, process: str) -> str:
        """The words of a process, if there is one."""
        try:
            return Path(f"/proc/{process}/cmdline").read_text()
        except OSError:
            return ""


class Installed(InFolder):
    def test_in_another_place_through_a_link(self) -> None:
        room = self.folder / "room"
        of_cpu = room / "x86-64-v2"
        of_cpu.mkdir(parents=True)
        program = of_cpu / "bpfspec"
        program.write_text(f'#!/bin/sh\nexec {os.environ.get("BPFSPEC", f"{TOP}/bpfspec")} "$@"\n')
        program.chmod(0o755)
        (room / "how").write_text("built for a test\n")
        prefix = self.folder / "prefix"
        words = [TOP / "tools" / "install", room, self.folder / "no_library", of_cpu.name, prefix]
        subprocess.run(words, check=True, stdout=subprocess.DEVNULL)
        (self.folder / "link").symlink_to(prefix / "bin" / "bpfrun")
        environment = {k: v for k, v in ENVIRONMENT.items() if not k.startswith("BPFSPEC")}
        words = [str(self.folder / "link"), "run", str(EXAMPLES / "collatz.o"), "--workers", "1"]
        done = subprocess.run(words, capture_output=True, text=True, env=environment, timeout=LIMIT)
        self.assertIn("steps = 111\n", done.stdout, done)


if __name__ == "__main__":
    unittest.main()
