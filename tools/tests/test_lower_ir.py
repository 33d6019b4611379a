#!/usr/bin/env python3
"""Tries what LLVM's IR is rewritten to: by text, and by running it on this machine.

    python3 tools/tests/test_lower_ir.py

Where there is no clang, only the text is looked at.
"""

from __future__ import annotations

import re
import shutil
import subprocess
import sys
import tempfile
import unittest
from collections.abc import Callable, Iterator
from pathlib import Path

TOP = Path(__file__).resolve().parents[2]
sys.path.insert(0, str(TOP / "tools"))

from bpf_ir import frames  # noqa: E402
from bpf_ir.lower import behind_optimizer, before_optimizer  # noqa: E402
from bpf_ir.text import NotRead, split_operands  # noqa: E402

LOWER_IR = TOP / "tools" / "lower_ir"
SECONDS = 120
UNSIGNED = re.compile(r"(.*) = (udiv|urem) i64 (\S+), (\S+)")
LAYOUT = 'target datalayout = "e-m:e-p:64:64-i64:64-i128:128-n32:64-S128"'
EDGES = {
    8: (0, 1, 2, 7, -1, -2, -7, 127, -128),
    16: (0, 1, 3, 1000, -1, -3, -1000, 32767, -32768),
    32: (0, 1, 5, 100000, -1, -5, -100000, 2**31 - 1, -(2**31)),
    64: (0, 1, 9, 10**12, -1, -9, -(10**12), 2**63 - 1, -(2**63)),
    128: (0, 1, 11, 10**25, -1, -11, -(10**25), 2**127 - 1, -(2**127)),
}


def function(result: str, parameters: str, *lines: str) -> str:
    """A function of one block."""
    return "\n".join([f"define {result} @f({parameters}) {{", "entry:", *(f"  {line}" for line in lines), "}", ""])


def quotient(left: int, right: int) -> int:
    """C's, and 0 by zero."""
    if right == 0:
        return 0
    found = abs(left) // abs(right)
    return found if (left < 0) == (right < 0) else -found


def remainder(left: int, right: int) -> int:
    """C's, and the dividend by zero."""
    return left - quotient(left, right) * right


def as_signed(value: int, bits: int) -> int:
    """The number that some bits stand for."""
    value %= 1 << bits
    return value - (1 << bits) if value >> (bits - 1) else value


def word_pair(value: int) -> str:
    """A number in C, by its two words."""
    return f"W({value % (1 << 128) >> 64}ull, {value % (1 << 64)}ull)"


class Text(unittest.TestCase):
    def test_nothing_to_do(self) -> None:
        text = function("i32", "i32 %x", "%y = udiv i32 %x, 3, !dbg !4", "ret i32 %y, !dbg !5")
        self.assertEqual(behind_optimizer(text).splitlines()[:-1], text.splitlines())

    def test_line_of_c(self) -> None:
        lines = behind_optimizer(function("i64", "i64 %x", "%y = sdiv i64 %x, 3, !dbg !44", "ret i64 %y")).splitlines()
        made = lines[2 : lines.index("  ret i64 %y")]
        self.assertTrue(made and all(line.endswith(", !dbg !44") for line in made), made)
        self.assertFalse(any("sdiv" in line for line in lines))

    def test_phi_behind_a_loop(self) -> None:
        text = "\n".join([
            "define i8 @f(i8* %a, i8* %b, i64 %n) {",
            "entry:",
            "  call void @llvm.memcpy.p0i8.p0i8.i64(i8* align 1 %a, i8* align 1 %b, i64 %n, i1 false)",
            "  br label %end",
            "end:",
            "  %x = phi i8 [ 1, %entry ]",
            "  ret i8 %x",
            "}",
            "",
        ])
        lines = behind_optimizer(text).splitlines()
        last = [line.rstrip(":") for line in lines[: lines.index("end:")] if line.endswith(":")][-1]
        self.assertIn(f"  %x = phi i8 [ 1, %{last} ]", lines)
        self.assertNotEqual(last, "entry")

    def test_short_copies_stay(self) -> None:
        call = "call void @llvm.memcpy.p0.p0.i64(ptr align 8 %a, ptr align 8 %b, i64 64, i1 false)"
        self.assertIn(call, behind_optimizer(function("void", "ptr %a, ptr %b", call, "ret void")))

    def test_functions(self) -> None:
        text = "\n".join([
            "define dso_local i64 @six(i64 %a, i64 %b, i64 %c, i64 %d, i64 %e, i64 %f) #0 !dbg !3 {",
            "define internal void @result(%struct.s* noalias sret(%struct.s) align 8 %r) #1 {",
            "define dso_local i64 @five(i64 %a, i64 %b, i64 %c, i64 %d, i64 %e) #0 {",
            'define dso_local i64 @main(i64 %a, i64 %b, i64 %c, i64 %d, i64 %e, i64 %f) #0 section "xdp" {',
            'attributes #0 = { noinline nounwind "frame-pointer"="all" }',
            "attributes #1 = { nounwind }",
        ])
        lines = before_optimizer(text).splitlines()
        head = "define internal i64 @six(i64 %a, i64 %b, i64 %c, i64 %d, i64 %e, i64 %f) alwaysinline #10000 !dbg !3 {"
        self.assertEqual(lines[0], head)
        self.assertIn(" alwaysinline #1 {", lines[1])
        self.assertEqual(lines[2:4], text.splitlines()[2:4])
        self.assertEqual(lines[-1], 'attributes #10000 = { nounwind "frame-pointer"="all" }')

    def test_frames(self) -> None:
        kept, moved = "  %small = alloca i64, align 8", "  %large = alloca [100 x i32], align 4"
        lines = ["define void @f() {", "entry:", kept, moved, "  %p = bitcast [100 x i32]* %large to i8*", "}"]
        found = [*frames.moved(lines)]
        self.assertEqual(found[2:4], [kept, '  %p = bitcast [100 x i32]* @"f.large" to i8*'])
        self.assertEqual(found[-1], '@"f.large" = internal global [100 x i32] zeroinitializer, align 8')

    def test_sizes(self) -> None:
        types = frames.Types(["%struct.s = type { i8, i64, [3 x i16] }", "%union.u = type <{ i8, i32 }>"])
        self.assertEqual(types.size("%struct.s"), (24, 8))
        self.assertEqual(types.size("[2 x %union.u]"), (10, 1))
        self.assertEqual(types.size("{ ptr, i1 }"), (16, 8))

    def test_operands(self) -> None:
        self.assertEqual(split_operands("i8 1, [2 x i8] [i8 1, i8 2], {}"), ["i8 1", "[2 x i8] [i8 1, i8 2]", "{}"])

    def test_what_is_no_ir(self) -> None:
        with self.assertRaises(NotRead):
            behind_optimizer("define void @f() {\nentry:\n")
        done = subprocess.run([LOWER_IR, "operations"], input="define void @f() {\n", capture_output=True, text=True)
        self.assertEqual((done.returncode, done.stderr), (2, "lower_ir: a function without an end\n"))


@unittest.skipUnless(shutil.which("clang"), "no clang")
class Runs(unittest.TestCase):
    """Functions of two numbers, run on this machine for all pairs of some."""

    def test_division(self) -> None:
        for bits in EDGES:
            for name, expected in (("sdiv", quotient), ("srem", remainder)):
                self.compare(f"{name} i{bits} %a, %b", bits, expected, by_zero=bits <= 64)

    def test_division_by_constants(self) -> None:
        for bits in (8, 32, 64):
            for right in (2, -2, 64, 7, -7, -(1 << (bits - 1))):
                self.compare(f"sdiv i{bits} %a, {right}", bits, lambda a, _: quotient(a, right))
                self.compare(f"srem i{bits} %a, {right}", bits, lambda a, _: remainder(a, right))

    def test_division_of_constants(self) -> None:
        self.compare("sdiv i32 -100, %b", 32, lambda _, b: quotient(-100, b))
        self.compare("srem i32 100, %b", 32, lambda _, b: remainder(100, b))

    def test_long_numbers(self) -> None:
        self.compare("mul i128 %a, %b", 128, lambda a, b: a * b)
        unsigned = 1 << 128
        self.compare("udiv i128 %a, %b", 128, lambda a, b: (a % unsigned) // (b % unsigned) if b else 0, by_zero=False)
        self.compare("urem i128 %a, %b", 128, lambda a, b: (a % unsigned) % (b % unsigned) if b else a, by_zero=False)
        for name, expected in (
            ("shl", lambda a, b: a << (b & 127)),
            ("lshr", lambda a, b: (a % unsigned) >> (b & 127)),
            ("ashr", lambda a, b: a >> (b & 127)),
        ):
            self.compare(f"{name} i128 %a, %m", 128, expected, "%m = and i128 %b, 127")

    def test_products_that_overflow(self) -> None:
        for name, least, end in (("umul", 0, 1 << 64), ("smul", -(1 << 63), 1 << 63)):

            def expected(a: int, b: int) -> int:
                a, b = (a % end, b % end) if least == 0 else (a, b)
                return int(not least <= a * b < end)

            call = f"%p = call {{ i64, i1 }} @llvm.{name}.with.overflow.i64(i64 %a, i64 %b)"
            first = "%o = extractvalue { i64, i1 } %p, 1"
            self.compare("zext i1 %o to i64", 64, expected, call, first, names=(f"{name}.with.overflow",))

    def test_counts(self) -> None:
        for bits in (8, 16, 32, 64):

            def leading(a: int, _: int) -> int:
                return bits - (a % (1 << bits)).bit_length()

            def trailing(a: int, _: int) -> int:
                return ((a & -a).bit_length() - 1) if a else bits

            for name, expected in (("ctlz", leading), ("cttz", trailing)):
                self.compare(f"call i{bits} @llvm.{name}.i{bits}(i{bits} %a, i1 false)", bits, expected, names=(name,))

    def compare(
        self,
        words: str,
        bits: int,
        expected: Callable[[int, int], int],
        *before: str,
        names: tuple[str, ...] = (),
        by_zero: bool = True,
    ) -> None:
        """Runs an instruction for all pairs of edges."""
        parameters = f"i{bits} %a, i{bits} %b"
        lowered = behind_optimizer(function(f"i{bits}", parameters, *before, f"%r = {words}", f"ret i{bits} %r"))
        self.assertFalse([name for name in names if f"@llvm.{name}." in lowered])
        for operation in ("sdiv", "srem"):
            self.assertNotIn(f" {operation} ", lowered)
        pairs = [(a, b) for a in EDGES[bits] for b in EDGES[bits] if b or by_zero]
        wanted = [as_signed(expected(a, b), bits) for a, b in pairs]
        self.assertEqual([*self.run_pairs(lowered, bits, pairs)], wanted, words)

    def run_pairs(self, lowered: str, bits: int, pairs: list[tuple[int, int]]) -> Iterator[int]:
        """What a function gives; on this machine division by zero would end it, so it is of numbers as BPF divides."""
        guarded = with_division_of_bpf(lowered)
        with tempfile.TemporaryDirectory() as name:
            folder = Path(name)
            (folder / "f.ll").write_text(f"{LAYOUT}\n{guarded}")
            of = "__int128" if bits == 128 else f"int{bits}_t"
            rows = ",".join(f"{{{word_pair(left)}, {word_pair(right)}}}" for left, right in pairs)
            (folder / "main.c").write_text(DRIVER.replace("OF", of).replace("ROWS", rows))
            program = folder / "main"
            words = ["clang", "-w", "-O1", str(folder / "main.c"), "-x", "ir", str(folder / "f.ll"), "-o", str(program)]
            made = subprocess.run(words, capture_output=True, text=True, timeout=SECONDS)
            self.assertEqual(made.returncode, 0, made.stderr)
            done = subprocess.run([str(program)], capture_output=True, text=True, timeout=SECONDS, check=True)
            for line in done.stdout.splitlines():
                high, low = map(int, line.split())
                yield as_signed(high << 64 | low, 128)


def with_division_of_bpf(text: str) -> str:
    """BPF's unsigned division, by functions of the driver, in the place of LLVM's, which has no result by zero."""
    lines = []
    for line in text.splitlines():
        if found := UNSIGNED.fullmatch(line):
            line = f"{found[1]} = call i64 @{found[2]}(i64 {found[3]}, i64 {found[4]})"
        lines.append(line)
    return "\n".join([*lines, "declare i64 @udiv(i64, i64)", "declare i64 @urem(i64, i64)", ""])


DRIVER = """
#include <stdint.h>
#include <stdio.h>
#define W(high, low) (OF)((unsigned __int128)high << 64 | low)
uint64_t udiv(uint64_t a, uint64_t b) { return b ? a / b : 0; }
uint64_t urem(uint64_t a, uint64_t b) { return b ? a % b : a; }
OF f(OF, OF);
OF rows[][2] = {ROWS};
int main(void) {
    for (unsigned i = 0; i < sizeof rows / sizeof *rows; i++) {
        unsigned __int128 r = (__int128)f(rows[i][0], rows[i][1]);
        printf("%llu %llu\\n", (unsigned long long)(r >> 64), (unsigned long long)r);
    }
}
"""


if __name__ == "__main__":
    unittest.main()
