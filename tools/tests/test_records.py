#!/usr/bin/env python3
"""Tries how tools/explain reads records and the text of a unit, and how it cuts and escapes what it shows."""

from __future__ import annotations

import json
import sys
import unittest
from pathlib import Path

sys.path[:0] = [str(Path(__file__).resolve().parents[1])]

from explain.operands import parse
from explain.pages import Page
from explain.records import MemoryRanOut, RecordsError, Value, read
from explain.reasons import unit_reasons
from explain.shown import cut, cut_name, escaped, trimmed

HEADER = {"record": "header", "version": 1, "form": "text", "argument": "18446744073709551615", "test": "flow"}
HEADER.update({"states": False, "all": False, "grid": False})
INSN = {"record": "insn", "slot": 0, "insn": "exit", "reached": True, "ahead": None, "aside": None}
END = {"record": "end", "status": 1}


def printed(*records: object) -> str:
    """Records as they are printed."""
    return "".join(json.dumps(record, separators=(",", ":")) + "\n" for record in records)


class Records(unittest.TestCase):
    def test_values(self) -> None:
        of = {"record": "value", "slot": 3, "register": 2}
        number = {**of, "kind": "number", "low": "8", "high": "18446744073709551608", "shift": 3}
        frame = {**of, "register": 4, "kind": "main_frame", "offset": -512}
        facts = read(printed(HEADER, number, frame, END))
        self.assertEqual(facts.header.argument, 2**64 - 1)
        self.assertEqual(facts.values[3][2], Value("number", 8, 2**64 - 8, 3))
        self.assertEqual(facts.values[3][4], Value("main_frame", offset=-512))
        self.assertEqual(facts.status, 1)

    def test_what_is_not_known_is_passed_over(self) -> None:
        facts = read(printed(HEADER, {"record": "column", "slot": 0}, {**INSN, "column": 4}, END))
        self.assertEqual(facts.insns[0].insn, "exit")

    def test_discarded(self) -> None:
        whole = printed(HEADER, INSN, END)
        for output in ("", "\n", "x\n", "[]\n", whole[:-4], whole.rpartition('{"record":"end"')[0], whole + "}\n"):
            with self.subTest(output), self.assertRaises(RecordsError):
                read(output)
        for record in ({}, 3, {"record": "insn"}, {"record": "pair", "loop": 0}, {**INSN, "record": []}):
            with self.subTest(record), self.assertRaises(RecordsError):
                read(printed(HEADER, record, END))
        for header in (INSN, {**HEADER, "version": 2}, {"record": "header", "version": 1}):
            with self.subTest(header), self.assertRaises(RecordsError):
                read(printed(header, END))
        with self.assertRaises(RecordsError):
            unit_reasons(read(printed(HEADER, {**INSN, "insn": "sing r3"}, END)), Page("", ()))

    def test_memory(self) -> None:
        with self.assertRaises(MemoryRanOut):
            read(printed({"record": "end", "status": 4}))


class Operands(unittest.TestCase):
    def test_reads_and_writes(self) -> None:
        wanted = {
            "add64 r3, r2": ((2, 3), (3,)),
            "mov32 r3, r2": ((2,), (3,)),
            "mov64 r3, -1": ((), (3,)),
            "mov64s32 r3, r2": ((2,), (3,)),
            "neg32 r3": ((3,), (3,)),
            "swap16 r3": ((3,), (3,)),
            "ldxs8 r3, [r10-8]": ((10,), (3,)),
            "st8 [r3+0], -1": ((3,), ()),
            "stx64 [r3-8], r1": ((1, 3), ()),
            "atomic32 add [r3+0], r1": ((1, 3), ()),
            "atomic64 add_fetch [r3+0], r1": ((1, 3), (1,)),
            "atomic64 cmpxchg [r3+0], r1": ((0, 1, 3), (0,)),
            "jset64 r4, r2, -1": ((2, 4), ()),
            "ja32 +70000": ((), ()),
            "call 1": ((1, 2), (0, 1, 2, 3, 4, 5)),
            "call_local 1": ((), (0, 1, 2, 3, 4, 5)),
            "ldmapval r3, 1, 8": ((), (3,)),
            "exit": ((0,), ()),
        }
        for text, (reads, writes) in wanted.items():
            insn = parse(text)
            self.assertEqual((insn.reads, insn.writes), (reads, writes), text)
        self.assertEqual(parse("ldcode r2, +11").distance, 11)
        self.assertEqual(parse("stx64 [r3-8], r1").offset, -8)
        self.assertEqual(parse("ldmapval r3, 1, 8").byte, 8)


class Pages(unittest.TestCase):
    def test_lines_of_instructions(self) -> None:
        page = Page("; unit\n\nmaps 1 ; head\nout:\n \t; only a comment\nexit\x1c\nexit\n", [0, 1])
        self.assertEqual([page.number(slot) for slot in (0, 1, 2)], [6, 7, None])
        self.assertEqual(page.instruction(6), "exit\x1c")
        self.assertEqual(page.place(3, "ja +0"), "slot 3: ja +0")

    def test_comments(self) -> None:
        lines = ["; of the head", "maps 1", "exit", "; slot 7, f.c:3: x, y", "out:", "exit", "exit ; own", "exit"]
        page = Page("\n".join([*lines, "", "exit"]), range(5))
        of_lines = [page.comment(number) for number in range(1, 9)]
        self.assertEqual(of_lines, ["of the head"] * 2 + [""] + ["f.c:3: x, y"] * 3 + ["own", "f.c:3: x, y"])
        self.assertEqual([page.comment(number) for number in (0, 10, 11)], [""] * 3)


class Shown(unittest.TestCase):
    def test_cut(self) -> None:
        self.assertEqual(cut("é" * 100), "é" * 100)
        self.assertEqual(cut("é" * 101), "é" * 100 + "...")
        self.assertEqual(cut("x" + "é" * 100), "x" + "é" * 99 + "...")
        self.assertEqual(cut_name("x" + "\U0001f600" * 25), "x" + "\U0001f600" * 24)

    def test_escaped(self) -> None:
        self.assertEqual(escaped("a\tb\nc\x1b[0m\x7f\r"), "a b\nc\\x1b[0m\\x7f\\x0d")
        self.assertEqual(escaped("\x85\u202eé\u2069\u206a"), "\\x85\\u202eé\\u2069\u206a")

    def test_trimmed(self) -> None:
        self.assertEqual(trimmed("\u3000\v\x1cx\x1f\x85\u2028"), "\x1cx\x1f")


if __name__ == "__main__":
    unittest.main()
