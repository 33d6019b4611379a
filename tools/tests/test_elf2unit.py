#!/usr/bin/env python3
"""Runs elf2unit on objects of examples/from_c, by the program that $BPFSPEC names, or the repository's own."""

from __future__ import annotations

import os
import subprocess
import unittest
from pathlib import Path

TOP = Path(__file__).resolve().parents[2]
OBJECTS = TOP / "examples" / "from_c"
PROGRAM = os.environ.get("BPFSPEC") or str(TOP / "bpfspec")


def unit_of(name: str, *options: str) -> bytes:
    """What elf2unit writes."""
    command = [TOP / "tools" / "elf2unit", *options, OBJECTS / f"{name}.o"]
    return subprocess.run(command, stdout=subprocess.PIPE, check=True).stdout


def ran(unit: bytes, *options: str) -> bytes:
    """What the program prints that runs a unit."""
    return subprocess.run([PROGRAM, "order", *options], input=unit, stdout=subprocess.PIPE, check=True).stdout


class Hex(unittest.TestCase):
    def test_a_unit_in_hex_form_keeps_its_values(self) -> None:
        for name in "histogram", "bloom_filter", "prefix_sum":
            text, digits = unit_of(name), unit_of(name, "--hex")
            self.assertEqual(ran(digits, "--hex"), ran(text))
            self.assertEqual(digits.partition(b"%%\n")[1:], text.partition(b"%%\n")[1:])


if __name__ == "__main__":
    unittest.main()
