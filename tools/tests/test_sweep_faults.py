#!/usr/bin/env python3
"""Tries that the few sweeps of tools/sweep_faults leave out no command line and no row."""

from __future__ import annotations

import sys
import unittest
from pathlib import Path

sys.path.insert(0, str(Path(__file__).resolve().parents[1]))

from faults.rows import FEW_LINES, commands, few_commands, rows  # noqa: E402


class FewSweeps(unittest.TestCase):
    def test_each_command_line_is_swept(self) -> None:
        swept = [words for row in rows() for words in few_commands(row)]
        self.assertEqual({*swept}, {*commands()})

    def test_each_row_is_swept_by_each_of_its_lines_once(self) -> None:
        self.assertEqual([*FEW_LINES], [row.name for row in rows()])
        for row in rows():
            self.assertEqual(len({*few_commands(row)}), len(few_commands(row)), row.name)


if __name__ == "__main__":
    unittest.main()
