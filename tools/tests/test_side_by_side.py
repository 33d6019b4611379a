#!/usr/bin/env python3
"""Tries how tools/run_checks runs checks beside each other, with commands of a few tenths of a second."""

from __future__ import annotations

import contextlib
import io
import sys
import tempfile
import unittest
from pathlib import Path

sys.path.insert(0, str(Path(__file__).resolve().parents[1]))

from checks.side_by_side import Check, SideBySide  # noqa: E402


class Output(io.TextIOWrapper):
    """Standard output that keeps what is written."""

    def __init__(self) -> None:
        super().__init__(io.BytesIO(), encoding="utf-8", write_through=True)

    def lines(self) -> list[str]:
        """The lines, those with times without them."""
        text = self.buffer.getvalue().decode()  # type: ignore[attr-defined]
        return [line.partition(": ")[0] if line.startswith("== ") else line for line in text.splitlines()]


class Checks(unittest.TestCase):
    def ran(self, *checks: Check, at_once: int = 2) -> tuple[tuple[int, int], list[str], list[str]]:
        """The counts of checks, what is printed, and what they wrote to the file `log`, in that order."""
        with tempfile.TemporaryDirectory() as folder, contextlib.redirect_stdout(Output()) as output:
            log = Path(folder) / "log"
            log.touch()
            counts = SideBySide(checks, at_once).run(Path(folder))
            return counts, output.lines(), log.read_text().split()

    def test_output_is_apart_and_in_the_order_of_the_list(self) -> None:
        slow, quick = Check("sh -c 'echo a; sleep 0.3; echo b >&2'"), Check("sh -c 'echo c; sleep 0.1; printf d'")
        counts, lines, _ = self.ran(slow, quick)
        self.assertEqual(lines, [f"== {slow.words}", "a", "b", f"== {quick.words}", "c", "d"])
        self.assertEqual(counts, (2, 0))

    def test_each_that_fails_counts(self) -> None:
        checks = Check("false"), Check("true"), Check("sh -c 'kill -9 $$'"), Check("./lacking")
        counts, lines, _ = self.ran(*checks)
        failed = [line for line in lines if line.startswith("failed: ")]
        self.assertEqual(failed, [f"failed: {checks[at].words}" for at in (0, 2, 3)])
        self.assertEqual(counts, (1, 3))

    def test_what_needs_another_runs_after_it(self) -> None:
        first = Check("sh -c 'sleep 0.2; echo first >> log'")
        second = Check("sh -c 'echo second >> log'", needs=(first,))
        counts, _, log = self.ran(second, first)
        self.assertEqual((counts, log), ((2, 0), ["first", "second"]))

    def test_what_needs_one_that_fails_is_not_run(self) -> None:
        broken = Check("false")
        after = Check("sh -c 'echo after >> log'", needs=(broken,))
        last = Check("sh -c 'echo last >> log'", needs=(after,))
        counts, lines, log = self.ran(last, after, broken)
        self.assertEqual((counts, log), ((0, 3), []))
        self.assertIn(f"it needs what failed: {broken.words}", lines)

    def test_the_longest_start_first(self) -> None:
        short, long, first = (Check(f"sh -c 'echo {name} >> log'", n) for name, n in (("short", 1), ("long", 9), ("first", 2)))
        needing = Check("sh -c 'echo needing >> log'", 8, needs=(first,))
        _, _, log = self.ran(short, long, first, needing, at_once=1)
        self.assertEqual(log, ["first", "long", "needing", "short"])

    def test_as_many_run_as_there_may(self) -> None:
        checks = [Check(f"sh -c 'echo + >> log; sleep 0.2; echo - >> log; : {number}'") for number in range(5)]
        for most in (1, 3):
            _, _, log = self.ran(*checks, at_once=most)
            running = [log[:at].count("+") - log[:at].count("-") for at in range(len(log) + 1)]
            self.assertEqual(max(running), most)

    def test_nothing_runs_beside_one_that_is_alone(self) -> None:
        def check(name: str, is_alone: bool) -> Check:
            return Check(f"sh -c 'echo {name} >> log; sleep 0.2; echo {name} >> log'", 9, is_alone=is_alone)

        checks = check("a", True), check("b", False), check("c", True), check("d", False)
        _, _, log = self.ran(*checks, at_once=4)
        self.assertEqual((sorted(log[:4]), log[4:]), (["b", "b", "d", "d"], ["a", "a", "c", "c"]))


if __name__ == "__main__":
    unittest.main()
