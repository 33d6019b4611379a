#!/usr/bin/env python3
"""Tries what `explain` tells of refused programs: the value that breaks the rule, where it comes from, and what helps.

The program is that of $BPFSPEC, else `./bpfspec`. A line that is wanted may end with `..`: then it is
the beginning of the line that is told.
"""

from __future__ import annotations

import subprocess
import sys
import unittest
from pathlib import Path

TOP = Path(__file__).resolve().parent.parent.parent
PROGRAM = [sys.executable, str(TOP / "tools" / "explain")]
LIMIT = 3600  # seconds, as the launcher may have to build the program
MEETING = (
    "  where paths meet, numbers may differ, and places in one map's values; anything else has to be the same, or "
    "can't be read from there on"
)
HELPS = "  what usually helps: "


def explained(*lines: str, options: tuple[str, ...] = ()) -> list[str]:
    """What is told of an input of these lines."""
    text = "".join(f"{line}\n" for line in lines)
    words = [*PROGRAM, *options]
    done = subprocess.run(words, input=text, capture_output=True, text=True, timeout=LIMIT, cwd=TOP, check=False)
    return done.stdout.splitlines()


def call(number: int, callback: str, ctx: str = "mov64 r3, 0") -> list[str]:
    """A call of bpf_loop, of 6 slots where ctx is one instruction."""
    return [f"mov64 r1, {number}", f"ldcode r2, {callback}", *ctx.split(" | "), "mov64 r4, 0", "call 181"]


class Reasons(unittest.TestCase):
    def tells(self, lines: list[str], *wanted: str) -> None:
        """That all that is told of an input but the last line, which says where to read more, is what is wanted."""
        told = explained(*lines)[:-1]
        self.assertEqual(len(told), len(wanted), "\n".join(told))
        for line, want in zip(told, wanted):
            front = want.removesuffix("..")
            self.assertEqual(line[: len(front)] if want != front else line, front)

    def has(self, lines: list[str], *wanted: str) -> None:
        """That lines begin so, one after another, among what is told of an input."""
        told = explained(*lines)
        at = 0
        for want in wanted:
            found = next((n for n in range(at, len(told)) if told[n].startswith(want)), None)
            self.assertIsNotNone(found, f"{want}\nisn't, or in another order, in\n" + "\n".join(told))
            at = (found or 0) + 1


class Meetings(Reasons):
    """A register that each path writes, and which can't be read (V12)."""

    def test_a_map_s_value_and_the_frame(self) -> None:
        head = ["maps 8", "st64 [r10-8], 0", "ldmapval r2, 0, 0", "jeq64 r1, 0, meet", "mov64 r2, r10"]
        self.tells(
            [*head, "add64 r2, -8", "meet:", "ldx64 r0, [r2+0]", "exit"],
            "refused V12 at slot 6",
            "  line 8: ldx64 r0, [r2+0]",
            "  r2 is written on each path to here, but at slot 6 paths meet that left different things in it:",
            "    from slot   3  jeq64 r1, 0, +2           r2 is in map 0, at byte 0",
            "      by slot   1  ldmapval r2, 0, 0         which wrote it",
            "    from slot   5  add64 r2, -8              r2 is the frame pointer minus 8",
            MEETING,
            HELPS + "load or store on each path, before they meet..",
        )

    def test_two_maps_at_a_later_read(self) -> None:
        head = ["maps 1 1", "ldmapval r2, 0, 0", "jeq64 r1, 0, meet", "ldmapval r2, 1, 0", "meet:"]
        self.has(
            [*head, "mov64 r6, 1", "jeq64 r1, 1, out", "mov64 r6, 2", "out:", "ldx64 r0, [r2+0]", "exit"],
            "refused V12 at slot 8",
            "  r2 is written on each path to here, but at slot 5 paths meet",
            "    from slot   2  jeq64 r1, 0, +2           r2 is in map 0, at byte 0",
            "    from slot   3  ldmapval r2, 1, 0         r2 is in map 1, at byte 0",
            HELPS + "load or store on each path, before they meet (in C: `n ? a[i] : b[i]`",
        )

    def test_a_callback_with_two_ctx(self) -> None:
        first = call(1, "body", "mov64 r3, r10 | add64 r3, -8")
        second = call(1, "body", "mov64 r3, r10 | add64 r3, -16")
        body = ["body:", "ldx64 r1, [r2+0]", "mov64 r0, 0", "exit"]
        self.has(
            ["maps 1", "st64 [r10-8], 0", "st64 [r10-16], 0", *first, *second, "exit", *body],
            "refused V12 at slot 17",
            "  r2 is written on each path to here, but at slot 17 paths meet",
            "    from slot   8  call 181                  r2 is main's frame pointer minus 8",
            "    from slot  15  call 181                  r2 is main's frame pointer minus 16",
            HELPS + "give the callback the same ctx in each of its calls",
        )

    def test_one_of_two_callbacks(self) -> None:
        choice = ["ldcode r2, one", "jeq64 r1, 0, meet", "ldcode r2, two", "meet:"]
        bodies = ["one:", "mov64 r0, 0", "exit", "two:", "mov64 r0, 1", "exit"]
        self.has(
            ["maps 1", *choice, "mov64 r1, 4", "mov64 r3, 0", "mov64 r4, 0", "call 181", "exit", *bodies],
            "refused V12 at slot 8",
            "  r2 is written on each path to here, but at slot 5 paths meet",
            "    from slot   2  jeq64 r1, 0, +2           r2 is the callback at slot 10",
            "    from slot   3  ldcode r2, ",
            HELPS + "call bpf_loop on each path, or make one callback of them",
        )

    def test_a_meeting_before_another(self) -> None:
        head = ["maps 1 1", "ldmapval r2, 0, 0", "jeq64 r1, 0, one", "ldmapval r2, 1, 0", "one:", "jeq64 r1, 9, meet"]
        self.tells(
            [*head, "mov64 r2, 7", "meet:", "ldx64 r0, [r2+0]", "exit"],
            "refused V12 at slot 7",
            "  line 9: ldx64 r0, [r2+0]",
            "  r2 is written on each path to here, but at slot 5 paths meet that left different things in it:",
            "    from slot   2  jeq64 r1, 0, +2           r2 is in map 0, at byte 0",
            "      by slot   0  ldmapval r2, 0, 0         which wrote it",
            "    from slot   3  ldmapval r2, 1, 0         r2 is in map 1, at byte 0",
            MEETING,
            HELPS + "load or store on each path, before they meet..",
        )

    def test_the_second_register_that_is_read(self) -> None:
        head = ["maps 1 1", "ldmapval r3, 0, 0", "jeq64 r1, 0, meet", "ldmapval r3, 1, 0", "meet:"]
        self.has(
            [*head, "add64 r2, r3", "exit"],
            "refused V12 at slot 5",
            "  r3 is written on each path to here, but at slot 5 paths meet",
            "    from slot   2  jeq64 r1, 0, +2           r3 is in map 0, at byte 0",
            "    from slot   3  ldmapval r3, 1, 0         r3 is in map 1, at byte 0",
        )

    def test_states(self) -> None:
        head = ["maps 1 1", "ldmapval r2, 0, 0", "jeq64 r1, 0, meet", "ldmapval r2, 1, 0", "meet:"]
        told = explained(*head, "ldx64 r0, [r2+0]", "exit", options=("--states",))
        self.assertEqual(told[-1], "    slot 5: r2 is different things on different paths")


class Missing(Reasons):
    """A register that a path doesn't write (V12)."""

    LOOKUP = ("ldmap r1, 0", "mov64 r2, r10", "add64 r2, -4", "call 1")

    def test_a_path_that_doesn_t_write_it(self) -> None:
        self.has(
            ["maps 1", "jeq64 r1, 0, out", "mov64 r0, 1", "out:", "exit"],
            "refused V12 at slot 2",
            "  r0 is not written",
            HELPS + "write the register on each way here",
        )

    def test_a_path_beside_others_that_left_different_things(self) -> None:
        head = ["maps 1 1", "st32 [r10-4], 0", "ldmapval r2, 0, 0", "jeq64 r1, 0, one", "ldmapval r2, 1, 0", "one:"]
        lines = [*head, "jeq64 r1, 9, meet", *self.LOOKUP, "meet:", "ldx64 r0, [r2+0]", "exit"]
        self.tells(
            lines,
            "refused V12 at slot 12",
            "  line 13: ldx64 r0, [r2+0]",
            "  r2 is not written",
            "  a register can be read only where it is written on every path",
            "  r2 comes from",
            "    r2 is not written at slot 12, where paths meet:",
            "      from slot   6  jeq64 r1, 9, +5           r2 is different things on different paths",
            "      from slot  11  call 1                    r2 is not written",
            "    slot  11  call 1                    a call leaves r1 to r5 unwritten",
            HELPS + "write the register on each way here..",
        )
        self.assertEqual(explained(*lines, options=("--states",))[-1], "    slot 12: r2 is not written")

    def test_a_path_behind_one_with_any_number(self) -> None:
        head = ["maps 1", "st32 [r10-4], 0", "mov64 r6, r1", "mov64 r3, r1", "jeq64 r6, 0, meet"]
        self.has(
            [*head, *self.LOOKUP, "meet:", "mov64 r0, r3", "exit"],
            "refused V12 at slot 9",
            "    r3 is not written at slot 9, where paths meet:",
            "      from slot   3  jeq64 r6, 0, +5           r3 is any number",
            "      from slot   8  call 1                    r3 is not written",
            "    slot   8  call 1                    a call leaves r1 to r5 unwritten",
        )


class Advice(Reasons):
    """What helps is said by the case, and not by the rule alone."""

    def test_outside_of_the_own_frame(self) -> None:
        self.tells(
            ["maps 1", "ldx64 r0, [r10+0]", "exit"],
            "refused V19 at slot 0",
            "  line 2: ldx64 r0, [r10+0]",
            "  r10 is the frame pointer; a frame is the 512 bytes below r10, so 8 bytes at +0 from there may lie"
            " outside",
            HELPS + "keep the access within the 512 bytes below r10 (in C: fewer and smaller local variables..",
        )

    def test_outside_of_main_s_frame(self) -> None:
        first = call(1, "body", "mov64 r3, r10 | add64 r3, -8")
        self.has(
            ["maps 1", "st64 [r10-8], 0", *first, "exit", "body:", "ldx64 r1, [r2+8]", "mov64 r0, 0", "exit"],
            "refused V19 at slot 9",
            "  r2 is main's frame pointer minus 8; main's frame is the 512 bytes below its r10, so 8 bytes at +8 from",
            HELPS + "give bpf_loop an address in main's frame with all the bytes behind it",
        )

    def test_outside_of_a_map_by_a_constant(self) -> None:
        self.has(
            ["maps 2", "ldmapval r1, 0, 8", "ldx64 r0, [r1+8]", "exit"],
            "refused V19 at slot 2",
            "  r1 is in map 0, at byte 8; map 0 has 2 elements, 16 bytes, so 8 bytes at +8 from there may lie outside",
            HELPS + "access an earlier byte, element e begins at byte 8 e, or give the map more elements",
        )

    def test_ctx_by_an_index(self) -> None:
        first = call(4, "body", "mov64 r3, r10 | add64 r3, -8")
        self.tells(
            ["maps 1", "st64 [r10-8], 0", *first, "exit", "body:", "add64 r2, r1", "mov64 r0, 0", "exit"],
            "refused V13 at slot 9",
            "  line 11: add64 r2, r1",
            "  r1 is 0 to 3, r2 is main's frame pointer minus 8",
            "  an address in main's frame, as ctx is, can be moved by a constant alone, and not by a number that may be"
            " several",
            "  r1 comes from",
            "    slot   7  call 181                  the index, below the number of iterations: r1 is 4",
            HELPS + "keep what is indexed in a map (in C: a global array in place of one that ctx points to)",
        )

    def test_the_frame_by_an_index(self) -> None:
        self.has(
            ["maps 1", "and64 r1, 8", "mov64 r2, r10", "add64 r2, r1", "mov64 r0, 0", "exit"],
            "refused V13 at slot 2",
            "  an address in a frame can be moved by a constant alone",
            "  r1 comes from",
            HELPS + "keep what is indexed in a map (in C: a global variable in place of a local array)",
        )

    def test_down_by_a_register(self) -> None:
        self.has(
            ["maps 2", "ldmapval r3, 0, 8", "mov64 r2, -8", "add64 r3, r2", "ldx64 r0, [r3+0]", "exit"],
            "refused V13 at slot 3",
            "  r2 is 18446744073709551608 (signed, -8), r3 is in map 0, at byte 8",
            "  an address in a map's values can't be moved down: a number can be added to it, of 0 or more",
            "  r2 comes from",
            "    slot   2  mov64 r2, -8              a constant",
            HELPS + "load the address of an earlier byte by ldmapval",
        )

    def test_down_by_a_constant(self) -> None:
        self.has(
            ["maps 2", "ldmapval r3, 0, 8", "add64 r3, -8", "ldx64 r0, [r3+0]", "exit"],
            "refused V13 at slot 2",
            "  r3 is in map 0, at byte 8",
            "  an address in a map's values can't be moved down",
        )

    def test_the_address_as_the_second_operand(self) -> None:
        self.has(
            ["maps 8", "and64 r1, 7", "ldmapval r3, 0, 0", "add64 r1, r3", "mov64 r0, 0", "exit"],
            "refused V13 at slot 3",
            "  r3 comes from",
            HELPS + "make the address the destination of add64 and the number its second operand",
        )

    def test_an_answer_that_may_be_null(self) -> None:
        lookup = ["st32 [r10-4], 0", "ldmap r1, 0", "mov64 r2, r10", "add64 r2, -4", "call 1"]
        self.has(
            ["maps 2", *lookup, "add64 r0, 4", "mov64 r0, 0", "exit"],
            "refused V13 at slot 6",
            "  an answer of bpf_map_lookup_elem can be moved once it was compared with 0",
            "  r0 comes from",
            "    slot   5  call 1                    what bpf_map_lookup_elem answers",
            HELPS + "compare the answer with 0 first",
        )
        self.has(
            ["maps 2", *lookup, "ldx64 r0, [r0+0]", "exit"],
            "refused V16 at slot 6",
            HELPS + "compare the answer with 0 first",
        )

    def test_the_wrong_argument_alone(self) -> None:
        self.tells(
            ["maps 1", *call(4, "body", "ldmapval r3, 0, 0"), "exit", "body:", "mov64 r0, 0", "exit"],
            "refused V22 at slot 6",
            "  line 6: call 181",
            "  this is bpf_loop(nr_loops, callback_fn, callback_ctx, flags), with these in r1 to r4",
            "  r3 is in map 0, at byte 0; it has to be an address in main's frame, or 0",
            "  r3 comes from",
            "    slot   3  ldmapval r3, 0, 0         a constant",
            HELPS + "store what ctx points to in the frame, and give its address there (in C: a local variable as..",
        )

    def test_a_key_in_a_map(self) -> None:
        self.has(
            ["maps 1 1", "ldmap r1, 0", "ldmapval r2, 1, 0", "call 1", "mov64 r0, 0", "exit"],
            "refused V22 at slot 4",
            "  this is bpf_map_lookup_elem(map, key), with the map in r1 and the address of the key in r2",
            "  r2 is in map 1, at byte 0; it has to be the address of a key of 4 bytes in a frame, at a multiple of 4",
            "  r2 comes from",
            HELPS + "store the key in the frame, and give its address there (in C: a local variable as the key)",
        )

    def test_a_byte_of_ctx(self) -> None:
        first = call(1, "body", "mov64 r3, r10 | add64 r3, -16")
        self.has(
            ["maps 1", "st64 [r10-16], 0", *first, "exit", "body:", "ldx64 r1, [r2+8]", "mov64 r0, 0", "exit"],
            "refused V20 at slot 9",
            "  r2 is main's frame pointer minus 16; not each of the 8 bytes at +8 from there is written on every path"
            " to the bpf_loop call",
            "  the byte at main's r10-8 isn't",
            "  r2 comes from",
            HELPS + "write the bytes in main before each bpf_loop call of the callback",
        )

    def test_a_helper_by_name(self) -> None:
        self.has(
            ["maps 1", "call 5", "exit"],
            "refused V7 at slot 0",
            "  there is no helper 5 (bpf_ktime_get_ns): the helpers are 1 (bpf_map_lookup_elem) and 181 (bpf_loop)",
            HELPS + "let it come in from outside, by --arg or as a map's values",
        )

    def test_a_signed_comparison(self) -> None:
        head = ["maps 8", "mov64 r0, 0", "and64 r1, 15", "jsgt64 r1, 7, out", "lsh64 r1, 3", "ldmapval r3, 0, 0"]
        self.has(
            [*head, "add64 r3, r1", "ldx64 r0, [r3+0]", "out:", "exit"],
            "refused V19 at slot 7",
            "  r3 comes from",
            "    slot   3  lsh64 r1, 3               r1 is 0 to 15",
            "    slot   2  jsgt64 r1, 7, +5          r1 is 0 to 15: a comparison of signed numbers narrows nothing",
            "    slot   1  and64 r1, 15              r1 is any number",
            HELPS + "compare the index unsigned, by jgt64 or jlt64, before the access",
        )


class Replays(Reasons):
    """Bounds and events that are no schedule of the loop, which has 8 iterations."""

    LOOP = ("maps 1", *call(8, "body"), "exit", "body:", "mov64 r0, 0", "exit")
    AWAY = "the events aren't taken: refused "

    def is_told(self, bounds: str, events: str, *wanted: str) -> None:
        """That what is told of these bounds and events ends so, before the line that says where to read more."""
        told = explained(*self.LOOP, "%%", "%%", bounds, *([events] if events else []))
        self.tells_last(told, *wanted)

    def tells_last(self, told: list[str], *wanted: str) -> None:
        """That the last lines but one begin so."""
        last = told[-1 - len(wanted) : -1]
        self.assertTrue(all(line.startswith(want) for line, want in zip(last, wanted, strict=True)), "\n".join(told))

    def test_bounds(self) -> None:
        self.is_told("bounds 0 6 4 8", "", self.AWAY + "S1", "  bound 2, 4, is below the one before it, 6")
        self.is_told("bounds 8", "", self.AWAY + "S2", "  1 bound is given: 2 to 65 are needed, from 0 to the number")
        self.is_told("bounds 0 4 7", "", self.AWAY + "S3", "  the bounds go from 0 to 7: they have to go from 0 to")

    def test_events(self) -> None:
        turns = " ".join(["t0"] * 8)
        self.is_told("bounds 0 8", "c16", self.AWAY + "E1 at event 0", "  event 0, `c16`, is of worker 16: the")
        self.is_told("bounds 0 8", "c0 t0", self.AWAY + "E2 at event 1", "  event 1, `t0`, is a turn, and worker 0")
        lost = "  the list ends after 11 events, and worker 0 hasn't stopped: `s0` is missing"
        self.is_told("bounds 0 8", f"c0 l0 {turns} c0", self.AWAY + "E3 at event 11", lost)
        self.is_told("bounds 0 8", "", self.AWAY + "E3 at event 0", "  there is no event: at least one worker claims")
        told = explained(*self.LOOP, "%%", "%%", "bounds 0 8", f"c0 l0 {turns} c0 s0")
        self.assertFalse([line for line in told if "taken" in line])

    def test_no_loop(self) -> None:
        told = explained("maps 1", "mov64 r0, 0", "exit", "%%", "%%", "bounds 0 4", "c0 s0")
        self.tells_last(told, self.AWAY + "no loop", "  main comes to no valid loop call with this argument")

    def test_an_empty_line_of_values(self) -> None:
        told = explained(*self.LOOP, "%%", "", "%%", "bounds 0 4", "c0 s0")
        self.assertIn("the maps aren't taken: refused A7 at maps line 0", told)
        self.assertIn("  there is text after `%%` and no map in it: without `%%` all values are 0", told)


class Heads(Reasons):
    """Slips on the first line."""

    def test_sizes(self) -> None:
        for head, slip in {
            "maps 4,4": "  sizes are parted by blanks, without commas",
            "maps 0x10": "  numbers are decimal: 16 for 0x10",
            "maps 010": "  a number is decimal, and has no zero in front, as `10` for `010`",
        }.items():
            self.has([head, "mov64 r0, 0", "exit"], "refused A1 at unit line 1", f"  line 1: {head}", slip)


if __name__ == "__main__":
    unittest.main()
