#!/usr/bin/env python3
"""Has texts explained that were made from those of examples/ by random edits, and checks that each is.

    tools/tests/random_explained.py PROGRAM [SEED [COUNT]]

PROGRAM is `bpfspec`, which makes the facts. A text is a unit in assembler text or in hex form, most of them with values
of maps and events; one edit or more changes a line, a word, a number or a byte. Of each text, with random options:

- the explanation, the picture and the SARIF log are made, without an exception;
- nothing in what is printed after the answer controls a terminal;
- the log has the properties that SARIF 2.1.0 requires, of the types that it requires.

A few of them are given to the whole program, which prints the same, and nothing on standard error. It is timed: for a
small unit it needs less than 0.15 s, and for one of 4,096 slots less than 0.5 s, of the time of a processor that does
a million additions in 0.04 s; of a slower one, or one that has much to do, it may need more.

Each difference is on standard error, with the text. Standard output has the counts. The status is 0 where nothing was
wrong, else 1.
"""

from __future__ import annotations

import json
import os
import random
import re
import resource
import subprocess
import sys
import time
import traceback
from collections import Counter
from collections.abc import Iterator
from concurrent.futures import ProcessPoolExecutor
from functools import lru_cache, partial
from pathlib import Path
from typing import Any, NamedTuple

TOP = Path(__file__).resolve().parents[2]
sys.path.insert(0, str(TOP / "tools"))

from explain.command_line import Ask, read_words  # noqa: E402
from explain.explaining import Explanation  # noqa: E402
from explain.main import words_of  # noqa: E402
from explain.records import read  # noqa: E402
from explain.sarif import sarif_of  # noqa: E402

LIMIT = 60  # seconds of a command
WHOLE = 20  # texts that are given to the whole program
SMALL_TIME, LARGE_TIME, TIMES = 0.15, 0.5, 5  # seconds of a processor, the least of so many times
ADDITIONS, ADDITIONS_TIME = 1_000_000, 0.04
SMALL = "maps 1\nmov64 r0, 0\nexit\n"
JOINS = 1365  # of the large unit, each with three slots
CONTROL = re.compile("[\x00-\x09\x0b-\x1f\x7f]")
NUMBER, REGISTER, WORD = re.compile(r"(?<!r)\b-?\d+"), re.compile(r"\br[0-9]\b"), re.compile(r"[^\s,]+")
NUMBERS = "0", "1", "-1", "7", "8", "64", "65536", "-2147483648", "2147483647", "4294967296", "18446744073709551615"
ODD = "\0", "\t", "\x0b", "\x1b[31m", "\x7f", "\x85", "\u202e", "\ufeff", "é", "\U0001f600", ";", "%%\n", "\r", "<"
WORDS = "r0", "r3", "r10", "r11", "mov64", "ldx64", "exit", "call", "out:", "out", "maps", "[r10-8]", "+3", "atomic64"
ENDS = "", "%%\n", "%%\nmap 0: 1 2 3\n", "%%\n%%\nbounds 0 3\nc0 l0 t0 s0\n", "%%\nmap 0: x\n%%\nbounds 0\n", "%%\n%%\n"
FLAGS = "--states", "--all", "--picture", "--sarif"


class Case(NamedTuple):
    """An input, and the words of the command line."""

    words: list[str]
    data: bytes


@lru_cache(maxsize=None)
def units(program: str) -> list[tuple[bool, str]]:
    """The units that are edited: whether each is in hex form, and its text."""
    paths = sorted((TOP / "examples").rglob("*.bpf"))
    texts = [path.read_text(encoding="utf-8") for path in paths]
    hexes = [_run([program, "asm"], text.encode()).decode() for text in texts]
    return [(False, text) for text in texts] + [(True, text) for text in hexes if text.startswith("maps")]


def case_of(program: str, seed: int) -> Case:
    """The case of a seed."""
    rng = random.Random(seed)
    is_hex, text = rng.choice(units(program))
    text += rng.choice(ENDS)
    for _ in range(rng.choice((0, 1, 1, 1, 2, 3, 8))):
        text = rng.choice(EDITS)(rng, text)
    words = ["--hex"] if is_hex != (rng.random() < 0.05) else []
    words += [flag for flag in FLAGS if rng.random() < 0.3]
    words += ["--arg", str(rng.choice((0, 1, 3, 64, 1 << 63)))] if rng.random() < 0.3 else []
    words += ["--test", "lrpd"] if rng.random() < 0.2 else []
    return Case(words, _bytes_of(rng, text))


def _bytes_of(rng: random.Random, text: str) -> bytes:
    """The bytes of a text, of some with an end that is cut off, or a byte that is no text."""
    data = text.encode()
    if rng.random() < 0.03:
        return data[: rng.randrange(len(data) + 1)]
    if rng.random() < 0.03:
        at = rng.randrange(len(data) + 1)
        return data[:at] + bytes([rng.randrange(256)]) + data[at:]
    return rng.choice((b"\x7fELF", b"\xff\xfe", b"\xef\xbb\xbf")) + data if rng.random() < 0.01 else data


def _change_line(rng: random.Random, text: str) -> str:
    """A line is taken out, written twice, or changes places with another."""
    lines = text.split("\n")
    at, other = rng.randrange(len(lines)), rng.randrange(len(lines))
    kind = rng.randrange(3)
    if kind == 0:
        del lines[at]
    elif kind == 1:
        lines.insert(other, lines[at])
    else:
        lines[at], lines[other] = lines[other], lines[at]
    return "\n".join(lines)


def _change_word(rng: random.Random, text: str) -> str:
    return _changed(rng, WORD, text, rng.choice((*WORDS, rng.choice(WORD.findall(text) or WORDS))))


def _change_register(rng: random.Random, text: str) -> str:
    return _changed(rng, REGISTER, text, f"r{rng.randrange(10)}")


def _change_number(rng: random.Random, text: str) -> str:
    return _changed(rng, NUMBER, text, rng.choice((*NUMBERS, str(rng.randrange(100)))))


def _changed(rng: random.Random, pattern: re.Pattern[str], text: str, new: str) -> str:
    """One of the places that a pattern has in a text becomes another."""
    places = [*pattern.finditer(text)]
    if not places:
        return text
    place = rng.choice(places)
    return text[: place.start()] + new + text[place.end() :]


def _change_character(rng: random.Random, text: str) -> str:
    at = rng.randrange(len(text) + 1)
    return text[:at] + rng.choice(ODD) * rng.choice((1, 1, 1, 300)) + text[at + rng.randrange(2) :]


EDITS = (*[_change_line, _change_register, _change_number] * 3, _change_word, _change_character)


def explained(program: str, case: Case) -> str:
    """What the whole program prints, made here."""
    ask = read_words(case.words)
    records = _run([program, "facts", *words_of(ask)], case.data)
    explanation = Explanation(ask, case.data, read(records.decode()))
    return sarif_of(explanation) if ask.sarif else explanation.text()


def wrong_with(ask: Ask, text: str) -> Iterator[str]:
    """What is wrong with what is printed."""
    if CONTROL.search(text):
        yield "a control character is printed"
    if ask.sarif:
        yield from wrong_log(json.loads(text))


def wrong_log(log: Any) -> Iterator[str]:
    """What a SARIF log lacks of what version 2.1.0 requires."""
    yield from _lacking("log", log, {"version": str, "runs": list})
    for run in log["runs"]:
        yield from _lacking("run", run, {"tool": dict, "results": list})
        yield from _lacking("driver", run["tool"]["driver"], {"name": str, "version": str, "rules": list})
        rules = run["tool"]["driver"]["rules"]
        for rule in rules:
            yield from _lacking("rule", rule, {"id": str})
        for result in run["results"]:
            yield from _wrong_result(result, {rule["id"] for rule in rules})


def _wrong_result(result: Any, rules: set[str]) -> Iterator[str]:
    needed = {"ruleId": str, "level": str, "message": dict, "locations": list, "partialFingerprints": dict}
    yield from _lacking("result", result, needed)
    yield from _lacking("message", result["message"], {"text": str})
    if result["level"] not in ("error", "warning", "note") or result["ruleId"] not in rules:
        yield f"a result has the level {result['level']} and the rule {result['ruleId']}"
    flows = [flow["threadFlows"][0]["locations"] for flow in result.get("codeFlows", [])]
    places = [*result["locations"], *result.get("relatedLocations", [])]
    for place in [*places, *(step["location"] for flow in flows for step in flow)]:
        physical = place["physicalLocation"]
        yield from _lacking("artifactLocation", physical["artifactLocation"], {"uri": str})
        if "region" in physical and physical["region"]["startLine"] < 1:
            yield "a region begins before line 1"


def _lacking(name: str, found: Any, needed: dict[str, type]) -> Iterator[str]:
    for key, kind in needed.items():
        if not isinstance(found.get(key), kind):
            yield f"{name} has no {key} that is a {kind.__name__}"


def outcome_of(program: str, seed: int) -> tuple[str, list[str]]:
    """The first word that is printed of the case of a seed, and what is wrong with it."""
    case = case_of(program, seed)
    try:
        text = explained(program, case)
        return text.split(None, 1)[0] if text.split() else "", [*wrong_with(read_words(case.words), text)]
    except Exception:  # any of them is what is looked for
        return "exception", [traceback.format_exc()]


def whole_wrong(program: str, seed: int) -> Iterator[str]:
    """How what the whole program prints differs."""
    case = case_of(program, seed)
    done = subprocess.run(_whole(case.words), input=case.data, env=_env(program), capture_output=True, timeout=LIMIT)
    if done.stderr or done.stdout.decode() != explained(program, case):
        yield f"the whole program prints something else, and {done.stderr.decode(errors='replace')}"


def slow(program: str, text: str, most: float) -> Iterator[str]:
    """That a text needs more time than it may."""
    allowed = most * max(min(_additions() for _ in range(TIMES)) / ADDITIONS_TIME, 1)
    least = min(_time(program, text) for _ in range(TIMES))
    lines = text.count("\n")
    print(f"a text of {lines} lines: {least:.3f} s of {allowed:.3f} s")
    if least > allowed:
        yield f"a text of {lines} lines needs {least:.3f} s, more than {allowed:.3f} s"


def _additions() -> float:
    """The time of a processor that a million additions need."""
    before = time.process_time()
    total = 0
    for number in range(ADDITIONS):
        total += number & 1
    return time.process_time() - before


def _time(program: str, text: str) -> float:
    """The time of a processor that the whole program needs."""
    before = resource.getrusage(resource.RUSAGE_CHILDREN)
    subprocess.run(_whole([]), input=text.encode(), env=_env(program), capture_output=True, timeout=LIMIT, check=False)
    after = resource.getrusage(resource.RUSAGE_CHILDREN)
    return after.ru_utime + after.ru_stime - before.ru_utime - before.ru_stime


def large() -> str:
    """A refused unit of nearly 4,096 slots, with a join at every third: a register is written on one path alone."""
    parts = [f"jeq64 r1, {at}, over{at}\nmov64 r3, {at}\nover{at}:\nmov64 r2, r1\n" for at in range(JOINS)]
    return "maps 1\n" + "".join(parts) + "mov64 r0, r3\n"


def _whole(words: list[str]) -> list[str]:
    return [sys.executable, str(TOP / "tools" / "explain"), *words]


def _env(program: str) -> dict[str, str]:
    return {**os.environ, "BPFSPEC": program}


def _run(words: list[str], data: bytes) -> bytes:
    return subprocess.run(words, input=data, stdout=subprocess.PIPE, timeout=LIMIT, check=False).stdout


def main(program: str, seed: int, count: int) -> int:
    """Has so many texts explained."""
    seeds = range(seed, seed + count)
    begun: Counter[str] = Counter()
    wrong = 0
    with ProcessPoolExecutor(len(os.sched_getaffinity(0))) as pool:
        for number, (word, differences) in zip(seeds, pool.map(partial(outcome_of, program), seeds, chunksize=16)):
            begun[word] += 1
            if differences:
                wrong += 1
                case = case_of(program, number)
                print(f"seed {number}", case.words, case.data, *differences, sep="\n", file=sys.stderr)
    others = [line for number in seeds[:WHOLE] for line in whole_wrong(program, number)]
    others += [*slow(program, SMALL, SMALL_TIME), *slow(program, large(), LARGE_TIME)]
    print(*others, sep="\n", end="\n" if others else "", file=sys.stderr)
    words = ", ".join(f"{word} {times}" for word, times in sorted(begun.items()))
    print(f"{count} texts explained: {words}; {wrong + len(others)} wrong")
    return 1 if wrong or others else 0


if __name__ == "__main__":
    sys.exit(main(os.path.abspath(sys.argv[1]), *(int(word) for word in [*sys.argv[2:], "0", "2000"][:2])))
