"""What is found in an input as SARIF 2.1.0, a format of findings that editors and forges show: one run, in which a
refusal is an error, two iterations of a loop that conflict and a refused call of bpf_loop are warnings, and the break
of a loop is a note.

A place is the line of the instruction in the input, which is named `stdin`; if the line's comment begins with a line of
C, as `reservoir.c:18: ..`, it is that line. In hex form it is a slot."""

from __future__ import annotations

import json
import re
from collections.abc import Iterator
from typing import Any
from urllib.parse import quote

from .command_line import VERSION
from .explaining import EVENTS, UNIT, Explanation
from .given import OF_REPLAYS
from .loops import BREAKS, CONFLICT, REFUSED
from .records import Pair, Refusal
from .shown import escaped

Json = dict[str, Any]
SCHEMA = "https://docs.oasis-open.org/sarif/sarif/v2.1.0/errata01/os/schemas/sarif-schema-2.1.0.json"
SARIF_VERSION, TOOL, INPUT = "2.1.0", "bpfspec", "stdin"
SOURCE_LINE = re.compile(r"([^\s:]+\.[A-Za-z]+):([1-9][0-9]{0,8}):")
CHAIN_STEP = re.compile(r"    slot +([0-9]+)  (.*?) {2,}(.*)")
# Lines of a reason that its message leaves out, beside those of the chain of instructions.
LEFT_OUT = re.compile(r"(?:line|slot) [0-9]+: |the (?:maps|events) aren't taken: |r[0-9]+ comes from$|more in |$")


def sarif_of(explanation: Explanation) -> str:
    """The SARIF log of what is found in an input."""
    results = list(_Findings(explanation).results())
    codes = dict.fromkeys(result["ruleId"] for result in results)
    driver = {"name": TOOL, "version": VERSION, "rules": [_rule(explanation.facts.refusal, code) for code in codes]}
    run = {"tool": {"driver": driver}, "columnKind": "unicodeCodePoints", "results": results}
    return json.dumps({"$schema": SCHEMA, "version": SARIF_VERSION, "runs": [run]}, indent=2) + "\n"


def _rule(refusal: Refusal | None, code: str) -> Json:
    """What is said of a rule: of the one that a refusal names, its name and where more is said of it."""
    if refusal is None or refusal.code != code:
        return {"id": code}
    title = OF_REPLAYS if refusal.section == EVENTS and refusal.line is None else code
    return {"id": code, "name": refusal.name, "help": {"text": f"docs/REFUSALS.md under {title}"}}


class _Findings:
    """The findings in an input, each a `result` of SARIF."""

    def __init__(self, explanation: Explanation) -> None:
        self._explanation = explanation
        self._facts = explanation.facts
        self._loops = explanation.loops

    def results(self) -> Iterator[Json]:
        """The refusal, and what is found in each loop."""
        if self._facts.refusal is not None:
            yield self._refusal(self._facts.refusal)
        for loop in self._facts.loops:
            front = f"loop {loop.loop}"
            if loop.verdict == CONFLICT:
                yield from (self._conflict(front, pair) for pair in loop.pairs[: self._explanation.most])
            elif loop.verdict == REFUSED:
                words = f"{front} is refused with {loop.answer}: {self._loops.refusal(loop)}"
                yield self._at("refused_call", "warning", words, loop.slot)
            if loop.break_iteration is not None and loop.break_slot is not None:
                words = f"{front}: iteration {loop.break_iteration} {BREAKS}"
                yield self._at("loop_break", "note", words, loop.break_slot)

    def _at(self, rule: str, level: str, words: str, slot: int | None, place: Json | None = None) -> Json:
        """A finding at the instruction at a slot, unless it has another place."""
        insn = self._facts.text(slot)
        return {
            "ruleId": rule,
            "level": level,
            "message": {"text": escaped(words)},
            "locations": [place or self._place(slot)],
            "partialFingerprints": {"codeAndInstruction/v1": f"{rule}: {insn}" if insn else rule},
        }

    def _refusal(self, refusal: Refusal) -> Json:
        """The refusal of the unit, of the values of its maps or of the events."""
        lines = self._explanation.refusal_reasons(refusal).split("\n")
        sentences = (line.strip() for line in lines if not line.startswith("    "))
        words = "\n".join(line for line in sentences if not LEFT_OUT.match(line)) or refusal.name
        place = self._line_of(refusal) if refusal.slot is None else None
        result = self._at(refusal.code, "error", words, refusal.slot, place)
        steps = [CHAIN_STEP.fullmatch(line) for line in lines]
        chain = [self._place(int(step[1]), f"{step[2]}: {step[3]}") for step in steps if step]
        if chain and refusal.slot is not None:
            chain = [*reversed(chain), self._place(refusal.slot, self._facts.text(refusal.slot))]
            result["codeFlows"] = [{"threadFlows": [{"locations": [{"location": place} for place in chain]}]}]
        return result

    def _line_of(self, refusal: Refusal) -> Json:
        """The line of a refusal in the input, or the whole input."""
        sections = self._explanation.sections
        before = {UNIT: [], EVENTS: [sections.unit, sections.maps]}.get(refusal.section, [sections.unit])
        return _at_line(INPUT, sum(text.count("\n") + 1 for text in before) + refusal.line if refusal.line else None)

    def _conflict(self, front: str, pair: Pair) -> Json:
        """Two iterations that conflict at an element; the place is that of the one that reads it."""
        steps = self._loops.steps(pair)
        words = [f"iteration {step.index} {step.access.words()}" for step in steps]
        message = f"{front}, {self._loops.element_words(pair)}: {'; '.join(words)}"
        result = self._at("conflict", "warning", message, pair.reader_slot)
        related = (self._place(step.slot, what) for step, what in zip(steps, words))
        result["relatedLocations"] = [{"id": number, **place} for number, place in enumerate(related)]
        return result

    def _place(self, slot: int, words: str = "") -> Json:
        """The place of the instruction at a slot, and what is said of it there."""
        page = self._explanation.page
        number = page.number(slot)
        source = SOURCE_LINE.match(page.comment(number)) if number is not None else None
        place = _at_line(source[1], int(source[2])) if source else _at_line(INPUT, number)
        if number is None:
            place["logicalLocations"] = [{"name": f"slot {slot}"}]
        return {**place, "message": {"text": escaped(words)}} if words else place


def _at_line(name: str, line: int | None) -> Json:
    """A line of a file, or the whole of it."""
    place: Json = {"artifactLocation": {"uri": quote(name)}}
    if line:
        place["region"] = {"startLine": line}
    return {"physicalLocation": place}
