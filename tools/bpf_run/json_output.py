"""What came of a program, as JSON."""

from __future__ import annotations

import json
from typing import Any

from bpf_object.btf import SourceLine

from .report import ConflictReport, LoopReport, Report, RunReport
from .reports import Refusal
from .text_output import HELP

WIDTH = 100  # of a value that stands in one line
Json = dict[str, Any]


def json_text(value: object, indent: str = "") -> str:
    """A value as JSON: in one line where that is short, else its parts in lines."""
    line = json.dumps(value)
    if len(line) <= WIDTH or not isinstance(value, (dict, list)):
        return line
    inner = indent + " "
    if isinstance(value, dict):
        parts = [f"{inner}{json.dumps(name)}: {json_text(part, inner)}" for name, part in value.items()]
        return "{\n" + ",\n".join(parts) + f"\n{indent}}}"
    if not any(isinstance(part, (dict, list)) for part in value):
        return line
    parts = [inner + json_text(part, inner) for part in value]
    return "[\n" + ",\n".join(parts) + f"\n{indent}]"


def json_of(report: Report, only: tuple[str, ...], status: int) -> Json:
    """All of a report. What there is none of is null or an empty list."""
    program = report.program
    return {
        "file": program.file,
        "program": program.name,
        "status": status,
        "accepted": report.refusal is None,
        "refusal": _refusal(report, report.refusal) if report.refusal else None,
        "functions": [
            {"name": f.name, "line": _line(f.line), "slot": f.slot, "at_most": f.count} for f in report.functions
        ],
        "at_most": report.most.instructions if report.most else None,
        "limit": report.above_limit,
        "rewrites": [*program.loaded.rewrites],
        "loops": [_loop(report, loop) for loop in report.loops],
        "runs": [_run(report, run, only) for run in report.runs],
    }


def _run(report: Report, run: RunReport, only: tuple[str, ...]) -> Json:
    values = {} if run.trap is not None else report.program.values(run.after)
    return {
        "argument": run.argument,
        "return": None if run.trap is not None else report.program.returned(run.value),
        "trap": _trap(run.trap),
        "loops": [_loop(report, loop) for loop in run.loops],
        "globals": {name: value for name, value in values.items() if not only or name in only},
    }


def _trap(trap: str | None) -> Json | None:
    if trap is None:
        return None
    at, _, text = trap.rpartition(": ")
    return {"at": at or None, "text": text}


def _loop(report: Report, loop: LoopReport) -> Json:
    return {
        "line": _line(report.program.line_at(loop.slot)),
        "slot": loop.slot,
        "answer": loop.answer,
        "verdict": loop.verdict,
        "conflicts": loop.conflicts,
        "shown": [_conflict(report, conflict) for conflict in loop.shown],
    }


def _conflict(report: Report, conflict: ConflictReport) -> Json:
    return {
        "name": conflict.name,
        "element": conflict.element,
        "accesses": [
            {
                "iteration": access.iteration,
                "action": access.action,
                "line": _line(report.program.line_at(access.slot)),
                "slot": access.slot,
            }
            for access in conflict.accesses
        ],
    }


def _refusal(report: Report, refusal: Refusal) -> Json:
    helps = [line[len(HELP) :] for line in report.reasons if line.startswith(HELP)]
    line = None if refusal.slot is None else report.program.line_at(refusal.slot)
    return {"rule": refusal.rule, "slot": refusal.slot, "line": _line(line), "helps": helps[0] if helps else None}


def _line(line: SourceLine | None) -> Json | None:
    return {"file": line.file, "number": line.number, "text": " ".join(line.text.split())} if line else None
