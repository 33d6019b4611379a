"""What came of a program, in lines of text."""

from __future__ import annotations

from collections.abc import Iterator

from explain.shown import counted

from .c_values import lines_of
from .explained import loop_line
from .report import Program, Report, RunReport, place

HELP = "  what usually helps: "


def run_lines(program: Program, run: RunReport, is_one: bool) -> Iterator[str]:
    """A run: its answer and its loops; its argument too, where it isn't the only one."""
    if not is_one:
        yield f"argument {run.argument}"
    if run.trap is not None:
        yield f"trap at {run.trap}"
        return
    yield f"return {program.returned_text(run.value)}"
    yield from map(loop_line, run.loops)


def variable_lines(program: Program, words: list[int], only: tuple[str, ...]) -> Iterator[str]:
    """The variables, or those that are asked for."""
    values = program.values(words)
    for name in only or values:
        yield from lines_of(name, values[name], program.types[name])


def verify_lines(report: Report) -> Iterator[str]:
    """The verdict, each function's and each loop's bound, and the most of a run."""
    if report.refusal:
        yield refusal_line(report)
        yield from (line for line in report.reasons if line.startswith(HELP))
        return
    yield "accepted"
    for function in report.functions:
        at = place(function.line) or f"slot {function.slot}"
        yield f"{function.name} at {at}: at most {counted(function.count, 'instruction')}"
    if report.most:
        for loop in report.most.loops:
            yield f"loop at {report.program.place_at(loop.slot)}: at most {counted(loop.iterations, 'iteration')}"


def most_line(report: Report) -> str:
    """The most instructions of a run."""
    return f"at most {counted(report.most.instructions if report.most else 0, 'instruction')}"


def limit_line(report: Report) -> str:
    """Why a run isn't begun."""
    return f"refused: {most_line(report)}, and the limit is {report.above_limit}"


def refusal_line(report: Report) -> str:
    """A refusal at its line of C."""
    refusal = report.refusal
    if refusal is None:
        return ""
    if refusal.slot is None:
        return refusal.text
    line = report.program.line_at(refusal.slot)
    text = f": {' '.join(line.text.split())}" if line else ""
    return f"refused {refusal.rule} at {place(line) or f'slot {refusal.slot}'}{text}"


def explain_lines(report: Report) -> Iterator[str]:
    """What is explained, with the lines of C in place of those of the unit."""
    if report.refusal:
        yield refusal_line(report)
        yield from report.reasons
        return
    yield from verify_lines(report)
    yield most_line(report)
    for rewrite in report.program.loaded.rewrites:
        yield f"rewritten: {rewrite}"
    yield from report.reasons
    for run in report.runs:
        yield f"trap at {run.trap}"
