"""One page in HTML that stands alone: C and unit side by side, what is known at each line, the loops, the variables."""

from __future__ import annotations

import base64
from collections import defaultdict
from collections.abc import Iterator
from html import escape
from pathlib import Path

from .c_values import lines_of
from .explained import loop_line
from .report import LoopReport, Program, Report, RunReport, place
from .session import Session
from .text_output import most_line, refusal_line

STYLE, SCRIPT = (Path(__file__).with_name(name) for name in ("page.css", "page.js"))
SOURCE_LIMIT = 1 << 20  # bytes
PICTURES = 4  # runs whose first conflict is drawn


def write_page(session: Session, path: str) -> None:
    """Writes the page of what was done."""
    if session.report.refusal is None and not session.report.states:
        session.find_most()
    pictures = _pictures(session)
    Path(path).write_text("".join(f"{line}\n" for line in _page(session.report, pictures)), encoding="utf-8")


def _pictures(session: Session) -> dict[int, str]:
    """A picture for each of the first runs that have a conflict, by the runs' numbers."""
    runs = [k for k, run in enumerate(session.report.runs) if any(loop.conflicts for loop in run.loops)]
    found = {}
    for number in runs[:PICTURES]:
        run = session.report.runs[number]
        picture = session.picture(run.argument, run.before)
        if picture is not None:
            found[number] = picture
    return found


def _page(report: Report, pictures: dict[int, str]) -> Iterator[str]:
    name = escape(f"{report.program.name} in {Path(report.program.file).name}")
    yield '<!doctype html>\n<html lang="en">\n<head>\n<meta charset="utf-8">'
    yield '<meta name="viewport" content="width=device-width, initial-scale=1">'
    yield f"<title>{name}</title>\n<style>\n{STYLE.read_text()}</style>\n</head>\n<body>\n<main>\n<h1>{name}</h1>"
    yield from _verdict(report)
    for run in report.runs:
        yield from _run(report, run)
    if report.loops and not report.runs:
        yield from _loops(report.loops)
    yield '<div class="sides">'
    yield from _source(report)
    yield from _unit(report)
    yield "</div>"
    yield from _drawn(report, pictures)
    if report.runs:
        yield from _variables(report.program, report.runs[0].before, report.runs[-1])
    yield f"</main>\n<script>\n{SCRIPT.read_text()}</script>\n</body>\n</html>"


def _verdict(report: Report) -> Iterator[str]:
    if report.refusal:
        yield f'<p class="bad">{escape(refusal_line(report))}</p>'
        reasons = "\n".join(report.reasons)
        yield f"<pre>{escape(reasons)}</pre>"
        return
    functions = "; ".join(f"{f.name} {f.count}" for f in report.functions)
    yield f'<p><span class="good">accepted</span>, {escape(most_line(report))} of a run <span class="faint">'
    yield f"(of each function: {escape(functions)})</span></p>"
    for rewrite in report.program.loaded.rewrites:
        yield f'<p class="faint">rewritten: {escape(rewrite)}</p>'


def _run(report: Report, run: RunReport) -> Iterator[str]:
    yield f"<h2>Run with argument {run.argument}</h2>"
    if run.trap is not None:
        yield f'<p class="bad">trap at {escape(run.trap)}</p>'
        return
    yield f"<p>return <code>{escape(report.program.returned_text(run.value))}</code></p>"
    yield from _loops(run.loops)


def _drawn(report: Report, pictures: dict[int, str]) -> Iterator[str]:
    for number, drawing in pictures.items():
        loop = next(loop for loop in report.runs[number].loops if loop.conflicts)
        data = base64.b64encode(drawing.encode()).decode()
        yield f"<h2>The loop at {escape(loop.place)}, with argument {report.runs[number].argument}</h2>"
        yield f'<p><img alt="Which iteration uses which element" src="data:image/svg+xml;base64,{data}"></p>'


def _loops(loops: list[LoopReport]) -> Iterator[str]:
    yield "<ul>"
    for loop in loops:
        kind = "bad" if loop.conflicts or loop.answer < 0 else "good"
        yield f'<li class="{kind}">{escape(loop_line(loop))}</li>'
    yield "</ul>"


def _source(report: Report) -> Iterator[str]:
    """The lines of C; of each what is known at the instructions that it became."""
    known = defaultdict(list)
    for line in report.program.unit.lines:
        at = place(report.program.line_at(line.slot))
        if at:
            known[at].append(f"{line.text}: {report.states.get(line.slot, '')}".rstrip(": "))
    slot = report.refusal.slot if report.refusal else None
    refused = None if slot is None else place(report.program.line_at(slot))
    yield '<section><h2>C</h2><div class="side source"><ol class="code">'
    for file, number, text in _source_lines(report.program):
        at = f"{file}:{number}"
        yield _item(number, text, at if at in known else None, known.get(at, []), at == refused)
    yield "</ol></div></section>"


def _source_lines(program: Program) -> Iterator[tuple[str, int, str]]:
    """The lines of the source where it can be read, and else those that the object has."""
    path = Path(program.file)
    if path.suffix == ".c" and path.is_file() and path.stat().st_size <= SOURCE_LIMIT:
        for number, text in enumerate(path.read_text(errors="replace").splitlines(), 1):
            yield path.name, number, text
        own = path.name
    else:
        own = None
    others = {(line.file, line.number): line.text for line in program.loaded.lines.values() if line.file != own}
    for (file, number), text in sorted(others.items()):
        yield file, number, text.rstrip()


def _unit(report: Report) -> Iterator[str]:
    slots = {line.number: line.slot for line in report.program.unit.lines}
    refused = report.refusal.slot if report.refusal else None
    yield '<section><h2>Unit</h2><div class="side unit"><ol class="code">'
    for number, text in enumerate(report.program.unit.text.splitlines(), 1):
        slot = slots.get(number)
        if slot is None:
            yield _item("", text, None, [], False)
        else:
            state = report.states.get(slot)
            yield _item(slot, text, place(report.program.line_at(slot)), [state] if state else [], slot == refused)
    yield "</ol></div></section>"


def _item(number: object, text: str, at: str | None, known: list[str], is_refused: bool) -> str:
    """A line of code; it takes the focus where something is known of it."""
    words = (f' data-line="{escape(at)}"' if at else "") + (' tabindex="0"' if known else "")
    words += ' class="refused"' if is_refused else ""
    told = f'<span class="known">{escape(chr(10).join(known))}</span>' if known else ""
    return f'<li{words}><span class="number">{number}</span>{escape(text)}{told}</li>'


def _variables(program: Program, before: list[int], last: RunReport) -> Iterator[str]:
    yield "<h2>Variables</h2>\n<table><thead><tr><th>name</th><th>before</th><th>after</th></tr></thead><tbody>"
    old, new = program.values(before), program.values(before if last.trap is not None else last.after)
    for name, kind in program.types.items():
        texts = ["\n".join(lines_of(name, values[name], kind)).partition(" = ")[2] for values in (old, new)]
        changed = ' class="changed"' if texts[0] != texts[1] else ""
        cells = "".join(f"<td>{escape(text)}</td>" for text in (name, *texts))
        yield f"<tr{changed}>{cells}</tr>"
    yield "</tbody></table>"
