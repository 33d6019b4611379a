"""What bpfrun does for its command line, and with which status it ends."""

from __future__ import annotations

import os
import sys
from collections.abc import Callable, Iterable, Iterator
from contextlib import contextmanager

from bpf_object.refusal import Refused

from . import dry_run, programs, state
from .compiler import NotCompiled
from .json_output import json_of, json_text
from .options import Options, read_options
from .page import write_page
from .programs import DONE, NO_STREAM, NO_TEXT, REFUSED, Clock, Interrupted
from .session import Failed, Session
from .text_output import explain_lines, limit_line, most_line, run_lines, variable_lines, verify_lines
from .unit_text import split, with_values

INTERRUPTED = 130
REASON_LIMIT = 400  # characters


def main(words: list[str]) -> int:
    """Does what the words ask for, and gives the status."""
    programs.fill_streams()
    options = read_options(words)
    programs.catch_signals()
    clock = Clock()
    try:
        return (COMMANDS[options.command] if not options.dry_run else _dry_run)(options, clock)
    except Refused as reason:
        return _tell(f"{options.file}: {reason}", NO_TEXT)
    except NotCompiled:
        return _tell(f"{options.file}: clang doesn't compile it", NO_TEXT)
    except Failed as reason:
        return _tell(f"{options.file}: {reason}", reason.status)
    except NotWritten as reason:
        return _tell(str(reason), NO_STREAM) if str(reason) else NO_STREAM
    except OSError as reason:
        return _tell(f"{reason.filename or options.file}: {reason.strerror or reason}", NO_TEXT)
    except Interrupted as reason:
        return _tell(f"{options.file}: ended by {reason} after {clock.seconds} s", INTERRUPTED)


class NotWritten(Exception):
    """A write failed; without words where nobody reads."""


def _tell(reason: str, status: int) -> int:
    line = " ".join(reason.split())[:REASON_LIMIT]
    print("bpfrun: " + _printable(line).encode("ascii", "replace").decode(), file=sys.stderr)
    return status


def _printable(line: str) -> str:
    return "".join(c if c.isprintable() else "?" for c in line)


def _write(text: str) -> None:
    """Writes to standard output at once."""
    if sys.stdout is None:
        raise NotWritten  # it was closed
    try:
        sys.stdout.buffer.write(text.encode(errors="replace"))
        sys.stdout.buffer.flush()
    except OSError as reason:
        os.dup2(os.open(os.devnull, os.O_WRONLY), sys.stdout.fileno())  # the rest, when this program ends
        told = "" if isinstance(reason, BrokenPipeError) else f"standard output: {reason.strerror}"
        raise NotWritten(told) from None


def _print(lines: Iterable[str], options: Options) -> None:
    if not options.json:
        for line in lines:
            _write(f"{_printable(line)}\n")


@contextmanager
def _writing(path: str) -> Iterator[None]:
    """Says of a file that it isn't written."""
    try:
        yield
    except OSError as reason:
        raise NotWritten(f"{path}: {reason.strerror}") from None


def _run(options: Options, clock: Clock) -> int:
    session = Session(options, clock)
    _test_names(session)
    _test_targets(options)
    if not session.verify():
        _print(verify_lines(session.report), options)
        return _end(session, clock, REFUSED)
    if (options.limit is not None or options.json) and not session.find_most():
        _print([limit_line(session.report)], options)
        return _end(session, clock, REFUSED)
    try:
        for run in session.runs():
            _print(run_lines(session.program, run, len(options.arguments) == 1), options)
            if run.trap is not None:
                return _end(session, clock, REFUSED)
    except Interrupted as reason:
        return _interrupted(session, clock, str(reason))
    _print(variable_lines(session.program, session.words, options.only), options)
    _save(session)
    return _end(session, clock, DONE)


def _interrupted(session: Session, clock: Clock, signal: str) -> int:
    """Tells what was done; the values that the runs left which ended are kept."""
    done, wanted = len(session.report.runs), len(session.options.arguments)
    if done:
        _print(variable_lines(session.program, session.words, session.options.only), session.options)
        _save(session)
    _end(session, clock, INTERRUPTED)
    words = f"{done} of {wanted} runs are done" if wanted > 1 else "the run isn't done"
    return _tell(f"{session.options.file}: ended by {signal} after {clock.seconds} s: {words}", INTERRUPTED)


def _verify(options: Options, clock: Clock) -> int:
    session = Session(options, clock)
    if not session.verify():
        _print(verify_lines(session.report), options)
        return _end(session, clock, REFUSED)
    is_within = session.find_most()
    _print([*verify_lines(session.report), most_line(session.report)], options)
    if not is_within:
        _print([limit_line(session.report)], options)
    return _end(session, clock, DONE if is_within else REFUSED)


def _explain(options: Options, clock: Clock) -> int:
    session = Session(options, clock)
    status = REFUSED
    if session.verify():
        session.find_most()
        status = DONE if session.explain() else REFUSED
    _print(explain_lines(session.report), options)
    return _end(session, clock, status)


def _unit(options: Options, clock: Clock) -> int:
    session = Session(options, clock)
    values = split(session.words, session.program.loaded.sizes)
    text = session.program.unit.text
    _write(with_values(text, values) if any(session.words) else text)
    return DONE


def _dry_run(options: Options, clock: Clock) -> int:
    for line in dry_run.lines_of(options, clock):
        _write(f"{line}\n")
    return DONE


def _test_names(session: Session) -> None:
    for name in session.options.only:
        if name not in session.program.variables:
            known = ", ".join(session.program.variables) or "none"
            raise Refused(f"--only {name}: there is no such variable; there are: {known}")


def _test_targets(options: Options) -> None:
    """Says before a run that what it leaves can't be written."""
    for path in options.save, options.page:
        folder = os.path.dirname(os.path.abspath(path or ""))
        if path is not None and (os.path.isdir(path) or not os.access(folder, os.W_OK)):
            raise NotWritten(f"{path}: it can't be written there")


def _save(session: Session) -> None:
    if session.options.save is not None:
        with _writing(session.options.save):
            state.save(session.program, session.words, session.options.save)


def _end(session: Session, clock: Clock, status: int) -> int:
    """Writes what is left, which is JSON and the page."""
    options = session.options
    if options.page is not None:
        with _writing(options.page):
            write_page(session, options.page)
    if options.json:
        _write(f"{json_text(json_of(session.report, options.only, status))}\n")
    return status


COMMANDS: dict[str, Callable[[Options, Clock], int]] = {
    "run": _run,
    "verify": _verify,
    "explain": _explain,
    "unit": _unit,
}
