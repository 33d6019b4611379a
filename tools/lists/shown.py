"""The lists as Markdown."""

from __future__ import annotations

import re
from collections.abc import Callable, Iterable, Iterator
from itertools import groupby

from base.items import Item

from .calls import Call, Clause
from .crates import Group
from .definitions import Definitions
from .promises import Promise


def by_crate(groups: Iterable[Group], lines_of: Callable[[str], list[str]]) -> list[str]:
    """A heading for each group, and one for each crate that has lines; and above them links to the groups."""
    titles: list[str] = []
    made: list[str] = []
    for group in groups:
        under = [(crate, lines_of(crate)) for crate in group.crates]
        below = [line for crate, lines in under if lines for line in (f"### `{crate}`", "", *lines)]
        if below:
            titles.append(group.title)
            made += [f"## {group.title}", "", *below]
    return [" · ".join(f"[{title}](#{_anchor(title)})" for title in titles), "", *made]


def _anchor(title: str) -> str:
    """What a link to a heading names."""
    return re.sub(r"[^\w -]", "", title.lower()).replace(" ", "-")


def shown_definitions(file: Definitions, comments: dict[str, str], root: str) -> list[str]:
    """A file with the definitions that have a line: their names, and what each is. `root` is the path to the top."""
    if not comments:
        return []
    place = f"{root}/crates/{file.crate}/specs/{file.file}.antt"
    return [f"**[{file.file}]({place})**: {file.about}", "", *_under_each(comments), ""]


def _under_each(comments: dict[str, str]) -> Iterator[str]:
    """A line for each comment, with the names that stand under it."""
    for comment, names in groupby(comments, comments.__getitem__):
        under = ", ".join(f"`{name}`" for name in names)
        yield f"- {under}: {comment}" if comment else f"- {under}"


def shown_calls(calls: Iterable[Call]) -> list[str]:
    """Calls in one list, each with its clauses."""
    lines = [line for call in calls for line in _call(call)]
    return [*lines, ""] if lines else []


def _call(call: Call) -> Iterator[str]:
    """A call, and then its clauses, in which each definition is named once."""
    yield f"- `{call.name}`: {call.about}"
    named: set[Item] = set()
    clauses = [_clauses(call, keyword, named) for keyword in ("requires", "ensures")]
    said = "; ".join(clause for clause in clauses if clause)
    yield f"  {said[:1].upper()}{said[1:]}." if said else "  No clause."


def _clauses(call: Call, keyword: str, named: set[Item]) -> str:
    """The clauses of a keyword."""
    clauses = [_clause(clause, named) for clause in call.clauses if clause.keyword == keyword]
    return f"{keyword} {', '.join(clauses)}" if clauses else ""


def _clause(clause: Clause, named: set[Item]) -> str:
    """A clause's name with the definitions that it cites and none before it did; or else the clause itself."""
    cites = [f"`{name.name}`" for name in clause.cites if name not in named]
    named.update(clause.cites)
    if not clause.name:
        return ", ".join(cites) or f"`{clause.text}`"
    return f"*{clause.name}* ({', '.join(cites)})" if cites else f"*{clause.name}*"


def shown_promises(promises: Iterable[Promise]) -> list[str]:
    """A table under each heading that has edits: a row for each edit, in the order of the guarantees."""
    lines: list[str] = []
    for heading, below in groupby(promises, lambda promise: promise.heading):
        rows = [f"|{edit.promise}|`{edit.name}`|`{edit.crate}`|" for promise in below for edit in promise.edits]
        if rows:
            lines += [f"## {heading}", "", "|Guarantee|Mutant|Crate|", "|---|---|---|", *rows, ""]
    return lines
