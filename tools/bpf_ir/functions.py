"""Functions that the back end can't call are put in at their calls by the optimizer."""

from __future__ import annotations

import re
from collections.abc import Iterator

from .text import closing, split_operands

DEFINE = re.compile(r"define (?P<before>[^@]*)@(?P<name>\"[^\"]*\"|[-\w.$]+)\(")
LINKAGE = re.compile(r"\b(?:dso_local|internal|private|weak|weak_odr|linkonce|linkonce_odr|hidden|protected) ")
AGGREGATE = re.compile(r"[\[{%]")
GROUP = re.compile(r"attributes (#\d+) = \{(.*)\}$")
OF_GROUP = re.compile(r" (#\d+)")
REFUSED = re.compile(r"\b(?:noinline|optnone) ?")
REGISTERS = 5  # for arguments
LONG = re.compile(r"i(?:6[5-9]|[7-9]\d|1\d\d)\b")


def put_in(lines: list[str]) -> Iterator[str]:
    """The lines of a module, where the optimizer has to put each such function in."""
    groups = {found[1]: found[2] for found in map(GROUP.match, lines) if found}
    freed: dict[str, str] = {}
    for line in lines:
        found = DEFINE.match(line)
        end = closing(line, found.end() - 1) if found else 0
        if not found or not _is_refused(found["before"], line[found.end() : end], line[end:]):
            yield line
            continue
        before = LINKAGE.sub("", found["before"])
        rest = line[end + 1 :]
        if (group := OF_GROUP.search(rest)) and REFUSED.search(groups.get(group[1], "")):
            name = freed.setdefault(group[1], f"#{10_000 + len(freed)}")
            rest = rest.replace(group[0], f" {name}", 1)
        rest = rest.replace(" local_unnamed_addr", "").replace(" comdat", "")
        rest = REFUSED.sub("", rest)
        yield f"define internal {before}@{found['name']}({line[found.end() : end]}) alwaysinline{rest}"
    for old, new in freed.items():
        yield f"attributes {new} = {{{REFUSED.sub('', groups[old])}}}"


def _is_refused(before: str, parameters: str, rest: str) -> bool:
    """Whether a function has more arguments, or a longer result, than registers are for."""
    if " section " in rest or "..." in parameters:
        return False
    result = LINKAGE.sub("", before)
    operands = split_operands(parameters)
    words = sum(2 if LONG.match(operand) else 1 for operand in operands)
    is_memory = any(word in parameters for word in ("byval(", "sret("))
    return is_memory or words > REGISTERS or bool(AGGREGATE.search(result) or LONG.search(result))
