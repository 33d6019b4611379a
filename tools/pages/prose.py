"""The sentences, headings and links of a page in Markdown."""

from __future__ import annotations

import re
from collections.abc import Iterator
from dataclasses import dataclass

FENCE = re.compile(r" *(```|~~~)")
CODE_INDENT = " " * 4
HEADING = re.compile(r"#+ +(.*?)(?: +#+)?$")
# What begins a block of its own: an item of a list, or a quotation.
ITEM = re.compile(r" *(?:[-*+]|\d+[.)])  *|> ?")
COMMENT = re.compile(r"<!--.*?-->")
CODE_SPAN = re.compile(r"(`+)(.+?)\1")
LINK = re.compile(r"\[((?:[^\[\]]|\[[^\]]*\])*)\]\(([^()\s]+)(?: +\"[^\"]*\")?\)")
TAG = re.compile(r"<\w[^>]*?\b(?:href|src)=\"([^\"]+)\"[^>]*>")
DEFINED = re.compile(r"\[[^\]]+\]: +(\S+)$")
ANCHOR = re.compile(r"<a +(?:id|name)=\"([^\"]+)\"")
# A sentence ends here, if what follows begins another one.
END = re.compile(r"(?<=[.!?])[\"'”’)*_\]]* +(?=[\"'“‘(*_\[]*[A-Z0-9`])")
WORD = re.compile(r"\S*\w\S*")


@dataclass(frozen=True)
class Text:
    """A line outside of code, or a block of them joined, and the number of the line at which it begins."""

    line: int
    text: str


def prose_lines(page: str) -> Iterator[Text]:
    """The lines of a page that aren't code, with empty ones in place of those that are."""
    fence, last = "", ""
    for number, line in enumerate(page.splitlines(), 1):
        found = FENCE.match(line)
        if fence or found:
            is_end = bool(fence) and line.strip() == fence
            fence = "" if is_end else fence or (found.group(1) if found else "")
            last = ""
        elif line.startswith(CODE_INDENT) and not last:
            pass
        else:
            last = COMMENT.sub("", line).rstrip()
            yield Text(number, last)
            continue
        yield Text(number, "")


def sentences(page: str) -> Iterator[Text]:
    """The sentences of a page, without those of tables, headings and code, and of each link its text alone."""
    for block in _blocks(page):
        yield from (Text(block.line, sentence) for sentence in END.split(_shown(block.text)))


def word_count(sentence: str) -> int:
    """How many words a sentence has: what spaces part, if it has a letter or a digit."""
    return len(WORD.findall(sentence))


def _blocks(page: str) -> Iterator[Text]:
    """Paragraphs and items of lists."""
    first, lines = 0, list[str]()
    for number, line in [*((text.line, text.text) for text in prose_lines(page)), (0, "")]:
        is_apart = not line or line.startswith("|") or bool(HEADING.match(line))
        item = ITEM.match(line)
        if lines and (is_apart or item):
            yield Text(first, " ".join(lines))
            lines = []
        if not is_apart:
            first = number if not lines else first
            lines.append(line[item.end() :] if item else line.strip())


def _shown(text: str) -> str:
    """Text without the targets of its links."""
    return LINK.sub(r"\1", LINK.sub(r"\1", text))


def links(page: str) -> Iterator[Text]:
    """The targets of the links and pictures of a page."""
    for line in prose_lines(page):
        text = CODE_SPAN.sub("code", line.text)
        inner = (found for whole in LINK.finditer(text) for found in LINK.finditer(whole.group(1)))
        yield from (Text(line.line, found.group(2)) for found in (*LINK.finditer(text), *inner))
        yield from (Text(line.line, found.group(1)) for found in (*TAG.finditer(text), *DEFINED.finditer(text)))


def anchors(page: str) -> set[str]:
    """What links to places in a page name: its headings, as GitHub makes names of them, and its own anchors."""
    found: set[str] = set()
    counts: dict[str, int] = {}
    for line in prose_lines(page):
        found.update(ANCHOR.findall(line.text))
        if heading := HEADING.match(line.text):
            name = slug(_shown(heading.group(1)))
            count = counts[name] = counts.get(name, -1) + 1
            found.add(f"{name}-{count}" if count else name)
    return found


def slug(title: str) -> str:
    """What a link to a heading names."""
    return re.sub(r"[^\w -]", "", title.lower()).replace(" ", "-")
