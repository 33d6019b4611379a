"""The whole explanation of an input: what `verify` prints of it, then the reasons; or a picture in place of both.

A module that only some inputs need is loaded for those alone: to load all of them takes longer than to explain."""

from __future__ import annotations

from collections.abc import Iterator
from functools import cached_property
from typing import TYPE_CHECKING

from .command_line import Ask
from .inputs import not_a_text, refusal_words, sections_of
from .pages import Page
from .records import Facts, Refusal
from .shown import escaped, indented

if TYPE_CHECKING:
    from .loops import Loops

UNIT, EVENTS = "unit", "events"  # sections
MOST_ELEMENTS = 64  # of a loop that are explained


class Explanation:
    """An input with the records of it."""

    def __init__(self, ask: Ask, data: bytes, facts: Facts) -> None:
        self.facts = facts
        self.not_text = not_a_text(data)
        self.sections = sections_of("" if self.not_text else data.decode())
        self.most = MOST_ELEMENTS if ask.all else 1  # elements of a loop that are explained
        self._is_drawn = ask.picture
        self._text = "" if facts.header.form == "hex" else self.sections.unit  # a page of hex form has no lines
        self._is_refused = facts.refusal is not None and facts.refusal.section == UNIT

    @cached_property
    def page(self) -> Page:
        """The lines of the unit's text."""
        return Page(self._text, self.facts.insns)

    @cached_property
    def loops(self) -> Loops:
        """The loops of the unit."""
        from .loops import Loops

        return Loops(self.facts, self.page, self._text)

    def text(self) -> str:
        """What is printed: the answer of `verify` and the reasons, or the picture if one is asked for."""
        picture = self._picture() if self._is_drawn and not self._is_refused else None
        if picture is not None:
            return picture
        answer = "accepted\n"
        if self.facts.refusal is not None and self._is_refused:
            answer = f"{refusal_words(self.facts.refusal)}\n"
        for number, slot, count in self.facts.functions:
            answer += f"function {number} at {slot} count {count}\n"
        return answer + escaped("".join(self._reasons()))

    def _reasons(self) -> Iterator[str]:
        """The reasons: of the unit and its states, of its loops, and of what is given with it."""
        if self.facts.header.states and not self._is_refused:
            yield self._states()
        if self.facts.loops:
            yield from (f"{line}\n" for line in self.loops.lines(self.most))
        if self.facts.refusal is not None:
            yield self.refusal_reasons(self.facts.refusal)

    def refusal_reasons(self, refusal: Refusal) -> str:
        """Why the input, the unit, the values of its maps or the events are refused. A unit that a rule refuses has its
        states with that, if they are asked for."""
        if self.not_text is not None:
            return indented(self.not_text)
        if refusal.section != UNIT:
            from .given import given_reasons

            return given_reasons(refusal, self.facts.maps, self.sections)
        if refusal.code.startswith("V"):
            return self._states()
        from .texts import text_reasons

        return text_reasons(refusal, self.facts.header.form, self.sections.unit)

    def _states(self) -> str:
        """Why a rule of the verifier refuses the unit, if one does, and its states if they are asked for."""
        from .reasons import unit_reasons

        return unit_reasons(self.facts, self.page)

    def _picture(self) -> str | None:
        """The picture of the events of an accepted unit, else of its first loop that conflicts, if there is one."""
        from .given import parse_events
        from .pictures import draw_events, draw_loop

        _, events = parse_events(self.sections.events) or ([], [])
        return draw_events(events) if events else draw_loop(self.facts, self.loops)
