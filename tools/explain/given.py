"""Why what is given with an accepted unit isn't taken: the values of its maps, or the bounds and events of a replay."""

from __future__ import annotations

import re
from collections.abc import Sequence

from .inputs import FaultLine, Sections, refusal_words
from .pages import before_comment, lines_of
from .records import Refusal
from .shown import counted, indented, more, trimmed
from .texts import word_slip

WORD = re.compile("[^ \t]+")
NUMBER = re.compile("0|[1-9][0-9]{0,9}")
LONGEST = 1_048_576  # bytes of a section
HIGHEST_BOUND = 2**32 - 1
HIGHEST_WORKER = 255  # what a text may have: the workers are 0 to 15
MAP_WORDS = 2  # of a line of values, before these: `map 0:`

# What was expected at a line of values, and at one of events, by the code; of some codes another thing at the first.
OF_VALUES = {
    "A1": "a line of values is `map`, the map's number, a colon, and a value for each element, as `map 0: 10 20`",
    "A2": "a value is 0 to 18446744073709551615, so that -1 is written 18446744073709551615",
    "A6": "the values of the maps have at most 1048576 bytes",
    "A7": "this is to be the line of map {map}, with a value for each element: the maps are given in turn, from map 0, "
    "at most 16 of them, with at most 65536 values together",
    "no map": "there is text after `%%` and no map in it: without `%%` all values are 0",
    "P1": "what usually helps: give a value for each element of each map, or no `%%` and no values, and all are 0",
}
OF_EVENTS = {
    "A1 first": "the first line of the events is `bounds`, where each block of iterations begins, and where the last "
    "one ends, as `bounds 0 4 8`",
    "A1": "an event is c, l, t, p or s, for claim, look, turn, post or stop, and the number of a worker, as "
    "`c0`",
    "A2 first": "a bound is 0 to 4294967295",
    "A2": "a worker is 0 to 15",
    "A6": "the events have at most 1048576 bytes",
    "values": "what comes after the second `%%` are events: the values of all maps come before it, after the first",
}
NO_LOOP = "main comes to no valid loop call with this argument, so that there is nothing to replay"
FROM_0 = "from 0 to the number of the loop's iterations"
NOT_ENABLED = (
    "isn't where it can do that: a worker claims a block, looks, does a turn for each iteration, posts a break if "
    "there is one, and claims again; it stops after the claim that finds no block"
)
NAMES = {"c": "a claim", "l": "a look", "t": "a turn", "p": "a post", "s": "a stop"}  # of events, by their letter
OF_REPLAYS = "Values and replays"  # a part of docs/REFUSALS.md


def given_reasons(refusal: Refusal, sizes: Sequence[int], sections: Sections) -> str:
    """Why the values of maps of these sizes aren't taken (A1 to A7, P1), or the events (A1 to A7, S1 to S3, E1 to E3,
    or that there is no loop to replay)."""
    front = f"the {refusal.section} aren't taken: {refusal_words(refusal)}\n"
    if refusal.line is not None:
        is_maps = refusal.section == "maps"
        fault = FaultLine(sections.maps if is_maps else sections.events, refusal.line)
        expected = _value_words(fault, refusal.code) if is_maps else [_event_words(fault, refusal.code)]
        return front + fault.reasons(expected, refusal.code)
    if refusal.section == "maps":
        given = [len(words) - MAP_WORDS for words in _lines_of_words(sections.maps)]
        return front + indented(_misfit(sizes, given), OF_VALUES["P1"], more(refusal.code))
    bounds, events = parse_events(sections.events) or ([], [])
    words = _bound_fault(refusal.code, bounds) or _event_fault(refusal.code, refusal.event or 0, events)
    return front + indented(words, more(OF_REPLAYS))


def _value_words(fault: FaultLine, code: str) -> list[str | None]:
    """What was expected at a line of values."""
    if code == "A7":
        return [OF_VALUES[code].format(map=fault.place) if fault.number else OF_VALUES["no map"]]
    sentence = fault.hidden() if code == "A1" else OF_VALUES[code]
    if sentence:
        return [sentence]
    _, colon, values = fault.content.partition(":")
    slip = word_slip(values)
    if "," in fault.content:
        slip = "values are parted by blanks, without commas"
    elif not colon:
        slip = "a colon is missing after the map's number"
    elif values and not values.startswith((" ", "\t")):
        slip = "a blank is missing after the colon"
    return [slip, OF_VALUES[code]]


def _misfit(sizes: Sequence[int], given: Sequence[int]) -> str:
    """The first map for which there isn't a value for each element; or that values are given for more maps or fewer."""
    for number, (elements, values) in enumerate(zip(sizes, given)):
        if elements != values:
            values_are = f"{counted(values, 'value')} {'is' if values == 1 else 'are'}"
            return f"map {number} has {counted(elements, 'element')}, and {values_are} given"
    return f"the unit has {counted(len(sizes), 'map')}, and values for {len(given)} are given"


def _event_words(fault: FaultLine, code: str) -> str:
    """What was expected at a line of events."""
    hidden = fault.hidden() if code == "A1" else None
    if code == "A1" and hidden is None and trimmed(fault.whole).startswith("map "):
        return OF_EVENTS["values"]
    return hidden or (fault.is_first and OF_EVENTS.get(f"{code} first")) or OF_EVENTS[code]


def parse_events(text: str) -> tuple[list[int], list[tuple[str, int]]] | None:
    """The bounds, each below 2^32, and the events of a section, each a letter and a worker's number, 0 to 255; None if
    it is refused, or empty."""
    lines = _lines_of_words(text) if len(text.encode("utf-8")) <= LONGEST else []
    if not lines or lines[0][0] != "bounds":
        return None
    try:
        bounds = [_number(word, HIGHEST_BOUND) for word in lines[0][1:]]
        events = [(word[0], _number(word[1:], HIGHEST_WORKER)) for words in lines[1:] for word in words]
    except ValueError:
        return None
    return (bounds, events) if all(letter in NAMES for letter, _ in events) else None


def _lines_of_words(text: str) -> list[list[str]]:
    """The words of each line that has some. Spaces and tabs alone separate them."""
    found = (WORD.findall(before_comment(line)) for line in lines_of(text))
    return [words for words in found if words]


def _number(word: str, highest: int) -> int:
    """The number of a word, which has no sign and no zero in front. Of another word it raises `ValueError`."""
    if not NUMBER.fullmatch(word) or int(word) > highest:
        raise ValueError
    return int(word)


def _bound_fault(code: str, bounds: Sequence[int]) -> str | None:
    """What is wrong with the loop or the bounds."""
    if code == "no_loop":
        return NO_LOOP
    if code == "S2":
        bounds_are = f"{counted(len(bounds), 'bound')} {'is' if len(bounds) == 1 else 'are'}"
        return f"{bounds_are} given: 2 to 65 are needed, {FROM_0}"
    if code == "S3":
        first, last = (bounds[0], bounds[-1]) if bounds else (0, 0)
        return f"the bounds go from {first} to {last}: they have to go {FROM_0}, its r1"
    for place, (before, bound) in enumerate(zip(bounds, bounds[1:]), 1):
        if code == "S1" and bound < before:
            return f"bound {place}, {bound}, is below the one before it, {before}"
    return None


def _event_fault(code: str, number: int, events: Sequence[tuple[str, int]]) -> str | None:
    """What is wrong with the events: of E1 and E2 with that of a number; of E3 who doesn't stop in the list."""
    if code == "E3":
        stopped = {worker for letter, worker in events if letter == "s"}
        worker = next((worker for _, worker in events if worker not in stopped), None)
        if worker is None:
            return "there is no event: at least one worker claims, and stops"
        return f"the list ends after {number} events, and worker {worker} hasn't stopped: `s{worker}` is missing"
    if number >= len(events):
        return None
    letter, worker = events[number]
    front = f"event {number}, `{letter}{worker}`, is"
    if code == "E1":
        return f"{front} of worker {worker}: the workers are 0 to 15"
    return f"{front} {NAMES[letter]}, and worker {worker} {NOT_ENABLED}"
