"""The words of the command line, what they ask for, and what is wrong with them.

The errors have the wording of clap, the parser of the program's other commands."""

from __future__ import annotations

import re
from collections.abc import Iterable, Sequence
from contextlib import suppress
from typing import NamedTuple

NAME, VERSION = "bpfspec explain", "0.1.0"
NUMBER = re.compile(r"\+?0*([0-9]{1,20})")
MOST_ARGUMENT = (1 << 64) - 1
LEAST_SIMILARITY = 0.7  # from which on an option is suggested
TESTS = "flow", "lrpd"
USAGE = "\n\nUsage: " + NAME + " {}"


class Option(NamedTuple):
    """An option: its name, the name and the default of its value if it has one, and its help."""

    name: str
    help: str
    value: str = ""
    default: str = ""
    short: str = ""

    def shown(self) -> str:
        """The option as it is written in a usage."""
        return f"--{self.name} <{self.value}>" if self.value else f"--{self.name}"


OPTIONS = {
    option.name: option
    for option in (
        Option("hex", "Read the unit in hex form"),
        Option("arg", "The program's argument, in R1", "N", "0"),
        Option("test", "Which dependences conflict: flow or lrpd", "TEST", "flow"),
        Option("states", "Print each instruction with the abstract values that it reads"),
        Option("all", "Print up to 64 conflicting elements of each loop"),
        Option("picture", "Print only an SVG of the first loop that conflicts, or of the replay"),
        Option("json", "Print the facts themselves, a JSON object a line"),
        Option("sarif", "Print what is found as SARIF 2.1.0"),
        Option("help", "Print help", short="h"),
        Option("version", "Print version", short="V"),
    )
}
BY_SHORT = {option.short: name for name, option in OPTIONS.items() if option.short}


class Ask(NamedTuple):
    """What is asked for."""

    hex: bool = False
    argument: int = 0
    test: str = "flow"
    states: bool = False
    all: bool = False
    picture: bool = False
    json: bool = False
    sarif: bool = False


class HelpAsked(Exception):
    """The words ask for this text: the help, or the version."""


class UsageError(Exception):
    """The words ask for nothing; this text says why."""


def read_words(words: Sequence[str]) -> Ask:
    """What words ask for. It raises `HelpAsked` or `UsageError` if they ask for nothing else."""
    try:
        "".join(words).encode()
    except UnicodeEncodeError:
        raise _error("a word isn't UTF-8") from None
    used = _Reader().read(words)
    number, test = (used.get(name, OPTIONS[name].default) for name in ("arg", "test"))
    found = NUMBER.fullmatch(number)
    argument = int(found[1]) if found else MOST_ARGUMENT + 1
    if argument > MOST_ARGUMENT or test not in TESTS:
        raise _error(f"--arg wants a number from 0 to {MOST_ARGUMENT}, and --test wants {' or '.join(TESTS)}")
    flags = {name: name in used for name in Ask._fields if name in OPTIONS and not OPTIONS[name].value}
    return Ask(argument=argument, test=test, **flags)


class _Reader:
    """The options that were used so far, each with its value, in the order of their use."""

    def __init__(self) -> None:
        self._used: dict[str, str] = {}
        self._pending: Option | None = None  # an option whose value may follow
        self._value: str | None = None  # that value

    def read(self, words: Sequence[str]) -> dict[str, str]:
        """The options that all words use."""
        for at, word in enumerate(words):
            if word == "--":
                if words[at + 1 :]:
                    raise _unexpected(words[at + 1])
            elif word.startswith("--"):
                self._long(*word[2:].partition("="))
            elif word.startswith("-") and word != "-":
                if word[1] not in BY_SHORT:
                    raise _unexpected(word[:2])
                self._long(BY_SHORT[word[1]])
            elif self._pending is not None and self._value is None:
                self._value = word
            else:
                raise _unexpected(word)
        self._settle()
        return self._used

    def _long(self, name: str, equals: str = "", value: str = "") -> None:
        """Takes `--name` or `--name=value`."""
        option = OPTIONS.get(name)
        if option is None:
            raise self._unknown(name)
        if equals and not option.value:
            wrong = f"unexpected value '{value}' for '{option.shown()}' found; no more were expected"
            raise _error(wrong, [*self._used, name])
        self._settle()
        if option.value and not equals:
            self._pending = option
        else:
            self._use(option, value)

    def _use(self, option: Option, value: str) -> None:
        """Notes the use of an option."""
        if option.name == "help":
            raise HelpAsked(_help())
        if option.name == "version":
            raise HelpAsked(f"{NAME} {VERSION}\n")
        if self._used.pop(option.name, None) is not None:
            raise _error(f"the argument '{option.shown()}' cannot be used multiple times")
        self._used[option.name] = value

    def _settle(self) -> None:
        """Notes the use of the option whose value has been read."""
        option, value = self._pending, self._value
        self._pending = self._value = None
        if option is not None and value is None:
            raise _error(f"a value is required for '{option.shown()}' but none was supplied", used=None)
        if option is not None and value is not None:
            self._use(option, value)

    def _unknown(self, name: str) -> UsageError:
        """The error of an option that there isn't. It counts before those of the option before it."""
        with suppress(UsageError):
            self._settle()
        similar = most_similar(name, OPTIONS)
        if similar is None:
            return _unexpected(f"--{name}", self._used)
        tip = f"\n\n  tip: a similar argument exists: '--{similar}'"
        return _unexpected(f"--{name}", {**self._used, similar: ""}, tip)


def _unexpected(word: str, used: Iterable[str] = (), tip: str = "") -> UsageError:
    """The error of a word that is neither an option nor the value of one."""
    return _error(f"unexpected argument '{word}' found{tip}", used)


def _error(wrong: str, used: Iterable[str] | None = ()) -> UsageError:
    """An error with the usage of the options that were used, or of all if none were; with None it has no usage."""
    shown = dict.fromkeys(OPTIONS[name].shown() for name in used or ())
    usage = "" if used is None else USAGE.format(" ".join(shown) or "[OPTIONS]")
    return UsageError(f"error: {wrong}{usage}\n\nFor more information, try '--help'.\n")


def _help() -> str:
    lines = f"Explains why a program is refused, or why its loops conflict{USAGE.format('[OPTIONS]')}\n\nOptions:\n"
    for option in OPTIONS.values():
        front = f"-{option.short}," if option.short else "   "
        default = f" [default: {option.default}]" if option.value else ""
        lines += f"  {front} {option.shown():<13}  {option.help}{default}\n"
    return lines


def most_similar(word: str, names: Iterable[str]) -> str | None:
    """The name that is most similar to a word, the last of several; None if none is similar."""
    scored = [(jaro(word, name), place, name) for place, name in enumerate(names)]
    similarity, _, name = max(scored)
    return name if similarity > LEAST_SIMILARITY else None


def jaro(left: str, right: str) -> float:
    """The Jaro similarity of two texts, from 0 to 1."""
    reach = max(max(len(left), len(right)) // 2 - 1, 0)
    taken: list[int] = []  # of each character that has an equal one near its place in the other text, the place of that
    for at, letter in enumerate(left):
        near = range(max(at - reach, 0), min(at + reach + 1, len(right)))
        taken += [place for place in near if right[place] == letter and place not in taken][:1]
    if left == right or not taken:
        return float(left == right)
    found = len(taken)
    in_order = [right[place] for place in sorted(taken)]
    differing = sum(right[place] != other for place, other in zip(taken, in_order))
    return (found / len(left) + found / len(right) + (found - differing // 2) / found) / 3
