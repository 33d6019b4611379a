"""The command line of bpfrun."""

from __future__ import annotations

import argparse
from collections.abc import Callable, Iterator
from dataclasses import dataclass
from math import inf
from typing import NoReturn

ABOUT = """Compiles and loads a program in C, has bpfspec verify and run it, and prints the results by their C names.
See docs/FROM_C.md."""
COMMANDS = {
    "run": "runs the program, and prints its return value, loops and variables",
    "verify": "prints whether the program is accepted, and a run's worst-case instruction count",
    "explain": "prints why the program is refused, or which accesses conflict in its loops, and the loader's rewrites",
    "unit": "prints the unit with its values, for bpfspec",
}
ARGUMENT_LEAST, ARGUMENT_END = -(1 << 63), 1 << 64
WORKERS, BLOCKS = 16, 64
USAGE_STATUS = 3


@dataclass(frozen=True)
class Options:
    """What was asked for."""

    command: str
    file: str
    main: str | None
    as_is: bool
    arguments: tuple[int, ...]
    only: tuple[str, ...]
    load: str | None
    save: str | None
    workers: int | None
    blocks: int | None
    test: str | None
    limit: int | None
    page: str | None
    json: bool
    dry_run: bool
    states: bool
    all: bool

    def words(self, argument: int) -> list[str]:
        """The words of `bpfspec run` for a run with an argument."""
        words = _argument_words(argument)
        for name, value in ("workers", self.workers), ("blocks", self.blocks), ("test", self.test):
            words += [f"--{name}", str(value)] if value is not None else []
        return words

    def facts_words(self, argument: int) -> list[str]:
        """The words of `bpfspec facts` and `explain` for the same run."""
        words = _argument_words(argument)
        return words + (["--test", self.test] if self.test is not None else [])


def _argument_words(argument: int) -> list[str]:
    return ["--arg", str(argument % ARGUMENT_END)] if argument else []


def read_options(words: list[str]) -> Options:
    """The options that words are; argparse reports what is wrong with them."""
    found = vars(_parser().parse_args([*_joined(words)]))
    argument = found.pop("arg", None) or 0
    found["arguments"] = tuple(argument) if isinstance(argument, list) else (argument,)
    found["only"] = tuple(found.get("only") or ())
    names = Options.__dataclass_fields__
    return Options(**{name: found.get(name) for name in names})


class _Parser(argparse.ArgumentParser):
    """A parser that ends with the status of the program's own usage errors."""

    def error(self, message: str) -> NoReturn:
        self.exit(USAGE_STATUS, f"{self.format_usage()}{self.prog}: {message}\n")


def _joined(words: list[str]) -> Iterator[str]:
    """The words with `--arg` and its number in one, so that -0x10 isn't taken for an option."""
    rest = iter(words)
    for word in rest:
        number = next(rest, None) if word == "--arg" else None
        yield word if number is None else f"{word}={number}"


def _parser() -> argparse.ArgumentParser:
    parser = _Parser(prog="bpfrun", description=ABOUT, allow_abbrev=False)
    commands = parser.add_subparsers(dest="command", metavar="COMMAND", required=True, parser_class=_Parser)
    for name, about in COMMANDS.items():
        command = commands.add_parser(name, help=about, description=about.capitalize() + ".", allow_abbrev=False)
        command.add_argument("file", metavar="FILE", help="a C source, or an object made by clang")
        command.add_argument("--main", metavar="NAME", help="the main function, if the object has several")
        command.add_argument("--as-is", action="store_true", help="the loader rewrites nothing")
        _add_options(command, name)
    return parser


def _add_options(command: argparse.ArgumentParser, name: str) -> None:
    if name in ("run", "explain", "unit"):
        command.add_argument("--load", metavar="FILE", help="initial values of variables, as --save writes them")
    if name in ("run", "explain"):
        repeated, action = (" (repeatable; variables carry over)", "append") if name == "run" else ("", "store")
        argument = _number(ARGUMENT_LEAST, ARGUMENT_END - 1, "doesn't fit 64 bits")
        about = f"main's argument, as 7, -1 or 0x10{repeated}"
        command.add_argument("--arg", metavar="N", type=argument, action=action, help=about)
        command.add_argument("--test", choices=("flow", "lrpd"), help="the test that decides whether a loop conflicts")
    if name == "run":
        command.add_argument("--save", metavar="FILE", help="writes the values of variables as JSON")
        command.add_argument("--only", metavar="NAME", action="append", help="prints only this variable (repeatable)")
        for option, most, what in ("--workers", WORKERS, "workers"), ("--blocks", BLOCKS, "blocks a loop"):
            number = _number(1, most, f"isn't 1 to {most}")
            command.add_argument(option, metavar="N", type=number, help=f"at most N {what}, 1 to {most}")
    if name in ("run", "verify"):
        limit = _number(0, inf, "is below 0")
        command.add_argument("--limit", metavar="N", type=limit, help="refuses a run that may exceed N instructions")
    if name in ("run", "verify", "explain"):
        command.add_argument("--json", action="store_true", help="prints one JSON object")
        command.add_argument("--page", metavar="FILE", help="writes a self-contained HTML page")
        command.add_argument("--dry-run", action="store_true", help="prints the equivalent shell commands")
    if name == "explain":
        command.add_argument("--states", action="store_true", help="prints each instruction and its abstract state")
        command.add_argument("--all", action="store_true", help="prints up to 64 elements of each loop that conflicts")


def _number(least: int, most: float, wrong: str) -> Callable[[str], int]:
    """What reads a number from one to another; of another number it says what is wrong."""

    def read(word: str) -> int:
        try:
            number = int(word, 0)
        except ValueError:
            raise argparse.ArgumentTypeError(f"{word!r} isn't a number") from None
        if not least <= number <= most:
            raise argparse.ArgumentTypeError(f"{word} {wrong}")
        return number

    return read
