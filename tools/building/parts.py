"""The parts of a module, which are compiled side by side.

A part is all that its entries need, up to the entries of other parts: what several parts need, each has for itself, so
that it is inlined as in the whole module. What runs programs is compiled for each level of processor. The rest is
compiled once, for the lowest level, and what parses command lines for size.
"""

from __future__ import annotations

import re
from collections.abc import Iterator
from dataclasses import dataclass

NAME = r'@("[^"\n]*"|[\w.$-]+)'
REFERENCE = re.compile(NAME)
HEAD = re.compile(rf"[^\n]*?{NAME}\([^\n]* \{{\n")  # of a function, after `define`
STATIC = re.compile(rf"{NAME} = (?:private|internal) ((?:\w+ )*?)(constant|global) ")
END = "\n}\n"  # of a function
INTERNAL = "internal "


@dataclass(frozen=True)
class Part:
    """A part by the functions that other parts call, how it is compiled, and whether for each level."""

    name: str
    entries: re.Pattern[str]
    how: str
    for_each_level: bool = False


# What a linker sees is in the rest.
REST = Part("rest", re.compile(r"\w"), "-O2")
PARTS = (  # the slowest first
    Part("loops", re.compile(r'"spec_run(_main::in_place|_replay)?::(?!stats::)'), "-O3", True),
    Part("causes", re.compile(r'"spec_run_explain::'), "-O2"),
    REST,
    Part("words", re.compile(r'"bpfspec_command_line::'), "-Oz"),
    Part("batches", re.compile(r'"row_run::batch::Batch::run"'), "-O3", True),
)


def parted(text: str) -> Iterator[tuple[Part, str]]:
    """The text of each part of a module."""
    module = _Module.read(text)
    held, called = module.divide()
    for part, names in held.items():
        if names:
            yield part, module.text(names, called)


@dataclass(frozen=True)
class _Module:
    """The lines of a module that each part has; and by their names its functions, without `define`, and its statics."""

    shared: list[str]
    functions: dict[str, str]
    statics: dict[str, str]

    @staticmethod
    def read(text: str) -> _Module:
        module = _Module([], {}, {})
        for chunk in text.split(END):
            lines, _, function = chunk.partition("\ndefine ")
            for line in lines.splitlines():
                if found := STATIC.match(line):
                    module.statics[found[1]] = line
                elif line and not line.startswith(";"):
                    module.shared.append(line)
            if head := HEAD.match(function):
                module.functions[head[1]] = function
        return module

    def home(self, name: str) -> Part | None:
        """The part of which a function is an entry."""
        return next((part for part in PARTS if part.entries.match(name)), None) if name in self.functions else None

    def divide(self) -> tuple[dict[Part, set[str]], set[str]]:
        """The names that each part has, of all that a linker's functions need; and those that other parts call."""
        held: dict[Part, set[str]] = {part: set() for part in PARTS}
        called: set[str] = set()
        waiting = [(REST, name) for name, text in self.functions.items() if not text.startswith(INTERNAL)]
        while waiting:
            part, name = waiting.pop()
            text = self.functions.get(name) or self.statics.get(name)
            if not text or name in held[part]:
                continue
            held[part].add(name)
            for used in REFERENCE.findall(text):
                home = self.home(used) or part
                if home is not part:
                    called.add(used)
                waiting.append((home, used))
        return held, called

    def text(self, names: set[str], called: set[str]) -> str:
        """The module of a part, in which other parts are declared."""
        statics = [STATIC.sub(_shared_if_written, line) for name, line in self.statics.items() if name in names]
        held = ((text, name in called) for name, text in self.functions.items() if name in names)
        functions = [f"define {_seen(text, is_called)}{END}" for text, is_called in held]
        heads = (self.functions[name].partition(" {\n")[0] for name in sorted(called - names))
        return "\n".join([*self.shared, *statics, *(f"declare {_seen(head)}" for head in heads), "", *functions])


def _seen(function: str, is_called: bool = True) -> str:
    """A function as the other parts see it if they call it."""
    return function.replace(INTERNAL, "hidden ", 1) if is_called and function.startswith(INTERNAL) else function


def _shared_if_written(static: re.Match[str]) -> str:
    """How a static begins that several parts have: one that isn't constant is one place for all."""
    return f"@{static[1]} = weak hidden {static[2]}global " if static[3] == "global" else static[0]
