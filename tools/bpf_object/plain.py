"""A unit of a program whose blocks are only put in another order, or whose functions are only put in at their calls.

Its maps are those of the object, and so are its addresses. The verifier may still refuse it.
"""

from __future__ import annotations

from dataclasses import dataclass

from .code import Address, Alu, Call, CodeOf, Function, MapOf, Number, backward, order_of
from .elf import Object
from .emit import label_names, text_of
from .lines import Line, Writer, access_text, alu_text
from .loaded import Loaded
from .lower import write_end
from .maps import ArrayMap, maps_of
from .memory import Kind, Memory
from .refusal import Refused
from .unit import loaded_of

REWRITE = "blocks are put in an order without jumps backwards, and functions at their calls"


def plain(obj: Object, memory: Memory, functions: dict[int, Function], programs: list[str]) -> Loaded:
    """The unit, or a refusal where that can't be enough."""
    maps = maps_of(obj, memory.btf)
    names = label_names(functions)
    lines: list[Line] = []
    for number in sorted(functions):
        if next(backward(functions[number]), None) is not None:
            raise Refused("a jump leads backwards")
        lines += _Plain(memory, maps, names).lines(functions[number], names[number])
    text, sources, loops = text_of(lines)
    known = {"lines": sources, "loops": loops, "programs": programs, "rewrites": [REWRITE]}
    return loaded_of(obj, memory.btf, maps, text, **known)


@dataclass
class _Plain:
    memory: Memory
    maps: list[ArrayMap]
    names: dict[int, str]

    def lines(self, function: Function, name: str) -> list[Line]:
        """The lines of a function."""
        out = Writer(name)
        out.label(name)
        order = order_of(function)
        for label, following in zip(order, [*order[1:], None]):
            out.label(out.block(label))
            block = function.blocks[label]
            for insn in block.insns:
                out.line = insn.line
                out.add(self._text(insn))
            write_end(out, block.end, following)
        return out.lines

    def _text(self, insn) -> str:
        if isinstance(insn, Alu):
            return alu_text(insn)
        if isinstance(insn, Number):
            return f"lddw r{insn.dst}, {insn.value}"
        if isinstance(insn, CodeOf):
            return f"ldcode r{insn.dst}, {self.names[insn.function]}"
        if isinstance(insn, (MapOf, Address)):
            return self._address(insn)
        if isinstance(insn, Call):
            return f"call {insn.helper}"
        text = access_text(insn, f"[r{insn.base}{insn.offset:+d}]")
        return text.replace("ldx", "ldxs") if getattr(insn, "signed", False) else text

    def _address(self, insn: MapOf | Address) -> str:
        thing = self.memory.things[insn.thing]
        for number, array in enumerate(self.maps):
            if array.section.name == thing.section and (not array.is_declared or array.offset == thing.offset):
                if thing.kind == Kind.MAP:
                    return f"ldmap r{insn.dst}, {number}"
                if isinstance(insn, Address) and 0 <= thing.offset + insn.offset < array.section.size:
                    return f"ldmapval r{insn.dst}, {number}, {thing.offset + insn.offset}"
        raise Refused(f"the address of {thing.name}, which is in no map")
