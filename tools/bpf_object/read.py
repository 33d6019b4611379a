"""Reads the functions of an object into the form of `code`: main's, and those that it names or calls."""

from __future__ import annotations

from dataclasses import dataclass

from .btf import SourceLine
from .code import Address, Alu, Atomic, Block, Branch, Call, CallLocal, CodeOf, End, Exit, Function, Goto, Insn, Load
from .code import MapOf, Number, Store, line_text
from .elf import R_BPF_64_32, R_BPF_64_64, STT_FUNC, Object, Relocation, Section, Symbol
from .insns import ALU, ALU64, ATOMIC, ATOMICS, CALL_HELPER, CALL_LOCAL, CALL_OPCODE, CLASS_MASK, CONDITIONS, END, EXIT
from .insns import EXCHANGES, FETCH, JA, JMP, JMP32, KIND_NUMBER, LDDW, LDX, MEMSX, NEG, OPERATORS, REGISTER_SOURCE
from .insns import SIGNED, SIZES, SLOT, ST, WORD, line_of, read_insns
from .insns import Insn as Raw
from .memory import Kind, Memory
from .refusal import Refused
from .unit import lines_of

CODE_LIMIT = 1 << 16  # slots of an object
OPERATION_MASK = 0xF0
SIZE_MASK = 0x18
MODE_MASK = 0xE0


@dataclass(frozen=True)
class Place:
    """A function in a section: its slots."""

    section: Section
    first: int
    end: int
    name: str


class Reader:
    """The functions of an object by their numbers; 0 is main."""

    def __init__(self, obj: Object, memory: Memory, main: str) -> None:
        self._obj = obj
        self._memory = memory
        self._raw: dict[int, dict[int, Raw]] = {}
        self._relocations: dict[int, dict[int, Relocation]] = {}
        self._lines: dict[int, dict[int, SourceLine]] = {}
        self._places = self._find_functions()
        self._numbers: dict[int, int] = {}  # of a place, in the order in which they are met
        self._waiting: list[int] = []
        self.functions: dict[int, Function] = {}
        names = [at for at, place in enumerate(self._places) if place.name == main and place.section.name != ".text"]
        self._number(names[0])
        while self._waiting:
            at = self._waiting.pop(0)
            self.functions[self._numbers[at]] = self._function(self._places[at])

    def _number(self, place: int) -> int:
        if place not in self._numbers:
            self._numbers[place] = len(self._numbers)
            self._waiting.append(place)
        return self._numbers[place]

    def _find_functions(self) -> list[Place]:
        places = []
        for section in self._obj.sections:
            if not section.is_code:
                continue
            if len(section.data) % SLOT.size:
                raise Refused(f"{section.name} is cut in an instruction")
            end = len(section.data) // SLOT.size
            if end > CODE_LIMIT:
                raise Refused(f"{section.name} has {end} slots")
            starts: dict[int, str] = {}
            for symbol in self._obj.symbols_in(section, STT_FUNC):
                if symbol.value % SLOT.size or symbol.value >= section.size:
                    raise Refused(f"{symbol.name} begins at byte {symbol.value} of {section.name}, where nothing can")
                starts.setdefault(symbol.value // SLOT.size, symbol.name)
            ends = [*sorted(starts)[1:], end]
            places += [Place(section, first, stop, starts[first]) for first, stop in zip(sorted(starts), ends)]
        return places

    def _section(self, section: Section) -> dict[int, Raw]:
        """The instructions of a section by their slots."""
        if section.index not in self._raw:
            self._raw[section.index] = dict(read_insns(section.data, 0))
            found = self._obj.relocations(section)
            self._relocations[section.index] = {r.offset // SLOT.size: r for r in found if not r.offset % SLOT.size}
            self._lines[section.index] = lines_of(self._obj, self._memory.btf, section)
        return self._raw[section.index]

    def _function(self, place: Place) -> Function:
        raw = {slot: insn for slot, insn in self._section(place.section).items() if place.first <= slot < place.end}
        if place.first not in raw:
            raise Refused(f"{place.name} begins within an instruction")
        lines = self._lines_of(place, raw)
        leaders = {place.first}
        for slot, insn in raw.items():
            if _is_jump(insn):
                target = slot + 1 + (insn.distance or 0)
                if target not in raw:
                    raise Refused(f"{line_text(lines.get(slot))}a jump of {place.name} leads out of it")
                leaders |= {target, slot + 1}
        function = Function(place.name, place.first, line=lines.get(place.first))
        slots = sorted(raw)
        starts = [slot for slot in slots if slot in leaders]
        for start, end in zip(starts, [*starts[1:], place.end]):
            inside = [slot for slot in slots if start <= slot < end]
            function.blocks[start] = self._block(place, inside, end, raw, lines)
        return function

    def _lines_of(self, place: Place, raw: dict[int, Raw]) -> dict[int, SourceLine]:
        """The source line that each instruction is part of."""
        known = self._lines[place.section.index]
        lines: dict[int, SourceLine] = {}
        last = None
        for slot in sorted(raw):
            last = known.get(slot, last)
            if last:
                lines[slot] = last
        return lines

    def _block(
        self, place: Place, slots: list[int], end: int, raw: dict[int, Raw], lines: dict[int, SourceLine]
    ) -> Block:
        insns: list[Insn] = []
        for slot in slots:
            line = lines.get(slot)
            try:
                line_of(raw[slot], "+0")
                found = self._insn(place, slot, raw[slot], line)
            except Refused as reason:
                raise Refused(f"{line_text(line) or f'slot {slot} of {place.section.name}: '}{reason}") from None
            if isinstance(found, (Goto, Branch, Exit)):
                return Block(insns, found)
            insns.append(found)
        if end >= place.end:
            raise Refused(f"{place.name} has no end: a path of it goes on behind its last instruction")
        return Block(insns, Goto(end))

    def _insn(self, place: Place, slot: int, raw: Raw, line: SourceLine | None) -> Insn | End:
        relocation = self._relocations[place.section.index].get(slot)
        if raw.opcode == LDDW:
            return self._load_of_two(raw, relocation, line)
        if raw.opcode == CALL_OPCODE:
            return self._call(place, slot, raw, relocation, line)
        if relocation is not None:
            raise Refused("a relocation where none can be")
        kind = raw.opcode & CLASS_MASK
        if kind in (ALU, ALU64):
            return _arithmetic(raw, line)
        return _jump(raw, slot, line) if kind in (JMP, JMP32) else _access(raw, line)

    def _load_of_two(self, raw: Raw, relocation: Relocation | None, line: SourceLine | None) -> Insn:
        if raw.src != KIND_NUMBER:
            raise Refused("a load of two slots of a kind that clang doesn't make")
        if relocation is None:
            return Number(raw.dst, raw.next_imm % WORD * WORD + raw.imm % WORD, line)
        if relocation.type != R_BPF_64_64 or raw.next_imm:
            raise Refused(f"a relocation of type {relocation.type} at a load of two slots")
        symbol = relocation.symbol
        section = self._obj.section_of(symbol)
        byte = symbol.value + raw.imm
        if section.is_code:
            return CodeOf(raw.dst, self._function_at(section, byte, symbol), line)
        thing = self._memory.at(section, byte)
        if thing is None:
            raise Refused(f"the address of {self._obj.describe(symbol)} in {section.name}, which is no map and no code")
        if thing.kind == Kind.MAP:
            if byte != thing.offset:
                raise Refused(f"the address of byte {byte - thing.offset} of map {thing.name}")
            return MapOf(raw.dst, thing.number, line)
        return Address(raw.dst, thing.number, byte - thing.offset, line)

    def _call(self, place: Place, slot: int, raw: Raw, relocation: Relocation | None, line: SourceLine | None) -> Insn:
        if raw.src == CALL_LOCAL:
            if relocation is None:
                return CallLocal(self._function_of_slot(place.section, slot + 1 + raw.imm, "a call"), line)
            if relocation.type != R_BPF_64_32:
                raise Refused(f"a relocation of type {relocation.type} at a call")
            section = self._obj.section_of(relocation.symbol)
            byte = relocation.symbol.value + (raw.imm + 1) * SLOT.size
            return CallLocal(self._function_at(section, byte, relocation.symbol), line)
        if raw.src != CALL_HELPER or relocation is not None:
            raise Refused("a call of a function of the kernel, which nothing stands for here")
        return Call(raw.imm, line)

    def _function_at(self, section: Section, byte: int, symbol: Symbol) -> int:
        if byte % SLOT.size:
            raise Refused(f"{self._obj.describe(symbol)} is no function of this object")
        return self._function_of_slot(section, byte // SLOT.size, self._obj.describe(symbol))

    def _function_of_slot(self, section: Section, slot: int, name: str) -> int:
        for at, place in enumerate(self._places):
            if place.section is section and place.first == slot:
                return self._number(at)
        raise Refused(f"{name} is no function of this object")


def _is_jump(raw: Raw) -> bool:
    kind, operation = raw.opcode & CLASS_MASK, raw.opcode & OPERATION_MASK
    return kind in (JMP, JMP32) and operation != CALL_OPCODE & OPERATION_MASK and (operation != EXIT or kind == JMP32)


def _arithmetic(raw: Raw, line: SourceLine | None) -> Alu:
    width = 64 if raw.opcode & CLASS_MASK == ALU64 else 32
    operation = raw.opcode & OPERATION_MASK
    src = raw.src if raw.opcode & REGISTER_SOURCE else None
    if operation == END:
        swaps = "swap" if width == 64 else "be" if raw.opcode & REGISTER_SOURCE else "le"
        return Alu(f"{swaps}{raw.imm}", 64, raw.dst, None, 0, line)
    if operation == NEG:
        return Alu("neg", width, raw.dst, None, 0, line)
    op = str(OPERATORS[operation >> 4])
    if op == "mov" and raw.offset:
        op = f"movs{raw.offset}"
    elif raw.offset:
        op = SIGNED[op]
    return Alu(op, width, raw.dst, src, raw.imm, line)


def _jump(raw: Raw, slot: int, line: SourceLine | None) -> End:
    operation = raw.opcode & OPERATION_MASK
    if raw.opcode == JMP | EXIT:
        return Exit(line)
    target = slot + 1 + (raw.distance or 0)
    if operation == JA:
        return Goto(target, line)
    width = 64 if raw.opcode & CLASS_MASK == JMP else 32
    src = raw.src if raw.opcode & REGISTER_SOURCE else None
    return Branch(str(CONDITIONS[operation >> 4]), width, raw.dst, src, raw.imm, target, slot + 1, line)


def _access(raw: Raw, line: SourceLine | None) -> Insn:
    size = SIZES[raw.opcode & SIZE_MASK] // 8
    kind, mode = raw.opcode & CLASS_MASK, raw.opcode & MODE_MASK
    if kind == LDX:
        return Load(size, mode == MEMSX, raw.dst, raw.src, raw.offset, line)
    if kind == ST:
        return Store(size, raw.dst, raw.offset, None, raw.imm, line)
    if mode != ATOMIC:
        return Store(size, raw.dst, raw.offset, raw.src, 0, line)
    op = EXCHANGES.get(raw.imm) or ATOMICS[raw.imm & ~FETCH] + ("_fetch" if raw.imm & FETCH else "")
    return Atomic(size, op, raw.dst, raw.offset, raw.src, line)
