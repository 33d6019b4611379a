"""What each instruction does to what is known, and the instruction that is done in its place."""

from __future__ import annotations

from dataclasses import dataclass
from typing import NamedTuple, Optional

from .access import Planner
from .btf import SourceLine
from .code import FRAME, FRAME_BYTES, LOOP, RESULT, Address, Alu, Atomic, Branch, Call, CodeOf, Function, Insn, Load
from .code import MapOf, Number, Stop, Store, line_text
from .inline import lowest_byte
from .memory import Kind, Thing
from .plans import LoopCall, Moved, Plan, Touch, Where
from .ranges import ALL, LOW, OPPOSITE, TOP, Range, exact, join, low32, refine, signed, top
from .refusal import Refused
from .values import ANY, EXACT_ZERO, LOADED, Handle, Held, State, Value, result

LOOP_LIMIT = 1 << 23  # iterations
BYTE_LIMIT = 524288  # that an address in a map may be moved up to
ROOM_LIMIT = 1 << 16  # bytes in front of a thing that are left out for addresses
HELPERS = {2: "bpf_map_update_elem", 3: "bpf_map_delete_elem", 5: "bpf_ktime_get_ns", 6: "bpf_trace_printk"}
HELPERS.update({7: "bpf_get_prandom_u32", 12: "bpf_tail_call", 14: "bpf_get_current_pid_tgid"})


@dataclass
class Entry:
    """What a callback is given by all calls that name it."""

    count: Range
    context: Value

    def join(self, count: Range, context: Value) -> None:
        """Another call names it."""
        self.count = join(self.count, count)
        self.context = Value(join(self.context.range, context.range), self.context.things | context.things)


class Done(NamedTuple):
    """What an instruction gives, and what is done in its place."""

    value: Value
    insns: list


Refined = Optional[tuple[Value, Value]]  # what two operands are; nothing where it can't come to that


class Results:
    """What was found of a function's instructions, by their identities and operands, as long as the layout is one."""

    def __init__(self) -> None:
        self.done: dict[tuple[int, Held, Held], tuple[Alu, Done]] = {}  # each keeps what its identity is of
        self.compared: dict[tuple[int, Value, Held], tuple[Branch, Refined, Refined]] = {}


class Analysis:
    """Follows the instructions of one function."""

    def __init__(self, planner: Planner, number: int, function: Function, frame: Thing, results: Results) -> None:
        self.planner = planner
        self.facts = planner.facts
        self.number = number
        self.function = function
        self.frame = frame
        self.entries: dict[int, Entry] = {}
        self.lowest = lowest_byte(function)
        self._results = results
        self._plans: dict[tuple[int, Held, int], tuple[Insn, Plan | Stop, Held]] = {}  # each with its instruction

    def step(self, insn: Insn, state: State) -> list:
        """The instructions that are done in place of one; a `Stop` among them ends the path."""
        if isinstance(insn, Alu):
            return self.alu(insn, state)
        if isinstance(insn, (Load, Store, Atomic)):
            return self._access(insn, state)
        if isinstance(insn, Number):
            state.regs[insn.dst] = Value(exact(insn.value))
            return [insn]
        if isinstance(insn, Address):
            return self._address(insn, state)
        if isinstance(insn, (MapOf, CodeOf)):
            is_map = isinstance(insn, MapOf)
            state.regs[insn.dst] = Handle(is_map, insn.thing if isinstance(insn, MapOf) else insn.function)
            return []
        if isinstance(insn, Call) and insn.helper == LOOP:
            return self._loop(insn, state)
        helper = insn.helper if isinstance(insn, Call) else 0
        name = f" ({HELPERS[helper]})" if helper in HELPERS else ""
        raise Refused(f"{line_text(insn.line)}a call of helper {helper}{name}, where only 1 and {LOOP} are taken")

    def value(self, register: int, state: State, insn: Insn | Branch) -> Value:
        """The number in a register that an instruction reads."""
        held = state.regs[register]
        if held is None:
            self.facts.leave_undefined(self.number, register)
            held = state.regs[register] = Value(exact(0))
        if isinstance(held, Handle):
            raise Refused(f"{line_text(insn.line)}the address of a map or a function is used as a number")
        return held

    def _address(self, insn: Address, state: State) -> list:
        self.facts.use((insn.thing,))
        spot = self.planner.layout.spots.get(insn.thing)
        address = (spot.address + insn.offset) & ALL if spot else 0
        state.regs[insn.dst] = found = Value(exact(address), frozenset((insn.thing,)))
        return [self._constant(insn.dst, found, insn.line)]

    def _constant(self, dst: int, found: Value, line: SourceLine | None) -> Alu | Number | Address:
        """A known number, and where it is an address in the map, what of."""
        real = found.real
        if len(real) == 1:
            (thing,) = real
            spot = self.planner.layout.spots.get(thing)
            byte = (found.range.lo - spot.address) & ALL if spot else ALL
            if spot and not spot.scale and spot.low <= byte < spot.size:
                return Address(dst, thing, byte, line, found.range.lo)
        return constant(dst, found.range.lo, line)

    def alu(self, insn: Alu, state: State) -> list:
        """The instructions that are done in place of one that computes."""
        regs, dst, src = state.regs, insn.dst, insn.src
        is_move = insn.op.startswith("mov")
        if is_move and src is not None and isinstance(regs[src], Handle) and insn.width == 64 and insn.op == "mov":
            regs[dst] = regs[src]
            return []
        a = None if is_move else regs[dst] if isinstance(regs[dst], Value) else self.value(dst, state, insn)
        b = None if src is None else regs[src] if isinstance(regs[src], Value) else self.value(src, state, insn)
        key = (id(insn), a, b)
        found = self._results.done.get(key)
        if found is None:
            a = EXACT_ZERO if a is None else a
            found = insn, self._result(insn, a, Value(exact(insn.imm)) if b is None else b)
            self._results.done[key] = found
        regs[dst] = found[1].value
        return found[1].insns

    def _result(self, insn: Alu, a: Value, b: Value) -> Done:
        """What an arithmetic instruction gives of two numbers, and what is done in its place."""
        if insn.op in ("sub", "xor") and insn.src == insn.dst:
            return Done(EXACT_ZERO, [constant(insn.dst, 0, insn.line)])
        found = result(insn.op, insn.width, a, b)
        if not a.things and not b.things:
            is_known = found.is_exact and not (insn.op == "mov" and insn.src is None)
            return Done(found, [constant(insn.dst, found.range.lo, insn.line) if is_known else insn])
        if found.real and insn.op in ("add", "sub"):
            self._keep_room(insn.op, a, b, found)
        if not found.is_exact:
            self._take(a, insn.op == "sub")
            if insn.op == "sub" and a.real and b.real:
                self.facts.together(a.real | b.real)
            self._take(b, False)
        if insn.src == FRAME:
            insn = insn._replace(src=None, imm=signed(b.range.lo, 32))
        is_sum = insn.op == "add" and insn.width == 64 and bool(a.real) and not b.real
        if is_sum and a.range.hi + b.range.hi <= BYTE_LIMIT:
            return Done(found, [Moved(insn, found.range.lo if found.is_exact else None, insn.line)])
        if found.is_exact and not (insn.op == "mov" and insn.src is None):
            return Done(found, [self._constant(insn.dst, found, insn.line)])
        return Done(found, [insn])

    def _keep_room(self, op: str, a: Value, b: Value, found: Value) -> None:
        """An address is moved by a number, perhaps to before its thing's begin: it has to be above 0 there."""
        if found.is_exact:
            for thing in found.real & self.planner.layout.spots.keys():
                below = self.planner.layout.spots[thing].address - signed(found.range.lo, 64)
                if signed(found.range.lo, 64) < 0 and below <= ROOM_LIMIT:
                    self.facts.keep_room((thing,), below)
            return
        number = b if a.real else a
        if number.is_exact:
            distance = signed(number.range.lo, 64) if op == "add" else -signed(number.range.lo, 64)
            if -ROOM_LIMIT <= distance < 0:
                self.facts.keep_room(found.real, -distance)

    def _take(self, value: Value, is_down: bool) -> None:
        """An address of a frame leads to one that isn't known alone."""
        if not value.is_exact:
            return
        for thing in value.real:
            self.take(thing, value.range.lo, is_down)

    def take(self, thing: int, address: int, is_down: bool = False) -> None:
        """The address of a byte of a thing leads where it isn't followed."""
        if self.planner.memory.things[thing].kind == Kind.FRAME and thing in self.planner.layout.spots:
            byte = (address - self.planner.layout.spots[thing].address) & ALL
            if byte <= FRAME_BYTES:
                self.facts.take(thing, min(byte, self.lowest) if is_down and thing == self.frame.number else byte)

    def escape(self, value: Value) -> None:
        """A number is stored where it isn't followed."""
        if value.real:
            self.facts.escape(value.real)
            for thing in value.real:
                if self.planner.memory.things[thing].kind == Kind.FRAME:
                    self.facts.move(thing)
                    self.take(thing, value.range.lo)

    def _access(self, insn: Load | Store | Atomic, state: State) -> list:
        plan = self._plan(insn, state)
        if isinstance(plan, Stop):
            return [plan]
        is_cut = False
        if isinstance(insn, Load):
            number = self._load(insn, plan, state)
            if number is not None:
                return [number]
        elif isinstance(insn, Store):
            insn, is_cut = self._store(insn, plan, state)
        else:
            self._atomic(insn, plan, state)
        return [Touch(insn, plan, insn.line, is_cut, False, tuple(state.regs))]

    def _plan(self, insn: Load | Store | Atomic, state: State) -> Plan | Stop:
        """The plan of an access, which is found once for each address that its base may have."""
        base = state.regs[insn.base]
        if base is None:
            base = self.value(insn.base, state, insn)
        key = (id(insn), base, len(self.facts.escaped))
        found = self._plans.get(key)
        if found is None:
            plan = self.planner.plan(insn, state, self.frame)
            self._plans[key] = insn, plan, state.regs[insn.base]
            return plan
        state.regs[insn.base] = found[2]
        return found[1]

    def _load(self, insn: Load, plan: Plan, state: State) -> Alu | Number | Address | None:
        """Puts in the register what is loaded, and gives what is done instead where that is one number."""
        found = Value(top(insn.size * 8), LOADED)
        if plan.where is Where.FRAME:
            byte = plan.at + FRAME_BYTES
            self._test_written(byte, insn.size, state)
            held = state.load(byte, insn.size)
            if held.is_exact:
                number = held.range.lo
                number = signed(number, insn.size * 8) & ALL if insn.signed else number
                state.regs[insn.dst] = known = Value(exact(number), held.things)
                return self._constant(insn.dst, known, insn.line)
            found = Value(top(insn.size * 8), held.things)
        state.regs[insn.dst] = Value(TOP, found.things) if insn.signed else found
        return None

    def _test_written(self, byte: int, size: int, state: State) -> None:
        if not state.is_written(byte, size):
            for at in range(byte, byte + size):
                if not state.is_written(at, 1):
                    self.facts.leave_unwritten(self.number, at)

    def _store(self, insn: Store, plan: Plan, state: State) -> tuple[Store, bool]:
        """Puts what is stored in the frame; gives the store, and whether that has no bits above its size."""
        value = Value(exact(insn.imm)) if insn.src is None else self.value(insn.src, state, insn)
        if insn.src == FRAME:
            insn = insn._replace(src=None, imm=signed(value.range.lo, 32))
        if plan.where is Where.FRAME:
            state.store(plan.at + FRAME_BYTES, insn.size, value)
        else:
            self.escape(value)
        return insn, value.range.hi < 1 << (8 * insn.size)

    def _atomic(self, insn: Atomic, plan: Plan, state: State) -> None:
        value = self.value(insn.src, state, insn)
        bits = insn.size * 8
        if insn.op in ("xchg", "cmpxchg"):
            self.escape(value)
        if plan.where is Where.FRAME:
            byte = plan.at + FRAME_BYTES
            self._test_written(byte, insn.size, state)
            self.escape(value)
            state.store(byte, insn.size, None)
        if insn.op == "cmpxchg":
            self.escape(self.value(RESULT, state, insn))
            state.regs[RESULT] = Value(top(bits), LOADED)
        elif insn.op == "xchg" or insn.op.endswith("_fetch"):
            state.regs[insn.src] = Value(top(bits), LOADED)

    def _loop(self, insn: Call, state: State) -> list:
        count, callback = self.value(1, state, insn), state.regs[2]
        context = self.value(3, state, insn)
        self.value(4, state, insn)
        if self.number:
            raise Refused(f"{line_text(insn.line)}a callback calls bpf_loop by itself, where only main does")
        if not isinstance(callback, Handle) or callback.is_map:
            raise Refused(f"{line_text(insn.line)}a call of bpf_loop whose callback isn't one function")
        self._take(context, False)
        low = low32(count.range)
        rounds = Range(0, max(min(low.hi, LOOP_LIMIT), 1) - 1, 0)
        if callback.number in self.entries:
            self.entries[callback.number].join(rounds, context)
        else:
            self.entries[callback.number] = Entry(rounds, context)
        state.regs[:6] = [ANY, None, None, None, None, None]
        return [LoopCall(callback.number, callback.number not in self.facts.hidden, insn.line)]

    def compare(self, end: Branch, state: State) -> tuple[State | None, State | None]:
        """What is known where a branch is taken, and where not; nothing where it can't come to that."""
        a = self.value(end.dst, state, end)
        b = None if end.src is None else self.value(end.src, state, end)
        if end.src == end.dst:
            return state, state.copy()
        key = (id(end), a, b)
        found = self._results.compared.get(key)
        if found is None:
            found = self._compared(end, a, Value(exact(end.imm)) if b is None else b)
            self._results.compared[key] = found
        _, taken, other = found
        behind = state.copy() if other else None
        return _put(end, taken, state), _put(end, other, behind)

    def _compared(self, end: Branch, a: Value, b: Value) -> tuple[Branch, Refined, Refined]:
        """What the operands are where a branch is taken, and where not."""
        if a.real and b.real and a.real != b.real:
            self.facts.together(a.real | b.real)
            for value in (a, b):
                self._take(value, False)
                for thing in value.real:
                    if self.planner.memory.things[thing].kind == Kind.FRAME:
                        self.facts.move(thing)
        return end, _refined(end, end.op, a, b), _refined(end, OPPOSITE[end.op], a, b)


def _refined(end: Branch, op: str, a: Value, b: Value) -> Refined:
    found = refine(op, end.width, a.range, b.range)
    return None if found is None else (Value(found[0], a.things), Value(found[1], b.things))


def _put(end: Branch, found: Refined, state: State | None) -> State | None:
    if found is None or state is None:
        return None
    state.regs[end.dst] = found[0]
    if end.src is not None:
        state.regs[end.src] = found[1]
    return state


def constant(dst: int, number: int, line: SourceLine | None) -> Alu | Number:
    """The shortest instruction that gives a number."""
    if signed(number, 64) == signed(number, 32):
        return Alu("mov", 64, dst, None, signed(number, 32), line)
    if number <= LOW:
        return Alu("mov", 32, dst, None, signed(number, 32), line)
    return Number(dst, number, line)
