"""Why a unit breaks a rule of the verifier, V1 to V25, and what is known before each of its instructions.

    print(escaped(unit_reasons(facts, page)), end="")

It gives what follows the line `refused V19 at slot 8`:

      line 9: ldx64 r0, [r3+0]    ; one of 16 elements
      r3 is in map 0, at byte 0 to 120 in steps of 8; map 0 has 8 elements, 64 bytes, so ..
      r3 comes from
        ..
      what usually helps: compare the very register that is used with the map's size before the access, ..
      more in docs/REFUSALS.md under V19
"""

from __future__ import annotations

from .chains import Chain
from .flow import Fault, Flow, Joins
from .pages import Page
from .records import Facts, Refusal, Value
from .rules import AREA_TOO_FAR, blamed_register, insn_lines, rule_lines, wrong_arguments, wrong_sum
from .shown import indented, more
from .values import width

# What usually helps, by the rule.
BY_RULE = {
    "V1": "write instructions after the line `maps`",
    "V2": "make the program or its maps smaller",
    "V3": "write the loop as a callback of bpf_loop (in C: a function, or `#pragma unroll`)",
    "V4": "end the function with `exit`",
    "V5": "put the callback after the code that names it, and name its first instruction",
    "V6": "let calls share callbacks",
    "V8": "make the function part of its caller (in C: `static __always_inline`)",
    "V9": "name the map by its number (in C: make the unit by tools/elf2unit)",
    "V10": "give the map a size on the line `maps`, or a larger one",
    "V11": "copy r10 to another register and change that",
    "V12": "write the register on each way here; calls leave r1 to r5 unwritten, so keep values in r6 to r9",
    "V14": "compare numbers: indices in place of addresses",
    "V15": "keep addresses in r6 to r9, and store indices in their place (in C: fewer variables at a time)",
    "V16": "take the address from ldmapval or bpf_map_lookup_elem, and compare what the latter answers with 0 first",
    "V17": "use values of 8 or 4 bytes (in C: __u64 or __u32 in place of smaller types), and mask and shift them",
    "V18": "multiply the index by the size of the access",
    "V19": "compare the very register that is used with the map's size before the access, or mask it: a comparison "
    "narrows the compared register only, not its copies",
    "V20": "write the bytes before, on each way (in C: give the variable a first value)",
    "V21": "keep what the callback changes in a map",
    "V22": "give the helper what it takes",
    "V23": "make one loop of both, with as many iterations as both have together",
    "V24": "end the callback with a constant 0 or 1",
    "V25": "write r0 before `exit`",
}
# What helps a program that calls one of the helpers which there aren't.
FROM_OUTSIDE = "let it come in from outside, by --arg or as a map's values"
NO_LOCKS = "leave it out: what the program does is what it does in order, without locks"
WRITE_OUT = "write the computation out"
WITHOUT = {
    2: "write the element through the address that bpf_map_lookup_elem answers, or that of a global variable",
    6: "leave it out, or store what it prints in a map, which is printed at the end",
    **dict.fromkeys((5, 7, 8, 14), FROM_OUTSIDE),
    **dict.fromkeys((93, 94), NO_LOCKS),
    164: "go over the elements by bpf_loop, with the index as the key",
}
UNSIGNED = (
    "compare the index unsigned, by jgt64 or jlt64, before the access: a signed comparison narrows nothing (in C: "
    "`unsigned long` in place of `int` for the index)"
)
ALIGNMENT_OF_CONSTANT = "begin at a byte that is a multiple of the size of the access (in C: no cast to a larger type)"
BYTES_OF_KEY = "write the 4 bytes of the key before the call, on each way (in C: give the key a first value)"
# Advice on an access whose base is of a kind.
BY_BASE = {
    ("V16", "area_or_null"): "compare the answer with 0 first, by jeq64 or jne64 (in C: `if (!value) return 0;`)",
    ("V16", "map"): "take the address of its values from ldmapval, or that of one from bpf_map_lookup_elem",
    ("V16", "number"): "take the address from ldmapval, bpf_map_lookup_elem or r10: main's argument and what memory "
    "has are numbers",
    ("V19", "frame"): "keep the access within the 512 bytes below r10 (in C: fewer and smaller local variables, and "
    "indices within local arrays)",
    ("V19", "main_frame"): "give bpf_loop an address in main's frame with all the bytes behind it that the callback "
    "accesses (in C: a variable of the type that the callback takes ctx for)",
    ("V19", "area"): "access an earlier byte, element e begins at byte 8 e, or give the map more elements",
    ("V20", "main_frame"): "write the bytes in main before each bpf_loop call of the callback (in C: give the variable "
    "that ctx points to a first value)",
}
NOT_NULL = "leave the comparison with 0 out: the address isn't 0 here"
ADDRESSES = ("frame", "main_frame", "area")  # that aren't 0
# Advice where paths left different things in a register, by the kind of the first of them that is no number.
CLASHES: dict[str | None, str] = {
    "callback": "call bpf_loop on each path, or make one callback of them (in C: no `n ? f : g` of functions)",
    "main_frame": "give the callback the same ctx in each of its calls (in C: one variable that serves all of them)",
    "frame": "use one place of the frame on each path, or load and store before they meet (in C: one variable for "
    "both)",
    **dict.fromkeys(
        ("map", "area", "area_or_null"),
        "load or store on each path, before they meet (in C: `n ? a[i] : b[i]` for `(n ? a : b)[i]`, or one array for "
        "both)",
    ),
}
CLASH = "leave the same in the register on each path, or use it before they meet"


def unit_reasons(facts: Facts, page: Page) -> str:
    """Why a rule refuses the unit, if one does, and with `--states` what is known before each instruction.

    Of other refusals it is empty. It isn't escaped yet.
    """
    joins = Joins(Flow(facts, page))
    refusal = facts.refusal
    lines: list[str] = []
    if refusal is not None and refusal.section == "unit" and refusal.code.startswith("V"):
        lines += _refusal_lines(joins, refusal)
    for slot in facts.insns if facts.header.states else ():
        lines += [joins.flow.place(slot), f"  {page.state(slot, joins.state(slot))}"]
    return indented(*lines)


def _refusal_lines(joins: Joins, refusal: Refusal) -> list[str]:
    """The line of the fault, its cause, and what usually helps."""
    code, slot = refusal.code, refusal.slot or 0
    insn = joins.flow.insns.get(slot)
    if insn is None:
        return [f"what usually helps: {BY_RULE[code]}", more(code)]
    cause, helps = _cause(joins, Fault(joins.flow, code, slot, insn))
    return [joins.flow.place(slot), *cause, f"what usually helps: {helps}", more(code)]


def _cause(joins: Joins, fault: Fault) -> tuple[list[str], str]:
    """Why an instruction breaks a rule, and what usually helps."""
    flow, slot = fault.flow, fault.slot
    if not flow.facts.insns[slot].reached:
        return insn_lines(fault), advice(fault, is_signed=False)
    for register in fault.insn.reads if fault.code == "V12" else ():
        join = joins.clash(slot, register)
        if join is not None:  # paths left different things in it
            return joins.clash_lines(join, register), CLASHES.get(joins.pointer_kind(join, register), CLASH)
    chain = Chain(flow, joins)
    blamed = blamed_register(fault)
    if blamed is not None:
        chain.follow(slot, blamed)
    return [*rule_lines(fault, joins), *chain.lines], advice(fault, chain.is_signed)


def advice(fault: Fault, is_signed: bool) -> str:
    """What usually helps if an instruction breaks a rule; `is_signed` if the value comes from a signed comparison, or
    from a sign that was extended."""
    code, insn = fault.code, fault.insn
    if code in ("V16", "V18", "V19", "V20") and insn.base is not None:
        return _of_access(fault, fault.before(insn.base), is_signed)
    if code == "V7":
        return WITHOUT.get(insn.imm, WRITE_OUT)
    if code == "V13":
        wrong = wrong_sum(fault)
        return UNSIGNED if is_signed and wrong == AREA_TOO_FAR else wrong.helps
    if code == "V14" and insn.kind == "jump" and insn.src is None and insn.imm == 0 and insn.dst is not None:
        return NOT_NULL if fault.before(insn.dst).kind in ADDRESSES else BY_RULE[code]
    if code == "V22":
        for _, value, parameter in wrong_arguments(fault):
            return (value.kind == "area" and parameter.helps_in_map) or parameter.helps
    return BY_RULE[code]


def _of_access(fault: Fault, base: Value, is_signed: bool) -> str:
    """What helps if an access breaks V16, V18, V19 or V20."""
    code = fault.code
    if base.kind == "area" and width(base) > 0:  # it moves by an index
        return UNSIGNED if is_signed and code == "V19" else BY_RULE[code]
    if code == "V18":
        return ALIGNMENT_OF_CONSTANT
    if code == "V20" and base.kind == "frame" and fault.insn.kind == "call":
        return BYTES_OF_KEY
    return BY_BASE.get((code, base.kind), BY_RULE[code])
