"""What each rule of the verifier asks of an instruction that breaks it, and the register whose value is to blame."""

from __future__ import annotations

from collections.abc import Callable
from typing import NamedTuple

from .flow import R10, Fault, Joins
from .operands import MOVSX
from .records import Value
from .values import GREATEST, elements, known, signed, width

FRAMES = ("frame", "main_frame")
MOST_OFFSET = 524_288  # of an address in the values of a map
FRAME_ROOM = "a frame is the 512 bytes below r10"
MAIN_FRAME_ROOM = "main's frame is the 512 bytes below its r10"
LISTED = """
1 bpf_map_lookup_elem, 2 bpf_map_update_elem, 3 bpf_map_delete_elem, 4 bpf_probe_read, 5 bpf_ktime_get_ns,
6 bpf_trace_printk, 7 bpf_get_prandom_u32, 8 bpf_get_smp_processor_id, 9 bpf_skb_store_bytes, 10 bpf_l3_csum_replace,
11 bpf_l4_csum_replace, 12 bpf_tail_call, 14 bpf_get_current_pid_tgid, 15 bpf_get_current_uid_gid,
16 bpf_get_current_comm, 23 bpf_redirect, 25 bpf_perf_event_output, 26 bpf_skb_load_bytes, 28 bpf_csum_diff,
35 bpf_get_current_task, 44 bpf_xdp_adjust_head, 51 bpf_redirect_map, 87 bpf_map_push_elem, 88 bpf_map_pop_elem,
89 bpf_map_peek_elem, 93 bpf_spin_lock, 94 bpf_spin_unlock, 112 bpf_probe_read_user, 113 bpf_probe_read_kernel,
130 bpf_ringbuf_output, 131 bpf_ringbuf_reserve, 132 bpf_ringbuf_submit, 164 bpf_for_each_map_elem, 181 bpf_loop
"""
NAMES = {int(number): name for number, name in (pair.split() for pair in LISTED.split(","))}  # as of the kernel

# Rules of an instruction alone; V3, V5, V7 and V10 name what it asks for.
OF_INSNS = {
    "V4": "no instruction of the same function follows: a function ends with `exit` or an unconditional jump",
    "V6": "up to here more than 15 callbacks are named",
    "V8": "it calls a function of the program, or a helper by its BTF number: only helpers can be called, by number",
    "V9": "it loads a map by its file descriptor, or a variable: a map is loaded by its number, by ldmap or ldmapval",
    "V11": "it writes r10, the frame pointer, which can only be read",
    "V23": "a callback calls bpf_loop or loads a code address: only main can",
}
# Rules of the registers that an instruction reads; V13 and V22 depend on their values.
OF_REGISTERS = {
    "V12": "a register can be read only where it is written on every path",
    "V14": "a comparison takes numbers; a lookup's answer can be compared with 0, by jeq64 or jne64",
    "V15": "memory holds numbers alone: an address can't be stored, nor be an operand of an atomic operation",
    "V24": "a callback has to end with 0, to go on, or 1, to stop",
    "V25": "main has to end with a number",
}
OF_ACCESSES = {
    "V16": "it has to be an address in a frame or in a map's values",
    "V17": "an access of a map's values has 8 bytes or 4, not {size}",
    "V18": "{bytes} have to be at a multiple of {size}",
    "V19": "{room}, so {bytes} may lie outside",
    "V20": "not each of the {bytes} is written on every path to {reader}",
    "V21": "a callback may read main's frame and not write it",
}
BASES = {
    "area_or_null": "it has to be compared with 0 before an access",
    "map": "values of a map are found by bpf_map_lookup_elem or ldmapval",
}  # what V16 asks of values of a kind
SIGNATURES = {
    "lookup": "this is bpf_map_lookup_elem(map, key), with the map in r1 and the address of the key in r2",
    "loop": "this is bpf_loop(nr_loops, callback_fn, callback_ctx, flags), with these in r1 to r4",
}


class WrongSum(NamedTuple):
    """A way in which arithmetic on an address is wrong: what the rule asks, and what usually helps."""

    asked: str
    helps: str


# It isn't the sum of an address and a number, or their difference, at 64 bits.
OPERATOR = WrongSum(
    "an address can be copied by mov64, and moved by add64 or sub64; all other arithmetic takes numbers",
    "compute with numbers first, and add what comes of it to the address, by add64",
)
# The address is the second operand, or both are addresses.
ADDRESS_SECOND = WrongSum(
    "a number can be added to an address, by add64 with the address as the destination: an address can't be added to "
    "another value, nor taken away from one",
    "make the address the destination of add64 and the number its second operand (in C: a difference of indices in "
    "place of one of pointers)",
)
MAY_BE_NULL = WrongSum(
    "an answer of bpf_map_lookup_elem can be moved once it was compared with 0",
    "compare the answer with 0 first, by jeq64 or jne64 (in C: `if (!value) return 0;`)",
)
# An address in a frame moves by more than one number.
BY_INDEX = {
    "frame": WrongSum(
        "an address in a frame can be moved by a constant alone, and not by a number that may be several",
        "keep what is indexed in a map (in C: a global variable in place of a local array), or use constant indices "
        "alone",
    ),
    "main_frame": WrongSum(
        "an address in main's frame, as ctx is, can be moved by a constant alone, and not by a number that may be "
        "several",
        "keep what is indexed in a map (in C: a global array in place of one that ctx points to)",
    ),
}
LEAVES_FRAME = WrongSum(
    "an address in a frame can be moved by a constant that leaves it in the frame, the 512 bytes below r10",
    "move it by less (in C: keep the index within the local array)",
)
AREA_DOWN = WrongSum(
    "an address in a map's values can't be moved down: a number can be added to it, of 0 or more",
    "load the address of an earlier byte by ldmapval and add to that, or give the access a negative offset, as [r3-8] "
    "(in C: compute the index first)",
)
AREA_TOO_FAR = WrongSum(
    "a number can be added to an address in a map's values that leaves it at a byte up to 524288",
    "compute the offset first, bound it, and add it to the address once",
)


class Parameter(NamedTuple):
    """What a helper takes in a register, and what helps where it isn't given that; if it is given an address in a map's
    values, perhaps something else helps."""

    wanted: str
    takes: Callable[[Value], bool]
    helps: str
    helps_in_map: str = ""


GIVE_NUMBER = "give a number there"
PARAMETERS = {
    ("lookup", 1): Parameter(
        "a map (ldmap)",
        lambda value: value.kind == "map",
        "load the map by ldmap (in C: give bpf_map_lookup_elem the address of the map)",
    ),
    ("lookup", 2): Parameter(
        "the address of a key of 4 bytes in a frame, at a multiple of 4",
        lambda value: value.kind in FRAMES and (value.offset or 0) <= -4 and (value.offset or 0) % 4 == 0,
        "give the address of 4 bytes in the frame, at a multiple of 4 (in C: a local `__u32` as the key)",
        "store the key in the frame, and give its address there (in C: a local variable as the key)",
    ),
    ("loop", 1): Parameter("a number, the number of iterations", lambda value: value.kind == "number", GIVE_NUMBER),
    ("loop", 2): Parameter(
        "a callback (ldcode)",
        lambda value: value.kind == "callback",
        "load the callback by ldcode (in C: a function of the same file)",
    ),
    ("loop", 3): Parameter(
        "an address in main's frame, or 0",
        lambda value: value.kind == "frame" or (value.kind == "number" and value.high == 0),
        "give 0 or an address in main's frame as ctx (in C: NULL or `&` of a local variable)",
        "store what ctx points to in the frame, and give its address there (in C: a local variable as ctx), or use the "
        "map in the callback and 0 as ctx",
    ),
    ("loop", 4): Parameter("a number, the flags", lambda value: value.kind == "number", GIVE_NUMBER),
}


def rule_lines(fault: Fault, joins: Joins) -> list[str]:
    """What the instruction is or reads that breaks the rule, and what the rule asks."""
    code = fault.code
    if code in OF_ACCESSES:
        return _access_lines(fault)
    if code == "V22":
        wrong = wrong_arguments(fault)
        lines = [f"{known(register, value)}; it has to be {parameter.wanted}" for register, value, parameter in wrong]
        return [*filter(None, [SIGNATURES.get(fault.insn.helper or "")]), *lines]
    if code in OF_REGISTERS or code == "V13":
        asked = OF_REGISTERS.get(code) or wrong_sum(fault).asked
        return [joins.operands(fault.slot), asked]
    return insn_lines(fault)


def insn_lines(fault: Fault) -> list[str]:
    """What breaks a rule that speaks of an instruction alone; nothing of another rule."""
    insn, target = fault.insn, fault.slot + 1 + fault.insn.distance
    if fault.code == "V3" and target < 0:
        return ["the jump leads out of the program"]
    if fault.code == "V3" and target <= fault.slot:
        return [f"the jump leads back to slot {target}: each jump has to lead forwards, so that every program ends"]
    if fault.code == "V3":
        return [f"the jump leads to slot {target}, where no instruction of the same function starts"]
    if fault.code == "V5" and target > fault.slot + 1:
        return [f"it names slot {target}, where no instruction starts"]
    if fault.code == "V5":
        return ["it names no slot after itself: a callback has to come after the code that names it"]
    if fault.code == "V7":
        name = f" ({NAMES[insn.imm]})" if insn.imm in NAMES else ""
        return [f"there is no helper {insn.imm}{name}: the helpers are 1 (bpf_map_lookup_elem) and 181 (bpf_loop)"]
    if fault.code == "V10":
        return [_map_words(fault)]
    return [OF_INSNS[fault.code]] if fault.code in OF_INSNS else []


def _map_words(fault: Fault) -> str:
    """Which map is missing, or which byte of one."""
    sizes, number = fault.flow.facts.maps, fault.insn.imm
    if fault.insn.name == "ldmapval" and 0 <= number < len(sizes):
        return f"there is no byte {fault.insn.byte} of map {number}: {elements(number, sizes[number])}"
    maps = "1 size, that of map 0" if len(sizes) == 1 else f"{len(sizes)} sizes, the first of which is map 0's"
    return f"there is no map {number}: the line `maps` has {maps}"


def _access_lines(fault: Fault) -> list[str]:
    """What the address of an access is and what is wrong with the access; the first byte of it that isn't written."""
    insn, code = fault.insn, fault.code
    if insn.base is None:
        return []
    value, size = fault.before(insn.base), insn.bits // 8
    room = MAIN_FRAME_ROOM if value.kind == "main_frame" else FRAME_ROOM
    if value.map is not None and value.map < len(fault.flow.facts.maps):
        room = elements(value.map, fault.flow.facts.maps[value.map])
    words = BASES.get(value.kind, OF_ACCESSES[code]) if code == "V16" else OF_ACCESSES[code]
    what = words.format(
        bytes=f"{size} bytes at {insn.offset:+} from there",
        size=size,
        room=room,
        reader="the bpf_loop call" if value.kind == "main_frame" else "here",
    )
    missing = fault.flow.facts.unwritten[:1] if code == "V20" else []
    frames = {"own": "r10", "main": "main's r10"}
    return [
        f"{known(insn.base, value)}; {what}",
        *(f"the byte at {frames[byte.frame]}-{-byte.offset} isn't" for byte in missing),
    ]


def blamed_register(fault: Fault) -> int | None:
    """The register whose value breaks the rule, if it speaks of registers; the frame pointer is none."""
    code, insn = fault.code, fault.insn
    if code in OF_ACCESSES:
        return None if insn.base == R10 else insn.base
    if code in ("V24", "V25"):
        return 0
    if code == "V13":
        return blamed_operand(fault)
    if code == "V15":  # r0 may be the operand of an atomic operation that is no number
        is_r0 = insn.kind == "atomic" and insn.src is not None and fault.before(insn.src).kind == "number"
        return 0 if is_r0 else insn.src
    if code == "V22":
        return next((register for register, _, _ in wrong_arguments(fault)), None)
    if code == "V12":
        return next((register for register in insn.reads if fault.before(register).kind == "unwritten"), None)
    if code == "V14":
        return next((register for register in insn.reads if fault.before(register).kind != "number"), None)
    return None


def wrong_arguments(fault: Fault) -> list[tuple[int, Value, Parameter]]:
    """The registers of a helper's arguments that it doesn't take, what they are, and what it takes."""
    helper, registers = fault.insn.helper or "", fault.insn.reads if fault.insn.helper else ()
    found = [(register, fault.before(register), PARAMETERS[helper, register]) for register in registers]
    return [(register, value, parameter) for register, value, parameter in found if not parameter.takes(value)]


def wrong_sum(fault: Fault) -> WrongSum:
    """What is wrong with an instruction that computes with an address."""
    insn = fault.insn
    if insn.kind != "alu" or insn.dst is None or insn.bits != 64 or insn.name not in ("add", "sub"):
        return OPERATOR
    address, number = fault.before(insn.dst), insn.imm & GREATEST
    by = Value("number", number, number, 0) if insn.src is None else fault.before(insn.src)
    if by.kind != "number":
        return ADDRESS_SECOND
    if address.kind == "area_or_null":
        return MAY_BE_NULL
    if address.kind in FRAMES:
        return LEAVES_FRAME if width(by) == 0 else BY_INDEX[address.kind]
    if address.kind != "area":
        return OPERATOR
    return AREA_DOWN if insn.name == "sub" or signed(by.low or 0) < 0 else AREA_TOO_FAR


def blamed_operand(fault: Fault) -> int | None:
    """The operand that an arithmetic instruction doesn't take."""
    insn = fault.insn
    if insn.kind in ("mov", MOVSX):
        return insn.src
    if insn.kind != "alu" or insn.dst is None or insn.src is None:
        return insn.dst
    address, by = fault.before(insn.dst), fault.before(insn.src)
    if by.kind != "number":
        return insn.src
    # The number is to blame if no address can be moved so far, or if it says less than the address.
    is_index = insn.name in ("add", "sub") and address.kind in FRAMES and width(by) != 0
    is_large = (by.high or 0) > MOST_OFFSET or width(by) > width(address)
    is_far = insn.name == "add" and address.kind == "area" and is_large
    return insn.src if insn.bits == 64 and (is_index or is_far) else insn.dst
