"""Why a unit's text is refused, or its bytes in hex form; and slips that lines of assembler text often have."""

from __future__ import annotations

import re
from typing import NamedTuple

from .inputs import FaultLine
from .pages import content_of, lines_of
from .records import Refusal
from .shown import cut, indented, more, trimmed

SLOT_DIGITS = 16
HEX_DIGITS = re.compile("[0-9A-Fa-f]+")

# What each code means. A1 depends on the line.
SENTENCES = {
    "A2": "a number is outside its field: immediates are of 32 bits, -2147483648 to 2147483647, and offsets and "
    "distances of 16, -32768 to 32767; `lddw` takes a number of 64 bits",
    "A3": "the registers are r0 to r10",
    "A4": "no line defines this label: a label is defined by a line of its own, as `done:`",
    "A5": "an earlier line defines this label: each label is defined once",
    "A6": "a text has at most 1048576 bytes, and a program at most 4096 slots",
    "A7": "a program has 1 to 16 maps, each of at least 1 element, and together at most 65536",
}
# What each fault of bytes means, by its name. Three of them are I4.
FAULTS_OF_BYTES = {
    "incomplete": "the last slot has fewer than 8 bytes",
    "unknown_opcode": "no instruction has this opcode, the first byte",
    "register_number": "the second byte has a half above 10, and so no register",
    "field_not_zero": "a field that the instruction doesn't use isn't 0",
    "call_source": "the kind of a call, the upper half of the second byte, is above 2",
    "load_kind": "the kind of a load of two slots, the upper half of the second byte, is above 6",
    "immediate": "the last four bytes aren't what they are of a byte order, 16, 32 or 64, or of an atomic, its "
    "operation",
    "offset": "the third and fourth byte are no offset that a division, a modulo or a move has",
    "second_slot": "a load of two slots has no second slot, or one with more than an immediate",
}
HEAD = "the first line is `maps` and the number of elements of each map, as `maps 64 16` for two maps"

WORD = re.compile("[^ \t\n\f\r]+")  # the white space of ASCII separates words, but for U+000B
DIGITS = re.compile("[0-9]+")
HEX_SLOT = re.compile(r"[0-9A-Fa-f]{16}|\+[0-9A-Fa-f]{15}")
REGISTER = re.compile(r"([Rw])\+?0*([0-9]{1,3})")  # as other assemblers write it
MOST_REGISTER = 255  # what a byte holds: a higher number isn't meant as a register

# Slips in a line, whatever its mnemonic is, with their signs. The first that a line has counts.
LINE_SLIPS = {
    "a number is written without a sign before it, as `5`": (", #", ",#"),
    "this is the form of llvm-objdump and of the kernel's verifier log: here a load is written `ldx64 r0, [r1+0]` for "
    "`r0 = *(u64 *)(r1 + 0)`, and a store `stx64 [r1+0], r0`": ("*(",),
    "a comment begins with a semicolon, `;`": ("//", "#"),
    "a register is written without a percent sign, as `r1`": ("%",),
    "an instruction begins with its mnemonic, as `mov64 r1, 5` for `r1 = 5`": ("=",),
    "an instruction is a mnemonic and operands, without braces and parentheses": ("{", "}", "("),
}
DECIMAL = "numbers are decimal: 16 for 0x10"
# The same in the operands of a line.
OPERAND_SLIPS = {
    DECIMAL: ("0x", "0X"),
    "the frame pointer is `r10`": ("fp",),
    "an address has no blanks, as `[r1+0]`": ("[ ", " ]", " + ", " - "),
}

# The comparisons of C and of the kernel's verifier log, each before those that it contains, and their branches.
SIGNS = "s>= jsge64 s<= jsle64 s> jsgt64 s< jslt64 == jeq64 != jne64 >= jge64 <= jle64 > jgt64 < jlt64 & jset64".split()
COMPARISONS = dict(zip(SIGNS[::2], SIGNS[1::2]))
ANY_COMPARISON = ">"
LONGEST_WORD = 16  # that is compared with mnemonics
MOST_EDITS = 3

LABEL_FORM = (
    "a label is a letter or an underscore, then letters, digits and underscores, at most 32 in all, and a colon"
)
LABEL_LINE = "a label stands on a line of its own, before the instruction"
REGISTERS = {
    "R": "registers are written in lower case, as `r1`",
    "w": "registers are r0 to r10 at each width: the mnemonic says the width, as `mov32`",
}
HELPERS = "helpers are called by number: 1 is bpf_map_lookup_elem, 181 bpf_loop"
COUNTS = (
    "no operand",
    "one operand",
    "two operands with a comma between them",
    "three operands with commas between them",
)


class Form(NamedTuple):
    """What comes after a mnemonic."""

    operands: int
    example: str
    ends_with_target: bool = False  # the last operand is a label or a distance


CALL = Form(1, " 181")
BRANCH = Form(3, " r1, 5, done` or `.. r1, r2, +3", ends_with_target=True)

# The nearest mnemonic is the first of those that are equally near.
GROUPS = {
    "add64 add32 sub64 sub32 mul64 mul32 div64 div32 sdiv64 sdiv32 or64 or32 and64 and32 lsh64 lsh32 rsh64 rsh32 mod64 "
    "mod32 smod64 smod32 xor64 xor32 mov64 mov32 arsh64 arsh32": Form(2, " r1, r2` or `.. r1, 5"),
    "neg64 neg32 le16 le32 le64 be16 be32 be64 swap16 swap32 swap64": Form(1, " r1"),
    "mov32s8 mov32s16 mov64s8 mov64s16 mov64s32": Form(2, " r1, r2"),
    "jeq64 jeq32 jgt64 jgt32 jge64 jge32 jset64 jset32 jne64 jne32 jsgt64 jsgt32 jsge64 jsge32": BRANCH,
    "jlt64 jlt32 jle64 jle32 jslt64 jslt32 jsle64 jsle32": BRANCH,
    "ja ja32": Form(1, " done` or `.. +3", ends_with_target=True),
    "call call_local call_btf": CALL,
    "exit": Form(0, ""),
    "ldx8 ldx16 ldx32 ldx64 ldxs8 ldxs16 ldxs32": Form(2, " r1, [r2+0]"),
    "st8 st16 st32 st64": Form(2, " [r1+0], 5"),
    "stx8 stx16 stx32 stx64": Form(2, " [r1+0], r2"),
    "atomic64 atomic32": Form(2, " add [r1+0], r2"),
    "lddw ldmap ldmapfd ldvar": Form(2, " r1, 0"),
    "ldcode": Form(2, " r2, callback` or `.. r2, +3", ends_with_target=True),
    "ldmapval ldmapfdval": Form(3, " r1, 0, 0"),
}
MNEMONICS = {mnemonic: form for group, form in GROUPS.items() for mnemonic in group.split()}

# What other assemblers call a mnemonic.
LISTED = """
ldxdw ldx64, ldxw ldx32, ldxh ldx16, ldxb ldx8, stxdw stx64, stxw stx32, stxh stx16, stxb stx8, stdw st64, stw st32,
sth st16, stb st8, goto ja, jmp ja, ret exit, return exit, jz jeq64, jnz jne64
"""
OTHER_NAMES = dict(pair.split() for pair in LISTED.split(","))


def text_reasons(refusal: Refusal, form: str, unit: str) -> str:
    """Why a unit is refused by A1 to A7 or I1 to I7. The form is `text` or `hex`."""
    if refusal.code.startswith("I"):
        start = (refusal.slot or 0) * SLOT_DIGITS
        lines = [content for content in map(content_of, lines_of(unit)) if content]
        digits = "".join(lines[1:])[start : start + SLOT_DIGITS].lower()
        return indented(f"slot {refusal.slot}: {digits}", FAULTS_OF_BYTES.get(refusal.name), more(refusal.code))
    fault = FaultLine(unit, refusal.line)
    return fault.reasons(_expected(fault, refusal.code, form), refusal.code)


def _expected(fault: FaultLine, code: str, form: str) -> list[str | None]:
    """What was expected at the line of a fault. On the first line numbers are the sizes of maps."""
    sentence = SENTENCES.get("A7" if code == "A2" and fault.is_first else code) or fault.foreign()
    if sentence:
        return [sentence]
    if form == "hex":
        hex_form = "a unit in hex form is the line `maps`, and then lines of two hex digits for each byte"
        return [hex_form, None if fault.is_first else _digits_slip(fault.content)]
    if not fault.is_first:
        return line_slips(fault.content)
    sizes = fault.content[len("maps") :] if fault.content.startswith("maps") else ""
    return ["sizes are parted by blanks, without commas" if "," in sizes else word_slip(sizes), HEAD]


def _digits_slip(content: str) -> str | None:
    """The slip in a line that isn't of hex digits, or not of an even number of them."""
    if "0x" in content or "0X" in content:
        return "the digits stand without `0x` before them"
    words = WORD.findall(content)
    if not all(map(HEX_DIGITS.fullmatch, words)):
        return "the line is assembler text, which is read without `--hex`" if words[0] in MNEMONICS else None
    has_blanks = " " in content or "\t" in content
    return "the digits of a line have no blanks between them" if has_blanks else "the line has an odd number of digits"


def line_slips(content: str) -> list[str | None]:
    """What is wrong with the form of a line after the first, and how such a line is written.

    The line is ASCII, without its comment and the white space around it.
    """
    word = next(iter(WORD.findall(content)), "")
    operands = trimmed(content[len(word) :])
    slip = _line_slip(content, word, operands)
    if slip is not None:
        return [slip]
    if word in MNEMONICS:
        return [_operands_slip(word, operands), _such_a_line(word)]
    nearest = nearest_mnemonic(word)
    if nearest is None:
        return [f"`{cut(word)}` is no mnemonic"]
    return [f"`{cut(word)}` is no mnemonic; the nearest is `{nearest}`", _such_a_line(nearest)]


def word_slip(text: str) -> str | None:
    """The slip in the first number of a text that isn't spelled as one."""
    return next(filter(None, map(_number_slip, WORD.findall(text))), None)


def _number_slip(word: str) -> str | None:
    """The slip in a word that is meant as a number, and isn't spelled as one."""
    digits = word[1:] if word.startswith("-") else word
    if word == "-0":
        return "zero is written without a sign, as `0`"
    if word.startswith("+") and DIGITS.fullmatch(word.lstrip("+")):
        return "a number is written without a plus sign, as `5` for `+5`"
    if not DIGITS.match(digits):
        return None
    if digits.startswith(("0x", "0X")):
        return DECIMAL
    if not DIGITS.fullmatch(digits):
        return "a number is digits alone, as `1000` for `1e3`"
    has_front = len(digits) > 1 and digits[0] == "0"
    return "a number is decimal, and has no zero in front, as `10` for `010`" if has_front else None


def _line_slip(content: str, word: str, operands: str) -> str | None:
    """The slip that a line shows whatever its mnemonic is."""
    if word == "if":
        sign = next((sign for sign in COMPARISONS if sign in content), ANY_COMPARISON)
        example = f"`{COMPARISONS[sign]} r1, 5, done` for `if r1 {sign} 5 goto done`"
        return f"a branch begins with its mnemonic, as {example}"
    if content.startswith("%%"):
        return "a section ends at a line that is exactly `%%`"
    slip = _sign_in(content, LINE_SLIPS)
    if slip is not None:
        return slip
    if word.endswith(":"):
        return LABEL_LINE if operands else LABEL_FORM
    if word == "maps":
        return "the line `maps` is the first, and there is one"
    return "the line is one of the hex form, which is read with `--hex`" if HEX_SLOT.fullmatch(word) else None


def _operands_slip(mnemonic: str, operands: str) -> str | None:
    """What is wrong with the operands of a line."""
    form = MNEMONICS[mnemonic]
    given = operands.count(",") + 1 if operands else 0
    if given != form.operands:
        return f"`{mnemonic}` takes {COUNTS[form.operands]}; this line has {given}"
    words = [trimmed(operand) for operand in operands.split(",")]
    registers = [found for found in map(REGISTER.fullmatch, words) if found and int(found[2]) <= MOST_REGISTER]
    if registers:
        return REGISTERS[min(found[1] for found in registers)]
    sign = _sign_in(operands, OPERAND_SLIPS)
    if sign is not None:
        return sign
    if "[" in operands and "+" not in operands and "-" not in operands:
        return "an address has an offset with its sign, as `[r1+0]`"
    numbers = words[:-1] if form.ends_with_target else words  # the last one of a jump is a distance, with a sign
    return next(filter(None, map(_number_slip, numbers)), HELPERS if form is CALL else None)


def _such_a_line(mnemonic: str) -> str:
    return f"such a line is written `{mnemonic}{MNEMONICS[mnemonic].example}`"


def _sign_in(text: str, slips: dict[str, tuple[str, ...]]) -> str | None:
    """The first of these slips of which a text has a sign."""
    return next((words for words, signs in slips.items() if any(sign in text for sign in signs)), None)


def nearest_mnemonic(word: str) -> str | None:
    """The mnemonic nearest to a word of ASCII, in either case; None if none is near. It is the first that begins with
    the word, if that has two letters, or else the one with the fewest edits from it: at most three, and at most half of
    its letters."""
    if len(word) > LONGEST_WORD:
        return None
    lower = word.lower()
    if lower in OTHER_NAMES:
        return OTHER_NAMES[lower]
    for mnemonic in MNEMONICS:
        if len(lower) > 1 and mnemonic.startswith(lower):
            return mnemonic
    nearest = min(MNEMONICS, key=lambda mnemonic: edits(lower, mnemonic))
    return nearest if edits(lower, nearest) <= min(len(lower) // 2, MOST_EDITS) else None


def edits(one: str, other: str) -> int:
    """How many letters are put in, taken out or replaced to make one word of the other (Levenshtein's distance)."""
    row = list(range(len(other) + 1))
    for count, letter in enumerate(one, 1):
        before, row[0] = row[0], count
        for at, wanted in enumerate(other, 1):
            before, row[at] = row[at], min(row[at] + 1, row[at - 1] + 1, before + (letter != wanted))
    return row[-1]
