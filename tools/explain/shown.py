"""Parts of an untrusted text as they are shown: cut, and with nothing in them that controls a terminal.

`cut` and `cut_name` shorten a part before it is put into a sentence. `escaped` is applied once, to all that is
printed.
"""

from __future__ import annotations

MOST_BYTES = 200  # of a part of a text, in UTF-8
MOST_NAME_BYTES = 100  # of the name of a map or a variable

# Unicode's White_Space. Python's strip() without an argument would take U+001C to U+001F too.
WHITE_SPACE = "\t\n\v\f\r \x85\xa0\u1680\u2000\u2001\u2002\u2003\u2004\u2005\u2006\u2007\u2008\u2009\u200a\u2028\u2029"
WHITE_SPACE += "\u202f\u205f\u3000"
BLANKS = " \t"  # the white space that parts the words of a unit's text

CONTROLS = [*range(0x0A), *range(0x0B, 0x20), *range(0x7F, 0xA0)]  # C0 without the newline, DEL and C1
DIRECTIONS = [*range(0x202A, 0x202F), *range(0x2066, 0x206A)]  # they reorder what is printed after them
ESCAPES = {code: f"\\x{code:02x}" for code in CONTROLS}
ESCAPES.update({code: f"\\u{code:04x}" for code in DIRECTIONS})
ESCAPES[ord("\t")] = " "


def trimmed(part: str) -> str:
    """A part of a text without the white space (Unicode's White_Space) around it."""
    return part.strip(WHITE_SPACE)


def cut_name(part: str, most: int = MOST_NAME_BYTES) -> str:
    """The characters of a name that fit into so many bytes of UTF-8, from its front."""
    if len(part) * 4 <= most:
        return part
    return part.encode("utf-8", "surrogatepass")[:most].decode("utf-8", "ignore")


def cut(part: str) -> str:
    """A part of a text; of more than 200 bytes the first, up to a character's end, and three dots."""
    front = cut_name(part, MOST_BYTES)
    return part if len(front) == len(part) else f"{front}..."


def escaped(text: str) -> str:
    """A text as it is printed: a tab as a space, another control character as `\\x` and its two hex digits, and a
    character that changes the direction of writing as `\\u` and its four. Newlines stay."""
    return text.translate(ESCAPES)


def counted(number: int, noun: str) -> str:
    """A number with its noun, which is plural if the number isn't 1."""
    return f"{number} {noun}{'' if number == 1 else 's'}"


def indented(*lines: str | None) -> str:
    """Lines as they are printed, with two spaces at the front; those that are None are left out."""
    return "".join(f"  {line}\n" for line in lines if line is not None)


def more(title: str) -> str:
    """Where to read more."""
    return f"more in docs/REFUSALS.md under {title}"
