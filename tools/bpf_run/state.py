"""The variables' values in a file, from one run to the next: JSON, by their names."""

from __future__ import annotations

import json
import os
import tempfile
from pathlib import Path

from bpf_object.refusal import Refused

from .c_values import encoded
from .json_output import json_text
from .report import Program

STATE_LIMIT = 1 << 24  # bytes


def loaded_words(program: Program, path: str | None) -> list[int]:
    """The words over all maps: those of the object, with the values of a file put into them."""
    words = [word for words in program.loaded.initial for word in words]
    if path is None:
        return words
    for name, value in _read(path).items():
        if name not in program.variables:
            raise Refused(f"{path}: the program has no variable {name[:40]}")
        variable, kind = program.variables[name], program.types[name]
        data = variable.bytes_in(words)
        try:
            put = encoded(value, kind, data[: kind.size], name)
        except Refused as reason:
            raise Refused(f"{path}: {reason}") from None
        variable.put(words, put + data[kind.size :])
    return words


def save(program: Program, words: list[int], path: str) -> None:
    """Writes the values to a file, which has the old ones until it has all of the new ones."""
    values = program.values(words)
    lines = (f" {json.dumps(name)}: {json_text(values[name], ' ')}" for name in values)
    text = "{\n" + ",\n".join(lines) + "\n}\n"
    if Path(path).exists() and not Path(path).is_file():
        Path(path).write_text(text)  # a device
        return
    target = os.path.realpath(path)
    descriptor, new = tempfile.mkstemp(dir=os.path.dirname(target), prefix=".bpfrun-")
    try:
        with os.fdopen(descriptor, "w") as file:
            file.write(text)
        os.umask(mask := os.umask(0))
        os.chmod(new, 0o666 & ~mask)
        os.replace(new, target)
    except BaseException:
        os.unlink(new)
        raise


def _read(path: str) -> dict[str, object]:
    with open(path, "rb") as file:
        data = file.read(STATE_LIMIT + 1)
    if len(data) > STATE_LIMIT:
        raise Refused(f"{path} has more than {STATE_LIMIT} bytes")
    try:
        found = json.loads(data)
    except (ValueError, RecursionError):
        raise Refused(f"{path} isn't JSON") from None
    if not isinstance(found, dict):
        raise Refused(f"{path} isn't an object of JSON, by the variables' names")
    return found
