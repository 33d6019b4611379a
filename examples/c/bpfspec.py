"""BPF programs that are loaded once and run many times, through libbpfspec.so.

    from bpfspec import Machine

    with Machine("maps 1\\nmov64 r0, r1\\nadd64 r0, 1\\nexit\\n") as machine:
        print(machine.run(41))          # 42

`verify` gives what the program prints of an input; `facts` the records of why it is refused or its loops conflict, and
`explain` those in words, where tools/explain is found.

The library is searched beside this file, in the folder that BPFSPEC_LIBRARY names, and where the system has its
libraries. As in C a machine is used by one thread at a time; ctypes lets other threads run during a call.
"""

from __future__ import annotations

import ctypes
import importlib
import json
import os
import sys
from pathlib import Path
from types import ModuleType, TracebackType
from typing import Any, Callable, Iterable, NamedTuple, Optional, Sequence, Type, Union

VERSION = 1
DONE, EMPTY, MEMORY, REFUSED, HELD, MALFORMED, RANGE = 0, -9, -12, -13, -16, -22, -34
WORD = 2**64
FIRST_ROOM = 4096  # bytes of a text; it is asked for again where it is longer


class Refused(ValueError):
    """A program isn't loaded: `kind` is A, I or V, `number` stands after it, and `place` is the line or the slot."""

    def __init__(self, kind: str, number: int, place: int) -> None:
        where = "line" if kind == "A" else "slot"
        super().__init__(f"refused {kind}{number} at {where} {place}")
        self.kind = kind
        self.number = number
        self.place = place


class Printed(NamedTuple):
    """What is printed of an input, and whether its program is accepted."""

    accepted: bool
    text: str


class _Handle(ctypes.Structure):
    _fields_ = [("loaded", ctypes.c_bool), ("at", ctypes.c_void_p)]


class _Refusal(ctypes.Structure):
    _fields_ = [("kind", ctypes.c_uint32), ("number", ctypes.c_uint32), ("place", ctypes.c_uint64)]


class _Loop(ctypes.Structure):
    _fields_ = [("slot", ctypes.c_uint64), ("answer", ctypes.c_int64)]


class _Options(ctypes.Structure):
    _fields_ = [("argument", ctypes.c_uint64),
                *((name, ctypes.c_bool) for name in ("hex", "lrpd", "states", "all", "grid"))]


def _folders() -> list[str]:
    folders = [os.environ.get("BPFSPEC_LIBRARY", ""), str(Path(__file__).resolve().parent)]
    return [folder for folder in folders if folder]


def _open() -> ctypes.CDLL:
    for folder in _folders():
        path = Path(folder) / "libbpfspec.so"
        if path.exists():
            return ctypes.CDLL(str(path))
    return ctypes.CDLL("libbpfspec.so")


def _declared(library: ctypes.CDLL) -> ctypes.CDLL:
    handle, refusal = ctypes.POINTER(_Handle), ctypes.POINTER(_Refusal)
    word, number, count = ctypes.c_uint64, ctypes.c_uint32, ctypes.c_size_t
    text, words = [ctypes.c_char_p, count], [ctypes.POINTER(word), count]
    library.bpfspec_version.argtypes = []
    library.bpfspec_version.restype = number
    library.bpfspec_load.argtypes = [handle, *text, refusal]
    library.bpfspec_load_hex.argtypes = [handle, *text, refusal]
    library.bpfspec_load_insns.argtypes = [handle, ctypes.POINTER(number), count, *text, refusal]
    library.bpfspec_free.argtypes = [handle]
    library.bpfspec_free.restype = None
    library.bpfspec_run.argtypes = [handle, word, ctypes.POINTER(word)]
    library.bpfspec_run_each.argtypes = [handle, *words, *words]
    library.bpfspec_get.argtypes = [handle, number, number, ctypes.POINTER(word)]
    library.bpfspec_set.argtypes = [handle, number, number, word]
    library.bpfspec_size.argtypes = [handle, number, ctypes.POINTER(number)]
    library.bpfspec_words.argtypes = [handle, number, *words]
    library.bpfspec_set_words.argtypes = [handle, number, *words]
    library.bpfspec_count.argtypes = [handle, number, ctypes.POINTER(number)]
    library.bpfspec_report.argtypes = [handle, count, ctypes.POINTER(_Loop)]
    room = [ctypes.c_char_p, count, ctypes.POINTER(count)]
    library.bpfspec_verify.argtypes = [*text, *room]
    library.bpfspec_verify_hex.argtypes = [*text, *room]
    library.bpfspec_facts.argtypes = [*text, ctypes.POINTER(_Options), *room]
    if library.bpfspec_version() != VERSION:
        raise ImportError(f"libbpfspec.so has interface {library.bpfspec_version()}, not {VERSION}")
    return library


_library = _declared(_open())


def _check(status: int) -> None:
    if status == DONE:
        return
    if status == RANGE:
        raise IndexError("there is no such element, map or function, or a map has another size")
    if status == MEMORY:
        raise MemoryError("there was no memory")
    raise ValueError("the machine is closed" if status == EMPTY else f"status {status}")


def _fits(number: int, limit: int, what: str) -> int:
    if not 0 <= number < limit:
        raise OverflowError(f"{what} {number} isn't within 0 to {limit - 1}")
    return number


class Machine:
    """An accepted program with its maps, which are all zero at first. `close` frees it, as the end of a `with` does."""

    def __new__(cls, *_: object, **__: object) -> Machine:
        machine = super().__new__(cls)
        machine._handle = _Handle()  # there is one to free, whatever becomes of the rest
        return machine

    def __init__(self, text: Union[str, bytes], hexadecimal: bool = False) -> None:
        """Loads an assembler text, or one in hex form. Raises Refused, or MemoryError."""
        data = text.encode() if isinstance(text, str) else text
        load = _library.bpfspec_load_hex if hexadecimal else _library.bpfspec_load
        refusal = _Refusal()
        self._loaded(load(self._handle, data, len(data), refusal), refusal)

    @classmethod
    def of_insns(cls, sizes: Sequence[int], insns: bytes) -> Machine:
        """Loads a program by the sizes of its maps and the bytes of its instructions. Raises as the other way does."""
        machine = cls.__new__(cls)
        each = (ctypes.c_uint32 * len(sizes))(*(_fits(size, 2**32, "size") for size in sizes))
        refusal = _Refusal()
        status = _library.bpfspec_load_insns(machine._handle, each, len(sizes), insns, len(insns), refusal)
        machine._loaded(status, refusal)
        return machine

    def _loaded(self, status: int, refusal: _Refusal) -> None:
        if status in (MALFORMED, REFUSED):
            raise Refused(chr(refusal.kind), refusal.number, refusal.place)
        _check(status)
        self._answer = ctypes.c_uint64()
        self._number = ctypes.c_uint32()

    def run(self, argument: int = 0) -> int:
        """Runs the program, its argument in R1, and gives its return value. What it leaves in the maps stays there."""
        _check(_library.bpfspec_run(self._handle, _fits(argument, WORD, "argument"), self._answer))
        return self._answer.value

    def run_each(self, arguments: Iterable[int]) -> list[int]:
        """Runs the program once for each argument, in order, and gives the return values."""
        given = _words(arguments)
        answers = (ctypes.c_uint64 * len(given))()
        _check(_library.bpfspec_run_each(self._handle, given, len(given), answers, len(answers)))
        return list(answers)

    def get(self, map_number: int, index: int) -> int:
        """The value of an element of a map. Raises IndexError where there is none."""
        _check(_library.bpfspec_get(self._handle, _place(map_number), _place(index), self._answer))
        return self._answer.value

    def set(self, map_number: int, index: int, value: int) -> None:
        """Sets the value of an element of a map. Raises IndexError where there is none."""
        value = _fits(value, WORD, "value")
        _check(_library.bpfspec_set(self._handle, _place(map_number), _place(index), value))

    def size(self, map_number: int) -> int:
        """How many elements a map has. Raises IndexError where there is no such map."""
        _check(_library.bpfspec_size(self._handle, _place(map_number), self._number))
        return self._number.value

    def words(self, map_number: int) -> list[int]:
        """The values of all elements of a map. Raises IndexError where there is no such map."""
        found = (ctypes.c_uint64 * self.size(map_number))()
        _check(_library.bpfspec_words(self._handle, map_number, found, len(found)))
        return list(found)

    def set_words(self, map_number: int, values: Iterable[int]) -> None:
        """Sets the values of all elements of a map. Raises IndexError where there isn't a map of as many."""
        given = _words(values)
        _check(_library.bpfspec_set_words(self._handle, _place(map_number), given, len(given)))

    def count(self, function: int) -> int:
        """The most instructions that a call of a function takes: 0 is main. Raises IndexError where there is none."""
        _check(_library.bpfspec_count(self._handle, _place(function), self._number))
        return self._number.value

    def loops(self) -> list[tuple[int, int]]:
        """The slot and the answer of each loop call of the last run."""
        found, line = [], _Loop()
        while True:
            status = _library.bpfspec_report(self._handle, len(found), line)
            if status == RANGE:
                return found
            _check(status)
            found.append((line.slot, line.answer))

    def close(self) -> None:
        """Frees the machine. A closed one can't be used."""
        _library.bpfspec_free(self._handle)

    def __enter__(self) -> Machine:
        return self

    def __exit__(self, kind: Optional[Type[BaseException]], error: Optional[BaseException],
                 trace: Optional[TracebackType]) -> None:
        self.close()

    def __del__(self) -> None:
        self.close()


def _words(numbers: Iterable[int]) -> ctypes.Array[ctypes.c_uint64]:
    each = [_fits(number, WORD, "number") for number in numbers]
    return (ctypes.c_uint64 * len(each))(*each)


def _place(number: int) -> int:
    if not 0 <= number < 2**32:
        raise IndexError("there is no such element")
    return number


def verify(text: Union[str, bytes], hexadecimal: bool = False) -> Printed:
    """What `bpfspec verify` prints of an input. Raises MemoryError."""
    data = text.encode() if isinstance(text, str) else text
    call = _library.bpfspec_verify_hex if hexadecimal else _library.bpfspec_verify
    return _printed(lambda *room: call(data, len(data), *room))


def facts(text: Union[str, bytes], hexadecimal: bool = False, argument: int = 0, lrpd: bool = False,
          states: bool = False, every: bool = False, grid: bool = False) -> list[dict[str, Any]]:
    """The records that `bpfspec facts` prints of an input, `every` being its option --all. Raises MemoryError."""
    printed = printed_facts(text, hexadecimal, argument, lrpd, states, every, grid)
    return [json.loads(line) for line in printed.text.splitlines()]


def printed_facts(text: Union[str, bytes], hexadecimal: bool = False, argument: int = 0, lrpd: bool = False,
                  states: bool = False, every: bool = False, grid: bool = False) -> Printed:
    """The same as the lines that are printed."""
    data = text.encode() if isinstance(text, str) else text
    options = _Options(_fits(argument, WORD, "argument"), hexadecimal, lrpd, states, every, grid)
    return _printed(lambda *room: _library.bpfspec_facts(data, len(data), options, *room))


def explain(text: Union[str, bytes], hexadecimal: bool = False, argument: int = 0, lrpd: bool = False,
            states: bool = False, every: bool = False, picture: bool = False) -> Printed:
    """What `bpfspec explain` prints of an input, `every` being its option --all. Raises MemoryError, and ImportError if
    tools/explain isn't found: in this file's folder, or in `tools` of one of the two above it."""
    asks, records, explaining = (_explainer(name) for name in ("command_line", "records", "explaining"))
    data = text.encode() if isinstance(text, str) else text
    printed = printed_facts(data, hexadecimal, argument, lrpd, states, every or picture, picture)
    test = "lrpd" if lrpd else "flow"
    ask = asks.Ask(hexadecimal, argument, test, states, every, picture)
    return Printed(printed.accepted, explaining.Explanation(ask, data, records.read(printed.text)).text())


def _explainer(name: str) -> ModuleType:
    """A module of tools/explain."""
    here = Path(__file__).resolve().parent
    for folder in (here, here.parent / "tools", here.parent.parent / "tools"):
        if (folder / "explain" / f"{name}.py").is_file():
            if str(folder) not in sys.path:
                sys.path.append(str(folder))
            return importlib.import_module(f"explain.{name}")
    raise ImportError("tools/explain isn't found: `explain` needs it, `facts` doesn't")


def _printed(call: Callable[..., int]) -> Printed:
    room, size, status = FIRST_ROOM, ctypes.c_size_t(), RANGE
    while status == RANGE:
        answer = ctypes.create_string_buffer(room)
        status = call(answer, room, size)
        room = size.value
    if status not in (REFUSED, MALFORMED):
        _check(status)
    return Printed(status == DONE, answer.raw[: size.value].decode())
