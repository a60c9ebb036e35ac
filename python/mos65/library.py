"""A machine by the library `libmos65.so`, through ctypes."""

from __future__ import annotations

import ctypes
import ctypes.util
import os
import shutil
import struct
from typing import Any, Optional, Tuple, Union

from .accesses import Access
from .faults import (
    AssemblyFault,
    Closed,
    EventFault,
    Fault,
    MapFault,
    NoSuchName,
    Refused,
    SessionFault,
    TapeFault,
    with_faults,
)
from .values import Registers, RunEnd, Source, Why, made, texts_of
from .words import UNNAMED

VERSION_NUMBER = 100
NO_PORT = 0xFFFF

_OWN = {
    1: (Closed, "Closed"),
    2: (Refused, "Misuse"),
    3: (Fault, "OutOfMemory"),
    4: (NoSuchName, "NoSuchName"),
    5: (Refused, "NoSuchLine"),
}
_NAMES = {
    1: "CyclesFull Undocumented ConsoleFull PastEnd PortAddress BadLength InputFull",
    2: "NoHistory TableFull AlreadySet NotSet PortAddress OutOfMemory",
    3: "TooLarge LineTooLong NotAscii Syntax ReservedName DuplicateName UnknownHere NoSuchForm"
    " TooManyNames OriginRange ExprRange DivideByZero NotOneLine - - - - - - UndefinedName"
    " ByteRange WordRange BranchRange PastEnd Overlap PortAddress ExprRange DivideByZero",
    4: "NoRecord BadHex BadChecksum PastEnd Truncated BadCount JunkAfterEnd JunkBetween"
    " OutOfMemory",
    5: "BadMap",
}
_CLASSES = {1: EventFault, 2: SessionFault, 3: AssemblyFault, 4: TapeFault, 5: MapFault}
_WHY = (Why.LIMIT, Why.BREAK, Why.WATCH, Why.REFUSED)
_BREAK, _RETURN = 1, 0xFFFF
_REGISTERS = {"A": 0, "X": 1, "Y": 2, "S": 3, "P": 4, "PC": 5}


class _Slot(ctypes.Structure):
    _fields_ = [("opaque", ctypes.c_void_p), ("live", ctypes.c_bool)]


class _Config(ctypes.Structure):
    _fields_ = [
        ("history", ctypes.c_uint32),
        ("port", ctypes.c_uint16),
        ("rom_first", ctypes.c_uint16),
        ("rom_last", ctypes.c_uint16),
        ("has_rom", ctypes.c_bool),
        ("profile", ctypes.c_uint8),
    ]


class _Fault(ctypes.Structure):
    _fields_ = [
        ("status", ctypes.c_uint32),
        ("line", ctypes.c_uint32),
        ("offset", ctypes.c_uint64),
    ]


class _Registers(ctypes.Structure):
    _fields_ = [
        ("cycles", ctypes.c_uint64),
        ("pc", ctypes.c_uint16),
        ("a", ctypes.c_uint8),
        ("x", ctypes.c_uint8),
        ("y", ctypes.c_uint8),
        ("s", ctypes.c_uint8),
        ("p", ctypes.c_uint8),
    ]


class _Ending(ctypes.Structure):
    _fields_ = [
        ("did", ctypes.c_uint32),
        ("why", ctypes.c_uint32),
        ("status", ctypes.c_uint32),
        ("address", ctypes.c_uint16),
        ("opcode", ctypes.c_uint8),
    ]


class _Given(ctypes.Structure):
    _fields_ = [(it, ctypes.c_uint8) for it in ("a", "x", "y", "has_a", "has_x", "has_y")]


class _Called(ctypes.Structure):
    _fields_ = [("cycles", ctypes.c_uint64), ("registers", _Registers), ("ending", _Ending)]


class _Touch(ctypes.Structure):
    _fields_ = [
        ("read", ctypes.c_uint16),
        ("store", ctypes.c_uint16),
        ("reads", ctypes.c_bool),
        ("stores", ctypes.c_bool),
        ("pushes", ctypes.c_uint8),
    ]


class _Line(ctypes.Structure):
    _fields_ = [
        ("number", ctypes.c_uint32),
        ("address", ctypes.c_uint32),
        ("count", ctypes.c_uint32),
        ("is_instruction", ctypes.c_bool),
    ]


# Most bytes of a name and of a line.
_NAME, _TEXT = 31, 255

# A call's arguments and what it did, as they stand in memory: writing and reading them whole takes
# less than by fields.
_GIVEN_FORM = struct.Struct("=BBBBBB")
_CALLED_FORM = struct.Struct("=QQHBBBBBxIIIHBx")

_P = ctypes.POINTER
_M, _BYTES, _N = _P(_Slot), ctypes.c_char_p, ctypes.c_size_t
_U8, _U16, _U32 = ctypes.c_uint8, ctypes.c_uint16, ctypes.c_uint32
_CALLS = {
    "version_number": [],
    "assemble": [_M, _P(_Config), _BYTES, _N, _P(_Fault)],
    "symbol": [_M, _BYTES, _N, _P(ctypes.c_int32)],
    "symbol_count": [_M, _P(_N)],
    "symbol_at": [_M, _N, _BYTES, _N, _P(_N), _P(ctypes.c_int32)],
    "line_count": [_M, _P(_N)],
    "line": [_M, _N, _P(_Line), _BYTES, _N, _P(_N)],
    "faults": [_P(_Config), _BYTES, _N, _BYTES, _N, _BYTES, _N, _P(_N)],
    "warnings": [_P(_Config), _BYTES, _N, _BYTES, _N, _BYTES, _N, _P(_N)],
    "assembly_close": [_M],
    "open": [_M, _P(_Config), _M],
    "open_tape": [_M, _P(_Config), _BYTES, _N, _P(_Fault)],
    "open_bytes": [_M, _P(_Config), _U16, _BYTES, _N],
    "close": [_M],
    "step": [_M],
    "reset": [_M],
    "irq": [_M, ctypes.c_bool],
    "nmi": [_M],
    "set": [_M, _U32, _U16],
    "patch": [_M, _U16, _BYTES, _N],
    "input": [_M, _U8],
    "run": [_M, _U32, _P(_Ending)],
    "run_to": [_M, _U16, _U32, _P(_Ending)],
    "call": [_M, _U16, _U32, _P(_Ending)],
    "call_with": [_M, _U16, _U32, _P(_Given), _P(_Called)],
    "access": [_M, _P(_Touch)],
    "run_to_access": [_M, _BYTES, _N, _U32, _P(_Ending)],
    "back": [_M, _U32],
    "held": [_M, _P(_U32)],
    "break": [_M, _U16],
    "unbreak": [_M, _U16],
    "watch": [_M, _U16],
    "unwatch": [_M, _U16],
    "registers": [_M, _P(_Registers)],
    "read": [_M, _U16, _BYTES, _N],
    "output_length": [_M, _P(_U32)],
    "output": [_M, _U32, _BYTES, _N],
    "disassemble": [_M, _U16, _BYTES, _N, _P(_U32)],
}


# The library that a wheel of this package has with it.
_OWN_FILE = os.path.join(os.path.dirname(os.path.abspath(__file__)), "libmos65.so")


def find_library(library: Union[str, "os.PathLike[str]", None] = None) -> Optional[str]:
    """The library's file: the one that is given, that of MOS65_LIBRARY, the one in this package,
    the one in `lib` beside the program's folder, the one in ~/.local, or the system's. None where
    there is none."""
    if library is not None:
        return os.fsdecode(library)
    found = os.environ.get("MOS65_LIBRARY")
    if found:
        return found
    if os.path.isfile(_OWN_FILE):
        return _OWN_FILE
    program = shutil.which("mos65")
    folders = [os.path.dirname(os.path.dirname(os.path.realpath(program)))] if program else []
    for folder in (*folders, os.path.expanduser("~/.local")):
        if os.path.isfile(f"{folder}/lib/libmos65.so"):
            return f"{folder}/lib/libmos65.so"
    return ctypes.util.find_library("mos65")


def fault_of(status: int, told: Optional[_Fault] = None) -> Fault:
    """The fault that a status stands for."""
    if status in _OWN:
        kind, name = _OWN[status]
        return kind(name, status)
    family, number = divmod(status, 100)
    names = _NAMES.get(family, "").split()
    name = names[number - 1] if 0 < number <= len(names) else "OutOfMemory"
    if family == 3:
        return AssemblyFault(name, number, line=told.line if told else None)
    if family == 4:
        return TapeFault(name, number, offset=told.offset if told else None)
    return _CLASSES.get(family, Fault)(name, number)


class Library:
    """The calls of a library, declared as `mos65.h` declares them. Raises Refused: NoLibrary for a
    file that is not the library, Version for one of another version."""

    _loaded: dict = {}

    def __new__(cls, file: str) -> "Library":
        if file not in cls._loaded:
            it = super().__new__(cls)
            it._load(file)
            cls._loaded[file] = it
        return cls._loaded[file]

    def _load(self, file: str) -> None:
        try:
            loaded = ctypes.CDLL(file)
        except OSError as error:
            told = str(error)
            text = told if told.startswith(f"{file}:") else f"{file}: {told}"
            raise Refused("NoLibrary", text=text) from None
        # The version comes first: another one may lack calls.
        for name in _CALLS:
            try:
                self._declare(loaded, name)
            except AttributeError:
                text = f"{file} is not the library of mos65: it has no mos65_{name}"
                raise Refused("NoLibrary", text=text) from None

    def _declare(self, loaded: ctypes.CDLL, name: str) -> None:
        call = getattr(loaded, f"mos65_{name}")
        call.argtypes, call.restype = _CALLS[name], ctypes.c_uint32
        setattr(self, name.rstrip("_"), call)
        if name == "version_number" and call() // 100 != VERSION_NUMBER // 100:
            raise Refused("Version", text=f"the library's version is {call()}")


class Session:
    """A machine by the library, with the same methods as `pipe.Pipe`."""

    def __init__(
        self,
        library: Library,
        config: _Config,
        source: bytes,
        form: str,
        at: Optional[int],
        name: str,
    ) -> None:
        self._lib, self._slot = library, _Slot()
        self._text = config, os.fsencode(name or UNNAMED), source
        self._m = ctypes.byref(self._slot)
        self._regs, self._ending, self._count = _Registers(), _Ending(), _U32()
        self._given, self._called, self._touch = _Given(), _Called(), _Touch()
        self._given_ref, self._called_ref = ctypes.byref(self._given), ctypes.byref(self._called)
        self.source = Source()
        told = _Fault()
        if form == "bin":
            self._check(library.open_bytes(self._m, config, at, source, len(source)))
            return
        if form == "tape":
            self._check(library.open_tape(self._m, config, source, len(source), told), told)
            return
        assembly = _Slot()
        status = library.assemble(assembly, config, source, len(source), told)
        if status:
            fault = fault_of(status, told)
            is_source = isinstance(fault, AssemblyFault)
            raise with_faults(fault, self._notes(library.faults)) if is_source else fault
        try:
            self.source = self._source_of(assembly)
            self._check(library.open(self._m, config, assembly))
        finally:
            library.assembly_close(assembly)

    def _notes(self, call: Any) -> str:
        """What a call tells of the source: all faults, or all warnings."""
        (config, name, source), length = self._text, _N()
        given = config, name, len(name), source, len(source)
        self._check(call(*given, ctypes.create_string_buffer(1), 0, length))
        out = ctypes.create_string_buffer(max(length.value, 1))
        self._check(call(*given, out, length.value, length))
        return out.raw[: length.value].decode("utf-8", "replace")

    def warnings(self) -> str:
        return self._notes(self._lib.warnings)

    def _source_of(self, assembly: _Slot) -> Source:
        found, count, length, number = Source(), _N(), _N(), ctypes.c_int32()
        found.texts = texts_of(self._text[2])
        name, text = (ctypes.create_string_buffer(it) for it in (_NAME, _TEXT))
        line = _Line()
        self._check(self._lib.symbol_count(assembly, count))
        for index in range(count.value):
            self._check(self._lib.symbol_at(assembly, index, name, _NAME, length, number))
            found.symbols[name.raw[: length.value].decode("ascii")] = number.value
        self._check(self._lib.line_count(assembly, count))
        for index in range(count.value):
            self._check(self._lib.line(assembly, index, line, text, _TEXT, length))
            if line.count:
                found.lines.setdefault(line.address, line.number)
        return found

    @staticmethod
    def _check(status: int, told: Optional[_Fault] = None) -> None:
        if status:
            raise fault_of(status, told)

    def close(self) -> None:
        if self._slot.live:
            self._lib.close(self._m)

    def __del__(self) -> None:
        self.close()

    def step(self) -> None:
        self._check(self._lib.step(self._m))

    def reset(self) -> None:
        self._check(self._lib.reset(self._m))

    def irq(self, level: bool) -> None:
        self._check(self._lib.irq(self._m, level))

    def nmi(self) -> None:
        self._check(self._lib.nmi(self._m))

    def set(self, register: str, value: int) -> None:
        self._check(self._lib.set(self._m, _REGISTERS[register], value))

    def send(self, data: bytes) -> None:
        for byte in data:
            self._check(self._lib.input(self._m, byte))

    def write(self, address: int, data: bytes) -> None:
        for at in range(0, len(data), 3):
            some = data[at : at + 3]
            self._check(self._lib.patch(self._m, address + at, some, len(some)))

    def read(self, address: int, count: int) -> bytes:
        out = ctypes.create_string_buffer(max(count, 1))
        self._check(self._lib.read(self._m, address, out, count))
        return out.raw[:count]

    def registers(self) -> Registers:
        r = self._regs
        self._check(self._lib.registers(self._m, r))
        return Registers(r.a, r.x, r.y, r.s, r.p, r.pc, r.cycles)

    def output(self) -> bytes:
        self._check(self._lib.output_length(self._m, self._count))
        count = self._count.value
        out = ctypes.create_string_buffer(max(count, 1))
        self._check(self._lib.output(self._m, 0, out, count))
        return out.raw[:count]

    @staticmethod
    def _end_of(did: int, why_number: int, status: int, address: int, opcode: int) -> RunEnd:
        why = _WHY[why_number]
        if why is Why.LIMIT:
            return RunEnd(did, why)
        if why is not Why.REFUSED:
            return RunEnd(did, why, address)
        fault = fault_of(status).name
        if fault == "Undocumented":
            return RunEnd(did, why, address, opcode, fault)
        return RunEnd(did, why, fault=fault)

    def _end(self) -> RunEnd:
        e = self._ending
        return self._end_of(e.did, e.why, e.status, e.address, e.opcode)

    def run(self, limit: int) -> RunEnd:
        self._check(self._lib.run(self._m, limit, self._ending))
        return self._end()

    def run_to(self, address: int, limit: int) -> RunEnd:
        self._check(self._lib.run_to(self._m, address, limit, self._ending))
        return self._end()

    def call(
        self, address: int, limit: int, a: Optional[int], x: Optional[int], y: Optional[int]
    ) -> Tuple[Optional[RunEnd], int, int, Registers]:
        _GIVEN_FORM.pack_into(
            self._given, 0, a or 0, x or 0, y or 0, a is not None, x is not None, y is not None
        )
        status = self._lib.call_with(self._m, address, limit, self._given_ref, self._called_ref)
        if status:
            raise fault_of(status)
        (cycles, total, pc, a, x, y, s, p, did, why, status, address, opcode) = (
            _CALLED_FORM.unpack_from(self._called)
        )
        fields = {"a": a, "x": x, "y": y, "s": s, "p": p, "pc": pc, "cycles": total}
        end = None
        if why != _BREAK or address != _RETURN:
            end = self._end_of(did, why, status, address, opcode)
        return end, did, cycles, made(Registers, fields)

    def back(self, count: int) -> None:
        self._check(self._lib.back(self._m, count))

    def access(self) -> Access:
        t = self._touch
        self._check(self._lib.access(self._m, t))
        return (t.read if t.reads else None), (t.store if t.stores else None)

    def run_to_access(self, marks: bytes, limit: int) -> RunEnd:
        status = self._lib.run_to_access(self._m, marks, len(marks), limit, self._ending)
        self._check(status)
        return self._end()

    def held(self) -> int:
        self._check(self._lib.held(self._m, self._count))
        return self._count.value

    def set_break(self, address: int) -> None:
        self._check(getattr(self._lib, "break")(self._m, address))

    def clear_break(self, address: int) -> None:
        self._check(self._lib.unbreak(self._m, address))

    def set_watch(self, address: int) -> None:
        self._check(self._lib.watch(self._m, address))

    def clear_watch(self, address: int) -> None:
        self._check(self._lib.unwatch(self._m, address))

    def disassemble(self, address: int) -> Tuple[str, int]:
        out = ctypes.create_string_buffer(13)
        self._check(self._lib.disassemble(self._m, address, out, 13, self._count))
        return out.value.decode("ascii"), self._count.value


def config_of(
    history: int, port: Optional[int], rom: Optional[Tuple[int, int]], profile: str
) -> _Config:
    """A configuration as the library takes it."""
    first, last = rom or (0, 0)
    base = NO_PORT if port is None else port
    return _Config(history, base, first, last, rom is not None, ord(profile))
