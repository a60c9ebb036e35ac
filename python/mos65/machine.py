"""One class for a machine, whichever way leads to it."""

from __future__ import annotations

import functools
import operator
import os
import re
import tempfile
import warnings
import weakref
from contextlib import contextmanager
from dataclasses import replace
from threading import get_ident
from types import TracebackType
from typing import Any, Callable, Dict, Hashable, Iterable, Iterator, List, Optional, Tuple
from typing import Type, TypeVar, Union, cast

from . import events, images, pipe, words
from . import library as by_library
from .devices import Devices, has_entered, steps_to
from .faults import AssemblyFault, DidNotReturn, EventFault, Fault, MapFault, NoSuchName, Refused
from .faults import SessionFault, with_faults
from .request_line import RequestLine
from .values import Call, Registers, RunEnd, Source, Step, Why, made

Place = Union[int, str]
File = Union[str, "os.PathLike[str]"]
Bytes = Union[int, bytes, Iterable[int]]

_CALL_EVENTS = events.CALL_EVENTS
_LIMIT = 1_000_000
_MOST = 0xFFFF_FFFF
_REGISTERS = ("A", "X", "Y", "S", "P", "PC")
_RETURN = 0xFFFF
_BREAK_BIT = 0x10
# A directive behind the labels of a line.
_DIRECTIVE = re.compile(r"\s*(?:\w+\s*:\s*)?\.")


def _number(name: str, shown: str, value: Any, most: int) -> int:
    """A number from 0 to `most`. Raises MapFault of this name for all else."""
    try:
        number = operator.index(value)
    except TypeError:
        raise MapFault(name, text=f"{shown} is no number") from None
    if not 0 <= number <= most:
        raise MapFault(name, text=f"{shown} is not within 0..{most}")
    return number


def _rom_of(rom: Any) -> Optional[Tuple[int, int]]:
    """The first and the last address of ROM, or None. Raises MapFault for all else."""
    if rom is None:
        return None
    shown = f"rom={rom!r:.60}"
    try:
        first, last = rom
    except (TypeError, ValueError):
        raise MapFault("Map", text=f"{shown} is no pair (first address, last address)") from None
    return _number("Map", shown, first, 0xFFFF), _number("Map", shown, last, 0xFFFF)


def _check_profile(profile: Any) -> None:
    if profile not in ("N", "C"):
        raise MapFault("Profile", text=f"profile={profile!r:.60} is neither 'N' nor 'C'")


def _bytes_of(data: Bytes) -> bytes:
    """Bytes, or one byte that is given as a number. Raises Refused for a number that is none."""
    try:
        data = [operator.index(data)]
    except TypeError:
        pass
    try:
        return bytes(data)
    except ValueError:
        raise Refused("Value", text="a byte is 0 to 255") from None


_Call = TypeVar("_Call", bound=Callable[..., Any])


def _in_its_thread(call: _Call) -> _Call:
    """A call of a machine that raises Refused, Thread, in a thread that did not open it."""

    @functools.wraps(call)
    def checked(self: "Machine", *given: Any, **options: Any) -> Any:
        self._needs_thread()
        return call(self, *given, **options)

    return cast(_Call, checked)


class Machine:
    """A 6502 that starts with the image of a source, of a tape or of bytes, and the history of its
    whole states.

    source: a file; or what would be in it, as bytes. A source may have letters of any language in
        its comments, in UTF-8, and a byte-order mark at its start
    form: "source", "tape", "hex" for Intel HEX, "srec" for S-records, "prg", or "bin" for bytes
        alone. If it is not given the file's ending tells it, as .hex, .s19 and .prg; with no such
        ending it is a tape if it begins with a whole and right record of one, and else a source
    tape: True for the form "tape", False for "source"
    at: the address of the first byte, for the form "bin"
    symbols: a file of names for an image: a source, or what `asm --symbols`, VICE, ld65 or 64tass
        write
    history: how many events can be gone back over, 0 to 65,536
    port: the first of the console's four addresses, or None for a machine without a console
    rom: the first and the last address that stores leave as they are
    profile: "N" or "C", which has 19 opcodes more
    library: True for the library, False for the program, None for the library where it is found;
        or the library's file
    program: the program's file, where it is not `mos65` on the PATH. It reads Intel HEX, S-records,
        PRG files and files of names, also for a machine by the library. It is asked for its
        version once, which tells whether it is mos65
    timeout: how many seconds the program may take for a reply

    `symbols` has the names with their numbers, `lines` the line of each address at which one of the
    source with bytes begins. An image has no lines. Names that no source can have are left out,
    and so are further names of an address in a file of VICE or ld65; a Python warning counts them.

    Raises FileNotFoundError, or another OSError, where the file cannot be read; AssemblyFault,
    TapeFault and ImageFault for what is in it; MapFault where history, port, ROM or profile are
    none; SessionFault, PortAddress, where an image has a byte at the port; Refused where bytes go
    past 0xFFFF, two forms are said, or a source is given names; Refused, NoLibrary, where no
    library is found or the file is none of mos65; Fault, OutOfMemory; EngineDied, NoProgram, where
    there is no program or it is none of mos65; EngineDied where it ends; Timeout.

    A machine is used by the thread that opened it: in another one each call that asks it something
    or changes it raises Refused, Thread, and nothing is changed. Names and lines are for all. A
    lock around each call would not do: threads that write, call and read would do so between each
    other's calls, and a machine of the library stays on its thread (`mos65.h`).

    Every call raises Closed once the machine is closed, and over the pipe EngineDied where the
    program has ended and Timeout where it does not answer. The calls name what they raise beside
    these.
    """

    open_machines: "weakref.WeakSet[Machine]" = weakref.WeakSet()
    # What is called with each machine before it is closed.
    closing: List[Callable[["Machine"], None]] = []

    def __init__(
        self,
        source: Union[File, bytes],
        *,
        form: Optional[str] = None,
        tape: Optional[bool] = None,
        at: Optional[int] = None,
        symbols: Optional[File] = None,
        history: int = 1024,
        port: Optional[int] = 0xF000,
        rom: Optional[Tuple[int, int]] = None,
        profile: str = "N",
        library: Union[bool, File, None] = None,
        program: Optional[File] = None,
        timeout: float = 10.0,
    ) -> None:
        self._thread = get_ident()
        _check_profile(profile)
        history, rom = _number("History", f"history={history!r:.60}", history, 65536), _rom_of(rom)
        if port is not None:
            port = _number("Map", f"port={port!r:.60}", port, 0xFFFF)
        self.port, self.history, self._name = port, history, ""
        self._program = program
        source, form = self._read(source, form, tape, at)
        if symbols is not None and form == "source":
            raise Refused("Words", text="a source has its own names")
        # What a copy is opened with.
        self._opening = source, {
            "form": form,
            "at": at,
            "history": history,
            "port": port,
            "rom": rom,
            "profile": profile,
            "library": library,
            "program": program,
            "timeout": timeout,
        }
        names = None if symbols is None else self._names_of(symbols)
        found = self._open()
        self.symbols: Dict[str, int] = found.symbols if names is None else names
        self.lines: Dict[int, int] = found.lines
        self._texts = found.texts
        self._events = events.Events()
        self._devices = Devices(self._way, self._events, history)
        self._breaks: List[int] = self._devices.breaks
        self._watches: List[int] = []
        self._request = RequestLine()
        Machine.open_machines.add(self)

    def _needs_thread(self) -> None:
        """Raises Refused in a thread that did not open the machine. Calls that a rig makes most begin
        with it, which takes less than `_in_its_thread`."""
        if get_ident() != self._thread:
            text = "a machine is used by the thread that opened it, and this is another one"
            raise Refused("Thread", text=text)

    def _mos65(self) -> str:
        return words.find_program(self._program)

    def _read(
        self, source: Any, form: Optional[str], tape: Optional[bool], at: Optional[int]
    ) -> Tuple[bytes, str]:
        """What the source or the image has, and its form. HEX, S-records and PRG become a tape."""
        if not isinstance(source, bytes):
            self._name = os.fspath(source)
            with open(source, "rb") as it:
                source = it.read()
        form = images.form_of(self._name, source, form, tape, at)
        if form not in images.CONVERTED:
            return source, form
        return words.converted(self._mos65(), source, form), "tape"

    def _open(self) -> Source:
        """Opens the machine by the library or the program, as `library` says."""
        library, file = self._opening[1]["library"], None
        if library is not False:
            file = by_library.find_library(None if library is True else library)
            if library is True and not file:
                raise Refused("NoLibrary", text="libmos65.so is not found")
        self.is_library = file is not None
        try:
            return self._open_pipe() if file is None else self._open_library(file)
        except SessionFault as fault:
            if fault.name != "PortAddress":
                raise
            first = 0 if self.port is None else self.port
            text = f"the image has a byte at ${first:04X}-${first + 3:04X}"
            text += "; port= moves the console, and port=None leaves it out"
            raise SessionFault(fault.name, fault.number, text=text) from None

    def _open_library(self, file: str) -> Source:
        source, options = self._opening
        form, at = options["form"], options["at"]
        config = by_library.config_of(self.history, self.port, options["rom"], options["profile"])
        library = by_library.Library(file)
        self._way: Any = by_library.Session(library, config, source, form, at, self._name)
        return self._way.source

    def _map_options(self) -> List[str]:
        """The port and the profile as the program's words take them."""
        port = "none" if self.port is None else f"{self.port:04X}"
        return [f"--port={port}", f"--profile={self._opening[1]['profile']}"]

    def _open_pipe(self) -> Source:
        source, options = self._opening
        program, form, rom = self._mos65(), options["form"], options["rom"]
        given = [f"--history={self.history}", *self._map_options()]
        given += [f"--rom={rom[0]:04X}-{rom[1]:04X}"] if rom else []
        given += {"tape": ["--tape"], "bin": [f"--bin={options['at'] or 0:04X}"]}.get(form, [])
        told = Source()
        with tempfile.TemporaryDirectory() as folder:
            path = os.path.join(folder, words.UNNAMED)
            with open(path, "wb") as it:
                it.write(source)
            if form == "source":
                # `debug` takes no letters in comments, so it gets the tape.
                told = self._source_of(program, folder)
                path, given = os.path.join(folder, "tape"), [*given, "--tape"]
            self._way = pipe.Pipe(program, [path, *given], options["timeout"])
        return told

    def _source_of(self, program: str, folder: str) -> Source:
        try:
            return words.source_of(program, folder, self._map_options())
        except AssemblyFault as fault:
            raise with_faults(fault, self._checked(program)) from None

    def _checked(self, program: str) -> str:
        return words.checked(program, self._name, self._opening[0], self._map_options())

    def _names_of(self, symbols: File) -> Dict[str, int]:
        with open(symbols, "rb"):
            pass
        found, left_out = words.names_of(self._mos65(), os.fspath(symbols))
        if left_out:
            warnings.warn(f"{os.fspath(symbols)}: names left out: {left_out}", stacklevel=3)
        return found

    # ---- opening and closing

    def __enter__(self) -> "Machine":
        return self

    def __exit__(
        self,
        kind: Optional[Type[BaseException]],
        value: Optional[BaseException],
        trace: Optional[TracebackType],
    ) -> None:
        self.close()

    @_in_its_thread
    def close(self) -> None:
        """Closes the machine. Each later call raises Closed; a second close does nothing."""
        if self in Machine.open_machines:
            for call in Machine.closing:
                call(self)
        Machine.open_machines.discard(self)
        self._way.close()

    @_in_its_thread
    def copy(self) -> "Machine":
        """A second machine in the same state, with the same history, breakpoints and watches.

        It is opened anew and makes all events that this one has made since its start, except those
        that were gone back over. So it takes as long as these took, and what it holds is what this
        machine holds. Devices and what `at` was told stay with this machine.

        Raises Refused, TooMany, where this machine has made more than 100,000 calls, writes and
        signals that were not gone back over; and what a new machine raises.
        """
        other = self._reopened()
        try:
            events.make_all(other._way, self._events.runs)
            other._events.take(self._events)
            other._request.take(self._request)
            for place in self._breaks:
                other.break_at(place)
            for place in self._watches:
                other.watch(place)
        except BaseException:
            other.close()
            raise
        return other

    def _reopened(self) -> "Machine":
        """A second machine at the start, for the events of this one."""
        self._way.registers()
        self._needs_rest()
        if not self._events.is_whole:
            raise Refused("TooMany", text="the first events are no longer known")
        source, options = self._opening
        other = Machine(source, **options)
        other.symbols, other._name = self.symbols, self._name
        return other

    # ---- places

    def address(self, place: Place) -> int:
        """The address that a name or a number stands for.

        Raises NoSuchName, or Refused outside 0..0xFFFF. So does each call that takes a place.
        """
        if isinstance(place, str):
            if place not in self.symbols:
                raise NoSuchName("NoSuchName", 4, text=place)
            place = self.symbols[place]
        if not 0 <= place <= 0xFFFF:
            raise Refused("Address", text=hex(place))
        return place

    def _range(self, place: Place, count: int) -> int:
        address = self.address(place)
        if address + count > 0x10000:
            raise EventFault("PastEnd", 4, text=f"{count} bytes from ${address:04X} on")
        return address

    # ---- memory and registers

    @property
    def registers(self) -> Registers:
        """The registers, and the cycles since the start."""
        self._needs_thread()
        return self._way.registers()

    @property
    def cycles(self) -> int:
        """The cycles since the start, whose reset took 7."""
        self._needs_thread()
        return self._way.registers().cycles

    @_in_its_thread
    def set(self, **values: int) -> None:
        """Sets registers: a, x, y, s and p to a byte, pc to a place. Each is an event.

        Raises Refused for another register or a value that is no byte; nothing is set then.
        """
        found = []
        for name, value in values.items():
            register = name.upper()
            if register not in _REGISTERS:
                raise Refused("Register", text=name)
            if register == "PC":
                value = self.address(value)
            else:
                self._byte(register, value)
            found.append((register, value))
        for it in found:
            self._make("set", it, 1)

    def _make(self, kind: str, value: object, count: int) -> None:
        """Makes events, and notes them."""
        if self._devices.moment is not None:
            self._devices.make((kind, value, count))
            return
        events.make(self._way, (kind, value, count))
        self._events.note(kind, value, count)

    @staticmethod
    def _byte(register: str, value: int) -> int:
        """One event, unless the value is no byte."""
        if not 0 <= value <= 0xFF:
            raise Refused("Value", text=f"{register}={value}")
        return 1

    def read(self, place: Place, count: int = 1) -> bytes:
        """Bytes of memory, 0 at the port. Nothing is changed.

        Raises EventFault, PastEnd, where they go past 0xFFFF; Refused for a count below 0.
        """
        self._needs_thread()
        if count < 0:
            raise Refused("Count", text=str(count))
        return self._way.read(self._range(place, count), count)

    def write(self, place: Place, data: Bytes) -> int:
        """Puts bytes into memory, or one byte that is given as a number; into ROM too. Returns how
        many events that were: one for each three bytes.

        Raises EventFault, PastEnd where they go past 0xFFFF and PortAddress where one stands at
        the port; Refused for a number that is no byte. Nothing is changed then.
        """
        self._needs_thread()
        data = _bytes_of(data)
        address = self._range(place, len(data))
        port = self.port
        if port is not None and data and address < port + 4 and port < address + len(data):
            raise EventFault("PortAddress", 5, text=f"${port:04X}")
        count = (len(data) + 2) // 3
        self._make("write", (address, data), count)
        return count

    def word(self, place: Place) -> int:
        """The two bytes from a place on, the low one first. Raises what `read` raises."""
        return int.from_bytes(self.read(place, 2), "little")

    def set_word(self, place: Place, value: int) -> int:
        """Puts a word into memory, the low byte first. Returns how many events that were, 1.

        Raises what `write` raises, and Refused outside 0..0xFFFF.
        """
        if not 0 <= value <= 0xFFFF:
            raise Refused("Value", text=hex(value))
        return self.write(place, value.to_bytes(2, "little"))

    def __getitem__(self, place: Union[Place, slice]) -> Union[int, bytes]:
        """`m[place]` is a byte of memory, `m[first:end]` the bytes from first up to end - 1."""
        if isinstance(place, slice):
            first, count = self._span(place)
            return self.read(first, count) if count else b""
        return self.read(place)[0]

    def __setitem__(self, place: Union[Place, slice], data: Bytes) -> None:
        """Does what `write` does. Raises Refused, Count, where a byte is given more bytes than one,
        or a slice has another number of bytes."""
        first, count = self._span(place) if isinstance(place, slice) else (place, 1)
        data = _bytes_of(data)
        if len(data) != count:
            raise Refused("Count", text=f"{len(data)} bytes for {count}")
        if count:
            self.write(first, data)

    # A machine is no sequence, whose end could be found by looking at each place.
    __iter__ = None
    __contains__ = None

    def _span(self, places: slice) -> Tuple[int, int]:
        """The first address of a slice, and how many bytes it has."""
        if places.step is not None:
            raise Refused("Range", text=str(places))
        first = 0 if places.start is None else self.address(places.start)
        end = 0x10000 if places.stop is None else places.stop
        if end != 0x10000:
            end = self.address(end)
        if end < first:
            raise Refused("Range", text=f"${first:04X} to ${end:04X}")
        return first, end - first

    @_in_its_thread
    def disassemble(self, place: Place, count: int = 1) -> List[Tuple[int, str]]:
        """The address and the text of so many instructions, or up to 0xFFFF."""
        address, rows = self.address(place), []
        for _ in range(count):
            text, length = self._way.disassemble(address)
            rows.append((address, text))
            address += length
            if address > 0xFFFF:
                break
        return rows

    # ---- the console and the signals

    @property
    @_in_its_thread
    def output(self) -> bytes:
        """All bytes that the program has put out."""
        return self._way.output()

    @_in_its_thread
    def send(self, data: Bytes) -> None:
        """Hands in input, bytes or one byte that is given as a number, one event for each byte.

        Raises EventFault, InputFull, at the first byte for which there is no room; those before it
        were handed in. Raises Refused for a number that is no byte.
        """
        for byte in _bytes_of(data):
            self._make("send", bytes([byte]), 1)

    @_in_its_thread
    def reset(self) -> None:
        """Resets the machine, which takes 7 cycles. Raises EventFault, CyclesFull."""
        self._make("reset", None, 1)

    @_in_its_thread
    def irq(self, level: bool, at: Optional[int] = None, *, by: Hashable = None) -> None:
        """Asks for an IRQ, or no longer, now or at a cycle, as `at` says; one event.

        The line is 1 while anybody asks: each device says its own name or itself by `by`, and
        those that say none are one. Raises Refused as `at` does.
        """
        if at is not None:
            self.at(at, lambda: self.irq(level, by=by))
            return
        asking = self._request.after(level, by)
        self._make("irq", bool(asking), 1)
        self._request.note(self.event_number, asking, self.history)

    @_in_its_thread
    def nmi(self, at: Optional[int] = None) -> None:
        """Signals an NMI, now or at a cycle, as `at` says. Raises Refused as `at` does."""
        if at is not None:
            self.at(at, self.nmi)
            return
        self._make("nmi", None, 1)

    # ---- devices

    @property
    @_in_its_thread
    def event_number(self) -> int:
        """How many events have led here from the start.

        While a device is at work, it is the number of the event that the work belongs to: the step
        that reads or stores, or the first after what happens at a cycle.
        """
        moment = self._devices.moment
        return self._events.number if moment is None else moment

    @_in_its_thread
    def at(self, cycle: int, call: Callable[[], None]) -> None:
        """Calls `call` at a cycle: before the first step that begins when so many have passed.

        It is called once, by whatever run, step or call of the machine comes there, and again
        where the machine went back before it. Raises Refused for a cycle below 0.
        """
        if cycle < 0:
            raise Refused("Cycle", text=str(cycle))
        self._devices.at(cycle, call)

    @_in_its_thread
    def on_read(self, first: Place, last: Place, call: Callable[[int], int]) -> None:
        """Has a device give what an instruction reads at first..last: `call(address)` before it.

        The byte is put into memory by a write, one event before the step. Only the operand of an
        instruction counts: not its own bytes, nor pointers, the stack and vectors. A read-modify-
        write instruction reads and stores. `call` may look at the machine, change it by events,
        which come after the step, and say what happens `at` a cycle. It may not move the machine.

        Raises Refused: Range where last is below first, Port where the console's port is there,
        Taken where another device is, History where the machine holds none.
        """
        if self.history == 0:
            raise Refused("History", text="a device needs a history of one event")
        self._devices.place(self._device_range(first, last), call, None)

    @_in_its_thread
    def on_write(self, first: Place, last: Place, call: Callable[[int, int], None]) -> None:
        """Has a device take what an instruction stores at first..last.

        `call(address, byte)` comes after it, and the byte is in memory then. What is pushed is no
        store. `call` may do what that of `on_read` may, and its events come at once. Raises
        Refused as `on_read` does, but History; and Rom where ROM is there.
        """
        places = self._device_range(first, last)
        rom = self._opening[1]["rom"]
        if rom and places[0] <= rom[1] and rom[0] <= places[-1]:
            raise Refused("Rom", text=f"${rom[0]:04X}..${rom[1]:04X}")
        self._devices.place(places, None, call)

    @_in_its_thread
    def on_reach(self, place: Place, call: Callable[[], None]) -> None:
        """Has `call()` made before each step that begins at a place, also where an interrupt comes
        in that step's place. It takes one of the 256 breakpoints.

        `call` may do what that of `on_write` may, and its events come before the step. Where it
        moves PC, as by `rts`, the run goes on there, and stops where a breakpoint is. Raises
        Refused: Taken where something is called already, History where the machine holds none,
        Busy where a device asks; SessionFault, TableFull.
        """
        address = self.address(place)
        self._needs_rest()
        if self.history == 0:
            raise Refused("History", text="a call at a place needs a history of one event")
        self._devices.place_reach(address, call)

    def rts(self) -> None:
        """Does what an RTS does, by events: pulls PC. For what `on_reach` calls in place of a
        subroutine. It takes no cycles."""
        s = self.registers.s
        low, high = (self.read(0x100 + (s + it) % 256)[0] for it in (1, 2))
        self.set(s=(s + 2) % 256, pc=(low + 256 * high + 1) % 0x10000)

    @_in_its_thread
    def on_back(self, call: Callable[[int], None]) -> None:
        """Tells a device where the machine went back to: `call(event_number)` after each `back`.

        What the device has done for events above that number has not happened then.
        """
        self._devices.on_back(call)

    def _device_range(self, first: Place, last: Place) -> range:
        places = range(self.address(first), self.address(last) + 1)
        if not places:
            raise Refused("Range", text=f"{first}..{last}")
        if self.port is not None and places[0] < self.port + 4 and self.port <= places[-1]:
            raise Refused("Port", text=f"${self.port:04X}")
        return places

    def _needs_rest(self) -> None:
        """Raises Refused where a device is at work."""
        if self._devices.moment is not None:
            raise Refused("Busy", text="a device cannot move the machine")

    # ---- running

    def step(self) -> Registers:
        """Makes one step, and returns the registers after it.

        Raises EventFault where it is refused: Undocumented, ConsoleFull, CyclesFull. As all that
        moves the machine, it raises Refused, Busy, where a device calls it.
        """
        self._needs_thread()
        self._needs_rest()
        if not self._devices.is_used or self._devices.step().why is Why.REFUSED:
            self._make("step", None, 1)
        return self._way.registers()

    @_in_its_thread
    def run(self, limit: int = _LIMIT) -> RunEnd:
        """Runs up to `limit` steps: to a watch, a breakpoint, or a step that is refused.

        Raises Refused for a limit outside 0..0xFFFFFFFF.
        """
        return self._run(self._limit(limit))

    @_in_its_thread
    def run_to(self, place: Place, limit: int = _LIMIT) -> RunEnd:
        """Runs as `run` does, and stops at a place too.

        Raises SessionFault, TableFull, where 256 other breakpoints are set; Refused as `run` does.
        """
        address, limit = self.address(place), self._limit(limit)
        if self._devices.is_used:
            with self._stop_at(address):
                return self._run(limit)
        end = self._way.run_to(address, limit)
        self._events.note("step", None, end.steps)
        return end

    @_in_its_thread
    def run_until_cycle(self, cycle: int) -> RunEnd:
        """Runs up to the end of the first step after which so many cycles have passed.

        The run ends before at a watch, a breakpoint, or a step that is refused; else its `why` is
        LIMIT. Raises Refused for a cycle below 0.
        """
        if cycle < 0:
            raise Refused("Cycle", text=str(cycle))
        steps = 0
        while (left := cycle - self.cycles) > 0:
            end = self._run(min(steps_to(left), _MOST))
            steps += end.steps
            if end.why is not Why.LIMIT:
                return replace(end, steps=steps)
        return RunEnd(steps, Why.LIMIT)

    def _run(self, limit: int) -> RunEnd:
        if self._devices.is_used:
            self._needs_rest()
            return self._devices.run(limit)
        end = self._way.run(limit)
        self._events.note("step", None, end.steps)
        return end

    @contextmanager
    def _stop_at(self, address: int) -> Iterator[None]:
        """Sets a breakpoint for one run; one that was set before stays."""
        self._needs_rest()
        is_set = address in self._breaks or self._devices.is_reach(address)
        if not is_set:
            self._way.set_break(address)
        self._devices.until = address
        try:
            yield
        finally:
            self._devices.until = None
            if not is_set:
                self._way.clear_break(address)

    def call(
        self,
        place: Place,
        *,
        limit: int = _LIMIT,
        a: Optional[int] = None,
        x: Optional[int] = None,
        y: Optional[int] = None,
        interrupt: bool = False,
    ) -> Call:
        """Calls a subroutine as a JSR at $FFFC would, and runs to its RTS, after which the stack
        pointer is what it was.

        a, x, y: the registers that the routine is called with
        interrupt: enters a handler as an IRQ at $FFFF would, which pushes PC and P and sets I, and
            runs to its RTI; the 7 cycles of the entry are not counted

        Raises DidNotReturn where it does not come to its end within `limit` steps, and the machine
        stands where it stopped. Raises SessionFault, TableFull, where 256 breakpoints are set, and
        Refused for a value that is no byte or a limit as `run` does; nothing is changed then.
        """
        self._needs_thread()
        address = self.address(place)
        given = 0
        if a is not None:
            given += self._byte("A", a)
        if x is not None:
            given += self._byte("X", x)
        if y is not None:
            given += self._byte("Y", y)
        limit, number = self._limit(limit), self._events.number
        if interrupt or self._devices.is_used:
            ready = self._ready(address, a, x, y, interrupt)
            end, steps, cycles, after = self._call_by_events(ready, limit)
        else:
            end, steps, cycles, after = self._way.call(address, limit, a, x, y)
            self._events.note("call", (address, a, x, y), given + _CALL_EVENTS + steps)
        count = self._events.number - number
        if end is not None:
            raise DidNotReturn(str(place), end, count, self._told_of(end))
        return made(Call, {"registers": after, "cycles": cycles, "steps": steps, "events": count})

    def _ready(self, address, a, x, y, interrupt) -> List[events.Run]:
        if not interrupt:
            return events.calling(address, a, x, y)
        is_c = self._opening[1]["profile"] == "C"
        return events.interrupting(address, a, x, y, self.registers.p, is_c)

    def _call_by_events(
        self, ready: List[events.Run], limit: int
    ) -> Tuple[Optional[RunEnd], int, int, Registers]:
        with self._stop_at(_RETURN):
            for it in ready:
                self._make(*it)
            before = self.cycles
            end = self._run(limit)
        after = self._way.registers()
        is_back = end.why is Why.BREAK and end.address == _RETURN
        return None if is_back else end, end.steps, after.cycles - before, after

    def _told_of(self, end: RunEnd) -> str:
        """Why a call did not return, in words."""
        here = self.where(self.registers.pc)
        if end.why is Why.LIMIT:
            return f"no return in {end.steps} steps; then at {here}"
        if end.why is Why.BREAK:
            return f"stopped at the breakpoint {here}, after {end.steps} steps"
        if end.why is Why.WATCH:
            return f"${end.address:04X} changed after {end.steps} steps; then at {here}"
        opcode = "" if end.opcode is None else f" ${end.opcode:02X}"
        return f"stopped at {here} after {end.steps} steps: {end.fault}{opcode}"

    @staticmethod
    def _limit(limit: int) -> int:
        if not 0 <= limit <= _MOST:
            raise Refused("Limit", text=str(limit))
        return limit

    def back(self, count: int = 1) -> None:
        """Goes back over the last `count` events; over none, where it is 0.

        Raises SessionFault, NoHistory, where fewer are held; Refused outside 0..0xFFFFFFFF.
        """
        self._needs_thread()
        if not 0 <= count <= _MOST:
            raise Refused("Count", text=str(count))
        self._needs_rest()
        self._way.back(count)
        self._events.undo(count)
        self._request.went_back(self._events.number)
        if count and self._devices.is_used:
            self._devices.went_back()

    @property
    @_in_its_thread
    def held(self) -> int:
        """How many events can be gone back over."""
        return self._way.held()

    @_in_its_thread
    def break_at(self, place: Place) -> None:
        """Sets a breakpoint. Raises SessionFault: AlreadySet, TableFull."""
        address = self.address(place)
        if not self._devices.is_reach(address):
            self._way.set_break(address)
        elif address in self._breaks:
            raise SessionFault("AlreadySet", 3)
        self._breaks.append(address)

    @_in_its_thread
    def clear_break(self, place: Place) -> None:
        """Clears a breakpoint. Raises SessionFault: NotSet."""
        address = self.address(place)
        if not self._devices.is_reach(address):
            self._way.clear_break(address)
        elif address not in self._breaks:
            raise SessionFault("NotSet", 4)
        self._breaks.remove(address)

    @_in_its_thread
    def watch(self, place: Place) -> None:
        """Sets a watch: a run stops after a step that changes this byte.

        A store of the byte that is there already is no change.
        Raises SessionFault: PortAddress, AlreadySet, TableFull.
        """
        address = self.address(place)
        self._way.set_watch(address)
        self._watches.append(address)

    @_in_its_thread
    def clear_watch(self, place: Place) -> None:
        """Clears a watch. Raises SessionFault: NotSet."""
        address = self.address(place)
        self._way.clear_watch(address)
        self._watches.remove(address)

    # ---- looking back

    def __repr__(self) -> str:
        try:
            r = self.registers
        except Fault as fault:
            return f"<mos65.Machine: {fault.name}>"
        state = f"A={r.a:02X} X={r.x:02X} Y={r.y:02X} S={r.s:02X} {r.flags}"
        return f"<mos65.Machine {state} PC={self.where(r.pc)[1:]} cycle {r.cycles}>"

    def where(self, place: Place) -> str:
        """A place in words: its address, the name there or up to 63 bytes before it, and its line.
        As `$0206 next+2, multiply.a65:6`."""
        address = self.address(place)
        shown, line = f"${address:04X}", self.lines.get(address)
        names = [it for it in self.symbols.items() if not self.lines or it[1] in self.lines]
        near = [(address - number, name) for name, number in names if 0 <= address - number < 64]
        if near:
            offset, name = min(near)
            shown += f" {name}+{offset}" if offset else f" {name}"
        file = f"{self._name}:" if self._name else "line "
        return shown if line is None else f"{shown}, {file}{line}"

    @_in_its_thread
    def warnings(self) -> str:
        """The warnings of the source as `mos65 check` prints them, an empty text where there is
        none; of an image none is known."""
        self._way.registers()
        if self._opening[1]["form"] != "source":
            return ""
        if self.is_library:
            return self._way.warnings()
        return self._checked(self._mos65())

    def line(self, place: Place) -> Optional[Tuple[int, str]]:
        """The line of the source that begins at a place, counted from 1, and its text."""
        number = self.lines.get(self.address(place))
        return None if number is None else (number, self._texts[number - 1])

    @_in_its_thread
    def last_steps(self, count: int = 20) -> List[Step]:
        """The last steps, the oldest first, as many as are held.

        The machine goes back over them and makes the same events again, so its state and its
        history stay what they are. Raises Refused: Count for a count below 0, Busy where a device
        calls it.
        """
        if count < 0:
            raise Refused("Count", text=str(count))
        self._needs_rest()
        rest = self._events.with_steps(count, self._way.held())
        rest.reverse()
        found: List[Step] = []
        self._way.back(sum(it[2] for it in rest))
        try:
            while rest:
                kind, value, some = rest[-1]
                if kind != "step":
                    events.make(self._way, rest.pop())
                    continue
                found.append(self._shown_step(rest))
        finally:
            while rest:
                events.make(self._way, rest.pop())
        return found

    @_in_its_thread
    def coverage(self) -> Dict[int, int]:
        """How often a step began at the instruction of each line of the source: the numbers of the
        lines that have one, counted from 1, with their counts.

        All steps since the start count that were not gone back over, those of calls too, and no
        interrupt's entry. The events are made again on a machine of its own, a step at a time, so
        it takes longer than they took. Raises what `copy` raises.
        """
        counts = {self.lines[it]: 0 for it in self.lines if not self._is_data(self.lines[it])}
        with self._reopened() as other:
            # It is no machine of the user's, of which a test that fails shows steps.
            Machine.open_machines.discard(other)
            for run in self._events.runs:
                for it in events.parts(run):
                    if it[0] != "step":
                        events.make(other._way, it)
                        continue
                    for _ in range(it[2]):
                        other._count_step(counts)
        return counts

    def _is_data(self, line: int) -> bool:
        """Whether a line of the source with bytes is a directive."""
        return _DIRECTIVE.match(self._texts[line - 1]) is not None

    def _count_step(self, counts: Dict[int, int]) -> None:
        """Makes a step, and counts it if it begins at the instruction of a line."""
        before = self._way.registers()
        events.make(self._way, ("step", None, 1))
        line = self.lines.get(before.pc)
        if line in counts and not self._has_entered(before, "BRK"):
            counts[line] += 1

    def _shown_step(self, rest: List[events.Run]) -> Step:
        """Makes the first step of what is left, and shows it."""
        before = self._way.registers()
        text = self._way.disassemble(before.pc)[0]
        events.make(self._way, ("step", None, 1))
        _, _, some = rest.pop()
        if some > 1:
            rest.append(("step", None, some - 1))
        if self._has_entered(before, text):
            return Step(before, "interrupt", None, None)
        return Step(before, text, *(self.line(before.pc) or (None, None)))

    def _has_entered(self, before: Registers, text: str) -> bool:
        """Whether the last step was an interrupt's entry in place of an instruction.

        BRK sets bit 4 of the status that is pushed last, and an entry clears it.
        """
        after = self._way.registers()
        if text != "BRK" or not has_entered(before, after):
            return has_entered(before, after)
        return not self._way.read(0x100 + (after.s + 1) % 256, 1)[0] & _BREAK_BIT
