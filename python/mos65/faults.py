"""Why a call is refused: one class for each part of mos65 that refuses."""

from __future__ import annotations

from typing import Optional


class Fault(Exception):
    """A refusal. Nothing was changed by the call that raised it, except where the call says so.

    name: the fault's name, as mos65 prints it
    number: its number among the faults of its class, None where it has none
    line: the line of a source, counted from 1, else None
    offset: the byte of a tape, counted from 0, else None
    faults: all faults of a source as `mos65 check` prints them, else an empty text

    A Fault of no other class says that memory was refused: its name is OutOfMemory.
    """

    def __init__(
        self,
        name: str,
        number: Optional[int] = None,
        *,
        line: Optional[int] = None,
        offset: Optional[int] = None,
        text: str = "",
        faults: str = "",
    ) -> None:
        self.name, self.number, self.line, self.offset = name, number, line, offset
        self.faults = faults
        where = "" if line is None else f"line {line}: "
        if offset is not None:
            where = f"byte {offset}: "
        told = name if number is None else f"{name} ({number})"
        shown = f"\n{faults.rstrip()}" if faults else ""
        super().__init__(f"{where}{told}{text and ': '}{text}{shown}")


class AssemblyFault(Fault):
    """A source is refused, at a line."""


def with_faults(fault: Fault, faults: str) -> AssemblyFault:
    """The same fault of a source, with the text of all faults."""
    return AssemblyFault(fault.name, fault.number, line=fault.line, faults=faults)


class TapeFault(Fault):
    """A tape is refused, at an offset."""


class ImageFault(Fault):
    """An image in another form is refused, at a line and a column, both counted from 1."""

    def __init__(
        self,
        name: str,
        number: Optional[int] = None,
        *,
        line: Optional[int] = None,
        column: Optional[int] = None,
        text: str = "",
    ) -> None:
        self.column = column
        super().__init__(name, number, line=line, text=text)


class MapFault(Fault):
    """Port, ROM, history or profile are none that a machine can have."""


class EventFault(Fault):
    """A step, a reset, a patch or a byte of input is refused."""


class SessionFault(Fault):
    """Going back, a breakpoint or a watch is refused; or an image has a byte at the port."""


class NoSuchName(Fault):
    """The source defines no such name."""


class Closed(Fault):
    """The machine is closed."""


class Refused(Fault):
    """An argument is out of its range, or a call is made where it cannot be."""


class DidNotReturn(Fault):
    """A called subroutine did not come to its end. The machine stands where its run ended.

    end: how that run ended
    events: how many events `back` goes over to undo the call
    """

    def __init__(self, where: str, end: object, events: int = 0, told: str = "") -> None:
        super().__init__("DidNotReturn", text=f"{where}: {told or end}")
        self.end, self.events = end, events


class EngineDied(Fault):
    """The program at the other end of the pipe has ended, or answered what it never answers."""


class Timeout(EngineDied):
    """The program did not answer in time, and was killed."""
