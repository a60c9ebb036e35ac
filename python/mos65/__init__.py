"""Drives mos65, an NMOS 6502 with a history of its whole states, from test rigs.

    import mos65

    with mos65.Machine("multiply.a65") as m:
        m.write(0x10, bytes([200, 123]))
        result = m.call("multiply")
        assert m.read(0x12, 2) == b"\\x18\\x60" and result.cycles < 200

Addresses are numbers 0 to 0xFFFF or names of the source. Cycles are those of the chip. A machine
is reached by the library `libmos65.so` where it is found, and else through a pipe to the program
`mos65 debug`; both answer alike.
"""

from .devices import Device
from .faults import (
    AssemblyFault,
    Closed,
    DidNotReturn,
    EngineDied,
    EventFault,
    Fault,
    ImageFault,
    MapFault,
    NoSuchName,
    Refused,
    SessionFault,
    TapeFault,
    Timeout,
)
from .machine import Machine
from .values import Call, Registers, RunEnd, Step, Why

__all__ = [
    "AssemblyFault",
    "Call",
    "Closed",
    "Device",
    "DidNotReturn",
    "EngineDied",
    "EventFault",
    "Fault",
    "ImageFault",
    "Machine",
    "MapFault",
    "NoSuchName",
    "Refused",
    "Registers",
    "RunEnd",
    "SessionFault",
    "Step",
    "TapeFault",
    "Timeout",
    "Why",
]
__version__ = "0.1.0"
