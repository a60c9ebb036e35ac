"""What a machine tells."""

from __future__ import annotations

import enum
import re
from dataclasses import dataclass, field
from typing import Dict, List, Optional


def made(kind, fields):
    """A frozen value with these fields.

    A call of the class sets each by itself, which takes twice as long.
    """
    it = object.__new__(kind)
    object.__setattr__(it, "__dict__", fields)
    return it


@dataclass
class Source:
    """The names of a source with their numbers, the line of each address at which one with bytes
    begins, and each line's text."""

    symbols: Dict[str, int] = field(default_factory=dict)
    lines: Dict[int, int] = field(default_factory=dict)
    texts: List[str] = field(default_factory=list)


def texts_of(source: bytes) -> List[str]:
    """The texts of a source's lines, without the byte-order marks at its start."""
    return re.split("\r\n|\r|\n", source.decode("utf-8", "replace").lstrip("\ufeff"))


class Why(enum.Enum):
    """Why a run ended."""

    LIMIT = "limit"
    BREAK = "breakpoint"
    WATCH = "watch"
    REFUSED = "refused"


@dataclass(frozen=True)
class Registers:
    """The registers, and the cycles since the start, whose reset took 7."""

    a: int
    x: int
    y: int
    s: int
    p: int
    pc: int
    cycles: int

    @property
    def flags(self) -> str:
        """The flags as letters, a capital for 1, as `nv-bdIzc`."""
        bits = zip("NV-BDIZC", (0x80, 0x40, 0, 0, 0x08, 0x04, 0x02, 0x01))
        return "".join(letter if self.p & bit else letter.lower() for letter, bit in bits)

    @property
    def n(self) -> bool:
        """Negative."""
        return bool(self.p & 0x80)

    @property
    def v(self) -> bool:
        """Overflow."""
        return bool(self.p & 0x40)

    @property
    def d(self) -> bool:
        """Decimal mode."""
        return bool(self.p & 0x08)

    @property
    def i(self) -> bool:
        """Interrupt disable."""
        return bool(self.p & 0x04)

    @property
    def z(self) -> bool:
        """Zero."""
        return bool(self.p & 0x02)

    @property
    def c(self) -> bool:
        """Carry."""
        return bool(self.p & 0x01)


@dataclass(frozen=True)
class RunEnd:
    """How a run ended.

    steps: how many steps it made
    why: why it ended
    address: the breakpoint, the watch, or where the undocumented opcode stands
    opcode: the undocumented opcode
    fault: the name of the fault where a step is refused
    """

    steps: int
    why: Why
    address: Optional[int] = None
    opcode: Optional[int] = None
    fault: Optional[str] = None


@dataclass(frozen=True)
class Call:
    """What a called subroutine did.

    registers: the registers after its RTS
    cycles: the cycles from its first instruction to its RTS, both counted, the JSR's 6 not
    steps: how many instructions that were
    events: how many events `back` goes over to undo the call
    """

    registers: Registers
    cycles: int
    steps: int
    events: int


@dataclass(frozen=True)
class Step:
    """An instruction that was executed, or an interrupt's entry in its place.

    registers: the registers before it
    text: the instruction, as it is disassembled; `interrupt` for an entry
    line: the line of the source, counted from 1, None where no line stands there
    source: the text of that line
    """

    registers: Registers
    text: str
    line: Optional[int]
    source: Optional[str]

    def __str__(self) -> str:
        r = self.registers
        state = f"A={r.a:02X} X={r.x:02X} Y={r.y:02X} S={r.s:02X} P={r.p:02X}"
        line = "" if self.line is None else f"{self.line:5}  {self.source}"
        return f"{r.cycles:10}  {r.pc:04X}  {self.text:13} {state} {line}".rstrip()
