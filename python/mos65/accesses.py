"""What the instruction at PC reads and stores as its operand, by its text: for the way by the
program, which tells no more. The library says it by itself.

Source: MCS6500 manual, chapters 5 and 6. The bytes of the instruction, a pointer, the stack and a
vector are no operand. An instruction that begins in the last two bytes of memory and goes past
them has no text, and is not seen.
"""

from __future__ import annotations

import re
from dataclasses import replace
from typing import Any, Optional, Tuple

from .values import Registers, RunEnd, Why

Access = Tuple[Optional[int], Optional[int]]

_READING = frozenset("ADC AND BIT CMP CPX CPY EOR LDA LDX LDY ORA SBC".split())
_STORING = frozenset("STA STX STY STZ".split())
_CHANGING = frozenset("ASL DEC INC LSR ROL ROR".split())
_PLAIN = re.compile(r"!?\$([0-9A-F]{2}|[0-9A-F]{4})(?:,([XY]))?")
_INDIRECT = re.compile(r"\(\$([0-9A-F]{2})(?:(,X)\)|\)(,Y)|\))")


def _pointer(way: Any, address: int) -> int:
    """The address in two bytes of page zero."""
    low, high = (way.read((address + it) % 256, 1)[0] for it in (0, 1))
    return low + 256 * high


def _operand(way: Any, operand: str, r: Registers) -> Optional[int]:
    """The address of an operand, None where it is a number or the accumulator."""
    if found := _PLAIN.fullmatch(operand):
        index = {"X": r.x, "Y": r.y, None: 0}[found[2]]
        return (int(found[1], 16) + index) % (256 if len(found[1]) == 2 else 65536)
    if found := _INDIRECT.fullmatch(operand):
        base = _pointer(way, int(found[1], 16) + (r.x if found[2] else 0))
        return (base + (r.y if found[3] else 0)) % 65536
    return None


def access_here(way: Any) -> Access:
    """The address that the instruction at PC reads, and the one that it stores at."""
    r = way.registers()
    mnemonic, _, operand = way.disassemble(r.pc)[0].partition(" ")
    if not operand or mnemonic not in _READING | _STORING | _CHANGING:
        return None, None
    address = _operand(way, operand, r)
    return (
        None if mnemonic in _STORING else address,
        None if mnemonic in _READING else address,
    )


def run_to_access(way: Any, marks: bytes, limit: int) -> RunEnd:
    """A run that ends too before an instruction that touches an address with a mark that is not 0:
    `why` is LIMIT then."""
    for steps in range(limit):
        if any(it is not None and marks[it] for it in access_here(way)):
            return RunEnd(steps, Why.LIMIT)
        end = way.run(1)
        if end.why is not Why.LIMIT:
            return replace(end, steps=steps + end.steps)
    return RunEnd(limit, Why.LIMIT)
