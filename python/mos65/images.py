"""What a machine starts with: a source, a tape, or an image in another form. The program reads
these forms; nothing here does."""

from __future__ import annotations

import os
import re
from typing import Optional

from .faults import Refused

# The forms that `mos65 convert` reads besides a tape and bytes alone.
CONVERTED = ("hex", "srec", "prg")
FORMS = ("source", "tape", "bin", *CONVERTED)
_ENDINGS = {
    **dict.fromkeys((".tape", ".pt", ".ptp"), "tape"),
    **dict.fromkeys((".hex", ".ihx"), "hex"),
    **dict.fromkeys((".srec", ".s19", ".s28", ".s37"), "srec"),
    ".prg": "prg",
    ".bin": "bin",
}

# What is skipped around a tape's records, a record, and what may stand behind it on its line.
_FRONT = re.compile(rb"[\0\r\n\x13]*;((?:[0-9A-Fa-f]{2})+)[\0\x13]*(?=[\r\n]|\Z)")


def is_tape(text: bytes) -> bool:
    """Whether a text begins with a whole and right record of a tape, so that it is no source."""
    found = _FRONT.match(text)
    if not found:
        return False
    record = bytes.fromhex(found[1].decode("ascii"))
    count = record[0]
    if count == 0 or len(record) != count + 5:
        return False
    fits = int.from_bytes(record[1:3], "big") + count <= 0x10000
    return fits and sum(record[:-2]) == int.from_bytes(record[-2:], "big")


def _given(form: Optional[str], tape: Optional[bool], at: Optional[int]) -> Optional[str]:
    """The form that the arguments say, or None. Raises Refused where they say two."""
    said = {form} - {None}
    if tape or tape is False and at is None:
        said.add("tape" if tape else "source")
    if at is not None:
        said.add("bin")
    if len(said) > 1:
        raise Refused("Words", text=f"it cannot be {' and '.join(sorted(said))}")
    return said.pop() if said else None


def form_of(
    name: str, text: bytes, form: Optional[str], tape: Optional[bool], at: Optional[int]
) -> str:
    """The form of a file: what the arguments say, or its ending, or a tape where it begins as one,
    and else a source. Raises Refused where bytes alone have no address or go past 0xFFFF."""
    if form is not None and form not in FORMS:
        raise Refused("Form", text=f"{form!r} is none of {', '.join(FORMS)}")
    ending = os.path.splitext(name)[1].lower()
    found = _given(form, tape, at) or _ENDINGS.get(ending)
    if found is None:
        found = "tape" if is_tape(text) else "source"
    if found == "bin":
        _check_place(text, at)
    return found


def _check_place(text: bytes, at: Optional[int]) -> None:
    if at is None:
        raise Refused("Words", text="bytes alone need at=, the address of the first one")
    if not 0 <= at <= 0xFFFF:
        raise Refused("Address", text=hex(at))
    if at + len(text) > 0x10000:
        raise Refused("Image", text=f"{len(text)} bytes from ${at:04X} on")
