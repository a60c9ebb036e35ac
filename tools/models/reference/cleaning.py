"""The text that is read in the place of a source as editors save it: by all words but `asm` and
`debug`, and by the library for C."""

import re

import asm

MARK = b"\xEF\xBB\xBF"


def in_comment(line):
    """Whether all bytes of a line that may not be in a source stand in its comment."""
    try:
        found = asm.tokens(bytes(it if asm.legal(it) else ord("?") for it in line))
    except asm.Syntax:
        return False
    end = found[-1].start + len(found[-1].text) if found else 0
    return all(map(asm.legal, line[:end]))


def shown(line):
    """A line with `?` for each character of UTF-8, and `??` for one of four bytes."""
    text, before = bytearray(), 0
    for byte in line:
        goes_on = 0x80 <= byte < 0xC0 and before < 0xF0
        if asm.legal(byte):
            text.append(byte)
        elif not goes_on:
            text.append(ord("?"))
        before = byte
    return bytes(text)


def cleaned(source):
    if len(source) > asm.SOURCE_MOST:
        return source
    while source.startswith(MARK):
        source = source[len(MARK) :]
    parts = re.split(rb"(\r\n|\r|\n)", source)
    parts[::2] = [shown(it) if in_comment(it) else it for it in parts[::2]]
    parts[1::2] = [b"\n" if it == b"\r" else it for it in parts[1::2]]
    return b"".join(parts)
