"""Sums, differences, comparisons and shifts of bytes, with the flags that they set.

Each call returns a Sum; a flag that the instruction does not set is False there.
Sources: the MCS6500 manuals; for decimal mode Bruce Clark's notes.
"""

from collections import namedtuple

Sum = namedtuple("Sum", "value n v z c")


def signed(byte):
    """A byte read as -128..127."""
    return byte - 256 if byte >= 128 else byte


def _outside(number):
    return not -128 <= number <= 127


def adc(a, m, c, d):
    """A + m + C, decimal where d."""
    c = int(c)
    total = a + m + c
    if not d:
        value = total % 256
        return Sum(value, value >= 128, _outside(signed(a) + signed(m) + c),
                   value == 0, total > 255)
    al = (a & 15) + (m & 15) + c
    if al >= 10:
        al = ((al + 6) & 15) + 16
    r = (a & 0xF0) + (m & 0xF0) + al
    r_signed = signed(a & 0xF0) + signed(m & 0xF0) + al   # before the $60 step
    n = (r_signed & 0x80) != 0
    v = _outside(r_signed)
    if r >= 0xA0:
        r += 0x60
    return Sum(r % 256, n, v, total % 256 == 0, r >= 0x100)


def sbc(a, m, c, d):
    """A - m - (1 - C), decimal where d; all four flags are the binary ones."""
    c = int(c)
    total = a - m - (1 - c)
    binary = total % 256
    n, z = binary >= 128, binary == 0
    v = _outside(signed(a) - signed(m) - (1 - c))
    carry = total >= 0                                            # no borrow
    if not d:
        return Sum(binary, n, v, z, carry)
    al = (a & 15) - (m & 15) + c - 1
    if al < 0:
        al = ((al - 6) & 15) - 16
    r = (a & 0xF0) - (m & 0xF0) + al
    if r < 0:
        r -= 0x60
    return Sum(r % 256, n, v, z, carry)


def compare(reg, m):
    value = (reg - m) % 256
    return Sum(value, value >= 128, False, value == 0, reg >= m)


def bit_test(a, m):
    return Sum(a & m, m >= 128, (m & 0x40) != 0, (a & m) == 0, False)


def _shifted(value, carry_out):
    return Sum(value, value >= 128, False, value == 0, bool(carry_out))


def asl(m):
    return _shifted((m << 1) & 0xFF, m & 0x80)


def lsr(m):
    return _shifted(m >> 1, m & 1)


def rol(m, c):
    return _shifted(((m << 1) & 0xFF) | int(c), m & 0x80)


def ror(m, c):
    return _shifted((m >> 1) | (0x80 if c else 0), m & 1)


def p_byte(n, v, b, d, i, z, c):
    """The status byte: N V 1 b D I Z C from bit 7 down."""
    return ((0x80 if n else 0) | (0x40 if v else 0) | 0x20
            | (0x10 if b else 0) | (0x08 if d else 0) | (0x04 if i else 0)
            | (0x02 if z else 0) | (0x01 if c else 0))


def p_flags(byte):
    """The flags of a status byte: (n, v, d, i, z, c); bits 5 and 4 are ignored."""
    return tuple(bool(byte & bit) for bit in (0x80, 0x40, 8, 4, 2, 1))
