"""The text of one instruction, and rows of instructions."""

import alu
import table

FORMATS = {"Imp": "{m}", "Acc": "{m} A", "Imm": "{m} #${b:02X}",
           "Zp": "{m} ${b:02X}", "ZpX": "{m} ${b:02X},X", "ZpY": "{m} ${b:02X},Y",
           "Abs": "{m} {f}${w:04X}", "AbsX": "{m} {f}${w:04X},X",
           "AbsY": "{m} {f}${w:04X},Y", "IndX": "{m} (${b:02X},X)",
           "IndY": "{m} (${b:02X}),Y", "IndZ": "{m} (${b:02X})",
           "Ind": "{m} (${w:04X})", "Rel": "{m} ${t:04X}"}

# The zero page mode with the same index, for the `!` rule.
ZERO_PAGE = {"Abs": "Zp", "AbsX": "ZpX", "AbsY": "ZpY"}


def line_at(profile, data, address):
    """(length, text) of the row at an address; data begins there."""
    row = table.decode(profile, data[0])
    if row is None or row.length > len(data) or address + row.length > 65536:
        return 1, ".BYTE $%02X" % data[0]
    byte = data[1] if row.length > 1 else 0
    word = byte | (data[2] << 8 if row.length > 2 else 0)
    target = (address + 2 + alu.signed(byte)) % 65536
    force = (row.mode in ZERO_PAGE and word < 0x0100
             and table.encode(profile, row.mnemonic, ZERO_PAGE[row.mode]) is not None)
    return row.length, FORMATS[row.mode].format(
        m=row.mnemonic, b=byte, w=word, t=target, f="!" if force else "")


def rows(profile, peek, address, count=None, last=0xFFFF):
    """The rows of the `dis` command and of `mos65 dis`, each without its LF.

    At most `count` rows, from `address` while it is at most `last`.
    """
    done = 0
    while address <= last and (count is None or done < count):
        data = bytes(peek(a) for a in range(address, min(address + 3, 65536)))
        length, text = line_at(profile, data, address)
        shown = " ".join("%02X" % byte for byte in data[:length])
        yield "%04X  %-8s  %s" % (address, shown, text)
        address += length
        done += 1
