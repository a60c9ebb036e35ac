"""Timer 1 of a 6522 VIA, with its interrupt, as a device of a rig.

    timer = via.Timer(m, 0xA800)

The counter is loaded and started by a store at base+5, and sets bit 6 of base+13 when it has passed
0; with bit 6 of base+11 it starts again from the latch. Reading base+4 clears the bit, and so does a
store at base+5. It asks for an IRQ while base+13 and base+14 have a bit in common.

Of the cycles within an instruction nothing is known: a read sees the counter as it was before its
instruction, and a store sets it after its instruction. Source: MOS 6522 data sheet."""

from typing import NamedTuple

import mos65

TIMEOUT = 0x40


class State(NamedTuple):
    latch: int = 0
    zero: int = -1  # the cycle at which the counter is 0; -1 before it is started
    control: int = 0
    flags: int = 0
    enabled: int = 0


class Timer(mos65.Device):
    def __init__(self, m, base):
        super().__init__(m, State())
        self.base = base
        m.on_read(base + 4, base + 14, self.read)
        m.on_write(base + 4, base + 14, self.write)

    def change(self, **values):
        """The next state, and the IRQ line that comes of it."""
        before = self.state
        self.state = after = before._replace(**values)
        is_asked = bool(after.flags & after.enabled)
        if is_asked != bool(before.flags & before.enabled):
            self.machine.irq(is_asked, by=self)

    def read(self, address):
        now, register = self.state, address - self.base
        counter = (now.zero - self.machine.cycles) % 0x10000
        if register == 4:
            self.change(flags=now.flags & ~TIMEOUT)
        summary = 0x80 if now.flags & now.enabled else 0
        told = {
            4: counter % 256,
            5: counter // 256,
            6: now.latch % 256,
            7: now.latch // 256,
            11: now.control,
            13: now.flags | summary,
            14: now.enabled | 0x80,
        }
        return told.get(register, 0)

    def write(self, address, byte):
        now, register = self.state, address - self.base
        if register in (4, 6):
            self.change(latch=now.latch // 256 * 256 + byte)
        elif register in (5, 7):
            self.change(latch=now.latch % 256 + 256 * byte, flags=now.flags & ~TIMEOUT)
            if register == 5:
                self.start(self.machine.cycles + self.state.latch)
        elif register == 11:
            self.change(control=byte)
        elif register == 13:
            self.change(flags=now.flags & ~byte)
        elif register == 14:
            bits = byte & 0x7F
            self.change(enabled=now.enabled | bits if byte & 0x80 else now.enabled & ~bits)

    def start(self, zero):
        self.change(zero=zero)
        self.machine.at(zero + 1, lambda: self.pass_zero(zero))

    def pass_zero(self, zero):
        now = self.state
        if now.zero != zero:
            return  # it was started anew since then
        self.change(flags=now.flags | TIMEOUT)
        if now.control & 0x40:
            self.start(zero + now.latch + 2)
