"""A 6850 ACIA, as a device of a rig: what the program sends, and what it is sent.

    line = acia.Acia(m, 0xA000)
    line.send(b"hello")
    m.run_to("done")
    assert line.sent == b"HELLO"

At base is the status, whose bit 0 says that a byte was received and whose bit 1, always set, that
one can be sent. At base+1 is the data. Source: Motorola MC6850 data sheet."""

from typing import NamedTuple

import mos65


class State(NamedTuple):
    received: bytes = b""
    taken: int = 0
    sent: bytes = b""


class Acia(mos65.Device):
    def __init__(self, m, base):
        super().__init__(m, State())
        self.base = base
        m.on_read(base, base + 1, self.read)
        m.on_write(base + 1, base + 1, self.write)

    def send(self, data):
        """Hands bytes to the program."""
        self.state = self.state._replace(received=self.state.received + data)

    @property
    def sent(self):
        """What the program has sent."""
        return self.state.sent

    def read(self, address):
        now = self.state
        is_waiting = now.taken < len(now.received)
        if address == self.base:
            return 2 + is_waiting
        if not is_waiting:
            return 0
        self.state = now._replace(taken=now.taken + 1)
        return now.received[now.taken]

    def write(self, address, byte):
        self.state = self.state._replace(sent=self.state.sent + bytes([byte]))
