"""Tests puts with a line that takes a byte at each third look: python3 -m unittest"""

import unittest

import mos65


class Line(mos65.Device):
    """A 6850 that is often busy: how often it was looked at, and what was sent."""

    def __init__(self, m):
        super().__init__(m, (0, b""))
        m.on_read("status", "status", self.look)
        m.on_write("data", "data", self.take)

    def look(self, address):
        looks, sent = self.state
        self.state = looks + 1, sent
        return 2 if looks % 3 == 2 else 0

    def take(self, address, byte):
        looks, sent = self.state
        self.state = looks, sent + bytes([byte])


class Puts(unittest.TestCase):
    def test_a_text_is_sent_in_capitals(self):
        with mos65.Machine("routines.a65") as m:
            line = Line(m)
            m.write("text", b"\x00\x03")
            m.write(0x0300, b"Hello, 6502!\0")
            call = m.call("puts")
            self.assertEqual(line.state, (36, b"HELLO, 6502!"))
            m.back(call.events)
            self.assertEqual(line.state, (0, b""))


if __name__ == "__main__":
    unittest.main()
