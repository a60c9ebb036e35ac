"""A display of lines of text in memory, as a device of a rig: which lines it has shown.

    screen = display.Display(m, 0xB000, columns=20, rows=4)
    m.call("greet")
    assert screen.lines[0].startswith("HELLO")

What it shows is what stands in memory, and `changed` counts the stores."""

import mos65


class Display(mos65.Device):
    def __init__(self, m, base, columns, rows):
        super().__init__(m, 0)
        self.base, self.columns, self.rows = base, columns, rows
        m.on_write(base, base + columns * rows - 1, self.write)

    def write(self, address, byte):
        self.state += 1

    @property
    def changed(self):
        """How many bytes were stored."""
        return self.state

    @property
    def lines(self):
        """The lines, a space for what is no printable character."""
        whole = self.machine.read(self.base, self.columns * self.rows)
        text = "".join(chr(it) if 0x20 <= it < 0x7F else " " for it in whole)
        return [text[at : at + self.columns] for at in range(0, len(text), self.columns)]
