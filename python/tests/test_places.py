"""Tests of calls at a place, and of an IRQ line that several devices share, by both ways."""

import unittest

from ways import LIBRARY, PROGRAM, Ways  # first: it finds the package

import mos65
from mos65 import Why

# puts sends a text by putc, which nobody has written yet.
SENT = b"""*=$0200
puts:   LDY #0
next:   LDA text,Y
        BEQ end
        JSR putc
        INY
        BNE next
end:    RTS
putc:   JMP putc
text:   .BYTE "OK",0
*=$FFFC
.WORD puts
"""

# An IRQ counts in $20; nothing ends the request.
COUNTED = b"""*=$0200
start:  CLI
loop:   JMP loop
irq:    INC $20
        RTI
*=$FFFC
.WORD start,irq
"""


class Sender(mos65.Device):
    """What stands for putc."""

    def __init__(self, m):
        super().__init__(m, b"")
        m.on_reach("putc", self.put)

    def put(self):
        self.state += bytes([self.machine.registers.a])
        self.machine.rts()


class Counter(mos65.Device):
    """How often a place was reached, with a note in memory."""

    def __init__(self, m, place):
        super().__init__(m, 0)
        m.on_reach(place, self.reach)

    def reach(self):
        self.state += 1
        self.machine.write(0x40, self.state)


class Places(Ways):
    """Calls at places and shared lines, whichever way leads to the machine."""

    def all_of(self, m):
        return m.registers, m.read(0, 0x10000), m.output, m.held

    def test_a_call_in_place_of_a_subroutine(self):
        m = self.machine(SENT)
        line = Sender(m)
        call = m.call("puts")
        # LDY, twice LDA BEQ JSR INY BNE, and LDA BEQ RTS: 14 steps; putc makes none, and two events
        # each time it is called.
        self.assertEqual((line.state, call.steps, call.events), (b"OK", 14, 4 + 14 + 2 * 2))
        # 2, twice 4 + 2 + 6 + 2 + 3, and 4 + 3 + 6.
        self.assertEqual(call.cycles, 2 + 2 * 17 + 13)
        m.back(call.events)
        self.assertEqual((line.state, m.held), (b"", 0))
        self.assertEqual(m.call("puts").cycles, call.cycles)
        self.assertEqual(line.state, b"OK")
        self.assertEqual(m.call("putc", a=33).steps, 0)
        self.assertEqual(line.state, b"OK!")

    def test_each_step_that_begins_there(self):
        m = self.machine(SENT)
        count = Counter(m, "putc")
        self.assertEqual(m.run_to("putc", 20).why, Why.BREAK)
        self.assertEqual(count.state, 0)
        m.step()
        self.assertEqual((count.state, m[0x40]), (1, 1))
        self.assertEqual((m.run(3), count.state), (mos65.RunEnd(3, Why.LIMIT), 4))
        m.set(pc="puts")
        self.assertEqual((m.run(4), count.state), (mos65.RunEnd(4, Why.LIMIT), 4))
        m.step()
        self.assertEqual((count.state, m[0x40]), (5, 5))

    def test_back_to_each_event_and_again(self):
        m = self.machine(SENT)
        count, line = Counter(m, "next"), Sender(m)
        m.run_to("end", 50)
        after, state, number = self.all_of(m), (count.state, line.state), m.held
        self.assertEqual(state, (3, b"OK"))
        for events in range(1, number + 1):
            m.back(events)
            m.run_to("end", 50)
            self.assertEqual((self.all_of(m), count.state, line.state), (after, *state), events)

    def test_breakpoints_at_such_places(self):
        m = self.machine(SENT)
        line = Sender(m)
        m.break_at("putc")
        self.refused(mos65.SessionFault, "AlreadySet", 3, m.break_at, "putc")
        self.assertEqual((m.run(20).address, line.state), (m.symbols["putc"], b""))
        # The call sets PC behind the JSR, and the run goes on there.
        self.assertEqual((m.run(20).address, line.state), (m.symbols["putc"], b"O"))
        m.clear_break("putc")
        self.refused(mos65.SessionFault, "NotSet", 4, m.clear_break, "putc")
        m.break_at(m.symbols["end"])
        self.assertEqual((m.run(20).address, line.state), (m.symbols["end"], b"OK"))
        # Where the call leads to a breakpoint, the run ends there.
        m.set(pc="puts", s=0xFD)
        m.break_at(m.symbols["next"] + 8)
        end = m.run(20)
        self.assertEqual((end.why, end.address, end.steps), (Why.BREAK, m.symbols["next"] + 8, 4))
        m.set(pc="putc", s=0xFB)
        self.assertEqual(m.step().pc, m.symbols["next"] + 9)

    def test_an_interrupt_in_the_place_of_its_step(self):
        m = self.machine(COUNTED)
        count = Counter(m, "loop")
        m.step()
        m.nmi()
        # The NMI's vector is 0, where a BRK leads to the IRQ's handler; loop is reached twice.
        m.write(0, b"\x40")
        m.run(3)
        self.assertEqual((count.state, m.registers.pc), (2, m.symbols["loop"]))

    def test_what_is_refused(self):
        m = self.machine(SENT)
        m.on_reach("putc", m.rts)
        self.refused(mos65.Refused, "Taken", None, m.on_reach, "putc", m.rts)
        self.refused(mos65.NoSuchName, "NoSuchName", 4, m.on_reach, "gone", m.rts)
        none = self.machine(SENT, history=0)
        self.refused(mos65.Refused, "History", None, none.on_reach, "putc", none.rts)
        found = []
        m.on_reach("end", lambda: found.append(self.refused(mos65.Refused, "Busy", None, m.step)))
        m.call("puts")
        self.assertEqual(len(found), 1)

    def test_a_line_that_devices_share(self):
        m = self.machine(COUNTED)
        m.irq(True, by="via")
        m.irq(True, by="acia")
        m.irq(False, by="via")
        # CLI, and at once the entry; INC and RTI, and the entry again.
        m.run(2 + 3)
        self.assertEqual((m[0x20], m.registers.pc), (1, m.symbols["irq"]))
        m.irq(False, by="acia")
        m.run(9)
        self.assertEqual((m[0x20], m.registers.pc), (2, m.symbols["loop"]))
        m.back(10)
        # Back to where acia asks: what via says changes nothing.
        m.irq(False, by="via")
        m.run(6)
        self.assertEqual(m[0x20], 3)
        other = m.copy()
        self.addCleanup(other.close)
        for it in (m, other):
            it.irq(False)
            it.run(6)
            self.assertEqual(it[0x20], 5)
            it.irq(False, by="acia")
            it.run(6)
            self.assertEqual(it.registers.pc, it.symbols["loop"])

    def test_who_asks_goes_back(self):
        m = self.machine(COUNTED)
        m.irq(True, at=40, by="timer")
        m.irq(True, by="line")
        m.back(1)
        m.irq(False, by="timer")
        for steps, count in ((12, 0), (2, 1)):
            # CLI ends at 9; JMP 12, 15 .. 42, where the timer's entry begins.
            m.run(steps)
            self.assertEqual(m[0x20], count)
        m.back(m.held)
        m.irq(False, by="line")
        for steps, count in ((12, 0), (2, 1)):
            m.run(steps)
            self.assertEqual(m[0x20], count)


@unittest.skipUnless(PROGRAM, "MOS65_PROGRAM is not named")
class PlacesByPipe(Places, unittest.TestCase):
    way = {"library": False, "program": PROGRAM}


@unittest.skipUnless(LIBRARY, "MOS65_LIBRARY is not named")
class PlacesByLibrary(Places, unittest.TestCase):
    way = {"library": LIBRARY}


if __name__ == "__main__":
    unittest.main()
