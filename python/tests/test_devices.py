"""Tests of devices by both ways: those of examples/devices, and what an instruction touches.

Cycles are those of the MCS6500 manual's table, addresses those of its chapters 5 and 6."""

import os
import random
import sys
import unittest

from ways import LIBRARY, PROGRAM, TOP, Ways  # first: it finds the package

import mos65
from mos65 import Why

sys.path.insert(0, os.path.join(TOP, "examples", "devices"))
import acia  # noqa: E402
import display  # noqa: E402
import via  # noqa: E402

# A timer's interrupt counts in $20; the latch is 16.
TIMED = b"""*=$0200
start:  LDA #$C0
        STA $A80E
        LDA #16
        STA $A804
        LDA #0
        STA $A805
        CLI
loop:   INX
        JMP loop
irq:    LDA $A804
        INC $20
        RTI
*=$FFFA
.WORD 0,start,irq
"""

# Each byte that comes is sent again, a letter as a capital; a full stop ends.
ECHO = b"""*=$0200
start:  LDA $A000
        LSR A
        BCC start
        LDA $A001
        CMP #'a'
        BCC send
        AND #$DF
send:   STA $A001
        CMP #'.'
        BNE start
done:   JMP done
*=$FFFC
.WORD start
"""

SHOWN = b"""*=$0200
greet:  LDX #0
next:   LDA text,X
        BEQ end
        STA $B000,X
        INX
        BNE next
end:    RTS
text:   .BYTE "HELLO",0
*=$FFFC
.WORD greet
"""

# An instruction with X = 4 and Y = 8, and what it reads and stores; $10 points to $3000.
ACCESSES = [
    ("LDA $40", [0x40], []),
    ("LDA $40,X", [0x44], []),
    ("LDX $40,Y", [0x48], []),
    ("LDA $7E,X", [], []),
    ("LDA !$0040", [0x40], []),
    ("LDA !$0040,Y", [0x48], []),
    ("LDA $3000", [0x3000], []),
    ("LDA $3000,X", [0x3004], []),
    ("LDA $30FC,Y", [0x3104], []),
    ("LDA ($0C,X)", [0x3000], []),
    ("LDA ($10),Y", [0x3008], []),
    ("LDA #$40", [], []),
    ("ADC $3000", [0x3000], []),
    ("BIT $3000", [0x3000], []),
    ("CPX $40", [0x40], []),
    ("STA $40", [], [0x40]),
    ("STX $40,Y", [], [0x48]),
    ("STY $40,X", [], [0x44]),
    ("STA $3000,Y", [], [0x3008]),
    ("STA ($0C,X)", [], [0x3000]),
    ("STA ($10),Y", [], [0x3008]),
    ("ASL $3000", [0x3000], [0x3000]),
    ("DEC $40,X", [0x44], [0x44]),
    ("ROR A", [], []),
    ("JMP ($3000)", [], []),
    ("JSR $3000", [], []),
    ("BNE $0240", [], []),
    ("PHA", [], []),
    ("NOP", [], []),
]
ACCESSES_OF_C = [
    ("LDA ($10)", [0x3000], []),
    ("STA ($10)", [], [0x3000]),
    ("STZ $40,X", [], [0x44]),
    ("STZ $3000", [], [0x3000]),
    ("INC A", [], []),
    ("PHX", [], []),
]


class Touches:
    """Devices on $40..$7F and $3000..$31FF, which note what they are asked and told."""

    def __init__(self, m):
        self.read, self.stored, self.gives = [], [], 0xA5
        for first, last in ((0x40, 0x7F), (0x3000, 0x31FF)):
            m.on_read(first, last, self.give)
            m.on_write(first, last, self.take)

    def give(self, address):
        self.read.append(address)
        return self.gives

    def take(self, address, byte):
        self.stored.append((address, byte))


class Devices(Ways):
    """What devices are asked and told, whichever way leads to the machine."""

    def all_of(self, m):
        return m.registers, m.read(0, 0x10000), m.output

    def test_what_instructions_touch(self):
        rows = [("N", it) for it in ACCESSES] + [("C", it) for it in ACCESSES_OF_C]
        for profile, (text, read, stored) in rows:
            source = f"*=$0010\n.WORD $3000\n*=$0200\n{text}\n*=$FFFC\n.WORD $0200\n"
            with self.subTest(text):
                m = self.machine(source.encode(), profile=profile)
                m.set(a=0x5A, x=4, y=8)
                touches = Touches(m)
                m.step()
                self.assertEqual(touches.read, read)
                self.assertEqual([it for it, _ in touches.stored], stored)
                for address, byte in touches.stored:
                    self.assertEqual(m.read(address), bytes([byte]))
                m.close()

    def test_what_is_given_is_an_event(self):
        m = self.machine(b"*=$0200\nLDA $3000\nINC $3000\n*=$FFFC\n.WORD $0200\n")
        touches = Touches(m)
        self.assertEqual(m.step().a, 0xA5)
        self.assertEqual((m.held, m.read(0x3000)), (2, b"\xa5"))
        touches.gives = 7
        m.step()
        self.assertEqual((m.held, m.read(0x3000)), (4, b"\x08"))
        self.assertEqual((touches.read, touches.stored), ([0x3000, 0x3000], [(0x3000, 8)]))
        m.back(2)
        self.assertEqual(m.read(0x3000), b"\xa5")
        self.assertEqual([it.text for it in m.last_steps()], ["LDA $3000"])
        m.back(2)
        self.assertEqual((m.read(0x3000), m.held), (b"\0", 0))

    def test_an_interrupt_in_place_of_a_read(self):
        source = b"*=$0200\nLDA $3000\nRTI\n*=$FFFA\n.WORD $0203,$0200,$0203\n"
        m = self.machine(source)
        touches = Touches(m)
        m.set(p=0)
        m.irq(True)
        m.nmi()
        for steps, read in ((1, 0), (1, 0), (1, 0), (1, 0), (1, 0)):
            m.run(steps)
            self.assertEqual(len(touches.read), read)
        m.irq(False)
        self.assertEqual(m.run_to(0x0203, 9).steps, 2)
        self.assertEqual((m.registers.a, len(touches.read)), (0xA5, 1))
        # An NMI comes though I is set.
        m.set(pc=0x0200, p=4)
        m.nmi()
        m.step()
        self.assertEqual(len(touches.read), 1)
        m.run(2)
        self.assertEqual(len(touches.read), 2)

    def test_runs_stop_beside_devices(self):
        m = self.machine(SHOWN)
        shown = display.Display(m, 0xB000, 8, 1)
        m.break_at("end")
        m.watch(0xB001)
        end = m.run(100)
        self.assertEqual((end.why, end.address, shown.changed), (Why.WATCH, 0xB001, 2))
        self.assertEqual(m.run(100).why, Why.BREAK)
        self.assertEqual(m.run_to("greet", 1).why, Why.LIMIT)
        m.set(pc=0x0300)
        m.write(0x0300, b"\x02")
        self.refused(mos65.EventFault, "Undocumented", 2, m.step)
        self.assertEqual(m.run(9).why, Why.REFUSED)

    def test_a_display(self):
        m = self.machine(SHOWN)
        shown = display.Display(m, 0xB000, 4, 2)
        call = m.call("greet")
        self.assertEqual(shown.lines, ["HELL", "O   "])
        self.assertEqual((shown.changed, call.steps), (5, 1 + 5 * 5 + 3))
        m.back(call.events)
        self.assertEqual((shown.lines, shown.changed, m.held), (["    "] * 2, 0, 0))
        self.assertEqual(m.call("greet").cycles, call.cycles)
        self.assertEqual(shown.lines, ["HELL", "O   "])

    def test_an_acia(self):
        m = self.machine(ECHO, history=65536)
        line = acia.Acia(m, 0xA000)
        line.send(b"Hi you.")
        end = m.run_to("done", 2000)
        self.assertEqual((end.why, line.sent), (Why.BREAK, b"HI YOU."))
        after = self.all_of(m)
        m.back(m.held)
        self.assertEqual((line.sent, m.cycles), (b"", 7))
        line.send(b"Hi you.")
        self.assertEqual(m.run_to("done", 2000), end)
        self.assertEqual(self.all_of(m), after)

    def test_a_timer(self):
        m = self.machine(TIMED)
        timer = via.Timer(m, 0xA800)
        # Started at 25 with 16: past 0 at 42, where an INX would begin; the entry takes 7 cycles.
        end = m.run_until_cycle(42)
        self.assertEqual((m.cycles, m.registers.x, end.why), (42, 3, Why.LIMIT))
        self.assertEqual(m.step().cycles, 49)
        self.assertEqual(m.registers.pc, m.symbols["irq"])
        self.assertEqual(timer.state.flags, via.TIMEOUT)
        # LDA 4, INC 5, RTI 6; it is asked for once.
        m.run(3)
        self.assertEqual((m.cycles, m.read(0x20), timer.state.flags), (64, b"\x01", 0))
        m.run(200)
        self.assertEqual(m.read(0x20), b"\x01")

    def test_a_timer_that_runs_free(self):
        m = self.machine(TIMED, history=5000)
        timer = via.Timer(m, 0xA800)
        timer.change(control=0x40)
        m.write(0x0205 + 1, b"\x62")
        # Past 0 at 25 + 98 + 1, then after each 98 + 2 cycles.
        m.run_until_cycle(25 + 99 + 9 * 100 + 40)
        self.assertEqual(m.read(0x20), bytes([10]))

    def test_back_and_again(self):
        for seed in range(6):
            rng = random.Random(f"back {seed}")
            m = self.machine(TIMED, history=3000)
            timer = via.Timer(m, 0xA800)
            timer.change(control=0x40)
            m.write(0x0205 + 1, bytes([rng.randrange(5, 60)]))
            m.run_until_cycle(900)
            cycles, after, state = m.cycles, self.all_of(m), timer.state
            for _ in range(6):
                m.back(rng.randrange(1, m.held))
                for _ in range(rng.randrange(3)):
                    m.step()
                m.run_until_cycle(cycles)
                self.assertEqual((self.all_of(m), timer.state), (after, state))
            m.close()

    def test_what_is_refused(self):
        m = self.machine(rom=(0x8000, 0x8FFF))
        touches = Touches(m)
        for call in (m.on_read, m.on_write):
            self.refused(mos65.Refused, "Range", None, call, 0x50, 0x4F, touches.give)
            self.refused(mos65.Refused, "Port", None, call, 0xF003, 0xF00F, touches.give)
            self.refused(mos65.Refused, "Taken", None, call, 0x31FF, 0x3200, touches.give)
            self.refused(mos65.NoSuchName, "NoSuchName", 4, call, "gone", 0x5000, touches.give)
        self.refused(mos65.Refused, "Rom", None, m.on_write, 0x8FFF, 0x9000, touches.take)
        m.on_read(0x8000, 0x8FFF, touches.give)
        none = self.machine(history=0)
        self.refused(mos65.Refused, "History", None, none.on_read, 0, 1, touches.give)
        none.on_write(0, 1, touches.take)

    def test_what_is_no_byte(self):
        m = self.machine(b"*=$0200\nLDA $3000\n*=$FFFC\n.WORD $0200\n")
        given = [None, 300, -1, "A"]
        m.on_read(0x3000, 0x3000, lambda _: given[0])
        while given:
            fault = self.refused(mos65.Refused, "Value", None, m.step)
            self.assertIn(f"a device gives {given[0]!r} at $3000", str(fault))
            self.assertEqual((m.held, m.registers.pc), (0, 0x0200))
            del given[0]

    def test_a_device_cannot_move_the_machine(self):
        m = self.machine(b"*=$0200\nLDA $3000\n*=$FFFC\n.WORD $0200\n")
        moves = [m.step, m.run, m.back, m.copy, m.last_steps]
        moves += [lambda: m.run_to(0x0300), lambda: m.call(0x0300), lambda: m.run_until_cycle(99)]
        found = []

        def give(address):
            for move in moves:
                found.append(self.refused(mos65.Refused, "Busy", None, move).name)
            return 300

        m.on_read(0x3000, 0x3000, give)
        self.refused(mos65.Refused, "Value", None, m.step)
        self.assertEqual((len(found), m.held), (len(moves), 0))


@unittest.skipUnless(PROGRAM, "MOS65_PROGRAM is not named")
class DevicesByPipe(Devices, unittest.TestCase):
    way = {"library": False, "program": PROGRAM}


@unittest.skipUnless(LIBRARY, "MOS65_LIBRARY is not named")
class DevicesByLibrary(Devices, unittest.TestCase):
    way = {"library": LIBRARY}


if __name__ == "__main__":
    unittest.main()
