"""Tests of the package by both ways, with the standard library alone:

    python3 -m unittest discover python/tests

MOS65_PROGRAM and MOS65_LIBRARY name the program and the library; a way whose file is not named is
left out. Expected values are counted by hand: 200 times 123 is $6018; cycles are those of the
MCS6500 manual's table."""

import os
import stat
import tempfile
import types
import unittest
import unittest.mock

from ways import LIBRARY, PROGRAM, SOURCE, Ways  # first: it finds the package

import mos65
from mos65 import Machine, Why, pytest_plugin
from mos65.library import find_library


INTERRUPTED = b"""*=$0200
start:  CLI
loop:   JMP loop
irq:    RTI
nmi:    RTI
count:  PHA
        PHP
        PLA
        STA $21
        PLA
        INC $20
        RTI
*=$FFFA
.WORD nmi,start,irq
"""


class Calls(Ways):
    """What a machine does, whichever way leads to it."""

    def test_a_routine_is_called_and_taken_back(self):
        m = self.machine()
        for left, right in ((200, 123), (0, 9), (255, 255)):
            made = m.write(0x10, bytes([left, right]))
            before = m.registers
            call = m.call("multiply")
            self.assertEqual(int.from_bytes(m.read(0x12, 2), "little"), left * right)
            self.assertEqual(call.registers.s, before.s)
            m.back(call.events)
            self.assertEqual(m.registers, before)
            self.assertEqual(m.read(0x10, 2), bytes([left, right]))
            m.back(made)
        self.assertEqual(m.held, 0)

    def test_cycles_are_the_chips(self):
        m = self.machine()
        for a in (0, 7, 25):
            call = m.call("times10", a=a)
            # STA zp 3, ASL 2, ASL 2, CLC 2, ADC zp 3, ASL 2, RTS 6
            self.assertEqual((call.registers.a, call.cycles, call.steps), (10 * a, 20, 7))

    def test_names_and_lines(self):
        m = self.machine()
        self.assertEqual(m.symbols["multiply"], 0x0200)
        self.assertEqual(m.lines[0x0200], 3)
        self.assertEqual(m.line("next"), (5, "next:   LSR $10"))
        self.assertEqual(m.disassemble("next", 2), [(0x0204, "LSR $10"), (0x0206, "BCC $020B")])
        self.refused(mos65.NoSuchName, "NoSuchName", 4, m.call, "gone")

    def test_bytes_and_words(self):
        m = self.machine()
        self.assertEqual((m.write(0x20, 7), m.read(0x20, 2)), (1, b"\x07\0"))
        self.assertEqual((m.write(0x21, [8, 9]), m.read(0x20, 3)), (1, b"\x07\x08\x09"))
        self.assertEqual((m[0x20], m[0x20:0x23], m[0x22:0x22]), (7, b"\x07\x08\x09", b""))
        self.assertEqual((m.word(0x20), m.word("multiply")), (0x0807, 0x00A9))
        self.assertEqual((m.set_word(0x20, 0x1234), m[0x20:0x22]), (1, b"\x34\x12"))
        m[0x30] = 5
        m[0x31:0x33] = b"ab"
        self.assertEqual((m[0x30:0x33], m.held), (b"\x05ab", 5))
        self.assertEqual(m["multiply":"next"], m.read("multiply", 4))
        self.assertEqual((len(m[:]), m[0xFFFC:]), (0x10000, m.read(0xFFFC, 4)))
        m.send(105)
        m.call("hello")
        self.assertEqual(m.output, b"Hi")

    def test_bytes_that_are_refused(self):
        m = self.machine()
        for byte in (-1, 256, [0, 256]):
            self.refused(mos65.Refused, "Value", None, m.write, 0x20, byte)
            self.refused(mos65.Refused, "Value", None, m.send, byte)
        self.refused(mos65.Refused, "Value", None, m.set_word, 0x20, 0x10000)
        self.refused(mos65.EventFault, "PastEnd", 4, m.word, 0xFFFF)
        self.refused(mos65.Refused, "Count", None, m.__setitem__, 0x20, b"ab")
        self.refused(mos65.Refused, "Count", None, m.__setitem__, slice(0x20, 0x22), 7)
        for places in (slice(0, 4, 2), slice(5, 4)):
            self.refused(mos65.Refused, "Range", None, m.__getitem__, places)
        with self.assertRaises(TypeError):
            m.write(0x20, "a")
        with self.assertRaises(TypeError):
            iter(m)
        self.assertEqual(m.held, 0)

    def test_places_in_words(self):
        m = self.machine()
        self.assertEqual(m.where(0x0206), f"$0206 next+2, {SOURCE}:6")
        self.assertEqual((m.where(0x0205), m.where(0x0100)), ("$0205 next+1", "$0100"))
        m.set(pc="next", p=0xC3)
        text = f"A=00 X=00 Y=00 S=FD NV-bdiZC PC=0204 next, {SOURCE}:5 cycle 7"
        self.assertEqual(repr(m), f"<mos65.Machine {text}>")
        m.close()
        self.assertEqual(repr(m), "<mos65.Machine: Closed>")

    def test_the_console(self):
        m = self.machine()
        m.send(b"i")
        m.call("hello")
        self.assertEqual(m.output, b"Hi")

    def test_runs_and_stops(self):
        m = self.machine()
        m.set(pc="multiply")
        end = m.run_to("shift", 100)
        self.assertEqual((end.why, end.address, end.steps), (Why.BREAK, m.symbols["shift"], 4))
        m.break_at("shift")
        self.refused(mos65.SessionFault, "AlreadySet", 3, m.break_at, "shift")
        self.assertEqual(m.run_to("shift", 100).why, Why.BREAK)
        m.clear_break("shift")
        self.refused(mos65.SessionFault, "NotSet", 4, m.clear_break, "shift")
        m.write(0x10, b"\x01")
        m.watch(0x10)
        end = m.run(100)
        self.assertEqual((end.why, end.address), (Why.WATCH, 0x10))
        m.clear_watch(0x10)
        self.refused(mos65.SessionFault, "PortAddress", 5, m.watch, 0xF000)
        self.assertEqual(m.run(3), mos65.RunEnd(3, Why.LIMIT))

    def test_refusals_change_nothing(self):
        m = self.machine()
        before = m.registers
        self.refused(mos65.SessionFault, "NoHistory", 1, m.back, 1)
        self.refused(mos65.EventFault, "PortAddress", 5, m.write, 0xEFFF, b"ab")
        self.refused(mos65.EventFault, "PastEnd", 4, m.write, 0xFFFF, b"ab")
        self.refused(mos65.EventFault, "PastEnd", 4, m.read, 0xFFFF, 2)
        self.refused(mos65.Refused, "Value", None, m.set, a=256)
        self.refused(mos65.Refused, "Register", None, m.set, q=1)
        self.refused(mos65.Refused, "Address", None, m.read, 0x10000)
        self.assertEqual((m.registers, m.held), (before, 0))
        m.write(0x0300, b"\x02")
        m.set(pc=0x0300)
        self.refused(mos65.EventFault, "Undocumented", 2, m.step)
        end = m.run(9)
        self.assertEqual((end.steps, end.why), (0, Why.REFUSED))
        self.assertEqual((end.opcode, end.address), (2, 0x0300))

    def test_sources_and_maps_are_refused(self):
        twice = b"a1 = 1\na1 = 2\n"
        fault = self.refused(mos65.AssemblyFault, "DuplicateName", 6, self.machine, twice)
        self.assertEqual(fault.line, 2)
        fault = self.refused(mos65.TapeFault, "JunkBetween", 8, self.machine, b"x", tape=True)
        self.assertEqual(fault.offset, 0)
        self.refused(mos65.MapFault, "BadMap", 1, self.machine, port=0xF001)
        self.refused(mos65.MapFault, "History", None, self.machine, history=65537)

    def test_what_does_not_return(self):
        m = self.machine()
        with self.assertRaises(mos65.DidNotReturn) as raised:
            m.call("forever", limit=100)
        self.assertEqual(raised.exception.end, mos65.RunEnd(100, Why.LIMIT))
        place = f"${m.symbols['forever']:04X} forever, {SOURCE}:27"
        told = f"no return in 100 steps; then at {place}"
        self.assertEqual(str(raised.exception), f"DidNotReturn: forever: {told}")
        m.break_at("next")
        with self.assertRaises(mos65.DidNotReturn) as raised:
            m.call("multiply")
        told = f"stopped at the breakpoint $0204 next, {SOURCE}:5, after 2 steps"
        self.assertIn(told, str(raised.exception))

    def test_registers_that_a_call_is_given(self):
        m = self.machine()
        before = m.registers
        call = m.call("times10", a=7, y=9)
        after = call.registers
        self.assertEqual((after.a, after.x, after.y, after.s), (70, before.x, 9, before.s))
        self.assertEqual((call.events, m.held, m.registers), (2 + 4 + 7, 2 + 4 + 7, after))
        m.back(call.events)
        self.assertEqual((m.registers, m.held), (before, 0))
        m.call("times10", a=7)
        m.write(0x10, b"a")
        m.back(call.events - 1)
        self.assertEqual((m.registers.a, m.held), (7, 1))

    def test_no_room_for_the_breakpoint_of_a_call(self):
        m = self.machine()
        before = m.registers
        for at in range(256):
            m.break_at(0x4000 + at)
        self.refused(mos65.SessionFault, "TableFull", 2, m.call, "times10", a=1, x=2, y=3)
        self.refused(mos65.SessionFault, "TableFull", 2, m.run_to, "times10")
        self.assertEqual((m.registers, m.held), (before, 0))
        self.assertEqual(m.run_to(0x4007, 1).why, Why.LIMIT)
        m.clear_break(0x4000)
        self.assertEqual(m.call("times10", a=1).registers.a, 10)

    def test_registers_are_those_of_now(self):
        m = self.machine()
        first = m.registers
        m.write(0x10, b"abc")
        m.watch(0x10)
        self.assertEqual(m.registers, first)
        m.set(pc="times10")
        m.step()
        self.assertEqual(m.registers.pc, m.symbols["times10"] + 2)
        m.back(2)
        self.assertEqual(m.registers, first)

    def test_no_event_is_gone_back_over(self):
        m = self.machine()
        m.back(0)
        self.assertEqual(m.held, 0)
        call = m.call("times10", a=7)
        m.back(0)
        self.assertEqual((m.registers, m.held), (call.registers, call.events))
        m.back(call.events)
        self.assertEqual(m.held, 0)
        self.refused(mos65.Refused, "Count", None, m.back, -1)

    def test_the_last_steps(self):
        m = self.machine()
        m.call("times10", a=7)
        rows = m.last_steps(3)
        self.assertEqual([it.text for it in rows], ["ADC $10", "ASL A", "RTS"])
        self.assertEqual(rows[0].line, 19)
        self.assertIn("ADC $10", str(rows[0]))

    def all_of(self, m):
        """What is known of a machine, its history apart."""
        return m.registers, m.read(0, 0x10000), m.output, m.held

    def test_the_last_steps_leave_the_machine_as_it_was(self):
        m = self.machine(history=40)
        m.send(b"i")
        m.write(0x20, bytes(range(7)))
        m.call("times10", a=7, x=1)
        m.irq(True)
        m.irq(False)
        m.call("hello")
        m.set(pc="times10", s=0x80)
        m.write(0x10, b"\x07")
        m.run(3)
        m.back(1)
        before = self.all_of(m)
        rows = m.last_steps(20)
        self.assertEqual(self.all_of(m), before)
        self.assertEqual(len(rows), 14)
        self.assertEqual([it.text for it in rows[-3:]], ["RTS", "STA $10", "ASL A"])
        self.assertEqual([len(m.last_steps(it)) for it in (0, 1, 5)], [0, 1, 5])
        with self.assertRaises(mos65.Refused):
            m.last_steps(-1)
        self.assertEqual(self.all_of(m), before)
        # 7 steps of each call, and 2 after them; the oldest events are no longer held.
        while m.held:
            m.back(1)
        self.assertEqual(m.registers.cycles, 7)

    def test_a_write_is_gone_back_over_by_no_look(self):
        m = self.machine()
        m.write(0x20, b"\x07")
        m.set(pc="multiply")
        m.run(3)
        self.assertEqual(len(m.last_steps()), 3)
        self.assertEqual((m.read(0x20), m.held), (b"\x07", 5))

    def test_a_part_of_a_call_is_gone_back_over(self):
        m = self.machine()
        first = m.call("times10", a=7)
        for count in (first.events - 3, 3, 1):
            m.call("times10", a=9, y=1)
            m.back(count)
            before = self.all_of(m)
            m.last_steps()
            self.assertEqual(self.all_of(m), before)
            m.back(first.events + 1 - count)

    def test_an_interrupt_among_the_last_steps(self):
        m = self.machine(b"*=$0200\nLDA #1\nBRK\n*=$FFFC\n.WORD $0200,$0200\n")
        m.nmi()
        m.run(3)
        self.assertEqual([it.text for it in m.last_steps()], ["interrupt", "BRK", "LDA #$01"])

    def test_coverage(self):
        m = self.machine()
        for a in (7, 8):
            m.call("times10", a=a)
        undone = m.call("hello")
        m.back(undone.events)
        m.write(0x10, bytes([0x05, 9]))
        m.call("multiply")
        counts = m.coverage()
        # Of the eight bits of 5 two are 1.
        looped = {5: 8, 6: 8, 7: 2, 8: 2, 9: 8, 10: 8, 11: 8, 12: 8}
        wanted = {3: 1, 4: 1, **looped, 13: 1, 14: 1, **dict.fromkeys(range(15, 22), 2)}
        self.assertEqual(counts, {**wanted, **dict.fromkeys(range(22, 28), 0)})
        self.assertEqual(counts, m.copy().coverage())

    def test_coverage_has_no_data_and_no_entry(self):
        m = self.machine(b"*=$0200\nstart: NOP\nBRK\ndata: .BYTE $EA\n*=$FFFC\n.WORD $0200,$0200\n")
        m.nmi()
        m.run(4)
        # The NMI's vector is 0, where a BRK leads to $0200: NOP and BRK come once.
        self.assertEqual(m.coverage(), {2: 1, 3: 1})

    def test_a_missing_file(self):
        with self.assertRaises(FileNotFoundError):
            self.machine("there is no such file.a65")
        with self.assertRaises(FileNotFoundError):
            self.machine("there is no such file.tape", tape=True)

    def test_sources_tapes_and_images(self):
        tape = b";030200E61060015B\r\n;0000010001\r\n"
        rows = [(0x0200, "INC $10"), (0x0202, "RTS")]
        for m in (
            self.machine(tape),
            self.machine(tape, tape=True),
            self.machine(b"\xe6\x10\x60", at=0x0200),
        ):
            self.assertEqual(m.disassemble(0x0200, 2), rows)
            self.assertEqual((m.symbols, m.lines, m.line(0x0200)), ({}, {}, None))
        self.assertEqual(self.machine(tape, tape=False).read(0x0200, 3), bytes(3))
        whole = bytes(it * 7 % 251 for it in range(0xF000))
        m = self.machine(whole, at=0, port=0xF000)
        self.assertEqual(m.read(0, 0xF001), whole + b"\0")
        self.refused(mos65.Refused, "Image", None, self.machine, b"ab", at=0xFFFF)
        self.refused(mos65.Refused, "Words", None, self.machine, b"ab", at=0, tape=True)
        self.refused(mos65.SessionFault, "PortAddress", 5, self.machine, b"a", at=0xF003)
        self.refused(mos65.AssemblyFault, "PortAddress", 26, self.machine, b"*=$F003\nNOP\n")

    def test_what_begins_as_a_tape_does(self):
        # Without its sum, with a wrong one, past $FFFF, and behind a line of comment.
        for text in (
            b";030200E61060\n",
            b";030200E610600158\n",
            b";03FFFEE610600356\n",
            b"; 1\n;030200E61060015B\n",
        ):
            self.assertEqual(self.machine(text).read(0x0200, 3), bytes(3))

    def test_lines_have_the_texts_of_the_source(self):
        source = b"a1 = 1\r\n*=$0200 ; caf\r\nx1: NOP\n\n.BYTE 1,2\n.END\n\xff nothing\n"
        m = self.machine(source)
        self.assertEqual(m.lines, {0x0200: 3, 0x0201: 5})
        self.assertEqual([m.line(0x0200), m.line(0x0201)], [(3, "x1: NOP"), (5, ".BYTE 1,2")])

    def test_a_source_as_an_editor_saves_it(self):
        # A byte-order mark, letters in comments, and CR alone, CR LF and LF at the ends of lines.
        source = "\ufeff*=$0200 ; Zähler\rx1: LDA #65 ; größer →\r\n RTS\n".encode()
        m = self.machine(source)
        self.assertEqual((m.symbols, m.lines), ({"x1": 0x0200}, {0x0200: 2, 0x0202: 3}))
        self.assertEqual(m.line(0x0200), (2, "x1: LDA #65 ; größer →"))
        self.assertEqual(m.read(0x0200, 4), bytes([0xA9, 65, 0x60, 0]))
        self.assertEqual(m.call("x1").registers.a, 65)

    def test_faults_beside_letters(self):
        # A fault of the layout comes first, in whichever line. A letter before a comment is one.
        late = " LDA #300 ; ö\na1 = b1 ; ä\n".encode()
        fault = self.refused(mos65.AssemblyFault, "UnknownHere", 7, self.machine, late)
        self.assertEqual(fault.line, 2)
        self.assertIn("source:1:6: ByteRange 21: ", fault.faults)
        late = " LDA #300 ; ö\nZÄHLER = 5\n".encode()
        fault = self.refused(mos65.AssemblyFault, "NotAscii", 3, self.machine, late)
        self.assertEqual(fault.line, 2)

    def test_registers_are_set_all_or_none(self):
        m = self.machine()
        self.refused(mos65.Refused, "Value", None, m.set, a=1, x=256)
        self.assertEqual((m.registers.a, m.held), (0, 0))

    def test_a_failed_test_shows_the_last_steps(self):
        m = self.machine()
        m.call("times10", a=7)
        report = types.SimpleNamespace(when="call", failed=True, sections=[])
        hook = pytest_plugin.pytest_runtest_makereport(None, None)
        next(hook)
        with self.assertRaises(StopIteration):
            hook.send(types.SimpleNamespace(get_result=lambda: report))
        name, text = report.sections[0]
        self.assertEqual(name, "mos65: the last steps")
        self.assertEqual(len(text.splitlines()), 7)
        self.assertIn("ADC $10", text)
        self.assertEqual(m.held, 12)

    def test_the_last_steps_of_a_closed_machine(self):
        item = pytest_plugin.pytest_runtest_protocol(None, None)
        next(item)
        with self.machine() as m:
            m.call("times10", a=7)
        with self.machine() as m:
            m.set(pc="next")
            m.run(2)
        steps = pytest_plugin.told().split("\n\n")
        self.assertEqual([len(it.splitlines()) for it in steps], [7, 2])
        self.assertIn("BCC $020B", steps[1])
        with self.assertRaises(StopIteration):
            next(item)
        self.assertEqual((pytest_plugin.told(), Machine.closing), ("", []))

    def test_signals(self):
        m = self.machine(rom=(0x8000, 0x8FFF), profile="C")
        m.irq(True)
        m.nmi()
        m.irq(False)
        m.reset()
        self.assertEqual((m.registers.pc, m.cycles), (m.symbols["hello"], 14))

    def test_large_ranges(self):
        m = self.machine(history=0)
        data = bytes(it % 251 for it in range(0xE000))
        m.write(0x0200, data)
        self.assertEqual(m.read(0x0200, len(data)), data)

    def test_a_run_to_a_cycle(self):
        m = self.machine()
        m.set(pc="forever")
        self.assertEqual(m.run_until_cycle(7), mos65.RunEnd(0, Why.LIMIT))
        # JMP takes 3 cycles: 10, 13 ..
        for cycle, came in ((8, 10), (10, 10), (11, 13), (3007, 3007), (100000, 100000)):
            end = m.run_until_cycle(cycle)
            self.assertEqual((m.cycles, end.why), (came, Why.LIMIT))
        m.set(pc="multiply")
        m.break_at("next")
        end = m.run_until_cycle(200000)
        self.assertEqual((end.steps, end.why, end.address), (2, Why.BREAK, m.symbols["next"]))
        self.refused(mos65.Refused, "Cycle", None, m.run_until_cycle, -1)

    def test_an_interrupt_at_a_cycle(self):
        m = self.machine(INTERRUPTED)
        m.irq(True, at=20)
        m.nmi(at=30)
        # CLI 9, then JMP 12, 15, 18, 21: the IRQ's entry to 28, RTI 34: the NMI's entry to 41.
        self.assertEqual([m.step().cycles for _ in range(8)], [9, 12, 15, 18, 21, 28, 34, 41])
        self.assertEqual(m.registers.pc, m.symbols["nmi"])
        m.back(8)
        self.assertEqual(m.run_until_cycle(41).steps, 6)
        self.assertEqual(m.registers.pc, m.symbols["nmi"])
        m.back(m.held)
        self.assertEqual(m.registers.cycles, 7)
        m.run(8)
        self.assertEqual((m.cycles, m.registers.pc), (41, m.symbols["nmi"]))
        self.refused(mos65.Refused, "Cycle", None, m.irq, True, at=-1)

    def test_a_handler_is_called(self):
        m = self.machine(INTERRUPTED, profile="C")
        m.set(p=0xC9)
        before = m.registers
        call = m.call("count", a=5, interrupt=True)
        # PHA 3, PHP 3, PLA 4, STA zp 3, PLA 4, INC zp 5, RTI 6; what PHP pushes has I and no D.
        self.assertEqual((call.cycles, call.steps, call.events), (28, 7, 1 + 6 + 7))
        self.assertEqual(m.read(0x20, 2), bytes([1, 0xF5]))
        self.assertEqual(m.read(0x0100 + before.s - 2, 3), b"\xe9\xff\xff")
        after = call.registers
        self.assertEqual((after.a, after.s, after.p, after.pc), (5, before.s, before.p, 0xFFFF))
        m.back(call.events)
        self.assertEqual((m.registers, m.held), (before, 1))
        with self.assertRaises(mos65.DidNotReturn) as raised:
            m.call("loop", limit=9, interrupt=True)
        m.back(raised.exception.events)
        self.assertEqual((m.registers, m.held), (before, 1))
        for at in range(256):
            m.break_at(0x4000 + at)
        self.refused(mos65.SessionFault, "TableFull", 2, m.call, "count", interrupt=True)
        self.assertEqual((m.registers, m.held), (before, 1))

    def test_a_copy(self):
        m = self.machine(history=30)
        m.send(b"ij")
        m.call("hello")
        m.write(0x20, bytes(range(10)))
        m.irq(True)
        m.call("times10", a=7, x=3)
        m.back(2)
        m.break_at("times10")
        m.watch(0x10)
        other = m.copy()
        self.addCleanup(other.close)
        self.assertEqual(self.all_of(other), self.all_of(m))
        self.assertEqual((other.symbols, other.lines), (m.symbols, m.lines))
        for it in (m, other):
            self.refused(mos65.SessionFault, "AlreadySet", 3, it.break_at, "times10")
            self.refused(mos65.SessionFault, "AlreadySet", 3, it.watch, 0x10)
        rows = [m.last_steps(), other.last_steps()]
        self.assertEqual(rows[0], rows[1])
        other.run(1)
        self.assertNotEqual(other.registers, m.registers)
        m.back(m.held)
        other.back(other.held)
        self.assertEqual(self.all_of(other), self.all_of(m))
        m.close()
        self.refused(mos65.Closed, "Closed", 1, m.copy)

    def test_closed(self):
        m = self.machine()
        m.close()
        m.close()
        self.refused(mos65.Closed, "Closed", 1, m.step)
        self.refused(mos65.Closed, "Closed", 1, m.read, 0)
        self.refused(mos65.Closed, "Closed", 1, m.read, 0, 0)
        self.refused(mos65.Closed, "Closed", 1, m.run, 0)
        self.refused(mos65.Closed, "Closed", 1, m.back, 0)


@unittest.skipUnless(PROGRAM, "MOS65_PROGRAM is not named")
class ByPipe(Calls, unittest.TestCase):
    way = {"library": False, "program": PROGRAM}

    def test_a_program_that_dies(self):
        m = self.machine()
        m._way._engine.kill()
        with self.assertRaises(mos65.EngineDied):
            m.step()

    def test_a_program_that_hangs(self):
        with tempfile.TemporaryDirectory() as folder:
            slow = os.path.join(folder, "slow")
            with open(slow, "w", encoding="ascii") as it:
                it.write(f'#!/bin/sh\n[ "$1" = debug ] && exec sleep 60\nexec {PROGRAM} "$@"\n')
            os.chmod(slow, stat.S_IRWXU)
            with self.assertRaises(mos65.Timeout):
                Machine(SOURCE, library=False, program=slow, timeout=0.2)


@unittest.skipUnless(LIBRARY, "MOS65_LIBRARY is not named")
class ByLibrary(Calls, unittest.TestCase):
    way = {"library": LIBRARY}

    def test_the_library_is_found_in_the_home_folder(self):
        with tempfile.TemporaryDirectory() as home:
            os.makedirs(f"{home}/.local/lib")
            found = f"{home}/.local/lib/libmos65.so"
            os.symlink(os.path.abspath(LIBRARY), found)
            with unittest.mock.patch.dict(os.environ, {"HOME": home, "PATH": home}):
                del os.environ["MOS65_LIBRARY"]
                self.assertEqual(find_library(), found)
                self.assertTrue(Machine(SOURCE).is_library)


if __name__ == "__main__":
    unittest.main()
