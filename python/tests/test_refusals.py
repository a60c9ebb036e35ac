"""Tests of what is refused by a plain fault: calls from other threads, arguments that are none, and
files that are neither the program nor the library."""

import os
import stat
import tempfile
import threading
import unittest
import unittest.mock

from ways import LIBRARY, PROGRAM, SECONDS, SOURCE, Ways  # first: it finds the package

import mos65
from mos65 import Machine

# Each call that asks a machine something or changes it. Those that take no state are left out.
CALLS = {
    "at": lambda m: m.at(9, m.nmi),
    "back": lambda m: m.back(1),
    "break_at": lambda m: m.break_at("next"),
    "call": lambda m: m.call("multiply"),
    "clear_break": lambda m: m.clear_break("next"),
    "clear_watch": lambda m: m.clear_watch(0x10),
    "close": lambda m: m.close(),
    "copy": lambda m: m.copy(),
    "coverage": lambda m: m.coverage(),
    "cycles": lambda m: m.cycles,
    "disassemble": lambda m: m.disassemble("next"),
    "event_number": lambda m: m.event_number,
    "held": lambda m: m.held,
    "irq": lambda m: m.irq(True),
    "last_steps": lambda m: m.last_steps(),
    "nmi": lambda m: m.nmi(),
    "on_back": lambda m: m.on_back(print),
    "on_reach": lambda m: m.on_reach("next", m.rts),
    "on_read": lambda m: m.on_read(0x80, 0x80, print),
    "on_write": lambda m: m.on_write(0x80, 0x80, print),
    "output": lambda m: m.output,
    "read": lambda m: m.read(0),
    "registers": lambda m: m.registers,
    "reset": lambda m: m.reset(),
    "rts": lambda m: m.rts(),
    "run": lambda m: m.run(1),
    "run_to": lambda m: m.run_to("next"),
    "run_until_cycle": lambda m: m.run_until_cycle(99),
    "send": lambda m: m.send(1),
    "set": lambda m: m.set(a=1),
    "set_word": lambda m: m.set_word(0x20, 1),
    "step": lambda m: m.step(),
    "warnings": lambda m: m.warnings(),
    "watch": lambda m: m.watch(0x10),
    "word": lambda m: m.word(0x20),
    "write": lambda m: m.write(0x20, 1),
}
STATELESS = {"address", "closing", "line", "open_machines", "where"}


def in_threads(count, call, *words):
    """What a call answers or raises, in each of some threads at once."""
    found = []

    def told():
        try:
            found.append(call(*words))
        except Exception as fault:
            found.append(fault)

    threads = [threading.Thread(target=told) for _ in range(count)]
    for it in threads:
        it.start()
    return threads, found


class Refusals(Ways):
    """What is refused, whichever way leads to the machine."""

    def all_of(self, m):
        return m.registers, m.read(0, 0x10000), m.output, m.held, m.event_number

    def test_each_call_is_for_the_thread_that_opened_the_machine(self):
        self.assertEqual({it for it in vars(Machine) if it[0] != "_"} - STATELESS, {*CALLS})
        m = self.machine()
        before = self.all_of(m)
        for name, call in CALLS.items():
            threads, found = in_threads(1, call, m)
            threads[0].join()
            self.assertIsInstance(found[0], mos65.Refused, name)
            self.assertEqual((found[0].name, self.all_of(m)), ("Thread", before), name)
        m.break_at("next")
        threads, found = in_threads(1, lambda: (m.where("next"), repr(m)))
        threads[0].join()
        self.assertEqual(found, [(f"$0204 next, {SOURCE}:5", "<mos65.Machine: Thread>")])

    def test_threads_beside_a_machine_change_none_of_its_answers(self):
        m = self.machine()
        # 8 passes of LSR BCC DEX BNE, at most with CLC ADC: far over a hundred calls of each thread.
        threads, found = in_threads(4, lambda: [self.other_call(m) for _ in range(150)])
        for left in range(150):
            m.write(0x10, bytes([left, 123]))
            call = m.call("multiply")
            # 172 cycles, and 4 more for each 1 of the first factor.
            self.assertEqual(call.cycles, 172 + 4 * bin(left).count("1"))
            self.assertEqual(m.word(0x12), left * 123)
        for it in threads:
            it.join()
        self.assertEqual(found, [["Thread"] * 150] * 4)

    @staticmethod
    def other_call(m):
        """What another thread is told, which does the same with another factor."""
        try:
            m.write(0x10, b"\xff\xff")
            return m.call("multiply").cycles
        except mos65.Refused as fault:
            return fault.name

    def test_each_thread_has_a_machine_of_its_own(self):
        def products():
            with Machine(SOURCE, timeout=SECONDS, **self.way) as m:
                for left in range(20):
                    m.write(0x10, bytes([left, 123]))
                    m.call("multiply")
                    yield m.word(0x12)

        threads, found = in_threads(4, lambda: [*products()])
        for it in threads:
            it.join()
        self.assertEqual(found, [[left * 123 for left in range(20)]] * 4)

    def test_a_map_that_is_none(self):
        pair = "is no pair (first address, last address)"
        for rom, told in (
            ((0x300,), f"rom=(768,) {pair}"),
            ((), f"rom=() {pair}"),
            (0x300, f"rom=768 {pair}"),
            ((1, 2, 3), f"rom=(1, 2, 3) {pair}"),
            (("300", "3FF"), "rom=('300', '3FF') is no number"),
            ((0x300, None), "rom=(768, None) is no number"),
            ((0x300, 0x10000), "rom=(768, 65536) is not within 0..65535"),
        ):
            fault = self.refused(mos65.MapFault, "Map", None, self.machine, rom=rom)
            self.assertEqual(str(fault), f"Map: {told}")
        self.refused(mos65.MapFault, "BadMap", 1, self.machine, rom=(0x400, 0x300))
        self.refused(mos65.MapFault, "Map", None, self.machine, port="F000")
        self.refused(mos65.MapFault, "History", None, self.machine, history=None)
        fault = self.refused(mos65.MapFault, "Profile", None, self.machine, profile="n")
        self.assertEqual(str(fault), "Profile: profile='n' is neither 'N' nor 'C'")
        m = self.machine(rom=[0x300, 0x3FF])
        m.write(0x0200, b"\x8d\x00\x03\x8d\x00\x04")
        m.set(pc=0x0200, a=7)
        m.run(2)
        self.assertEqual((m[0x300], m[0x400]), (0, 7))


class Files(unittest.TestCase):
    """Files that are neither the program nor the library."""

    def told(self, kind, name, **options):
        """The fault's text, for a source and for bytes alone."""
        texts = set()
        for image in ({"source": SOURCE}, {"source": b"\x60", "at": 0x0200}):
            with self.assertRaises(kind) as raised:
                Machine(**image, **options)
            self.assertEqual(raised.exception.name, name)
            texts.add(str(raised.exception))
        self.assertEqual(len(texts), 1, texts)
        return texts.pop()

    def test_a_library_of_somebody_else(self):
        import ctypes.util

        libc = ctypes.util.find_library("c")
        text = self.told(mos65.Refused, "NoLibrary", library=libc)
        why = "is not the library of mos65: it has no mos65_version_number"
        self.assertEqual(text, f"NoLibrary: {libc} {why}")

    def test_what_is_no_library(self):
        for file in ("/nowhere/libmos65.so", SOURCE):
            text = self.told(mos65.Refused, "NoLibrary", library=file)
            self.assertTrue(text.startswith(f"NoLibrary: {file}: "), text)

    def no_program(self, program, **options):
        return self.told(mos65.EngineDied, "NoProgram", library=False, program=program, **options)

    def test_a_program_of_somebody_else(self):
        text = self.no_program("/bin/true")
        self.assertTrue(text.startswith("NoProgram: /bin/true is not mos65: "), text)
        text = self.no_program("/bin/echo")
        self.assertIn("/bin/echo is not mos65: its answer to --version is ", text)

    def test_what_is_no_program(self):
        text = self.no_program("/nowhere/mos65")
        self.assertEqual(text, "NoProgram: /nowhere/mos65: No such file or directory")
        self.assertEqual(self.no_program(SOURCE), f"NoProgram: {SOURCE}: Permission denied")

    def test_a_program_that_does_not_say_what_it_is(self):
        with tempfile.TemporaryDirectory() as folder:
            slow = os.path.join(folder, "slow")
            with open(slow, "w", encoding="ascii") as it:
                it.write("#!/bin/sh\nexec sleep 60\n")
            os.chmod(slow, stat.S_IRWXU)
            with unittest.mock.patch("mos65.words.SECONDS", 0.2):
                text = self.no_program(slow)
            self.assertEqual(text, f"NoProgram: {slow} does not answer --version in 0.2 seconds")


@unittest.skipUnless(PROGRAM, "MOS65_PROGRAM is not named")
class RefusalsByPipe(Refusals, unittest.TestCase):
    way = {"library": False, "program": PROGRAM}


@unittest.skipUnless(LIBRARY, "MOS65_LIBRARY is not named")
class RefusalsByLibrary(Refusals, unittest.TestCase):
    way = {"library": LIBRARY}


if __name__ == "__main__":
    unittest.main()
