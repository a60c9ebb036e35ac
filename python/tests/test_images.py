"""Tests of images in each form, of names for them, and of what a source is told, by both ways.

The check sums of the records are sums by hand: $03 + $02 + $E6 + $10 + $60 is $15B, and $A5 more is
$200; S-records have $FF less their sum."""

import os
import tempfile
import unittest
import warnings

from ways import LIBRARY, PROGRAM, SECONDS, Ways  # first: it finds the package

import mos65

BYTES = b"\xe6\x10\x60"
ROWS = [(0x0200, "INC $10"), (0x0202, "RTS")]
HEX = b":03020000E61060A5\n:00000001FF\n"
SREC = b"S1060200E61060A1\nS9030000FC\n"
TAPE = b";030200E61060015B\r\n;0000010001\r\n"
PRG = b"\x00\x02" + BYTES
FORMS = {"hex": HEX, "srec": SREC, "prg": PRG, "tape": TAPE}
ENDINGS = {"a.hex": HEX, "a.IHX": HEX, "a.s19": SREC, "a.srec": SREC, "a.prg": PRG, "a.ptp": TAPE}

SLIPS = b"*=$0200\n RST\n NOP\n RTX\n"
PLAIN = b"*=$0200\nstart: LDX #0\n CPX 11\n RTS\n*=$FFFC\n.WORD start\n"


class Images(Ways):
    """What a machine starts with, whichever way leads to it."""

    def setUp(self):
        room = tempfile.TemporaryDirectory()
        self.addCleanup(room.cleanup)
        self.room = room.name

    def file(self, name, text):
        path = os.path.join(self.room, name)
        with open(path, "wb") as it:
            it.write(text)
        return path

    def test_forms(self):
        for form, text in FORMS.items():
            with self.subTest(form):
                m = self.machine(text, form=form)
                self.assertEqual(m.disassemble(0x0200, 2), ROWS)
                self.assertEqual((m.symbols, m.lines, m.warnings()), ({}, {}, ""))
                with m.copy() as other:
                    self.assertEqual(other.disassemble(0x0200, 2), ROWS)
        self.assertEqual(self.machine(BYTES, form="bin", at=0x0200).disassemble(0x0200, 2), ROWS)

    def test_endings(self):
        for name, text in ENDINGS.items():
            with self.subTest(name):
                m = self.machine(self.file(name, text))
                self.assertEqual(m.disassemble(0x0200, 2), ROWS)
        m = self.machine(self.file("a.bin", BYTES), at=0x0200)
        self.assertEqual(m.disassemble(0x0200, 2), ROWS)
        self.assertEqual(self.machine(self.file("b.hex", b"NOP\n"), form="source").lines, {0: 1})

    def test_images_that_are_refused(self):
        wrong = HEX.replace(b"A5", b"A6")
        fault = self.refused(mos65.ImageFault, "BadChecksum", 5, self.machine, wrong, form="hex")
        self.assertEqual((fault.line, fault.column), (1, 16))
        self.refused(mos65.Refused, "Words", None, self.machine, self.file("a.bin", BYTES))
        self.refused(mos65.Refused, "Words", None, self.machine, HEX, form="hex", at=0x0200)
        self.refused(mos65.Refused, "Words", None, self.machine, HEX, form="hex", tape=False)
        self.refused(mos65.Refused, "Form", None, self.machine, HEX, form="ihex")
        for options in ({"at": 0xF003}, {"form": "tape"}):
            text = b"a" if "at" in options else b";01F0039F0193\r\n;0000010001\r\n"
            kind = mos65.SessionFault, "PortAddress", 5
            fault = self.refused(*kind, self.machine, text, **options)
            self.assertIn("$F000-$F003", str(fault))

    def test_names(self):
        files = {
            "a.sym": b"count = $0200\nend = $0202\nlast = $0202\nsize = 3\n",
            "a.a65": b"size = 3\n*=$0200\ncount: INC $10\nend:\nlast: RTS\n",
        }
        wanted = {"count": 0x0200, "end": 0x0202, "last": 0x0202, "size": 3}
        for name, text in files.items():
            m = self.machine(BYTES, at=0x0200, symbols=self.file(name, text))
            self.assertEqual(m.symbols, wanted)
            self.assertEqual((m.call("count").steps, m.read(0x10)), (2, b"\1"))
            with m.copy() as other:
                self.assertEqual(other.symbols, wanted)

    def test_names_of_other_assemblers(self):
        labels = b"al C:0200 .count\nal C:0202 .end\nal C:0202 .last\nal C:0010 ._x\n"
        path = self.file("a.lbl", labels)
        with warnings.catch_warnings(record=True) as told:
            warnings.simplefilter("always")
            m = self.machine(HEX, form="hex", symbols=path)
        self.assertEqual(m.symbols, {"count": 0x0200, "end": 0x0202})
        self.assertEqual([str(it.message) for it in told], [f"{path}: names left out: 1"])

    def test_names_that_are_refused(self):
        path = self.file("a.lbl", b"no names\n")
        with self.assertRaises(mos65.Fault):
            self.machine(BYTES, at=0x0200, symbols=path)
        with self.assertRaises(FileNotFoundError):
            self.machine(BYTES, at=0x0200, symbols=f"{path}.not")
        self.refused(mos65.Refused, "Words", None, self.machine, PLAIN, symbols=path)

    def test_all_faults_of_a_source(self):
        path = self.file("slips.a65", SLIPS)
        for source, name in ((SLIPS, "source"), (path, path)):
            fault = self.refused(mos65.AssemblyFault, "Syntax", 4, self.machine, source)
            self.assertEqual(fault.line, 2)
            heads = [it for it in fault.faults.split("\n") if it.startswith(name)]
            places = [it.split(" ")[0] for it in heads]
            self.assertEqual(places, [f"{name}:2:2:", f"{name}:4:2:"])
            self.assertIn("RST is no mnemonic; RTS is", str(fault))
            self.assertTrue(str(fault).startswith("line 2: Syntax (4)\n"))

    def test_warnings(self):
        m = self.machine(PLAIN)
        # CPX 11 compares with the byte at address 11.
        self.assertTrue(m.warnings().startswith("source:3:6: warning: PlainNumber"))
        m = self.machine(self.file("plain.a65", PLAIN), profile="C", port=None)
        self.assertTrue(m.warnings().startswith(f"{self.room}/plain.a65:3:6: warning: PlainNumber"))
        m = self.machine(b"*=$0200\nstart: RTS\n*=$FFFC\n.WORD start\n")
        self.assertEqual(m.warnings(), "")


@unittest.skipUnless(PROGRAM, "MOS65_PROGRAM is not named")
class ImagesByPipe(Images, unittest.TestCase):
    way = {"library": False, "program": PROGRAM}

    def test_both_ways_say_the_same(self):
        if not LIBRARY:
            return
        for source in (SLIPS, b"\xe4\n", b"x = 5\ny = x\n" * 3, b""):
            told = []
            for way in (self.way, {"library": LIBRARY}):
                try:
                    with mos65.Machine(source, timeout=SECONDS, **way) as m:
                        told.append(m.warnings())
                except mos65.AssemblyFault as fault:
                    told.append(str(fault))
            self.assertEqual(told[0], told[1])


@unittest.skipUnless(LIBRARY and PROGRAM, "MOS65_LIBRARY is not named")
class ImagesByLibrary(Images, unittest.TestCase):
    # The program reads what the library does not.
    way = {"library": LIBRARY, "program": PROGRAM}


if __name__ == "__main__":
    unittest.main()
