"""Tests of files of rows as tests of pytest. Where there is no pytest, what is read of the
program's TAP is tested alone."""

import importlib.util
import os
import subprocess
import sys
import tempfile
import unittest
from xml.etree import ElementTree

from ways import PROGRAM  # first: it finds the package

from mos65.tap import rows_in

HAS_PYTEST = getattr(sys.modules.get("pytest"), "__file__", None) is not None
PACKAGE = os.path.dirname(os.path.dirname(importlib.util.find_spec("mos65").origin))

TOLD = """TAP version 13
ok 1 - a.t65:2 call double A=1 -> A=2
not ok 2 - b.a65:3 call double A=1 -> A=3
# expected A=3, came 02
#   0200  0A        ASL A
# b.a65: 0 passed, 1 failed, 0 of 1 points
not ok 3 - c.a65: line 3: Syntax 4: RST is no mnemonic; RTS is
# c.a65:3:9: Syntax 4: RST is no mnemonic; RTS is
1..3
"""

SOURCE = "*=$0200\ndouble: ASL A\n RTS\n"
ROWS = "source double.a65\ncall double A=1 -> A=2\n\ncall double A=2 -> A=5 ; no\n"
# It keeps what the program tells of both rows apart.
SETTINGS = "[pytest]\nmos65_test = --steps 2\n"


class Tap(unittest.TestCase):
    def test_rows(self):
        rows = list(rows_in(TOLD.splitlines()))
        self.assertEqual([it.number for it in rows], [1, 2, 3])
        self.assertEqual([it.is_passed for it in rows], [True, False, False])
        self.assertEqual([it.line for it in rows], [2, 3, None])
        self.assertEqual(rows[0].text, "a.t65:2 call double A=1 -> A=2")
        self.assertEqual(rows[1].told[:2], ["expected A=3, came 02", "  0200  0A        ASL A"])
        self.assertEqual(rows[2].told, ["c.a65:3:9: Syntax 4: RST is no mnemonic; RTS is"])
        self.assertEqual(list(rows_in(["TAP version 13", "1..0"])), [])


if HAS_PYTEST and PROGRAM:

    class InPytest(unittest.TestCase):
        def test_each_row_is_a_test(self):
            with tempfile.TemporaryDirectory() as room:
                texts = {"double.a65": SOURCE, "double.t65": ROWS, "pytest.ini": SETTINGS}
                for name, text in texts.items():
                    with open(f"{room}/{name}", "w", encoding="ascii") as it:
                        it.write(text)
                words = [sys.executable, "-m", "pytest", "-p", "mos65.pytest_plugin", "-q"]
                words += ["-p", "no:cacheprovider", "--junitxml=told.xml"]
                env = {**os.environ, "PYTHONPATH": PACKAGE, "MOS65_PROGRAM": PROGRAM}
                ran = subprocess.run(words, cwd=room, env=env, capture_output=True, text=True)
                cases = ElementTree.parse(f"{room}/told.xml").findall(".//testcase")
            self.assertEqual(ran.returncode, 1, ran.stdout)
            names = [it.get("name") for it in cases]
            self.assertEqual(names, ["2 call double A=1 -> A=2", "4 call double A=2 -> A=5"])
            self.assertEqual([len(it) for it in cases], [0, 1])
            self.assertIn("expected A=05, came 04", ran.stdout)
            self.assertIn("double.a65:2", ran.stdout)


if __name__ == "__main__":
    unittest.main()
