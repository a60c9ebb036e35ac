"""What the tests of both ways share: the package's folder on the path, a stand-in for pytest where
there is none, and a machine by one way."""

import os
import sys
import types

HERE = os.path.dirname(os.path.abspath(__file__))
TOP = os.path.dirname(os.path.dirname(HERE))
sys.path.insert(0, os.path.dirname(HERE))

try:
    import pytest  # noqa: F401
except ImportError:
    # Where there is no pytest its hook is called by hand.
    stand_in = types.ModuleType("pytest")
    stand_in.hookimpl = lambda **options: lambda hook: hook
    sys.modules["pytest"] = stand_in

from mos65 import Machine  # noqa: E402

SOURCE = os.path.join(HERE, "routines.a65")
PROGRAM = os.environ.get("MOS65_PROGRAM")
LIBRARY = os.environ.get("MOS65_LIBRARY")
# A program that is not proved is slow, the more so beside other checks.
SECONDS = 600 if os.environ.get("MOS65_SLOW") == "1" else 10


class Ways:
    """A machine by one way, and what it refuses."""

    way: dict = {}

    def machine(self, source=SOURCE, **options):
        made = Machine(source, timeout=SECONDS, **options, **self.way)
        self.addCleanup(made.close)
        return made

    def refused(self, kind, name, number, call, *words, **options):
        with self.assertRaises(kind) as raised:
            call(*words, **options)
        self.assertEqual((raised.exception.name, raised.exception.number), (name, number))
        return raised.exception
