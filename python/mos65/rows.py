"""Files of rows, `.t65`, as tests of pytest. The program runs the rows: `mos65 test`, whose TAP
has a test for each."""

from __future__ import annotations

import re
import subprocess
from typing import Dict, List, Optional

import pytest

from .faults import EngineDied
from .tap import Row, rows_in
from .words import find_program


def without_steps(words: List[str]) -> List[str]:
    """Options without the one that says how many steps a call may have."""
    return re.sub(r"(?:\A|\0)--steps[=\0][^\0]*", "", "\0".join(words)).strip("\0").split("\0")


class RowsFile(pytest.File):
    """A file of rows. One run of the program serves its tests, and is read as far as the test that
    is asked for."""

    _program: Optional["subprocess.Popen[str]"] = None

    def _start(self, words: List[str], errors: int) -> "subprocess.Popen[str]":
        program = [find_program(None), "test", *filter(None, words), "--", self.path.name]
        how = {"stdin": subprocess.DEVNULL, "stdout": subprocess.PIPE, "cwd": str(self.path.parent)}
        return subprocess.Popen(program, **how, stderr=errors, text=True, errors="replace")

    def collect(self):
        """The tests are those of a run in which each call is ended after one step."""
        words = without_steps(self.config.getini("mos65_test"))
        try:
            program = self._start([*words, "--steps", "1"], subprocess.PIPE)
        except (EngineDied, OSError) as fault:
            raise self.CollectError(f"mos65 test cannot be run: {fault}") from None
        output, errors = program.communicate()
        if program.returncode not in (0, 1):
            raise self.CollectError(errors)
        for row in rows_in(output.splitlines()):
            own = f"{self.path.name}:"
            name = row.text[len(own) :].lstrip() if row.text.startswith(own) else row.text
            yield RowItem.from_parent(self, name=name, row=row)

    def setup(self) -> None:
        self._found: Dict[int, Row] = {}
        self._program = self._start(self.config.getini("mos65_test"), subprocess.DEVNULL)
        self._rest = rows_in(self._program.stdout)

    def teardown(self) -> None:
        if self._program is not None:
            self._program.kill()
            self._program.communicate()

    def row(self, number: int) -> Optional[Row]:
        """A test that has ended; None where the program tells of none."""
        while number not in self._found:
            row = next(self._rest, None)
            if row is None:
                return None
            self._found[row.number] = row
        return self._found[number]


class RowFailed(Exception):
    """A row fails, with what the program tells of it."""


class RowItem(pytest.Item):
    """A row of a file, or what is wrong with the file."""

    def __init__(self, *, row: Row, **options) -> None:
        super().__init__(**options)
        self._row = row

    def runtest(self) -> None:
        row = self.parent.row(self._row.number)
        if row is None or row.text != self._row.text:
            raise RowFailed("mos65 test tells nothing of this row: has its file changed?")
        if not row.is_passed:
            raise RowFailed("\n".join(row.told))

    def repr_failure(self, excinfo, style=None):
        if isinstance(excinfo.value, RowFailed):
            return f"{self._row.text}\n{excinfo.value}"
        return super().repr_failure(excinfo)

    def reportinfo(self):
        line = self._row.line
        return self.path, None if line is None else line - 1, self._row.text
