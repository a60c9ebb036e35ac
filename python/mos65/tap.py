"""The tests that `mos65 test` tells of, as TAP."""

from __future__ import annotations

import re
from typing import Iterable, Iterator, List, NamedTuple, Optional

_TEST = re.compile(r"(not )?ok (\d+) - (.*)")
_PLAN = re.compile(r"1\.\.\d+")
# A file of rows, and the line of a row in it.
_LINE = re.compile(r"[^:]*:(\d+) .*")


class Row(NamedTuple):
    """A test of TAP, and what is told of it where it fails."""

    number: int
    is_passed: bool
    text: str
    told: List[str]

    @property
    def line(self) -> Optional[int]:
        """The line of the row, counted from 1; None for what is wrong with a file."""
        found = _LINE.fullmatch(self.text)
        return int(found[1]) if found else None


def rows_in(lines: Iterable[str]) -> Iterator[Row]:
    """The tests of TAP, each once all that is told of it has come."""
    row: Optional[Row] = None
    for line in lines:
        line = line.rstrip("\n")
        found = _TEST.fullmatch(line)
        if found or _PLAN.fullmatch(line):
            if row is not None:
                yield row
            row = Row(int(found[2]), not found[1], found[3], []) if found else None
        elif row is not None and line.startswith("#"):
            row.told.append(line[2:])
    if row is not None:
        yield row
