"""For pytest: shows, when a test fails, the last twenty steps of each machine that the test has
open or has closed, with their source lines; and collects files of rows, `.t65`, each row as a test.
The machines stay as they are."""

from __future__ import annotations

from typing import List

import pytest

from .machine import Machine

# The last steps of the machines that the running test has closed: of so many, the last ones.
_closed: List[str] = []
_MOST = 10


def _rows_of(machine: Machine) -> str:
    try:
        return "\n".join(str(it) for it in machine.last_steps())
    except Exception as fault:
        return f"no steps: {fault}"


def _keep(machine: Machine) -> None:
    """Keeps the last steps of a machine that is about to be closed."""
    rows = _rows_of(machine)
    if rows:
        _closed.append(rows)
        del _closed[:-_MOST]


def told() -> str:
    """The last steps of the machines that the test has closed, and of all open ones."""
    parts = [*_closed, *(_rows_of(it) for it in list(Machine.open_machines))]
    return "\n\n".join(it for it in parts if it)


def pytest_addoption(parser):
    text = "options of `mos65 test` for each file of rows, as --steps 10000"
    parser.addini("mos65_test", text, type="args", default=[])


def pytest_collect_file(file_path, parent):
    if file_path.suffix == ".t65":
        from .rows import RowsFile

        return RowsFile.from_parent(parent, path=file_path)
    return None


@pytest.hookimpl(hookwrapper=True)
def pytest_runtest_protocol(item, nextitem):
    _closed.clear()
    Machine.closing.append(_keep)
    yield
    Machine.closing.remove(_keep)
    _closed.clear()


@pytest.hookimpl(hookwrapper=True)
def pytest_runtest_makereport(item, call):
    report = (yield).get_result()
    if report.failed:
        text = told()
        if text:
            report.sections.append(("mos65: the last steps", text))
