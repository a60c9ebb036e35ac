"""The events that a machine has made since its start, so that they can be made again.

An event leads from one state to exactly one other. So a machine that goes back over events, and
makes the same ones again, is where it was, with the same history.

A run of events is a kind, what it is made with, and how many events it is:

    step      so many steps
    set       a register and its value
    write     an address and bytes: one event for each three of them
    push      a depth below the stack pointer and a byte that is put there
    lower     by how much the stack pointer is lowered
    send      bytes of input: one event for each
    irq       the line's level
    nmi       an NMI
    reset     a reset
    call      an address and the registers A, X, Y or None for each: what `call` makes
"""

from __future__ import annotations

from collections import deque
from typing import Any, Deque, Iterable, List, Tuple

Run = Tuple[str, Any, int]

# A call's return address pushed, the stack pointer lowered, and PC set.
CALL_EVENTS = 4
# So many runs are kept. It is more than the most events that a machine can go back over.
_MOST = 100_000


def _given(a: Any, x: Any, y: Any) -> List[Run]:
    """Registers set, those that are not None."""
    return [("set", it, 1) for it in (("A", a), ("X", x), ("Y", y)) if it[1] is not None]


def calling(address: int, a: Any, x: Any, y: Any) -> List[Run]:
    """What a call makes before its first step: registers set, and what a JSR at $FFFC does."""
    return [
        *_given(a, x, y),
        ("push", (0, b"\xff"), 1),
        ("push", (1, b"\xfe"), 1),
        ("lower", 2, 1),
        ("set", ("PC", address), 1),
    ]


def interrupting(address: int, a: Any, x: Any, y: Any, status: int, is_c: bool) -> List[Run]:
    """The same for an interrupt's entry at $FFFF: it pushes PC and the status, and sets I. In
    profile C it clears D too."""
    after = (status & 0xF7 if is_c else status) | 0x04
    return [
        *_given(a, x, y),
        ("push", (0, b"\xff"), 1),
        ("push", (1, b"\xff"), 1),
        ("push", (2, bytes([status])), 1),
        ("lower", 3, 1),
        ("set", ("P", after), 1),
        ("set", ("PC", address), 1),
    ]


def parts(run: Run) -> List[Run]:
    """The same events as runs of one each, or of steps alone."""
    kind, value, count = run
    if kind == "write":
        address, data = value
        starts = range(0, len(data), 3)
        return [("write", (address + at, data[at : at + 3]), 1) for at in starts]
    if kind == "send":
        return [("send", value[at : at + 1], 1) for at in range(count)]
    if kind == "call":
        ready = calling(*value)
        steps = count - len(ready)
        return [*ready, ("step", None, steps)] if steps else ready
    return [run]


def first(run: Run, count: int) -> List[Run]:
    """The first events of a run."""
    if run[0] == "step":
        return [("step", None, count)]
    found: List[Run] = []
    for it in parts(run):
        if count == 0:
            break
        some = min(count, it[2])
        found.append(it if some == it[2] else ("step", None, some))
        count -= some
    return found


def last(run: Run, count: int) -> List[Run]:
    """The last events of a run."""
    if run[0] == "step":
        return [("step", None, count)]
    found: List[Run] = []
    for it in reversed(parts(run)):
        if count == 0:
            break
        some = min(count, it[2])
        found.append(it if some == it[2] else ("step", None, some))
        count -= some
    return found[::-1]


def make(way: Any, run: Run) -> None:
    """Makes the events of a run."""
    kind, value, count = run
    if kind == "step":
        for _ in range(count):
            way.step()
    elif kind == "set":
        way.set(*value)
    elif kind == "write":
        way.write(*value)
    elif kind == "push":
        depth, byte = value
        way.write(0x100 + (way.registers().s - depth) % 256, byte)
    elif kind == "lower":
        way.set("S", (way.registers().s - value) % 256)
    elif kind == "send":
        way.send(value)
    elif kind == "irq":
        way.irq(value)
    elif kind == "nmi":
        way.nmi()
    elif kind == "reset":
        way.reset()
    else:
        for it in parts(run):
            make(way, it)


def make_all(way: Any, runs: Iterable[Run]) -> None:
    """Makes events on a machine that has neither breakpoints nor watches."""
    for run in runs:
        for it in parts(run):
            if it[0] == "step":
                way.run(it[2])
            else:
                make(way, it)


class Events:
    """The events that lead to a machine's current state, the last 100,000 runs of them."""

    def __init__(self) -> None:
        self.runs: Deque[Run] = deque()
        # How many events there are since the start, also those that are no longer here.
        self.number = 0
        self.is_whole = True

    def take(self, other: "Events") -> None:
        """The events of another machine were made."""
        self.runs, self.number = deque(other.runs), other.number

    def note(self, kind: str, value: Any, count: int) -> None:
        """Events that were made."""
        if count == 0:
            return
        runs = self.runs
        self.number += count
        if kind == "step" and runs and runs[-1][0] == "step":
            count += runs.pop()[2]
        runs.append((kind, value, count))
        if len(runs) > _MOST:
            runs.popleft()
            self.is_whole = False

    def undo(self, count: int) -> None:
        """The last events were gone back over."""
        runs = self.runs
        self.number -= count
        if count and runs[-1][2] == count:
            runs.pop()
            return
        while count:
            run = runs.pop()
            if run[2] > count:
                runs.extend(first(run, run[2] - count))
                return
            count -= run[2]

    def with_steps(self, steps: int, most: int) -> List[Run]:
        """The last events, with so many steps among them if there are, and so many in all at most:
        no event stands before the first of these steps."""
        found: List[Run] = []
        for run in reversed(self.runs):
            for it in reversed(last(run, min(run[2], most))):
                if steps == 0 or most == 0:
                    break
                if it[0] == "step":
                    it = ("step", None, min(it[2], steps, most))
                    steps -= it[2]
                most -= it[2]
                found.append(it)
            if steps == 0 or most == 0:
                break
        return found[::-1]

    def is_nmi_pending(self) -> bool:
        """Whether an NMI was signalled after the last step and the last reset."""
        for kind, value, count in reversed(self.runs):
            has_steps = kind == "call" and count > len(calling(*value))
            if has_steps or kind in ("step", "reset"):
                return False
            if kind == "nmi":
                return True
        return False
