"""Devices at addresses, and what happens at a cycle.

An instruction that reads where a device stands finds the byte that the device gives, which is put
into memory by an event before the step. So the machine does what it does without a device, and
goes back over the byte as over any other event.
"""

from __future__ import annotations

from collections import deque
from dataclasses import dataclass, replace
from typing import Any, Callable, Deque, Dict, List, Optional, Tuple

from . import events
from .faults import Refused
from .values import Registers, RunEnd, Why

Giver = Callable[[int], int]
Taker = Callable[[int, int], None]

# No step takes more cycles.
MOST_CYCLES = 7


def has_entered(before: Registers, after: Registers) -> bool:
    """Whether a step was an interrupt's entry, or a BRK: 7 cycles, and three bytes pushed."""
    return after.cycles - before.cycles == 7 and after.s == (before.s - 3) % 256


def steps_to(cycles: int) -> int:
    """The last of so many steps begins before so many cycles have passed."""
    return -(-cycles // MOST_CYCLES)


@dataclass
class _Timer:
    """What is called at a cycle, the event that set it, and the first event after its call."""

    cycle: int
    call: Callable[[], None]
    made: int
    fired: Optional[int] = None


@dataclass
class _Reaction:
    """The events that a device has made, how many there were before them, and the least number to
    which the machine may go back so that they are still to come."""

    start: int
    runs: List[events.Run]
    least: int

    @property
    def end(self) -> int:
        return self.start + sum(it[2] for it in self.runs)


class Devices:
    """The devices of a machine, and its runs while it has some."""

    def __init__(self, way: Any, made: events.Events, history: int) -> None:
        self._way, self._events, self._history = way, made, history
        self._readers: Dict[int, Giver] = {}
        self._writers: Dict[int, Taker] = {}
        # A mark for each address at which a device stands.
        self._marks = b""
        # What is called where a step begins, by address.
        self._reaches: Dict[int, Callable[[], None]] = {}
        # Such a call: its address, and how many events there were before it and after it.
        self._reached: Deque[Tuple[int, int, int]] = deque()
        # Where runs stop for the user: the breakpoints, and where this run is to end.
        self.breaks: List[int] = []
        self.until: Optional[int] = None
        # Whether there ever was a device or something at a cycle.
        self.is_used = False
        self._told_back: List[Callable[[int], None]] = []
        self._waiting: List[_Timer] = []
        self._fired: List[_Timer] = []
        self._reactions: Deque[_Reaction] = deque()
        # What a device made that was gone back over, while what it reacted to was not.
        self._owed: List[events.Run] = []
        # While a device is at work: the event that it works for, and what it makes.
        self.moment: Optional[int] = None
        self._making: List[events.Run] = []
        self._is_later = False

    def place(self, places: range, giver: Optional[Giver], taker: Optional[Taker]) -> None:
        """A device is put at addresses. Raises Refused, Taken, where another one is."""
        self.is_used = True
        table: Dict[int, Any] = self._readers if taker is None else self._writers
        if any(it in table for it in places):
            raise Refused("Taken", text=f"${places[0]:04X}..${places[-1]:04X}")
        table.update((it, giver or taker) for it in places)
        marks = bytearray(self._marks or bytes(0x10000))
        marks[places[0] : places[-1] + 1] = b"\1" * len(places)
        self._marks = bytes(marks)

    def place_reach(self, address: int, call: Callable[[], None]) -> None:
        """What is called where a step begins at an address. Raises Refused, Taken, where something
        is; SessionFault, TableFull."""
        if address in self._reaches:
            raise Refused("Taken", text=f"${address:04X}")
        if address not in self.breaks:
            self._way.set_break(address)
        self.is_used = True
        self._reaches[address] = call

    def is_reach(self, address: int) -> bool:
        """Whether runs of the machine itself stop at an address, whatever the user's do."""
        return address in self._reaches

    # ---- what a device does

    def _told(self, moment: int, call: Callable[..., Any], *words: int) -> Any:
        self.moment, self._making = moment, []
        try:
            return call(*words)
        finally:
            self.moment = None

    def make(self, run: events.Run) -> None:
        """An event that a device makes: what a reader makes comes after the step that reads."""
        self._making.append(run)
        if not self._is_later:
            self._make(run)

    def _make(self, run: events.Run) -> None:
        events.make(self._way, run)
        self._events.note(*run)

    def _reacted(self, start: int, least: int) -> None:
        """A device has made events, or none."""
        made, self._making = self._making, []
        if not made:
            return
        self._reactions.append(_Reaction(start, made, least))
        while self._reactions[0].end <= self._events.number - self._history:
            self._reactions.popleft()

    def _give(self, giver: Giver, address: int) -> None:
        """Puts the byte that a device gives into memory."""
        self._is_later = True
        try:
            byte = self._told(self._events.number + 2, giver, address)
        finally:
            self._is_later = False
        if not isinstance(byte, int) or not 0 <= byte <= 0xFF:
            raise Refused("Value", text=f"a device gives {byte!r} at ${address:04X}")
        self._make(("write", (address, bytes([byte])), 1))

    def _gave(self) -> None:
        """Makes what a reader has asked for, after the step."""
        start = self._events.number
        for run in self._making:
            self._make(run)
        self._reacted(start, start)

    def _take(self, taker: Taker, address: int) -> None:
        start = self._events.number
        self._told(start, taker, address, self._way.read(address, 1)[0])
        self._reacted(start, start)

    # ---- cycles

    def at(self, cycle: int, call: Callable[[], None]) -> None:
        """Calls `call` before the first step that begins when so many cycles have passed."""
        self.is_used = True
        made = self._events.number if self.moment is None else self.moment
        self._waiting.append(_Timer(cycle, call, made))
        self._waiting.sort(key=lambda it: it.cycle)

    def _fire(self) -> Optional[int]:
        """Calls what is due, and returns in how many cycles the next is."""
        now = self._way.registers().cycles
        for timer in [it for it in self._waiting if it.cycle <= now]:
            start = self._events.number
            self._waiting.remove(timer)
            timer.fired = start + 1
            self._fired.append(timer)
            self._told(start + 1, timer.call)
            self._reacted(start, start + 1)
        oldest = self._events.number - self._history
        self._fired = [it for it in self._fired if it.fired > oldest]
        return max(1, self._waiting[0].cycle - now) if self._waiting else None

    # ---- places

    def _reach(self) -> Optional[int]:
        """Calls what waits at PC, and then at the place to which that call has set PC.

        Returns where the run has to stop because of that."""
        while True:
            here, start = self._way.registers().pc, self._events.number
            if here not in self._reaches or self._is_called(here, start):
                return None
            self._told(start + 1, self._reaches[here])
            self._reacted(start, start + 1)
            self._reached.append((here, start, self._events.number))
            while self._reached and self._reached[0][2] < self._events.number - self._history:
                self._reached.popleft()
            there = self._way.registers().pc
            if there != here and self._is_stop(there):
                return there

    def _is_called(self, address: int, number: int) -> bool:
        """Whether the call at an address was made, and no event came after those of the call."""
        return bool(self._reached) and self._reached[-1][::2] == (address, number)

    def _is_stop(self, address: Optional[int]) -> bool:
        return address == self.until or address in self.breaks

    # ---- going back

    def on_back(self, call: Callable[[int], None]) -> None:
        """Calls `call` with the event's number after each time that the machine goes back."""
        self.is_used = True
        self._told_back.append(call)

    def went_back(self) -> None:
        """What was set since then is gone, and what was called since then is still to come."""
        number = self._events.number
        kept = [it for it in (*self._waiting, *self._fired) if it.made <= number]
        for timer in kept:
            if timer.fired is not None and timer.fired > number:
                timer.fired = None
        self._fired = [it for it in kept if it.fired is not None]
        self._waiting = [it for it in kept if it.fired is None]
        self._waiting.sort(key=lambda it: it.cycle)
        while self._reactions and self._reactions[-1].least > number:
            self._reactions.pop()
        while self._reached and self._reached[-1][1] >= number:
            self._reached.pop()
        self._owed = []
        if self._reactions and self._reactions[-1].end > number:
            left = self._reactions[-1].end - number
            runs = [it for run in self._reactions[-1].runs for it in events.parts(run)]
            self._owed = runs[-left:]
        for call in self._told_back:
            call(number)

    # ---- runs

    def step(self) -> RunEnd:
        """A run of one step, which no breakpoint keeps from it."""
        end = self.run(1)
        while end.why is Why.BREAK and end.steps == 0:
            end = self.run(1)
        return end

    def run(self, limit: int) -> RunEnd:
        """A run, with each device told."""
        steps = 0
        while steps < limit:
            wait = self._ready()
            stop = self._reach() if self._reaches else None
            if stop is not None:
                return RunEnd(steps, Why.BREAK, stop)
            left = limit - steps if wait is None else min(limit - steps, steps_to(wait))
            end = self._some(left)
            steps += end.steps
            if end.why is Why.LIMIT and end.steps < left:
                end = self._step()
                steps += end.steps
            if self._is_over(end):
                return replace(end, steps=steps)
        return RunEnd(steps, Why.LIMIT)

    def _is_over(self, end: RunEnd) -> bool:
        """Whether a part of a run ends the run too: its own stops for calls do not."""
        is_own = end.why is Why.BREAK and end.address in self._reaches
        return end.why is not Why.LIMIT and not (is_own and not self._is_stop(end.address))

    def _ready(self) -> Optional[int]:
        """Makes what is owed and calls what is due, and returns in how many cycles the next is."""
        while self._owed:
            self._make(self._owed.pop(0))
        return self._fire() if self._waiting else None

    def _some(self, limit: int) -> RunEnd:
        """A run that ends too before an instruction that touches a device."""
        way = self._way
        end = way.run_to_access(self._marks, limit) if self._marks else way.run(limit)
        self._events.note("step", None, end.steps)
        return end

    def _one(self) -> RunEnd:
        end = self._way.run(1)
        self._events.note("step", None, end.steps)
        return end

    def _step(self) -> RunEnd:
        """A step that touches a device.

        An interrupt that comes in the instruction's place reads and stores nothing.
        """
        read, store = self._way.access()
        giver = None if read is None else self._readers.get(read)
        taker = None if store is None else self._writers.get(store)
        if giver is not None:
            end = self._entry()
            if end is not None:
                return end
            self._give(giver, read)
        before = self._way.registers()
        end = self._one()
        if giver is not None:
            self._gave()
        if taker is not None and end.steps and not has_entered(before, self._way.registers()):
            self._take(taker, store)
        return end

    def _entry(self) -> Optional[RunEnd]:
        """The step, where it is an interrupt's entry or is refused; else nothing is done.

        It is made and gone back over, since only the step itself tells whether an interrupt is
        asked for. While I is set only an NMI is.
        """
        before = self._way.registers()
        if before.i and not self._events.is_nmi_pending():
            return None
        end = self._way.run(1)
        if end.steps and not has_entered(before, self._way.registers()):
            self._way.back(1)
            return None
        self._events.note("step", None, end.steps)
        return end


class Device:
    """A device whose state goes back with the machine: a value that is replaced and never changed.

        class Latch(mos65.Device):
            def __init__(self, m, address):
                super().__init__(m, 0)
                m.on_read(address, address, lambda _: self.state)
                m.on_write(address, address, self.store)

            def store(self, address, byte):
                self.state = byte
    """

    def __init__(self, machine: Any, state: Any) -> None:
        self.machine = machine
        # States, each with the event that led to it.
        self._states: Deque[Tuple[int, Any]] = deque([(0, state)])
        machine.on_back(self._went_back)

    @property
    def state(self) -> Any:
        """The state now."""
        return self._states[-1][1]

    @state.setter
    def state(self, value: Any) -> None:
        number = self.machine.event_number
        if self._states[-1][0] == number:
            self._states.pop()
        self._states.append((number, value))
        while len(self._states) > 1 and self._states[1][0] <= number - self.machine.history:
            self._states.popleft()

    def _went_back(self, number: int) -> None:
        while len(self._states) > 1 and self._states[-1][0] > number:
            self._states.pop()
