"""Who asks for an interrupt: several devices share the IRQ line."""

from __future__ import annotations

from collections import deque
from typing import Deque, FrozenSet, Hashable, Tuple


class RequestLine:
    """The line is 1 while anybody asks. Who asks goes back with the machine."""

    def __init__(self) -> None:
        # Who asks, each time with the event that led to it.
        self._asking: Deque[Tuple[int, FrozenSet[Hashable]]] = deque([(0, frozenset())])

    def take(self, other: "RequestLine") -> None:
        """The line of another machine."""
        self._asking = deque(other._asking)

    def after(self, level: bool, by: Hashable) -> FrozenSet[Hashable]:
        """Who asks once this one does, or no longer does."""
        now = self._asking[-1][1]
        return now | {by} if level else now - {by}

    def note(self, number: int, asking: FrozenSet[Hashable], history: int) -> None:
        """Who asks from this event on."""
        states = self._asking
        if states[-1][0] == number:
            states.pop()
        states.append((number, asking))
        while len(states) > 1 and states[1][0] <= number - history:
            states.popleft()

    def went_back(self, number: int) -> None:
        """The machine went back to this event."""
        while len(self._asking) > 1 and self._asking[-1][0] > number:
            self._asking.pop()
