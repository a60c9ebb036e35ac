"""A session: a list of one whole state more than its history has events at most, beside the
lists of breakpoints and watchpoints."""

from collections import deque, namedtuple

import machine

SESSION_FAULTS = {1: "NoHistory", 2: "TableFull", 3: "AlreadySet", 4: "NotSet",
                  5: "PortAddress", 6: "OutOfMemory"}
TABLE_MOST = 256

RunEnd = namedtuple("RunEnd", "did why")
# why: ("WATCH", address), ("BREAK", address), ("LIMIT",), ("REFUSED", refusal)


class SessionFault(Exception):
    def __init__(self, number, held=None):
        Exception.__init__(self, number, held)
        self.number, self.held = number, held


class Session:
    def __init__(self, spec, image, history):
        first = machine.start(spec, image)
        if first is None:
            raise SessionFault(5)
        self.spec, self.history = spec, history
        self.states = deque([first], maxlen=history + 1)   # drops the oldest
        self.breaks, self.watches = [], []

    @property
    def state(self):
        return self.states[-1]

    def _append(self, state):
        self.states.append(state)

    def event(self, call, *arguments):
        """One event, `call` being its function in `machine`: a refusal or None."""
        after, refused = call(self.spec, self.state, *arguments)
        if refused is None:
            self._append(after)
        return refused

    def run(self, limit):
        breaks, watches = frozenset(self.breaks), sorted(self.watches)
        did = 0
        while did < limit:
            before = self.state
            after, refused = machine.step(self.spec, before)
            if refused is not None:
                return RunEnd(did, ("REFUSED", refused))
            self._append(after)
            did += 1
            if watches and before.mem is not after.mem:
                for address in watches:                     # the lowest is named
                    if machine.peek(before, address) != machine.peek(after, address):
                        return RunEnd(did, ("WATCH", address))
            if after.pc in breaks:
                return RunEnd(did, ("BREAK", after.pc))
        return RunEnd(did, ("LIMIT",))

    def held(self):
        return len(self.states) - 1

    def back(self, count):
        if count == 0:
            return
        if self.held() < count:
            raise SessionFault(1, self.held())
        for _ in range(count):
            self.states.pop()

    def set_break(self, address):
        self._set(self.breaks, address)

    def set_watch(self, address):
        if self.spec.is_port(address):
            raise SessionFault(5)
        self._set(self.watches, address)

    def clear_break(self, address):
        self._clear(self.breaks, address)

    def clear_watch(self, address):
        self._clear(self.watches, address)

    @staticmethod
    def _set(addresses, address):
        if address in addresses:
            raise SessionFault(3)
        if len(addresses) >= TABLE_MOST:
            raise SessionFault(2)
        addresses.append(address)

    @staticmethod
    def _clear(addresses, address):
        if address not in addresses:
            raise SessionFault(4)
        addresses.remove(address)
