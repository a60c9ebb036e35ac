"""What the buttons of the playground's page have to do, by the machine of tools/models/reference: the states of
a program from its reset on, and where each button leads. It shares nothing with the page's scripts."""

import page_model
from page_model import asm, machine, table

MOST = 20_000              # no run of the model is longer
BRK, JSR, VECTOR = 0x00, 0x20, 0xFFFE
PORT = 0xF000


class Model:
    """A machine that the page shows at a step: `states` are those from the reset on, `at` the step that
    is shown, `why` how the program rests at the last state."""

    def __init__(self, source):
        self.spec = machine.MapSpec(PORT, None, table.N)
        self.assembly = asm.assemble(source, self.spec)
        self.breaks = set()
        self.restart()

    def restart(self):
        self.states, self.events = [self.begin()], []
        self.written = set(self.assembly.image)
        self.at, self.why = 0, "start"

    def begin(self):
        """The first state. Without a reset vector it stands at the source's first instruction."""
        image, state = self.assembly.image, machine.start(self.spec, self.assembly.image)
        codes = [it.address for it in self.assembly.layouts if it.row is not None]
        self.begun = codes[0] if codes and not {0xFFFC, 0xFFFD} & set(image) else None
        return state if self.begun is None else state._replace(pc=self.begun)

    @property
    def state(self):
        return self.states[self.at]

    @property
    def last(self):
        return len(self.states) - 1

    def add(self, state, event):
        self.states.append(state)
        self.events.append(event)

    # ---- one step at the live end

    def opcode(self, state):
        return machine.peek(state, state.pc)

    def accesses(self, state):
        try:
            return page_model.accesses(self.spec, state)
        except AttributeError:         # there is no instruction
            return False, [], []

    def looks(self, state):
        """Whether the instruction at PC is one that reads the port's input or its signal."""
        row = table.decode(self.spec.profile, self.opcode(state))
        reads = row and (row.mnemonic in table.READS or row.mnemonic in machine.MODIFIES)
        if not reads or row.mode in ("Imm", "Acc", "Imp"):
            return False
        return machine.place(self.spec, state, row.mode)[0] in (PORT + 1, PORT + 2)

    def rest(self, state):
        """Why the program goes no further by itself, or None."""
        if state.pc not in self.written:
            return "unwritten"
        if self.opcode(state) == BRK and machine.word(state, VECTOR, VECTOR + 1) == 0:
            return "brk"
        if not machine.input_waits(state) and self.looks(state):
            return "waits"
        return None

    def make(self):
        """Makes a step at the end. Returns why it was refused, or the program now rests, or None."""
        before = self.states[-1]
        stores = self.accesses(before)[2]
        after, refused = machine.step(self.spec, before)
        if refused:
            return "refused"
        self.written.update(stores)
        self.add(after, "step")
        if (before.pc, before.s) != (after.pc, after.s):
            return None
        return "waits" if not after.i and not machine.input_waits(after) else "stuck"

    def settle(self):
        """A jump to itself is kept once."""
        def stays(k):
            one, other = self.states[k - 1], self.states[k]
            return self.events[k - 1] == "step" and (one.pc, one.s) == (other.pc, other.s)
        if self.why in ("stuck", "waits"):
            while self.last > 1 and stays(self.last) and stays(self.last - 1):
                del self.states[-1], self.events[-1]
        self.at = self.last

    # ---- buttons

    def step(self):
        if self.at < self.last:
            self.at += 1
            return
        rest = self.rest(self.states[-1])
        self.why = rest if rest and rest != "waits" else self.make() or "stopped"
        self.settle()

    def back(self):
        self.at = max(0, self.at - 1)

    def start(self):
        self.at = 0

    def run(self, is_over=False):
        """Runs on. Returns whether it came to an end within MOST steps."""
        if not is_over:
            ahead = [k for k in range(self.at + 1, self.last + 1) if self.states[k].pc in self.breaks]
            if ahead:
                self.at = ahead[0]
                return True
            if self.why in ("stuck", "brk", "unwritten", "refused"):
                self.at = self.last
                return True
        first = self.states[-1]
        for _ in range(MOST):
            why = self.rest(self.states[-1]) or self.make()
            state = self.states[-1]
            if is_over and not why and state.pc == first.pc + 3 & 0xFFFF and state.s >= first.s:
                why = "over"
            if not why and state.pc in self.breaks:
                why = "break"
            if why:
                self.why = why
                self.settle()
                return True
        return False

    def over(self):
        if self.at == self.last:
            if self.opcode(self.state) == JSR:
                return self.run(True)
            self.step()
            return True
        self.at = self.over_ahead()
        return True

    def over_ahead(self):
        """Where the subroutine or the interrupt of the next step has returned, in what was made."""
        state, event = self.state, self.events[self.at]
        is_entry = event == "step" and self.accesses(state)[0]
        if event != "step" or not is_entry and self.opcode(state) != JSR:
            return self.at + 1
        bottom = self.states[self.at + 1].s
        return next((k for k in range(self.at + 2, self.last + 1) if self.states[k].s > bottom),
                    self.last)

    def type(self, data):
        """Input at the step that is shown: what came after it is dropped."""
        del self.states[self.at + 1:], self.events[self.at:]
        for byte in data:
            self.add(machine.give(self.spec, self.states[-1], byte)[0], byte)
            self.why = "stopped"
        self.at = self.last

    def last_write(self, address):
        """Back to the state after the last step that stored at an address, before the step just done."""
        for k in reversed(range(self.at)):
            stores = self.accesses(self.states[k])[2] if self.events[k] == "step" else []
            if address in stores and k + 1 < self.at:
                self.at = k + 1
                return
