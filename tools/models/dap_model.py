"""A session of the debugger over the independent machine of tools/models/reference: what `mos65
dap` has to show after each request that tools/check/dap makes. It is written from what the protocol
and the manual say, without a look at the program. A session is a list of whole states; going back
takes states off it."""

from collections import deque

import asm
import machine
import store
import table
import tape

JSR, RTS, RTI, BRK = 0x20, 0x60, 0x40, 0x00
FLAGS = "NVDIZC"
REGISTERS = {"A": lambda s: s.a, "X": lambda s: s.x, "Y": lambda s: s.y, "S": lambda s: s.s,
             "P": lambda s: machine.p_of(s, False)}
# A run that nobody gave a number of steps makes so many at most.
RUN_MOST = 5_000_000
# The conditions that are asked for, and what they say of a state.
CONDITIONS = {
    "A=0": lambda s: s.a == 0, "X>3": lambda s: s.x > 3, "Y<>0": lambda s: s.y != 0,
    "Z=1": lambda s: s.z, "C=0 and X<=$20": lambda s: not s.c and s.x <= 0x20,
    "$10>=2": lambda s: machine.peek(s, 0x10) >= 2, "S<$FD": lambda s: s.s < 0xFD,
}


class TooFar(Exception):
    """A run is longer than the model is to make it."""


def opcode(s):
    return machine.peek(s, s.pc)


def is_entry(before, after):
    """Whether an interrupt was entered in place of an instruction: BRK pushes P with bit 4 set."""
    return (after.cycles - before.cycles == 7 and after.s == (before.s - 3) & 255
            and not machine.peek(after, 0x100 + ((before.s - 2) & 255)) & 16)


def access(spec, s):
    """The address that the next instruction reads as data, the one that it stores at, and those
    that it pushes to."""
    row = table.decode(spec.profile, opcode(s))
    if row is None:
        return None, None, []
    name, mode = row.mnemonic, row.mode
    address = machine.place(spec, s, mode)[0]
    modifies = name in machine.MODIFIES and mode != "Acc"
    read = address if modifies or name in table.READS and mode != "Imm" else None
    stored = address if modifies or name in machine.STORES else None
    return read, stored, [0x100 + ((s.s - k) & 255) for k in range(table.PUSHES.get(name, 0))]


class Break:
    """A breakpoint: it stops a run at the last of so many visits at which its condition holds."""

    def __init__(self, condition=None, times=1):
        self.condition, self.times, self.visits = condition, times, 0

    def stops(self, s):
        if self.condition and not CONDITIONS[self.condition](s):
            return False
        self.visits = (self.visits + 1) % max(self.times, 1)
        return self.visits == 0

    def copy(self):
        other = Break(self.condition, self.times)
        other.visits = self.visits
        return other


class Program:
    """A program on its map: its image, and of a source the lines with bytes and the names."""

    def __init__(self, text, row, is_tape=False, symbols=None):
        self.spec = machine.MapSpec(*row)
        made = None if is_tape else asm.assemble(text, self.spec)
        self.image = tape.read_tape(text) if is_tape else made.image
        self.lines, self.names, self.instructions = [], {}, set()
        self.count = text.count(b"\n") + 1
        if made:
            rows = [(n, it, len(data)) for n, (it, data) in enumerate(zip(made.layouts, made.data), 1)
                    if data]
            self.lines = [(n, it.address, count) for n, it, count in rows]
            self.instructions = {it.address for n, it, _ in rows
                                 if it.line.operation[0] == "mnemonic"
                                 and self.line_at(it.address) == n}
            self.names = self.addresses_of(made)
        if symbols:
            self.names.update(self.addresses_of(asm.assemble(symbols, self.spec)))

    @staticmethod
    def addresses_of(made):
        return {name.decode(): value for name, value in made.names.items() if 0 <= value < 65536}

    def line_at(self, address):
        """The first line whose first byte stands at an address."""
        return next((line for line, first, _ in self.lines if first == address), None)

    def row_from(self, wanted):
        """The first line with bytes at a line or behind it, and its address."""
        return next(((line, first) for line, first, _ in self.lines if line >= wanted), None)


class Model:
    """A session of a program. A move returns the reason of the stop."""

    def __init__(self, program, history, steps, run_most):
        self.program, self.spec = program, program.spec
        self.history, self.steps, self.run_most = history, steps, run_most
        self.states = deque([machine.start(self.spec, program.image)], maxlen=history + 1)
        self.undone, self.told, self.breaks, self.watches = [], 0, {}, []
        self.lines, self.addresses, self.data = {}, {}, []

    def again(self):
        """The session from the beginning, with the stops that are listed."""
        other = Model(self.program, self.history, self.steps, self.run_most)
        other.set_listed("lines", self.lines)
        other.set_listed("addresses", self.addresses)
        other.data, other.watches = self.data, list(self.data)
        return other

    def entered(self, stops_on_entry):
        """The program stands before its first instruction, or runs to a stop."""
        return "entry" if stops_on_entry else self.go()

    @property
    def now(self):
        return self.states[-1]

    def held(self):
        return len(self.states) - 1

    # Stops ----------------------------------------------------------------------------------------

    def set_listed(self, name, wanted):
        """The breakpoints of a list, by address, stand for those of that list before."""
        for address in getattr(self, name):
            self.breaks.pop(address, None)
        setattr(self, name, wanted)
        self.breaks.update({address: Break(*words) for address, words in wanted.items()})

    def set_data(self, wanted):
        """Watches, each some addresses and an access, stand for all watches before. One that cannot
        watch an address watches none."""
        ways = {"write": ["change"], "read": ["read"], "readWrite": ["read", "write"]}
        self.data = [(address, way) for stretch, access in wanted for way in ways[access]
                     if way != "change" or not any(map(self.spec.is_port, stretch))
                     for address in stretch]
        self.watches = list(self.data)

    def changes(self, before, after, ways=("change", "register")):
        """Whether a watched byte or register has changed."""
        return any(REGISTERS[place](before) != REGISTERS[place](after) if way == "register"
                   else machine.peek(before, place) != machine.peek(after, place)
                   for place, way in self.watches if way in ways)

    def touches(self, before, after):
        """Whether an instruction has read or stored a byte whose access is watched."""
        if not self.watches or is_entry(before, after):
            return False
        read, stored, pushed = access(self.spec, before)
        return any(way == "read" and place == read or way == "write" and place in (stored, *pushed)
                   for place, way in self.watches)

    def rests(self, before, after):
        """Whether the program has nothing to do until something comes from outside."""
        if before.pc == after.pc and before.s == after.s:
            return True
        if opcode(after) == BRK and machine.word(after, 0xFFFE, 0xFFFF) == 0:
            return True
        port = self.spec.port
        return (port is not None and not machine.input_waits(after)
                and access(self.spec, after)[0] in (port + 1, port + 2))

    def uses(self, most):
        """The addresses that the next steps read, store at and push to."""
        s, found = self.now, set()
        for _ in range(most):
            read, stored, pushed = access(self.spec, s)
            found.update({read, stored, *pushed} - {None})
            s, refused = machine.step(self.spec, s)
            if refused:
                break
        return sorted(found)

    # Runs -----------------------------------------------------------------------------------------

    def ended(self, breaks, before, after, goal):
        """Why a run ends with a step, if it does. `goal` says whether it is met; a run with one
        ends where the program rests."""
        if self.changes(before, after, ["change"]):
            return "data breakpoint"
        if after.pc in breaks and breaks[after.pc].stops(after):
            return "breakpoint"
        if self.changes(before, after) or self.touches(before, after):
            return "data breakpoint"
        if goal and goal(before, after):
            return "step"
        return "pause" if goal and self.rests(before, after) else None

    def run(self, most, goal, limit):
        """Up to so many steps: the reason of the stop, `limit` where all were made."""
        breaks, new, at = {a: it.copy() for a, it in self.breaks.items()}, [], self.now
        why = None
        while why is None and len(new) < most:
            if len(new) >= self.run_most:
                raise TooFar
            after, refused = machine.step(self.spec, at)
            if refused:
                why = "exception"
                break
            new.append(after)
            why = self.ended(breaks, at, after, goal)
            at = after
        self.breaks = breaks
        for it in new:
            self.happened(it)
        return why or limit

    def happened(self, after):
        self.states.append(after)
        self.undone = []

    def event(self, call, *words):
        """An event that is no step; whether it was accepted."""
        after, refused = call(self.spec, self.now, *words)
        if refused is None:
            self.happened(after)
        return refused is None

    def step(self):
        return self.run(1, None, "step")

    def over(self):
        s = self.now
        if opcode(s) != JSR:
            return self.step()
        return self.run(RUN_MOST, lambda _, t: t.pc == (s.pc + 3) & 0xFFFF and t.s == s.s, "pause")

    def out(self):
        stack = self.now.s

        def has_left(before, after):
            return (opcode(before) in (RTS, RTI) and after.cycles == before.cycles + 6
                    and after.s > stack)
        return self.run(RUN_MOST, has_left, "pause")

    def go(self):
        if self.steps:
            return self.run(self.steps, None, "pause")
        return self.run(RUN_MOST, lambda before, after: False, "pause")

    # Back -----------------------------------------------------------------------------------------

    def undo(self):
        """One event back: the state after it."""
        after = self.states.pop()
        self.undone.append(after)
        return after

    def back(self):
        if self.held():
            self.undo()
        return self.back_reason()

    def back_over(self):
        if self.held():
            after = self.undo()
            if opcode(self.now) == RTS and after.cycles == self.now.cycles + 6:
                while self.held():
                    self.undo()
                    if self.now.s == after.s and opcode(self.now) == JSR:
                        break
        return self.back_reason()

    def back_to_stop(self):
        while self.held():
            after = self.undo()
            if self.now.pc in self.breaks or self.changes(self.now, after):
                break
        if not self.held():
            return "entry"
        return "breakpoint" if self.now.pc in self.breaks else "data breakpoint"

    def back_reason(self):
        return "step" if self.held() else "entry"

    def redo(self, count=None):
        """Events that were undone are made again."""
        for _ in range(len(self.undone) if count is None else min(count, len(self.undone))):
            self.states.append(self.undone.pop())

    # Changes --------------------------------------------------------------------------------------

    def put(self, address, data):
        """Bytes are put into memory, each by an event, up to the first that is refused. How many of
        them are there then."""
        if address + len(data) <= 65536:
            for k, byte in enumerate(data):
                if not self.event(machine.patch, address + k, bytes((byte,))):
                    break
        there = (k for k, byte in enumerate(data)
                 if address + k > 65535 or machine.peek(self.now, address + k) != byte)
        return next(there, len(data))

    def set(self, name, value):
        return self.event(machine.set_register, name.lower(), value)

    def set_flag(self, name, value):
        bits = {"N": 128, "V": 64, "D": 8, "I": 4, "Z": 2, "C": 1}
        p = machine.p_of(self.now, False)
        return self.set("p", p | bits[name] if value else p & ~bits[name])

    # What is shown --------------------------------------------------------------------------------

    def registers(self):
        s = self.now
        return {"PC": f"${s.pc:04X}", **{name: f"${of(s):02X}" for name, of in REGISTERS.items()}}

    def flags(self):
        return {name: str(int(getattr(self.now, name.lower()))) for name in FLAGS}

    def cells(self, first, end):
        return {f"${a:04X}": f"${machine.peek(self.now, a):02X}" for a in range(first, end)}

    def variables(self, scope):
        """The variables of a scope by its number."""
        s = self.now
        if scope == 3:
            return {name: f"${machine.peek(s, a):02X}" for name, a in self.program.names.items()}
        return {1: self.registers, 2: self.flags, 4: lambda: self.cells(0x101 + s.s, 0x200),
                5: lambda: self.cells(0, 256),
                6: lambda: {"cycles": str(s.cycles), "events held": str(self.held()),
                            "bytes put out": str(s.out_len)}}[scope]()

    def frames(self):
        """Where the program is, and what the stack tells of the calls and interrupts that led there:
        two bytes are a return address if a JSR is two below it; three are P and an address, with
        bit 5 of P set, if an instruction of the source begins there, or two below it a BRK."""
        s, code = self.now, self.program.instructions
        found, at = [(1, s.pc, False)], 0x101 + s.s
        while at < 0x200:
            jsr = (machine.word(s, at, at + 1) - 2) & 0xFFFF if at < 0x1FF else None
            if jsr is not None and machine.peek(s, jsr) == JSR:
                found.append((at, jsr, False))
                at += 2
                continue
            count = 1
            if at < 0x1FE:
                bits, back = machine.peek(s, at) & 0x30, machine.word(s, at + 1, at + 2)
                brk = (back - 2) & 0xFFFF
                if bits == 0x20 and back in code:
                    found.append((at, back, True))
                    count = 3
                elif bits == 0x30 and brk in code and machine.peek(s, brk) == BRK:
                    found.append((at, brk, False))
                    count = 3
            at += count
        return found

    def looked_at(self, text):
        """What a register, a name or an address shows."""
        if text in self.registers():
            return self.registers()[text]
        address = int(text[1:], 16) if text[0] == "$" else self.program.names[text]
        return f"${machine.peek(self.now, address):02X}"

    def memory(self, first, count):
        whole = store.whole(self.now.mem)
        return whole[first:first + count]

    def stopped(self, reason):
        """The reason that is told, and what is told before: text put out, or taken back."""
        if reason == "breakpoint" and self.now.pc in self.addresses and self.now.pc not in self.lines:
            reason = "instruction breakpoint"
        out, told = machine.output(self.now), self.told
        self.told = len(out)
        said = [("stdout", out[told:].decode("latin-1"))] if len(out) > told else []
        said += [("console", None)] * ((len(out) < told) + (reason == "entry"))
        return reason, said
