"""Command lines and their replies."""

import asm
import disasm
import machine
import session as sessions

LINE_MOST = 255
RUN_MOST = 1000000
BACK_MOST = 1000000
DIS_MOST = 256
IN_MOST = 16

BAD = "? BAD COMMAND"
OK = "OK"

DIGITS = frozenset(b"0123456789")
HEX_DIGITS = frozenset(b"0123456789ABCDEFabcdef")


class Bad(Exception):
    """The words are no command."""


class Quit(Exception):
    pass


def cut_line(raw):
    """A command line without its end (LF or CR LF; the last may have none).

    None for one that is too long.  A CR that no LF follows is part of the line.
    """
    line = raw
    if line.endswith(b"\n"):
        line = line[:-1]
        if line.endswith(b"\r"):
            line = line[:-1]
    return line if len(line) <= LINE_MOST else None


# Words ----------------------------------------------------------------------

def hex_of(word, digits):
    if len(word) != digits or not all(b in HEX_DIGITS for b in word):
        raise Bad
    return int(word, 16)


def address_of(word):
    return hex_of(word, 4)


def byte_of(word):
    return hex_of(word, 2)


def number_of(word, low, high):
    if not 1 <= len(word) <= 7 or not all(b in DIGITS for b in word):
        raise Bad
    number = int(word)
    if not low <= number <= high:
        raise Bad
    return number


def exactly(words, count):
    if len(words) != count:
        raise Bad
    return words


# Replies --------------------------------------------------------------------

def registers(state):
    return "A=%02X X=%02X Y=%02X S=%02X P=%02X PC=%04X CYC=%d" % (
        state.a, state.x, state.y, state.s, machine.p_of(state, False),
        state.pc, state.cycles)


def refused_text(refused):
    """FAULT, CONSOLE FULL or CYCLES FULL of a refused step."""
    if refused.number == 1:
        return "CYCLES FULL"
    if refused.number == 2:
        return "FAULT %02X AT %04X" % (refused.opcode, refused.pc)
    assert refused.number == 3
    return "CONSOLE FULL"


def named(names, number):
    return "! %s %d" % (names[number], number)


class Engine:
    """Serves command lines on a session."""

    def __init__(self, session):
        self.session = session

    def serve(self, line):
        """The reply lines to one command line (None: one too long)."""
        if line is None:
            return [BAD]
        words = [word for word in line.split(b" ") if word]
        if not words:
            return []
        try:
            return self.command(line, words)
        except Bad:
            return [BAD]

    def command(self, line, words):
        name = words[0].decode("latin-1")
        call = self.COMMANDS.get(name)
        if call is None:
            raise Bad
        if name == "asm":
            return self.do_asm(line)
        return call(self, words[1:])

    def event(self, call, *arguments):
        refused = self.session.event(call, *arguments)
        if refused is None:
            return OK
        if refused.number == 1:
            return "! CYCLES FULL"
        return named(machine.EVENT_FAULTS, refused.number)

    def do_regs(self, words):
        exactly(words, 0)
        return [registers(self.session.state)]

    def do_step(self, words):
        exactly(words, 0)
        refused = self.session.event(machine.step)
        if refused is not None:
            return ["! " + refused_text(refused)]
        return [registers(self.session.state)]

    def do_run(self, words):
        exactly(words, 1)
        end = self.session.run(number_of(words[0], 1, RUN_MOST))
        if end.why[0] == "REFUSED":
            why = refused_text(end.why[1])
        elif end.why[0] == "LIMIT":
            why = "LIMIT"
        else:
            why = "%s %04X" % end.why
        return ["DID %d %s" % (end.did, why)]

    def do_back(self, words):
        exactly(words, 1)
        count = number_of(words[0], 1, BACK_MOST)
        try:
            self.session.back(count)
        except sessions.SessionFault as fault:
            return ["! HISTORY %d" % fault.held]
        return [registers(self.session.state)]

    def do_patch(self, words):
        if not 2 <= len(words) <= 4:
            raise Bad
        address = address_of(words[0])
        data = bytes(byte_of(word) for word in words[1:])
        return [self.event(machine.patch, address, data)]

    def do_asm(self, line):
        rest = line.lstrip(b" ")[len(b"asm"):].lstrip(b" ")
        word, _, text = rest.partition(b" ")
        address = address_of(word)
        text = text.lstrip(b" ")
        if not text:
            raise Bad
        try:
            data = asm.assemble_line(self.session.spec.profile, address, text)
        except asm.AsmFault as fault:
            return [named(asm.KINDS, fault.kind)]
        return [self.event(machine.patch, address, data)]

    def do_set(self, words):
        exactly(words, 2)
        register = words[0]
        if register in (b"A", b"X", b"Y", b"S", b"P"):
            value = byte_of(words[1])
        elif register == b"PC":
            value = address_of(words[1])
        else:
            raise Bad
        return [self.event(machine.set_register, register.decode().lower(), value)]

    def do_irq(self, words):
        exactly(words, 1)
        if words[0] not in (b"0", b"1"):
            raise Bad
        return [self.event(machine.set_irq, words[0] == b"1")]

    def do_nmi(self, words):
        exactly(words, 0)
        return [self.event(machine.nmi)]

    def do_reset(self, words):
        exactly(words, 0)
        return [self.event(machine.reset)]

    def do_in(self, words):
        if not 1 <= len(words) <= IN_MOST:
            raise Bad
        data = [byte_of(word) for word in words]
        if self.session.state.given_len + len(data) > machine.CONSOLE:
            return [named(machine.EVENT_FAULTS, 7)]           # none is given
        for byte in data:
            assert self.session.event(machine.give, byte) is None
        return [OK]

    def table(self, call, words):
        exactly(words, 1)
        address = address_of(words[0])
        try:
            call(address)
        except sessions.SessionFault as fault:
            return [named(sessions.SESSION_FAULTS, fault.number)]
        return [OK]

    def do_break(self, words):
        return self.table(self.session.set_break, words)

    def do_watch(self, words):
        return self.table(self.session.set_watch, words)

    def do_unbreak(self, words):
        return self.table(self.session.clear_break, words)

    def do_unwatch(self, words):
        return self.table(self.session.clear_watch, words)

    def do_breaks(self, words):
        exactly(words, 0)
        return ["BREAKS" + "".join(" %04X" % a for a in self.session.breaks)]

    def peek(self, address):
        return machine.peek(self.session.state, address)

    def do_mem(self, words):
        exactly(words, 2)
        low, high = address_of(words[0]), address_of(words[1])
        if low > high:
            raise Bad
        replies = []
        for first in range(low, high + 1, 16):
            row = range(first, min(first + 16, high + 1))
            replies.append("%04X  %s" % (first, " ".join("%02X" % self.peek(a)
                                                         for a in row)))
        return replies

    def do_dis(self, words):
        exactly(words, 2)
        address = address_of(words[0])
        count = number_of(words[1], 1, DIS_MOST)
        return list(disasm.rows(self.session.spec.profile, self.peek,
                                address, count=count))

    def do_out(self, words):
        exactly(words, 0)
        out = machine.output(self.session.state)
        return ["OUT %d" % len(out)] + [out[k:k + 32].hex().upper()
                                        for k in range(0, len(out), 32)]

    def do_quit(self, words):
        exactly(words, 0)
        raise Quit

    COMMANDS = {"regs": do_regs, "step": do_step, "run": do_run,
                "back": do_back, "patch": do_patch, "asm": do_asm,
                "set": do_set, "irq": do_irq, "nmi": do_nmi,
                "reset": do_reset, "in": do_in, "break": do_break,
                "watch": do_watch, "unbreak": do_unbreak,
                "unwatch": do_unwatch, "breaks": do_breaks, "mem": do_mem,
                "dis": do_dis, "out": do_out, "quit": do_quit}


def replies(session, reader):
    """The reply to each line of a binary reader, up to `quit` or the end."""
    engine = Engine(session)
    for raw in iter(reader.readline, b""):
        try:
            reply = engine.serve(cut_line(raw))
        except Quit:
            return
        yield "".join(text + "\n" for text in reply).encode("ascii")


