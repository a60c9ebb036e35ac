"""Runs of programs by tools/models/reference as what a page has to hold: the data of a run, byte
for byte, and a whole page. It is a second writer beside `page_writer`; tools/check/page compares
both."""

import base64
import re

import asm
import folders
import machine
import page_format
import store
import table

MODES = ["Imp", "Acc", "Imm", "Zp", "ZpX", "ZpY", "IndX", "IndY", "Rel", "Abs", "AbsX", "AbsY",
         "Ind", "IndZ"]


def viewer():
    """The tool tools/viewer, for the parts of the template."""
    return folders.load("viewer")


def pointers(spec, s, mode, low):
    """The addresses of a pointer that an operand is found by."""
    if mode == "IndX":
        at = (low + s.x) & 255
        return [at, (at + 1) & 255]
    if mode in ("IndY", "IndZ"):
        return [low, (low + 1) & 255]
    if mode == "Ind":
        at = machine.word(s, s.pc + 1, s.pc + 2)
        page = 0xFFFF if spec.profile == table.C else 0xFF
        return [at, at & ~page & 0xFFFF | (at + 1) & page]
    return []


def accesses(spec, s):
    """Whether the next step enters an interrupt, and the addresses that it reads and stores at."""
    def stack(k):
        return 0x100 + ((s.s + k) & 255)
    pushed = [stack(0), stack(-1), stack(-2)]
    if s.nmi:
        return True, [0xFFFA, 0xFFFB], pushed
    if not s.i and (s.irq or (s.control and machine.input_waits(s))):
        return True, [0xFFFE, 0xFFFF], pushed
    row = table.decode(spec.profile, machine.peek(s, s.pc))
    name, mode = row.mnemonic, row.mode
    reads, stores = pointers(spec, s, mode, machine.peek(s, s.pc + 1)), []
    address, _ = machine.place(spec, s, mode)
    if name in machine.STORES:
        stores = [address]
    elif name in machine.MODIFIES and mode != "Acc":
        reads, stores = reads + [address], [address]
    elif name in table.READS and mode != "Imm":
        reads.append(address)
    elif name in machine.PUSHES or name == "PHP":
        stores = [stack(0)]
    elif name in machine.PULLS or name == "PLP":
        reads.append(stack(1))
    elif name == "JSR":
        stores = [stack(0), stack(-1)]
    elif name == "RTS":
        reads += [stack(1), stack(2)]
    elif name == "RTI":
        reads += [stack(1), stack(2), stack(3)]
    elif name == "BRK":
        reads, stores = [0xFFFE, 0xFFFF], pushed
    return False, reads, stores


def regs_of(s):
    return [s.a, s.x, s.y, s.s, machine.p_of(s, False)]


def start_of(s):
    given = bytes(store.get(s.given, k) for k in range(s.given_len))
    lines = s.control << 2 | s.irq << 3 | s.nmi << 4
    return page_format.begin(store.whole(s.mem), regs_of(s), s.pc, s.cycles, lines, s.taken,
                             machine.output(s), given)


def change(spec, s, given):
    """The state after a step, to which some input was handed in before, and the change."""
    for byte in given:
        s, refused = machine.give(spec, s, byte)
        assert refused is None, refused
    entry, reads, stores = accesses(spec, s)
    t, refused = machine.step(spec, s)
    assert refused is None, refused
    return t, {
        "cycles": t.cycles - s.cycles, "pc": s.pc ^ t.pc, "reads": reads, "entry": entry,
        "regs": [a ^ b for a, b in zip(regs_of(s), regs_of(t))],
        "stores": [(a, machine.peek(s, a) ^ machine.peek(t, a)) for a in stores],
        "out": machine.output(t)[-1] if t.out_len > s.out_len else None,
        "takes": t.taken > s.taken, "control": s.control != t.control, "nmi": s.nmi,
        "given": bytes(given), "irq": False,
    }


def event_change(spec, s, event, *words):
    """The state after an event that is no step, and the change: it has no cycles, but for a reset,
    which is told as an interrupt entry that stores nothing."""
    t, refused = event(spec, s, *words)
    assert refused is None, refused
    at = [words[0] + k for k in range(len(words[1]))] if event is machine.patch else []
    return t, {
        "cycles": t.cycles - s.cycles, "pc": s.pc ^ t.pc, "reads": [],
        "entry": event is machine.reset,
        "regs": [a ^ b for a, b in zip(regs_of(s), regs_of(t))],
        "stores": [(a, machine.peek(s, a) ^ machine.peek(t, a)) for a in at],
        "out": None, "takes": False, "control": s.control != t.control, "nmi": s.nmi != t.nmi,
        "given": bytes(words) if event is machine.give else b"", "irq": s.irq != t.irq,
    }


def session_of(spec, image, events, held):
    """The bytes of a session that holds the last `held` of its events: the state before them, and a
    record for each event, where None is a step. Beside them the states."""
    s, states, made = machine.start(spec, image), [], []
    for event in events:
        states.append(s)
        s, change_made = event_change(spec, s, *event) if event else change(spec, s, b"")
        made.append(page_format.record(change_made))
    states.append(s)
    first = len(events) - held
    return start_of(states[first]) + b"".join(made[first:]), states[first:]


def data_of(spec, image, gives):
    """The bytes of a run with a step for each element of `gives`, the input handed in before it."""
    s = machine.start(spec, image)
    data = bytearray(start_of(s))
    for given in gives:
        s, made = change(spec, s, given)
        data += page_format.record(made)
    return bytes(data)


def escaped(data):
    plain = set(range(32, 127)) - set(b"%&<>") | {10}
    return b"".join(bytes((b,)) if b in plain else b"%%%02X" % b for b in data)


def opcodes(profile):
    rows = (table.decode(profile, code) for code in range(256))
    return "".join(row.mnemonic + chr(97 + MODES.index(row.mode)) if row else "...."
                   for row in rows)


def stretches(image):
    """The first address and the length of each stretch of an image."""
    found = []
    for address in sorted(image):
        if found and sum(found[-1]) == address:
            found[-1][1] += 1
        else:
            found.append([address, 1])
    return found


def facts_of(title, spec, image, assembly, debug=b""):
    """The facts of a program; those of debug information are `debug`."""
    lines = [f"title {title}"]
    if spec.port is not None:
        lines.append(f"port {spec.port:04X}")
    lines.append(f"ops {opcodes(spec.profile)}")
    lines += [f"loaded {address:04X} {count}" for address, count in stretches(image)]
    if assembly:
        rows = zip(assembly.layouts, assembly.data)
        lines += [f"line {n} {line.address:04X} {len(data)}"
                  for n, (line, data) in enumerate(rows, 1) if data]
        labels = {asm.read_text(spec.profile, text).label for text in assembly.texts}
        lines += [f"{'label' if name in labels else 'name'} {value:04X} {name.decode()}"
                  for name, value in assembly.names.items() if 0 <= value < 65536]
    return ("\n".join(lines) + "\n").encode() + debug


def opening_of(step, screen, notes):
    """The facts of what a page shows when it is opened: a step and a screen, each None where there is
    none, and the text of a file of notes."""
    lines = [] if step is None else [f"at {step}"]
    lines += [] if screen is None else [f"screen {screen:04X}"]
    for line in notes.split("\n"):
        line = line.removesuffix("\r")
        if line.strip(" \t"):
            number, text = re.fullmatch(r"[ \t]*(\d{1,7})[ \t]+(.+)", line).groups()
            lines.append(f"note {int(number)} {text}")
    return "".join(f"{line}\n" for line in lines).encode()


def source_of(assembly):
    return b"".join(text + b"\n" for text in assembly.texts) if assembly else b""


def page_of(facts, source, data, why):
    """A page's bytes: the template's parts, and what stands between them."""
    parts = [cut.encode() for cut in viewer().template()]
    between = [b"\n" + escaped(facts), b"\n" + escaped(source), base64.b64encode(data),
               b"\n" + escaped(why)]
    return b"".join(a + b for a, b in zip(parts, between)) + parts[-1]
