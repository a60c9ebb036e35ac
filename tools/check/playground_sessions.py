"""Random sessions of the playground's engine, with the answers that another machine gives: that of
tools/models/reference, or an oracle with the same modules."""

import glob
import random
import re
import zlib

import folders
import page_format
import page_model
import table
from cleaning import cleaned
from folders import TOP

MOST_SHOWN = 4096
NAME = "source.a65"
BLOCK = re.compile(r"^```(source|prints check) (\S+)\n(.*?)^```$", re.M | re.S)
STOPS = "setBreak", "clearBreak", "setWatch", "clearWatch"
PORTS = 0xF000, 0xF000, 0x3100
ROMS = None, None, [0x3080, 0x30FF]
HISTORIES = 0, 3, 50, 1024, 65536, 65536
NO_ACCESS = {"read": 0, "store": 0, "reads": False, "stores": False, "pushes": 0}

routines, hostile = map(folders.load, ("check/random-routines", "check/hostile"))


def shown(data):
    """Bytes as tools/check/playground_calls.js tells them."""
    return data.hex() if len(data) <= MOST_SHOWN else f"{len(data)} {zlib.crc32(data)}"


def fault(name, status, line=0):
    return {"fault": name, "status": status, "line": line}


def as_saved(rng, source):
    """A source as an editor saves it: with a byte-order mark, letters in its comments, and other
    ends of lines."""
    found = rng.choice((b"", b"", b"\xEF\xBB\xBF"))
    for line in source.split(b"\n")[:-1]:
        if rng.random() < 0.3:
            line += " ; ".encode() + rng.choice(("Zähler", "→ не", "😀;", "x")).encode()
        found += line + rng.choice((b"\n", b"\n", b"\r\n", b"\r"))
    return found


class Model:
    """A machine of another implementation, with the calls of playground/engine.js. Each returns the
    answer as JSON has it."""

    def __init__(self, other, spec, image, history):
        self.other, self.spec = other, spec
        self.session = other.session.Session(spec, image, history)

    @property
    def state(self):
        return self.session.state

    def event(self, name, *words):
        refused = self.session.event(getattr(self.other.machine, name), *words)
        if refused is None:
            return None
        return fault(self.other.machine.EVENT_FAULTS[refused.number], 100 + refused.number)

    def table(self, name, *words):
        """A call of the session's own, with the session's faults."""
        try:
            return getattr(self.session, name)(*words)
        except self.other.session.SessionFault as refused:
            names = self.other.session.SESSION_FAULTS
            return fault(names[refused.number], 200 + refused.number)

    def step(self):
        return self.event("step")

    def reset(self):
        return self.event("reset")

    def irq(self, level):
        return self.event("set_irq", level)

    def nmi(self):
        return self.event("nmi")

    def input(self, byte):
        return self.event("give", byte)

    def set(self, register, value):
        if register != "PC" and value > 255:
            return fault("Misuse", 2)
        return self.event("set_register", register.lower(), value)

    def patch(self, address, data):
        return self.event("patch", address, bytes.fromhex(data["hex"]))

    def ending(self, did, why):
        refused = why[1] if why[0] == "REFUSED" else None
        is_named = refused is not None and refused.number == 2
        return {
            "did": did,
            "why": why[0].lower(),
            "status": 100 + refused.number if refused else 0,
            "address": why[1] if why[0] in ("BREAK", "WATCH") else refused.pc if is_named else 0,
            "opcode": refused.opcode if is_named else 0,
        }

    def run(self, limit):
        return self.ending(*self.session.run(limit))

    def runTo(self, address, limit):
        if address in self.session.breaks:
            return self.run(limit)
        refused = self.table("set_break", address)
        if refused:
            return refused
        ended = self.run(limit)
        self.session.clear_break(address)
        return ended

    def runToAccess(self, marks, limit):
        did = 0
        while did < limit:
            access = self.access()
            ways = ("read", "reads"), ("store", "stores")
            if any(access[does] and access[at] in marks["marks"] for at, does in ways):
                break
            end = self.session.run(1)
            did += end.did
            if end.why[0] != "LIMIT":
                return self.ending(did, end.why)
        return self.ending(did, ("LIMIT",))

    def recordStart(self):
        return shown(page_model.start_of(self.state))

    def recordRun(self, limit):
        did, why, records = 0, ("LIMIT",), b""
        while did < limit and why[0] == "LIMIT":
            before = self.state
            end = self.session.run(1)
            did, why = did + end.did, end.why
            if end.did:
                records += page_format.record(page_model.change(self.spec, before, b"")[1])
        return {**self.ending(did, why), "records": shown(records)}

    def back(self, count):
        return self.table("back", count)

    def held(self):
        return self.session.held()

    def registers(self):
        s = self.state
        p = self.other.machine.p_of(s, False)
        return {"cycles": s.cycles, "pc": s.pc, "a": s.a, "x": s.x, "y": s.y, "s": s.s, "p": p}

    def peek(self, address):
        return self.other.machine.peek(self.state, address)

    def read(self, address, count):
        if address + count > 65536:
            return fault("PastEnd", 104)
        return shown(self.other.store.whole(self.state.mem)[address : address + count])

    def outputLength(self):
        return self.state.out_len

    def output(self, start):
        out = self.other.machine.output(self.state)
        return shown(out[start:]) if start <= len(out) else fault("Misuse", 2)

    def access(self):
        """What the instruction at PC reads and stores as its operand."""
        s, machine = self.state, self.other.machine
        row = self.other.table.decode(self.spec.profile, machine.peek(s, s.pc))
        if row is None:
            return NO_ACCESS
        changes = row.mnemonic in machine.MODIFIES and row.mode != "Acc"
        reads = changes or row.mnemonic in table.READS and row.mode != "Imm"
        stores = changes or row.mnemonic in machine.STORES
        address = machine.place(self.spec, s, row.mode)[0] if reads or stores else 0
        return {"read": address * reads, "store": address * stores, "reads": reads,
                "stores": stores, "pushes": table.PUSHES.get(row.mnemonic, 0)}

    def disassemble(self, address):
        data = bytes(self.peek(it) for it in range(address, min(address + 3, 65536)))
        count, text = self.other.disasm.line_at(self.spec.profile, data, address)
        return {"text": text, "count": count}

    def setBreak(self, address):
        return self.table("set_break", address)

    def clearBreak(self, address):
        return self.table("clear_break", address)

    def setWatch(self, address):
        return self.table("set_watch", address)

    def clearWatch(self, address):
        return self.table("clear_watch", address)


class Page:
    """A source of a page of tests/, with the text of its faults there."""

    calls = ()

    def __init__(self, name, source, faults):
        self.source, self.faults = source.encode(), faults
        self.asked = {"config": {}, "source": {"hex": self.source.hex()}, "name": name, "calls": []}

    def is_told(self, faults):
        return faults == self.faults


def of_pages():
    """The sources of the pages whose faults `check` prints, without warnings."""
    found = []
    for path in sorted(glob.glob(f"{TOP}/tests/*.md")):
        with open(path, encoding="utf-8") as it:
            blocks = BLOCK.findall(it.read())
        sources = {}
        for kind, name, text in blocks:
            if kind == "source":
                sources[name] = text
            elif name in sources and "warning" not in text:
                found.append(Page(name, sources[name], re.sub(r"(?m)^= \d+\n", "", text)))
    return found


class Session:
    """A random session: what is asked, and what has to be answered. `asked` and `wanted` are as
    tools/check/playground_calls.js reads and writes them."""

    def __init__(self, seed, number, other):
        self.rng = rng = random.Random(f"playground {seed} {number}")
        self.number, self.other, self.calls, self.answers = number, other, [], []
        self.config = {"history": rng.choice(HISTORIES), "port": rng.choice(other.ports),
                       "profile": rng.choice("NNC"), "rom": rng.choice(ROMS)}
        self.source = self.a_source()
        self.wanted = self.answer()
        self.asked = {"config": self.config, "source": {"hex": self.source.hex()}, "name": NAME,
                      "calls": self.calls}

    def is_told(self, faults):
        """Whether the text of all faults is one of this source: it has the fault for which the
        source is refused, and is empty where there is none."""
        refused = self.wanted["assembled"]
        if "fault" not in refused:
            return faults == ""
        if refused["line"] == 0 or not isinstance(faults, str):
            return faults == refused
        kind = f"{refused['fault']} {refused['status'] - 300}"
        row = rf"^{re.escape(NAME)}:{refused['line']}:\d+: {kind}: "
        return bool(re.search(row, faults, re.M)) and re.search(r"^\d+ faults?\n\Z", faults, re.M)

    def a_source(self):
        """A program that repeats random instructions, and sometimes one that is no program."""
        rng = self.rng
        body = [it.replace(" RTS", " JMP again") for it in routines.lines_of(rng)]
        rows = ["*=$0200", "helper: INC $90", " RTS", "main: CLI", "again:", *body]
        rows += ["handler: PHA", f" LDA ${0x3000 + rng.randrange(256):04X}", " PLA", " RTI"]
        rows += ["*=$0010", f".BYTE {','.join(str(rng.randrange(48, 52)) for _ in range(16))}"]
        rows += ["*=$FFFA", ".WORD handler,main,handler"]
        source = "".join(f"{it}\n" for it in rows).encode()
        if rng.random() < 0.3:
            source = as_saved(rng, source)
        return hostile.changed(rng, source) if rng.random() < 0.3 else source

    def answer(self):
        rom = self.config["rom"] and tuple(self.config["rom"])
        try:
            spec = self.other.machine.MapSpec(self.config["port"], rom, self.config["profile"])
        except self.other.machine.BadMap:
            return {"assembled": fault("BadMap", 501), "left": 0}
        try:
            assembly = self.other.asm.assemble(cleaned(self.source), spec)
        except self.other.asm.AsmFault as refused:
            name = self.other.asm.KINDS[refused.kind]
            return {"assembled": fault(name, 300 + refused.kind, refused.line), "left": 0}
        found = {"assembled": self.told(assembly), "opened": None, "left": 0}
        model = Model(self.other, spec, assembly.image, self.config["history"])
        for _ in range(self.rng.randrange(5, 40)):
            self.add(model, *self.a_call(model))
        for name, *words in (("registers",), ("read", 0, 65536), ("output", 0), ("held",)):
            self.add(model, name, *words)
        return {**found, "calls": self.answers, "closed": fault("Closed", 1)}

    @staticmethod
    def told(assembly):
        """What an assembly tells of itself."""
        rows = zip(assembly.layouts, assembly.data, assembly.texts)
        return {
            "names": [{"name": name.decode(), "value": value}
                      for name, value in assembly.names.items()],
            "lines": [{"number": number, "address": layout.address, "count": len(data),
                       "isInstruction": layout.row is not None, "text": text.decode()}
                      for number, (layout, data, text) in enumerate(rows, 1)],
            "listing": assembly.listing().decode(),
        }

    def add(self, model, name, *words):
        self.calls.append([name, *words])
        self.answers.append(getattr(model, name)(*words))

    def an_address(self):
        rng = self.rng
        places = (0x200, 0x240), (0x10, 0x20), (0x90, 0x91), (0, 0x10000), (0x3000, 0x3100)
        return rng.choice([*(rng.randrange(*it) for it in places), 0xF000, 0xFFFF])

    def a_call(self, model):
        """A call with its words. Steps are made most often."""
        rng = self.rng
        moves = [("step",), ("run", rng.randrange(200)),
                 ("runTo", self.an_address(), rng.randrange(200)),
                 ("back", rng.randrange(1, 30)), ("back", rng.randrange(model.held() + 2))]
        changes = [("set", rng.choice("AXYSP"), rng.randrange(257)),
                   ("set", "PC", self.an_address()),
                   ("patch", self.an_address(), {"hex": rng.randbytes(rng.randrange(5)).hex()}),
                   ("irq", rng.random() < 0.5), ("nmi",), ("reset",), ("input", rng.randrange(256))]
        stops = [(rng.choice(STOPS), self.an_address())]
        looks = [("registers",), ("read", self.an_address(), rng.randrange(300)), ("outputLength",),
                 ("output", rng.randrange(3)), ("access",), ("held",),
                 ("disassemble", rng.choice((model.state.pc, self.an_address())))]
        marks = sorted({self.an_address() for _ in range(3)})
        rare = [("runToAccess", {"marks": marks}, rng.randrange(100)), ("recordStart",),
                ("recordRun", rng.randrange(60))]
        return rng.choice(rng.choice((moves, moves, moves, changes, stops, looks, rare)))

