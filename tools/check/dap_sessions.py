"""Random sessions of tools/check/dap over ten programs: each move is made by `mos65 dap`, by a
session of `mon` and by the model of tools/models/dap_model.py, and all that the adapter shows is
compared with both."""

import base64
import os
import random
import re
from collections import namedtuple

import dap_model
import machine
import page_runs
import table
from testing import TOP, read, write

MAP = (0xF000, None, "N")
BARE = """; What profile C has, on a machine without a port: a sum by a subroutine.
sum     = $10
place   = $12
        *=$0200
start:  LDX #$FF
        TXS
        STZ sum
again:  LDX #<addends
        STX place
        LDX #>addends
        STX place+1
        LDY #8
next:   LDA (place)
        JSR add
        INC place
        DEY
        BNE next
        LDA sum
        STA $F000       ; memory, since there is no port
        STA $F002
done:   BRA done
add:    PHX
        CLC
        ADC sum
        STA sum
        TSX
        STX $0300
        PLX
        RTS
addends: .BYTE 1,2,3,4,5,6,7,8
        *=$FFFA
        .WORD add,start,add
"""
# A program, its map, what a launch asks for, and the same in words of `mon`.
PROGRAMS = [
    *((name, MAP, {}, [])
      for name in ("sieve.a65", "multiply.a65", "hello.a65", "crc8.a65", "clock.a65",
                                       "interrupt.a65")),
    ("profile_c.a65", (0xF000, None, "C"), {"profile": "C"}, ["--profile", "C"]),
    ("bare.a65", (None, None, "C"), {"profile": "C", "port": "none"},
     ["--profile", "C", "--port", "none"]),
    ("elsewhere.a65", (0xC100, (0x8000, 0xBFFF), "N"), {"port": "C100", "rom": "8000-BFFF"},
     ["--port", "C100", "--rom", "8000-BFFF"]),
    ("hunt.tape", MAP, {"tape": True}, ["--tape"]),
]
# The moves, the lines of `mon` that do the same, and what the model calls them.
WAYS = {"next": ("over", "over"), "stepIn": ("step", "step"), "stepOut": ("out", "out"),
        "continue": ("go", "go"), "stepBack": ("back over", "back_over"),
        "reverseContinue": ("rback", "back_to_stop")}
BY_INSTRUCTION = {"next": ("step", "step"), "stepBack": ("back", "back")}
WATCH = {"change": "", "read": " read", "write": " write"}


# What tools/check/dap has: a session that begins, a session of `mon`, a check, and the words given.
Tools = namedtuple("Tools", "begun Mon want quick moves")


def steps(model, count):
    """Steps one by one, to the first that is refused or meets something."""
    for _ in range(count):
        if model.step() != "step":
            break


def back(model, count):
    """So many events are undone, or none if there are fewer."""
    for _ in range(count if count <= model.held() else 0):
        model.undo()


def give(model, text):
    for byte in text:
        model.event(machine.give, byte)


def delete(model, address):
    """What stands at an address is deleted: a breakpoint, and the first watch."""
    model.breaks.pop(address, None)
    found = [it for it in model.watches if it[0] == address]
    if found:
        model.watches.remove(found[0])


# Lines of the console, and what they do to the model.
LINES = {
    "step 3": lambda m: steps(m, 3), "step 20": lambda m: steps(m, 20),
    "back 2": lambda m: back(m, 2), "redo": lambda m: m.redo(),
    "redo 1": lambda m: m.redo(1), "history 3": None, "regs": None, "mem $0200": None,
    "where": None,
    "list": None, "nonsense": None, "back over": lambda m: m.back_over(),
    "rback": lambda m: m.back_to_stop(),
    "irq on": lambda m: m.event(machine.set_irq, True),
    "irq off": lambda m: m.event(machine.set_irq, False),
    "nmi": lambda m: m.event(machine.nmi), "reset": lambda m: m.event(machine.reset),
    'type "ab\\n"': lambda m: give(m, b"ab\n"), "put $0030 1 2": lambda m: m.put(0x30, b"\1\2"),
    "set X 12": lambda m: m.set("x", 12), "set P $82": lambda m: m.set("p", 0x82),
    "asm $0300 LDA $1234": lambda m: m.event(machine.patch, 0x300, b"\xAD\x34\x12"),
    "watch X": lambda m: m.watches.append(("X", "register")),
    "break PC": lambda m: m.breaks.update({m.now.pc: dap_model.Break()}),
    "delete PC": lambda m: delete(m, m.now.pc), "go 40": lambda m: m.run(40, None, "pause"),
    "over": lambda m: m.over(), "out": lambda m: m.out(),
}


# Those that make and undo no event.
LOOKS = {"history 3", "regs", "mem $0200", "where", "list", "nonsense", "watch X", "break PC",
         "delete PC"}


def differing(before, after):
    """The addresses at which two memories differ."""
    return [i << 12 | j << 8 | k for i in range(16) if before[i] is not after[i] for j in range(16)
            if before[i][j] is not after[i][j] for k in range(256)
            if before[i][j][k] != after[i][j][k]]


def plain(shown):
    """The hexadecimal value of what is shown: of a byte the decimal one and the character have to
    stand behind it, and nothing behind anything else."""
    it = re.match(r"\$([0-9A-F]{2})(?![0-9A-F])", shown)
    if not it:
        return shown
    byte = int(it[1], 16)
    character = f" '{chr(byte)}'" if 32 <= byte <= 126 else ""
    return it[0] if shown == f"{it[0]} {byte}{character}" else f"wrong: {shown}"


def file_of(name, folder):
    """A program's file, which may be made in a folder, and the source that has the names of an
    image."""
    path = f"{TOP}/examples/{name}"
    if os.path.exists(path):
        return path, None
    path, source = f"{folder}/{name}", name.replace(".tape", ".a65")
    if source != name:
        write(path, page_runs.file_of(name))
        return path, f"{TOP}/examples/{source}"
    write(path, {**page_runs.SOURCES, "bare.a65": BARE}[name])
    return path, None


class Session:
    """One session over a program. `steps` is the most of a run, if a number is given."""

    def __init__(self, tools, folder, row, steps, dice):
        self.tools, self.want, self.dice = tools, tools.want, dice
        self.name, places, launch, words = row
        path, symbols = file_of(self.name, folder)
        more = {"symbols": symbols} if symbols else {}
        self.words = [*words, *(["--symbols", symbols] if symbols else []), "--history", "900",
                      path]
        self.program = dap_model.Program(read(path), places, launch.get("tape"), symbols
                                         and read(symbols))
        self.model = dap_model.Model(self.program, 900, steps, 3000 if tools.quick else 6000)
        is_endless = self.is_endless()
        self.steps = self.model.steps = 3000 if is_endless and steps is None else steps
        self.stops_on_entry = is_endless or dice.random() < 0.7
        self.path, self.where, self.reason = path, f"{self.name}, entry", "entry"
        self.placed, self.last_id = {"lines": [], "addresses": []}, 0
        given = {"steps": self.steps} if self.steps else {}
        self.invalidates = dice.random() < 0.7
        self.adapter = tools.begun(path, self.invalidates, history=900, stopOnEntry=self.stops_on_entry, **launch,
                                   **given, **more)
        self.mon = tools.Mon(self.words)

    def is_endless(self):
        """Whether a run from the beginning is too long for the model."""
        try:
            self.model.again().entered(False)
        except dap_model.TooFar:
            return True
        return False

    # What is compared ---------------------------------------------------------------------------

    def told(self, reason):
        """The next events: what is put out, and that the machine stands for this reason."""
        body, out = self.adapter.until("stopped")
        reason, said = self.model.stopped(reason)
        self.reason = reason
        self.want(body["reason"] == reason,
                  f"{self.where}: {body['reason']}, and the model has {reason}")
        hits = [id_ for kind in ("lines", "addresses") for id_, address in self.placed[kind]
                if reason.endswith("breakpoint") and reason[0] != "d" and address == self.model.now.pc]
        self.want(body["hitBreakpointIds"] == hits, f"{self.where}: {body}, and the ids are {hits}")
        heard = [(it["category"], it["output"] if it["category"] == "stdout" else None)
                 for it in out]
        self.want(heard == said, f"{self.where}: {heard}, and the model has {said}")

    def told_changed(self):
        """That values may have changed is told to a client that has said that it takes that."""
        if self.invalidates:
            self.adapter.until("invalidated")

    def compare(self, before):
        """All that is shown, with `mon` and with the model; `before` is the state before the
        move."""
        adapter, model, want, where = self.adapter, self.model, self.want, self.where
        registers, flags, cycles = self.mon.state()
        scope = self.dice.choice([3, 4, 5])
        for number in (1, 2, 6, scope):
            told, meant = adapter.variables(number), model.variables(number)
            want(told == meant, f"{where}: scope {number} has {told}, and the model {meant}")
            if self.dice.random() < 0.1:
                first, count = self.dice.randrange(300), self.dice.randrange(20)
                page = adapter.variables(number, start=first, count=count)
                want(list(page.items()) == list(meant.items())[first:first + count if count else None],
                     f"{where}: {count} of scope {number} from {first} on are {page}")
            ours = {1: registers, 2: flags, 6: {"cycles": cycles}}.get(number, {})
            want(ours.items() <= told.items(), f"{where}: {told}, and mon has {ours}")
        self.frames()
        changed = differing(before.mem, model.now.mem)
        for first in self.dice.sample(changed, min(len(changed), 2)):
            self.memory(first, 1)
        self.memory(self.dice.randrange(65536), self.dice.randrange(300))

    def frames(self):
        """The frames of the stack, all or some of them, and the scopes of one."""
        meant, dice = self.model.frames(), self.dice
        first, levels = dice.choice([(0, 0), (0, 1), (1, 20), (dice.randrange(4), dice.randrange(3))])
        told = self.adapter.ask("stackTrace", threadId=1, startFrame=first, levels=levels)
        shown = meant[first:first + levels] if levels else meant[first:]
        self.want(told["totalFrames"] == len(meant) and len(told["stackFrames"]) == len(shown),
                  f"{self.where}: frames {told}, and in the model {meant}")
        for it, (id_, at, is_interrupted) in zip(told["stackFrames"], shown):
            line = self.program.line_at(at)
            words = f"interrupted at {at:04X}" if is_interrupted else f"{at:04X}"
            self.want(it["id"] == id_ and it["instructionPointerReference"] == f"0x{at:04X}"
                      and it["name"].startswith(words) and it["line"] == (line or 0)
                      and ("source" in it) == (line is not None),
                      f"{self.where}: {it}, and in the model {(id_, at, line, is_interrupted)}")
        id_ = dice.choice(meant)[0]
        names = [it["name"] for it in self.adapter.ask("scopes", frameId=id_)["scopes"]]
        own = ["Registers", "Flags"] if id_ == 1 else []
        self.want(names == [*own, "Symbols", "Stack", "Zero page", "Machine"],
                  f"{self.where}: scopes of {id_}: {names}")

    def memory(self, first, count):
        told = self.adapter.ask("readMemory", memoryReference=f"0x{first:04X}", count=count)
        meant = self.model.memory(first, count)
        data = base64.b64decode(told.get("data", ""))
        self.want(data == meant and told["unreadableBytes"] == count - len(meant),
                  f"{self.where}: {count} bytes at {first:04X} are {data.hex()}, and in the model {meant.hex()}")

    def rows(self):
        """Rows of a disassembly stand one behind another, and have the bytes that are there."""
        pc, model = self.model.now.pc, self.model
        rows = self.adapter.ask("disassemble", memoryReference=f"0x{pc:04X}",
                                instructionCount=4)["instructions"]
        rows = [it for it in rows if it.get("presentationHint") != "invalid"]
        self.want(int(rows[0]["address"], 16) == pc, f"{self.where}: {rows}")
        for it, following in zip(rows, rows[1:]):
            first, data = int(it["address"], 16), bytes.fromhex(it["instructionBytes"])
            self.want(data == model.memory(first, len(data)), f"{self.where}: {it}")
            row = table.decode(model.spec.profile, data[0])
            good = it["instruction"].startswith(".BYTE") or row and it["instruction"].startswith(row.mnemonic)
            self.want(good and int(following["address"], 16) >= first + len(data),
                      f"{self.where}: {it}")

    def look(self):
        """What a register, a name or an address shows."""
        names = [it for it in self.program.names if len(it) > 1]
        text = self.dice.choice([*self.model.registers(), *names,
                                 f"${self.dice.randrange(65536):04X}"])
        told = self.adapter.ask("evaluate", expression=text,
                                context=self.dice.choice(["hover", "watch"]))
        self.want(plain(told["result"]) == self.model.looked_at(text),
                  f"{self.where}: {text} shows {told}")

    def offer(self):
        """What is offered behind the word of a line: the names that begin with what is typed."""
        names = list(self.program.names)
        typed = self.dice.choice([*names, "zz"])[:self.dice.randrange(3)]
        typed = self.dice.choice([typed, typed.upper()])
        told = self.adapter.ask("completions", text=f"put {typed} 1", column=5
                                + len(typed))["targets"]
        meant = [{"label": it, "text": it, "start": 5, "length": len(typed)}
                 for it in names if it.upper().startswith(typed.upper())]
        self.want(told == meant, f"{self.where}: {typed!r} offers {told}, and in the model {meant}")

    # Stops --------------------------------------------------------------------------------------

    def tests(self):
        """A condition or a hit count of a breakpoint, or neither."""
        kind = self.dice.random()
        if kind < 0.3:
            return {"condition": self.dice.choice(sorted(dap_model.CONDITIONS))}
        return {"hitCondition": str(self.dice.randrange(1, 4))} if kind < 0.6 else {}

    def number(self, name, told, addresses):
        """Each breakpoint of a list has a number that none had before."""
        ids = [it["id"] for it in told]
        self.want(all(a > b for a, b in zip(ids, [self.last_id, *ids])),
                  f"{self.where}: the numbers {ids} after {self.last_id}")
        self.last_id = max([self.last_id, *ids])
        self.placed[name] = [(id_, it) for id_, it in zip(ids, addresses) if it is not None]

    def set_listed(self, name, wanted, addresses):
        """A list of breakpoints is set in the model and in `mon`; beside each the address told."""
        for address in getattr(self.model, name):
            self.mon.line(f"delete ${address:04X}")
        listed = {}
        for it, address in zip(wanted, addresses):
            if address is not None:
                listed.pop(address, None)
                listed[address] = it.get("condition"), int(it.get("hitCondition", 1))
        self.model.set_listed(name, listed)
        for address, words in listed.items():
            self.mon_break(address, *words)

    def mon_break(self, address, condition, times):
        behind = f" if {condition}" if condition else f" times {times}" if times > 1 else ""
        self.mon.line(f"break ${address:04X}{behind}")

    def break_lines(self):
        count = self.program.count
        wanted = [{"line": self.dice.randrange(1, count + 3), **self.tests()}
                  for _ in range(self.dice.randrange(4))]
        told = self.adapter.ask("setBreakpoints", source={"path": self.path},
                                breakpoints=wanted)["breakpoints"]
        rows = [self.program.row_from(it["line"]) for it in wanted]
        meant = [(True, row[0], f"0x{row[1]:04X}") if row else (False, it["line"], None) for it,
                 row in zip(wanted, rows)]
        said = [(it["verified"], it["line"], it.get("instructionReference")) for it in told]
        self.want(said == meant, f"{self.where}: {wanted} set {said}, and not {meant}")
        self.number("lines", told, [row and row[1] for row in rows])
        self.set_listed("lines", wanted, [row and row[1] for row in rows])

    def break_addresses(self):
        places = [first for _, first, _ in self.program.lines] or [it for it in self.program.image if it < 0xFFFA]
        found = [self.dice.choice(places) for _ in range(self.dice.randrange(3))]
        wanted = [{"instructionReference": f"0x{it:04X}", **self.tests()} for it in found]
        told = self.adapter.ask("setInstructionBreakpoints", breakpoints=wanted)["breakpoints"]
        self.want([it["verified"] for it in told] == [True] * len(found), f"{self.where}: {told}")
        self.number("addresses", told, found)
        self.set_listed("addresses", wanted, found)

    def watch(self):
        """Bytes are watched that the program uses soon, but none of its own, where breakpoints can
        be."""
        places = [it for it in [*self.model.uses(300), 0x10, 0x1FC, 0x1FD, 0xF000]
                  if it not in self.program.image]
        wanted = [(self.stretch(self.dice.choice(places)),
                   self.dice.choice(["write", "read", "readWrite"]))
                  for _ in range(self.dice.randrange(3))]
        asked = [{"dataId": self.data_id(stretch), "accessType": access} for stretch, access in wanted]
        told = self.adapter.ask("setDataBreakpoints", breakpoints=asked)["breakpoints"]
        good = [access != "write" or not any(map(self.model.spec.is_port, stretch))
                for stretch, access in wanted]
        self.want([it["verified"] for it in told] == good, f"{self.where}: {asked}: {told}")
        for place, _ in self.model.watches:
            self.mon.line(f"delete {place}" if isinstance(place, str) else f"delete ${place:04X}")
        self.model.set_data(wanted)
        self.mon_watches()

    def stretch(self, first):
        """Up to four bytes from an address on, none of which is the program's but for the first."""
        most = self.dice.choice((1, 1, 2, 4))
        end = next((it for it in range(first + 1, first + most) if it in self.program.image or it > 65535),
                   first + most)
        return range(first, end)

    def data_id(self, stretch):
        """The ID that the adapter gives bytes."""
        told = self.adapter.ask("dataBreakpointInfo", name=f"0x{stretch.start:04X}", asAddress=True,
                                **({} if len(stretch) == 1 else {"bytes": len(stretch)}))
        shown = f"${stretch[0]:04X}" + (f"..${stretch[-1]:04X}" if len(stretch) > 1 else "")
        self.want(told["description"] == shown, f"{self.where}: {stretch}: {told}")
        return told["dataId"]

    def mon_watches(self):
        for place, way in self.model.watches:
            self.mon.line(f"watch ${place:04X}{WATCH[way]}")

    # Changes ------------------------------------------------------------------------------------

    def write(self):
        first = self.dice.choice([*range(0x20, 0x100), 0x0300, *range(0xEFFE, 0xF002), 0x9000,
                                  0xFFFF])
        data = bytes(self.dice.randrange(256) for _ in range(self.dice.randrange(1, 4)))
        text = base64.b64encode(data).decode()
        some = data[:65536 - first]
        good = some == data and not any(self.model.spec.is_port(first + k) for k in range(len(data)))
        partial = self.dice.random() < 0.5
        told = self.adapter.ask("writeMemory", good=good or partial, data=text,
                                memoryReference=f"0x{first:04X}", **{"allowPartial": True} if partial
                                else {})
        if not good and not partial:
            return
        self.told_changed()
        there = self.model.put(first, some)
        self.want(told["bytesWritten"] == there,
                  f"{self.where}: {data.hex()} at {first:04X}: {told}, and {there}")
        self.mon.line(f"put ${first:04X} " + " ".join(str(it) for it in some))

    def set_variable(self):
        dice, names = self.dice, [it for it in self.program.names if len(it) > 1]
        scope = dice.choice([1, 2, 5] + [3] * bool(names))
        name = dice.choice({1: ["PC", *"AXYSP"], 2: list("NVDIZC"), 3: names,
                            5: [f"${it:04X}" for it in range(256)]}[scope])
        value = dice.randrange(2 if scope == 2 else 256)
        if name == "PC":
            value = dice.choice(sorted(self.program.image))
        text = dice.choice([f"${value:02X}", str(value)]) if scope != 2 else str(value)
        if scope == 1:
            good = self.model.set(name, value)
        elif scope == 2:
            good = self.model.set_flag(name, value)
        else:
            address = int(name[1:], 16) if scope == 5 else self.program.names[name]
            good = self.model.event(machine.patch, address, bytes((value,)))
        told = self.adapter.ask("setVariable", good=good, variablesReference=scope, name=name,
                                value=text)
        if good:
            self.told_changed()
            shown = self.model.variables(scope).get(name)
            self.want(plain(told["value"]) == shown,
                      f"{self.where}: {name} is {told['value']}, and in the model {shown}")
        self.mon.line(f"{'set' if scope < 3 else 'put'} {name} {text}")

    def goto(self):
        wanted = self.dice.randrange(1, self.program.count + 2)
        targets = self.adapter.ask("gotoTargets", source={"path": self.path},
                                   line=wanted)["targets"]
        row = self.program.row_from(wanted)
        said = [(it["line"], it["instructionPointerReference"]) for it in targets]
        self.want(said == ([(row[0], f"0x{row[1]:04X}")] if row else []),
                  f"{self.where}: {said} for {row}")
        if row:
            self.adapter.ask("goto", threadId=1, targetId=targets[0]["id"])
            self.model.set("pc", row[1])
            self.told("goto")
            self.mon.line(f"set PC ${row[1]:04X}")

    def restart(self):
        """The session begins anew, unless the run that it begins with is too long for the model."""
        model = self.model.again()
        try:
            reason = model.entered(self.stops_on_entry)
        except dap_model.TooFar:
            return
        self.adapter.ask("restart")
        self.model = model
        self.mon.end()
        self.mon = self.tools.Mon(self.words)
        for address, it in model.breaks.items():
            self.mon_break(address, it.condition, it.times)
        self.mon_watches()
        self.enter(reason)

    # Moves --------------------------------------------------------------------------------------

    def console(self):
        """A line of `mon`, unless its run is too long for the model."""
        line = self.dice.choice(sorted(LINES))
        before = self.model.now
        try:
            if LINES[line]:
                LINES[line](self.model)
        except dap_model.TooFar:
            return
        good, ours = line != "nonsense", self.mon.line(line)
        told = self.adapter.ask("evaluate", good=good, expression=line, context="repl")
        said, ours = (told["result"], ours) if good else (told, ours.strip())
        self.want(said == ours, f"{self.where}: {line} says {said!r}, and mon {ours!r}")
        seen = [(s.a, s.x, s.y, s.s, s.pc, machine.p_of(s, False), s.cycles)
                for s in (before, self.model.now)]
        if seen[0] != seen[1]:
            self.told("step")
        elif line not in LOOKS:
            self.told_changed()

    def move(self):
        self.make(self.dice.choice(sorted(WAYS)))

    def there_and_back(self):
        """A subroutine is gone through, and back over at once."""
        for command in (self.dice.choice(["next", "stepOut"]), "stepBack"):
            before = self.model.now
            self.make(command)
            self.compare(before)

    def make(self, command):
        """A move, or a step where it is too long for the model."""
        granularity = self.dice.choice([None, None, "instruction"]) if command in BY_INSTRUCTION else None
        line, way = BY_INSTRUCTION[command] if granularity else WAYS[command]
        line = self.going() if command == "continue" else line
        try:
            reason = getattr(self.model, way)()
        except dap_model.TooFar:
            command, line, reason, granularity = "stepIn", "step", self.model.step(), None
        more = {"granularity": granularity} if granularity else {}
        self.adapter.ask(command, threadId=1, **more)
        self.told(reason)
        self.mon.line(line)

    def enter(self, reason):
        """The program stands before its first instruction, or has run to a stop."""
        self.told(reason)
        if not self.stops_on_entry:
            self.mon.line(self.going())

    def going(self):
        return f"go {self.steps}" if self.steps else "go"

    def run(self, moves):
        reason = self.model.entered(self.stops_on_entry)
        self.adapter.ask("configurationDone")
        self.enter(reason)
        kinds = [self.break_lines, self.break_addresses, self.watch, self.write, self.set_variable,
                 self.goto,
                 self.console, self.console, self.look, self.offer, self.rows,
                 *[self.there_and_back] * 3, *[self.move] * 12]
        for index in range(moves):
            before = self.model.now
            ends = self.reason in ("exception", "pause")
            kind = self.restart if self.dice.random() < (0.25 if ends
                                                         else 0.02) else self.dice.choice(kinds)
            self.where = f"{self.name}, move {index}, {kind.__name__}"
            kind()
            self.compare(before)
        if not self.tools.quick:
            self.memory(0, 65536)
        self.adapter.end()
        self.mon.end()
        return self.adapter.sent


def sessions(tools, folder):
    """Sessions of 25 moves at most over each program. How many requests were made."""
    asked = 0
    for row in PROGRAMS:
        for number, first in enumerate(range(0, tools.moves, 25)):
            steps = [None, 3000, 40][number % 3]
            session = Session(tools, folder, row, steps, random.Random(f"{row[0]} {number}"))
            asked += session.run(min(25, tools.moves - first))
    return asked
