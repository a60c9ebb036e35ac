"""The runs whose pages tools/check/page looks at, and how these pages are made: by `mos65 page`, if
it is built, and otherwise by tools/models/page_model.py."""

import base64
import os
import re

import debug_rows
import page_format
import page_model
import tape
import testing
from testing import PROGRAM, TOP, read, write

# A source, its words, its input, and the port, the ROM and the profile of its map.
HOSTILE, NOTES = "hostile.a65", "lesson.notes"
# The options of `page` that say nothing of the run, each with a value.
SHOWN = ("--title", "--at", "--screen", "--notes")
# What a page of a session says of its end.
HELD = b"why here the page was written\n"
MAP = (0xF000, None, "N")
RUNS = [
    ("hunt.a65", [], b"", MAP),
    ("sieve.a65", ["--steps", "5000"], b"", MAP),
    ("guess.a65", ["--steps", "2000"], b"Ada\n50\nsix\n6\n", MAP),
    ("echo.a65", ["--steps", "2000"], b"Hello\n6502", MAP),
    ("interrupt.a65", ["--steps", "1000"], b"ab\nc\n", MAP),
    ("empty.a65", ["--free", "--steps", "300"], b"", MAP),
    ("profile_c.a65", ["--profile", "C", "--steps", "2000"], b"", (0xF000, None, "C")),
    ("rom.a65", ["--rom", "E000-EFFF", "--steps", "2000"], b"", (0xF000, (0xE000, 0xEFFF), "N")),
    ("elsewhere.a65", ["--port", "C100", "--rom", "8000-BFFF", "--steps", "900"], b"port\n",
     (0xC100, (0x8000, 0xBFFF), "N")),
    ("entries.a65", [], b"ab\nc\n", MAP),
    ("leave.a65", [], b"", MAP),
    ("deep.a65", ["--steps", "700"], b"", MAP),
    ("changes.a65", ["--steps", "300"], b"", MAP),
    ("none.a65", [], b"", MAP),
    ("hunt.tape", ["--tape"], b"", MAP),
    (HOSTILE, ["--title", "</script><b>&%41\n%", "--notes", NOTES], b"", MAP),
    ("sum.hex", ["--debug-info", "sum.dbg"], b"", MAP),
    ("odd.hex", ["--debug-info", "odd.dbg"], b"", MAP),
    ("count.hex", ["--debug-info", "count.dbg"], b"", MAP),
    ("noted.a65", ["--at", "7", "--screen", "0200", "--notes", NOTES], b"", MAP),
]
# What each of these runs finds as its notes.
NOTED = """0 The start of the run.
  7\tThe first place is white. </script><b>&%41
7 A second note there.

12 The next one.\r
9999999 Behind the end."""
# Sources that are no examples: a ROM beside a port at another place, interrupts by the console,
# subroutines of which two are left at once by TXS, calls without end, code that changes itself, and
# a run of no step.
START = "\n*=$FFFC\n.WORD start\n"
SOURCES = {
    "elsewhere.a65": """*=$8000
start:  LDX #0
        STX $8000       ; nothing happens
wait:   LDA $C102
        BEQ wait
        LDA $C101
        STA $0300,X
        STA $C100
        INX
        JMP wait
*=$FFFC
.WORD start
""",
    "entries.a65": """*=$0200
start:  LDA #1
        STA $F003
        CLI
wait:   LDA $F002
        JMP wait
echo:   PHA
        LDA $F001
        STA $F000
        PLA
        RTI
*=$FFFC
.WORD start,echo
""",
    "session.a65": """*=$0200
start:  LDX #$FF
        TXS
        LDA #1
        STA $F003       ; input asks for an IRQ
        LDX #0
here:   INX
        CLI
        STX $30
        JSR wait
        JMP here
wait:   LDY #3
again:  DEY
        BNE again
        RTS
entry:  PHA
        LDA $F002
        BEQ none
        LDA $F001
        STA $F000
none:   PLA
        RTI
*=$FFFA
.WORD entry,start,entry
""",
    "leave.a65": """save    = $10
count   = $11
        *=$0200
start:  TSX
        STX save
again:  JSR outer
back:   INC count
        LDA count
        CMP #9
        BNE again
stop:   JMP stop
outer:  JSR inner
        RTS
inner:  LDA count
        LSR A
        BCC plain
        LDX save
        TXS
        JMP back
plain:  RTS""" + START,
    "deep.a65": "*=$0200\nstart: LDX #$FF\n TXS\nagain: JSR again" + START,
    "changes.a65": "*=$0200\nstart: INC code\n"
                   "code: LDA #0\n STA $F000\n JMP start" + START,
    "noted.a65": """*=$0600
start:  LDX #0
draw:   TXA
        STA $0200,X
        INX
        CPX #5
        BNE draw
stop:   JMP stop""" + START,
    "none.a65": "*=$0200\nstart: .BYTE 2" + START,
}
# A name of a source that would be markup.
ODD = "<img src=x onerror=alert(1)>&%41.c"
# Programs that other tools built: the page of tests/ that has their files, the debug file, and the
# sources that are there.
BUILT = {"sum.hex": ("page.md", "sum.dbg", ("sum.c", "start.s")),
         "odd.hex": ("page.md", "odd.dbg", (ODD, "start.s")),
         "count.hex": ("names.md", "count.dbg", ("count.s",))}
# Sessions of `mon` that end with a page: the file, the events that are held at most, and lines,
# each with its events: a number is so many steps, a negative one so many events undone, and a call
# with its words is an event of the machine.
PATCH, SET, GIVE = (getattr(page_model.machine, name) for name in ("patch", "set_register", "give"))
IRQ, NMI, RESET = (getattr(page_model.machine, name) for name in ("set_irq", "nmi", "reset"))
TYPED = [(GIVE, byte) for byte in b"ab\n"]
SESSIONS = [
    ("session.a65", 65536, [
        ("step 30", [30]), ("put $0300 1 2", [(PATCH, 0x300, b"\1"), (PATCH, 0x301, b"\2")]),
        ("asm $0300 LDA $1234", [(PATCH, 0x300, b"\xAD\x34\x12")]),
        ("set A 12", [(SET, "a", 12)]), ("set P 2", [(SET, "p", 2)]), ('type "ab\\n"', TYPED),
        ("step 40", [40]), ("set PC here", [(SET, "pc", 0x20A)]), ("irq on", [(IRQ, True)]),
        ("step 6", [6]), ("nmi", [(NMI,)]), ("step 2", [2]), ("irq off", [(IRQ, False)]),
        ("nmi", [(NMI,)]), ("reset", [(RESET,)]), ("step 9", [9]), ("back 7", [-7]),
        ("put $0020 $20", [(PATCH, 0x20, b"\x20")]), ('type "b"', [(GIVE, 98)]), ("step 5", [5]),
        ("back 6", [-6]), ("redo 1", [(GIVE, 98)]), ("history 4", []), ("where", []),
    ]),
    # the oldest state that is held has an IRQ asked for, an NMI pending, and input taken
    ("session.a65", 12, [
        ('type "ab\\n"', TYPED), ("step 70", [70]), ("irq on", [(IRQ, True)]),
        ("nmi", [(NMI,)]), ("set X 1", [(SET, "x", 1)]), ("step 11", [11]),
    ]),
    ("session.a65", 8, [("step 50", [50]), ("irq on", [(IRQ, True)]), ("step 9", [9]),
                        ("irq off", [(IRQ, False)])]),
    ("session.tape", 5, [("step 50", [50]), ("nmi", [(NMI,)]), ("back 3", [-3])]),
    ("sum.hex", 65536, [("step 30", [30]), ("set X 5", [(SET, "x", 5)]), ("line back", [-1]), ("back 4", [-4])]),
    # a short history, whose oldest state has an NMI pending
    ("session.a65", 2, [("step 30", [30]), ("nmi", [(NMI,)]), ("step 2", [2])]),
]


def spec_of(row=MAP):
    return page_model.machine.MapSpec(*row)


def parts_of(text):
    """The parts of a page by name: what stands in its elements of plain text."""
    found = re.findall(rb'<script type="text/plain" id="(\w+)">(.*?)</script>', text, re.S)
    return {name.decode(): part for name, part in found}


def hostile():
    """A source whose text would end a script, and whose lines and names are many and long."""
    lines = ["*=$0200", "start: LDX #3 ; </script><script>alert(1)</script> <!-- /*RUN*/ /*END*/",
             "loop: DEX ; &lt; %3C %", "      BNE loop ; ' \" `\\", "      JMP *",
             "; " + "<" * 253, ""]
    lines += [f"name_{n} = ${n:04X}" for n in range(2000)]
    return "\r\n".join([*lines, "*=$FFFC", ".WORD start"]).encode()


def block_of(page, name):
    """A file of a page of tests/."""
    text = read(f"{TOP}/tests/{page}").decode()
    return re.search(rf"(?ms)^```source {re.escape(name)}\n(.*?)^```$", text)[1]


def built_files(name):
    """The files of a program that another tool built, by name: the debug file first."""
    page, debug, sources = BUILT[name]
    found = {it: block_of(page, "sum.c" if it == ODD else it) for it in sources}
    text = block_of(page, "sum.dbg" if name == "odd.hex" else debug)
    return {debug: text.replace("sum.c", ODD) if ODD in sources else text, **found}


def write_built(folder, name):
    """Writes these files, and returns the name of the debug file."""
    for it, text in built_files(name).items():
        write(f"{folder}/{it}", text.encode())
    return BUILT[name][1]


def hex_image(text):
    """The bytes of a file of Intel HEX."""
    image = {}
    for line in text.decode().split():
        record = bytes.fromhex(line[1:])
        if record[3] == 0:
            at = record[1] << 8 | record[2]
            image.update({at + k: byte for k, byte in enumerate(record[4:-1])})
    return image


def debug_of(name, spec):
    """What a page says of the sources of a program that another tool built."""
    files = {it: text.encode() for it, text in built_files(name).items()}
    ops = page_model.opcodes(spec.profile)
    return debug_rows.facts_of(files.pop(BUILT[name][1]).decode(), files, hex_image(file_of(name)), ops)


def said_in(part):
    """What an escaped part says."""
    part = part.removeprefix(b"\n")
    return re.sub(rb"%(..)", lambda m: bytes((int(m[1], 16),)), part)


def modelled(name, words, spec, page):
    """The page of a run by tools/models/reference: with the input where the program's page has it,
    or with none if there is no such page. Beside it the input."""
    text = read(name)
    is_image = "--tape" in words or name in BUILT
    assembly = None if is_image else page_model.asm.assemble(text, spec)
    image = assembly.image if assembly else hex_image(text) if name in BUILT else tape.read_tape(text)
    debug, source = debug_of(name, spec) if name in BUILT else (b"", page_model.source_of(assembly))
    if page:
        _, changes = page_format.decode(base64.b64decode(parts_of(page)["run"]))
        gives = [change["given"] for change in changes]
        why = said_in(parts_of(page)["end"])
    else:
        gives, why = [b""] * (0 if name == "none.a65" else 50), b"why nothing\n"
    said = dict(zip(words, words[1:]))
    title = said.get("--title", name).replace("\n", " ")
    screen = int(said["--screen"], 16) if "--screen" in said else None
    notes = NOTED if "--notes" in said else ""
    facts = page_model.facts_of(title, spec, image, assembly, debug)
    facts += page_model.opening_of(said.get("--at"), screen, notes)
    data = page_model.data_of(spec, image, gives)
    page = page_model.page_of(facts, source, data, why)
    return page, b"".join(gives)


def run_program(words, typed):
    """The steps that `run` makes of the same program."""
    ran = testing.run(["run", *words, "--cycles"], typed)
    return int(re.search(rb"(\d+) steps?\n$", ran.stderr)[1])


def file_of(name):
    """What a page is made of: an example, a source of this tool, or the tape of an example."""
    if name == HOSTILE:
        return hostile()
    if name in BUILT:
        return block_of(BUILT[name][0], name.replace("odd", "sum")).encode()
    source = name.replace(".tape", ".a65")
    if name in SOURCES:
        return SOURCES[name].encode()
    if source in SOURCES:
        return tape.write_tape(page_model.asm.assemble(SOURCES[source].encode(), spec_of()).image)
    text = read(f"{TOP}/examples/{source}")
    if name.endswith(".tape"):
        return tape.write_tape(page_model.asm.assemble(text, spec_of()).image)
    return text


def written(folder, name, words, typed):
    """The page that the program writes of a file in a folder, or None where it is not built."""
    if not os.access(PROGRAM, os.X_OK):
        return None
    write(f"{folder}/typed", typed)
    write(f"{folder}/{NOTES}", NOTED.encode())
    if name in BUILT:
        write_built(folder, name)
    testing.run(["page", name, f"{name}.html", "--input", "typed", *words], cwd=folder)
    return read(f"{folder}/{name}.html")


def events_of(lines, history):
    """The events of lines, undone ones left out, and how many of them are held at their end."""
    events, held = [], 0
    for _, made in lines:
        for it in made:
            if isinstance(it, int) and it < 0:
                del events[it:]
                held += it
                continue
            events += [None] * it if isinstance(it, int) else [it]
            held = min(history, held + (it if isinstance(it, int) else 1))
    return events, held


def make_session(compare, folder, number, name, history, lines):
    """Has `mon` write the page of a session in a folder, the current one, and returns its path. It
    is compared with the page that is made by tools/models/reference. Without the program that page
    is taken."""
    out = f"session-{number}.html"
    write(name, file_of(name))
    assembly = page_model.asm.assemble(file_of("session.a65"), spec_of())
    image = hex_image(file_of(name)) if name in BUILT else assembly.image
    assembly = assembly if name.endswith(".a65") else None
    debug, source = debug_of(name, spec_of()) if name in BUILT else (b"", page_model.source_of(assembly))
    facts = page_model.facts_of(name, spec_of(), image, assembly, debug)
    held, states = page_model.session_of(spec_of(), image, *events_of(lines, history))
    wanted = page_model.page_of(facts, source, held, HELD)
    if os.access(PROGRAM, os.X_OK):
        typed = "".join(f"{line}\n" for line, _ in lines) + f"regs\npage {out}\nregs\nhistory\n"
        words = ["mon", name, *["--tape"] * name.endswith(".tape"), "--history", str(history)]
        if name in BUILT:
            words += ["--debug-info", write_built(folder, name)]
        ran = testing.run(words, typed, cwd=folder, text=True)
        said = ran.stdout.split("\n")
        told = f"{out}: {len(states) - 1} events, {len(wanted)} bytes"
        at = next(k for k, line in enumerate(said) if line.startswith(out))
        compare(f"{out} said", said[at - 1:at + 2], [said[at - 1], told, said[at - 1]])
        page = read(f"{folder}/{out}")
        told = page_format.decode(base64.b64decode(parts_of(page)["run"]))
        meant = page_format.decode(held)
        compare(f"{out} start", told[0].state(), meant[0].state())
        compare(f"{out} changes", told[1], meant[1])
        compare(f"{out} page", page == wanted, True)
    else:
        write(out, wanted)
    return f"{folder}/{out}"


def make_page(compare, folder, name, words, typed, row):
    """Makes a page in a folder, the current one, and returns its path. What the program writes is
    compared with the page that is made by tools/models/reference."""
    write(name, file_of(name))
    page = written(folder, name, words, typed)
    wanted, given = modelled(name, words, spec_of(row), page)
    if page:
        compare(f"{name} page", page == wanted, True)
        compare(f"{name} input", typed.startswith(given), True)
        steps = len(page_format.decode(base64.b64decode(parts_of(page)["run"]))[1])
        shown = [k for k, word in enumerate(words) if word in SHOWN]
        options = [word for k, word in enumerate(words) if k not in shown and k - 1 not in shown]
        compare(f"{name} steps", steps, run_program([name, *options], typed))
    else:
        write(f"{name}.html", wanted)
    return f"{folder}/{name}.html"
