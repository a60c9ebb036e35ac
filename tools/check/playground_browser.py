#!/usr/bin/env python3
"""Tries the playground's page in a headless Chromium: by its own buttons and keys, as a user would.

    tools/check/playground_browser.py [PAGE.html] [--sessions N] [--seed N] [--only try_NAME,..]
                                      [--but try_NAME] [--firefox | --webkit]

Random sessions (60 if no number is given) type a source, and press buttons and keys. After each the page
has to show what tools/models/playground_model.py says, and at the end what the module answers when it is called
directly. Then each of the checks below runs once. Where there is no such browser, a line says so, and
where the page's module is of older crates, the texts of docs/MANUAL.md are left out. The last line is
'N passed, M failed'.

With `--firefox` it is a Firefox, with `--webkit` WebKit, the engine of Safari; checks that ask for what
Chromium alone tells are left out there."""

import json
import os
import random
import re
import sys
import tempfile
import time
import traceback

sys.dont_write_bytecode = True
import testing
from testing import TOP
import browser as browsers
import firefox
import playground_page as pages
import webkit
from page_model import machine, store
from playground_model import Model

PAGE = f"{TOP}/playground/mos65.html"
PARTS = ("registers", "flags", "cycles", "memory", "console", "step", "last", "why")
SHOWN = """(() => {
  const hex = s => [...document.querySelectorAll(s)].map(e => parseInt(e.textContent, 16));
  const flag = e => e.classList.contains('on') ? e.textContent[0] : e.textContent[0].toLowerCase();
  const {viewer, session} = playground, number = s =>
    +document.querySelector(s).textContent.replace(/\\D/g, '');
  let sum = 0; for (const byte of viewer.memory) sum = (sum * 31 + byte) % 4294967291;
  return [hex('#regs b, #pc b'),
    [...document.querySelectorAll('#flags span:not(.off)')].map(flag).join(''), number('#cycles'), sum,
    [document.querySelector('#past').textContent, document.querySelector('#form').textContent],
    +document.querySelector('#step').value,
    number('#steps'), session.reason.why];
})()"""
KEYS = {"step": ["F8", "n", "ArrowRight"], "back": ["Shift F8", "b", "ArrowLeft"], "over": ["F9", "N"],
        "start": ["Home"], "run": ["Ctrl Enter"], "again": ["z"], "write": ["Shift F9"]}
BUTTONS = {"step": "on", "back": "undo", "over": "over", "start": "zero", "run": "go", "again": "again",
           "write": "wrote"}


routines = testing.folders.load("check/random-routines")


class Tally(testing.Tally):
    def holds(self, what, is_so):
        return self.note(is_so, what)


class Page:
    """The page in a browser, and what a user does there."""

    def __init__(self, path, **screen):
        self.path = path
        self.browser = browsers.Browser(**screen)
        self.js, self.click_on = self.browser.js, self.browser.click
        self.open()

    def open(self, part=""):
        self.show(self.path, part)
        self.wait("typeof playground != 'undefined'")
        self.js("playground.ready.then(() => 1)")

    def show(self, path, part=""):
        """Shows a file. A navigation that begins before the last one has ended gets no answer."""
        for address in ("about:blank", "file://" + os.path.abspath(path) + part):
            self.browser.call("Page.navigate", url=address)
            protocol = address.split(":")[0] + ":"
            self.wait(f"document.readyState == 'complete' && location.protocol == '{protocol}'")

    def wait(self, text, seconds=30):
        for _ in range(int(seconds * 50)):
            if self.js(text):
                return True
            time.sleep(.02)
        return False

    def settle(self):
        """Waits until the program runs no more, and all is drawn."""
        self.wait("!playground.isRunning")

    def click(self, selector):
        self.click_on(f"document.querySelector('{selector}')")

    def key(self, words):
        """Presses a key, as `Shift F8`."""
        *held, key = words.split(" ") if words != " " else [" "]
        modifiers = sum({"Alt": 1, "Ctrl": 2, "Shift": 8}[it] for it in held)
        text = "" if len(key) > 1 or "Ctrl" in held else key
        code = (111 + int(key[1:]) if key[0] == "F" and key[1:].isdigit() else
                browsers.CODES.get(key, {"Tab": 9, "Escape": 27}.get(key, ord(key.upper()[0]))))
        if key == "Enter" and not held:
            text = "\r"
        words = dict(key=key, windowsVirtualKeyCode=code, modifiers=modifiers)
        more = {"text": text} if text else {}
        self.browser.call("Input.dispatchKeyEvent", type="keyDown", **words, **more)
        self.browser.call("Input.dispatchKeyEvent", type="keyUp", **words)

    def type(self, text):
        self.browser.call("Input.insertText", text=text)

    def edit(self, source):
        """Replaces the source in the editor, as one who pastes it."""
        if self.js("document.body.dataset.mode") != "edit":
            self.click("#edit")
        self.click("#text")
        self.js("document.querySelector('#text').select()")
        self.type(source)

    def choose(self, number):
        """Chooses an example by its number."""
        self.js(f"(e => {{ e.selectedIndex = {number}; e.onchange(); }})"
                "(document.querySelector('#example'))")

    def give_file(self, path):
        """Gives the field for files one of them."""
        document = self.browser.call("DOM.getDocument")["root"]["nodeId"]
        node = self.browser.call("DOM.querySelector", nodeId=document, selector="#file")["nodeId"]
        self.browser.call("DOM.setFileInputFiles", nodeId=node, files=[path])

    def told(self):
        return self.js("document.querySelector('#told').textContent")

    def shown(self):
        return self.js(SHOWN)

    def close(self):
        self.browser.close()


class OtherPage(Page):
    """The same in Firefox or WebKit."""

    def __init__(self, path, driver):
        self.path = path
        self.browser = driver.Browser()
        self.js, self.click_on = self.browser.js, self.browser.click
        about = self.browser.about
        print(f"{about['browserName']} {about['browserVersion']}")
        self.open()

    def show(self, path, part=""):
        for address in ("about:blank", "file://" + os.path.abspath(path) + part):
            self.browser.open(address)

    def key(self, words):
        self.browser.press(*(words.split(" ") if words != " " else [" "]))

    def give_file(self, path):
        self.browser.give_file("#file", path)

    def type(self, text):
        self.js(f"document.execCommand('insertText', false, {json.dumps(text)})")


def console_of(out, form):
    """The console's text; where its button says `as text`, bytes are shown."""
    if form == "as text":
        return ["".join("%02X " % b for b in out), form]
    return ["".join("\n" if b == 10 else chr(b) if 31 < b < 127 else "·" for b in out), form]


def wanted_of(model, form=""):
    """What the page has to show of a model."""
    s = model.state
    flags = "".join(f.upper() if is_set else f for f, is_set in
                    zip("nvdizc", (s.n, s.v, s.d, s.i, s.z, s.c)))
    total = 0
    for byte in store.whole(s.mem):
        total = (total * 31 + byte) % 4294967291
    return [[s.a, s.x, s.y, s.s, s.pc], flags, s.cycles, total, console_of(machine.output(s), form),
            model.at,
            model.last, model.why]


# ---- random sessions


def a_program(rng):
    """A program that mostly ends: a few random instructions, one of several ends, and a handler."""
    body = [it for it in routines.lines_of(rng) if it != " RTS"]
    ends = ("done: JMP done", " BRK", " JMP $0900", " .BYTE 2", " CLI\nsleep: JMP sleep",
            "wait: LDA $F002\n BEQ wait\n LDA $F001\n STA $F000\n JMP wait")
    rows = ["*=$0200", "helper: INC $90", " RTS", "main: LDX #$FF", " TXS", *body,
            *rng.choice(ends).split("\n")]
    vectors = "main"
    if rng.random() < .4:
        rows += ["handler: PHA", " LDA $F001", " STA $F000", " PLA", " RTI"]
        rows[4:4] = [" LDA #1", " STA $F003"] if rng.random() < .7 else []
        vectors = "main,handler"
    rows += ["*=$0010", f".BYTE {','.join(str(rng.randrange(48, 52)) for _ in range(16))}"]
    if vectors == "main" and rng.random() < .2:         # then `helper` comes first, and returns
        return "\n".join([*rows, ""])
    return "\n".join([*rows, "*=$FFFC", f".WORD {vectors}", ""])


class Trial:
    """A random session in a page, beside its model."""

    def __init__(self, page, tally, seed, number):
        self.page, self.tally, self.name = page, tally, f"session {number} of seed {seed}"
        self.rng = random.Random(f"playground page {seed} {number}")
        self.source = a_program(self.rng)
        self.model, self.wants, self.log = Model(self.source.encode()), False, []

    def press(self, act):
        """By a button, or by a key that does the same."""
        if self.rng.random() < .5:
            self.page.click("#" + BUTTONS[act])
        else:
            key = self.rng.choice(KEYS[act])
            self.page.js("document.activeElement.blur()")     # letters go to a line of input
            self.page.key(key)
            act += " " + key
        self.log.append(act)

    def begin(self):
        self.page.choose(1)            # so that no breakpoint is left
        self.page.edit(self.source)
        self.page.key("F2")
        self.page.js("document.activeElement.blur()")

    def run(self):
        copy = Model(self.source.encode())
        copy.states, copy.events = self.model.states[:], self.model.events[:]
        copy.written, copy.breaks = set(self.model.written), self.model.breaks
        copy.at, copy.why = self.model.at, self.model.why
        was = copy.last
        if not copy.run():
            return False
        self.model = copy
        if copy.last != was or copy.why == "waits":
            self.wants = copy.why == "waits"
        return True

    def act(self):
        """One action, on the page and on the model. It is none where the model finds no end of it."""
        way = self.rng.choice(("step", "step", "step", "back", "back", "over", "run", "run", "start",
                               "again", "write", "break", "type"))
        if way == "run":
            before = self.model
            if not self.run():
                return
            self.press(way)
        elif way == "over":
            self.over()
        elif way == "break":
            self.toggle_break()
        elif way == "type":
            self.type()
        elif way == "write":
            self.write()
        else:
            self.press(way)
            getattr(self.model, {"again": "restart"}.get(way, way))()
            self.wants = self.wants and way != "again"
        self.page.settle()
        self.judge()

    def over(self):
        model = self.model
        is_call = model.at == model.last and model.opcode(model.state) == 0x20
        if is_call and not self.ends_over():
            return
        self.press("over")
        model.over()
        if is_call:
            self.wants = model.why == "waits"

    def ends_over(self):
        copy = Model(self.source.encode())
        copy.states, copy.events = self.model.states[:], self.model.events[:]
        copy.written, copy.breaks, copy.at = set(self.model.written), self.model.breaks, self.model.at
        return copy.over()

    def toggle_break(self):
        """By a click on the number of a line in the source view."""
        layouts = enumerate(self.model.assembly.layouts, 1)
        number, layout = self.rng.choice([it for it in layouts if it[1].row is not None])
        self.page.click_on("[...document.querySelectorAll('#rows .n')]"
                           f".find(e => (e.scrollIntoView(), e.textContent == '{number}'))")
        self.model.breaks ^= {layout.address}
        self.log.append(f"break {number}")

    def type(self):
        text = "".join(self.rng.choice("abcxyz 019") for _ in range(self.rng.randrange(4)))
        data = (text + "\n").encode()
        keep = self.model.states[:], self.model.events[:], self.model.at, self.model.why
        self.model.type(data)
        if self.wants and not self.run():
            self.model.states, self.model.events, self.model.at, self.model.why = keep
            return
        self.page.click("#line")
        self.page.type(text)
        self.page.key("Enter")
        self.page.js("document.activeElement.blur()")
        self.log.append(f"type {text!r}")

    def write(self):
        address = self.rng.choice((0x90, 0x1FE, 0x1FF, 0x10 + self.rng.randrange(16)))
        self.page.js(f"playground.viewer.choose({address})")
        self.press("write")
        self.model.last_write(address)

    def judge(self):
        shown = self.page.shown()
        if "stopped" in (shown[7], self.model.why) or shown[7] in ("over", "break", "start"):
            shown[7] = self.model.why          # why a run rests is told of its end alone
        for part, is_so, wanted in zip(PARTS, shown, wanted_of(self.model, shown[4][1])):
            what = f"{self.name} {part} after {', '.join(self.log)}"
            if not self.tally.compare(what, is_so, wanted):
                raise EndOfTrial

    def called_directly(self):
        """The events up to the last state, made by calls of the module alone."""
        runs = []
        for event in self.model.events:
            if event == "step" and runs and runs[-1][0] == "run":
                runs[-1][1] += 1
            else:
                runs.append(["run", 1] if event == "step" else ["input", event])
        text = f"""(() => {{
          const {{engine}} = playground.session, config = {{history: 65536, port: 0xF000}};
          const assembly = engine.assemble({json.dumps(self.source)}, config);
          const machine = engine.open(assembly, config);
          const begun = {json.dumps(self.model.begun)};
          if (begun !== null) machine.set("PC", begun);
          for (const [name, word] of {json.dumps(runs)}) machine[name](word);
          const r = machine.registers(), memory = machine.read(0, 65536);
          let sum = 0; for (const byte of memory) sum = (sum * 31 + byte) % 4294967291;
          const found = [[r.a, r.x, r.y, r.s, r.pc], r.cycles, sum, machine.output(0).length];
          machine.close(); assembly.close();
          return found;
        }})()"""
        is_so = self.page.js(text)
        self.model.at = self.model.last
        wanted = wanted_of(self.model)
        self.tally.compare(f"{self.name}: the module called directly", is_so,
                           [wanted[0], wanted[2], wanted[3], self.model.state.out_len])


class EndOfTrial(Exception):
    """A session went another way than its model: the rest of it would tell the same again."""


def try_sessions(page, tally, how):
    for number in range(how.sessions):
        trial = Trial(page, tally, how.seed, number)
        try:
            trial.begin()
            trial.judge()
            for _ in range(trial.rng.randrange(6, 16)):
                trial.act()
            trial.called_directly()
        except EndOfTrial:
            print(trial.source)


# ---- the checks


def source_and_faults(name):
    """A source of docs/MANUAL.md, and the text of its faults there."""
    with open(f"{TOP}/docs/MANUAL.md", encoding="utf-8") as it:
        text = it.read()
    found = [re.search(rf"^```{kind} {name}\n(.*?)^```$", text, re.M | re.S)[1]
             for kind in ("source", "prints check")]
    return found[0], found[1]


def try_faults(page, tally, how):
    """Faults are told while the source is typed, and nothing is assembled with one."""
    source, faults = source_and_faults("slips.a65")
    page.choose(1)
    page.edit(source)
    page.wait("!document.querySelector('#faults').hidden")
    rows = re.findall(r"^slips\.a65:(\d+):\d+: (.*)$", faults, re.M)
    shown = page.js("[...document.querySelectorAll('#faults button')].map(e => e.textContent)")
    tally.compare("faults", shown, [f"Line {line} {words}" for line, words in rows])
    tally.compare("marks", page.js("document.querySelectorAll('#numbers .bad').length"), len(rows))
    page.key("Ctrl Enter")
    tally.holds("a run of faults", page.told().startswith(f"{len(rows)} faults. Line {rows[0][0]}"))
    tally.compare("mode with faults", page.js("document.body.dataset.mode"), "edit")
    page.edit(source.split("\n")[0] + "\n NOP\n")
    tally.holds("no fault", page.wait("!document.querySelector('#faults li:not(.warn)')"))
    page.edit(" LDA #300 ; Zähler\n")
    page.wait("document.querySelectorAll('#faults button').length == 1")
    page.edit(" LDA #30 ; Zähler → 😀\n")
    tally.holds("letters", page.wait("!document.querySelector('#faults li:not(.warn)')"))


def try_warnings(page, tally, how):
    """Warnings are told as `mos65 check` does, and the program runs all the same."""
    source, told = source_and_faults("warned.a65")
    page.choose(1)
    page.edit(source)
    page.wait("document.querySelectorAll('#faults .warn').length")
    rows = re.findall(r"^warned\.a65:(\d+):\d+: (.*)$", told, re.M)
    shown = page.js("[...document.querySelectorAll('#faults .warn')].map(e => e.textContent)")
    tally.compare("warnings", shown, [f"Line {line} {words}" for line, words in rows])
    tally.compare("their marks", page.js("document.querySelectorAll('#marks .warn').length"), len(rows))
    page.click("#on")
    tally.compare("mode with warnings", page.js("document.body.dataset.mode"), "run")
    with open(f"{TOP}/README.md", encoding="utf-8") as it:
        slip = re.search(r"CPX \d+", it.read())[0]
    page.edit(f"*=$0200\nstart: LDX #0\n {slip}\ndone: JMP done\n*=$FFFC\n.WORD start\n")
    page.wait("document.querySelectorAll('#faults .warn').length == 1")
    words = page.js("document.querySelector('#faults').textContent")
    tally.holds(f"{slip}: {words}", words.startswith("Line 3 warning: PlainNumber"))
    for number in range(1, page.js("document.querySelector('#example').length")):
        page.choose(number)
        tally.compare(f"warnings of example {number}", page.js("playground.editor.faults"), [])


def try_no_vector(page, tally, how):
    """Without a reset vector a program begins at its first instruction, and the page says so."""
    for origin, begun in (("*=$0600\n", "$0600"), ("", "$0000")):
        page.choose(1)
        page.edit(f"{origin} LDX #7\n STX $90\ndone: JMP done\n")
        page.click("#go")
        page.settle()
        tally.compare(f"the byte written from {begun}",
                      page.js("playground.session.machine.read(0x90, 1)[0]"), 7)
        told = page.told()
        tally.holds(f"begun: {told}", f"No reset vector: begun at {begun}" in told)
        tally.compare(f"zero page: {told}", "zero page" in told, not origin)
        page.click("#undo")
        page.click("#undo")
        page.click("#undo")
        tally.compare("step 0", page.shown()[5], 0)
    page.edit("")
    page.click("#go")
    tally.holds(f"no source: {page.told()}", "is empty" in page.told())


def load_file(page, path):
    """Opens a file as the dialog of the browser would."""
    page.give_file(path)
    page.wait(f"playground.editor.value.length >= {os.path.getsize(path) // 2}")


def try_page(page, tally, how):
    """The page of a run is the one that `mos65 page` writes."""
    load_file(page, f"{TOP}/examples/hunt.a65")
    page.wait("document.querySelector('#told').textContent.includes('hunt.a65')")
    page.click("#go")
    page.settle()
    with open(f"{TOP}/examples/hunt.html", encoding="utf-8") as it:
        tally.holds("the page of a run", page.js("playground.runPage()") == it.read())


def try_tape(page, tally, how):
    """The tape is one by the KIM-1 manual: a data record, and the end record with their count."""
    page.edit("*=$0200\n .BYTE 1,2\n")
    page.click("#files summary")
    page.js("HTMLAnchorElement.prototype.click = function () { window.file = this.download; }")
    page.click("#tape")
    name = page.js("document.querySelector('#name').textContent").rsplit(".", 1)[0]
    tally.compare("the name of a tape", page.js("window.file"), name + ".tape")
    tally.compare("a tape", page.js("playground.session.assembly.tape()"),
                  ";02020001020007\r\n;0000010001\r\n")


HOSTILE = """; </script><img src=x onerror="document.title='owned'"> %3Cb%3E &lt; \\u003c ]]> */ //
start:  LDA #1
</script>:
"""
HARMLESS = HOSTILE.replace("</script>:\n", "done:   JMP done\n*=$FFFC\n.WORD start\n")
STRANGE = HOSTILE + "; \u00e4 \u2028 \U0001f600 \u0001\n"


def is_harmless(page, tally, where):
    shown = page.js("[document.images.length, document.title == 'owned']")
    tally.compare(f"hostile text in {where}", shown, [0, False])


def try_hostile(page, tally, how):
    """A source is text wherever it comes to, also in the page of its run."""
    page.choose(1)
    for text in (HOSTILE, STRANGE, HARMLESS):
        page.edit(text)
        page.key("Ctrl Enter")
        page.settle()
        is_harmless(page, tally, "the page")
    tally.compare("where the harmless one ends", page.js("playground.session.reason.why"), "stuck")
    with tempfile.NamedTemporaryFile("w", suffix=".html", encoding="utf-8") as it:
        it.write(page.js("playground.runPage()"))
        it.flush()
        page.show(it.name)
        is_harmless(page, tally, "the page of a run")
        tally.holds("lines of that page", page.js("document.querySelectorAll('#lines tr').length") > 4)
    page.open()


def try_link(page, tally, how):
    """A link holds the source. One that cannot be read does nothing."""
    for text in (HARMLESS, STRANGE, ""):
        page.edit(text)
        page.js("document.querySelector('#link').click()")
        page.wait("document.querySelector('#linkbox').open")
        part = page.js("location.hash")
        page.js("document.querySelector('#linkbox').close(), sessionStorage.clear()")
        page.open(part)
        tally.compare("the source of a link", page.js("playground.editor.value"), text)
        is_harmless(page, tally, "a link")
    for part in ("#z=AAAA", "#t=%3Cscript%3E", "#z=" + "A" * 5000, "#t=a&b", "#40"):
        page.js("sessionStorage.clear()")
        page.open(part)
        tally.holds(f"{part:.20}", page.js("playground.editor.value").startswith("; Counts"))
        is_told = "cannot be read" in page.told()
        tally.compare(f"{part:.20}: {page.told()}", is_told, part != "#40")
    page.open()


def try_kept(page, tally, how):
    """A text outlives a reload and a closed tab, and two tabs do not write over each other."""
    page.edit("; mine\n")
    page.js("new Promise(f => setTimeout(f, 500))")
    page.open()
    tally.compare("after a reload", page.js("playground.editor.value"), "; mine\n")
    page.js("sessionStorage.clear()")                    # as where the tab was closed
    page.open()
    tally.holds("in a new tab", page.js("playground.editor.value").startswith("; Counts"))
    page.js("document.querySelector('#files').open = true")
    page.wait("document.querySelectorAll('#kept button').length")
    page.click("#kept button")
    tally.compare("taken again", page.js("playground.editor.value"), "; mine\n")
    page.js("new Promise(f => setTimeout(f, 500))")
    ids = page.js("[sessionStorage['mos65.id'], localStorage.length]")
    page.js("""dispatchEvent(new StorageEvent('storage',
        {key: 'mos65.text.' + sessionStorage['mos65.id']}))""")
    tally.holds("a second tab of one id", page.js("sessionStorage['mos65.id']") != ids[0])
    tally.compare("texts kept then", page.js("localStorage.length"), ids[1] + 1)


def mine(page, session, text=None):
    """What stands in the editor of a tab, or is typed there."""
    page.browser.session = session
    page.wait("typeof playground != 'undefined'")
    page.js("playground.ready.then(() => 1)")
    if text:
        page.js(f"playground.editor.value = {json.dumps(text)}, playground.editor.changed(),"
                "new Promise(f => setTimeout(f, 1500))")
    return page.js("playground.editor.value")


def try_two_tabs(page, tally, how):
    """Two tabs, and a tab that was made from one of them, each keep their own text."""
    browser, first = page.browser, page.browser.session
    page.js("localStorage.clear(), sessionStorage.clear()")
    page.open()
    mine(page, first, "; one\n")
    second = browser.open_tab()
    browser.session = second
    page.open()
    tally.holds("a second tab", mine(page, second).startswith("; Counts"))
    mine(page, second, "; two\n")
    browser.session = first
    third = browser.open_tab(lambda: browser.call(
        "Runtime.evaluate", expression="window.open(location.href), 1", userGesture=True))
    tally.compare("a copied tab", mine(page, third), "; one\n")
    mine(page, third, "; three\n")
    for session, text in ((first, "; one\n"), (second, "; two\n"), (third, "; three\n")):
        browser.session = session
        page.open()
        tally.compare(f"the tab of {text.strip()}", mine(page, session), text)
        if session != first:
            browser.call("Page.close")
    browser.session = first
    tally.compare("texts kept", len(page.js(KEPT)), 2)


KEPT = "document.querySelector('#files').open = true, new Promise(f => setTimeout(() => f([" \
    "...document.querySelectorAll('#kept button')].map(e => e.textContent)), 100))"


def try_own_text(page, tally, how):
    """A text of one's own is kept where another one takes its place, also after a reload."""
    def by_example():
        page.choose(2)

    def by_file():
        load_file(page, f"{TOP}/examples/hunt.a65")
        page.wait("document.querySelector('#told').textContent.includes('is open')")

    def by_link():
        page.js(f"location.hash = {json.dumps(link)}")
        page.wait("document.querySelector('#told').textContent.includes('link')")

    def by_opened_link():
        page.open(link)

    link = page.js("packLink('; in a link\\n', false)")
    for act in (by_example, by_file, by_link, by_opened_link):
        page.js("localStorage.clear(), sessionStorage.clear()")
        page.open()
        page.edit("; mine\n")
        page.js("new Promise(f => setTimeout(f, 500))")
        page.open()
        act()
        is_told = "is kept" in page.told() or act == by_opened_link
        tally.holds(f"{act.__name__}: {page.told()}", is_told)
        tally.compare(f"{act.__name__}: texts kept", len(page.js(KEPT)), 1)
        page.click("#kept button")
        tally.compare(f"{act.__name__}: taken again", page.js("playground.editor.value"), "; mine\n")
    page.open(link)
    page.edit("; changed\n")
    tally.compare("the link after a change", page.js("location.hash"), "")
    page.js("localStorage.clear(), sessionStorage.clear()")
    page.open("#z=AAAA")
    tally.holds(f"a broken link: {page.told()}", "cannot be read" in page.told())


ENDLESS = "*=$0200\nstart: INC $10\n BNE start\n INC $11\n JMP start\n*=$FFFC\n.WORD start\n"


def try_endless(page, tally, how):
    """A program that never ends is stopped, and 65,536 steps are held."""
    page.choose(1)
    page.edit(ENDLESS)
    page.click("#go")
    page.js("new Promise(f => setTimeout(f, 700))")
    tally.holds("while it runs", page.told().startswith("Running"))
    page.click("#go")
    words = r"Stopped after ([\d,]+) steps\. The last 65,536 of \1 steps are kept\."
    tally.holds("stopped", re.fullmatch(words, page.told()))
    tally.compare("steps held", page.js("playground.session.run.n"), 65536)
    for _ in range(3):
        page.key("Shift F8")
    direct = page.js(f"""(() => {{
      const {{engine, total}} = playground.session, config = {{history: 0, port: 0xF000}};
      const assembly = engine.assemble({json.dumps(ENDLESS)}, config);
      const machine = engine.open(assembly, config);
      machine.run(total - 3);
      const r = machine.registers();
      machine.close(); assembly.close();
      return [[r.a, r.x, r.y, r.s, r.pc], r.cycles];
    }})()""")
    shown = page.shown()
    tally.compare("three steps before", [shown[0], shown[2]], direct)


def try_long(page, tally, how):
    """A source of 1 MiB, and one byte more."""
    line = "        NOP     ; " + "x" * 45 + "\n"
    text = line * ((1 << 20) // len(line))
    page.choose(1)
    for more, wanted in (("", "Assembled: 16,384 bytes"), (" " * 64 + "\n", "1 fault. Line 0")):
        page.js(f"playground.editor.value = {json.dumps(text + more)}, playground.editor.changed()")
        began = time.monotonic()
        page.js("document.querySelector('#assemble').click()")
        print(f"a source of {len(text + more):,} bytes: {time.monotonic() - began:.1f} seconds")
        tally.holds(f"{wanted}: {page.told()}", page.told().startswith(wanted))
    page.choose(1)


def try_refused(page, tally, how):
    """A block of memory that is refused is told as such, and the source is as it was."""
    for count in (0, 1, 2, 5, 20, 60):
        page.choose(6)
        page.js(f"playground.session.engine.heap.refuseAfter({count})")
        page.click("#go")
        page.settle()
        told = page.told()
        page.js("playground.session.engine.heap.refuseAfter(Infinity)")
        is_told = told.startswith("OutOfMemory") or "has ended" in told
        tally.holds(f"request {count} refused: {told}", is_told)
    page.choose(6)
    page.click("#go")
    page.settle()
    tally.holds("afterwards", page.told().startswith("The program has ended"))


def try_old_browser(page, tally, how):
    """Where WebAssembly does not take the module, a sentence says so."""
    script = page.browser.call("Page.addScriptToEvaluateOnNewDocument",
                               source="WebAssembly.validate = () => false")["identifier"]
    page.open()
    tally.holds("without WebAssembly", page.told().startswith("This browser cannot run the engine"))
    tally.holds("no button works", page.js("document.querySelector('#go').disabled"))
    page.browser.call("Page.removeScriptToEvaluateOnNewDocument", identifier=script)
    page.open()


def try_typing(page, tally, how):
    """Who types on the source of a run comes to the editor; Tab and Enter put blanks there."""
    source = " LDX #3\nloop: DEX\n BNE loop\ndone: JMP done\n*=$FFFC\n.WORD $0000\n"
    value, mode = "playground.editor.value", "document.body.dataset.mode"
    page.choose(1)
    page.edit(source)
    for key, wanted in (("L", "loop: DEXL"), ("f", "loop: DEXf"), ("Enter", "loop: DEX")):
        page.edit(source)
        page.key("Ctrl Enter")
        page.settle()
        page.click_on("document.querySelectorAll('#rows .t')[1]")
        page.key("n")                         # a command of the run
        tally.compare("mode after n", page.js(mode), "run")
        page.click_on("document.querySelectorAll('#rows .t')[1]")
        page.key(key)
        tally.compare(f"mode after {key}", page.js(mode), "edit")
        tally.compare(f"line 2 after {key}", page.js(value).split("\n")[1], wanted)
    page.edit("x:")
    for key in ("Tab", "Tab", "Enter"):
        page.key(key)
    page.type("NOP")
    page.key("Tab")
    tally.compare("blanks", page.js(value), "x:              \nNOP     ")
    page.edit("   NOP")
    page.key("Enter")
    page.type("INX")
    tally.compare("the next line", page.js(value), "   NOP\n   INX")
    page.key("Escape")
    page.key("Tab")
    tally.compare("Tab after Escape", page.js(value), "   NOP\n   INX")
    tally.holds("it leads on", page.js("document.activeElement.id") != "text")


def try_first_use(page, tally, how):
    """The first Step makes a step, the hint goes, the keys open at their top, text stays text."""
    page.js("localStorage.clear(), sessionStorage.clear()")
    page.open()
    tally.holds("the hint", page.js("!document.querySelector('#first').hidden"))
    page.key("F4")
    tally.compare("F4 before all", page.js("document.activeElement.id"), "text")
    page.choose(1)
    page.click("#on")
    tally.compare("the first step", page.shown()[5:7], [1, 1])
    tally.holds("the hint is gone", page.js("document.querySelector('#first').hidden"))
    page.key("?")
    page.js("new Promise(f => setTimeout(f, 100))")
    tally.compare("the list of keys", page.js("document.querySelector('#help').scrollTop"), 0)
    tally.holds("it is longer", page.js("(e => e.scrollHeight > e.clientHeight)"
                                        "(document.querySelector('#help'))"))
    page.js("document.querySelector('#help').close()")
    for text, form in (('"Hello all"', "as hex"), ('1, "ello all"', "as text")):
        page.edit("*=$0200\nstart: LDA text,X\n STA $F000\n INX\n CPX #40\n BNE start\n BRK\n"
                  f"text: .BYTE {text}\n*=$FFFC\n.WORD start\n")
        page.click("#go")
        page.settle()
        tally.compare(f"the console with {text}", page.shown()[4][1], form)
    page.click("#form")
    page.click("#again")
    page.click("#go")
    page.settle()
    tally.compare("after a click", page.shown()[4][1], "as hex")


CUT = """(e => { const r = document.createRange(); r.selectNodeContents(e);
  const a = r.getBoundingClientRect(), b = e.getBoundingClientRect();
  return a.right > b.right + 1 || a.bottom > b.bottom + 1; })"""


def try_effects(page, tally, how):
    """All that a step did is seen, where its line is long too."""
    page.choose(1)
    page.edit("*=$0200\ncounter = $10\nstart: INC counter\n JSR inner\n JMP start\ninner: INC counter,X\n"
              " RTS\n*=$FFFC\n.WORD start\n")
    for step in range(1, 5):
        page.click("#on")
        did = page.js("document.querySelector('#did').innerText")
        is_cut = page.js(f"{CUT}(document.querySelector('#did'))")
        tally.compare(f"step {step} is cut off: {did}", is_cut, False)


WALK = """*=$0600
start: LDA $FF
 BEQ start
 STA $10,X
 INX
 LDA #0
 STA $FF
 CPX #4
 BNE start
 BRK
*=$FFFC
.WORD start
"""


def try_screen_keys(page, tally, how):
    """While a program with a screen runs, keys are its own; what is told of its end stays."""
    page.choose(1)
    page.edit(WALK)
    page.click("#see")
    page.click("#go")
    tally.compare("the focus of a run", page.js("document.activeElement.id"), "screen")
    for key in "dz":
        page.key(key)
        page.js("new Promise(f => setTimeout(f, 300))")
    page.click("#cycles")                    # the focus is on the page
    for key in "fs":
        page.key(key)
        page.js("new Promise(f => setTimeout(f, 300))")
    page.settle()
    tally.compare("keys", page.js("[...playground.session.machine.read(0x10, 4)]"), list(b"dzfs"))
    told = page.told()
    page.click("#screen")
    page.key("d")
    tally.compare("after the end", page.told(), told)
    tally.holds(f"the end: {told}", told.startswith("BRK"))
    page.click("#see")


FOCUS = """(() => { const e = document.activeElement; return e == document.body ? '' :
  e.id ? '#' + e.id : e.parentElement.id + ' ' + (e.value || e.textContent); })()"""
REACHABLE = """[...document.querySelectorAll('button,input,select,textarea,summary,[tabindex="0"]')]
  .filter(e => e.checkVisibility() && !e.disabled && e.tabIndex >= 0)
  .map(e => e.id ? '#' + e.id : e.parentElement.id + ' ' + (e.value || e.textContent))"""


def try_keyboard(page, tally, how):
    """Tab reaches all, and the list of keys has all."""
    page.choose(6)
    page.key("Ctrl Enter")
    page.settle()
    page.js("document.activeElement.blur()")
    reached = set()
    for _ in range(150):
        page.key("Tab")
        reached.add(page.js(FOCUS))
    tally.compare("reached by Tab", sorted(set(page.js(REACHABLE)) - reached), [])
    page.js("document.activeElement.blur()")
    page.key("?")
    keys = page.js("document.querySelector('#help').textContent")
    for key in ("Ctrl Enter", "F2", "F4", "F8", "Shift F8", "F9", "Shift F9", "Escape", "Home"):
        tally.holds(f"{key} in the list of keys", key in keys)
    page.js("document.querySelector('#help').close()")


def try_names(page, tally, how):
    """All that can be used has a name for those who do not see it."""
    nodes = page.browser.call("Accessibility.getFullAXTree")["nodes"]
    roles = {"button", "textbox", "combobox", "slider", "spinbutton", "link", "checkbox"}
    nameless = [it["role"]["value"] for it in nodes if not it["ignored"]
                and it["role"]["value"] in roles and not it.get("name", {}).get("value")]
    tally.compare("without a name", nameless, [])


CONTRAST = """(() => {
  const pen = document.createElement('canvas').getContext('2d', {willReadFrequently: true});
  const rgb = text => { pen.clearRect(0, 0, 1, 1); pen.fillStyle = text; pen.fillRect(0, 0, 1, 1);
    return [...pen.getImageData(0, 0, 1, 1).data]; };
  const part = v => (v /= 255) <= .03928 ? v / 12.92 : ((v + .055) / 1.055) ** 2.4;
  const light = c => .2126 * part(c[0]) + .7152 * part(c[1]) + .0722 * part(c[2]);
  const behind = e => { for (; e; e = e.parentElement) {
    const c = rgb(getComputedStyle(e).backgroundColor); if (c[3] == 255) return c; }
    return [255, 255, 255]; };
  const faded = e => e && (getComputedStyle(e).opacity < 1 || faded(e.parentElement)), low = [];
  for (const e of document.querySelectorAll('body *')) {
    const has = [...e.childNodes].some(n => n.nodeType == 3 && n.data.trim());
    if (!has || !e.checkVisibility() || e.disabled || e.closest('script,.off')) continue;
    if (faded(e)) low.push(`${e.tagName} ${e.id} ${e.textContent.slice(0, 20)} is faded`);
    const a = light(rgb(getComputedStyle(e).color)), b = light(behind(e));
    const ratio = (Math.max(a, b) + .05) / (Math.min(a, b) + .05);
    if (ratio < 4.5) low.push(`${e.tagName} ${e.id} ${e.textContent.slice(0, 20)} ${ratio.toFixed(2)}`);
  }
  return low;
})()"""


def try_contrast(page, tally, how):
    """The page's own texts have a contrast of 4.5 at least, in the light and in the dark."""
    source, _ = source_and_faults("slips.a65")
    for scheme in ("light", "dark"):
        value = [{"name": "prefers-color-scheme", "value": scheme}]
        page.browser.call("Emulation.setEmulatedMedia", features=value)
        page.choose(1)
        tally.compare(f"contrast, {scheme}, a program", page.js(CONTRAST), [])
        page.edit(source)
        page.wait("!document.querySelector('#faults').hidden")
        page.js("document.querySelector('#files').open = true")
        tally.compare(f"contrast, {scheme}, faults", page.js(CONTRAST), [])
        page.js("document.querySelector('#files').open = false")
        page.edit(ENDLESS)
        page.key("Ctrl Enter")
        tally.compare(f"contrast, {scheme}, a run", page.js(CONTRAST), [])
        page.key("Escape")
        page.settle()
        page.edit(ENDLESS + "; changed")
        tally.compare("a changed source", page.js("document.body.classList.contains('stale')"), True)
        tally.compare(f"contrast, {scheme}, a changed source", page.js(CONTRAST), [])
    page.choose(1)


# whether a part is seen in its panel
SEEN = """((part, box) => { const [a, b] = [part, box].map(it =>
  document.querySelector(it).getBoundingClientRect());
  return a.height > 20 && a.top >= b.top && a.bottom <= b.bottom + 1; })"""


def try_phone(page, tally, how):
    """On a phone nothing is wider than the screen, and a program is run by touching."""
    phone = Page(page.path, width=390, height=844, mobile=True)
    phone.choose(6)
    for tab in ("code", "machine", "memory", "time"):
        phone.click(f"#tabs [value={tab}]")
        wide = phone.js("document.documentElement.scrollWidth")
        tally.holds(f"{tab} is {wide} wide", wide <= 390)
    tally.holds("the hint on a phone", phone.js("!document.querySelector('#first').hidden"))
    phone.click("#tabs [value=machine]")
    tally.holds("the machine on a phone", phone.js(SEEN + "('#line', '#machine')"))
    phone.click("#go")
    phone.settle()
    tally.holds("run on a phone", phone.told().startswith("The program has ended"))
    phone.click("#tabs [value=memory]")
    phone.click_on("document.querySelectorAll('#grid td')[40]")
    tally.holds("memory on a phone", phone.js(SEEN + "('#cell', '#memory')"))
    phone.choose(4)
    phone.click("#go")
    phone.settle()
    tally.holds("input on a phone", phone.js(SEEN + "('#line', '#machine')"))
    tally.compare("its focus", phone.js("document.activeElement.id"), "line")
    phone.close()


CHECKS = [try_sessions, try_faults, try_warnings, try_no_vector, try_page, try_tape, try_hostile, try_link,
          try_kept, try_own_text, try_two_tabs, try_endless, try_long, try_refused, try_old_browser, try_first_use,
          try_effects, try_typing, try_screen_keys, try_keyboard, try_names, try_contrast, try_phone]


# They ask for what only tools/check/browser.py has: tabs, names for screen readers, lights, a phone.
OF_CHROMIUM = [try_two_tabs, try_old_browser, try_names, try_contrast, try_phone]
# They compare what the module says of a source with what docs/MANUAL.md shows of the program.
OF_MANUAL = [try_faults, try_warnings]


def errors_of(page, tally):
    errors = [it for it in page.browser.errors if "Canvas2D" not in it]
    tally.compare("errors on the console", errors, [])
    if isinstance(page, OtherPage):
        return
    asked = [it for it in page.browser.requests if not it.startswith(("file:", "about:", "blob:"))]
    tally.compare("requests", asked, [])


def asked_for(how, tally):
    """The checks to make: those of `--only`, without that of `--but`."""
    only = how.only.split(",")
    is_other = how.firefox or how.webkit
    checks = [it for it in CHECKS if not (is_other and it in OF_CHROMIUM)
              and any(name in it.__name__ for name in only) and how.but not in it.__name__]
    of_manual = [it for it in checks if it in OF_MANUAL]
    if how.page or not of_manual or pages.has_new_module():
        return checks
    tally.leave_out("what the page shows of the sources of docs/MANUAL.md",
                    "its module is of older crates")
    return [it for it in checks if it not in of_manual]


def opened(how, tally):
    """The page in the browser that is asked for, or None where that is not here."""
    name, driver = (("Firefox", firefox) if how.firefox else
                    ("WebKit", webkit) if how.webkit else ("Chromium", browsers))
    if not driver.find():
        tally.leave_out(f"the playground's page in {name}", "it is not here")
        return None
    path = how.page or PAGE
    return Page(path) if driver is browsers else OtherPage(path, driver)


def try_all(page, tally, how):
    for check in asked_for(how, tally):
        began, failed = time.monotonic(), tally.failed
        try:
            check(page, tally, how)
        except Exception:                    # one check that ends early ends no other
            tally.holds(f"{check.__name__}: {traceback.format_exc()}", False)
        took = time.monotonic() - began
        said = f"{check.__name__}: {took:.0f} seconds, {tally.failed - failed} failed"
        print(said, flush=True)
    errors_of(page, tally)


def main():
    options = {"only": "", "but": "none", "firefox": False, "webkit": False}
    how, tally = testing.asked(__doc__, "page?", sessions=60, seed=1, **options), Tally()
    page = opened(how, tally)
    if page:
        try:
            try_all(page, tally, how)
        finally:
            page.close()
    return tally.end()


if __name__ == "__main__":
    sys.exit(main())
