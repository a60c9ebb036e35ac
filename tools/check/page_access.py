"""What a page owes every reader: that the last line is marked, that texts can be told from what is
behind them, that the keyboard alone reaches what a click does, that its address says what is shown,
that it can be searched, that lines and bytes have names, and that a thumb finds a byte."""

import re

# The contrast that WCAG 2 asks for at level AA.
LEAST = 4.5
# Texts of viewer/page.css by the ground that they stand on: a color, or so much of one on another.
GROUNDS = {
    "panel": ["ink", "dim", "faint", "write", "read", "code", "irq", "nowink"],
    "bg": ["ink", "dim"], "now": ["ink"], "dim": ["panel"],
    ("write", .5, "panel"): ["ink"], ("ink", .12, "panel"): ["ink"], ("ink", .09, "panel"): ["dim"],
    ("dim", .44, "panel"): ["ink"], ("irq", .9, "panel"): ["panel"],
}
CONTRAST = """(() => {
  const pen = document.createElement('canvas').getContext('2d', {willReadFrequently: true});
  const known = {};
  const rgba = color => known[color] ||= (pen.clearRect(0, 0, 1, 1), pen.fillStyle = color,
    pen.fillRect(0, 0, 1, 1), [...pen.getImageData(0, 0, 1, 1).data]);
  const behind = e => {
    const [r, g, b, a] = rgba(getComputedStyle(e).backgroundColor), up = e.parentElement;
    if (a == 255 || !up) return [r, g, b];
    return behind(up).map((c, k) => c + ([r, g, b][k] - c) * a / 255);
  };
  const linear = c => c <= .04045 ? c / 12.92 : ((c + .055) / 1.055) ** 2.4;
  const light = color => color.map(c => linear(c / 255))
    .reduce((sum, c, k) => sum + c * [.2126, .7152, .0722][k], .05);
  const walk = document.createTreeWalker(document.body, NodeFilter.SHOW_TEXT), weak = [];
  for (let node; node = walk.nextNode();) {
    const e = node.parentElement;
    if (!node.data.trim() || !e.checkVisibility() || e.closest('.off,script,:disabled')) continue;
    const [one, other] = [light(rgba(getComputedStyle(e).color).slice(0, 3)), light(behind(e))];
    const ratio = Math.max(one, other) / Math.min(one, other);
    const told = [e.className || e.tagName, node.data.slice(0, 20), ratio.toFixed(2)];
    if (ratio < %s) weak.push(told.join(' '));
  }
  return [...new Set(weak)].slice(0, 5);
})()""" % LEAST
FOCUS = """(e => e.dataset.r || e.id || e.tagName)(document.activeElement)"""
CLICKED = {"A", "X", "Y", "S", "pc", "SPAN", "TR", "TD", "step", "slider", "rows", "out", "find"}
MOST_TABS = 99
# A phone's screen, and the least side of what a thumb meets, in its points.
PHONE, THUMB = (390, 844), 36


def light_of(color):
    linear = [c / 12.92 if c <= .04045 else ((c + .055) / 1.055) ** 2.4 for c in color]
    return sum(c * part for c, part in zip(linear, (.2126, .7152, .0722))) + .05


def ratios(css):
    """Each text on its ground in each light, with the contrast of both."""
    found = re.findall(r"--(\w+):light-dark\((#\w+),(#\w+)\)", css)
    for light in (0, 1):
        colors = {}
        for name, *both in found:
            digits = both[light][1:] * (2 if len(both[light]) == 2 else 1)
            if len(digits) == 3:
                digits = "".join(2 * digit for digit in digits)
            colors[name] = [int(digits[k:k + 2], 16) / 255 for k in (0, 2, 4)]
        for ground, texts in GROUNDS.items():
            if isinstance(ground, tuple):
                top, part, below = ground
                behind = [a * part + b * (1 - part) for a, b in zip(colors[top], colors[below])]
            else:
                behind = colors[ground]
            for text in texts:
                one, other = light_of(colors[text]), light_of(behind)
                told = f"{text} on {ground}, {('light', 'dark')[light]}"
                yield told, max(one, other) / min(one, other)


def facts_of(facts, word):
    """What the facts of a word say."""
    lines = facts.decode().split("\n")
    return [line.removeprefix(f"{word} ") for line in lines if line.startswith(f"{word} ")]


def look_at_opening(browser, compare, name, run, facts):
    """A page is opened at the step and the screen that its maker said. Returns the step; a page of
    memory is shown then."""
    at, screen = facts_of(facts, "at"), facts_of(facts, "screen")
    wanted = min(int(at[0]), run.last) if at else 0
    shown = browser.js("[viewer.step, viewer.sight]")
    compare(f"{name} opened", shown, [wanted, "screen" if screen else "page"])
    if screen:
        look_at_screen(browser, compare, name, int(screen[0], 16))
    made = browser.js("document.querySelector('#help').textContent")
    compare(f"{name} says what made it", "Made by mos65" in made, True)
    return wanted


def look_at_screen(browser, compare, name, address):
    """Arrows choose a place of the screen, round at its edges."""
    browser.js("document.querySelector('#pixels').focus()")
    for key, place in (("ArrowRight", 0), ("ArrowRight", 1), ("ArrowUp", 993), ("ArrowDown", 1)):
        browser.key(key)
        chosen = browser.js("viewer.chosen")
        compare(f"{name} {key} in the screen", chosen, (address + place) & 65535)
    browser.js("document.activeElement.blur(), viewer.choose(-1), viewer.showPage(0)")


def look_at_notes(browser, compare, name, run, facts):
    """`.` leads from note to note, and each is shown at its step."""
    notes = {}
    for fact in facts_of(facts, "note"):
        step, text = fact.split(" ", 1)
        notes.setdefault(min(int(step), run.last), []).append(text.strip())
    browser.js("viewer.go(0)")
    said = "document.querySelector('#note').textContent"
    for step, texts in sorted(notes.items()):
        if step:
            browser.key(".")
        said_all = all(text in browser.js(said) for text in texts)
        compare(f"{name} note at {step}", [browser.js("viewer.step"), said_all], [step, True])
    is_hidden = browser.js("document.querySelector('#note').hidden")
    compare(f"{name} has notes", is_hidden, not notes)
    if len(notes) > 1:
        browser.key(",")
        compare(f"{name} the note before", browser.js("viewer.step"), sorted(notes)[-2])


def look_at_end(browser, compare, name, run, facts):
    """The line on which the run ends is the one that is marked, whatever stands there."""
    browser.key("End")
    rows = ("line ", "part ")
    words = [fact.split() for fact in facts.decode().split("\n") if fact.startswith(rows)]
    pc = run.pcs[-1]
    ends = [(number, pc - int(at, 16)) for _, number, at, count, *_ in words
            if 0 <= pc - int(at, 16) < int(count)]
    there, is_within = [number for number, _ in ends], any(byte for _, byte in ends)
    marked = "[...document.querySelectorAll('#lines tr.now td.n')].map(e => e.textContent)"
    source = browser.js("document.querySelector('#views [value=source]')?.click(), "
                        "document.querySelector('#views [value=source]') != null")
    if source and not is_within:       # the row of an instruction stands for its first byte alone
        compare(f"{name} line at the end", browser.js(marked), there)
    browser.js("document.querySelector('#views [value=code]').click()")
    compare(f"{name} address at the end", browser.js(marked), ["$%04X" % pc])
    said = ("(e => e ? getComputedStyle(e, '::after').content : '')"
            "(document.querySelector('#lines tr.now .t'))")
    compare(f"{name} said at the end", "the run ends here" in browser.js(said), True)


def look_at_files(browser, compare, name, run):
    """The files that have lines with bytes can be chosen by name; the file of the line that comes next
    is listed with this line marked, and lines have their visits and cycles. Without files there is
    no choice."""
    shown = browser.js("[document.querySelector('#sources').hidden, [...document.querySelectorAll("
                       "'#sources option')].map(e => e.textContent)]")
    files = sorted({file for file, _ in run.row_at.values()} if run.files else ())
    compare(f"{name} files", shown, [not files, [run.files[file] for file in files]])
    browser.js("document.querySelector('#views [value=source]')?.click()")
    for at in range(0, run.last + 1, max(1, run.last // 40)) if files else ():
        line = run.row_at.get(run.pcs[at])
        label, file = browser.js(f"viewer.go({at}), [document.querySelector('#lines tr.now')?.ariaLabel"
                                 " ?? '', +document.querySelector('#sources').value]")
        comes = "comes next" if at < run.last else "the run ends here"
        wanted = f"{run.files[line[0]]}:{line[1]}, {comes}" if line else ""
        compare(f"{name} line at {at}", [label[:len(wanted)], file if line else 0],
                [wanted, line[0] if line else 0])
    for file in files:
        told = browser.js(f"(e => {{ e.value = {file}; e.dispatchEvent(new Event('change')); }})(document"
                          ".querySelector('#sources')), [...document.querySelectorAll('#lines tr')]"
                          ".map(e => [e.cells[0].textContent, e.title.split(';')[0]])")
        for number, title in told:
            compare(f"{name} told of {run.files[file]}:{number}", title, told_of(run, (file, int(number))))


def told_of(run, line):
    """What a row says of a line: its visits, and the cycles of all its bytes."""
    if line not in run.code:
        return ""
    cycles = sum(change["cycles"] for step, change in enumerate(run.changes)
                 if run.row_at.get(run.pcs[step]) == line)
    visits = len(run.visits.get(run.start_of(line), []))
    return f"{visits:,} visits, {cycles:,} cycles" if visits else "never reached"


def look_at_address(browser, compare, name, at):
    """An address has the step, the chosen byte, the list, and the page of memory."""
    part = f"#{at}&byte=0010&view=labels&page=01"
    browser.js(f"location.hash = '{part}', new Promise(f => setTimeout(f, 600))")
    shown = browser.js("[viewer.step, viewer.chosen, viewer.view, viewer.page, location.hash]")
    compare(f"{name} at {part}", shown, [at, 16, "labels", 1, part])


def look_at_search(browser, compare, name, run, at):
    """Enter in the field leads to where a condition begins to hold, with Shift back."""
    stack = run.stack
    begins = [k for k in range(1, run.last + 1) if stack[k] == stack[-1] != stack[k - 1]]
    after = next((k for k in begins if k > at), at)
    browser.js(f"viewer.go({at}), document.querySelector('#find').value = 'S=${stack[-1]:02X}',"
               "document.querySelector('#find').focus()")
    browser.key("Enter")
    compare(f"{name} found by S={stack[-1]:02X} after {at}", browser.js("viewer.step"), after)
    browser.js("document.activeElement.blur()")


def look_at_names(browser, compare, name, run, at):
    """The line that comes next and a byte say what they are, for those who do not see it."""
    browser.js(f"document.querySelector('#views [value=source]').click(), viewer.go({at}),"
               "viewer.choose(0x105)")
    label = browser.js("document.querySelector('#lines tr.now')?.ariaLabel") or ""
    line = run.lines.get(run.pcs[at])
    is_named = label.startswith(f"line {line}, comes next")
    compare(f"{name} name of {label}", is_named, line is not None)
    cell = browser.js("document.querySelectorAll('#grid td')[5].ariaLabel")
    compare(f"{name} name of {cell}", cell.startswith("0105, "), True)
    text = "document.querySelector('#pages [value=text]').click()"
    shown, memory = browser.js(f"{text}, [[...document.querySelectorAll('#grid td')]"
                               ".map(e => e.textContent).join(''), [...viewer.memory]]")
    letters = "".join(chr(b) if 31 < b < 127 else "·" for b in memory[256:512])
    compare(f"{name} page 01 as text", shown, letters)
    browser.js(text)


def look_at_list(browser, compare, name):
    """`L` puts the chosen byte into the list of names, and takes it out again."""
    listed = "[...document.querySelectorAll('#names button')].map(e => +e.dataset.a)"
    browser.js("document.activeElement.blur(), viewer.choose(-1)")
    before = browser.js(listed)
    at = next(at for at in range(0x2FE, 0x3FF) if at not in before)
    browser.js(f"viewer.choose({at})")
    for wanted in (sorted([*before, at]), before):
        browser.key("L")
        compare(f"{name} listed bytes", browser.js(listed), wanted)
    browser.js("viewer.choose(-1)")


def look_at_input(browser, compare, name, run, at):
    """What was taken of the input, and what waits, stands below the screen as beside the console."""
    given = b"".join(change["given"] for change in run.changes[:at + 1])
    taken = sum(change["takes"] for change in run.changes[:at])
    text = "".join("\u23ce" if b == 10 else chr(b) if 31 < b < 127 else "\u00b7"
                   for b in given[max(0, taken - 12):])
    shown = browser.js(f"viewer.go({at}), ['#in', '#taken'].map(it => document.querySelector(it)"
                       ".textContent.match(/input (?!interrupts)(.*)$/)?.[1] ?? '')")
    compare(f"{name} input at {at}", shown, [text, text])


def look_at_phone(browser, compare, name):
    """On a phone a byte is as wide and as high as a thumb asks, and the chosen one is in sight."""
    screen = {"deviceScaleFactor": 1, "mobile": True}
    browser.call("Emulation.setDeviceMetricsOverride", width=PHONE[0], height=PHONE[1], **screen)
    browser.open(name)
    browser.js("document.querySelector('#tabs [value=memory]').click(), viewer.choose(0x2F3)")
    sides = browser.js("[...document.querySelectorAll('#grid td')].map(e => e.getBoundingClientRect())"
                       ".map(box => Math.min(box.width, box.height))")
    compare(f"{name} bytes on a phone", min(sides) >= THUMB, True)
    is_seen = ("(([box, foot]) => box.top > 0 && box.bottom < foot.top)(['#grid .pick', '#cell']"
               ".map(it => document.querySelector(it).getBoundingClientRect()))")
    compare(f"{name} chosen byte on a phone", browser.js(is_seen), True)
    wide = "document.documentElement.scrollWidth"
    compare(f"{name} width on a phone", browser.js(wide), PHONE[0])
    screen = {"deviceScaleFactor": 1, "mobile": False}
    browser.call("Emulation.setDeviceMetricsOverride", width=1280, height=720, **screen)


def look_at_copy(browser, compare, name, at):
    """`M` copies the moment: the step, registers, and the page of memory."""
    browser.js("Object.defineProperty(navigator, 'clipboard', {configurable: true, value:"
               " {writeText: text => (globalThis.copied = text, Promise.resolve())}}),"
               f"viewer.go({at}), viewer.showPage(1)")
    browser.key("M")
    text, shown, memory = browser.js("[globalThis.copied, document.querySelector('#cycles')"
                                     ".textContent.replace(/\\D/g, ''), [...viewer.memory]]")
    lines = text.split("\n")
    rows = [f"{at:04X}  {' '.join(f'{byte:02X}' for byte in memory[at:at + 16])}"
            for at in range(0x100, 0x200, 16)]
    compare(f"{name} copied memory", lines[3:], [*rows, ""])
    compare(f"{name} copied step", f", step {at} of " in lines[0], True)
    compare(f"{name} copied cycles", lines[1].split()[-2:], [shown, "cycles"])


def look_at_contrast(browser, compare, name, last):
    """No text is too like what is behind it, in the light and in the dark."""
    for light in ("dark", "light"):
        scheme = {"name": "prefers-color-scheme", "value": light}
        browser.call("Emulation.setEmulatedMedia", features=[scheme])
        for step in (last // 2, last):
            browser.js(f"viewer.go({step})")
            for view in ("labels", "code", "source"):
                browser.js(f"document.querySelector('#views [value={view}]')?.click()")
                compare(f"{name} contrast {light} {step} {view}", browser.js(CONTRAST), [])


def tab_to(browser, wanted):
    for _ in range(MOST_TABS):
        browser.key("Tab")
        if browser.js(FOCUS) == wanted:
            return True
    return False


def look_at_keyboard(browser, compare, name, run):
    """Tab reaches registers, lines, memory and the console, and Enter there is a click."""
    browser.js("document.activeElement.blur(),"
               "document.querySelector('#views [value=source]').click()")
    reached = set()
    for _ in range(MOST_TABS):
        browser.key("Tab")
        reached.add(browser.js(FOCUS))
    compare(f"{name} reached by Tab", CLICKED - reached, set())
    at = run.last // 2
    browser.js(f"viewer.go({at})")
    compare(f"{name} Tab to X", tab_to(browser, "X"), True)
    browser.key("Enter")
    at = run.set_before(at, 1)
    compare(f"{name} Enter on X", [browser.js("viewer.step"), browser.js(FOCUS)], [at, "X"])
    compare(f"{name} Tab to a line", tab_to(browser, "TR"), True)
    browser.key("ArrowDown")
    number = browser.js("+document.activeElement.cells[0].textContent")
    address = next(at for at, line in run.lines.items() if line == number)
    browser.key("Enter")
    wanted = [run.visit(address, at, True), number]
    compare(f"{name} Enter on a line",
            browser.js("[viewer.step, +document.activeElement.cells[0].textContent]"), wanted)
    browser.js("document.activeElement.blur()")
