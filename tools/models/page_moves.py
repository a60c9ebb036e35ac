"""Random moves in a page, each with where it has to lead by the run that was decoded in Python."""

JSR, CALLS, RETURNS = 0x20, (0x20, 0x00), (0x60, 0x40)
# How many bytes an instruction has, by the letter of its mode in a page's facts.
LENGTHS = {**dict.fromkeys("ab", 1), **dict.fromkeys("jklm", 3)}


def is_by_hand(change):
    """Whether a record is of an event that is no step: it has no cycles, or, a reset, is an entry
    that stores nothing."""
    return change["cycles"] == 0 or (change["entry"] and not change["stores"])


def is_entry(change):
    return change["entry"] and not is_by_hand(change)


class Run:
    """What the moves ask of a run: the program counter and the stack pointer of each state, and in
    which steps something happens. A state has the number of the steps before it."""

    def __init__(self, view, changes, facts):
        self.changes, self.last, self.chosen = changes, len(changes), None
        self.pcs, self.stack = [view.pc], [view.regs[3]]
        # (what was put out before the page begins is there at its start)
        self.outs = [0] if view.out else []
        self.calls, self.visits, self.writes, self.jumps = [], {}, {}, []
        self.opened, self.left = [], []
        lines = facts.decode().split("\n")
        ops = next((it[4:] for it in lines if it.startswith("ops ")), "...." * 256)
        for step, change in enumerate(changes):
            if is_entry(change) or view.memory[view.pc] == JSR and not is_by_hand(change):
                self.calls.append(step)
            if not is_entry(change) and not is_by_hand(change):
                self.visits.setdefault(view.pc, []).append(step)
            for address, _ in change["stores"]:
                self.writes.setdefault(address, []).append(step + 1)
            is_plain = not is_entry(change) and not is_by_hand(change)
            opcode = view.memory[view.pc]
            self.opened.append(is_entry(change) or is_plain and opcode in CALLS)
            self.left.append(is_plain and opcode in RETURNS)
            length = LENGTHS.get(ops[view.memory[view.pc] * 4 + 3], 2) if is_plain else 0
            behind = view.pc + length & 65535
            view.forth(change)
            self.jumps += [step + 1] * (view.pc != behind)
            self.pcs.append(view.pc)
            self.stack.append(view.regs[3])
        for change in reversed(changes):
            view.back(change)
        self.risen = [k for k in range(1, self.last + 1) if self.stack[k] > self.stack[k - 1]]
        self.outs += self.after(lambda change: change["out"] is not None)
        self.entries = self.after(is_entry)
        # (what was taken before the page begins was at its start)
        self.taken = [0] * (view.taken > 0) + self.after(lambda change: change["takes"])
        self.read_lines(lines)

    def read_lines(self, facts):
        """The line of the bytes that begin at each address, a file and a number, and where lines begin.
        A page of one source has the file 0."""
        self.files = [fact.split(" ", 2)[2] for fact in facts if fact.startswith("file ")]
        self.row_at, self.begun, self.lines, self.code = {}, {}, {}, set()
        for fact in facts:
            word, *words = fact.split(" ")
            if word not in ("line", "part"):
                continue
            number, address, _, file, *data = words + ["0"] * (len(words) < 4)
            line, at = (int(file), int(number)), int(address, 16)
            self.lines[at] = line[1]
            self.row_at.setdefault(at, line)
            if not data:
                self.code.add(line)
            if word == "line":
                self.begun.setdefault(at, line)

    def start_of(self, line):
        """Where a line of a file begins: of several places the one that is reached most."""
        begins = [at for at in sorted(self.begun) if self.begun[at] == line]
        return max(begins, key=lambda at: len(self.visits.get(at, [])))

    def line_on(self, at):
        """The next state at which another line begins, in no call that has not returned."""
        calls = []
        for k in range(at + 1, self.last + 1):
            calls += [self.stack[k - 1]] * self.opened[k - 1]
            calls = [stack for stack in calls if self.stack[k] < stack]
            line = self.begun.get(self.pcs[k])
            if line and not calls and line != self.row_at.get(self.pcs[at]):
                return k
        return self.last

    def line_back(self, at):
        """The last state before at which a line begins, in no call that has returned since."""
        for k in reversed(range(at)):
            is_left = any(self.left[j] and self.stack[k] < self.stack[j + 1] for j in range(k, at))
            if self.pcs[k] in self.begun and not is_left:
                return k
        return 0

    def after(self, happens):
        """The states after the steps in which something happens."""
        return [step + 1 for step, change in enumerate(self.changes) if happens(change)]

    def visit(self, address, at, is_next):
        """The next visit of an address, or the one before, round at the ends."""
        found = self.visits.get(address, [])
        if not found:
            return at
        if is_next:
            return next((k for k in found if k > at), found[0])
        return next((k for k in reversed(found) if k < at), found[-1])

    def over(self, at):
        """Where the subroutine or the interrupt of the next step has returned, or one step on."""
        if at == self.last:
            return at
        if at not in self.calls:
            return at + 1
        deep = self.stack[at + 1]
        return next((k for k in range(at + 1, self.last + 1) if self.stack[k] > deep), self.last)

    def back_over(self, at):
        """The call of the outermost subroutine that the step before left, or one step back."""
        def was_left(call):
            deep = self.stack[call + 1]
            return deep < self.stack[at] and max(self.stack[call + 1:at]) <= deep
        left = (call for call in self.calls if call < at - 1 and was_left(call))
        return next(left, max(at - 1, 0))

    def set_before(self, at, register):
        """The state after the last step that changed a register before the one just done."""
        step = at - 1 - (at > 0 and self.changes[at - 1]["regs"][register] != 0)
        while step >= 0 and not self.changes[step]["regs"][register]:
            step -= 1
        return max(step + 1, 0)


def by_steps(browser, rng, at, run):
    by, is_on = rng.randrange(1, 9), rng.random() < .5
    for _ in range(by):
        browser.key(rng.choice(["ArrowRight", "n"] if is_on else ["ArrowLeft", "b"]))
    return min(at + by, run.last) if is_on else max(at - by, 0)


def by_typing(browser, rng, at, run):
    to = rng.randrange(run.last + 1)
    for key in ["g", *str(to), "Enter"]:
        browser.key(key)
    return to


def by_slider(browser, rng, at, run):
    to = rng.randrange(run.last + 1)
    browser.js(f"(e => {{ e.value = {to}; e.dispatchEvent(new Event('input')); }})"
               "(document.querySelector('#slider'))")
    return to


def by_address(browser, rng, at, run):
    """The address of the page ends with a step."""
    to = rng.randrange(run.last + 1)
    browser.js("new Promise(f => { addEventListener('hashchange', () => setTimeout(f), {once: true});"
               f" if (location.hash == '#{to}') history.replaceState(null, '', '#');"
               f" location.hash = '#{to}'; }})")
    return to


def to_an_end(browser, rng, at, run):
    key = rng.choice(["Home", "End"])
    browser.key(key)
    return 0 if key == "Home" else run.last


def to_set(browser, rng, at, run):
    register = rng.randrange(4)
    browser.key("axys"[register])
    return run.set_before(at, register)


def to_jump(browser, rng, at, run):
    browser.key("P")
    return max((k for k in run.jumps if k < at), default=0)


def in_time(browser, rng, at, run):
    """A click in the picture of time; where it leads only the page knows."""
    browser.click("document.querySelector('#roll')", dx=rng.uniform(.2, .95), dy=.3)
    return browser.js("viewer.step")


def on_line(browser, rng, at, run):
    """A click on a line of the source: its next visit, with Shift the one before; then maybe a key
    or a button for one more."""
    address = run.pcs[rng.randrange(run.last + 1)]
    if address not in run.row_at:
        return at
    file, number = run.row_at[address]
    row = f"[...document.querySelectorAll('#lines tr')].find(e => e.cells[0].textContent == '{number}')"
    if run.files:
        address = run.start_of((file, number))
        browser.js(f"(e => {{ e.value = {file}; e.dispatchEvent(new Event('change')); }})"
                   "(document.querySelector('#sources'))")
    is_next, more = rng.random() < .5, rng.choice(["", "v", "V", "▸", "◂"])
    browser.js(f"document.querySelector('#views [value=source]').click();"
               f"{row}.cells[0].scrollIntoView({{block: 'center'}})")
    browser.click(f"{row}.cells[0]", shift=not is_next)
    at = run.visit(address, at, is_next)
    if more in ("v", "V"):
        browser.key(more)
    elif more:
        browser.js(f"document.querySelector('#visit [data-v=\"{'1' if more == '▸' else '-1'}\"]')"
                   ".click()")
    run.chosen = address
    return run.visit(address, at, more in ("v", "▸")) if more else at


def to_visit(browser, rng, at, run):
    """The next visit, or the one before, of the line that was clicked last, or of the one at the
    program counter."""
    key = rng.choice("vV")
    browser.key(key)
    here = run.pcs[at]
    if run.files and here in run.row_at and browser.js("viewer.view == 'source'"):
        here = run.start_of(run.row_at[here])
    return run.visit(here if run.chosen is None else run.chosen, at, key == "v")


def by_lines(browser, rng, at, run):
    """Steps by lines, with buttons below the lines or, where there are no lines, none."""
    if not run.row_at:
        return at
    is_on = rng.random() < .5
    button = f"document.querySelector('#visit [data-l=\"{'1' if is_on else '-1'}\"]')"
    for _ in range(rng.randrange(1, 4)):
        browser.js(f"{button}.click()")
        at = run.line_on(at) if is_on else run.line_back(at)
    return at


def over(browser, rng, at, run):
    if run.calls and rng.random() < .6:       # mostly from a call
        at = rng.choice(run.calls)
        browser.js(f"viewer.go({at})")
    browser.key("PageDown")
    return run.over(at)


def back_over(browser, rng, at, run):
    if run.risen and rng.random() < .6:       # mostly from where S has just risen
        at = rng.choice(run.risen)
        browser.js(f"viewer.go({at})")
    browser.key("PageUp")
    return run.back_over(at)


def to_write(browser, rng, at, run):
    """Clicks on a byte: the first chooses it, each other goes to the write before."""
    page = browser.js("viewer.page")
    written = sorted(a for a in run.writes if a >> 8 == page)
    if not written:
        return at
    address = rng.choice(written)
    browser.js("document.activeElement.blur(), viewer.choose(-1)")
    for click in range(3):
        browser.click(f"document.querySelectorAll('#grid td')[{address & 255}]")
        before = [k for k in run.writes[address] if k < at]
        at = before[-1] if before and click else at
    browser.js("document.activeElement.blur()")
    return at


def near(found, at, is_next):
    """The next of some states, or the one before; where there is none, this one."""
    there = [k for k in found if (k > at if is_next else k < at)]
    return at if not there else there[0] if is_next else there[-1]


def to_output(browser, rng, at, run):
    key = rng.choice("cC")
    browser.key(key)
    return near(run.outs, at, key == "c")


def to_input(browser, rng, at, run):
    key = rng.choice("kK")
    browser.key(key)
    return near(run.taken, at, key == "k")


def to_interrupt(browser, rng, at, run):
    key = rng.choice("iI")
    browser.key(key)
    return near(run.entries, at, key == "i")


def there_and_back(browser, rng, at, run):
    """A jump, and Backspace, which leads back."""
    way = rng.choice([by_typing, to_an_end])
    if way(browser, rng, at, run) != at:
        browser.key("Backspace")
    return at


def to_other_view(browser, rng, at, run):
    """Another list of the program, or another page of memory: the moment stays."""
    browser.js("(e => e[Math.floor(%f * e.length)].click())(document.querySelectorAll('%s'))"
               % (rng.random(), rng.choice(["#views button", "#pages button:not([value=map])"
                                            ":not([value=screen]):not([value=text])"])))
    return at


MOVES = [by_steps, by_steps, by_lines, by_typing, by_slider, by_address, to_an_end, to_set, to_jump, in_time, on_line,
         to_visit, over, back_over, to_write, to_output, to_input, to_interrupt, there_and_back, to_other_view]


def move(browser, rng, at, run):
    """Makes a random move, and returns its name and where it has to lead."""
    way = rng.choice(MOVES)
    return way.__name__, way(browser, rng, at, run)
