"use strict";
// The editor: a text with line numbers, marks where faults are, and breakpoints.
const {Editor, readFaults, columnOf} = (() => {

const TAB = 8;

// What the text of all faults or warnings says, as `mos65 check` prints it: a row
// NAME:LINE:COLUMN: words, the line, and a mark under the bytes meant. NAME has no colon.
function readFaults(text) {
  const faults = [], rows = text.split("\n");
  for (let at = 0; at < rows.length; at++) {
    const found = /^[^:]*:(\d+):(\d+): (.*)$/.exec(rows[at]);
    if (!found) continue;
    const mark = /\^~*/.exec(/^[ \t]*\^~*$/.test(rows[at + 2] || "") ? rows[at + 2] : "");
    const [line, column] = [+found[1], +found[2]];
    const words = found[3], isWarning = words.startsWith("warning: ");
    faults.push({line, column, length: mark ? mark[0].length : 1, words, isWarning});
    if (mark) at += 2;
  }
  return faults;
}

// Where a byte of a line stands on the screen, in characters: the byte's number counts from 1.
function columnOf(line, byte) {
  let at = 0, bytes = 1;
  for (const c of line) {
    if (bytes >= byte) break;
    bytes += new TextEncoder().encode(c).length;
    at = c == "\t" ? at - at % TAB + TAB : at + 1;
  }
  return at;
}

class Editor {
  // elements: text, numbers, marks, list. hooks: changed(), replaced(), numberClicked(line)
  constructor(elements, hooks) {
    Object.assign(this, elements);
    this.hooks = hooks;
    this.faults = [];
    this.breaks = [];
    this.count = 0;
    this.text.addEventListener("input", () => this.changed());
    this.text.addEventListener("keydown", event => this.pressed(event));
    this.text.addEventListener("scroll", () => this.scrolled());
    this.numbers.addEventListener("click", event => this.clicked(event));
    this.list.addEventListener("click", event => {
      const line = event.target.closest("button")?.dataset.line;
      if (line) this.goTo(+line, +event.target.closest("button").dataset.column);
    });
  }

  get value() {
    return this.text.value;
  }

  set value(text) {
    this.text.value = text;
    this.text.scrollTop = this.text.scrollLeft = 0;
    this.text.setSelectionRange(0, 0);
    this.numberLines();
    this.hooks.replaced();
    this.show([], []);
  }

  changed() {
    this.numberLines();
    this.hooks.changed();
  }

  // Tab puts blanks to the next column of 8, unless Escape came before it. Enter begins the next
  // line where this one begins.
  pressed(event) {
    const {key, shiftKey, ctrlKey, metaKey, altKey, isComposing} = event;
    const isPlain = !(shiftKey || ctrlKey || metaKey || altKey || isComposing);
    const leaves = this.isLeaving;
    this.isLeaving = key == "Escape";
    if (!isPlain || leaves || key != "Tab" && key != "Enter") return;
    const before = this.lineBefore();
    const column = columnOf(before, Infinity);
    event.preventDefault();
    if (key == "Tab") this.type(" ".repeat(TAB - column % TAB));
    else this.type("\n" + /^[ \t]*/.exec(before)[0]);
  }

  // What stands before the cursor in its line.
  lineBefore() {
    const {selectionStart} = this.text;
    return this.value.slice(this.value.lastIndexOf("\n", selectionStart - 1) + 1, selectionStart);
  }

  // Puts in a text as if it was typed, so that it can be undone, where the browser can do that.
  type(text) {
    if (document.execCommand("insertText", false, text)) return;
    const {selectionStart, selectionEnd} = this.text;
    this.text.setRangeText(text, selectionStart, selectionEnd, "end");
    this.changed();
  }

  numberLines() {
    let count = 1;
    const {value} = this.text;
    for (let at = value.indexOf("\n"); at >= 0; at = value.indexOf("\n", at + 1)) count++;
    if (count == this.count) return;
    this.count = count;
    this.numbers.firstElementChild.textContent =
      Array.from({length: count}, (_, k) => k + 1).join("\n") + "\n\n";
  }

  scrolled() {
    this.numbers.scrollTop = this.text.scrollTop;
    const {scrollLeft, scrollTop} = this.text;
    this.marks.firstElementChild.style.transform = `translate(${-scrollLeft}px,${-scrollTop}px)`;
  }

  lineHeight() {
    return parseFloat(getComputedStyle(this.text).lineHeight);
  }

  clicked(event) {
    const from = this.numbers.getBoundingClientRect();
    const y = event.clientY - from.top + this.numbers.scrollTop;
    const line = Math.floor(y / this.lineHeight());
    if (line >= 0 && line < this.count) this.hooks.numberClicked(line + 1);
  }

  // The number of the line in which the text cursor stands.
  lineHere() {
    return this.value.slice(0, this.text.selectionStart).split("\n").length;
  }

  // Puts the cursor at a byte of a line, and shows it.
  goTo(line, column = 1) {
    const lines = this.value.split("\n");
    let at = 0;
    for (let k = 0; k < line - 1 && k < lines.length; k++) at += lines[k].length + 1;
    const text = lines[line - 1] || "";
    at += Math.min(text.length, Math.max(0, column - 1));
    this.text.focus();
    this.text.setSelectionRange(at, at);
    const top = (line - 1) * this.lineHeight(), height = this.text.clientHeight;
    if (top < this.text.scrollTop || top > this.text.scrollTop + height - 40) {
      this.text.scrollTop = Math.max(0, top - height * .4);
    }
  }

  // Shows faults or warnings, as `readFaults` gives them, and the lines with breakpoints.
  show(faults, breaks = this.breaks) {
    this.faults = faults;
    this.breaks = breaks;
    const lines = faults.length ? this.value.split("\n") : [];
    const sort = it => it.isWarning ? "warn" : "bad";
    const waves = faults.map(it => this.box(sort(it), it.line,
      columnOf(lines[it.line - 1] || "", it.column), it.length));
    this.marks.firstElementChild.replaceChildren(...waves);
    this.numbers.lastElementChild.replaceChildren(...faults.map(it => this.box(sort(it), it.line)),
      ...breaks.map(line => this.box("break", line)));
    this.list.replaceChildren(...faults.map(it => this.row(it)));
    this.list.hidden = !faults.length;
    this.text.setAttribute("aria-invalid", String(faults.some(it => !it.isWarning)));
    this.scrolled();
  }

  box(kind, line, at = 0, length = 1) {
    const box = document.createElement("i");
    box.className = kind;
    box.style.cssText = `--line:${line - 1};--at:${at};--long:${length}`;
    return box;
  }

  row({line, column, words, isWarning}) {
    const item = document.createElement("li"), button = document.createElement("button");
    const number = document.createElement("b");
    number.textContent = line ? `Line ${line} ` : "";
    item.className = isWarning ? "warn" : "";
    button.append(number, words);
    button.dataset.line = line || 1;
    button.dataset.column = column;
    item.append(button);
    return item;
  }
}

return {Editor, readFaults, columnOf};
})();
if (typeof module !== "undefined") module.exports = {Editor, readFaults, columnOf};
