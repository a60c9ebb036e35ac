"use strict";
// What is shown now: a run, a step of it, and what the reader chose; and what all panels need to
// write texts into the document.
const {now, $, hex, address4, grouped, escaped,
  isPrinted, glyph, count, addresses, put, addButton, setPressed, isBefore, flipStores} = (() => {

const now = {
  info: null,                       // what the facts of a page say
  run: null,
  hooks: {},                        // what openViewer was handed
  cur: 0,                           // the step that is shown
  memory: new Uint8Array(65536),    // and memory there
  line: -1, byte: -1,               // the addresses of the chosen line and byte
  jumps: [],                        // the steps from which jumps went
  stops: new Set(),                 // the addresses that are marked
  labels: [], labelAt: null,        // [name, address], by address; which label an address follows
  named: null, lineAt: null,        // names by address; the line of each address, or -1
};

// ---- texts and markup

const $ = id => document.getElementById(id);
const hex = (number, digits = 2) => number.toString(16).toUpperCase().padStart(digits, "0");
const address4 = address => "$" + hex(address, 4);
const grouped = new Intl.NumberFormat("en").format;
const entities = {"&": "&amp;", "<": "&lt;", ">": "&gt;"};
const escaped = text => text.replace(/[&<>]/g, c => entities[c]);
const isPrinted = byte => byte > 31 && byte < 127;
const glyph = byte => byte > 32 && byte < 127 ? `'${String.fromCharCode(byte)}'` : "";
const count = (list, is) => list.reduce((sum, item) => sum + (is(item) ? 1 : 0), 0);
const addresses = Array.from({length: 65536}, (_, address) => address);

// Puts markup into an element, unless it is there already. What had the focus in it has it again.
const markup = {};
function put(id, html) {
  if (markup[id] === html) return;
  const box = $(id), reached = () => [...box.querySelectorAll("button,[tabindex]")];
  const k = box.contains(document.activeElement) ? reached().indexOf(document.activeElement) : -1;
  box.innerHTML = markup[id] = html;
  if (k >= 0) reached()[k]?.focus();
}

function addButton(box, text, value, act) {
  const button = document.createElement("button");
  button.textContent = text;
  button.value = value;
  button.onclick = () => act(value);
  box.append(button);
  return button;
}

function setPressed(box, value) {
  for (const button of box.querySelectorAll("button")) {
    button.setAttribute("aria-pressed", button.value == String(value));
  }
}

// ---- where the run stands

// whether there is an instruction to come
const isBefore = () => now.cur < now.run.n || now.hooks.atEnd && !now.info.why;
const flipStores = (from, to) => {
  for (let i = from; i < to; i++) now.memory[now.run.where[i]] ^= now.run.xor[i];
};

return {now, $, hex, address4, grouped, escaped, isPrinted,
  glyph, count, addresses, put, addButton, setPressed, isBefore, flipStores};
})();
if (typeof module !== "undefined") {
  module.exports = {now, $, hex, address4, grouped, escaped,
    isPrinted, glyph, count, addresses, put, addButton, setPressed, isBefore, flipStores};
}
