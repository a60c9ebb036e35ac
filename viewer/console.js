"use strict";
// The console: what the run has put out and will, and the input that waits.
const {out, readOutput, readOutputAgain, drawConsole, drawInput, clickConsole,
  pressInConsole} = (() => {

const out = {text: "", per: 1, shown: -1, isHex: false, isSettled: false};

const textOf = byte => isPrinted(byte) ? String.fromCharCode(byte) : "·";

// All that the run puts out, as text or as hex: `per` characters for a byte.
function readOutput(isHex) {
  const asText = byte => byte == 10 ? "\n" : textOf(byte);
  out.isHex = isHex;
  out.per = isHex ? 3 : 1;
  out.shown = -1;
  out.text = now.run.out.map(byte => isHex ? hex(byte) + " " : asText(byte)).join("");
  out.count = now.run.out.length;
  out.cuts = now.run.cuts;
  $("form").textContent = isHex ? "as text" : "as hex";
  $("form").hidden = !now.run.out.length;
}

// Hex if more than a tenth of the bytes is no text, until the reader has said.
function readOutputAgain() {
  if (out.count == now.run.out.length && out.cuts == now.run.cuts) return;
  const odd = count(now.run.out, byte => byte != 10 && !isPrinted(byte));
  readOutput(out.isSettled ? out.isHex : odd > now.run.out.length / 10);
}

function drawConsole() {
  const at = now.run.countBelow(now.run.outAt, now.cur) * out.per;
  if (at != out.shown) {
    out.shown = at;
    $("past").textContent = out.text.slice(0, at);
    $("later").textContent = out.text.slice(at);
  }
  const box = $("out"), top = $("cursor").offsetTop - box.offsetTop, height = box.clientHeight;
  if (top >= box.scrollTop && top <= box.scrollTop + height - 20) return;
  const lineHeight = parseFloat(getComputedStyle(box).lineHeight);
  box.scrollTop = Math.floor((top - height / 2) / lineHeight) * lineHeight;
}

const SIGNALS = [[4, "input interrupts"], [8, "IRQ asked"], [16, "NMI pending"]];

// What was taken of the input last, and what waits, in the console and below the screen; and what
// asks for an interrupt.
function drawInput() {
  const {run, cur} = now, taken = run.countBelow(run.takenAt, cur);
  const given = run.countBelow(run.givenAt, cur + 1);
  const one = byte => byte == 10 ? "⏎" : textOf(byte);
  const text = (from, to) => escaped(run.given.slice(from, to).map(one).join(""));
  const mark = '<i style="border-left:.16rem solid var(--nowink)"></i>';
  const html = `input ${text(Math.max(0, taken - 12), taken)}${mark}<b>${text(taken, given)}</b>`;
  const asked = SIGNALS.filter(([bit]) => run.lines[cur] & bit).map(([, words]) => words);
  const signals = `<span class="I">${asked.join(", ")}</span> `;
  const told = (asked.length ? signals : "") + (run.given.length ? html : "");
  put("in", told);
  put("taken", told);
}

// A click in the console: the step that put the byte out.
function clickConsole(event) {
  const {clientX: x, clientY: y} = event, place = document.caretPositionFromPoint?.(x, y);
  const range = place ? null : document.caretRangeFromPoint?.(x, y);
  const node = place ? place.offsetNode : range?.startContainer;
  const offset = place ? place.offset : range?.startOffset;
  let k = -1;
  if (node && node == $("past").firstChild) k = offset;
  else if (node && node == $("later").firstChild) k = out.shown + offset;
  const step = now.run.outAt[Math.floor(k / out.per)];
  if (k >= 0 && step !== undefined) jump(step + 1);
}

// Left and Right go from byte to byte of what was put out.
function pressInConsole(event) {
  const by = {ArrowLeft: -1, ArrowRight: 1}[event.key];
  if (!by) return;
  event.preventDefault();
  event.stopPropagation();
  toNear(now.run.outAt, by);
}

return {out, readOutput, readOutputAgain, drawConsole, drawInput, clickConsole, pressInConsole};
})();
if (typeof module !== "undefined") {
  module.exports = {out, readOutput, readOutputAgain, drawConsole, drawInput, clickConsole,
    pressInConsole};
}
