"use strict";
// Notes at steps, as the maker of a page wrote them.
const {readNotes, noteSteps, notesAt, toNote, drawNote} = (() => {

// The texts at each state that has some, and these states in order.
let texts = new Map(), steps = [];

// A note behind the last step stands there.
function readNotes() {
  texts = new Map();
  for (const [step, text] of now.info.notes) {
    const k = Math.min(step, now.run.n);
    texts.set(k, [...notesAt(k), text.trim()]);
  }
  steps = [...texts.keys()].sort((a, b) => a - b);
}

const noteSteps = () => steps;
const notesAt = k => texts.get(k) || [];

function toNote(by) {
  const j = countBelow(steps, by > 0 ? now.cur + 1 : now.cur), to = steps[by > 0 ? j : j - 1];
  if (to !== undefined) jump(to);
}

function drawNote() {
  const here = notesAt(now.cur), j = countBelow(steps, now.cur);
  $("note").hidden = !steps.length;
  const place = here.length ? `Note ${j + 1} of ${steps.length}` : `${steps.length} notes`;
  const next = steps[j] === undefined ? "" : `the next at step ${grouped(steps[j])}`;
  const told = here.length ? here.map(escaped).join("<br>") : next;
  const buttons = '<button data-n="-1">◂ note</button><button data-n="1">note ▸</button>';
  put("note", `<b>${place}</b><span>${told}</span><div>${buttons}</div>`);
}

return {readNotes, noteSteps, notesAt, toNote, drawNote};
})();
if (typeof module !== "undefined") {
  module.exports = {readNotes, noteSteps, notesAt, toNote, drawNote};
}
