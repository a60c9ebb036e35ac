"use strict";
// The panels of a run, in the elements of viewer/panels.html and of a header with `name`, `moves`,
// `clock` (in it `step`, `steps`, `cycles`) and `looks`. One document has one viewer.
//
//   openViewer({info, run}, hooks)  shows a run, and returns what follows
//   show({info, run, step})   another run, at a step, or at 0. What the reader chose (byte, line,
//                             page of memory, list) stays where `info` is the same object
//   changed(k)                the run has more or fewer steps; goes to step k, or stays
//   go(k, isJump)             goes to a step; Backspace leads back over a jump
//   choose(address)           chooses a byte, or with -1 none
//   mark(addresses)           marks the lines at some addresses, as breakpoints
//   addKey(key, words, act)   a key that goes before those of the viewer
//   draw()                    draws again, after elements were shown or hidden
//   showView(name), showPage(which)   another list: source, code or labels; another page of memory:
//                             its number, "map" or "screen"
//   step, run, info, memory, chosen, page, view, sight   what is shown; memory is that at the step
//
// `info` is what readFacts returns; without `ops` there are no instructions. The hooks, each of
// which may be left out:
//   moved(k)                  step k is shown
//   drawn()                   something is shown
//   lineClicked(address, number, event)   a row of the program was clicked: its address or -1,
//                             its line or 0; true says that nothing more is to happen
//   atEnd(how)                is asked to go on from the last step: how is "step" or "over".
//                             Where this hook is, the run can go on, unless `info.why` says why
//                             it ended
const {openViewer, draw, drawAnew, choose} = (() => {

const NOTHING = {
  title: "", labels: [], names: [], lines: [], files: [], loaded: [], notes: [], port: 65536,
  ops: "....".repeat(256),
};

let telling = 0;

function draw() {
  const {run, cur} = now, step = `step ${cur} of ${run.n}, ${placeOf(run.PC[cur])}`;
  $("slider").value = cur;
  $("slider").setAttribute("aria-valuetext", step);
  if (document.activeElement != $("step")) $("step").value = cur;
  $("cycles").textContent = `${grouped(run.C[cur])} cycles`;
  drawButtons();
  drawNote();
  drawTime();
  drawProgram();
  drawMachine();
  drawConsole();
  drawInput();
  drawNames();
  drawMemory();
  clearTimeout(telling);
  telling = setTimeout(tell, 500);
  now.hooks.drawn?.();
}

function drawButtons() {
  const buttons = $("moves").children, {run, cur} = now, isLast = cur == run.n;
  const isOver = isLast && !now.hooks.atEnd;
  [!cur, !cur, !cur, false, isOver, isOver, isLast].forEach((is, k) => buttons[k].disabled = is);
  buttons[3].setAttribute("aria-pressed", !!playing.frame);
}

// For who does not see the page: what a step did, without its first word.
function tell() {
  const words = id => $(id).innerText.replace(/^(did|next)/, "").replace(/\s+/g, " ").trim();
  if (playing.frame) return;
  const noted = notesAt(now.cur).map(text => `Note: ${text}. `).join("");
  $("say").textContent = `Step ${now.cur}. ${noted}${words("did")}. Next: ${words("next")}.`;
}

function drawAnew() {
  time.still = null;
  draw();
}

// What is read off the whole run.
function readRun() {
  const before = now.labels.length;
  if (!now.info.labels.length) readLabels();
  if (now.labels.length != before || !isDrawn()) time.still = null;
  countLabels();
  readWritten();
  readNotes();
  readOutputAgain();
  makePageButtons();
  $("steps").textContent = " of " + grouped(now.run.n);
  $("slider").max = now.run.n;
  $("cycles").style.minWidth = grouped(now.run.C[now.run.n]).length + 7 + "ch";
  $("calls").style.flexBasis = Math.min(now.run.depth + 1, 4) * 1.45 + "rem";
}

function changed(to = now.cur) {
  const was = now.cur, isWhole = time.from == 0 && time.to >= time.n;
  const width = Math.min(Math.max(now.run.n, 1), time.to - time.from);
  now.cur = Math.max(0, Math.min(now.run.n, Math.round(to)));
  now.memory.set(now.run.memory);
  flipStores(now.run.first[now.cur], now.run.m);
  now.jumps = now.jumps.filter(k => k <= now.run.n);
  time.n = Math.max(now.run.n, 1);
  time.from = isWhole ? 0 : Math.max(0, Math.min(time.from, now.run.n - width));
  time.to = isWhole ? time.n : time.from + width;
  readRun();
  listAgain();
  draw();
  if (now.cur != was) now.hooks.moved?.(now.cur);
}

function show(shown) {
  const isSame = now.info == shown.info;
  now.info = Object.assign(shown.info, {...NOTHING, ...shown.info});
  now.run = shown.run;
  now.cur = Math.max(0, Math.min(now.run.n, shown.step || 0));
  now.memory.set(now.run.memory);
  flipStores(now.run.first[now.cur], now.run.m);
  now.jumps = [];
  cancelAnimationFrame(playing.frame);
  playing.frame = 0;
  const last = Math.max(now.run.n, 1);
  Object.assign(time, {from: 0, to: last, n: last, still: null});
  Object.assign(out, {count: -1, isSettled: isSame && out.isSettled});
  if (!isSame) written.kept.clear();
  readNames();
  readRun();
  if (!isSame) chooseAnew();
  $("name").textContent = $("name").title = now.info.title;
  makeViewButtons();
  makeFileChoice();
  list();
  if (!isSame) showFirstPage();
  else draw();
  now.hooks.moved?.(now.cur);
}

function showFirstPage() {
  showPage(bestPage());
  if (now.info.screen !== undefined) showPage("screen");
}

function chooseAnew() {
  now.line = now.byte = -1;
  program.found = null;
  program.view = now.info.source ? "source" : "code";
}

function makeViewButtons() {
  const views = [["Disassembly", "code"], ["Labels", "labels"]];
  if (now.info.source) views.unshift(["Source", "source"]);
  $("views").textContent = "";
  for (const [text, value] of views) addButton($("views"), text, value, showView);
}

function showView(value) {
  program.view = value;
  list();
  draw();
}

function choose(address) {
  now.byte = address;
  if (now.byte < 0) return draw();
  showPage(now.byte >> 8);
  revealByte();
}

function mark(marked) {
  now.stops = new Set(marked);
  draw();
}

function openViewer(shown, wanted = {}) {
  now.hooks = wanted;
  makeButtons();
  writeHelp();
  listen();
  show(shown);
  return {
    show, changed, go, choose, mark, addKey, draw, showView, showPage,
    get step() { return now.cur; },
    get run() { return now.run; },
    get info() { return now.info; },
    get memory() { return now.memory; },
    get chosen() { return now.byte; },
    get page() { return sight.page; },
    get view() { return program.view; },
    get sight() { return sight.kind; },
  };
}

return {openViewer, draw, drawAnew, choose};
})();
if (typeof module !== "undefined") module.exports = {openViewer, draw, drawAnew, choose};
