"use strict";
// The program: its source, what was run of it, or its labels, in a list of rows.
const {program, list, listAgain, drawProgram, makeFileChoice, showFile, clickLine, pressInLines,
  pressAsClick, reveal} = (() => {

// A row has the text of its number, its address or -1, the markup of its text, and its element; one
// of a file has its line besides. `file` is the one that is listed, and `step` is that at which it
// was chosen.
const program = {view: "source", rows: [], file: 0, step: -1};

const isCode = text => /^(?:[\w.]+:)?\s*[A-Za-z]{3}\b/.test(text);

// Where the comment of a line of source begins.
function commentAt(text) {
  let quote = "", k = 0;
  for (; k < text.length && (quote || text[k] != ";"); k++) {
    const c = text[k];
    if (quote) quote = c == quote ? "" : quote;
    else if (c == '"' || c == "'" && text[k + 2] == "'") quote = c;
  }
  return k;
}

function paintedLine(text) {
  const at = commentAt(text), comment = escaped(text.slice(at));
  const before = escaped(text.slice(0, at));
  const label = before.replace(/^[A-Za-z_][\w.]*(?=:| *=)/, '<span class="l">$&</span>');
  return label + (comment ? `<span class="c">${comment}</span>` : "");
}

// A line is a row that can be marked if it has an instruction, or if the run ends on it.
function sourceRows() {
  return now.info.files.length ? fileRows() : ownRows();
}

function ownRows() {
  const starts = new Map(now.info.lines), end = now.run.PC[now.run.n];
  return now.info.source.map((text, k) => {
    const start = starts.has(k) ? starts.get(k) : -1;
    const isRow = start >= 0 && (isCode(text) || now.run.visits.count(start) > 0);
    const isEnd = !isRow && now.lineAt[end] == k;
    return {number: k + 1, at: isRow ? start : isEnd ? end : -1, start, isEnd, text};
  });
}

// A line of a file has one row, also where its bytes stand in several places.
function fileRows() {
  const end = now.run.PC[now.run.n];
  return linesOf(program.file).map(line => {
    const start = startOf(line), isEnd = now.lineAt[end] == line;
    const isRow = start >= 0 && (hasCode(line) || now.run.visits.count(start) > 0);
    const at = isRow ? start : isEnd ? end : -1, text = textAt(line) ?? "";
    const html = /\.[ch]$/i.test(now.info.files[program.file].name) ? escaped(text) : undefined;
    return {number: line % WIDE + 1, line, at, start, isEnd: isEnd && !isRow, text, html};
  });
}

// The files that have lines with bytes, to choose from.
function makeFileChoice() {
  const box = $("sources"), files = new Set(now.info.lines.map(it => fileOf(it[0])));
  box.textContent = "";
  box.hidden = !now.info.files.length;
  if (box.hidden) return;
  [...files].sort((a, b) => a - b).forEach(file => {
    const option = document.createElement("option");
    option.value = file;
    option.textContent = now.info.files[file].name;
    box.append(option);
  });
  const line = now.lineAt[now.run.PC[now.cur]];
  program.file = line < 0 ? Math.min(...files, Infinity) : fileOf(line);
  if (program.file == Infinity) program.file = 0;
  box.value = program.file;
}

function showFile(file) {
  program.file = file;
  program.step = now.cur;
  $("sources").value = file;
  list();
  draw();
}

// The file of the line that comes next is listed, until another one is chosen.
function followFile() {
  const line = now.lineAt[now.run.PC[now.cur]];
  if (!now.info.files.length || line < 0 || program.step == now.cur) return;
  program.step = -1;
  if (fileOf(line) == program.file) return;
  program.file = $("sources").value = fileOf(line);
  if (program.view == "source") list();
}

function labelRows() {
  const whole = wholeCosts();
  const made = now.labels.map(([name, at], j) => {
    const part = (costs.of[j] / costs.total * 100).toFixed(1);
    const share = `${grouped(costs.of[j])} cycles, ${part} %`;
    const with_ = whole.has(at) ? `; ${grouped(whole.get(at))} with what it calls` : "";
    const html = `<span class="l">${escaped(name)}</span><span class="c">  ${share}${with_}</span>`;
    return {number: address4(at), at, start: at, label: j, html};
  });
  return made.sort((one, other) => costs.of[other.label] - costs.of[one.label]);
}

function codeRows() {
  const made = [], end = {at: -1};
  const isShown = at => now.run.visits.count(at) || at == now.run.PC[now.run.n];
  for (let at = 0; at < 65536; at++) {
    if (!isShown(at)) continue;
    const label = now.labels[now.labelAt[at]];
    if (label && label[1] == at) {
      made.push({number: "", at: -1, html: `<span class="l">${escaped(label[0])}:</span>`});
    } else if (end.at >= 0 && at > end.at) {
      made.push({number: "", at: -1, html: '<span class="c">…</span>'});
    }
    const isEnd = !now.run.visits.count(at);
    made.push({number: address4(at), at, start: at, isEnd, isLive: true, html: ""});
    end.at = at + disassembled(at)[1];
  }
  return made;
}

// What the first and the last column are called.
const HEADS = {
  source: ["Line", "Source"], code: ["At", "Bytes and instruction"], labels: ["At", "Label"],
};
const MAKERS = {source: sourceRows, code: codeRows, labels: labelRows};

// Makes the list anew.
function list() {
  program.rows = MAKERS[program.view]();
  $("lines").innerHTML = program.rows.map((row, k) => {
    const text = row.html === undefined ? paintedLine(row.text) : row.html;
    return `<tr data-k="${k}"><td class="n">${row.number}</td><td class="v"></td>` +
      `<td class="b"></td><td class="t">${text}</td></tr>`;
  }).join("");
  [...$("lines").children].forEach((element, k) => program.rows[k].element = element);
  setPressed($("views"), program.view);
  const heads = HEADS[program.view];
  ["number", "told"].forEach((part, k) => $("head" + part).textContent = heads[k]);
  drawShares();
}

// After the run has changed: anew only if other rows are to be shown.
function listAgain() {
  const made = MAKERS[program.view]();
  const isSame = (row, k) => {
    const shown = program.rows[k];
    return row.at == shown.at && row.isEnd == shown.isEnd &&
      (shown.isLive || row.html == shown.html);
  };
  if (made.length == program.rows.length && made.every(isSame)) drawShares();
  else list();
}

const cyclesOf = row => row.label >= 0 ? costs.of[row.label]
  : row.line >= 0 ? lineCycles().get(row.line) || 0 : now.run.cyclesAt[row.at];

// What a row says of the whole run: how often it was reached, and its share of the cycles.
function drawShares() {
  const reachable = program.rows.filter(row => row.at >= 0);
  const most = reachable.reduce((sum, row) => Math.max(sum, cyclesOf(row)), 1);
  for (const row of reachable) {
    const visits = now.run.visits.count(row.at), cycles = cyclesOf(row);
    const [, seen, bar] = row.element.cells;
    const width = (cycles / most * 100).toFixed(1);
    if (row.visits === visits && row.width === width && row.cycles === cycles) continue;
    Object.assign(row, {visits, width, cycles, seen: -1});
    const told = `${grouped(visits)} visits, ${grouped(cycles)} cycles`;
    const click = "; click: the next visit";
    row.element.title = visits ? told + click : row.isEnd ? "" : "never reached";
    if (!visits) seen.textContent = "–";
    bar.innerHTML = cycles ? `<i style="width:${width}%"></i>` : "";
  }
  const lines = reachable.filter(row => !row.isEnd);
  const reached = `${count(lines, row => row.visits > 0)} of ${lines.length} lines reached`;
  const isUntold = now.info.files.length && !now.info.files[program.file].count;
  const told = reached + (isUntold ? "; its text is missing, or has changed" : "");
  $("reached").textContent = program.view == "source" ? told : "";
}

// What a row is called for those who do not see it.
function nameRow(row) {
  const {visits, seen, marks, element} = row, place = lineOrAddress(row.start);
  const reached = visits ? `, visited ${seen} of ${visits}` : ", never reached";
  const comes = !/ now/.test(marks) ? "" : isBefore() ? ", comes next" : ", the run ends here";
  const was = / was/.test(marks) ? ", just done" : "";
  const stop = / stop/.test(marks) ? ", breakpoint" : "";
  const told = row.text ?? element.cells[3].textContent;
  const label = `${place}${comes}${was}${stop}${reached}: ${told.trim()}`;
  if (row.named !== label) element.ariaLabel = row.named = label;
}

function drawProgram() {
  followFile();
  const {run, cur} = now, pc = run.PC[cur];
  const isInstruction = cur && !(run.head[cur - 1] & NO_INSTRUCTION);
  const was = isInstruction ? run.PC[cur - 1] : -1;
  for (const row of program.rows) {
    if (row.at < 0) {
      if (now.stops.size || row.marks) setMarks(row, "");
      continue;
    }
    drawVisits(row);
    if (row.isLive) drawInstruction(row);
    const isNow = row.label >= 0 ? row.label == now.labelAt[pc] : isOn(row, pc);
    const isWas = isOn(row, was) && !isNow, isChosen = row.at == now.line;
    const isLast = isNow && !isBefore();
    setMarks(row, (row.visits ? "a" : "no") + (isNow ? " now" : "") + (isWas ? " was" : "") +
      (isChosen ? " sel" : "") + (isLast ? " end" : ""));
    if (isLast) row.element.cells[3].dataset.why = now.info.why ? ": " + now.info.why : "";
    nameRow(row);
    if (isNow) {
      reveal(row.element);
      if (!$("rows").contains(document.activeElement)) reachRow(row);
    }
  }
  drawVisit();
}

const isOn = (row, at) => row.line >= 0 ? row.line == now.lineAt[at] : row.at == at;

function setMarks(row, wanted) {
  const marks = wanted + (now.stops.has(row.start) ? " stop" : "");
  if (row.marks === marks) return;
  row.marks = row.element.className = marks;
  if (marks.includes(" now")) row.element.setAttribute("aria-current", "step");
  else row.element.removeAttribute("aria-current");
}

function drawVisits(row) {
  const seen = row.visits ? now.run.visits.before(row.at, now.cur) : 0;
  const [, number, bar] = row.element.cells;
  if (!row.visits || row.seen === seen) return;
  row.seen = seen;
  number.textContent = seen || "·";
  bar.firstChild?.style.setProperty("--f", seen / row.visits * 100 + "%");
}

function drawInstruction(row) {
  const [text, length] = disassembled(row.at);
  const byteAt = k => k < length ? hex(now.memory[row.at + k & 65535]) : "  ";
  const bytes = [0, 1, 2].map(byteAt).join(" ");
  const html = `<span class="c">${bytes}</span>  ${escaped(text)}`;
  if (row.html !== html) row.element.cells[3].innerHTML = row.html = html;
}

// Below the list: the visits of the chosen line.
function drawVisit() {
  const {run, cur} = now, at = chosenLine(), isHere = run.PC[cur] == at && cur < run.n;
  const all = run.visits.count(at), seen = run.visits.before(at, cur) + (isHere ? 1 : 0);
  const visits = `${isHere ? "visit" : "visited"} ${grouped(seen)} of ${grouped(all)}`;
  const line = at == shownStart(at) && now.info.files.length ? now.lineAt[at] : -1;
  const own = line < 0 ? run.cyclesAt[at] : lineCycles().get(line) || 0;
  const told = `${escaped(lineOrAddress(at))}: ${visits}, ${grouped(own)} cycles in all`;
  const moves = [["v", "visit"], ["l", "line"]].slice(0, now.info.lines.length ? 2 : 1);
  const html = ([name, text]) => `<button data-${name}="-1">◂ ${text}</button>` +
    `<button data-${name}="1">${text} ▸</button>`;
  put("visit", `<span>${told}</span><span>${moves.map(html).join("")}</span>`);
}

function reveal(element) {
  const box = $("rows"), top = element.offsetTop, height = box.clientHeight;
  const isSeen = top >= box.scrollTop + 30 && top <= box.scrollTop + height - 60;
  if (!isSeen) box.scrollTop = top - height * .4;
}

function clickLine(event) {
  const row = program.rows[event.target.closest("tr")?.dataset.k];
  if (!row) return;
  const start = row.start >= 0 ? row.start : -1;
  const number = program.view == "source" ? row.number : start < 0 ? 0 : now.lineAt[start] + 1;
  if (now.hooks.lineClicked?.(start, number, event) || row.at < 0) return;
  now.line = row.at;
  toVisit(now.line, event.shiftKey ? -1 : 1);
}

// Up and Down go from line to line, and Enter is a click.
function pressInLines(event) {
  const by = {ArrowUp: -1, ArrowDown: 1}[event.key], at = program.rows.findIndex(isReached);
  if (!by) return pressAsClick(event);
  event.preventDefault();
  const k = event.target.closest("tr")?.dataset.k;
  let to = k === undefined ? Math.max(at, 0) : +k + by;
  while (program.rows[to] && program.rows[to].at < 0) to += by;
  if (program.rows[to]) focusRow(program.rows[to]);
}

// Tab reaches one row, that which comes next or that which had the focus last.
const isReached = row => row.element.tabIndex == 0;

function reachRow(row) {
  const last = program.rows.find(isReached);
  if (last == row) return;
  last?.element.removeAttribute("tabindex");
  row.element.tabIndex = 0;
}

function focusRow(row) {
  reachRow(row);
  row.element.focus();
}

function pressAsClick(event) {
  const isClick = event.key == "Enter" || event.key == " ";
  if (!isClick || !event.target.matches("tr,[role=button]")) return;
  event.preventDefault();
  event.stopPropagation();
  const {shiftKey} = event;
  event.target.dispatchEvent(new MouseEvent("click", {bubbles: true, shiftKey}));
}

return {program, list, listAgain, drawProgram, makeFileChoice, showFile, clickLine, pressInLines,
  pressAsClick, reveal};
})();
if (typeof module !== "undefined") {
  module.exports = {program, list, listAgain, drawProgram, makeFileChoice, showFile, clickLine,
    pressInLines, pressAsClick, reveal};
}
