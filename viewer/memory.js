"use strict";
// Memory: a page of it as bytes, and who changed the chosen one; or all of it as a map, or a
// screen.
const {sight, showPage, makePageButtons, bestPage, drawMemory, revealByte, cellAt,
  pressInGrid} = (() => {

// What is shown: a page of bytes, the map, or the screen; that page, and whether as text.
const sight = {kind: "page", page: 0, isText: false};
let cells = [], styles = [], shownBytes = [], buttonPages = "";

function showPage(which) {
  sight.kind = typeof which == "number" ? "page" : which;
  $("grid").hidden = $("bytes").hidden = sight.kind != "page";
  $("mapbox").hidden = sight.kind != "map";
  $("pixelbox").hidden = sight.kind != "screen";
  $("cell").hidden = sight.kind == "map";
  if (sight.kind == "page") makeGrid(which);
  pressButtons();
  draw();
}

function pressButtons() {
  setPressed($("pages"), sight.kind == "page" ? sight.page : sight.kind);
  $("pages").querySelector("[value=text]").setAttribute("aria-pressed", sight.isText);
}

// Bytes as letters where they are some, or as hex again.
function turnText() {
  sight.isText = !sight.isText;
  if (sight.kind == "page") draw();
  else showPage(sight.page);
  pressButtons();
}

function makeGrid(which) {
  sight.page = which;
  const columns = addresses.slice(0, 16);
  const heads = columns.map(k => `<th scope="col">${hex(k, 1)}</th>`).join("");
  const lines = columns.map(k => {
    const head = `<th scope="row">${hex(sight.page * 256 + k * 16, 4)}</th>`;
    return `<tr>${head}${"<td></td>".repeat(16)}</tr>`;
  });
  $("grid").innerHTML = `<tr><th></th>${heads}</tr>${lines.join("")}`;
  cells = [...$("grid").querySelectorAll("td")];
  styles = [];
  shownBytes = [];
  cells.forEach((cell, k) => cell.tabIndex = k ? -1 : 0);
}

// The pages that were used most, without zero page, the stack and the port.
function busyPages() {
  const used = addresses.slice(0, 256).filter(number => now.run.usesOf[number]);
  const first = used.sort((a, b) => now.run.usesOf[b] - now.run.usesOf[a]).slice(0, 9);
  const isOther = number => number > 1 && number != now.info.port >> 8;
  return first.filter(isOther).sort((a, b) => a - b);
}

function makePageButtons() {
  const busy = busyPages(), box = $("pages");
  if (box.firstChild && buttonPages == String(busy)) return;
  buttonPages = String(busy);
  const fixed = [["Zero page", 0], ["Stack", 1]];
  const others = busy.map(number => [hex(number), number]);
  box.textContent = "";
  for (const [text, value] of [...fixed, ...others, ["Map", "map"], ["Screen", "screen"]]) {
    addButton(box, text, value, showPage);
  }
  addButton(box, "Text", "text", turnText).title = "Bytes as letters, or as hex";
  const field = document.createElement("input");
  Object.assign(field, {placeholder: "page", maxLength: 2, ariaLabel: "Page, two hex digits"});
  field.oninput = () => {
    if (/^[\da-f]{2}$/i.test(field.value)) showPage(parseInt(field.value, 16));
  };
  box.append(field);
  pressButtons();
}

// The page of memory in which the run writes most bytes; zero page if none has more than it.
function bestPage() {
  const writes = number => {
    const own = addresses.slice(number * 256, number * 256 + 256);
    return count(own, at => now.run.uses.count(at + STORE) > 0);
  };
  const isOther = number => number > 1 && number != now.info.port >> 8 && now.run.usesOf[number];
  const found = addresses.slice(0, 256).filter(isOther).map(number => [writes(number), number]);
  const best = found.sort((a, b) => b[0] - a[0])[0];
  return best && best[0] > writes(0) ? best[1] : 0;
}

const fresh = age => Math.max(.14, 1 - Math.log2(1 + age) / 12).toFixed(2);

function drawMemory() {
  ({page: drawGrid, map: drawMap, screen: drawPixels})[sight.kind]();
  drawCell();
}

// The bytes that the step just done has read or written.
function justUsed() {
  const used = new Map();
  const {run, cur} = now;
  for (let i = cur && run.first[cur - 1]; i < run.first[cur]; i++) {
    const at = run.where[i];
    used.set(at, run.isStore(i) ? "wr" : used.get(at) || "rd");
  }
  return used;
}

function drawGrid() {
  const {run, cur, memory} = now, pc = run.PC[cur], last = run.first[cur], used = justUsed();
  const end = isBefore() ? pc + disassembled(pc)[1] : pc;
  cells.forEach((cell, k) => {
    const at = sight.page * 256 + k, writes = run.uses.before(at + STORE, last);
    const sort = (writes || run.image[at] ? "" : "nv ") + (run.visits.before(at, cur) ? "x " : "") +
      (at >= pc && at < end ? "pc " : "") + (at == 256 + run.S[cur] ? "sp " : "") +
      (used.get(at) || "") + (at == now.byte ? " pick" : ""), byte = hex(memory[at]);
    const text = sight.isText ? letterOf(memory[at]) : byte;
    const isSame = cell.firstChild?.data === text && shownBytes[k] === byte;
    if (isSame && cell.className === sort) return drawFreshness(cell, k, writes);
    if (cell.firstChild?.data !== text) cell.textContent = text;
    shownBytes[k] = byte;
    cell.className = sort;
    cell.ariaLabel = cellTold(at, byte, sort);
    drawFreshness(cell, k, writes);
  });
}

// Where a page of memory is higher than its place, the chosen byte is to be seen.
function revealByte() {
  cells[now.byte - sight.page * 256]?.scrollIntoView({block: "nearest"});
}

const letterOf = byte => isPrinted(byte) ? String.fromCharCode(byte) : "·";

// What the marks of a cell say, for those who do not see it.
const MARKS = {
  nv: "never written", x: "code that ran", pc: "comes next", sp: "the stack pointer",
  rd: "just read", wr: "just written",
};

function cellTold(at, text, sort) {
  const name = now.named.get(at), marks = sort.split(" ").map(mark => MARKS[mark]);
  return [hex(at, 4), name, text, ...marks].filter(it => it).join(", ");
}

function drawFreshness(cell, k, writes) {
  const at = sight.page * 256 + k, reads = now.run.uses.before(at, now.run.first[now.cur]);
  const style = freshness("w", at + STORE, writes) + freshness("r", at, reads);
  if (styles[k] !== style) cell.style.cssText = styles[k] = style;
}

function freshness(name, place, uses) {
  if (!uses) return "";
  return `--${name}:${fresh(now.cur - 1 - now.run.step[now.run.uses.pick(place, uses - 1)])};`;
}

// Below memory: who changed the chosen byte.
function drawCell() {
  const {run, byte} = now;
  if (byte < 0) return put("cell", "Click a byte: who changed it? Click it again: go there.");
  const last = run.first[now.cur], writes = run.uses.before(byte + STORE, last);
  const reads = run.uses.before(byte, last), value = now.memory[byte];
  const place = `<b>${address4(byte)}</b> ${escaped(nameOf(byte))}`;
  const head = `<code>${place} = <b>${hex(value)}</b></code>`;
  const written = `written ${grouped(writes)} of ${grouped(run.uses.count(byte + STORE))}`;
  const read = `read ${grouped(reads)} of ${grouped(run.uses.count(byte))} times`;
  const buttons = [["◂ write", 1, -1], ["write ▸", 1, 1],
                   ["◂ read", 0, -1], ["read ▸", 0, 1]];
  const html = ([text, w, by]) => `<button data-w="${w}" data-by="${by}">${text}</button>`;
  put("cell", `${head} ${value} ${escaped(glyph(value))} · ${written}, ${read}` +
    `<br>${writerTold(writes)}<div>${buttons.map(html).join("")}${keepButton(byte)}</div>`);
}

function keepButton(byte) {
  const isKept = written.kept.has(byte);
  if (!isKept && isNamed(byte)) return "";
  return `<button data-keep="1">${isKept ? "out of" : "into"} the list</button>`;
}

function writerTold(writes) {
  const i = now.run.uses.pick(now.byte + STORE, writes - 1);
  if (i < 0) {
    const isImage = "Not written so far: the byte is the program's own";
    return now.run.image[now.byte] ? isImage : "Never written so far";
  }
  const k = now.run.step[i], at = now.run.PC[k], head = now.run.head[k];
  let text = disassembled(at)[0];
  if (head & NO_INSTRUCTION) text = head & BY_HAND ? "by hand" : "interrupt";
  const value = now.memory[now.byte], change = `${hex(value ^ now.run.xor[i])} → ${hex(value)}`;
  return `Last write: step ${grouped(k + 1)}, <code>${escaped(text)}</code>` +
    ` ${escaped(lineText(at)) || "at " + address4(at)}: <code>${change}</code>`;
}

// The address of a cell, or -1.
function cellAt(cell) {
  const k = cells.indexOf(cell);
  return k < 0 ? -1 : sight.page * 256 + k;
}

// Arrows go from byte to byte, and Enter is a click.
function pressInGrid(event) {
  const by = {ArrowLeft: -1, ArrowRight: 1, ArrowUp: -16, ArrowDown: 16}[event.key];
  const to = cells[cells.indexOf(event.target) + by];
  if (to) {
    to.focus();
    now.byte = cellAt(to);
    draw();
  } else if (event.key == "Enter") event.target.click();
  else return;
  event.preventDefault();
  event.stopPropagation();
}

return {sight, showPage, makePageButtons, bestPage, drawMemory, revealByte, cellAt, pressInGrid};
})();
if (typeof module !== "undefined") {
  module.exports = {sight, showPage, makePageButtons, bestPage, drawMemory, revealByte, cellAt,
    pressInGrid};
}
